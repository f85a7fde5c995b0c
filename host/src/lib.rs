//! A temperature loop in ordinary Rust, written from document 01 ("The exact rules and the build")
//! and the requests of document 02 that have landed: request 3 ("Mirrored ovens disagree by one"),
//! request 5 ("Sixteen gain sets"), request 6 ("Longer memory for retries"), request 7 ("Moving mean
//! ahead of the filter") and request 8 ("Refuse a wild reading").
//!
//! It is a second opinion: tests compare its answers, and the whole output of its two programs,
//! with those of the proved ones. So it says the papers as plainly as it can, sentence by sentence,
//! and prefers that to speed.
//!
//! | 01's heading | module |
//! |---|---|
//! | What is built (the program) | [`oven`], and [`journal`] over the same [`program`] rules |
//! | Units | [`settings`], [`law::round`] |
//! | What a loop remembers; The law | [`law`], [`memory`] |
//! | Numbered delivery | [`delivery`], [`refusal`] |
//! | Replay | [`replay`] |
//! | Settings text | [`text`], [`decimal`], [`example`] (settings C) |
//!
//! | 02's request | module |
//! |---|---|
//! | 3, halves away from zero | [`law::round`] |
//! | 3, the two mirrors | [`mirror`] |
//! | 5, the number of sets and the table | [`settings`] |
//! | 6, the last 32 kept commands and their state rules | [`memory`] |
//! | 6, late repeats, codes 1 and 2 | [`delivery`] |
//! | 6, replayed samples | [`replay`] |
//! | 7, the row of the mean | [`settings`] |
//! | 7, the window and the mean | [`law`] |
//! | 8, the row of the jump | [`settings`] |
//! | 8, the last kept raw temperature, code 19 | [`law`], [`refusal`] |
//! | 8, the sample before in a replay | [`replay`] |
//! | 5, 7 and 8, the six forms of the text | [`text`], [`form`] |
//!
//! [`rng`] and [`gen`] make the random and hostile inputs of the tests, which
//! `cargo test --offline --release` runs; a random test that fails tells its seed. [`by_hand`]
//! takes the amounts of a sample a second time, and counts those that lie on a half.

#![forbid(unsafe_code)]
#![warn(missing_docs)]

pub mod by_hand;
pub mod decimal;
pub mod delivery;
pub mod example;
pub mod form;
pub mod gen;
pub mod journal;
pub mod law;
pub mod memory;
pub mod mirror;
pub mod oven;
pub mod program;
pub mod refusal;
pub mod replay;
pub mod rng;
pub mod settings;
pub mod text;
