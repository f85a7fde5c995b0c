//! Counts the x86-64 instructions that a call executes, by the processor's trap flag and a handler that counts. The number
//! is the same on every x86-64 processor and under the emulator, for code that calls no function of the C library.
use std::arch::asm;
use std::sync::atomic::{AtomicU64, Ordering::Relaxed};

static STEPS: AtomicU64 = AtomicU64::new(0);

const SIGTRAP: i32 = 5;

extern "C" fn trap(_: i32) {
    STEPS.store(STEPS.load(Relaxed) + 1, Relaxed);
}

#[repr(C)]
struct Action {
    handler: extern "C" fn(i32),
    mask: [u64; 16],
    flags: i32,
    restorer: usize,
}

extern "C" {
    fn sigaction(signal: i32, new: *const Action, old: *mut Action) -> i32;
}

#[inline(never)]
fn steps<F: FnOnce()>(call: F) -> u64 {
    let before = STEPS.load(Relaxed);
    unsafe {
        asm!("pushfq", "or qword ptr [rsp], 0x100", "popfq");
    }
    call();
    unsafe {
        asm!("pushfq", "and qword ptr [rsp], -257", "popfq");
    }
    STEPS.load(Relaxed) - before
}

pub fn count<F: FnOnce()>(call: F) -> u64 {
    let action = Action { handler: trap, mask: [0; 16], flags: 0, restorer: 0 };
    unsafe {
        sigaction(SIGTRAP, &action, std::ptr::null_mut());
    }
    steps(call)
}
