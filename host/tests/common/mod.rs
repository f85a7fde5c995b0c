//! A proved program, built and run on files, for comparing every byte that it writes with the peer's.
//!
//! `scripts/program` builds it where it has to, and says how it is run on this machine.

use host::rng::Rng;
use std::path::{Path, PathBuf};
use std::process;
use std::sync::atomic::{AtomicUsize, Ordering};
use std::thread;

/// How a program is run, and a folder for its files.
pub struct Program {
    words: Vec<String>,
    folder: PathBuf,
}

impl Program {
    pub fn new(name: &str) -> Program {
        let root = Path::new(env!("CARGO_MANIFEST_DIR")).parent().expect("the project's root");
        let built = process::Command::new(root.join("scripts/program"))
            .args(["--words", name])
            .output()
            .expect("scripts/program runs");
        assert!(
            built.status.success(),
            "{name} is not built: {}",
            String::from_utf8_lossy(&built.stderr)
        );
        let words =
            String::from_utf8(built.stdout).expect("words").lines().map(String::from).collect();
        static PROGRAMS: AtomicUsize = AtomicUsize::new(0);
        let number = PROGRAMS.fetch_add(1, Ordering::Relaxed);
        let folder =
            std::env::temp_dir().join(format!("drispanoly-{}-{name}-{number}", process::id()));
        std::fs::create_dir_all(&folder).expect("a folder for the files");
        Program { words, folder }
    }

    fn command(&self) -> process::Command {
        let mut command = process::Command::new(&self.words[0]);
        command.args(&self.words[1..]);
        command
    }

    /// What the program writes to standard output for the bytes of its two files.
    pub fn run(&self, settings: &[u8], lines: &[u8]) -> Vec<u8> {
        static FILES: AtomicUsize = AtomicUsize::new(0);
        let number = FILES.fetch_add(1, Ordering::Relaxed);
        let paths = ["settings", "lines"].map(|kind| self.folder.join(format!("{kind}-{number}")));
        std::fs::write(&paths[0], settings).expect("the settings file");
        std::fs::write(&paths[1], lines).expect("the file of lines");
        let ran = self.command().args(&paths).output().expect("the program runs");
        assert!(ran.stderr.is_empty(), "it complains: {}", String::from_utf8_lossy(&ran.stderr));
        for path in &paths {
            std::fs::remove_file(path).expect("the file is there");
        }
        ran.stdout
    }

    /// A missing argument gets the usage, and a missing file its name and the reason, on standard error alone.
    pub fn tells_what_is_missing(&self) {
        let usage = self.command().output().expect("the program runs");
        let told = String::from_utf8_lossy(&usage.stderr).into_owned();
        assert!(
            usage.stdout.is_empty() && told.contains("usage"),
            "without arguments it says {told}"
        );
        let absent = self.folder.join("absent");
        let ran = self.command().args([&absent, &absent]).output().expect("the program runs");
        let told = String::from_utf8_lossy(&ran.stderr).into_owned();
        let reason = told.contains("absent") && told.contains("No such file");
        assert!(ran.stdout.is_empty() && reason, "without its files it says {told}");
    }
}

/// The bytes of a piece in which the programs read their file of lines.
const PIECE: usize = 4_096;

/// Files in which each line in turn lies across the end of a piece, cut after each of its bytes: `filler` gives lines of
/// so many bytes in all to stand before it, and `after` follows it.
pub fn across_a_cut(
    lines: &[Vec<u8>],
    filler: impl Fn(usize) -> Vec<u8>,
    after: &[u8],
    check: impl Fn(&[u8]),
) {
    for line in lines {
        for before in PIECE - line.len() - 1..=PIECE {
            let mut file = filler(before);
            assert_eq!(file.len(), before, "the lines before have so many bytes");
            file.extend_from_slice(line);
            file.extend_from_slice(after);
            check(&file);
        }
    }
}

/// Lines of no byte, and of as many bytes as a line can have and one more, with and without their line feed.
pub fn odd_lines() -> Vec<Vec<u8>> {
    let ones = |count: usize, end: &str| format!("{}{end}", "1".repeat(count)).into_bytes();
    [0, 80, 81].iter().flat_map(|&count| [ones(count, "\n"), ones(count, "")]).collect()
}

/// Words of digits alone, from one to more than any number has and on to a hundred thousand, with and without a minus.
pub fn words_of_digits() -> Vec<String> {
    let lengths = (1..=30).chain([100_000]);
    let word = |length| ["0", "1", "9"].map(|digit: &str| digit.repeat(length));
    lengths.flat_map(word).flat_map(|word| [format!("-{word}"), word]).collect()
}

impl Drop for Program {
    fn drop(&mut self) {
        let _ = std::fs::remove_dir_all(&self.folder);
    }
}

/// Runs `check` for each of `count` seeds on two threads, and names the seed that fails.
pub fn for_each_seed(count: u64, check: impl Fn(&mut Rng) + Sync) {
    let worker = |first: u64| {
        for seed in (first..count).step_by(2) {
            let checked = std::panic::catch_unwind(std::panic::AssertUnwindSafe(|| {
                check(&mut Rng::new(seed))
            }));
            if let Err(failure) = checked {
                eprintln!("the failing seed is {seed}");
                std::panic::resume_unwind(failure);
            }
        }
    };
    thread::scope(|scope| {
        let other = scope.spawn(|| worker(1));
        worker(0);
        if let Err(failure) = other.join() {
            std::panic::resume_unwind(failure);
        }
    });
}

pub fn same(name: &str, written: &[u8], expected: &str) {
    if written == expected.as_bytes() {
        return;
    }
    let place = written.iter().zip(expected.as_bytes()).take_while(|(a, b)| a == b).count();
    let line = expected.as_bytes()[..place].iter().filter(|&&byte| byte == b'\n').count() + 1;
    panic!(
        "{name}: written and expected differ at byte {place}, line {line}: {:?} and {:?}",
        String::from_utf8_lossy(&written[place..written.len().min(place + 80)]),
        &expected[place..expected.len().min(place + 80)],
    );
}
