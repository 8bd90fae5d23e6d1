//! The function of libsite.a, each call compared with the reference model's step on numbers.

use crate::arguments::{expected, Arguments, NAMES};
use crate::numbers::ARGUMENTS;
use crate::rows::Counts;
use std::sync::atomic::{AtomicU64, Ordering::Relaxed};

#[link(name = "site", kind = "static")]
extern "C" {
    fn dpr_site_step(
        site: u8,
        kind: u8,
        transaction: u8,
        participant: u8,
        presumption: u8,
        phase: u8,
        waiting: u8,
        members: u8,
        presume_commit: u8,
        mark: u8,
        taken_out: u8,
    ) -> u64;
}

// Linux's, from the C library that every program here is linked with
extern "C" {
    fn signal(number: i32, handler: extern "C" fn(i32)) -> usize;
}
/// SIGILL, SIGTRAP, SIGABRT, SIGBUS, SIGFPE, SIGSEGV.
const STOPS: [i32; 6] = [4, 5, 6, 7, 8, 11];

const PARTS: [&str; 8] = ["answer", "phase", "waiting", "taken out", "records", "forced and outcome", "message", "to"];

/// The call under way: the first eight arguments, and the others.
static CALL: [AtomicU64; 2] = [AtomicU64::new(0), AtomicU64::new(0)];

extern "C" fn stopped(number: i32) {
    let [first, last] = [0, 1].map(|i| CALL[i].load(Relaxed).to_le_bytes());
    let mut arguments = [0; ARGUMENTS];
    arguments[..8].copy_from_slice(&first);
    arguments[8..].copy_from_slice(&last[..ARGUMENTS - 8]);
    eprintln!("FAILED: the call ends the program (signal {number})\n{}", given(arguments));
    std::process::exit(1);
}

fn given(arguments: Arguments) -> String {
    let named: Vec<String> = NAMES.iter().zip(arguments).map(|(name, value)| format!("{name} {value}")).collect();
    format!("  given {}", named.join(", "))
}

/// One call of the library.
pub fn step(arguments: Arguments) -> u64 {
    let [a, b, c, d, e, f, g, h, i, j, k] = arguments;
    CALL[0].store(u64::from_le_bytes([a, b, c, d, e, f, g, h]), Relaxed);
    CALL[1].store(u64::from_le_bytes([i, j, k, 0, 0, 0, 0, 0]), Relaxed);
    unsafe { dpr_site_step(a, b, c, d, e, f, g, h, i, j, k) }
}

/// The same call with any bits above the byte in each register and each place on the stack. The calling convention
/// says nothing of them, so a caller may leave there what it likes.
pub fn wide_step(arguments: Arguments, upper: [u32; ARGUMENTS]) -> u64 {
    type Wide = unsafe extern "C" fn(u64, u64, u64, u64, u64, u64, u64, u64, u64, u64, u64) -> u64;
    let mut wide = [0; ARGUMENTS];
    for i in 0..ARGUMENTS {
        wide[i] = (upper[i] as u64) * 0x1_0000_0100 & !255 | arguments[i] as u64;
    }
    let [a, b, c, d, e, f, g, h, i, j, k] = wide;
    unsafe {
        let call: Wide = std::mem::transmute(dpr_site_step as *const ());
        call(a, b, c, d, e, f, g, h, i, j, k)
    }
}

/// The calls made so far.
pub struct Trial {
    pub part: &'static str,
    pub accepted: u64,
    pub refused: u64,
    pub counts: Counts,
}

impl Trial {
    pub fn new() -> Trial {
        STOPS.iter().for_each(|&number| unsafe {
            signal(number, stopped);
        });
        Trial { part: "", accepted: 0, refused: 0, counts: Counts::new() }
    }

    pub fn calls(&self) -> u64 {
        self.accepted + self.refused
    }

    /// One call, compared. True: accepted.
    pub fn call(&mut self, arguments: Arguments) -> bool {
        self.compare(arguments, u64::from_le_bytes(expected(arguments)), step(arguments))
    }

    /// Ends the program where the number that came is not the expected one. True: accepted.
    pub fn compare(&mut self, arguments: Arguments, expected: u64, got: u64) -> bool {
        if expected != got {
            self.differ(arguments, expected, got);
        }
        let accepted = expected as u8 == 0;
        if accepted {
            self.accepted += 1;
            self.counts.add(arguments, expected.to_le_bytes());
        } else {
            self.refused += 1;
        }
        accepted
    }

    #[cold]
    fn differ(&self, arguments: Arguments, expected: u64, got: u64) -> ! {
        eprintln!("FAILED in '{}', call {}\n{}", self.part, self.calls() + 1, given(arguments));
        for ((name, wanted), came) in PARTS.iter().zip(expected.to_le_bytes()).zip(got.to_le_bytes()) {
            let mark = if wanted == came { "" } else { "  <- differs" };
            eprintln!("  {name:18} expected {wanted}, got {came}{mark}");
        }
        std::process::exit(1);
    }
}
