//! Memory between two pages without access: a byte read or written beside it stops the program.

use std::ffi::c_void;
use std::ops::Range;

// Linux's, from the C library that every program here is linked with
extern "C" {
    fn mmap(at: *mut c_void, length: usize, access: i32, flags: i32, file: i32, offset: i64) -> *mut c_void;
    fn mprotect(at: *mut c_void, length: usize, access: i32) -> i32;
    fn signal(number: i32, handler: extern "C" fn(i32)) -> usize;
}
const NO_ACCESS: i32 = 0;
pub const READ: i32 = 1;
pub const READ_AND_WRITE: i32 = 3;
const PRIVATE_ANONYMOUS: i32 = 0x22;
/// SIGILL, SIGTRAP, SIGABRT, SIGBUS, SIGFPE, SIGSEGV.
const STOPS: [i32; 6] = [4, 5, 6, 7, 8, 11];

const PAGE: usize = 4096;
pub const SPACE: usize = 64 * PAGE;

/// What is called where a signal would stop the program; it has to end it.
pub fn stops(handler: extern "C" fn(i32)) {
    STOPS.iter().for_each(|&number| unsafe {
        signal(number, handler);
    });
}

pub struct Fenced(*mut u8);

impl Fenced {
    pub fn new() -> Fenced {
        unsafe {
            let all = mmap(std::ptr::null_mut(), SPACE + 2 * PAGE, NO_ACCESS, PRIVATE_ANONYMOUS, -1, 0) as *mut u8;
            assert!(all as isize != -1, "no memory");
            let fenced = Fenced(all.add(PAGE));
            fenced.allow(READ_AND_WRITE);
            fenced
        }
    }

    pub fn allow(&self, access: i32) {
        assert_eq!(unsafe { mprotect(self.0 as *mut c_void, SPACE, access) }, 0);
    }

    pub fn bytes(&mut self) -> &mut [u8] {
        unsafe { std::slice::from_raw_parts_mut(self.0, SPACE) }
    }

    /// Where so many bytes lie: right behind the first fence, or right before the second.
    pub fn place(length: usize, first: bool) -> Range<usize> {
        if first {
            0..length
        } else {
            SPACE - length..SPACE
        }
    }

    /// The bytes, with a fence right before them, or right behind them.
    pub fn put(&mut self, bytes: &[u8], first: bool) -> *const u8 {
        let place = &mut self.bytes()[Fenced::place(bytes.len(), first)];
        place.copy_from_slice(bytes);
        place.as_ptr()
    }
}
