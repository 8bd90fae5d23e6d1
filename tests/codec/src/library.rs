//! The three functions of libcodec.a, each call compared with the reference model's codec.

use crate::codec::{read_image, write_image, Message, Refusal};
use crate::fenced::{stops, Fenced};
use std::sync::atomic::{AtomicUsize, Ordering::Relaxed};

#[link(name = "codec", kind = "static")]
extern "C" {
    fn dpr_message_parts(number: u16, parts: *mut u8) -> u8;
    fn dpr_image_check(image: *const u8, image_len: usize) -> u16;
    fn dpr_image_copy(image: *const u8, image_len: usize, buffer: *mut u8, buffer_len: usize, offset: usize) -> u8;
}

/// The call under way: image, its length, length of the buffer or `NO_BUFFER`, offset; or 0, 0, 0 and a message number.
static CALL: [AtomicUsize; 4] = [AtomicUsize::new(0), AtomicUsize::new(0), AtomicUsize::new(0), AtomicUsize::new(0)];

const NO_BUFFER: usize = usize::MAX;

fn calling(arguments: [usize; 4]) {
    for (field, value) in CALL.iter().zip(arguments) {
        field.store(value, Relaxed);
    }
}

extern "C" fn stopped(number: i32) {
    let [at, length, buffer_len, last] = [0, 1, 2, 3].map(|i| CALL[i].load(Relaxed));
    eprintln!("FAILED: the call ends the program (signal {number})");
    if at == 0 {
        eprintln!("{}", number_given(last));
    } else {
        eprintln!("{}", image_given(unsafe { std::slice::from_raw_parts(at as *const u8, length) }, buffer_len, last));
    }
    std::process::exit(1);
}

fn hex(bytes: &[u8]) -> String {
    let shown: Vec<String> = bytes.iter().take(400).map(|b| format!("{b:02X}")).collect();
    shown.join(" ") + if bytes.len() > 400 { " .." } else { "" }
}

fn number_given(number: usize) -> String {
    format!("  message number {number}")
}

fn image_given(image: &[u8], buffer_len: usize, offset: usize) -> String {
    let image = format!("  image of {} bytes: {}", image.len(), hex(image));
    if buffer_len == NO_BUFFER {
        return image;
    }
    format!("{image}\n  buffer of {buffer_len} bytes, offset {offset} ({offset:#X})")
}

/// What the reference model reads in an image: site and records, or its refusal.
/// `Trial::check` alone gives one, so that each image tried is checked.
pub struct Reading(Result<(u8, Vec<Vec<u8>>), Refusal>);

impl Reading {
    fn of(image: &[u8]) -> Reading {
        Reading(read_image(image).map(|(site, log)| (site, log.iter().map(|record| record.bytes()).collect())))
    }

    /// Number and index.
    pub fn answer(&self) -> (u8, usize) {
        match &self.0 {
            Err(refusal) => (refusal.number, refusal.index),
            Ok((_, records)) => (0, records.len()),
        }
    }

    /// The answer of a copy to the buffer, which then holds what the reference model writes.
    fn write(&self, buffer: &mut [u8], offset: usize) -> u8 {
        match &self.0 {
            Err(refusal) => refusal.number,
            Ok((site, records)) => write_image(*site as u64, records, buffer, offset as u64).err().unwrap_or(0),
        }
    }
}

/// On each side of the buffer and of the parts lie so many bytes that no call may change.
const GUARD: usize = 256;
/// Longest buffer.
const MOST: usize = 256;
const MEMORY: usize = GUARD + MOST + GUARD;

/// The calls made so far.
pub struct Trial {
    pub part: &'static str,
    pub cases: usize,
    /// How often each answer of a copy or of message parts came in this part.
    pub answers: [usize; 256],
    /// How often each number came of a check, with index 0 and with one above.
    pub checks: [[usize; 2]; 256],
    image: Fenced,
    /// What lies in the memory before a call, another stretch of it each time.
    noise: [u8; MEMORY + 256],
    got: [u8; MEMORY],
    expected: [u8; MEMORY],
}

impl Trial {
    pub fn new() -> Trial {
        stops(stopped);
        let mut random = crate::random::Random(1);
        Trial {
            part: "",
            cases: 0,
            answers: [0; 256],
            checks: [[0; 2]; 256],
            image: Fenced::new(),
            noise: [0; MEMORY + 256].map(|_| random.byte()),
            got: [0; MEMORY],
            expected: [0; MEMORY],
        }
    }

    fn fill(&mut self) {
        let from = self.cases % 256;
        self.got.copy_from_slice(&self.noise[from..from + MEMORY]);
        self.expected.copy_from_slice(&self.got);
        self.cases += 1;
    }

    /// Ends the program where the answer or a byte of the memory is not the expected one.
    fn compare(&mut self, expected: u8, got: u8, given: impl Fn() -> String) {
        self.answers[got as usize] += 1;
        if expected == got && self.expected == self.got {
            return;
        }
        let mut what = format!("expected {expected}, got {got}");
        if let Some(i) = (0..MEMORY).find(|&i| self.expected[i] != self.got[i]) {
            let (place, expected, got) = (i as isize - GUARD as isize, self.expected[i], self.got[i]);
            what += &format!("\n  byte {place} of the lent memory: expected {expected:02X}, got {got:02X}");
        }
        self.fail(&given(), &what);
    }

    fn fail(&self, given: &str, what: &str) -> ! {
        eprintln!("FAILED in '{}', case {}\n{given}\n  {what}", self.part, self.cases);
        std::process::exit(1);
    }

    /// Ends the program where a call has changed the image itself.
    fn unchanged(&self, image: &[u8], at: *const u8, given: impl Fn() -> String) {
        let after = unsafe { std::slice::from_raw_parts(at, image.len()) };
        if after != image {
            self.fail(&given(), &format!("the image itself was changed to {}", hex(after)));
        }
    }

    /// Two calls of dpr_image_check, with a fence before the image and with one behind it; and what the reference model
    /// reads in that image.
    pub fn check(&mut self, image: &[u8]) -> Reading {
        let reading = Reading::of(image);
        let (number, index) = reading.answer();
        for first in [true, false] {
            self.cases += 1;
            let at = self.image.put(image, first);
            calling([at as usize, image.len(), NO_BUFFER, 0]);
            let [got, got_index] = unsafe { dpr_image_check(at, image.len()) }.to_le_bytes();
            let given = || image_given(image, NO_BUFFER, 0);
            if (got, got_index as usize) != (number, index) {
                self.fail(&given(), &format!("expected {number}, index {index}, got {got}, index {got_index}"));
            }
            self.unchanged(image, at, given);
            self.checks[number as usize][(index > 0) as usize] += 1;
        }
        reading
    }

    /// One call of dpr_image_copy; `reading` is the reference model's of that image.
    pub fn copy(&mut self, image: &[u8], reading: &Reading, buffer_len: usize, offset: usize) {
        assert!(buffer_len <= MOST);
        self.fill();
        let at = self.image.put(image, self.cases % 2 == 0);
        calling([at as usize, image.len(), buffer_len, offset]);
        let got = unsafe { dpr_image_copy(at, image.len(), self.got.as_mut_ptr().add(GUARD), buffer_len, offset) };
        let buffer = &mut self.expected[GUARD..GUARD + buffer_len];
        let expected = reading.write(buffer, offset);
        if expected == 0 {
            assert_eq!(buffer[offset..offset + image.len()], *image, "an accepted image is written as it was read");
        }
        let given = || image_given(image, buffer_len, offset);
        self.compare(expected, got, given);
        self.unchanged(image, at, given);
    }

    /// One call of dpr_message_parts.
    pub fn message(&mut self, number: u16) {
        self.fill();
        calling([0, 0, 0, number as usize]);
        let got = unsafe { dpr_message_parts(number, self.got.as_mut_ptr().add(GUARD)) };
        let expected = match Message::from_number(number) {
            Err(refusal) => refusal,
            Ok(m) => {
                self.expected[GUARD..GUARD + 3].copy_from_slice(&[m.transaction, m.participant, m.kind]);
                0
            }
        };
        self.compare(expected, got, || number_given(number as usize));
    }
}
