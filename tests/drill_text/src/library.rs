//! The function of libdrill_text.a, each call compared with the drill of the reference model.

use crate::fenced::{stops, Fenced, READ, READ_AND_WRITE, SPACE};
use reference::drill::{drill, drill_events};
use std::ops::Range;
use std::sync::atomic::{AtomicUsize, Ordering::Relaxed};
use std::time::Instant;

#[link(name = "drill_text", kind = "static")]
extern "C" {
    fn dpr_drill(events: *const u8, len: usize, text: *mut u8, text_len: usize) -> usize;
}

/// The call under way: events, their length, length of the text's buffer.
static CALL: [AtomicUsize; 3] = [AtomicUsize::new(0), AtomicUsize::new(0), AtomicUsize::new(0)];

extern "C" fn stopped(number: i32) {
    let [at, length, room] = [0, 1, 2].map(|i| CALL[i].load(Relaxed));
    if at == 0 {
        eprintln!("FAILED: signal {number} outside the call");
    } else {
        let input = unsafe { std::slice::from_raw_parts(at as *const u8, length) };
        eprintln!("FAILED: the call ends the program (signal {number})\n{}", given(input, room));
    }
    std::process::exit(1);
}

fn hex(bytes: &[u8]) -> String {
    let event = |event: &[u8]| event.iter().map(|b| format!("{b:02X}")).collect::<Vec<_>>().join(" ");
    let shown: Vec<String> = drill_events(bytes).take(400).map(event).collect();
    shown.join("; ") + if bytes.len() > 2400 { "; .." } else { "" }
}

fn given(input: &[u8], room: usize) -> String {
    format!("  {} bytes: {}\n  buffer of {room} bytes", input.len(), hex(input))
}

/// The drill's text by the reference model.
pub fn text_of(lines: &[String]) -> Vec<u8> {
    lines.iter().flat_map(|line| line.bytes().chain([b'\n'])).collect()
}

pub struct Library {
    events: Fenced,
    text: Fenced,
    /// What lies in the text's memory before a call.
    noise: Vec<u8>,
    pub calls: u64,
}

impl Library {
    pub fn new() -> Library {
        stops(stopped);
        let mut random = reference::random::Rng::new(1);
        let noise = (0..SPACE).map(|_| random.byte()).collect();
        Library { events: Fenced::new(), text: Fenced::new(), noise, calls: 0 }
    }

    /// One call with a buffer of `room` bytes: the number returned, and where the buffer lies.
    /// Ends the program where a byte beside the buffer was written. The events cannot be written.
    fn call(&mut self, input: &[u8], room: usize) -> (usize, Range<usize>) {
        self.calls += 1;
        let to = Fenced::place(room, self.calls % 3 == 0);
        self.events.allow(READ_AND_WRITE);
        let events = self.events.put(input, self.calls % 2 == 0);
        self.events.allow(READ);
        self.text.bytes().copy_from_slice(&self.noise);
        let text = self.text.bytes()[to.clone()].as_mut_ptr();
        CALL.iter().zip([events as usize, input.len(), room]).for_each(|(field, value)| field.store(value, Relaxed));
        let got = unsafe { dpr_drill(events, input.len(), text, room) };
        CALL[0].store(0, Relaxed);
        let (noise, after) = (&self.noise, self.text.bytes());
        if after[..to.start] != noise[..to.start] || after[to.end..] != noise[to.end..] {
            fail("a byte beside the buffer was written", input, room);
        }
        if got > room {
            fail(&format!("{got} bytes are said to be written"), input, room);
        }
        (got, to)
    }

    /// The text of a list, from a buffer that has room for every text.
    pub fn text(&mut self, input: &[u8]) -> Vec<u8> {
        let (got, _) = self.call(input, SPACE);
        self.text.bytes()[..got].to_vec()
    }

    /// One call, compared: the text and nothing more where it has room, nothing where it has none. The text written.
    pub fn compare(&mut self, input: &[u8], expected: &[u8], room: usize) -> &[u8] {
        let fits = expected.len() <= room;
        let (got, buffer) = self.call(input, room);
        let (written, rest) = self.text.bytes()[buffer.clone()].split_at(got);
        if fits && written != expected {
            self.differ(input, room);
        }
        if !fits && got != 0 {
            fail(&format!("no room: {got} returned instead of 0"), input, room);
        }
        if *rest != self.noise[buffer.clone()][got..] {
            fail("a byte of the buffer beside the text was written", input, room);
        }
        &self.text.bytes()[buffer][..got]
    }

    /// Ends the program with a list that shows a difference still, shortened for some seconds.
    fn differ(&mut self, input: &[u8], room: usize) -> ! {
        let mut short = input[..input.len().min(60_012)].to_vec();
        let mut part = short.len() / 12 * 6;
        if !self.differs(&short) {
            fail("the text is right in a longer buffer alone", input, room);
        }
        let started = Instant::now();
        while part >= 6 {
            let mut at = 0;
            while at < short.len() && started.elapsed().as_secs() < 10 {
                let mut less = short.clone();
                less.drain(at..(at + part).min(short.len()));
                if self.differs(&less) {
                    short = less;
                } else {
                    at += part;
                }
            }
            part = part / 12 * 6;
        }
        let expected = String::from_utf8(text_of(&drill(&short))).unwrap();
        let got = String::from_utf8_lossy(&self.text(&short)).into_owned();
        let from = expected.lines().zip(got.lines()).take_while(|(a, b)| a == b).count();
        let tail = |text: &str| text.lines().skip(from).take(10).collect::<Vec<_>>().join(" | ");
        eprintln!("FAILED: another text\n{}", given(&short, SPACE));
        eprintln!("  from line {} on, the reference model: {}", from + 1, tail(&expected));
        eprintln!("  the library: {}", tail(&got));
        eprintln!("  bytes of text: {} and {}", expected.len(), got.len());
        std::process::exit(1);
    }

    fn differs(&mut self, input: &[u8]) -> bool {
        self.text(input) != text_of(&drill(input))
    }
}

pub fn fail(what: &str, input: &[u8], room: usize) -> ! {
    eprintln!("FAILED: {what}\n{}", given(input, room));
    std::process::exit(1);
}
