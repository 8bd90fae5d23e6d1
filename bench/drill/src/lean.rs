//! The drill in plain Rust without a heap: what the proved drill is measured against.

use crate::run::{Answer, Run, Transaction, EVENT};

const BYTES: usize = 60_000;
/// No line of an event, of a transaction or of a site, and no text is longer.
const EVENT_LINE: usize = 15;
const HANDOVER_LINE: usize = 21;
const SITE_LINE: usize = 16;
const TEXT: usize = 139_206;

/// The text so far; what has no room is counted alone.
struct Text<'a> {
    buffer: &'a mut [u8],
    length: usize,
}

impl Text<'_> {
    fn put(&mut self, bytes: &[u8]) {
        if let Some(place) = self.buffer.get_mut(self.length..self.length + bytes.len()) {
            place.copy_from_slice(bytes);
        }
        self.length += bytes.len();
    }

    fn handover(&mut self, h: usize, t: &Transaction) {
        let mut line = *b"HANDOVER 0 ---------\n";
        line[9] += h as u8;
        for site in 0..9 {
            line[11 + site] = match (t.committed >> site & 1, t.aborted >> site & 1) {
                (0, 0) => b'-',
                (_, 0) => b'C',
                (0, _) => b'A',
                _ => b'X',
            };
        }
        self.put(&line);
    }

    /// Forces, transactions, quotient and remainder.
    fn site(&mut self, forces: u64, opened: u64) {
        let (quotient, remainder) = if opened == 0 { (0, forces) } else { (forces / opened, forces % opened) };
        self.number(forces, b' ');
        self.number(opened, b' ');
        self.number(quotient, b' ');
        self.number(remainder, b'\n');
    }

    fn number(&mut self, mut number: u64, end: u8) {
        let mut digits = [end; 21];
        let mut from = 19;
        while number > 9 {
            digits[from] = b'0' + (number % 10) as u8;
            number /= 10;
            from -= 1;
        }
        digits[from] = b'0' + number as u8;
        self.put(&digits[from..]);
    }
}

/// The line of an event, with room for a number of five digits and sends of two.
struct Line {
    bytes: [u8; EVENT_LINE],
    /// Where the number begins.
    from: usize,
}

impl Line {
    /// The number of the next event.
    fn count(&mut self) {
        let mut at = 4;
        while self.bytes[at] == b'9' {
            self.bytes[at] = b'0';
            at -= 1;
        }
        self.bytes[at] += 1;
        self.from = self.from.min(at);
    }

    fn answer(&mut self, answer: Result<Answer, u8>) -> &[u8] {
        let Answer { number, records, forces, sends } =
            answer.unwrap_or_else(|number| Answer { number, ..Answer::default() });
        self.bytes[6] = b'0' + number;
        self.bytes[8] = b'0' + records;
        self.bytes[10] = b'0' + forces;
        if sends < 10 {
            self.bytes[12] = b'0' + sends;
            self.bytes[13] = b'\n';
            return &self.bytes[self.from..14];
        }
        self.bytes[12] = b'0' + sends / 10;
        self.bytes[13] = b'0' + sends % 10;
        &self.bytes[self.from..]
    }
}

fn write(events: &[u8], buffer: &mut [u8]) -> usize {
    let mut run = Run::fresh();
    let mut text = Text { buffer, length: 0 };
    let mut line = Line { bytes: *b"00000 0 0 0 00\n", from: 5 };
    for event in events.chunks(EVENT) {
        line.count();
        text.put(line.answer(event.try_into().map_or(Err(1), |event| run.event(event))));
    }
    for (h, t) in run.transactions.iter().enumerate().filter(|(_, t)| t.members != 0) {
        text.handover(h, t);
    }
    for (s, site) in run.sites.iter().enumerate() {
        let with = |t: &&Transaction| if s == 0 { t.members != 0 } else { t.members >> (s - 1) & 1 != 0 };
        text.site(site.forces, run.transactions.iter().filter(with).count() as u64);
    }
    text.length
}

/// The length of the text, or 0 and nothing written where the buffer is too short.
pub fn drill(events: &[u8], text: &mut [u8]) -> usize {
    let events = &events[..events.len().min(BYTES)];
    let longest = events.len().div_ceil(EVENT) * EVENT_LINE + 8 * HANDOVER_LINE + 9 * SITE_LINE;
    if text.len() < longest.min(TEXT) && write(events, &mut []) > text.len() {
        return 0;
    }
    write(events, text)
}
