//! Log images in plain Rust without a heap, and message numbers: what the proved codec is measured against.
//! A `Log` is made by `read` alone, so `write` need not check it again.

#[derive(Clone, Copy)]
enum Record {
    Init { transaction: u8, members: u8, presume_commit: u8 },
    Commit { transaction: u8, members: u8, presume_commit: u8 },
    CommitEnd { transaction: u8 },
    AbortEnd { transaction: u8 },
    Prepared { transaction: u8, presumption: u8 },
    Committed { transaction: u8 },
    Aborted { transaction: u8 },
}
use Record::*;

impl Record {
    /// A record of the site by itself, or 23, 27, 28.
    fn parse(site: u8, bytes: &[u8]) -> Result<Record, u8> {
        let (record, sound) = match (site, bytes) {
            (0, &[1, transaction, members, presume_commit]) => {
                let sound = presume_commit != 0 && presume_commit & !members == 0;
                (Init { transaction, members, presume_commit }, sound)
            }
            (0, &[2, transaction, members, presume_commit]) => {
                let sound = members != 0 && presume_commit & !members == 0;
                (Commit { transaction, members, presume_commit }, sound)
            }
            (0, &[3, transaction]) => (CommitEnd { transaction }, true),
            (0, &[4, transaction]) => (AbortEnd { transaction }, true),
            (1.., &[5, transaction, presumption]) => (Prepared { transaction, presumption }, presumption < 2),
            (1.., &[6, transaction]) => (Committed { transaction }, true),
            (1.., &[7, transaction]) => (Aborted { transaction }, true),
            _ => return Err(23),
        };
        match bytes[1] {
            8.. => Err(27),
            _ if !sound => Err(28),
            _ => Ok(record),
        }
    }

    /// May it come after the newest record of its transaction?
    fn may_follow(self, newest: Option<Record>) -> bool {
        match (newest, self) {
            (None, _) => true,
            (
                Some(Init { members, presume_commit, .. }),
                Commit { members: remaining, presume_commit: of_remaining, .. },
            ) => remaining & !members == 0 && of_remaining == presume_commit & remaining,
            (Some(Init { .. }), AbortEnd { .. }) => true,
            (Some(Commit { members, presume_commit, .. }), CommitEnd { .. }) => members & !presume_commit != 0,
            (Some(Prepared { .. }), Committed { .. } | Aborted { .. }) => true,
            _ => false,
        }
    }

    /// Writes its bytes at the start of `to`, and answers how many they are.
    fn write(self, to: &mut [u8]) -> usize {
        match self {
            Init { transaction, members, presume_commit } => put(to, [1, transaction, members, presume_commit]),
            Commit { transaction, members, presume_commit } => put(to, [2, transaction, members, presume_commit]),
            CommitEnd { transaction } => put(to, [3, transaction]),
            AbortEnd { transaction } => put(to, [4, transaction]),
            Prepared { transaction, presumption } => put(to, [5, transaction, presumption]),
            Committed { transaction } => put(to, [6, transaction]),
            Aborted { transaction } => put(to, [7, transaction]),
        }
    }
}

fn put<const N: usize>(to: &mut [u8], bytes: [u8; N]) -> usize {
    to[..N].copy_from_slice(&bytes);
    N
}

pub struct Log {
    site: u8,
    count: usize,
    /// Bytes of the image.
    length: usize,
    records: [Record; 24],
}

fn word(low: u8, high: u8) -> usize {
    u16::from_le_bytes([low, high]) as usize
}

/// The log of an image, or the number that refuses it and the index of the bad record.
pub fn read(image: &[u8]) -> Result<Log, (u8, usize)> {
    let &[b'D', b'P', b'R', b'L', site, count, ref rest @ ..] = image else { return Err((20, 0)) };
    let count = count as usize;
    if site > 8 || count > if site == 0 { 24 } else { 16 } {
        return Err((21, 0));
    }
    let (table, mut body) = rest.split_at_checked(4 * count).ok_or((22, 0))?;
    let mut end = 6 + 4 * count;
    for pair in table.chunks_exact(4) {
        if word(pair[0], pair[1]) != end {
            return Err((22, 0));
        }
        end += word(pair[2], pair[3]);
    }
    if end != image.len() {
        return Err((22, 0));
    }
    let mut log = Log { site, count, length: image.len(), records: [CommitEnd { transaction: 0 }; 24] };
    let mut newest = [None; 8];
    for (index, (pair, place)) in table.chunks_exact(4).zip(&mut log.records).enumerate() {
        let (bytes, rest) = body.split_at(word(pair[2], pair[3]));
        let record = Record::parse(site, bytes).map_err(|number| (number, index))?;
        let newest = &mut newest[bytes[1] as usize];
        if !record.may_follow(*newest) {
            return Err((24, index));
        }
        *newest = Some(record);
        *place = record;
        body = rest;
    }
    Ok(log)
}

/// Writes the image of the log at the offset of the buffer, or refuses by 25.
pub fn write(log: &Log, buffer: &mut [u8], offset: usize) -> Result<(), u8> {
    let image = buffer.get_mut(offset..).and_then(|rest| rest.get_mut(..log.length)).ok_or(25)?;
    let (head, rest) = image.split_at_mut(6);
    head.copy_from_slice(&[b'D', b'P', b'R', b'L', log.site, log.count as u8]);
    let (table, body) = rest.split_at_mut(4 * log.count);
    let start = 6 + 4 * log.count;
    let mut at = 0;
    for (record, pair) in log.records.iter().zip(table.chunks_exact_mut(4)) {
        let length = record.write(&mut body[at..]);
        pair[..2].copy_from_slice(&((start + at) as u16).to_le_bytes());
        pair[2..].copy_from_slice(&(length as u16).to_le_bytes());
        at += length;
    }
    Ok(())
}

pub fn image_copy(image: &[u8], buffer: &mut [u8], offset: usize) -> u8 {
    match read(image) {
        Ok(log) => write(&log, buffer, offset).err().unwrap_or(0),
        Err((number, _)) => number,
    }
}

/// Number and index in one, the number lower: 0 and the count where the image is accepted.
pub fn image_check(image: &[u8]) -> u16 {
    let (number, index) = match read(image) {
        Ok(log) => (0, log.count),
        Err(refusal) => refusal,
    };
    u16::from_le_bytes([number, index as u8])
}

/// How many steps a number has, at most 7, and the rest. Of `while step <= rest` rustc makes a division.
fn step_down(number: u16, step: u16) -> (u8, u16) {
    let (mut steps, mut rest) = (0, number);
    for _ in 0..7 {
        if step <= rest {
            steps += 1;
            rest -= step;
        }
    }
    (steps, rest)
}

/// Transaction, participant and kind of a message number, or 26. From 448 on it is a read-only vote.
pub fn message_parts(number: u16) -> Result<[u8; 3], u8> {
    match number {
        0..448 => {
            let (transaction, rest) = step_down(number, 56);
            let (participants, kind) = step_down(rest, 7);
            Ok([transaction, participants + 1, kind as u8])
        }
        448..512 => {
            let (transaction, participants) = step_down(number - 448, 8);
            Ok([transaction, participants as u8 + 1, 7])
        }
        _ => Err(26),
    }
}
