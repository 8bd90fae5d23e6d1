//! Masks, message numbers, log records, log images.

/// A set of participants: bit b-1 is participant b.
pub type Mask = u8;

pub const TRANSACTIONS: u8 = 8;
pub const PARTICIPANTS: u8 = 8;
pub const SITES: u8 = 9;
pub const COORDINATOR: u8 = 0;

pub fn bit(participant: u8) -> Mask {
    1 << (participant - 1)
}

pub fn has(mask: Mask, participant: u8) -> bool {
    mask & bit(participant) != 0
}

pub fn is_part(a: Mask, of: Mask) -> bool {
    a & !of == 0
}

/// The participants of a mask, lowest first.
pub fn each(mask: Mask) -> impl Iterator<Item = u8> {
    (1..=PARTICIPANTS).filter(move |&b| has(mask, b))
}

/// Message kinds.
pub const PREPARE: u8 = 0;
pub const YES: u8 = 1;
pub const NO: u8 = 2;
pub const COMMIT: u8 = 3;
pub const ABORT: u8 = 4;
pub const COMMIT_ACK: u8 = 5;
pub const ABORT_ACK: u8 = 6;
pub const READ_ONLY: u8 = 7;

/// Prepare, Commit and Abort go from the coordinator to a participant, the others back.
pub fn goes_to_participant(kind: u8) -> bool {
    matches!(kind, PREPARE | COMMIT | ABORT)
}

/// A message is known by its transaction, the participant at one end, and its kind.
#[derive(Clone, Copy, PartialEq, Eq, Debug)]
pub struct Message {
    pub transaction: u8,
    pub participant: u8,
    pub kind: u8,
}

pub const MESSAGES: usize = 512;
/// The first number of a read-only vote; those of the other kinds are below.
const READ_ONLY_VOTES: u16 = 448;

impl Message {
    pub fn number(self) -> u16 {
        let Message { transaction, participant, kind } = self;
        let (h, b) = (transaction as u16, participant as u16 - 1);
        match kind {
            READ_ONLY => READ_ONLY_VOTES + 8 * h + b,
            _ => 56 * h + 7 * b + kind as u16,
        }
    }

    /// 26: number above 511.
    pub fn from_number(number: u16) -> Result<Message, u8> {
        let (transaction, b, kind) = match number {
            0..READ_ONLY_VOTES => (number / 56, number % 56 / 7, number % 7),
            READ_ONLY_VOTES..=511 => {
                let vote = number - READ_ONLY_VOTES;
                (vote / 8, vote % 8, READ_ONLY as u16)
            }
            _ => return Err(26),
        };
        Ok(Message { transaction: transaction as u8, participant: b as u8 + 1, kind: kind as u8 })
    }
}

#[derive(Clone, Copy, PartialEq, Eq, Debug)]
pub enum LogRecord {
    Init { transaction: u8, members: Mask, presume_commit: Mask },
    Commit { transaction: u8, members: Mask, presume_commit: Mask },
    CommitEnd { transaction: u8 },
    AbortEnd { transaction: u8 },
    Prepared { transaction: u8, presumption: u8 },
    Committed { transaction: u8 },
    Aborted { transaction: u8 },
}

/// Length of a record by its kind (kind 0 does not exist).
const LENGTH: [usize; 8] = [0, 4, 4, 2, 2, 3, 2, 2];

impl LogRecord {
    pub fn kind(&self) -> u8 {
        match self {
            LogRecord::Init { .. } => 1,
            LogRecord::Commit { .. } => 2,
            LogRecord::CommitEnd { .. } => 3,
            LogRecord::AbortEnd { .. } => 4,
            LogRecord::Prepared { .. } => 5,
            LogRecord::Committed { .. } => 6,
            LogRecord::Aborted { .. } => 7,
        }
    }

    pub fn transaction(&self) -> u8 {
        match *self {
            LogRecord::Init { transaction, .. }
            | LogRecord::Commit { transaction, .. }
            | LogRecord::CommitEnd { transaction }
            | LogRecord::AbortEnd { transaction }
            | LogRecord::Prepared { transaction, .. }
            | LogRecord::Committed { transaction }
            | LogRecord::Aborted { transaction } => transaction,
        }
    }

    pub fn bytes(&self) -> Vec<u8> {
        match *self {
            LogRecord::Init { transaction, members, presume_commit } => vec![1, transaction, members, presume_commit],
            LogRecord::Commit { transaction, members, presume_commit } => vec![2, transaction, members, presume_commit],
            LogRecord::CommitEnd { transaction } => vec![3, transaction],
            LogRecord::AbortEnd { transaction } => vec![4, transaction],
            LogRecord::Prepared { transaction, presumption } => vec![5, transaction, presumption],
            LogRecord::Committed { transaction } => vec![6, transaction],
            LogRecord::Aborted { transaction } => vec![7, transaction],
        }
    }

    /// A record judged by itself. 23: kind not one of that site's, or length not the kind's; then 27: transaction
    /// above 7; then 28: mask or presumption.
    pub fn parse(site: u8, bytes: &[u8]) -> Result<LogRecord, u8> {
        let Some(&kind) = bytes.first() else { return Err(23) };
        let of_site = if site == COORDINATOR { 1..=4 } else { 5..=7 };
        if !of_site.contains(&kind) || bytes.len() != LENGTH[kind as usize] {
            return Err(23);
        }
        let transaction = bytes[1];
        if transaction >= TRANSACTIONS {
            return Err(27);
        }
        let record = match kind {
            1 => LogRecord::Init { transaction, members: bytes[2], presume_commit: bytes[3] },
            2 => LogRecord::Commit { transaction, members: bytes[2], presume_commit: bytes[3] },
            3 => LogRecord::CommitEnd { transaction },
            4 => LogRecord::AbortEnd { transaction },
            5 => LogRecord::Prepared { transaction, presumption: bytes[2] },
            6 => LogRecord::Committed { transaction },
            _ => LogRecord::Aborted { transaction },
        };
        if record.has_legal_fields() {
            Ok(record)
        } else {
            Err(28)
        }
    }

    /// Masks and presumption; the transaction apart.
    fn has_legal_fields(&self) -> bool {
        let legal = |members: Mask, presume_commit: Mask| members != 0 && is_part(presume_commit, members);
        match *self {
            LogRecord::Init { members, presume_commit, .. } => legal(members, presume_commit) && presume_commit != 0,
            LogRecord::Commit { members, presume_commit, .. } => legal(members, presume_commit),
            LogRecord::Prepared { presumption, .. } => presumption <= 1,
            _ => true,
        }
    }
}

/// May the records of one transaction at one site stand in this order?
/// Every beginning of a legal row is legal, so a reader can ask record by record.
pub fn legal_sequence(of_one: &[LogRecord]) -> bool {
    use LogRecord::*;
    match *of_one {
        [] => true,
        // coordinator
        [Init { .. }] | [Commit { .. }] | [CommitEnd { .. }] | [AbortEnd { .. }] => true,
        [Init { .. }, AbortEnd { .. }] => true,
        // a member that presumes abort
        [Commit { members, presume_commit, .. }, CommitEnd { .. }] => members & !presume_commit != 0,
        // Commit names a part of Init's members, each with the presumption that it has there
        [Init { members: m1, presume_commit: p1, .. }, Commit { members: m2, presume_commit: p2, .. }, ..] => {
            is_part(m2, m1) && p2 == p1 & m2 && legal_sequence(&of_one[1..])
        }
        // participant
        [Prepared { .. }] | [Committed { .. }] | [Aborted { .. }] => true,
        [Prepared { .. }, Committed { .. }] | [Prepared { .. }, Aborted { .. }] => true,
        _ => false,
    }
}

pub const OPENING: [u8; 4] = [0x44, 0x50, 0x52, 0x4C];

/// 21: site above 8, or too many records for that site.
fn check_site_and_count(site: u64, count: usize) -> Result<u8, u8> {
    if site > 8 {
        return Err(21);
    }
    let most = if site == 0 { 24 } else { 16 };
    if count > most {
        return Err(21);
    }
    Ok(site as u8)
}

/// A number that refuses an image, and the index from 0 of the record that fails, 0 before the first is looked at.
#[derive(Clone, Copy, PartialEq, Eq, Debug)]
pub struct Refusal {
    pub number: u8,
    pub index: usize,
}

/// At each record in turn 23, 27 or 28, then 24: the first one that fails decides.
fn check_records(site: u8, raw: &[&[u8]]) -> Result<Vec<LogRecord>, Refusal> {
    let mut log: Vec<LogRecord> = Vec::new();
    for (index, bytes) in raw.iter().enumerate() {
        let record = LogRecord::parse(site, bytes).map_err(|number| Refusal { number, index })?;
        log.push(record);
        let of_one: Vec<LogRecord> =
            log.iter().copied().filter(|r| r.transaction() == record.transaction()).collect();
        if !legal_sequence(&of_one) {
            return Err(Refusal { number: 24, index });
        }
    }
    Ok(log)
}

/// Site of an image and the bytes of each record, or 20 to 22.
fn split_image(image: &[u8]) -> Result<(u8, Vec<&[u8]>), u8> {
    if image.len() < 6 || image[..4] != OPENING {
        return Err(20);
    }
    let count = image[5] as usize;
    let site = check_site_and_count(image[4] as u64, count)?;
    let first = 6 + 4 * count;
    if image.len() < first {
        return Err(22);
    }
    // Each record starts where the one before ended, the last one ends at the end.
    let mut expected = first;
    let mut places = Vec::new();
    for pair in image[6..first].chunks(4) {
        let offset = pair[0] as usize + 256 * pair[1] as usize;
        let length = pair[2] as usize + 256 * pair[3] as usize;
        if offset != expected {
            return Err(22);
        }
        expected = offset + length;
        places.push((offset, expected));
    }
    if expected != image.len() {
        return Err(22);
    }
    Ok((site, places.iter().map(|&(from, to)| &image[from..to]).collect()))
}

/// Site and log of an image, or its refusal: 20 to 24, 27, 28.
pub fn read_image(image: &[u8]) -> Result<(u8, Vec<LogRecord>), Refusal> {
    let (site, raw) = split_image(image).map_err(|number| Refusal { number, index: 0 })?;
    Ok((site, check_records(site, &raw)?))
}

/// Number and index of reading an image: 0 and the count where it is accepted.
pub fn check_image(image: &[u8]) -> (u8, usize) {
    match read_image(image) {
        Ok((_, log)) => (0, log.len()),
        Err(Refusal { number, index }) => (number, index),
    }
}

/// The image of a legal log.
pub fn image(site: u8, log: &[LogRecord]) -> Vec<u8> {
    let mut table = Vec::new();
    let mut body = Vec::new();
    for record in log {
        let bytes = record.bytes();
        let offset = (6 + 4 * log.len() + body.len()) as u16;
        table.extend(offset.to_le_bytes());
        table.extend((bytes.len() as u16).to_le_bytes());
        body.extend(bytes);
    }
    let mut out = OPENING.to_vec();
    out.push(site);
    out.push(log.len() as u8);
    out.extend(table);
    out.extend(body);
    out
}

/// Writes the image of a log, records given as bytes, at the offset of the lent buffer.
/// Answers the image's length, or 21, 23, 27, 28, 24, 25, without an index; a refusal leaves the buffer alone.
pub fn write_image(site: u64, records: &[Vec<u8>], buffer: &mut [u8], offset: u64) -> Result<usize, u8> {
    let site = check_site_and_count(site, records.len())?;
    let raw: Vec<&[u8]> = records.iter().map(|r| r.as_slice()).collect();
    let log = check_records(site, &raw).map_err(|refusal| refusal.number)?;
    let bytes = image(site, &log);
    let room = (buffer.len() as u64).checked_sub(offset).ok_or(25u8)?;
    if room < bytes.len() as u64 {
        return Err(25);
    }
    let from = offset as usize;
    buffer[from..from + bytes.len()].copy_from_slice(&bytes);
    Ok(bytes.len())
}

#[cfg(test)]
mod tests {
    use super::*;

    #[test]
    fn message_numbers_round_trip() {
        for n in 0..=511 {
            let m = Message::from_number(n).unwrap();
            assert!(m.transaction < 8 && (1..=8).contains(&m.participant) && (m.kind == 7) == (n > 447) && m.kind < 8);
            assert_eq!(m.number(), n);
        }
        for n in 512..=65535 {
            assert_eq!(Message::from_number(n), Err(26));
        }
        for (n, transaction, participant, kind) in [(447, 7, 8, 6), (448, 0, 1, 7), (456, 1, 1, 7), (511, 7, 8, 7)] {
            assert_eq!(Message::from_number(n), Ok(Message { transaction, participant, kind }));
        }
    }

    #[test]
    fn a_length_cannot_wrap() {
        // 14 + FFFF + .. would come round to the end in 16 bits.
        let mut bytes = vec![0x44, 0x50, 0x52, 0x4C, 1, 2, 14, 0, 0xFF, 0xFF, 13, 0, 4, 0, 5, 0, 1];
        assert_eq!(check_image(&bytes), (22, 0));
        bytes[10] = 17;
        assert_eq!(check_image(&bytes), (22, 0));
    }

    #[test]
    fn seventeen_records_at_a_participant() {
        let log = vec![vec![9, 9]; 17];
        assert_eq!(write_image(1, &log, &mut [0; 200], 0), Err(21));
        assert_eq!(write_image(0, &log, &mut [0; 200], 0), Err(23));
    }

    #[test]
    fn each_fault_of_a_record_has_its_number() {
        let faults: [(u8, u8, &[u8]); 18] = [
            (23, 0, &[]),
            (23, 0, &[5, 0, 1]),
            (23, 1, &[4, 0]),
            (23, 8, &[8, 8]),
            (23, 0, &[1, 8, 0]),
            (23, 1, &[6, 8, 0]),
            (23, 1, &[5, 8, 2, 0]),
            (27, 0, &[1, 8, 3, 0]),
            (27, 0, &[2, 255, 0, 0]),
            (27, 0, &[3, 8]),
            (27, 1, &[5, 8, 2]),
            (27, 8, &[7, 128]),
            (28, 0, &[1, 7, 0, 0]),
            (28, 0, &[1, 7, 3, 0]),
            (28, 0, &[1, 7, 3, 4]),
            (28, 0, &[2, 0, 0, 0]),
            (28, 0, &[2, 0, 1, 2]),
            (28, 1, &[5, 0, 2]),
        ];
        for (number, site, bytes) in faults {
            assert_eq!(LogRecord::parse(site, bytes), Err(number), "{bytes:?} at site {site}");
            assert_eq!(write_image(site as u64, &[bytes.to_vec()], &mut [], 0), Err(number));
        }
        assert!(LogRecord::parse(0, &[2, 7, 3, 0]).is_ok());
    }

    #[test]
    fn commit_keeps_a_part_of_init() {
        let row = |p1, m2, p2, end: bool| {
            let init = LogRecord::Init { transaction: 0, members: 7, presume_commit: p1 };
            let commit = LogRecord::Commit { transaction: 0, members: m2, presume_commit: p2 };
            let end = end.then_some(LogRecord::CommitEnd { transaction: 0 });
            legal_sequence(&[init, commit].into_iter().chain(end).collect::<Vec<_>>())
        };
        for (m2, p2) in [(7, 3), (6, 2), (5, 1), (4, 0), (3, 3), (1, 1)] {
            assert!(row(3, m2, p2, false));
            assert_eq!(row(3, m2, p2, true), m2 != p2, "members {m2}");
        }
        for (m2, p2) in [(7, 1), (7, 7), (7, 0), (6, 0), (6, 6), (5, 0), (5, 4), (8, 0), (15, 3), (2, 0)] {
            assert!(!row(3, m2, p2, false) && !row(3, m2, p2, true), "members {m2}, presume_commit {p2}");
        }
    }

    #[test]
    fn the_first_record_that_fails_is_told() {
        let mut log: Vec<LogRecord> = (0..8).map(|transaction| LogRecord::Committed { transaction }).collect();
        assert_eq!(check_image(&image(1, &log)), (0, 8));
        log[6] = LogRecord::Committed { transaction: 9 };
        assert_eq!(check_image(&image(1, &log)), (27, 6));
        log[4] = LogRecord::Prepared { transaction: 4, presumption: 2 };
        assert_eq!(check_image(&image(1, &log)), (28, 4));
        // the later one of the two that do not fit
        log[3] = LogRecord::Aborted { transaction: 1 };
        assert_eq!(check_image(&image(1, &log)), (24, 3));
        log[0] = LogRecord::AbortEnd { transaction: 0 };
        assert_eq!(check_image(&image(1, &log)), (23, 0));
        assert_eq!(check_image(&image(9, &log)), (21, 0));
    }
}
