//! Random log images: accepted ones, damaged ones, and bytes behind a right opening.

use crate::codec::*;
use crate::random::*;

/// Records of one transaction that may stand at a site.
fn legal_records(rng: &mut Rng, site: u8, transaction: u8) -> Vec<LogRecord> {
    use LogRecord::*;
    let members = 1 + rng.below(255) as u8;
    let presume_commit = if rng.percent(25) { members } else { members & rng.byte() };
    let init = Init { transaction, members, presume_commit };
    // what remains of Init's, mostly all
    let remaining = if rng.percent(50) { members } else { members & rng.byte() };
    let commit = Commit { transaction, members: remaining, presume_commit: presume_commit & remaining };
    let vote = Prepared { transaction, presumption: rng.below(2) as u8 };
    let row = if site == COORDINATOR {
        match rng.below(9) {
            0 => vec![],
            1 => vec![init],
            2 => vec![init, commit],
            3 => vec![init, commit, CommitEnd { transaction }],
            4 => vec![commit],
            5 => vec![commit, CommitEnd { transaction }],
            6 => vec![CommitEnd { transaction }],
            7 => vec![init, AbortEnd { transaction }],
            _ => vec![AbortEnd { transaction }],
        }
    } else {
        match rng.below(6) {
            0 => vec![],
            1 => vec![vote],
            2 => vec![vote, Committed { transaction }],
            3 => vec![vote, Aborted { transaction }],
            4 => vec![Committed { transaction }],
            _ => vec![Aborted { transaction }],
        }
    };
    let fits = |r: &LogRecord| LogRecord::parse(site, &r.bytes()).is_ok();
    if legal_sequence(&row) && row.iter().all(fits) {
        row
    } else {
        legal_records(rng, site, transaction)
    }
}

/// Rows of several transactions mixed, each in its own order.
fn interleave(rng: &mut Rng, mut rows: Vec<Vec<LogRecord>>) -> Vec<LogRecord> {
    let mut log = Vec::new();
    rows.retain(|r| !r.is_empty());
    while !rows.is_empty() {
        let i = rng.below(rows.len());
        log.push(rows[i].remove(0));
        rows.retain(|r| !r.is_empty());
    }
    log
}

pub fn legal_log(rng: &mut Rng, site: u8) -> Vec<LogRecord> {
    if rng.percent(6) {
        // As long as a log can be, or one less or more (then no longer legal).
        let longest = if site == COORDINATOR { 3 } else { 2 };
        let longest_row = |rng: &mut Rng, h| loop {
            let row = legal_records(rng, site, h);
            if row.len() == longest {
                return row;
            }
        };
        let rows = (0..TRANSACTIONS).map(|h| longest_row(rng, h)).collect();
        let mut log = interleave(rng, rows);
        match rng.below(6) {
            0 => drop(log.pop()),
            1 => log.push(log[0]),
            _ => {}
        }
        return log;
    }
    let few = rng.percent(60);
    let rows = (0..TRANSACTIONS)
        .map(|h| if few && rng.percent(60) { vec![] } else { legal_records(rng, site, h) })
        .collect();
    interleave(rng, rows)
}

/// An image with an exact pair table over any records.
fn image_of_raw(site: u8, records: &[Vec<u8>]) -> Vec<u8> {
    let mut out = OPENING.to_vec();
    out.push(site);
    out.push(records.len() as u8);
    let mut offset = 6 + 4 * records.len();
    for r in records {
        out.extend((offset as u16).to_le_bytes());
        out.extend((r.len() as u16).to_le_bytes());
        offset += r.len();
    }
    for r in records {
        out.extend(r);
    }
    out
}

/// A fault in one record by itself: kind, length, transaction, mask or presumption.
fn spoil(rng: &mut Rng, record: &mut Vec<u8>) {
    match (rng.below(6), record.as_mut_slice()) {
        (0, [kind, ..]) => *kind = rng.pick(&[0, 3, 6, 8, 255]),
        (1, _) => record.resize(rng.below(6), 0),
        (3.., [1 | 2, _, members, _]) if rng.percent(30) => *members = 0,
        (3.., [1 | 2, _, members, presume_commit]) => *presume_commit = if rng.percent(50) { 0 } else { !*members },
        (3.., [5, _, presumption]) => *presumption = 2 + rng.below(254) as u8,
        (_, [_, transaction, ..]) => *transaction = 8 + rng.below(248) as u8,
        _ => {}
    }
}

pub fn random_image(rng: &mut Rng) -> Vec<u8> {
    let site = rng.below(9) as u8;
    let legal = |rng: &mut Rng| {
        let log = legal_log(rng, site);
        image(site, &log)
    };
    match rng.below(100) {
        0..=24 => legal(rng),
        25..=39 => {
            // A legal log with one record spoilt, or one twice, or two.
            let mut records: Vec<Vec<u8>> = legal_log(rng, site).iter().map(|r| r.bytes()).collect();
            let mut at = rng.below(records.len().max(1));
            for _ in 0..1 + rng.below(2) {
                if let Some(record) = records.get_mut(at) {
                    spoil(rng, record);
                }
                at += rng.below(2);
            }
            image_of_raw(site, &records)
        }
        40..=59 => {
            let mut bytes = legal(rng);
            let at = rng.below(bytes.len());
            bytes[at] = match rng.below(3) {
                0 => rng.byte(),
                1 => bytes[at].wrapping_add(1),
                _ => bytes[at] ^ (1 << rng.below(8)),
            };
            bytes
        }
        60..=66 => {
            let mut bytes = legal(rng);
            bytes.truncate(rng.below(bytes.len() + 1));
            bytes
        }
        67..=71 => {
            let mut bytes = legal(rng);
            for _ in 0..1 + rng.below(4) {
                bytes.push(rng.byte());
            }
            bytes
        }
        72..=76 => {
            // Random bytes behind a right opening.
            let mut bytes = OPENING.to_vec();
            for _ in 0..rng.below(40) {
                bytes.push(if rng.percent(50) { rng.below(20) as u8 } else { rng.byte() });
            }
            bytes
        }
        77..=89 => {
            // An exact table, records of right length with fields near their ranges, any order.
            let most = if site == 0 { 25 } else { 17 };
            let count = if rng.percent(80) { rng.below(5) } else { rng.below(most + 1) };
            let transactions = 1 + rng.below(3);
            let mask = 1 + rng.below(3) as u8;
            let mut records = Vec::new();
            for _ in 0..count {
                let kind = if site == 0 { rng.pick(&[1, 1, 2, 2, 3, 4]) } else { rng.pick(&[5, 5, 6, 7]) };
                let kind = if rng.percent(3) { rng.below(9) as u8 } else { kind };
                let h = if rng.percent(3) { rng.byte() } else { rng.below(transactions) as u8 };
                let mut record = vec![kind, h];
                match kind {
                    1 | 2 => {
                        let members = match rng.below(10) {
                            0 => rng.byte(),
                            1..=3 => mask & rng.byte(),
                            _ => mask,
                        };
                        let part = if rng.percent(60) { 1 & members } else { rng.below(4) as u8 };
                        record.extend([members, part]);
                    }
                    5 => record.push(if rng.percent(95) { rng.below(2) as u8 } else { rng.byte() }),
                    _ => {}
                }
                if rng.percent(2) {
                    record.push(0);
                }
                if rng.percent(2) {
                    record.pop();
                }
                records.push(record);
            }
            image_of_raw(site, &records)
        }
        90..=94 => {
            // A legal log with two records exchanged, or one doubled or dropped.
            let mut log = legal_log(rng, site);
            if !log.is_empty() {
                let (i, j) = (rng.below(log.len()), rng.below(log.len()));
                match rng.below(3) {
                    0 => log.swap(i, j),
                    1 => log.insert(j, log[i]),
                    _ => {
                        log.remove(i);
                    }
                }
            }
            image(site, &log)
        }
        95..=97 => {
            // A legal log under another site's number.
            let mut bytes = legal(rng);
            bytes[4] = rng.below(11) as u8;
            bytes
        }
        _ => (0..rng.below(30)).map(|_| rng.byte()).collect(),
    }
}
