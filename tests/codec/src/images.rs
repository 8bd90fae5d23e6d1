//! Log images: accepted ones of every shape, and what damaged ones are made of.

use crate::codec::{image, LogRecord, OPENING};
use crate::random::Random;
use LogRecord::*;

type Row = Vec<LogRecord>;

/// The rows of records that one transaction may have at the coordinator; some members may be taken out before commit.
/// Those that remain have a member of each presumption.
fn coordinator_rows(transaction: u8, members: u8, presume_commit: u8, taken_out: u8) -> Vec<Row> {
    let init = Init { transaction, members, presume_commit };
    let commit = Commit { transaction, members: members & !taken_out, presume_commit: presume_commit & !taken_out };
    let commit_end = CommitEnd { transaction };
    let abort_end = AbortEnd { transaction };
    vec![
        vec![init],
        vec![init, commit],
        vec![init, commit, commit_end],
        vec![commit],
        vec![commit, commit_end],
        vec![commit_end],
        vec![init, abort_end],
        vec![abort_end],
    ]
}

/// The rows of records that one transaction may have at a participant.
fn participant_rows(transaction: u8, presumption: u8) -> Vec<Row> {
    let prepared = Prepared { transaction, presumption };
    let committed = Committed { transaction };
    let aborted = Aborted { transaction };
    vec![vec![prepared], vec![prepared, committed], vec![prepared, aborted], vec![committed], vec![aborted]]
}

/// Members and PC with a member of each presumption, and one of either that is taken out; others for each transaction.
fn masks(transaction: u8) -> (u8, u8, u8) {
    let turn = |mask: u8| mask.rotate_left(transaction as u32);
    match transaction % 3 {
        0 => (turn(0b011), turn(0b001), 0),
        1 => (turn(0b111), turn(0b001), turn(0b100)),
        _ => (turn(0b111), turn(0b101), turn(0b100)),
    }
}

/// The longest row of a transaction.
fn longest(site: u8, transaction: u8) -> Row {
    let (members, presume_commit, taken_out) = masks(transaction);
    if site == 0 {
        coordinator_rows(transaction, members, presume_commit, taken_out).swap_remove(2)
    } else {
        participant_rows(transaction, transaction % 2).swap_remove(1 + transaction as usize / 2 % 2)
    }
}

/// The rows one record at a time in turn, as their transactions ran side by side.
fn in_turn(rows: &[Row]) -> Row {
    let most = rows.iter().map(Vec::len).max().unwrap_or(0);
    (0..most).flat_map(|i| rows.iter().filter_map(move |row| row.get(i).copied())).collect()
}

/// The rows mixed at random, each in its own order.
fn mixed(random: &mut Random, rows: &[Row]) -> Row {
    let mut left: Vec<&[LogRecord]> = rows.iter().map(Vec::as_slice).collect();
    let mut log = Vec::new();
    loop {
        left.retain(|row| !row.is_empty());
        if left.is_empty() {
            return log;
        }
        let i = random.below(left.len());
        log.push(left[i][0]);
        left[i] = &left[i][1..];
    }
}

/// A log of several transactions, each with any row that it may have.
fn random_log(random: &mut Random, site: u8) -> Row {
    let rows: Vec<Row> = (0..8)
        .filter_map(|transaction| {
            if random.once_in(3) {
                return None;
            }
            let mut rows = if site == 0 {
                // the first two remain
                let (first, others) = (1 << random.below(8), random.byte());
                let members = others | first | first.rotate_left(1);
                let presume_commit = first | others & random.byte() & !first.rotate_left(1);
                let taken_out = random.byte() & !first & !first.rotate_left(1);
                coordinator_rows(transaction, members, presume_commit, taken_out)
            } else {
                participant_rows(transaction, random.below(2) as u8)
            };
            Some(rows.swap_remove(random.below(rows.len())))
        })
        .collect();
    mixed(random, &rows)
}

/// Accepted images: empty logs, every row, the largest logs, transactions mixed, logs whose first records are trimmed.
pub fn accepted(random: &mut Random) -> Vec<Vec<u8>> {
    let mut logs: Vec<(u8, Row)> = (0..9).map(|site| (site, vec![])).collect();
    for i in 0..8 {
        let (members, presume_commit, taken_out) = masks(i);
        logs.push((0, coordinator_rows(i, members, presume_commit, taken_out).swap_remove(i as usize)));
    }
    for i in 0..5 {
        logs.push((1 + i, participant_rows(i, 0).swap_remove(i as usize)));
        logs.push((8 - i, participant_rows(7 - i, 1).swap_remove(i as usize)));
    }
    // all of one presumption
    let none = Commit { transaction: 4, members: 0xFF, presume_commit: 0 };
    let init = Init { transaction: 6, members: 0xFF, presume_commit: 0xFF };
    let commit = Commit { transaction: 6, members: 0xFF, presume_commit: 0xFF };
    logs.push((0, vec![none]));
    logs.push((0, vec![none, CommitEnd { transaction: 4 }]));
    logs.push((0, vec![init, commit]));
    logs.push((0, vec![init, AbortEnd { transaction: 6 }]));
    logs.push((0, vec![commit]));
    // all of one presumption taken out
    let init = Init { transaction: 5, members: 0xFF, presume_commit: 0x0F };
    let of_pra = Commit { transaction: 5, members: 0xF0, presume_commit: 0 };
    logs.push((0, vec![init, of_pra, CommitEnd { transaction: 5 }]));
    logs.push((0, vec![init, Commit { transaction: 5, members: 0x0F, presume_commit: 0x0F }]));
    // the largest, and what trimming leaves of them
    for (site, trimmed) in [(0, [1, 2, 4, 7, 12, 17, 23]), (1, [1, 2, 3, 5, 8, 11, 15]), (8, [1, 3, 6, 9, 12, 13, 14])]
    {
        let rows: Vec<Row> = (0..8).map(|transaction| longest(site, transaction)).collect();
        let one_by_one = rows.concat();
        let side_by_side = in_turn(&rows);
        for n in trimmed {
            let from = if n % 2 == 0 { &one_by_one } else { &side_by_side };
            logs.push((site, from[n..].to_vec()));
        }
        logs.push((site, mixed(random, &rows)));
        logs.push((site, one_by_one));
        logs.push((site, side_by_side));
    }
    for i in 0..8 {
        logs.push((0, random_log(random, 0)));
        logs.push((1 + i, random_log(random, 1 + i)));
    }
    logs.iter().map(|(site, log)| image(*site, log)).collect()
}

/// An image over any records, with an exact pair table as far as 16 bits go.
pub fn exact(site: u8, records: &[Vec<u8>]) -> Vec<u8> {
    let mut out = OPENING.to_vec();
    out.extend([site, records.len() as u8]);
    let mut offset = 6 + 4 * records.len();
    for record in records {
        out.extend((offset as u16).to_le_bytes());
        out.extend((record.len() as u16).to_le_bytes());
        offset += record.len();
    }
    out.extend(records.concat());
    out
}

/// The records of an accepted image.
pub fn records_of(image: &[u8]) -> Vec<Vec<u8>> {
    let table = image[6..].chunks(4).take(image[5] as usize);
    table.map(|pair| image[pair[0] as usize..][..pair[2] as usize].to_vec()).collect()
}

/// Records that no log of that site may hold, and the number that refuses each by itself: 23 for kind or length, 27 for
/// the transaction, 28 for a mask or the presumption. Some have a fault of a later number too.
pub fn bad_records(site: u8) -> Vec<(u8, Vec<u8>)> {
    let by_number: [(u8, &[&[u8]]); 3] = if site == 0 {
        [
            (23, &[&[], &[1], &[0, 0], &[5, 0, 1], &[6, 0], &[255, 255], &[1, 0, 3], &[2, 8, 0, 0, 0], &[4, 0, 0]]),
            (27, &[&[1, 8, 3, 1], &[1, 8, 3, 0], &[2, 255, 0, 0], &[2, 9, 1, 2], &[3, 8], &[4, 128]]),
            (28, &[&[1, 0, 0, 0], &[1, 7, 3, 0], &[1, 4, 1, 2], &[2, 7, 0, 0], &[2, 0, 1, 3], &[2, 1, 0, 4]]),
        ]
    } else {
        [
            (23, &[&[], &[6], &[0, 0], &[1, 0, 3, 1], &[4, 0], &[8, 8], &[5, 0], &[6, 8, 0], &[5, 8, 2, 0]]),
            (27, &[&[5, 8, 0], &[5, 8, 2], &[5, 255, 1], &[6, 8], &[7, 128]]),
            (28, &[&[5, 0, 2], &[5, 7, 255]]),
        ]
    };
    by_number.iter().flat_map(|(number, records)| records.iter().map(|record| (*number, record.to_vec()))).collect()
}

/// Bytes of the length given, or a little less: nothing but random, or right up to some place; or an accepted image.
pub fn random_image(random: &mut Random, length: usize) -> Vec<u8> {
    let mut bytes: Vec<u8> = (0..length).map(|_| random.byte()).collect();
    let right = random.below(7);
    let site = if random.once_in(20) { random.byte() } else { random.below(9) as u8 };
    if right == 0 || length < 6 {
        return bytes;
    }
    if right == 6 {
        let site = site % 9;
        return image(site, &random_log(random, site));
    }
    bytes[..4].copy_from_slice(&OPENING);
    if right == 1 {
        return bytes;
    }
    bytes[4] = site;
    bytes[5] = random.below(((length - 6) / 4).min(26) + 1) as u8;
    if right == 2 {
        return bytes;
    }
    if right == 3 {
        // an exact table over records of any bytes
        let count = bytes[5] as usize;
        let mut cuts: Vec<usize> = (1..count).map(|_| random.below(length - 6 - 4 * count + 1)).collect();
        cuts.extend([0, length - 6 - 4 * count]);
        cuts.sort();
        let mut records: Vec<Vec<u8>> =
            cuts.windows(2).map(|w| (w[0]..w[1]).map(|_| random.below(9) as u8).collect()).collect();
        records.truncate(count);
        return exact(site, &records);
    }
    // an exact table over records that are sound, or nearly so, in any order
    let transactions = 1 + random.below(8);
    let faults = if right == 4 { 30 } else { 1000 };
    let most = if site == 0 { 24 } else { 16 };
    let mut records = Vec::new();
    let mut used = 6;
    loop {
        let record = random_record(random, site, transactions, faults);
        used += 4 + record.len();
        if used > length || records.len() == most && !random.once_in(50) {
            return exact(site, &records);
        }
        records.push(record);
    }
}

/// A record of that site, with a fault once in so many times.
fn random_record(random: &mut Random, site: u8, transactions: usize, faults: usize) -> Vec<u8> {
    let mut kind = if site == 0 { 1 + random.below(4) } else { 5 + random.below(3) };
    if random.once_in(faults) {
        kind = random.below(10);
    }
    let mut record = vec![kind as u8, random.below(transactions) as u8];
    match kind {
        // a Commit names all of Init's members, or a part
        1 | 2 => {
            let members = if kind == 2 && random.once_in(2) { 1 + random.below(3) as u8 } else { 3 };
            record.extend([members, (1 + random.below(3) as u8) & members]);
        }
        5 => record.push(random.below(2) as u8),
        _ => {}
    }
    if random.once_in(faults) {
        let i = random.below(record.len());
        record[i] = random.byte();
    }
    if random.once_in(faults) {
        record.resize(random.below(6), 0);
    }
    record
}
