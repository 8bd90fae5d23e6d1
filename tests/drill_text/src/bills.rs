//! dpr_bill of libdrill_text.a: every pair of bytes against the reference model; tests/vectors/bills.txt; clean runs,
//! whose events have to add up to it in the library's own text; and the table of docs/LESSONS.md.

use crate::fenced::SPACE;
use crate::library::fail;
use crate::Trial;
use reference::bills::{bill_bytes, check, pairs};
use reference::clean_lists::{clean_lists, met_by, names, CleanList};
use reference::codec::{has, COORDINATOR, SITES};
use std::collections::{BTreeMap, BTreeSet};

#[link(name = "drill_text", kind = "static")]
extern "C" {
    fn dpr_bill(members: u8, presume_commit: u8) -> u32;
}

const VECTORS: &str = include_str!("../../vectors/bills.txt");
const LESSONS: &str = include_str!("../../../docs/LESSONS.md");
const SEED: u64 = 7;
/// Times that the clean runs have to meet each thing that may stand before them or in between.
const LEAST: usize = 20;

/// Answer, records, forces, sends.
fn bill(members: u8, presume_commit: u8) -> [u8; 4] {
    unsafe { dpr_bill(members, presume_commit) }.to_le_bytes()
}

pub fn bills(trial: &mut Trial) {
    let calls = every_pair();
    let lines = vectors();
    let runs = clean_runs(trial);
    table_may_fail();
    if let Err(what) = table(LESSONS) {
        eprintln!("FAILED: docs/LESSONS.md: {what}");
        std::process::exit(1);
    }
    println!("dpr_bill: {calls} calls, {lines} vectors, {runs} clean runs, the table of docs/LESSONS.md");
}

/// Twice, and the second time in another order: a call keeps nothing.
fn every_pair() -> usize {
    let bytes = || (0..=255).flat_map(|members| (0..=255).map(move |part| (members, part)));
    let pairs: Vec<(u8, u8)> = bytes().chain(bytes().map(|(members, part)| (part, members))).collect();
    for &(members, presume_commit) in &pairs {
        let (got, expected) = (bill(members, presume_commit), bill_bytes(members, presume_commit));
        if got != expected {
            eprintln!("FAILED: dpr_bill({members}, {presume_commit}) is {got:?}, the reference model {expected:?}");
            std::process::exit(1);
        }
    }
    pairs.len()
}

/// The lines of tests/vectors/bills.txt, whose top says what they mean.
fn vectors() -> usize {
    let lines: Vec<&str> = VECTORS.lines().filter(|line| !line.starts_with('#')).collect();
    for line in &lines {
        let words: Vec<&str> = line.split(' ').collect();
        let [_, "bill", members, presume_commit, "=", right @ ..] = &words[..] else { panic!("vectors: '{line}'") };
        let right: Vec<u8> = right.iter().map(|word| word.parse().unwrap()).collect();
        assert_eq!(bill(members.parse().unwrap(), presume_commit.parse().unwrap()), right[..], "vectors: '{line}'");
    }
    assert_eq!(lines.len(), 64, "vectors: lines");
    lines.len()
}

/// One for each pair of members and presume_commit, through dpr_drill.
fn clean_runs(trial: &mut Trial) -> usize {
    let lists = clean_lists(SEED);
    let mut met: BTreeSet<(u8, u8)> = BTreeSet::new();
    for (i, list) in lists.iter().enumerate() {
        let (names, input) = (list.names, list.events.concat());
        if let Err(broken) = check(names, &input) {
            fail(&format!("by the reference model, {names:?}: {broken}"), &input, SPACE);
        }
        let text = String::from_utf8(trial.list(&input, i % 3)).unwrap();
        let (told, priced) = (told(list, &text), bill(names.members, names.presume_commit));
        if told != priced {
            fail(&format!("the events of {names:?} add up to {told:?}, dpr_bill is {priced:?}"), &input, SPACE);
        }
        let commits = |site: u8| site == COORDINATOR || has(names.members, site);
        let letters: String = (0..SITES).map(|site| if commits(site) { 'C' } else { '-' }).collect();
        let line = format!("HANDOVER {} {letters}", names.transaction);
        if !text.lines().any(|other| other == line) {
            fail(&format!("{names:?} has another line than '{line}'"), &input, SPACE);
        }
        met.insert((names.members, names.presume_commit));
    }
    assert_eq!((lists.len(), met.len()), (6_560, 6_560), "clean runs, and pairs");
    let can = names();
    for (name, times) in met_by(&lists) {
        assert!(times >= LEAST && can.contains(&name), "clean runs: {name}, met {times} times");
    }
    lists.len()
}

/// Answer 0 and the counts of the transaction's events, its open, begin and deliveries, as the text tells them.
fn told(list: &CleanList, text: &str) -> [u8; 4] {
    let mut sum = [0; 4];
    for (event, line) in list.events.iter().zip(text.lines()) {
        let numbers: Vec<u8> = line.split(' ').skip(1).map(|word| word.parse().unwrap()).collect();
        if event[0] <= 2 && event[1] == list.names.transaction && numbers[0] == 0 {
            sum.iter_mut().zip(numbers).for_each(|(sum, number)| *sum += number);
        }
    }
    sum
}

const HEAD: &str = "| n | PrA: c = 0 | c = 1 | c = 2 | c = 3 | c = 4 | c = 5 | c = 6 | c = 7 | PrC: c = n |";

/// The cells of a line of a table.
fn cells(line: &str) -> Option<Vec<&str>> {
    Some(line.trim_end().strip_prefix('|')?.strip_suffix('|')?.split('|').map(str::trim).collect())
}

/// Holds the table of bills in a text to the calls: a row for each n, in it records, forces and sends for each c.
fn table(text: &str) -> Result<(), String> {
    let lines: Vec<&str> = text.lines().collect();
    let heads: Vec<usize> = (0..lines.len()).filter(|&i| lines[i] == HEAD).collect();
    let [head] = heads[..] else { return Err(format!("the table of bills is there {} times", heads.len())) };
    let rows: Vec<Vec<&str>> = lines[head + 1..].iter().map_while(|line| cells(line)).collect();
    if rows.len() != 9 || rows.iter().any(|row| row.len() != 10) {
        return Err("the table of bills is not a line of dashes and eight rows, each of ten cells".to_string());
    }
    if rows[0].iter().any(|cell| cell.is_empty() || cell.bytes().any(|byte| byte != b'-' && byte != b':')) {
        return Err("the table of bills has no line of dashes".to_string());
    }
    let bills = bills_by_size();
    for (n, row) in (1..).zip(&rows[1..]) {
        if row[0] != n.to_string() {
            return Err(format!("the row of n = {n} begins with '{}'", row[0]));
        }
        for (column, cell) in (0..).zip(&row[1..]) {
            let c = if column == 8 { n } else { column };
            let right = if column < 8 && c >= n { "" } else { bills[&(n, c)].as_str() };
            if cell.split_whitespace().collect::<Vec<_>>().join(" ") != right {
                return Err(format!("n = {n}, c = {c}: '{cell}' instead of '{right}'"));
            }
        }
    }
    Ok(())
}

/// By n and c what the calls of all such pairs are: records, forces and sends; where calls differ, all of it.
fn bills_by_size() -> BTreeMap<(u32, u32), String> {
    let mut bills: BTreeMap<(u32, u32), BTreeSet<[u8; 4]>> = BTreeMap::new();
    for (members, presume_commit) in pairs() {
        let sizes = (members.count_ones(), presume_commit.count_ones());
        bills.entry(sizes).or_default().insert(bill(members, presume_commit));
    }
    let words = |[answer, records, forces, sends]: &[u8; 4]| match answer {
        0 => format!("{records} {forces} {sends}"),
        _ => format!("refused by {answer}"),
    };
    let all = |of: BTreeSet<[u8; 4]>| of.iter().map(words).collect::<Vec<_>>().join(", or ");
    bills.into_iter().map(|(sizes, of)| (sizes, all(of))).collect()
}

/// A right table passes, and no other.
fn table_may_fail() {
    let of = |n: u8, c: u8| {
        let first = |count: u8| ((1u16 << count) - 1) as u8;
        let [_, records, forces, sends] = bill_bytes(first(n), first(c));
        format!("{records} {forces} {sends}")
    };
    let row = |n: u8| {
        let cells: Vec<String> = (0..8).map(|c| if c < n { of(n, c) } else { String::new() }).collect();
        format!("| {n} | {} | {} |", cells.join(" | "), of(n, n))
    };
    let rows: Vec<String> = (1..=8).map(row).collect();
    let right = format!("text\n\n{HEAD}\n{}|\n{}\n\ntext\n", "|---".repeat(10), rows.join("\n"));
    assert_eq!(table(&right), Ok(()));
    let without = |part: &str| right.replacen(part, "", 1);
    let wrong = [
        right.repeat(2),
        without(HEAD),
        without(&rows[3]),
        without("|---"),
        right.replace("---", " "),
        right.replace("8 7 12", "8 7 11"),
        right.replace("8 5 9", "9 5 9"),
        right.replace("18 10 24", ""),
        right.replacen(" |  |", " | 4 3 3 |", 1),
        right.replace(&rows[7], &format!("{0}\n{0}", rows[7])),
        right.replace(&rows[0], &rows[1]),
    ];
    for text in wrong {
        assert!(text != right && table(&text).is_err(), "a wrong table of bills passes:\n{text}");
    }
}
