//! Calls the C functions of libdrill_text.a: dpr_drill on lists of events, whose text is compared with the drill of the
//! reference model, and dpr_bill, see bills.rs. The first difference ends the program with a short list that shows it.
//! Every list is held to demand 3, and the lists have to meet what coverage.rs names.

mod bills;
mod coverage;
mod directed;
#[path = "../../fenced.rs"]
mod fenced;
mod library;
mod lists;

use bills::bills;
use coverage::Coverage;
use directed::{full_logs, late_votes, long_restarts, many_forces, many_unforced, only_read};
use fenced::SPACE;
use library::{fail, text_of, Library};
use lists::{list, Style, STYLES};
use reference::drill::{drill, watched_drill};
use reference::mask_lists::mask_lists;
use reference::monitor;
use reference::order_lists::order_lists;
use reference::random::{event_list, Rng};
use std::time::Instant;

const VECTORS: &str = include_str!("../../vectors/events.txt");
const HEADER: &str = include_str!("../../../include/dpr.h");
const BYTES: usize = 60_000;
const LEAST_LISTS: u64 = 2_000;
const LEAST_EVENTS: u64 = 5_000_000;

struct Trial {
    library: Library,
    coverage: Coverage,
    rng: Rng,
    longest: usize,
}

impl Trial {
    /// One list in a buffer with room: its text is compared, held to demand 3, and returned.
    fn list(&mut self, input: &[u8], more: usize) -> Vec<u8> {
        let (lines, run) = watched_drill(input, |run, event| self.coverage.event(run, event));
        let expected = text_of(&lines);
        let text = self.library.compare(input, &expected, expected.len() + more).to_vec();
        if let Some(line) = two_outcomes(&text) {
            fail(&format!("two outcomes of one transaction: {line}"), input, SPACE);
        }
        if let Err(broken) = monitor::check(&run.history) {
            fail(&format!("demand 3 is broken: {broken}"), input, SPACE);
        }
        self.coverage.list(input, &run, &text);
        self.longest = self.longest.max(text.len());
        text
    }

    /// The same, and then with buffers of other lengths: too short by one and more, of no byte, longer.
    fn with_buffers(&mut self, input: &[u8]) {
        let text = self.list(input, 0);
        let half = self.rng.below(text.len() + 1);
        let more = text.len() + 1 + self.rng.below(300);
        for room in [text.len(), text.len().saturating_sub(1), half, 0, text.len() + 1, more] {
            self.library.compare(input, &text, room);
        }
    }
}

/// A HANDOVER line with entries of commit and of abort.
fn two_outcomes(text: &[u8]) -> Option<String> {
    let text = String::from_utf8_lossy(text);
    let both = |line: &&str| {
        let letters = line.rsplit(' ').next().unwrap_or("");
        letters.contains('X') || letters.contains('C') && letters.contains('A')
    };
    text.lines().filter(|line| line.starts_with("HANDOVER")).find(both).map(str::to_string)
}

fn bytes(hexadecimal: &str) -> Vec<u8> {
    let words = hexadecimal.split([' ', ';']).filter(|word| !word.is_empty());
    words.map(|word| u8::from_str_radix(word, 16).unwrap()).collect()
}

/// The lists of tests/vectors/events.txt, whose top says what its lines mean; the library's own text is held to them.
fn vectors(trial: &mut Trial) {
    let (mut input, mut text, mut claims) = (vec![], String::new(), [0; 3]);
    for line in VECTORS.lines().filter(|line| line.starts_with("  ")) {
        let (word, rest) = line.trim().split_once(' ').unwrap_or((line.trim(), ""));
        let (claim, holds) = match word {
            "in" => {
                input = bytes(rest);
                trial.with_buffers(&input);
                text = String::from_utf8(trial.library.text(&input)).unwrap();
                continue;
            }
            "after" => continue,
            "whole" => (0, text == rest.replace(" | ", "\n") + "\n"),
            "line" => (1, text.lines().any(|line| line == rest)),
            "none" => (2, !text.lines().any(|line| line.starts_with(rest))),
            _ => panic!("vectors: '{word}' is not known"),
        };
        claims[claim] += 1;
        if !holds {
            fail(&format!("vectors: not '{}'", line.trim()), &input, SPACE);
        }
    }
    assert_eq!((trial.coverage.lists, claims), (282, [212, 87, 2]), "vectors: lists and claims");
}

/// Rows cut between any two sends, of every transaction; what was sent then is delivered.
fn orders(trial: &mut Trial) {
    for (i, events) in order_lists().iter().enumerate() {
        trial.list(&events.concat(), i % 3);
    }
}

/// Losses of power with every keep of 1 to 8 unforced records; what has survived is told then.
fn masks(trial: &mut Trial) {
    for (i, events) in mask_lists().iter().enumerate() {
        trial.list(&events.concat(), i % 3);
    }
}

/// Lists whose last event is broken, at every length; no event at all.
fn broken(trial: &mut Trial) {
    for style in STYLES {
        let input = list(&mut trial.rng, &style, 40);
        for length in 0..=input.len() {
            trial.with_buffers(&input[..length]);
        }
    }
}

/// Around 60,000 bytes. What stands behind them has no effect, though it would be accepted.
fn limit(trial: &mut Trial) {
    for style in STYLES {
        let short = Style { transactions: style.transactions.min(4), ..style };
        let full = list(&mut trial.rng, &short, BYTES / 6);
        let more: Vec<u8> = (0..8).flat_map(|h| [0, h, 1, 0, 255, 0, 1, h, 0, 0, 255, 0]).collect();
        let long = [&full[..], &more.repeat(20)].concat();
        let text = trial.list(&full, 0);
        assert_eq!(full.len(), BYTES);
        for length in [1, 2, 5, 6, 12, 96, long.len() - BYTES] {
            assert_eq!(trial.list(&long[..BYTES + length], length), text, "bytes behind 60,000 matter");
        }
        for less in 1..=7 {
            trial.list(&full[..BYTES - less], less);
        }
        trial.library.compare(&long, &text, text.len() - 1);
        trial.library.compare(&long, &text, SPACE);
    }
    assert!(drill(&vec![0; BYTES + 3]).len() == 10_000 + 9);
}

/// Restarts with all that there can be to do, crashes with many unforced records, votes that come late, full logs, members
/// that only read, sites that are forced many times.
fn deep(trial: &mut Trial) {
    for i in 0..60 {
        let input = long_restarts(&mut trial.rng, i % 2 == 0);
        trial.list(&input, i);
    }
    for i in 0..180 {
        let input = many_forces(&mut trial.rng, i % 9, [20, 150, 1_500, 10_000][i % 4]);
        trial.list(&input, i);
    }
    for i in 0..1_200 {
        let input = many_unforced(&mut trial.rng, i as u8);
        trial.list(&input, i);
        let input = late_votes(&mut trial.rng);
        trial.list(&input, i);
        let input = full_logs(&mut trial.rng, [100, 0, 70][i % 3]);
        trial.list(&input, i);
        for _ in 0..5 {
            let input = only_read(&mut trial.rng);
            trial.list(&input, i);
        }
    }
}

/// Short lists of the reference model's own generator, with every buffer.
fn short(trial: &mut Trial) {
    for i in 0..6_000 {
        let events = event_list(&mut trial.rng, [8, 20, 60][i % 3]);
        trial.with_buffers(&events.concat());
    }
}

/// Lists of every style, of 20 to 2,000 events; one in five ends with a broken event.
fn long(trial: &mut Trial) {
    for i in 0..13_000 {
        let style = &STYLES[i % STYLES.len()];
        let length = [50, 150, 400, 1_000][trial.rng.below(4)];
        let length = 20 + trial.rng.below(length);
        let mut input = list(&mut trial.rng, style, length);
        if i % 5 == 0 {
            input.truncate(input.len() - 1 - i % 7 % 5);
        }
        trial.list(&input, i % 3);
    }
}

/// Lists of 10,000 events, wild ones among them.
fn full(trial: &mut Trial) {
    for i in 0..8 * STYLES.len() {
        let input = list(&mut trial.rng, &STYLES[i % STYLES.len()], BYTES / 6);
        trial.list(&input, i);
    }
    for _ in 0..4 {
        let input: Vec<u8> = (0..BYTES).map(|_| trial.rng.byte()).collect();
        trial.list(&input, 0);
    }
}

/// The same list gives the same text after others.
fn same_again(trial: &mut Trial) {
    let inputs: Vec<Vec<u8>> = STYLES.iter().map(|style| list(&mut trial.rng, style, 300)).collect();
    let texts: Vec<Vec<u8>> = inputs.iter().map(|input| trial.list(input, 0)).collect();
    for _ in 0..3 {
        for (input, text) in inputs.iter().zip(&texts).rev() {
            trial.library.compare(input, text, text.len());
        }
    }
}

fn number(name: &str) -> usize {
    let found = HEADER.lines().find_map(|line| line.strip_prefix(&format!("#define {name} ")));
    found.and_then(|rest| rest.split(' ').next()?.parse().ok()).expect("a number of include/dpr.h")
}

fn main() {
    let started = Instant::now();
    let mut trial = Trial { library: Library::new(), coverage: Coverage::default(), rng: Rng::new(20), longest: 0 };
    let parts: [(&str, fn(&mut Trial)); 11] = [
        ("vectors", vectors),
        ("bills", bills),
        ("orders", orders),
        ("masks", masks),
        ("broken", broken),
        ("deep", deep),
        ("short", short),
        ("same again", same_again),
        ("limit", limit),
        ("long", long),
        ("full", full),
    ];
    for (name, part) in parts {
        let (lists, events, since) = (trial.coverage.lists, trial.coverage.events, Instant::now());
        part(&mut trial);
        let (lists, events) = (trial.coverage.lists - lists, trial.coverage.events - events);
        println!("{name}: {lists} lists, {events} events, {:.1} s", since.elapsed().as_secs_f64());
    }
    trial.coverage.show();
    assert!(trial.longest <= number("DPR_DRILL_TEXT_MAX"), "a text longer than include/dpr.h says");
    let Coverage { lists, events, .. } = trial.coverage;
    let mut missing = trial.coverage.missing();
    if lists < LEAST_LISTS || events < LEAST_EVENTS {
        missing.push(format!("{lists} lists and {events} events are too few"));
    }
    if !missing.is_empty() {
        eprintln!("FAILED: the lists do not meet\n  {}", missing.join("\n  "));
        std::process::exit(1);
    }
    let seconds = started.elapsed().as_secs_f64();
    println!("{lists} lists, {events} events, {} calls, {seconds:.1} s, ok", trial.library.calls);
}
