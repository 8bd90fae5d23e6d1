//! The function of libdrill_text.a beside a drill in plain Rust, for bench/run-drill.
//! `check`: do both and the reference model agree on the lists of all mixes? `measure MIX EVENTS`: drills of so many
//! events, to be counted by callgrind under the names below; each text is compared.

mod lean;
#[allow(dead_code)]
#[path = "../../../tests/drill_text/src/lists.rs"]
mod lists;
mod run;
mod site;
#[allow(dead_code)]
#[path = "../../site/src/lean.rs"]
mod step;

use lists::{list, Style, PLAIN};
use reference::drill::{drill, drill_events};
use reference::joint::{Plan, Run, NO_CUT};
use reference::mask_lists::mask_lists;
use reference::order_lists::order_lists;
use reference::random::{Event, Rng};
use std::hint::black_box;

#[link(name = "drill_text", kind = "static")]
extern "C" {
    fn dpr_drill(events: *const u8, len: usize, text: *mut u8, text_len: usize) -> usize;
}

#[no_mangle]
#[inline(never)]
extern "C" fn lean_drill(events: *const u8, len: usize, text: *mut u8, text_len: usize) -> usize {
    let (events, text) = unsafe { (std::slice::from_raw_parts(events, len), std::slice::from_raw_parts_mut(text, text_len)) };
    lean::drill(events, text)
}

const EVENTS: usize = 10_000;
const LISTS: usize = 4;
const HEADER: &str = include_str!("../../../include/dpr.h");
const MIXES: [&str; 4] = ["protocol", "crashes", "wild", "steady"];

/// The lists of a mix. In `protocol` and `crashes` eight transactions are opened one after another over a whole list.
fn lists_of(mix: &str) -> Vec<Vec<u8>> {
    let mut rng = Rng::new(20);
    let protocol = Style { all_members: true, timer: 6, again: 20, crash: 2, cut: 3, ..PLAIN };
    let style = match mix {
        "protocol" => protocol,
        "crashes" => Style { crash: 12, restart: 25, cut: 15, ..protocol },
        "wild" => Style { wild: 100, ..PLAIN },
        "steady" => return (0..LISTS).map(|_| steady(&mut rng)).collect(),
        _ => panic!("no mix of that name"),
    };
    (0..LISTS).map(|_| list(&mut rng, &style, EVENTS)).collect()
}

/// After some 40 events the same kinds of events for ever: two transactions that wait for commit's acks, two that wait
/// for abort's, which do not come; participants 1 and 2 have the outcome, 3 stays prepared.
fn steady(rng: &mut Rng) -> Vec<u8> {
    let mut list: Vec<Event> = vec![];
    for h in 0..4 {
        let commits = h < 2;
        list.extend([[0, h, 7, 2, NO_CUT, 0], [1, h, 0, 0, NO_CUT, 0]]);
        list.extend((1..=3).map(|b| [2, h, b, 0, NO_CUT, 0]));
        list.extend((1..=3).filter(|_| commits).map(|b| [2, h, b, 1, NO_CUT, 0]));
        list.extend((!commits).then_some([3, h, 0, 0, NO_CUT, 0]));
        list.extend((1..=2).map(|b| [2, h, b, if commits { 3 } else { 4 }, NO_CUT, 0]));
    }
    let mut run = Run::fresh();
    for event in &list {
        run.event(event);
    }
    while list.len() < EVENTS {
        let h = rng.below(4) as u8;
        let (b, outcome) = (1 + rng.below(3) as u8, if h < 2 { 3 } else { 4 });
        let down = (0..4).find(|&site| !run.up[site as usize]);
        let event = match (rng.below(20), down) {
            (0..=8, Some(site)) => [7, 0, site, 0, if rng.percent(25) { rng.below(12) as u8 } else { NO_CUT }, 0],
            (0..=4, _) => [2, h, b, 1, NO_CUT, 0],
            (5..=8, _) => [2, h, b, 0, NO_CUT, 0],
            (9..=13, _) => [2, h, b % 2 + 1, outcome, NO_CUT, 0],
            (14, _) => [3, h, 0, 0, NO_CUT, 0],
            (15, _) => [3, h, 3, 0, NO_CUT, 0],
            (16, _) => [4, 0, b, 0, NO_CUT, 0],
            (17, _) => [1, h, 0, 0, NO_CUT, 0],
            (18, _) => [0, h, 7, 0, NO_CUT, 0],
            _ => [6, 0, rng.below(4) as u8, 0, NO_CUT, 0],
        };
        run.event(&event);
        list.push(event);
    }
    list.concat()
}

/// Room for every text, as include/dpr.h names it and the drill program lends it. With less the lines are measured first.
fn room() -> usize {
    let found = HEADER.lines().find_map(|line| line.strip_prefix("#define DPR_DRILL_TEXT_MAX "));
    found.and_then(|rest| rest.split(' ').next()?.parse().ok()).expect("a number of include/dpr.h")
}

type Drill = unsafe extern "C" fn(*const u8, usize, *mut u8, usize) -> usize;

fn text(call: Drill, events: &[u8], room: usize) -> Vec<u8> {
    let mut buffer = vec![0xEE; room];
    let length = unsafe { call(events.as_ptr(), events.len(), buffer.as_mut_ptr(), room) };
    assert!(buffer[length..].iter().all(|&byte| byte == 0xEE));
    buffer.truncate(length);
    buffer
}

/// Accepted events, and events with effects, of a hundred.
fn shares(events: &[u8]) -> (f64, f64) {
    let mut run = Run::fresh();
    let (mut accepted, mut with_effects) = (0, 0);
    for event in drill_events(events) {
        let plan = run.judge(event);
        accepted += plan.is_ok() as u32;
        with_effects += matches!(&plan, Ok(Plan::Row { effects, .. }) if !effects.is_empty()) as u32;
        run.event(event);
    }
    let share = |n: u32| 100.0 * n as f64 / drill_events(events).count() as f64;
    (share(accepted), share(with_effects))
}

fn check() {
    for mix in MIXES {
        let (mut accepted, mut with_effects) = (0.0, 0.0);
        for events in lists_of(mix) {
            let expected: String = drill(&events).iter().flat_map(|line| [line, "\n"]).collect();
            for room in [room(), expected.len()] {
                assert!(text(lean_drill, &events, room) == expected.as_bytes(), "{mix}: the drill in plain Rust");
                assert!(text(dpr_drill, &events, room) == expected.as_bytes(), "{mix}: libdrill_text.a");
            }
            assert!(text(lean_drill, &events, expected.len() - 1).is_empty());
            let shares = shares(&events);
            (accepted, with_effects) = (accepted + shares.0 / LISTS as f64, with_effects + shares.1 / LISTS as f64);
        }
        println!("{mix}: the texts agree; {accepted:.0} % of the events are accepted, {with_effects:.0} % have effects");
    }
    // the drill in plain Rust on more lists, also broken ones and one without an event, cut between sends, with every keep
    let mut rng = Rng::new(7);
    let mut lists: Vec<Vec<u8>> = order_lists().iter().chain(&mask_lists()).map(|list| list.concat()).collect();
    for i in 0..3_000 {
        let length = 1 + rng.below(400);
        let mut events = list(&mut rng, &lists::STYLES[i % lists::STYLES.len()], length);
        events.truncate(if i == 0 { 0 } else { events.len() - i % 6 });
        lists.push(events);
    }
    for events in lists {
        let expected: String = drill(&events).iter().flat_map(|line| [line, "\n"]).collect();
        assert!(text(lean_drill, &events, expected.len()) == expected.as_bytes(), "the drill in plain Rust: {events:?}");
    }
}

fn measure(mix: &str, count: usize) {
    for events in lists_of(mix) {
        let events = black_box(&events[..6 * count]);
        let proved = text(dpr_drill, events, room());
        assert!(text(lean_drill, events, room()) == proved);
    }
    println!("{}", LISTS * count);
}

fn main() {
    let words: Vec<String> = std::env::args().skip(1).collect();
    match words.iter().map(String::as_str).collect::<Vec<_>>()[..] {
        ["check"] => check(),
        ["measure", mix, count] => measure(mix, count.parse().unwrap()),
        _ => panic!("check, or measure with the name of a mix and a number of events"),
    }
}
