//! Random lists of events for Job 7, each with a clean run of one transaction (bills.rs). Before its opening stands any
//! list, its messages are delivered in any order, and in between stands all that may: events of other transactions,
//! forces, other sites that lose power and restart, refused events of every kind. Tests ask that their lists meet it.

use crate::bills::{disturbance, pairs};
use crate::codec::*;
use crate::joint::*;
use crate::random::*;
use crate::step::*;
use std::collections::BTreeMap;

/// A list with a clean run of the transaction.
#[derive(Clone, PartialEq, Eq, Debug)]
pub struct CleanList {
    pub names: Names,
    pub events: Vec<Event>,
}

/// A list for each pair of members and presume_commit.
pub fn clean_lists(seed: u64) -> Vec<CleanList> {
    let mut rng = Rng::new(seed);
    pairs().map(|(members, presume_commit)| clean_list(&mut rng, members, presume_commit)).collect()
}

/// A list so far, and its run.
struct Listed {
    run: Run,
    events: Vec<Event>,
}

impl Listed {
    fn push(&mut self, event: Event) {
        self.run.event(&event);
        self.events.push(event);
    }
}

fn clean_list(rng: &mut Rng, members: Mask, presume_commit: Mask) -> CleanList {
    let mut list = before(rng);
    let unopened: Vec<u8> = (0..TRANSACTIONS).filter(|&h| list.run.transactions[h as usize].is_none()).collect();
    let names = Names { transaction: rng.pick(&unopened), members, presume_commit };
    let (h, busy) = (names.transaction, rng.pick(&[0, 30, 60, 80]));
    for _ in 0..rng.below(3) {
        list.push(own_event(rng, h));
    }
    let open = [0, h, members, presume_commit, NO_CUT, 0];
    let down: Vec<u8> = (0..SITES).filter(|&site| needs(names, site) && !list.run.up[site as usize]).collect();
    if !down.is_empty() && rng.percent(50) {
        list.push(open);
    }
    down.into_iter().for_each(|site| list.push([7, 0, site, 0, NO_CUT, 0]));
    list.push(open);
    let mut waiting: Vec<Event> = vec![[1, h, 0, 0, NO_CUT, 0]];
    let order = rng.below(4);
    while !waiting.is_empty() {
        if rng.percent(busy) {
            let other = between(rng, &list.run, names);
            list.push(other);
            continue;
        }
        let at = match order {
            0 => 0,
            1 => waiting.len() - 1,
            _ => rng.below(waiting.len()),
        };
        let seen = list.run.history.len();
        list.push(waiting.remove(at));
        waiting.extend(list.run.history[seen..].iter().filter_map(|happening| match *happening {
            Happening::Did { effect: Effect::Send(m), .. } => Some([2, h, m.participant, m.kind, NO_CUT, 0]),
            _ => None,
        }));
    }
    for _ in 0..rng.below(1 + busy / 20) {
        let other = between(rng, &list.run, names);
        list.push(other);
    }
    CleanList { names, events: list.events }
}

fn needs(names: Names, site: u8) -> bool {
    site == COORDINATOR || has(names.members, site)
}

/// Any list that leaves a transaction to be opened.
fn before(rng: &mut Rng) -> Listed {
    let mut list = Listed { run: Run::fresh(), events: vec![] };
    let most = rng.pick(&[0, 15, 40, 100]);
    let events = if most == 0 { vec![] } else { event_list(rng, most) };
    for event in events {
        let opened = list.run.transactions.iter().flatten().count();
        if opened + 1 == TRANSACTIONS as usize && matches!(list.run.judge(&event), Ok(Plan::Open(_))) {
            break;
        }
        list.push(event);
    }
    list
}

/// An event that leaves the run clean and is none of its own, or is refused.
fn between(rng: &mut Rng, run: &Run, names: Names) -> Event {
    for _ in 0..100 {
        let mut event = proposed(rng, run, names);
        match rng.below(20) {
            0 => event[rng.below(6)] = rng.byte(),
            1..=4 => event = with_cut(rng, run, event),
            5 => event = at_the_border(rng, run, event),
            _ => {}
        }
        let own = event[0] <= 2 && event[1] == names.transaction;
        match run.judge(&event) {
            Ok(plan) if own || disturbance(names, &event, &plan).is_some() => {}
            _ => return event,
        }
    }
    [4, 0, COORDINATOR, 0, NO_CUT, 0]
}

/// An event of the transaction, at any site; no opening.
fn own_event(rng: &mut Rng, h: u8) -> Event {
    let b = 1 + rng.below(8) as u8;
    let site = if rng.percent(40) { COORDINATOR } else { b };
    match rng.below(5) {
        0 => [1, h, 0, 0, NO_CUT, 0],
        1 => [2, h, b, rng.below(8) as u8, NO_CUT, 0],
        2 => [3, h, site, 0, NO_CUT, 0],
        3 => [5, h, site, 0, NO_CUT, 0],
        _ => [8, h, b, 0, NO_CUT, 0],
    }
}

/// An event that may be refused, or may disturb the run.
fn proposed(rng: &mut Rng, run: &Run, names: Names) -> Event {
    let opened = run.transactions.iter().flatten().map(|t| t.names.transaction);
    let others: Vec<u8> = opened.filter(|&h| h != names.transaction).collect();
    let any = rng.below(8) as u8;
    let other = if others.is_empty() || rng.percent(5) { any } else { rng.pick(&others) };
    let site = rng.below(9) as u8;
    match rng.below(18) {
        0 | 1 => {
            let members = rng.byte().max(1);
            [0, any, members, members & rng.pick(&[0, 255, 0x5A, 0xA5]), NO_CUT, 0]
        }
        choice @ 2..=11 => event_of(rng, run, other, choice),
        12 => [4, 0, site, 0, NO_CUT, 0],
        13 => [6, 0, site, 0, NO_CUT, some_keep(rng, run.logs[site as usize].unforced())],
        14 => [7, 0, site, 0, NO_CUT, 0],
        15 => wild_event(rng),
        16 => own_event(rng, names.transaction),
        _ => {
            let own = own_event(rng, names.transaction);
            at_the_border(rng, run, own)
        }
    }
}

/// An event of a transaction; one that leads on is looked for.
fn event_of(rng: &mut Rng, run: &Run, h: u8, choice: usize) -> Event {
    let mut event = [1, h, 0, 0, NO_CUT, 0];
    for _ in 0..12 {
        let b = 1 + rng.below(8) as u8;
        let site = if rng.percent(30) { COORDINATOR } else { b };
        event = match choice {
            2 => event,
            3..=7 => [2, h, b, rng.below(8) as u8, NO_CUT, 0],
            8 => [3, h, site, 0, NO_CUT, 0],
            9 | 10 => [5, h, site, 0, NO_CUT, 0],
            _ => [8, h, b, 0, NO_CUT, 0],
        };
        if run.judge(&event).is_ok_and(|plan| leads_on(run, &plan)) {
            break;
        }
    }
    event
}

/// By code: its name, and what refuses an event of it in between, one of the transaction itself and any other.
const CODES: [(&str, &[u8], &[u8]); 10] = [
    ("open", &[1, 2], &[1, 2, 5]),
    ("begin", &[1, 8, 9], &[1, 3, 8, 9]),
    ("delivery", &[1, 4, 7, 9], &[1, 3, 4, 5, 7, 9]),
    ("timer", &[1, 4, 8, 9], &[1, 3, 4, 5, 8, 9]),
    ("force", &[], &[1, 5]),
    ("discard", &[1, 4, 8], &[1, 3, 4, 5, 8]),
    ("crash", &[], &[1, 5, 9]),
    ("restart", &[], &[1, 6, 9]),
    ("mark", &[1, 4, 8], &[1, 3, 4, 5, 8]),
    ("no code", &[], &[1]),
];

/// What else the lists meet: other events accepted in between; then what stands before the opening; then the order.
const NAMES: [&str; 35] = [
    "open",
    "begin at the coordinator",
    "delivery at the coordinator",
    "delivery at a member",
    "delivery at another site",
    "delivery at another site, cut",
    "timer at the coordinator",
    "timer at a member",
    "timer at another site",
    "timer at another site, cut",
    "force at the coordinator",
    "force at a member",
    "force at another site",
    "discard at the coordinator",
    "discard at a member",
    "discard at another site",
    "crash at another site",
    "restart at another site",
    "restart at another site, cut",
    "mark at a member",
    "mark at another site",
    "before: its begin refused by 3",
    "before: its delivery refused by 3",
    "before: its timer refused by 3",
    "before: its discard refused by 3",
    "before: its mark refused by 3",
    "before: its open refused by 5",
    "opened: after a crash or cut of the coordinator",
    "opened: after a crash or cut of a member",
    "opened: another site is down",
    "opened: unforced records at the coordinator",
    "opened: unforced records at a member",
    "opened: first of all",
    "a vote while a Prepare waits",
    "an ack while a Commit waits",
];

/// All the names.
pub fn names() -> Vec<String> {
    let refused = |whose: &'static str, name: &'static str, by: &'static [u8]| {
        by.iter().map(move |number| format!("{whose} {name} refused by {number}"))
    };
    let of = |&(name, its, other): &(_, _, _)| refused("its", name, its).chain(refused("other", name, other));
    CODES.iter().flat_map(of).chain(NAMES.map(String::from)).collect()
}

/// What of it an event meets, given the run before it and the names of the transaction that is to run cleanly.
fn met(run: &Run, event: &Event, names: Names) -> Vec<String> {
    let &[code, x, ..] = event;
    let (name, its, _) = CODES[code.min(9) as usize];
    let own = !its.is_empty() && x == names.transaction;
    let Some(t) = &run.transactions[names.transaction as usize] else { return met_before(run, event, own, names) };
    let waits = |phase: ParticipantPhase| each(names.members).any(|b| t.participants[b as usize - 1] == phase);
    let at = |site: u8| match site {
        COORDINATOR => "the coordinator",
        _ if has(names.members, site) => "a member",
        _ => "another site",
    };
    let found = match run.judge(event) {
        Err(number) => format!("{} {name} refused by {number}", if own { "its" } else { "other" }),
        Ok(_) if own && code == 2 => match event[3] {
            YES if waits(ParticipantPhase::Working) => "a vote while a Prepare waits".to_string(),
            COMMIT_ACK if waits(ParticipantPhase::Prepared) => "an ack while a Commit waits".to_string(),
            _ => return vec![],
        },
        Ok(_) if own && code == 1 => return vec![],
        Ok(_) if own => format!("its {name} accepted"),
        Ok(Plan::Open(_)) => name.to_string(),
        Ok(Plan::Row { site, cut: Some(_), .. }) => format!("{name} at {}, cut", at(site)),
        Ok(Plan::Row { site, .. } | Plan::Force { site } | Plan::Discard { site, .. } | Plan::Crash { site, .. }) => {
            format!("{name} at {}", at(site))
        }
        Ok(Plan::Mark { participant, .. }) => format!("{name} at {}", at(participant)),
    };
    vec![found]
}

fn met_before(run: &Run, event: &Event, own: bool, names: Names) -> Vec<String> {
    let (name, ..) = CODES[event[0].min(9) as usize];
    match run.judge(event) {
        Err(number @ (3 | 5)) if own => vec![format!("before: its {name} refused by {number}")],
        Ok(Plan::Open(of)) if of == names => {
            let (is_member, is_other) = (|s: u8| s > 0 && needs(names, s), |s: u8| !needs(names, s));
            let any = |of: &dyn Fn(u8) -> bool, holds: &dyn Fn(u8) -> bool| (0..SITES).any(|s| of(s) && holds(s));
            let was_down = |s: u8| run.history.iter().any(|h| matches!(*h, Happening::Down { site, .. } if site == s));
            let unforced = |s: u8| run.logs[s as usize].unforced() > 0;
            let met = [
                was_down(COORDINATOR),
                any(&is_member, &was_down),
                any(&is_other, &|s| !run.up[s as usize]),
                unforced(COORDINATOR),
                any(&is_member, &unforced),
                run.events == 0,
            ];
            let from = NAMES.iter().position(|name| name.starts_with("opened: ")).expect("a name");
            NAMES[from..].iter().zip(met).filter(|&(_, met)| met).map(|(name, _)| name.to_string()).collect()
        }
        _ => vec![],
    }
}

/// How often the lists meet each of it; a name that `names` has not is of what cannot be.
pub fn met_by(lists: &[CleanList]) -> BTreeMap<String, usize> {
    let mut counts: BTreeMap<String, usize> = names().into_iter().map(|name| (name, 0)).collect();
    for CleanList { names, events } in lists {
        let mut run = Run::fresh();
        for event in events {
            met(&run, event, *names).into_iter().for_each(|name| *counts.entry(name).or_default() += 1);
            run.event(event);
        }
    }
    counts
}
