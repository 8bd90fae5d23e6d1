//! Lists of events that show which unforced records survive a loss of power: the coordinator or a participant is brought
//! to 1 to 8 of them, of as many transactions, and loses power with every keep: in a crash; in the event that appends the
//! last of them; in one that appends a record and forces it, before the force and behind it. Keeps that differ above the
//! records alone are tried one after another, as all but the last are refused. Then the site restarts, its timers tell what
//! it knows, it writes again what it has lost, and loses power once more; at last its log is trimmed record by record.

use crate::codec::*;
use crate::joint::*;
use crate::random::Event;
use crate::step::Effect;

/// The participant that all transactions have, and another one.
const P: u8 = 3;
const Q: u8 = 6;

/// A transaction on its way to a record of the site.
struct Way {
    /// All that comes before.
    before: Vec<Event>,
    appends: Event,
    /// Brings the record again where it was lost.
    again: Vec<Event>,
}

impl Way {
    /// The same event brings the record again.
    fn of(before: Vec<Event>, appends: Event) -> Way {
        Way { before, appends, again: vec![appends] }
    }
}

/// The ways to a record that is not forced, and those to one that is.
struct Ways {
    unforced: Vec<fn(u8) -> Way>,
    forced: Vec<fn(u8) -> Way>,
}

fn open(h: u8, members: Mask, presume_commit: Mask) -> Event {
    [0, h, members, presume_commit, NO_CUT, 0]
}

fn begin(h: u8) -> Event {
    [1, h, 0, 0, NO_CUT, 0]
}

fn deliver(h: u8, b: u8, kind: u8) -> Event {
    [2, h, b, kind, NO_CUT, 0]
}

fn timer(h: u8, site: u8) -> Event {
    [3, h, site, 0, NO_CUT, 0]
}

/// P alone: it has voted, and Commit was sent.
fn decided(h: u8, presume_commit: Mask) -> Vec<Event> {
    vec![open(h, bit(P), presume_commit), begin(h), deliver(h, P, PREPARE), deliver(h, P, YES)]
}

/// P and Q, which presumes commit: Q has voted, and P's vote was sent.
fn voted(h: u8) -> Vec<Event> {
    let votes = [deliver(h, Q, PREPARE), deliver(h, P, PREPARE), deliver(h, Q, YES)];
    [&[open(h, bit(P) | bit(Q), bit(Q)), begin(h)][..], &votes].concat()
}

/// P alone: Abort was sent, after its vote or without one.
fn timed_out(h: u8, presume_commit: Mask, prepared: bool) -> Vec<Event> {
    let vote = prepared.then_some(deliver(h, P, PREPARE));
    [open(h, bit(P), presume_commit), begin(h)].into_iter().chain(vote).chain([timer(h, COORDINATOR)]).collect()
}

/// After Init alone is left, Abort and its ack bring AbortEnd.
fn acked(h: u8) -> Vec<Event> {
    vec![deliver(h, P, ABORT), deliver(h, P, ABORT_ACK)]
}

fn coordinators() -> Ways {
    let commit_end = |h| {
        let before = [decided(h, 0), vec![deliver(h, P, COMMIT)]].concat();
        Way::of(before, deliver(h, P, COMMIT_ACK))
    };
    let abort_end = |h| {
        let before = [timed_out(h, bit(P), false), vec![deliver(h, P, ABORT)]].concat();
        Way::of(before, deliver(h, P, ABORT_ACK))
    };
    let commit_end_behind_init = |h| {
        let before = [voted(h), vec![deliver(h, P, YES), deliver(h, P, COMMIT)]].concat();
        Way::of(before, deliver(h, P, COMMIT_ACK))
    };
    // the last effect of the row
    let abort_end_at_a_no = |h| {
        let before = vec![open(h, bit(P) | bit(Q), bit(P)), begin(h), timer(h, P), deliver(h, P, PREPARE)];
        Way { before, appends: deliver(h, P, NO), again: acked(h) }
    };
    let nobody_remains = |h| {
        let before = vec![open(h, bit(P), bit(P)), begin(h), [8, h, P, 0, NO_CUT, 0], deliver(h, P, PREPARE)];
        Way { before, appends: deliver(h, P, READ_ONLY), again: acked(h) }
    };
    let init = |h| Way::of(vec![open(h, bit(P), bit(P))], begin(h));
    let commit = |h| Way::of(voted(h), deliver(h, P, YES));
    Ways {
        unforced: vec![commit_end, abort_end, commit_end_behind_init, abort_end_at_a_no, nobody_remains],
        forced: vec![init, commit],
    }
}

fn participants() -> Ways {
    let committed = |h| Way::of(decided(h, bit(P)), deliver(h, P, COMMIT));
    let aborted_behind_a_vote = |h| Way::of(timed_out(h, 0, true), deliver(h, P, ABORT));
    let aborted = |h| Way::of(timed_out(h, 0, false), deliver(h, P, ABORT));
    let prepared = |h| Way::of(vec![open(h, bit(P), 0), begin(h)], deliver(h, P, PREPARE));
    let committed_forced = |h| Way::of(decided(h, 0), deliver(h, P, COMMIT));
    let aborted_forced = |h| Way::of(timed_out(h, bit(P), true), deliver(h, P, ABORT));
    Ways {
        unforced: vec![committed, aborted_behind_a_vote, aborted],
        forced: vec![prepared, committed_forced, aborted_forced],
    }
}

pub fn mask_lists() -> Vec<Vec<Event>> {
    let mut lists = vec![];
    for (site, ways) in [(COORDINATOR, coordinators()), (P, participants())] {
        for unforced in 1..=TRANSACTIONS as usize {
            let way = |i: usize| ways.unforced[(unforced + i) % ways.unforced.len()](transaction(unforced, i));
            let all: Vec<Way> = (0..unforced).map(way).collect();
            lists.extend(crashed(site, &all));
            lists.extend(cut(site, &all, 1));
            for forced in &ways.forced {
                let last = unforced - 1;
                let all: Vec<Way> = (0..last).map(way).chain([forced(transaction(unforced, last))]).collect();
                lists.extend(cut(site, &all, 1));
                lists.extend(cut(site, &all, 2));
            }
        }
    }
    lists
}

/// The transaction of a record: they do not stand in the order of their numbers.
fn transaction(unforced: usize, i: usize) -> u8 {
    ((unforced + 3 * i) % TRANSACTIONS as usize) as u8
}

/// The site loses power in a crash behind all the records.
fn crashed(site: u8, ways: &[Way]) -> Vec<Vec<Event>> {
    let before = [befores(ways), ways.iter().map(|way| way.appends).collect()].concat();
    lost(site, ways, before, [6, 0, site, 0, NO_CUT, 0], ways.len())
}

/// It loses power in the event that appends the last record, so many effects from there on.
fn cut(site: u8, ways: &[Way], effects_from: usize) -> Vec<Vec<Event>> {
    let (last, others) = ways.split_last().expect("a way");
    let before = [befores(ways), others.iter().map(|way| way.appends).collect()].concat();
    let mut event = last.appends;
    let Ok(Plan::Row { effects, .. }) = after(&before).judge(&event) else { panic!("{event:?} has no row") };
    let append = effects.iter().position(|(_, effect)| matches!(effect, Effect::Append(_))).expect("a record");
    event[4] = (append + effects_from) as u8;
    lost(site, ways, before, event, if effects_from == 1 { ways.len() } else { 0 })
}

fn befores(ways: &[Way]) -> Vec<Event> {
    ways.iter().flat_map(|way| way.before.iter().copied()).collect()
}

fn after(events: &[Event]) -> Run {
    let mut run = Run::fresh();
    for event in events {
        run.event(event);
    }
    run
}

/// A list for every keep of the records then there; those that name more are refused before it.
fn lost(site: u8, ways: &[Way], before: Vec<Event>, event: Event, unforced: usize) -> Vec<Vec<Event>> {
    let with = |keep: usize| [event[0], event[1], event[2], event[3], event[4], keep as u8];
    let list = |keep: usize| {
        let above = (1..256 >> unforced).map(|more| with(keep | more << unforced));
        let events = before.iter().copied().chain(above).chain([with(keep)]).collect();
        told(site, ways, events, keep as u8)
    };
    (0..1 << unforced).map(list).collect()
}

/// What follows the loss of power.
fn told(site: u8, ways: &[Way], mut list: Vec<Event>, keep: u8) -> Vec<Event> {
    let restart = [7, 0, site, 0, NO_CUT, 0];
    let transactions: Vec<u8> = ways.iter().map(|way| way.appends[1]).collect();
    let timers = || transactions.iter().map(|&h| timer(h, site));
    // a site that is down has no unforced record to keep
    list.extend([[7, 0, site, 0, 0, keep.max(1)], restart]);
    list.extend(timers());
    list.extend(ways.iter().flat_map(|way| way.again.iter().copied()));
    // another keep, once with the place behind the last record
    let behind = 1u16 << after(&list).logs[site as usize].unforced();
    let other = !keep.reverse_bits() & (behind - 1) as u8;
    list.extend([other | behind as u8, other].map(|keep| [6, 0, site, 0, NO_CUT, keep]));
    list.push(restart);
    list.extend(timers());
    list.extend(transactions.iter().flat_map(|&h| [[5, h, site, 0, NO_CUT, 0]; 3]));
    list
}
