//! Lists of events that go to states which chance hardly reaches.

use crate::lists::member;
use reference::codec::{bit, each, has, Mask, SITES};
use reference::joint::NO_CUT;
use reference::random::{random_mask, some_of, Event, Rng};

/// A coordinator with all that it can have to do at a restart: eight transactions of eight members, each aborting or
/// committing. Its restarts are cut after every number of effects, and once above them.
pub fn long_restarts(rng: &mut Rng, commits: bool) -> Vec<u8> {
    let mut list = vec![];
    for h in 0..8 {
        // an abort after a restart needs an Init, a commit that is told again a member that presumes abort
        let presume_commit = if commits { !bit(1 + rng.below(8) as u8) & rng.byte() } else { rng.byte() | bit(1 + h) };
        list.push([0, h, 255, presume_commit, NO_CUT, 0]);
        list.push([1, h, 0, 0, NO_CUT, 0]);
        for kind in [0, 1] {
            let voters = if commits { 8 } else { rng.below(8) as u8 };
            list.extend((1..=voters).map(|b| [2, h, b, kind, NO_CUT, 0]));
        }
    }
    list.push([6, 0, 0, 0, NO_CUT, 0]);
    list.extend((0..=73).map(|cut| [7, 0, 0, 0, cut, 0]));
    list.push([7, 0, 0, 0, NO_CUT, 0]);
    list.concat()
}

/// Participants and a coordinator with many unforced records, and crashes that keep some of them: as many of the lowest
/// bits of keep are tried as the records are.
pub fn many_unforced(rng: &mut Rng, keep: u8) -> Vec<u8> {
    let mut list = vec![];
    let members = random_mask(rng, 3);
    for h in 0..8 {
        let presume_commit = if rng.percent(70) { members } else { members & rng.byte() };
        list.push([0, h, members, presume_commit, NO_CUT, 0]);
        list.push([1, h, 0, 0, NO_CUT, 0]);
        list.extend(each(members).map(|b| [2, h, b, 0, NO_CUT, 0]));
    }
    for h in 0..8 {
        if rng.percent(40) {
            list.push([3, h, 0, 0, NO_CUT, 0]);
        } else {
            list.extend(each(members).map(|b| [2, h, b, 1, NO_CUT, 0]));
        }
    }
    // outcomes and acks, without a force
    for kind in [3, 4, 5, 6] {
        list.extend((0..8).flat_map(|h| each(members).map(move |b| [2, h, b, kind, NO_CUT, 0])));
    }
    for site in (0..SITES).filter(|&site| site == 0 || has(members, site)) {
        list.extend((0..=8).map(|less| [6, 0, site, 0, NO_CUT, keep & (255u16 >> less) as u8]));
        list.push([7, 0, site, 0, NO_CUT, 0]);
        list.extend((0..8).map(|h| [3, h, site, 0, NO_CUT, 0]));
        list.extend((0..24).map(|i| [5, i / 3, site, 0, NO_CUT, 0]));
    }
    list.concat()
}

/// A commit whose acks do not come: participants have trimmed their logs and vote No on a late Prepare, the coordinator's
/// timer and its restarts tell the outcome again, with cuts.
pub fn late_votes(rng: &mut Rng) -> Vec<u8> {
    let h = rng.below(8) as u8;
    let size = 2 + rng.below(7);
    let members = random_mask(rng, size);
    let presume_commit = members & rng.byte() & !(members & members.wrapping_neg());
    let mut list = vec![[0, h, members, presume_commit, NO_CUT, 0], [1, h, 0, 0, NO_CUT, 0]];
    for kind in [0, 1, 3] {
        list.extend(each(members).map(|b| [2, h, b, kind, NO_CUT, 0]));
    }
    for b in each(members) {
        list.push([4, 0, b, 0, NO_CUT, 0]);
        list.extend([[5, h, b, 0, NO_CUT, 0]; 2]);
        list.push([2, h, b, 0, NO_CUT, 0]);
    }
    for _ in 0..20 {
        let b = member(rng, members);
        let cut = if rng.percent(40) { rng.below(4) as u8 } else { NO_CUT };
        list.push(match rng.below(4) {
            0 => [2, h, b, 2, cut.saturating_mul(255), 0],
            1 => [2, h, b, 1, cut, 0],
            2 => [3, h, 0, 0, cut, 0],
            _ => [2, h, b, 5, if rng.percent(50) { NO_CUT } else { 0 }, 0],
        });
        list.push([7, 0, 0, 0, if rng.percent(20) { cut } else { NO_CUT }, 0]);
        list.push([7, 0, 0, 0, NO_CUT, 0]);
    }
    list.concat()
}

/// So many events: so many transactions are opened somewhere among forces, most of which are of one site; without a
/// transaction all are.
pub fn many_forces(rng: &mut Rng, transactions: usize, length: usize) -> Vec<u8> {
    let (often, share) = (rng.below(9) as u8, if transactions == 0 { 100 } else { 90 });
    let mut list: Vec<Event> = vec![];
    while list.len() < length - transactions {
        let site = if rng.percent(share) { often } else { rng.below(9) as u8 };
        list.push([4, 0, site, 0, NO_CUT, 0]);
    }
    for h in 0..transactions as u8 {
        let members = rng.byte().max(1);
        list.insert(rng.below(list.len() + 1), [0, h, members, members & rng.byte(), NO_CUT, 0]);
    }
    list.concat()
}

/// Logs as long as they can be: each transaction has all its records at every site. Then they are trimmed record by
/// record, in any order, between crashes and restarts.
pub fn full_logs(rng: &mut Rng, commits: usize) -> Vec<u8> {
    let size = 2 + rng.below(7);
    let members = random_mask(rng, size);
    let lowest = members & members.wrapping_neg();
    let mut ways: Vec<Vec<Event>> = (0..8)
        .map(|h| {
            // some of each presumption
            let presume_commit = lowest | members & rng.byte() & !highest(members);
            let kinds: &[u8] = if rng.percent(commits) { &[0, 1, 3, 5] } else { &[0, 4, 6] };
            let mut way = vec![[0, h, members, presume_commit, NO_CUT, 0], [1, h, 0, 0, NO_CUT, 0]];
            for &kind in kinds {
                if kind == 4 {
                    way.push([3, h, 0, 0, NO_CUT, 0]);
                }
                way.extend(each(members).map(|b| [2, h, b, kind, NO_CUT, 0]));
            }
            way.reverse();
            way
        })
        .collect();
    let mut list = side_by_side(rng, &mut ways);
    if rng.percent(20) {
        list.extend([[4, 0, 0, 0, NO_CUT, 0], [6, 0, 0, 0, NO_CUT, 0], [7, 0, 0, 0, NO_CUT, 0]]);
    }
    for _ in 0..300 {
        let site = if rng.percent(40) { 0 } else { member(rng, members) };
        list.push(match rng.below(20) {
            0 => [4, 0, site, 0, NO_CUT, 0],
            1 => [6, 0, site, 0, NO_CUT, rng.below(4) as u8],
            2 | 3 => [7, 0, site, 0, NO_CUT, 0],
            4 => [2, rng.below(8) as u8, member(rng, members), rng.below(8) as u8, NO_CUT, 0],
            _ => [5, rng.below(8) as u8, site, 0, NO_CUT, 0],
        });
    }
    list.concat()
}

/// Takes events from the ends of eight ways in any order.
fn side_by_side(rng: &mut Rng, ways: &mut [Vec<Event>]) -> Vec<Event> {
    let mut list = vec![];
    while ways.iter().any(|way| !way.is_empty()) {
        list.extend(ways[rng.below(8)].pop());
    }
    list
}

fn shuffle(rng: &mut Rng, events: &mut [Event]) {
    for i in (1..events.len()).rev() {
        events.swap(i, rng.below(i + 1));
    }
}

/// Members that only read, in transactions one after another or side by side; then what is left to be said and trimmed.
pub fn only_read(rng: &mut Rng) -> Vec<u8> {
    let mut ways: Vec<Vec<Event>> = (0..8).map(|h| way_of_readers(rng, h)).collect();
    let mut list = if rng.percent(70) {
        ways.concat()
    } else {
        ways.iter_mut().for_each(|way| way.reverse());
        side_by_side(rng, &mut ways)
    };
    for _ in 0..100 {
        let (h, b) = (rng.below(8) as u8, 1 + rng.below(8) as u8);
        let site = if rng.percent(50) { 0 } else { b };
        list.push(match rng.below(20) {
            0..=10 => [2, h, b, rng.below(8) as u8, NO_CUT, 0],
            11 => [4, 0, site, 0, NO_CUT, 0],
            12 => [6, 0, site, 0, NO_CUT, rng.below(2) as u8],
            13 | 14 => [7, 0, site, 0, if rng.percent(10) { rng.below(9) as u8 } else { NO_CUT }, 0],
            15 => [8, h, b, 0, NO_CUT, 0],
            _ => [5, h, site, 0, NO_CUT, 0],
        });
    }
    list.concat()
}

/// One transaction. Some members only read, and are marked before begin or after it; some let their timer run out, the
/// others vote Yes. Prepares may come twice, votes come in any order; the last may be cut, or the timer comes instead.
/// Then all sites are restarted that are down, and all that was sent comes.
fn way_of_readers(rng: &mut Rng, h: u8) -> Vec<Event> {
    let size = 1 + rng.below(4);
    let members = random_mask(rng, size);
    let some = members & rng.byte();
    let presume_commit = rng.pick(&[0, members, some, some]);
    let share = rng.pick(&[20, 50, 50, 80, 100]);
    let readers = some_of(rng, members, share);
    let quitters = if rng.percent(25) { some_of(rng, members & !readers, 40) } else { 0 };
    let deliver = |b: u8, kind: u8| [2, h, b, kind, NO_CUT, 0];
    let marks: Vec<Event> = each(readers).map(|b| [8, h, b, 0, NO_CUT, 0]).collect();
    let early = rng.below(marks.len() + 1);
    let mut way = vec![[0, h, members, presume_commit, NO_CUT, 0]];
    way.extend(&marks[..early]);
    way.push([1, h, 0, 0, NO_CUT, 0]);
    way.extend(&marks[early..]);
    way.extend(each(quitters).map(|b| [3, h, b, 0, NO_CUT, 0]));
    let vote = |b: u8| match (has(readers, b), has(quitters, b)) {
        (true, _) => 7,
        (_, true) => 2,
        _ => 1,
    };
    let mut prepares: Vec<Event> = each(members).map(|b| deliver(b, 0)).collect();
    let mut votes: Vec<Event> = each(members).map(|b| deliver(b, vote(b))).collect();
    shuffle(rng, &mut prepares);
    shuffle(rng, &mut votes);
    if rng.percent(20) {
        // a second Prepare, and the No that it brings, somewhere among the votes
        let b = member(rng, members);
        prepares.push(deliver(b, 0));
        votes.insert(rng.below(votes.len() + 1), deliver(b, 2));
    }
    if rng.percent(20) {
        votes.insert(rng.below(votes.len() + 1), votes[0]);
    }
    if rng.percent(15) {
        votes.truncate(rng.below(votes.len()));
        votes.push([3, h, 0, 0, NO_CUT, 0]);
    }
    if rng.percent(40) {
        let (cut, keep) = rng.pick(&[(0, 0), (1, 0), (1, 1), (1, 1), (2, 0), (3, 0), (4, 0), (5, 0)]);
        let last = votes.last_mut().unwrap();
        (last[4], last[5]) = (cut, keep);
    }
    way.extend(prepares);
    way.extend(votes);
    way.extend((0..SITES).map(|site| [7, 0, site, 0, NO_CUT, 0]));
    way.extend([3, 4, 5, 6, 7].into_iter().flat_map(|kind| each(members).map(move |b| deliver(b, kind))));
    way
}

fn highest(members: Mask) -> Mask {
    each(members).last().map_or(0, bit)
}
