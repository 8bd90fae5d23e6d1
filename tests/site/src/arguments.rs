//! Arguments of the step: every call that is accepted, and sets that matter.

use crate::codec::{bit, each, has, Mask};
use crate::numbers::{step_on_numbers, ARGUMENTS};
use crate::random::Random;

/// In the order of the call.
pub type Arguments = [u8; ARGUMENTS];
pub const NAMES: [&str; ARGUMENTS] = [
    "site",
    "kind",
    "transaction",
    "participant",
    "presumption",
    "phase",
    "waiting",
    "members",
    "presume_commit",
    "mark",
    "taken_out",
];

/// Places of some of them.
pub const TRANSACTION: usize = 2;
pub const PARTICIPANT: usize = 3;
pub const PRESUMPTION: usize = 4;
pub const WAITING: usize = 6;
pub const MEMBERS: usize = 7;
pub const TAKEN_OUT: usize = 10;

/// The eight bytes of the reference model's answer.
pub fn expected(arguments: Arguments) -> [u8; 8] {
    step_on_numbers(arguments.map(u64::from)).bytes()
}

/// Kinds that name a sender at the coordinator, kinds that name none, and the kinds of a participant.
pub const FROM_PARTICIPANTS: [u8; 5] = [1, 2, 5, 6, 7];
pub const FROM_NOBODY: [u8; 2] = [16, 17];
pub const AT_PARTICIPANT: [u8; 4] = [0, 3, 4, 17];

/// A transaction's masks, and where its coordinator stands.
#[derive(Clone, Copy)]
pub struct Standing {
    pub transaction: u8,
    pub phase: u8,
    pub waiting: Mask,
    pub members: Mask,
    pub presume_commit: Mask,
    pub taken_out: Mask,
}

impl Standing {
    /// The coordinator's call on a message of a participant, or with 0 on begin or timer.
    pub fn coordinator(self, kind: u8, sender: u8) -> Arguments {
        let Standing { transaction, phase, waiting, members, presume_commit, taken_out } = self;
        let of_sender = if sender == 0 { 0 } else { presumption(sender, presume_commit) };
        [0, kind, transaction, sender, of_sender, phase, waiting, members, presume_commit, 0, taken_out]
    }

    /// The call of a participant in this phase; the sets are not its own, and empty.
    pub fn participant(self, kind: u8, b: u8, mark: u8) -> Arguments {
        let Standing { transaction, phase, members, presume_commit, .. } = self;
        [b, kind, transaction, b, presumption(b, presume_commit), phase, 0, members, presume_commit, mark, 0]
    }
}

/// Every members and presume_commit that is a part of them.
pub fn cohorts() -> impl Iterator<Item = (Mask, Mask)> {
    (1..=255).flat_map(|members| parts(members).map(move |part| (members, part)))
}

/// Every part of a set, the empty one first.
pub fn parts(set: Mask) -> impl Iterator<Item = Mask> {
    std::iter::successors(Some(0), move |&part: &Mask| match part.wrapping_sub(set) & set {
        0 => None,
        next => Some(next),
    })
}

pub fn presumption(participant: u8, presume_commit: Mask) -> u8 {
    has(presume_commit, participant) as u8
}

/// The waiting sets of the coordinator's phase are the parts of this set: all but the empty one, or the empty one alone.
pub fn awaitable(phase: u8, members: Mask, presume_commit: Mask) -> Mask {
    match phase {
        1 => members,
        2 => members & !presume_commit,
        3 => members & presume_commit,
        _ => 0,
    }
}

fn may_wait(phase: u8, waiting: Mask) -> bool {
    (waiting != 0) == matches!(phase, 1..=3)
}

/// The sets taken out are the parts of this set.
pub fn removable(phase: u8, waiting: Mask, members: Mask) -> Mask {
    if phase == 0 {
        0
    } else {
        members & !waiting
    }
}

/// With so many members or fewer a call is tried with all transactions, with more of them with one.
const FEW: u32 = 4;

/// Every call that is accepted, but for the transaction.
pub fn accepted(mut call: impl FnMut(Arguments)) {
    let mut number = 1u32;
    let mut each_call = |mut arguments: Arguments| {
        number = number.wrapping_mul(1664525).wrapping_add(1013904223);
        let any = (number >> 29) as u8;
        let transactions = if arguments[MEMBERS].count_ones() > FEW { any..=any } else { 0..=7 };
        for transaction in transactions {
            arguments[TRANSACTION] = transaction;
            call(arguments);
        }
    };
    for (members, presume_commit) in cohorts() {
        for phase in 0..=4 {
            let of = awaitable(phase, members, presume_commit);
            let mut standing = Standing { transaction: 0, phase, waiting: 0, members, presume_commit, taken_out: 0 };
            for waiting in parts(of).filter(|&waiting| may_wait(phase, waiting)) {
                for taken_out in parts(removable(phase, waiting, members)) {
                    standing = Standing { waiting, taken_out, ..standing };
                    for kind in FROM_NOBODY {
                        each_call(standing.coordinator(kind, 0));
                    }
                    for kind in FROM_PARTICIPANTS {
                        each(members).for_each(|b| each_call(standing.coordinator(kind, b)));
                    }
                }
            }
            for (kind, mark) in AT_PARTICIPANT.into_iter().flat_map(|kind| [(kind, 0), (kind, 1)]) {
                each(members).for_each(|b| each_call(standing.participant(kind, b, mark)));
            }
        }
    }
}

/// How many these are. With n members a coordinator's call names one of n senders and 5 kinds, or one of 2 kinds. Over
/// all sets presume_commit each member has so many ways to stand: in Open 2, in Collecting 6 (awaited, taken out or
/// neither, with either presumption), in Committing and Aborting 5, and in Unknown 4; where somebody is awaited, those
/// ways are left out in which nobody is.
pub fn accepted_count() -> u64 {
    let mut sum = 0;
    let mut chosen = 1; // ways to choose n of 8
    for n in 1..=8u32 {
        chosen = chosen * (9 - n as u64) / n as u64;
        let ways = |each: u64| each.pow(n);
        let standings = ways(2) + (ways(6) - ways(4)) + 2 * (ways(5) - ways(4)) + ways(4);
        let transactions = if n > FEW { 1 } else { 8 };
        sum += transactions * chosen * ((5 * n as u64 + 2) * standings + n as u64 * 4 * 5 * 2 * ways(2));
    }
    sum
}

/// A member, another one for another number; 1 to 8 where there is none.
pub fn some_member(members: Mask, number: u32) -> u8 {
    match members.count_ones() {
        0 => (number % 8) as u8 + 1,
        n => each(members).nth((number % n) as usize).unwrap(),
    }
}

/// A waiting set that the phase allows where there is one: all, some that presume abort, or some; another one for
/// another number.
fn some_waiting(phase: u8, members: Mask, presume_commit: Mask, number: u32) -> Mask {
    let of = awaitable(phase, members, presume_commit);
    let part = (number >> 2) as u8;
    let some = match number % 4 {
        0 => of,
        1 => of & part & !presume_commit,
        _ => of & part,
    };
    if some == 0 {
        of & of.wrapping_neg()
    } else {
        some
    }
}

/// A set taken out that is allowed: empty, all, all that presume commit, or some; another one for another number.
fn some_taken_out(phase: u8, waiting: Mask, members: Mask, presume_commit: Mask, number: u32) -> Mask {
    let of = removable(phase, waiting, members);
    match number % 4 {
        0 => 0,
        1 => of,
        2 => of & presume_commit,
        _ => of & (number >> 2) as u8,
    }
}

/// A standing in the phase with these masks; transaction and sets are as allowed, others for another number.
pub fn some_standing(phase: u8, members: Mask, presume_commit: Mask, number: u32) -> Standing {
    let waiting = some_waiting(phase, members, presume_commit, number);
    let taken_out = some_taken_out(phase, waiting, members, presume_commit, number >> 10);
    Standing { transaction: (number >> 20) as u8 % 8, phase, waiting, members, presume_commit, taken_out }
}

/// Sets at the borders of these masks: the sets themselves, each with a bit more and a bit less, and their complements;
/// single bits; all. Some come twice.
pub fn borders(masks: &[Mask]) -> Vec<Mask> {
    let mut sets: Vec<Mask> = vec![0, 255];
    for &set in masks {
        let lowest = set & set.wrapping_neg();
        let more = !set & (!set).wrapping_neg();
        sets.extend([set, !set, set & !lowest, lowest, set | more, more]);
    }
    sets.extend((1..=8).map(bit));
    sets
}

/// A call that is accepted.
pub fn random_accepted(random: &mut Random) -> Arguments {
    let few = bit(1 + random.below(8) as u8) | random.byte() & random.byte() & random.byte();
    let members = if random.once_in(3) { few } else { random.below(255) as u8 + 1 };
    let presume_commit = match random.below(5) {
        0 => 0,
        1 => members,
        _ => members & random.byte(),
    };
    let mut phase = random.below(5) as u8;
    let transaction = random.below(8) as u8;
    let b = some_member(members, random.next() as u32);
    let mut standing = Standing { transaction, phase, waiting: 0, members, presume_commit, taken_out: 0 };
    if random.once_in(3) {
        return standing.participant(AT_PARTICIPANT[random.below(4)], b, random.below(2) as u8);
    }
    while matches!(phase, 2 | 3) && awaitable(phase, members, presume_commit) == 0 {
        phase = random.below(5) as u8;
    }
    standing = Standing { transaction, ..some_standing(phase, members, presume_commit, random.next() as u32) };
    if random.once_in(3) {
        return standing.coordinator(FROM_NOBODY[random.below(2)], 0);
    }
    let awaited = standing.waiting != 0 && random.once_in(2);
    let b = if awaited { some_member(standing.waiting, random.next() as u32) } else { b };
    standing.coordinator(FROM_PARTICIPANTS[random.below(5)], b)
}
