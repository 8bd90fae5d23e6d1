//! Calls the C function of libsite.a and compares each number that it gives with the reference model.
//! The first difference ends the program with what was given, what was expected and what came.
//! Words on the command line name the parts to run; without any, all are run, and every row has to be met.

mod arguments;
#[allow(dead_code)]
#[path = "../../reference/src/codec.rs"]
mod codec;
mod library;
#[allow(dead_code)]
#[path = "../../reference/src/numbers.rs"]
mod numbers;
#[allow(dead_code)]
#[path = "../../codec/src/random.rs"]
mod random;
#[allow(dead_code)]
mod rows;
mod sends;
#[allow(dead_code)]
#[path = "../../reference/src/step.rs"]
mod step;

use arguments::*;
use library::{step as library_step, wide_step, Trial};
use numbers::ARGUMENTS;
use random::Random;

const VECTORS: &str = include_str!("../../vectors/steps.txt");

/// The lines of tests/vectors/steps.txt, whose top says what they mean.
fn vectors(trial: &mut Trial, _: &mut Random) {
    let mut wide = 0;
    for line in VECTORS.lines().filter(|line| !line.starts_with('#')) {
        let (left, right) = line.split_once(" = ").unwrap();
        let numbers = |text: &str| text.split(' ').map(|word| word.parse().unwrap()).collect::<Vec<u64>>();
        let given = numbers(left.split_once(' ').unwrap().1);
        let wanted: Vec<u8> = numbers(right).into_iter().map(|n| n as u8).collect();
        if given.iter().any(|&n| n > 255) {
            wide += 1;
            continue;
        }
        let given: Vec<u8> = given.into_iter().map(|n| n as u8).collect();
        let given: Arguments = given.try_into().unwrap();
        assert_eq!(expected(given)[..], wanted, "the reference model on the line '{line}'");
        trial.call(given);
    }
    println!("vectors: {wide} more with a number above 255, which no byte carries");
    assert_eq!((trial.calls(), wide), (57, 1), "vectors: lines");
}

/// Every call that is accepted.
fn all_accepted(trial: &mut Trial, _: &mut Random) {
    accepted(|call| {
        trial.call(call);
    });
    assert_eq!((trial.accepted, trial.refused), (accepted_count(), 0), "the calls that the reference model accepts");
}

/// Every pair of masks with every kind and the phases to 6, at the coordinator and at a participant; the other
/// arguments are as the call asks where that is possible.
fn all_masks_kinds_phases(trial: &mut Trial, random: &mut Random) {
    for members in 0..=255 {
        for presume_commit in 0..=255 {
            let mut number = random.next() as u32;
            for phase in 0..=6 {
                for kind in 0..=255 {
                    number = number.wrapping_mul(1664525).wrapping_add(1013904223);
                    let standing = some_standing(phase, members, presume_commit, number >> 4);
                    let b = some_member(members, number >> 8);
                    trial.call(standing.coordinator(kind, if kind == 16 || kind == 17 { 0 } else { b }));
                    trial.call(standing.participant(kind, b, (number >> 31) as u8));
                }
            }
        }
    }
}

/// Every waiting set and every set taken out, by itself, with each pair of masks that is in range, and those at the
/// borders with every pair of masks.
fn all_sets(trial: &mut Trial, random: &mut Random) {
    let all: Vec<u8> = (0..=255).collect();
    for members in 0..=255 {
        for pc in 0..=255 {
            let number = random.next() as u32;
            let b = some_member(members, number);
            let some = borders(&[members, pc, members & !pc, members & pc]);
            let in_range = members != 0 && pc & !members == 0;
            for &set in if in_range { &all } else { &some } {
                for phase in 0..=4 {
                    let standing = some_standing(phase, members, pc, number ^ 37 * set as u32);
                    let taken_out = Standing { taken_out: set, ..standing };
                    let waiting = Standing { waiting: set, ..standing };
                    let kind = FROM_PARTICIPANTS[(set as usize + phase as usize) % 5];
                    for standing in [waiting, taken_out] {
                        for (kind, sender) in [(16, 0), (17, 0), (kind, b), (7, b)] {
                            trial.call(standing.coordinator(kind, sender));
                        }
                    }
                    let mut of_participant = standing.participant(AT_PARTICIPANT[set as usize % 4], b, set >> 7);
                    of_participant[if set & 16 == 0 { WAITING } else { TAKEN_OUT }] = set;
                    trial.call(of_participant);
                }
            }
        }
    }
}

/// Every pair of masks with every site, participant and presumption to one above what is in range, in every phase.
fn all_masks_participants(trial: &mut Trial, random: &mut Random) {
    for members in 0..=255 {
        for pc in 0..=255 {
            let mut number = random.next() as u32;
            for site in 0..=9 {
                for participant in 0..=9 {
                    for phase in 0..=4 {
                        number = number.wrapping_mul(1664525).wrapping_add(1013904223);
                        let pick = (number >> 24) as usize;
                        let standing = some_standing(phase, members, pc, number >> 8);
                        let mut call = match (site, participant) {
                            (0, 0) => standing.coordinator(FROM_NOBODY[pick % 2], 0),
                            (0, _) => standing.coordinator(FROM_PARTICIPANTS[pick % 5], 0),
                            _ => standing.participant(AT_PARTICIPANT[pick % 4], 1, pick as u8 & 1),
                        };
                        (call[0], call[PARTICIPANT]) = (site, participant);
                        for p in 0..=2 {
                            call[PRESUMPTION] = p;
                            trial.call(call);
                        }
                    }
                }
            }
        }
    }
}

/// All arguments to one above what is in range, and transactions and kinds far above, for some masks and sets.
fn products(trial: &mut Trial, random: &mut Random) {
    let mut masks = vec![(0, 0), (0, 1), (1, 0), (1, 1), (128, 128), (3, 1), (3, 2), (255, 0), (255, 255), (1, 3)];
    for _ in 0..5 {
        let (members, any) = (random.byte(), random.byte());
        masks.extend([(members, any), (members, members & any)]);
    }
    let kinds: Vec<u8> = (0..=18).chain([23, 32, 33, 128 + 17, 255]).collect();
    for (members, pc) in masks {
        let mut sets = vec![(0, 0), (members, 0), (0, members), (members, members), (0, !members)];
        sets.extend([(pc, members & !pc), (members & !pc, pc), (random.byte() & members, 0)]);
        sets.sort();
        sets.dedup();
        for (waiting, out) in sets {
            for &kind in &kinds {
                for (transaction, mark) in [(0, 0), (7, 1), (3, 2), (8, 0), (255, 1)] {
                    for site in 0..=9 {
                        for b in 0..=9 {
                            for p in 0..=2 {
                                for phase in 0..=6 {
                                    let call = [site, kind, transaction, b, p, phase, waiting, members, pc, mark, out];
                                    trial.call(call);
                                }
                            }
                        }
                    }
                }
            }
        }
    }
}

/// Around accepted calls each argument with each of its 256 values.
fn single_changes(trial: &mut Trial, random: &mut Random) {
    let mut refused = [0u64; ARGUMENTS];
    let mut taken = [0u64; ARGUMENTS];
    for _ in 0..20_000 {
        let call = random_accepted(random);
        for i in 0..ARGUMENTS {
            for value in 0..=255 {
                let mut changed = call;
                changed[i] = value;
                let count = if trial.call(changed) { &mut taken } else { &mut refused };
                count[i] += 1;
            }
        }
    }
    for (i, name) in NAMES.iter().enumerate() {
        println!("{name} changed: {} accepted, {} refused", taken[i], refused[i]);
        // a call that is accepted is so at one site and with one presumption; the other arguments have more values
        let alone = name == &"site" || name == &"presumption";
        assert!((taken[i] == 20_000) == alone && refused[i] > 0, "no change of it was told apart");
    }
}

/// Around accepted calls each two arguments with all their values.
fn double_changes(trial: &mut Trial, random: &mut Random) {
    for _ in 0..20 {
        let call = random_accepted(random);
        for i in 0..ARGUMENTS {
            for j in 0..i {
                for value in 0..=65535u16 {
                    let mut changed = call;
                    [changed[i], changed[j]] = value.to_le_bytes();
                    trial.call(changed);
                }
            }
        }
    }
}

/// Random bytes are hardly ever in range: this tries refusals.
fn random_bytes(trial: &mut Trial, random: &mut Random) {
    for _ in 0..10_000_000 {
        let numbers = [random.next().to_le_bytes(), random.next().to_le_bytes()].concat();
        trial.call(numbers[..ARGUMENTS].try_into().unwrap());
    }
}

/// The number depends on the arguments alone: the same calls again at once, later and in another order, and with any
/// bits in the upper halves of the registers.
fn same_again(trial: &mut Trial, random: &mut Random) {
    let calls: Vec<Arguments> = (0..400_000)
        .map(|i| {
            let mut call = random_accepted(random);
            if i % 3 == 0 {
                call[random.below(ARGUMENTS)] = random.byte();
            }
            call
        })
        .collect();
    let numbers: Vec<u64> = calls.iter().map(|&call| library_step(call)).collect();
    for (&call, &number) in calls.iter().zip(&numbers) {
        trial.compare(call, u64::from_le_bytes(expected(call)), number);
        trial.compare(call, number, library_step(call));
        trial.compare(call, number, library_step(call));
    }
    for (&call, &number) in calls.iter().zip(&numbers).rev() {
        trial.compare(call, number, library_step(call));
    }
    for (&call, &number) in calls.iter().zip(&numbers) {
        let upper = [(); ARGUMENTS].map(|_| random.next() as u32);
        trial.compare(call, number, wide_step(call, upper));
    }
}

fn main() {
    let parts: [(&'static str, fn(&mut Trial, &mut Random)); 11] = [
        ("vectors", vectors),
        ("order of sends", sends::orders),
        ("same again", same_again),
        ("single changes", single_changes),
        ("every accepted call", all_accepted),
        ("masks, kinds, phases", all_masks_kinds_phases),
        ("waiting sets and sets taken out", all_sets),
        ("masks, sites, participants, presumptions", all_masks_participants),
        ("products of small ranges", products),
        ("double changes", double_changes),
        ("random bytes", random_bytes),
    ];
    let named: Vec<String> = std::env::args().skip(1).collect();
    assert!(named.iter().all(|n| parts.iter().any(|(name, _)| n == name)), "no part of that name");
    let mut all = Trial::new();
    let mut random = Random(20);
    for (name, part) in parts.into_iter().filter(|(name, _)| named.is_empty() || named.iter().any(|n| n == name)) {
        let before = (all.accepted, all.refused);
        (all.part, all.accepted, all.refused) = (name, 0, 0);
        part(&mut all, &mut random);
        println!("{name}: {} calls, {} accepted, {} refused", all.calls(), all.accepted, all.refused);
        (all.accepted, all.refused) = (all.accepted + before.0, all.refused + before.1);
    }
    if named.is_empty() {
        all.counts.show();
    }
    println!("{} calls, {} accepted, {} refused, ok", all.calls(), all.accepted, all.refused);
}
