//! The order of sends. The number of a step has the boxes as a set, and include/dpr.h says in which order they are sent to:
//! what a firmware makes of the number is compared with the row of the reference model.

use crate::arguments::{cohorts, some_member, Standing};
use crate::codec::*;
use crate::library::{step as library_step, Trial};
use crate::numbers::{BEGIN, TIMER};
use crate::random::Random;
use crate::step::*;

/// As a firmware sends: first to those that owe an ack; to each from box handover + 1 up to 8, then from 1 up to handover.
fn by_the_number(handover: u8, presume_commit: Mask, [.., message, boxes]: [u8; 8]) -> Vec<u8> {
    let owing = match message {
        COMMIT => !presume_commit,
        ABORT => presume_commit,
        _ => 0,
    };
    let to = |group: Mask| (handover + 1..=8).chain(1..=handover).filter(move |&b| has(group, b));
    to(boxes & owing).chain(to(boxes & !owing)).collect()
}

/// As the reference model's row sends.
fn by_the_row(standing: Standing, phase: CoordinatorPhase, stimulus: Stimulus) -> Vec<u8> {
    let Standing { transaction, members, presume_commit, taken_out, .. } = standing;
    let names = Names { transaction, members, presume_commit };
    let row = coordinator_step(names, CoordinatorState { phase, taken_out }, stimulus);
    let to = |effect: Effect| match effect {
        Effect::Send(message) => Some(message.participant),
        _ => None,
    };
    row.map_or(vec![], |(_, row)| row.into_iter().filter_map(to).collect())
}

/// Every pair of masks and every transaction, in all rows that send to several. Many of them have to go in another order
/// than they would in transaction 0.
pub fn orders(trial: &mut Trial, random: &mut Random) {
    let (mut several, mut turned) = (0, 0);
    for (members, presume_commit) in cohorts() {
        for transaction in 0..TRANSACTIONS {
            let b = some_member(members, random.next() as u32);
            let out = members & !bit(b) & random.byte();
            let presume_abort = members & !presume_commit;
            let from = |kind| Stimulus::Deliver { kind, participant: b };
            use CoordinatorPhase::*;
            for (phase, taken_out, stimulus) in [
                (Open, 0, Stimulus::Begin),
                (Collecting(bit(b)), 0, from(YES)),
                (Collecting(bit(b)), out, from(YES)),
                (Collecting(bit(b)), out, from(READ_ONLY)),
                (Collecting(members), 0, from(NO)),
                (Collecting(bit(b)), out, from(NO)),
                (Collecting(members), 0, Stimulus::Timer),
                (Collecting(bit(b)), out, Stimulus::Timer),
                (Committing(presume_abort), 0, Stimulus::Timer),
                (Aborting(presume_commit), 0, Stimulus::Timer),
            ] {
                let (number, waiting) = (phase.number(), phase.waiting());
                let standing = Standing { transaction, phase: number, waiting, members, presume_commit, taken_out };
                let call = match stimulus {
                    Stimulus::Begin => standing.coordinator(BEGIN as u8, 0),
                    Stimulus::Timer => standing.coordinator(TIMER as u8, 0),
                    Stimulus::Deliver { kind, .. } => standing.coordinator(kind, b),
                };
                if !trial.call(call) {
                    continue;
                }
                let order = by_the_number(transaction, presume_commit, library_step(call).to_le_bytes());
                assert_eq!(order, by_the_row(standing, phase, stimulus), "the order of sends of {call:?}");
                several += (order.len() > 1) as u32;
                turned += (order != by_the_number(0, presume_commit, library_step(call).to_le_bytes())) as u32;
            }
        }
    }
    println!("sends to several boxes: {several}, in another order than those of handover 0: {turned}");
    assert!(several > 300_000 && 2 * turned > several, "sends to several boxes");
}
