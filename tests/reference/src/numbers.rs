//! One site's step on numbers.

use crate::codec::*;
use crate::step::*;

/// The answer of the step on numbers.
#[derive(Clone, Copy, PartialEq, Eq, Debug, Default)]
pub struct NumberStep {
    pub answer: u8,
    pub phase: u8,
    pub waiting: Mask,
    pub taken_out: Mask,
    /// Kind of the record appended first, before all other effects, and of the one appended behind others; 0 for none.
    pub first_record: u8,
    pub last_record: u8,
    pub forced: u8,
    /// 0 none, 1 commit, 2 abort.
    pub entered: u8,
    /// Kind of the message sent, 0 when nothing is sent.
    pub message: u8,
    /// The participants at the other end: receivers of the coordinator's message,
    /// or the sender itself for a participant's message.
    pub to: Mask,
}

impl NumberStep {
    const REFUSED: NumberStep = NumberStep {
        answer: 1,
        phase: 0,
        waiting: 0,
        taken_out: 0,
        first_record: 0,
        last_record: 0,
        forced: 0,
        entered: 0,
        message: 0,
        to: 0,
    };

    /// As the C call returns it, the lowest byte first.
    pub fn bytes(&self) -> [u8; 8] {
        let records = self.first_record + 16 * self.last_record;
        let effects = self.forced + 2 * self.entered;
        [self.answer, self.phase, self.waiting, self.taken_out, records, effects, self.message, self.to]
    }
}

pub const BEGIN: u64 = 16;
pub const TIMER: u64 = 17;

pub const ARGUMENTS: usize = 11;

/// Arguments: site kind transaction participant presumption phase waiting members presume_commit mark taken_out.
/// Any value of any argument is answered.
pub fn step_on_numbers(arguments: [u64; ARGUMENTS]) -> NumberStep {
    let [site, kind, transaction, participant, presumption, phase, waiting, members, presume_commit, mark, taken_out] =
        arguments;
    let byte = |n: u64| u8::try_from(n).ok();
    let (Some(waiting), Some(members), Some(presume_commit), Some(taken_out)) =
        (byte(waiting), byte(members), byte(presume_commit), byte(taken_out))
    else {
        return NumberStep::REFUSED;
    };
    if site > 8 || transaction > 7 || participant > 8 || presumption > 1 || phase > 4 || mark > 1 {
        return NumberStep::REFUSED;
    }
    if members == 0 || !is_part(presume_commit, members) || !is_part(waiting, members) {
        return NumberStep::REFUSED;
    }
    let names = Names { transaction: transaction as u8, members, presume_commit };
    let participant = participant as u8;
    let presumption = presumption as u8;
    // A named participant is a member, and its presumption is its bit of presume_commit.
    let fits = participant != 0 && has(members, participant) && presumption == names.presumption(participant);
    if site == 0 {
        let stimulus = match kind {
            BEGIN | TIMER => {
                if participant != 0 || presumption != 0 {
                    return NumberStep::REFUSED;
                }
                if kind == BEGIN {
                    Stimulus::Begin
                } else {
                    Stimulus::Timer
                }
            }
            1 | 2 | 5 | 6 | 7 => {
                if !fits {
                    return NumberStep::REFUSED;
                }
                Stimulus::Deliver { kind: kind as u8, participant }
            }
            _ => return NumberStep::REFUSED,
        };
        use CoordinatorPhase::*;
        let (phase, legal) = match phase {
            0 => (Open, waiting == 0),
            1 => (Collecting(waiting), waiting != 0),
            2 => (Committing(waiting), waiting != 0 && is_part(waiting, names.presume_abort())),
            3 => (Aborting(waiting), waiting != 0 && is_part(waiting, presume_commit)),
            _ => (Unknown, waiting == 0),
        };
        // a part of the members outside the waiting set, empty in Open; a mark is a participant's
        let may_be_out = if phase == Open { 0 } else { members & !waiting };
        if !legal || mark != 0 || !is_part(taken_out, may_be_out) {
            return NumberStep::REFUSED;
        }
        let state = CoordinatorState { phase, taken_out };
        let (after, row) = coordinator_step(names, state, stimulus).unwrap_or((state, vec![]));
        summary(after.phase.number(), after.phase.waiting(), after.taken_out, &row)
    } else {
        let stimulus = match kind {
            0 | 3 | 4 => Stimulus::Deliver { kind: kind as u8, participant },
            TIMER => Stimulus::Timer,
            _ => return NumberStep::REFUSED,
        };
        if participant as u64 != site || !fits || waiting != 0 || taken_out != 0 {
            return NumberStep::REFUSED;
        }
        use ParticipantPhase::*;
        let phase = [Working, Prepared, Committed, Aborted, Unknown][phase as usize];
        let (after, row) = participant_step(names.transaction, participant, presumption, mark == 1, phase, stimulus)
            .unwrap_or((phase, vec![]));
        summary(after as u8, 0, 0, &row)
    }
}

fn summary(phase: u8, waiting: Mask, taken_out: Mask, row: &[Effect]) -> NumberStep {
    let mut out = NumberStep { phase, waiting, taken_out, ..NumberStep::default() };
    for (i, effect) in row.iter().enumerate() {
        match *effect {
            Effect::Append(record) if i == 0 => out.first_record = record.kind(),
            Effect::Append(record) => out.last_record = record.kind(),
            Effect::Force => out.forced = 1,
            Effect::Enter(Outcome::Commit) => out.entered = 1,
            Effect::Enter(Outcome::Abort) => out.entered = 2,
            Effect::Send(message) => {
                out.message = message.kind;
                out.to |= bit(message.participant);
            }
        }
    }
    out
}

#[cfg(test)]
mod tests {
    use super::*;

    /// Every small and every too large argument gets an answer.
    #[test]
    fn total() {
        let some = [0, 1, 2, 3, 4, 5, 6, 7, 8, 9, 15, 16, 17, 18, 255, 256, u64::MAX];
        // of site, kind, participant, presumption, phase, waiting, members, presume_commit, mark, taken_out
        let sizes = [4, some.len(), 4, 3, 6, 4, 4, 4, 3, 4];
        let mut accepted = 0;
        for number in 0..sizes.iter().product() {
            let mut rest = number;
            let at = sizes.map(|size| {
                let digit = rest % size;
                rest /= size;
                digit
            });
            let [site, kind, participant] = [[0, 1, 2, 9][at[0]], some[at[1]], [0, 1, 2, 9][at[2]]];
            let [presumption, phase, waiting, members, pc, mark, out] = [3, 4, 5, 6, 7, 8, 9].map(|i| at[i] as u64);
            let step =
                step_on_numbers([site, kind, 7, participant, presumption, phase, waiting, members, pc, mark, out]);
            accepted += (step.answer == 0) as usize;
            assert!(step.answer == 0 || step == NumberStep::REFUSED);
        }
        assert!(accepted > 0);
        for i in 0..ARGUMENTS {
            let mut a = [0, 17, 0, 0, 0, 1, 1, 3, 3, 0, 2];
            assert_eq!(step_on_numbers(a).answer, 0);
            a[i] = 256;
            assert_eq!(step_on_numbers(a), NumberStep::REFUSED);
        }
    }

    #[test]
    fn a_record_alone_stands_first() {
        let records = |arguments| {
            let NumberStep { first_record, last_record, .. } = step_on_numbers(arguments);
            (first_record, last_record)
        };
        // the last AbortAck, nobody remains, No of the last one that remains, the last Yes
        assert_eq!(records([0, 6, 0, 1, 1, 3, 1, 1, 1, 0, 0]), (4, 0));
        assert_eq!(records([0, 7, 0, 1, 1, 1, 1, 1, 1, 0, 0]), (4, 0));
        assert_eq!(records([0, 2, 0, 1, 1, 1, 1, 3, 1, 0, 2]), (0, 4));
        assert_eq!(records([0, 1, 0, 1, 1, 1, 1, 3, 1, 0, 2]), (2, 0));
    }
}
