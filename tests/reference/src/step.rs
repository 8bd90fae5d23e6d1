//! One site's step as a row of effects.

use crate::codec::*;

#[derive(Clone, Copy, PartialEq, Eq, Debug)]
pub enum Outcome {
    Commit,
    Abort,
}

impl Outcome {
    pub fn message(self) -> u8 {
        match self {
            Outcome::Commit => COMMIT,
            Outcome::Abort => ABORT,
        }
    }
}

/// One effect; a cut can fall between any two of them.
#[derive(Clone, Copy, PartialEq, Eq, Debug)]
pub enum Effect {
    Append(LogRecord),
    Force,
    Enter(Outcome),
    Send(Message),
}

/// The coordinator's phase carries the set it still waits for.
#[derive(Clone, Copy, PartialEq, Eq, Debug)]
pub enum CoordinatorPhase {
    Open,
    Collecting(Mask),
    Committing(Mask),
    Aborting(Mask),
    Unknown,
}

impl CoordinatorPhase {
    pub fn number(self) -> u8 {
        match self {
            CoordinatorPhase::Open => 0,
            CoordinatorPhase::Collecting(_) => 1,
            CoordinatorPhase::Committing(_) => 2,
            CoordinatorPhase::Aborting(_) => 3,
            CoordinatorPhase::Unknown => 4,
        }
    }

    pub fn waiting(self) -> Mask {
        match self {
            CoordinatorPhase::Open | CoordinatorPhase::Unknown => 0,
            CoordinatorPhase::Collecting(w) | CoordinatorPhase::Committing(w) | CoordinatorPhase::Aborting(w) => w,
        }
    }
}

/// The coordinator's phase, and the participants taken out of the transaction since it began.
#[derive(Clone, Copy, PartialEq, Eq, Debug)]
pub struct CoordinatorState {
    pub phase: CoordinatorPhase,
    pub taken_out: Mask,
}

impl CoordinatorState {
    /// Nobody is taken out.
    pub fn of(phase: CoordinatorPhase) -> CoordinatorState {
        CoordinatorState { phase, taken_out: 0 }
    }
}

#[derive(Clone, Copy, PartialEq, Eq, Debug)]
pub enum ParticipantPhase {
    Working = 0,
    Prepared = 1,
    Committed = 2,
    Aborted = 3,
    Unknown = 4,
}

/// What a step needs to know of a transaction: its masks as opened, or what remains of them.
#[derive(Clone, Copy, PartialEq, Eq, Debug)]
pub struct Names {
    pub transaction: u8,
    pub members: Mask,
    pub presume_commit: Mask,
}

impl Names {
    pub fn presume_abort(&self) -> Mask {
        self.members & !self.presume_commit
    }

    /// What remains of the masks.
    pub fn without(&self, taken_out: Mask) -> Names {
        Names { members: self.members & !taken_out, presume_commit: self.presume_commit & !taken_out, ..*self }
    }

    /// The members that owe an ack for an outcome.
    pub fn owing(&self, outcome: Outcome) -> Mask {
        match outcome {
            Outcome::Commit => self.presume_abort(),
            Outcome::Abort => self.presume_commit,
        }
    }

    pub fn presumption(&self, participant: u8) -> u8 {
        has(self.presume_commit, participant) as u8
    }

    fn message(&self, participant: u8, kind: u8) -> Effect {
        Effect::Send(Message { transaction: self.transaction, participant, kind })
    }

    /// A message to a set, in turn.
    fn messages(&self, kind: u8, to: Mask) -> impl Iterator<Item = Effect> + '_ {
        in_turn(self.transaction, to).map(move |b| self.message(b, kind))
    }

    /// Prepare to all.
    fn prepares(&self) -> Vec<Effect> {
        self.messages(PREPARE, self.members).collect()
    }

    /// The outcome to a set: those that owe an ack first, then the others.
    pub fn outcomes(&self, outcome: Outcome, to: Mask) -> Vec<Effect> {
        let (kind, owing) = (outcome.message(), self.owing(outcome));
        self.messages(kind, to & owing).chain(self.messages(kind, to & !owing)).collect()
    }
}

/// The participants of a mask in the turn of a transaction: from participant transaction + 1 up to 8, then from 1.
pub fn in_turn(transaction: u8, mask: Mask) -> impl Iterator<Item = u8> {
    (0..PARTICIPANTS).map(move |i| (transaction + i) % PARTICIPANTS + 1).filter(move |&b| has(mask, b))
}

#[derive(Clone, Copy, PartialEq, Eq, Debug)]
pub enum Stimulus {
    Begin,
    Timer,
    /// A message's kind and the participant at its other end.
    Deliver { kind: u8, participant: u8 },
}

/// The coordinator's row: state after and effects. None: no row.
pub fn coordinator_step(
    names: Names,
    state: CoordinatorState,
    stimulus: Stimulus,
) -> Option<(CoordinatorState, Vec<Effect>)> {
    use CoordinatorPhase::*;
    let Names { transaction, members, presume_commit } = names;
    let CoordinatorState { phase, taken_out } = state;
    let (after, row) = match (stimulus, phase) {
        (Stimulus::Begin, Open) => {
            let mut row = Vec::new();
            if presume_commit != 0 {
                row.push(Effect::Append(LogRecord::Init { transaction, members, presume_commit }));
                row.push(Effect::Force);
            }
            row.extend(names.prepares());
            (Collecting(members), row)
        }
        (_, Collecting(waiting)) => return collecting(names, waiting, taken_out, stimulus),
        (Stimulus::Timer, Committing(waiting)) => (phase, names.outcomes(Outcome::Commit, waiting)),
        (Stimulus::Timer, Aborting(waiting)) => (phase, names.outcomes(Outcome::Abort, waiting)),
        (Stimulus::Deliver { kind: YES, participant }, Committing(_)) => {
            (phase, vec![names.message(participant, COMMIT)])
        }
        (Stimulus::Deliver { kind: YES, participant }, Aborting(_)) => (phase, vec![names.message(participant, ABORT)]),
        (Stimulus::Deliver { kind: YES, participant }, Unknown) => {
            let presumed = if names.presumption(participant) == 1 { COMMIT } else { ABORT };
            (phase, vec![names.message(participant, presumed)])
        }
        (Stimulus::Deliver { kind: COMMIT_ACK, participant }, Committing(waiting)) => {
            match waiting & !bit(participant) {
                0 => (Unknown, vec![Effect::Append(LogRecord::CommitEnd { transaction })]),
                missing => (Committing(missing), vec![]),
            }
        }
        (Stimulus::Deliver { kind: ABORT_ACK, participant }, Aborting(waiting)) => {
            match waiting & !bit(participant) {
                0 => (Unknown, vec![Effect::Append(LogRecord::AbortEnd { transaction })]),
                missing => (Aborting(missing), vec![]),
            }
        }
        _ => return None,
    };
    Some((CoordinatorState { phase: after, taken_out }, row))
}

/// The coordinator's row in Collecting. `names` are the masks as opened; those taken out have no row there.
fn collecting(
    names: Names,
    waiting: Mask,
    taken_out: Mask,
    stimulus: Stimulus,
) -> Option<(CoordinatorState, Vec<Effect>)> {
    use CoordinatorPhase::*;
    let (kind, sender) = match stimulus {
        Stimulus::Begin => return None,
        // the same as a No, of nobody
        Stimulus::Timer => (NO, 0),
        Stimulus::Deliver { kind, participant } => (kind, bit(participant)),
    };
    if sender & taken_out != 0 {
        return None;
    }
    let taken_out = if kind == READ_ONLY { taken_out | sender } else { taken_out };
    let remaining = names.without(taken_out);
    let missing = waiting & !sender;
    let (phase, row) = match kind {
        YES | READ_ONLY if missing != 0 => (Collecting(missing), vec![]),
        READ_ONLY if remaining.members == 0 => (Unknown, abort_end(names)),
        YES | READ_ONLY => decide_commit(remaining),
        NO => decide_abort(names, remaining.without(sender)),
        _ => return None,
    };
    Some((CoordinatorState { phase, taken_out }, row))
}

/// Commit out of Collecting, with those that remain.
fn decide_commit(remaining: Names) -> (CoordinatorPhase, Vec<Effect>) {
    let Names { transaction, members, presume_commit } = remaining;
    let mut row = vec![
        Effect::Append(LogRecord::Commit { transaction, members, presume_commit }),
        Effect::Force,
        Effect::Enter(Outcome::Commit),
    ];
    row.extend(remaining.outcomes(Outcome::Commit, members));
    match remaining.presume_abort() {
        0 => (CoordinatorPhase::Unknown, row),
        acks => (CoordinatorPhase::Committing(acks), row),
    }
}

/// Abort out of Collecting, told to these: here the order is enter, send, append.
fn decide_abort(names: Names, told: Names) -> (CoordinatorPhase, Vec<Effect>) {
    let mut row = vec![Effect::Enter(Outcome::Abort)];
    row.extend(told.outcomes(Outcome::Abort, told.members));
    match told.presume_commit {
        0 => {
            row.extend(abort_end(names));
            (CoordinatorPhase::Unknown, row)
        }
        acks => (CoordinatorPhase::Aborting(acks), row),
    }
}

/// AbortEnd exactly if Init was appended: by the masks as opened.
fn abort_end(names: Names) -> Vec<Effect> {
    let end = Effect::Append(LogRecord::AbortEnd { transaction: names.transaction });
    (names.presume_commit != 0).then_some(end).into_iter().collect()
}

/// A participant's row: phase after and effects. None: no row. `marked`: it only read, which matters to Prepare in Working.
pub fn participant_step(
    transaction: u8,
    participant: u8,
    presumption: u8,
    marked: bool,
    phase: ParticipantPhase,
    stimulus: Stimulus,
) -> Option<(ParticipantPhase, Vec<Effect>)> {
    use ParticipantPhase::*;
    let presumes_abort = presumption == 0;
    let presumes_commit = presumption == 1;
    let send = |kind| Effect::Send(Message { transaction, participant, kind });
    let kind = match stimulus {
        Stimulus::Begin => return None,
        Stimulus::Timer => {
            return match phase {
                Working => Some((Unknown, vec![Effect::Enter(Outcome::Abort)])),
                Prepared => Some((Prepared, vec![send(YES)])),
                Committed | Aborted | Unknown => None,
            }
        }
        Stimulus::Deliver { kind, .. } => kind,
    };
    match (kind, phase) {
        (PREPARE, Working) if marked => Some((Unknown, vec![send(READ_ONLY)])),
        (PREPARE, Working) => {
            let vote = LogRecord::Prepared { transaction, presumption };
            Some((Prepared, vec![Effect::Append(vote), Effect::Force, send(YES)]))
        }
        (PREPARE, Prepared) => Some((phase, vec![send(YES)])),
        (PREPARE, Aborted | Unknown) => Some((phase, vec![send(NO)])),
        (COMMIT, Prepared) => {
            let mut row = vec![Effect::Append(LogRecord::Committed { transaction })];
            if presumes_abort {
                row.push(Effect::Force);
            }
            row.push(Effect::Enter(Outcome::Commit));
            if presumes_abort {
                row.push(send(COMMIT_ACK));
            }
            Some((Committed, row))
        }
        (COMMIT, Committed | Unknown) => {
            Some((phase, if presumes_abort { vec![send(COMMIT_ACK)] } else { vec![] }))
        }
        (ABORT, Working | Prepared) => {
            let mut row = vec![Effect::Append(LogRecord::Aborted { transaction })];
            if presumes_commit {
                row.push(Effect::Force);
            }
            row.push(Effect::Enter(Outcome::Abort));
            if presumes_commit {
                row.push(send(ABORT_ACK));
            }
            Some((Aborted, row))
        }
        (ABORT, Aborted | Unknown) => Some((phase, if presumes_commit { vec![send(ABORT_ACK)] } else { vec![] })),
        _ => None,
    }
}

#[cfg(test)]
mod tests {
    use super::*;

    fn told(row: Option<(CoordinatorState, Vec<Effect>)>) -> Vec<u8> {
        let to = |effect: &Effect| match effect {
            Effect::Send(message) => Some(message.participant),
            _ => None,
        };
        row.expect("a row").1.iter().filter_map(to).collect()
    }

    #[test]
    fn each_transaction_has_its_turn() {
        let turns = [0, 1, 2, 6, 7].map(|transaction| in_turn(transaction, 255).collect::<Vec<_>>());
        assert_eq!(turns[0], [1, 2, 3, 4, 5, 6, 7, 8]);
        assert_eq!(turns[1], [2, 3, 4, 5, 6, 7, 8, 1]);
        assert_eq!(turns[2], [3, 4, 5, 6, 7, 8, 1, 2]);
        assert_eq!(turns[3], [7, 8, 1, 2, 3, 4, 5, 6]);
        assert_eq!(turns[4], [8, 1, 2, 3, 4, 5, 6, 7]);
        assert_eq!(in_turn(4, 0b1001_1001).collect::<Vec<_>>(), [5, 8, 1, 4]);
    }

    /// 1, 4, 5 and 8 presume commit, 2, 3, 6 and 7 abort; the turn starts at 4.
    #[test]
    fn every_row_goes_in_turn() {
        use CoordinatorPhase::*;
        let names = Names { transaction: 3, members: 255, presume_commit: 0b1001_1001 };
        let told = |phase, taken_out, stimulus| {
            told(coordinator_step(names, CoordinatorState { phase, taken_out }, stimulus))
        };
        let deliver = |kind, participant| Stimulus::Deliver { kind, participant };
        assert_eq!(told(Open, 0, Stimulus::Begin), [4, 5, 6, 7, 8, 1, 2, 3]);
        assert_eq!(told(Collecting(bit(5)), 0, deliver(YES, 5)), [6, 7, 2, 3, 4, 5, 8, 1]);
        assert_eq!(told(Collecting(bit(6)), bit(4), deliver(READ_ONLY, 6)), [7, 2, 3, 5, 8, 1]);
        assert_eq!(told(Collecting(255), 0, deliver(NO, 5)), [4, 8, 1, 6, 7, 2, 3]);
        assert_eq!(told(Collecting(1), bit(7), Stimulus::Timer), [4, 5, 8, 1, 6, 2, 3]);
        assert_eq!(told(Committing(0b0110_0110), 0, Stimulus::Timer), [6, 7, 2, 3]);
        assert_eq!(told(Aborting(0b1000_1001), 0, Stimulus::Timer), [4, 8, 1]);
    }
}
