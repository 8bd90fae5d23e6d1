//! One site's step on numbers in plain Rust without a heap: what the proved step is measured against.
//! The larger functions are always inlined: left to the compiler, a call takes a third more instructions.

/// Message kinds; begin and timer are kinds of their own.
pub const PREPARE: u8 = 0;
pub const YES: u8 = 1;
pub const NO: u8 = 2;
pub const COMMIT: u8 = 3;
pub const ABORT: u8 = 4;
pub const COMMIT_ACK: u8 = 5;
pub const ABORT_ACK: u8 = 6;
pub const READ_ONLY: u8 = 7;
pub const BEGIN: u8 = 16;
pub const TIMER: u8 = 17;

/// Phases of the coordinator.
pub const OPEN: u8 = 0;
pub const COLLECTING: u8 = 1;
pub const COMMITTING: u8 = 2;
pub const ABORTING: u8 = 3;
/// Phases of a participant.
pub const WORKING: u8 = 0;
pub const PREPARED: u8 = 1;
pub const COMMITTED: u8 = 2;
pub const ABORTED: u8 = 3;
/// The last phase of both.
pub const UNKNOWN: u8 = 4;

#[derive(Clone, Copy)]
pub enum Record {
    Init = 1,
    Commit,
    CommitEnd,
    AbortEnd,
    Prepared,
    Committed,
    Aborted,
}

#[derive(Clone, Copy)]
pub enum Outcome {
    Commit = 1,
    Abort,
}

const REFUSED: u64 = 1;

/// Phase and sets after a step, and its effects, as they are in the result.
#[derive(Clone, Copy)]
pub struct Step(pub u64);

impl Step {
    pub fn to_phase(phase: u8, waiting: u8) -> Step {
        Step(0).with(8, phase).with(16, waiting)
    }

    /// The phase that waits for these acks; without any, Unknown.
    pub fn awaiting(phase: u8, acks: u8) -> Step {
        Step::to_phase(if acks == 0 { UNKNOWN } else { phase }, acks)
    }

    fn taken_out(self, taken_out: u8) -> Step {
        self.with(24, taken_out)
    }

    fn append(self, record: Record) -> Step {
        self.with(32, record as u8)
    }

    /// Behind the other effects.
    fn append_last(self, record: Record) -> Step {
        self.with(36, record as u8)
    }

    fn force(self) -> Step {
        self.with(40, 1)
    }

    pub fn enter(self, outcome: Outcome) -> Step {
        self.with(41, outcome as u8)
    }

    /// To nobody, it is no message.
    pub fn send(self, message: u8, to: u8) -> Step {
        if to == 0 {
            self
        } else {
            self.with(48, message).with(56, to)
        }
    }

    fn with(self, bit: u32, value: u8) -> Step {
        Step(self.0 | (value as u64) << bit)
    }
}

/// A transaction as its coordinator knows it: the masks as opened, and where it stands.
#[derive(Clone, Copy)]
pub struct Standing {
    pub phase: u8,
    pub waiting: u8,
    pub members: u8,
    pub presume_commit: u8,
    pub taken_out: u8,
}

/// The coordinator's step on a message of the participant whose bit is `sender`, on begin or on timer.
#[inline(always)]
pub fn coordinator(kind: u8, sender: u8, standing: Standing) -> Step {
    let Standing { phase, waiting, members, presume_commit, taken_out } = standing;
    let same = Step::to_phase(phase, waiting);
    match (kind, phase) {
        (BEGIN, OPEN) => {
            let begun = Step::to_phase(COLLECTING, members).send(PREPARE, members);
            if presume_commit == 0 {
                begun
            } else {
                begun.append(Record::Init).force()
            }
        }
        (_, COLLECTING) => collecting(kind, sender, standing),
        (YES, COMMITTING) => same.send(COMMIT, sender),
        (YES, ABORTING) => same.send(ABORT, sender),
        (YES, UNKNOWN) => same.send(if presume_commit & sender != 0 { COMMIT } else { ABORT }, sender),
        (COMMIT_ACK, COMMITTING) => acknowledged(phase, waiting & !sender, Record::CommitEnd),
        (ABORT_ACK, ABORTING) => acknowledged(phase, waiting & !sender, Record::AbortEnd),
        (TIMER, COMMITTING) => same.send(COMMIT, waiting),
        (TIMER, ABORTING) => same.send(ABORT, waiting),
        _ => same,
    }
    .taken_out(taken_out)
}

/// The step in Collecting, but for the set that was taken out before; a timer has no sender.
#[inline(always)]
fn collecting(kind: u8, sender: u8, standing: Standing) -> Step {
    let Standing { waiting, members, presume_commit, taken_out, .. } = standing;
    let missing = waiting & !sender;
    let remaining = members & !taken_out;
    match kind {
        _ if sender & taken_out != 0 => Step::to_phase(COLLECTING, waiting),
        YES if missing != 0 => Step::to_phase(COLLECTING, missing),
        YES => commit(remaining, presume_commit),
        READ_ONLY => match (missing, remaining & !sender) {
            (0, 0) if presume_commit == 0 => Step::to_phase(UNKNOWN, 0),
            (0, 0) => Step::to_phase(UNKNOWN, 0).append(Record::AbortEnd),
            (0, remaining) => commit(remaining, presume_commit),
            _ => Step::to_phase(COLLECTING, missing),
        }
        .taken_out(sender),
        NO | TIMER => {
            let told = remaining & !sender;
            let acks = told & presume_commit;
            let aborted = Step::awaiting(ABORTING, acks).enter(Outcome::Abort).send(ABORT, told);
            if acks == 0 && presume_commit != 0 {
                aborted.append_last(Record::AbortEnd)
            } else {
                aborted
            }
        }
        _ => Step::to_phase(COLLECTING, waiting),
    }
}

/// Those that remain have all voted Yes.
fn commit(remaining: u8, presume_commit: u8) -> Step {
    Step::awaiting(COMMITTING, remaining & !presume_commit)
        .append(Record::Commit)
        .force()
        .enter(Outcome::Commit)
        .send(COMMIT, remaining)
}

/// Acks are missing still, or the record ends it.
fn acknowledged(phase: u8, missing: u8, end: Record) -> Step {
    if missing == 0 {
        Step::to_phase(UNKNOWN, 0).append(end)
    } else {
        Step::to_phase(phase, missing)
    }
}

/// The step of the participant whose bit is `own`.
#[inline(always)]
pub fn participant(kind: u8, own: u8, presumes_commit: bool, marked: bool, phase: u8) -> Step {
    let same = Step::to_phase(phase, 0);
    match (kind, phase) {
        (PREPARE, WORKING) if marked => Step::to_phase(UNKNOWN, 0).send(READ_ONLY, own),
        (PREPARE, WORKING) => Step::to_phase(PREPARED, 0).append(Record::Prepared).force().send(YES, own),
        (PREPARE | TIMER, PREPARED) => same.send(YES, own),
        (PREPARE, ABORTED | UNKNOWN) => same.send(NO, own),
        (COMMIT, PREPARED) => {
            let committed = Step::to_phase(COMMITTED, 0).append(Record::Committed).enter(Outcome::Commit);
            if presumes_commit {
                committed
            } else {
                committed.force().send(COMMIT_ACK, own)
            }
        }
        (COMMIT, COMMITTED | UNKNOWN) if !presumes_commit => same.send(COMMIT_ACK, own),
        (ABORT, WORKING | PREPARED) => {
            let aborted = Step::to_phase(ABORTED, 0).append(Record::Aborted).enter(Outcome::Abort);
            if presumes_commit {
                aborted.force().send(ABORT_ACK, own)
            } else {
                aborted
            }
        }
        (ABORT, ABORTED | UNKNOWN) if presumes_commit => same.send(ABORT_ACK, own),
        (TIMER, WORKING) => Step::to_phase(UNKNOWN, 0).enter(Outcome::Abort),
        _ => same,
    }
}

/// The bit of a participant that is a member, and whose presumption is the one given.
#[inline(always)]
fn member(participant: u8, presumption: u8, members: u8, presume_commit: u8) -> Option<u8> {
    let bit = match participant {
        1..=8 => 1 << (participant - 1),
        _ => return None,
    };
    (members & bit != 0 && presumption == (presume_commit & bit != 0) as u8).then_some(bit)
}

fn is_part(part: u8, of: u8) -> bool {
    part & !of == 0
}

/// May the coordinator wait for these and have taken out those?
#[inline(always)]
fn may_stand(standing: Standing) -> bool {
    let Standing { phase, waiting, members, presume_commit, taken_out } = standing;
    let may_wait = match phase {
        COLLECTING => waiting != 0 && is_part(waiting, members),
        COMMITTING => waiting != 0 && is_part(waiting, members & !presume_commit),
        ABORTING => waiting != 0 && is_part(waiting, presume_commit),
        OPEN => waiting | taken_out == 0,
        _ => waiting == 0,
    };
    may_wait && is_part(taken_out, members & !waiting)
}

/// The step on numbers, or none where an argument is refused.
#[allow(clippy::too_many_arguments)]
#[inline(always)]
fn step(
    site: u8,
    kind: u8,
    transaction: u8,
    other: u8,
    presumption: u8,
    phase: u8,
    waiting: u8,
    members: u8,
    presume_commit: u8,
    mark: u8,
    taken_out: u8,
) -> Option<Step> {
    if transaction > 7 || phase > UNKNOWN || members == 0 || !is_part(presume_commit, members) {
        return None;
    }
    if site == 0 {
        let sender = match kind {
            BEGIN | TIMER if other == 0 && presumption == 0 => 0,
            YES | NO | COMMIT_ACK | ABORT_ACK | READ_ONLY => member(other, presumption, members, presume_commit)?,
            _ => return None,
        };
        let standing = Standing { phase, waiting, members, presume_commit, taken_out };
        if mark != 0 || !may_stand(standing) {
            return None;
        }
        Some(coordinator(kind, sender, standing))
    } else {
        let own = member(other, presumption, members, presume_commit)?;
        let none = waiting | taken_out;
        if site != other || none != 0 || mark > 1 || !matches!(kind, PREPARE | COMMIT | ABORT | TIMER) {
            return None;
        }
        Some(participant(kind, own, presumption == 1, mark == 1, phase))
    }
}

/// Its number; 1 is the refusal.
#[allow(clippy::too_many_arguments)]
#[inline(always)]
pub fn site_step(
    site: u8,
    kind: u8,
    transaction: u8,
    other: u8,
    presumption: u8,
    phase: u8,
    waiting: u8,
    members: u8,
    presume_commit: u8,
    mark: u8,
    taken_out: u8,
) -> u64 {
    match step(site, kind, transaction, other, presumption, phase, waiting, members, presume_commit, mark, taken_out) {
        Some(Step(number)) => number,
        None => REFUSED,
    }
}
