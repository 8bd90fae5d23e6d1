//! What Job 3 adds to the joint run, by name: event 8, the rows that it adds or changes, and restarts after them.
//! Tests ask that their lists meet each of it.

use crate::codec::*;
use crate::joint::*;
use crate::log::keeps;
use crate::step::*;

pub const NAMES: [&str; 57] = [
    "mark: before begin",
    "mark: in Collecting",
    "mark: after the decision",
    "mark: the coordinator down",
    "mark: again",
    "mark: 8, Prepared",
    "mark: 8, Committed",
    "mark: 8, Aborted",
    "mark: 8, Unknown after a read-only vote",
    "mark: 8, Unknown else",
    "marked, Working: Prepare",
    "marked, Working: Prepare, cut 0",
    "marked, Working: Prepare, cut 1",
    "marked, Working: timer",
    "marked, Working: Abort, PrA",
    "marked, Working: Abort, PrC",
    "marked, Working: Abort, cut",
    "marked, Working: crash",
    "marked, Aborted: Prepare",
    "marked, Unknown: Prepare after a read-only vote",
    "marked, Unknown: Prepare without one",
    "read-only vote sent: Abort, PrA",
    "read-only vote sent: Abort, PrC",
    "read-only vote sent: crash",
    "taken out, Collecting: No",
    "taken out, Collecting: read-only vote",
    "Collecting: No that overtakes a read-only vote",
    "Collecting: read-only vote, votes missing",
    "Collecting: read-only vote, votes missing, cut",
    "Collecting: last vote read-only, Committing",
    "Collecting: last vote read-only, Unknown",
    "Collecting: last vote read-only, cut and Commit kept",
    "Collecting: last vote read-only, cut and Commit lost",
    "Collecting: nobody remains, Init",
    "Collecting: nobody remains, Init, cut and AbortEnd kept",
    "Collecting: nobody remains, Init, cut and AbortEnd lost",
    "Collecting: nobody remains, no Init",
    "Collecting: last Yes, one taken out, Committing",
    "Collecting: last Yes, one taken out, Unknown",
    "Collecting: last Yes, one taken out, cut between sends",
    "Collecting: No, one taken out, Aborting",
    "Collecting: No, one taken out, AbortEnd",
    "Collecting: No, one taken out, no Init",
    "Collecting: timer, one taken out, Aborting",
    "Collecting: timer, one taken out, AbortEnd",
    "Collecting: timer, one taken out, no Init",
    "Committing: read-only vote",
    "Aborting: read-only vote",
    "Unknown: read-only vote",
    "Committing, one taken out: last CommitAck",
    "Aborting, one taken out: last AbortAck",
    "restart: Commit of fewer, Committing",
    "restart: Commit of fewer, Unknown",
    "restart: Init alone, a read-only vote was sent",
    "restart: Init and AbortEnd, all voted read-only",
    "discard: Commit of fewer closes, others presumed abort",
    "discard: AbortEnd, all voted read-only",
];

/// What no list can meet.
pub const NEVER: [&str; 4] = [
    "Open: read-only vote",
    "taken out, Collecting: Yes",
    "Collecting: read-only vote of one that voted Yes",
    "read-only vote sent: Commit",
];

/// What of it an event meets, given the run before it and what that judges.
pub fn met(run: &Run, event: &[u8], judged: &Result<Plan, u8>) -> Vec<&'static str> {
    let mut found = Vec::new();
    let &[code, x, y, ..] = event else { return found };
    match (code, judged) {
        (8, Err(8)) => found.push(run.refused_mark(x, y)),
        (_, Ok(plan)) => match *plan {
            Plan::Mark { transaction, participant } => run.met_mark(transaction, participant, &mut found),
            Plan::Row { site, restart: true, .. } => run.met_restart(site, &mut found),
            Plan::Row { site, ref effects, ref phases, cut, keep, .. } => {
                let step = Step { t: run.of(x), run, event, effects, after: phases[0].1, cut, keep };
                if site == COORDINATOR {
                    step.coordinator(&mut found);
                } else {
                    step.participant(site, &mut found);
                }
            }
            Plan::Crash { site, .. } if site != COORDINATOR => run.met_crash(site, &mut found),
            Plan::Discard { transaction, site: COORDINATOR } => found.extend(run.met_discard(transaction)),
            _ => {}
        },
        _ => {}
    }
    found
}

impl Run {
    fn of(&self, transaction: u8) -> &Transaction {
        self.transactions[transaction as usize].as_ref().expect("opened")
    }

    fn voted_read_only(&self, transaction: u8, participant: u8) -> bool {
        self.sent[Message { transaction, participant, kind: READ_ONLY }.number() as usize]
    }

    fn all_voted_read_only(&self, t: &Transaction) -> bool {
        each(t.names.members).all(|b| self.voted_read_only(t.names.transaction, b))
    }

    fn refused_mark(&self, transaction: u8, participant: u8) -> &'static str {
        match self.of(transaction).participants[participant as usize - 1] {
            ParticipantPhase::Working => unreachable!("accepted"),
            ParticipantPhase::Prepared => "mark: 8, Prepared",
            ParticipantPhase::Committed => "mark: 8, Committed",
            ParticipantPhase::Aborted => "mark: 8, Aborted",
            _ if self.voted_read_only(transaction, participant) => "mark: 8, Unknown after a read-only vote",
            _ => "mark: 8, Unknown else",
        }
    }

    fn met_mark(&self, transaction: u8, participant: u8, found: &mut Vec<&'static str>) {
        let t = self.of(transaction);
        found.push(match t.coordinator.phase {
            _ if !self.up[0] => "mark: the coordinator down",
            CoordinatorPhase::Open => "mark: before begin",
            CoordinatorPhase::Collecting(_) => "mark: in Collecting",
            _ => "mark: after the decision",
        });
        if has(t.marked, participant) {
            found.push("mark: again");
        }
    }

    fn met_crash(&self, site: u8, found: &mut Vec<&'static str>) {
        for t in self.transactions.iter().flatten().filter(|t| has(t.marked, site)) {
            if t.participants[site as usize - 1] == ParticipantPhase::Working {
                found.push("marked, Working: crash");
            } else if self.voted_read_only(t.names.transaction, site) {
                found.push("read-only vote sent: crash");
            }
        }
    }

    fn met_restart(&self, site: u8, found: &mut Vec<&'static str>) {
        for t in self.transactions.iter().flatten().filter(|_| site == COORDINATOR) {
            let any = each(t.names.members).any(|b| self.voted_read_only(t.names.transaction, b));
            match self.logs[0].stable_of(t.names.transaction)[..] {
                [.., LogRecord::Commit { members, presume_commit, .. }] if members != t.names.members => {
                    let all = members == presume_commit;
                    found.push(
                        ["restart: Commit of fewer, Committing", "restart: Commit of fewer, Unknown"][all as usize],
                    );
                }
                [LogRecord::Init { .. }] if any => found.push("restart: Init alone, a read-only vote was sent"),
                [LogRecord::Init { .. }, LogRecord::AbortEnd { .. }] if self.all_voted_read_only(t) => {
                    found.push("restart: Init and AbortEnd, all voted read-only");
                }
                _ => {}
            }
        }
    }

    fn met_discard(&self, transaction: u8) -> Option<&'static str> {
        let t = self.of(transaction);
        match self.logs[0].stable_of(transaction).last()? {
            LogRecord::Commit { .. } => {
                (t.names.presume_abort() != 0).then_some("discard: Commit of fewer closes, others presumed abort")
            }
            LogRecord::AbortEnd { .. } => {
                self.all_voted_read_only(t).then_some("discard: AbortEnd, all voted read-only")
            }
            _ => None,
        }
    }
}

/// A step of a site, not a restart.
struct Step<'a> {
    run: &'a Run,
    t: &'a Transaction,
    event: &'a [u8],
    effects: &'a [(u8, Effect)],
    after: Phase,
    cut: Option<usize>,
    keep: u8,
}

impl Step<'_> {
    /// The message's kind, or none for begin and timer.
    fn kind(&self) -> Option<u8> {
        (self.event[0] == 2).then_some(self.event[3])
    }

    fn participant(&self, site: u8, found: &mut Vec<&'static str>) {
        use ParticipantPhase::*;
        let marked = has(self.t.marked, site);
        let voted = self.run.voted_read_only(self.t.names.transaction, site);
        let presumes_commit = has(self.t.names.presume_commit, site);
        let by_presumption = |names: [&'static str; 2]| names[presumes_commit as usize];
        match (self.t.participants[site as usize - 1], self.kind()) {
            (Working, Some(PREPARE)) if marked => found.push(match self.cut {
                None => "marked, Working: Prepare",
                Some(0) => "marked, Working: Prepare, cut 0",
                Some(_) => "marked, Working: Prepare, cut 1",
            }),
            (Working, None) if marked => found.push("marked, Working: timer"),
            (Working, Some(ABORT)) if marked && self.cut.is_some() => found.push("marked, Working: Abort, cut"),
            (Working, Some(ABORT)) if marked => {
                found.push(by_presumption(["marked, Working: Abort, PrA", "marked, Working: Abort, PrC"]));
            }
            (Aborted, Some(PREPARE)) if marked => found.push("marked, Aborted: Prepare"),
            (Unknown, Some(PREPARE)) if voted => found.push("marked, Unknown: Prepare after a read-only vote"),
            (Unknown, Some(PREPARE)) if marked => found.push("marked, Unknown: Prepare without one"),
            (_, Some(ABORT)) if voted => {
                found.push(by_presumption(["read-only vote sent: Abort, PrA", "read-only vote sent: Abort, PrC"]));
            }
            (_, Some(COMMIT)) if voted => found.push("read-only vote sent: Commit"),
            _ => {}
        }
    }

    fn coordinator(&self, found: &mut Vec<&'static str>) {
        use CoordinatorPhase::*;
        let b = self.event[2];
        let CoordinatorState { phase, taken_out } = self.t.coordinator;
        let Phase::Coordinator(after) = self.after else { unreachable!("the coordinator's") };
        found.extend(match (phase, self.kind()) {
            (Open, Some(READ_ONLY)) => Some("Open: read-only vote"),
            (Collecting(_), Some(YES)) if has(taken_out, b) => Some("taken out, Collecting: Yes"),
            (Collecting(_), Some(NO)) if has(taken_out, b) => Some("taken out, Collecting: No"),
            (Collecting(_), Some(READ_ONLY)) if has(taken_out, b) => Some("taken out, Collecting: read-only vote"),
            (Collecting(waiting), Some(READ_ONLY)) if !has(waiting, b) => {
                Some("Collecting: read-only vote of one that voted Yes")
            }
            (Collecting(_), Some(READ_ONLY)) => Some(self.read_only_vote(after.phase)),
            (Collecting(_), Some(YES)) if taken_out != 0 && after.phase.number() != 1 => Some(match self.cut {
                Some(cut) if cut > 3 && cut < self.effects.len() => {
                    "Collecting: last Yes, one taken out, cut between sends"
                }
                _ if after.phase == Unknown => "Collecting: last Yes, one taken out, Unknown",
                _ => "Collecting: last Yes, one taken out, Committing",
            }),
            (Collecting(_), Some(NO) | None) if taken_out != 0 => Some(self.abort(after.phase)),
            (Committing(_), Some(READ_ONLY)) => Some("Committing: read-only vote"),
            (Aborting(_), Some(READ_ONLY)) => Some("Aborting: read-only vote"),
            (Unknown, Some(READ_ONLY)) => Some("Unknown: read-only vote"),
            (Committing(_), Some(COMMIT_ACK)) if taken_out != 0 && after.phase == Unknown => {
                Some("Committing, one taken out: last CommitAck")
            }
            (Aborting(_), Some(ABORT_ACK)) if taken_out != 0 && after.phase == Unknown => {
                Some("Aborting, one taken out: last AbortAck")
            }
            _ => None,
        });
        let overtaken = self.kind() == Some(NO) && self.run.voted_read_only(self.t.names.transaction, b);
        if matches!(phase, Collecting(_)) && overtaken && !has(taken_out, b) {
            found.push("Collecting: No that overtakes a read-only vote");
        }
    }

    /// A read-only vote that is awaited in Collecting, by the phase after it.
    fn read_only_vote(&self, after: CoordinatorPhase) -> &'static str {
        let appended = &self.effects[..self.cut.unwrap_or(0).min(1)];
        let kept = !appended.is_empty() && keeps(self.keep, self.run.unforced_after(COORDINATOR, appended) - 1);
        match (self.effects, self.cut) {
            ([], Some(_)) if after != CoordinatorPhase::Unknown => "Collecting: read-only vote, votes missing, cut",
            ([], _) if after != CoordinatorPhase::Unknown => "Collecting: read-only vote, votes missing",
            ([], _) => "Collecting: nobody remains, no Init",
            ([_], None) => "Collecting: nobody remains, Init",
            ([_], Some(_)) if kept => "Collecting: nobody remains, Init, cut and AbortEnd kept",
            ([_], Some(_)) => "Collecting: nobody remains, Init, cut and AbortEnd lost",
            (_, Some(1)) if kept => "Collecting: last vote read-only, cut and Commit kept",
            (_, Some(1)) => "Collecting: last vote read-only, cut and Commit lost",
            _ if after == CoordinatorPhase::Unknown => "Collecting: last vote read-only, Unknown",
            _ => "Collecting: last vote read-only, Committing",
        }
    }

    /// An abort out of Collecting after one was taken out.
    fn abort(&self, after: CoordinatorPhase) -> &'static str {
        let end = matches!(self.effects.last(), Some((_, Effect::Append(_))));
        let [aborting, with_end, without] = if self.kind().is_some() {
            [
                "Collecting: No, one taken out, Aborting",
                "Collecting: No, one taken out, AbortEnd",
                "Collecting: No, one taken out, no Init",
            ]
        } else {
            [
                "Collecting: timer, one taken out, Aborting",
                "Collecting: timer, one taken out, AbortEnd",
                "Collecting: timer, one taken out, no Init",
            ]
        };
        match after {
            CoordinatorPhase::Aborting(_) => aborting,
            _ if end => with_end,
            _ => without,
        }
    }
}
