//! Demand 3, checked on the history of a list of events.
//! The logs are rebuilt here from the history, so that each moment between two effects is seen.

use crate::codec::*;
use crate::drill::*;
use crate::joint::*;
use crate::log::Log;
use crate::step::*;

/// A reply of a coordinator whose phase was Unknown to a participant in doubt.
struct Reply {
    event: usize,
    transaction: u8,
    participant: u8,
    kind: u8,
}

/// What the history has shown of an opened transaction.
#[derive(Clone, Copy)]
struct Seen {
    names: Names,
    /// The members that sent a Yes while record 5 was stable.
    voted: Mask,
    /// Those whose read-only vote was delivered to the coordinator in Collecting.
    taken_out: Mask,
    /// Those that an accepted event 8 has marked.
    marked: Mask,
    /// The masks of the Commit record that was appended.
    commit: Option<(Mask, Mask)>,
    commit_was_stable: bool,
    entered: Entries,
}

impl Seen {
    fn opened(names: Names) -> Seen {
        let (commit, entered) = (None, Entries::default());
        Seen { names, voted: 0, taken_out: 0, marked: 0, commit, commit_was_stable: false, entered }
    }

    /// An entry: of one outcome alone, and of commit after all votes but those of the members taken out, which are marked.
    fn enter(&mut self, outcome: Outcome) -> Result<(), &'static str> {
        match outcome {
            Outcome::Abort => self.entered.abort = true,
            Outcome::Commit => {
                self.entered.commit = true;
                if !is_part(self.names.members & !self.taken_out, self.voted) {
                    return Err("commit entered before every member voted that is not taken out");
                }
                if !is_part(self.names.members & !self.marked, self.voted) {
                    return Err("commit entered before every member voted that is not marked");
                }
            }
        }
        if self.entered.commit && self.entered.abort {
            return Err("entries of commit and of abort");
        }
        Ok(())
    }

    /// The Commit record names those that were never marked, and it is theirs that voted.
    fn at_the_end(&self) -> Result<(), &'static str> {
        let Names { members, presume_commit, .. } = self.names.without(self.marked);
        match self.commit {
            Some(masks) if masks != (members, presume_commit) => Err("Commit names others than those never marked"),
            Some(_) if self.voted & self.names.members != members => {
                Err("Commit, and others voted than those never marked")
            }
            None if self.entered.commit => Err("commit entered without a record"),
            _ => Ok(()),
        }
    }
}

/// Rebuilds the logs: what one happening does to them.
pub fn rebuild(logs: &mut [Log; 9], happening: &Happening) {
    match *happening {
        Happening::Did { site, effect, .. } => logs[site as usize].perform(effect),
        Happening::Down { site, keep } => logs[site as usize].go_down(keep),
        Happening::Dropped { site, transaction } => logs[site as usize].drop_oldest(transaction),
        _ => {}
    }
}

/// Ok: demand 3 holds; else what is broken.
pub fn check(history: &[Happening]) -> Result<(), String> {
    let mut logs: [Log; 9] = Default::default();
    let mut seen: [Option<Seen>; 8] = [None; 8];
    let mut replies: Vec<Reply> = Vec::new();
    let mut event = 0;
    // Set while the event is the Yes of a participant in doubt, and the coordinator was Unknown.
    let mut doubt: Option<Message> = None;
    for happening in history {
        rebuild(&mut logs, happening);
        match *happening {
            Happening::Event { number, delivered } => {
                event = number;
                doubt = None;
                match delivered {
                    Some((message @ Message { kind: YES, .. }, CoordinatorPhase::Unknown)) => {
                        let stable = logs[message.participant as usize].stable_of(message.transaction);
                        let holds = |kind| stable.iter().any(|r| r.kind() == kind);
                        if holds(5) && !holds(6) && !holds(7) {
                            doubt = Some(message);
                        }
                    }
                    Some((Message { transaction, participant, kind: READ_ONLY }, CoordinatorPhase::Collecting(_))) => {
                        of(&mut seen, transaction).taken_out |= bit(participant);
                    }
                    _ => {}
                }
            }
            Happening::Opened(names) => seen[names.transaction as usize] = Some(Seen::opened(names)),
            Happening::Marked { transaction, participant } => of(&mut seen, transaction).marked |= bit(participant),
            Happening::Did { site, transaction, effect } => match effect {
                Effect::Append(LogRecord::Commit { transaction, members, presume_commit }) => {
                    of(&mut seen, transaction).commit = Some((members, presume_commit));
                }
                Effect::Append(_) | Effect::Force => {}
                Effect::Enter(outcome) => {
                    let h = transaction.expect("an entry has a transaction");
                    let entered = of(&mut seen, h).enter(outcome);
                    entered.map_err(|what| format!("event {event}: {h} at site {site}: {what}"))?;
                }
                Effect::Send(message) => {
                    let Message { transaction, participant, kind } = message;
                    if kind == YES {
                        let stable = logs[site as usize].stable_of(transaction);
                        if site == participant && stable.iter().any(|r| r.kind() == 5) {
                            of(&mut seen, transaction).voted |= bit(participant);
                        }
                    }
                    if let Some(yes) = doubt {
                        let answers = yes.transaction == transaction && yes.participant == participant;
                        if answers && site == COORDINATOR && (kind == COMMIT || kind == ABORT) {
                            replies.push(Reply { event, transaction, participant, kind });
                        }
                    }
                }
            },
            Happening::Down { .. } | Happening::Dropped { .. } => {}
        }
        for record in logs[COORDINATOR as usize].stable_part() {
            if record.kind() == 2 {
                of(&mut seen, record.transaction()).commit_was_stable = true;
            }
        }
    }
    // Replies are measured by the outcome of the whole list, and so are the marks.
    for Reply { event, transaction, participant, kind } in replies {
        let outcome = if of(&mut seen, transaction).commit_was_stable { COMMIT } else { ABORT };
        if kind != outcome {
            return Err(format!(
                "event {event}: reply on {transaction} to participant {participant} is not its outcome"
            ));
        }
    }
    for seen in seen.iter().flatten() {
        seen.at_the_end().map_err(|what| format!("{}: {what}", seen.names.transaction))?;
    }
    Ok(())
}

fn of(seen: &mut [Option<Seen>; 8], transaction: u8) -> &mut Seen {
    seen[transaction as usize].as_mut().expect("opened")
}

/// Runs a list and checks it.
pub fn safe(input: &[u8]) -> Result<(), String> {
    let mut run = Run::fresh();
    for event in drill_events(input) {
        run.event(event);
    }
    check(&run.history)
}

#[cfg(test)]
mod tests {
    use super::*;

    const H: u8 = 2;
    const OPENED: Names = Names { transaction: H, members: 3, presume_commit: 1 };

    fn did(site: u8, effect: Effect) -> Happening {
        Happening::Did { site, transaction: Some(H), effect }
    }

    fn message(participant: u8, kind: u8) -> Message {
        Message { transaction: H, participant, kind }
    }

    fn delivered(participant: u8, kind: u8, phase: CoordinatorPhase) -> Happening {
        Happening::Event { number: 1, delivered: Some((message(participant, kind), phase)) }
    }

    /// Record 5, its force and a Yes.
    fn voted(b: u8) -> [Happening; 3] {
        let vote = LogRecord::Prepared { transaction: H, presumption: OPENED.presumption(b) };
        [Effect::Append(vote), Effect::Force, Effect::Send(message(b, YES))].map(|effect| did(b, effect))
    }

    /// Participant 2 is marked, and its vote taken.
    fn taken_out() -> [Happening; 2] {
        let collecting = CoordinatorPhase::Collecting(3);
        [Happening::Marked { transaction: H, participant: 2 }, delivered(2, READ_ONLY, collecting)]
    }

    /// Commit of these members, forced and entered.
    fn commits(members: Mask, presume_commit: Mask) -> [Happening; 3] {
        let record = LogRecord::Commit { transaction: H, members, presume_commit };
        [Effect::Append(record), Effect::Force, Effect::Enter(Outcome::Commit)].map(|effect| did(0, effect))
    }

    fn verdict(parts: &[&[Happening]]) -> Result<(), String> {
        check(&[&[Happening::Opened(OPENED)], parts.concat().as_slice()].concat())
    }

    fn broken(parts: &[&[Happening]], by: &str) {
        let verdict = verdict(parts);
        assert!(verdict.as_ref().is_err_and(|what| what.contains(by)), "{verdict:?} instead of: {by}");
    }

    #[test]
    fn commit_asks_for_votes() {
        assert_eq!(verdict(&[&voted(1), &voted(2), &commits(3, 1)]), Ok(()));
        assert_eq!(verdict(&[&voted(1), &taken_out(), &commits(1, 1)]), Ok(()));
        broken(&[&voted(1), &commits(3, 1)], "not taken out");
        broken(&[&voted(1), &commits(3, 1), &voted(2)], "not taken out");
        // a Yes from a record that is not stable
        let [vote, force, yes] = voted(2);
        broken(&[&voted(1), &[vote, yes, force], &commits(3, 1)], "not taken out");
        // a mark alone, and a read-only vote that comes to another phase or too late
        let [mark, vote] = taken_out();
        broken(&[&voted(1), &[mark], &commits(1, 1)], "not taken out");
        broken(
            &[&voted(1), &[mark, delivered(2, READ_ONLY, CoordinatorPhase::Unknown)], &commits(1, 1)],
            "not taken out",
        );
        broken(&[&voted(1), &[mark], &commits(1, 1), &[vote]], "not taken out");
        broken(&[&voted(1), &[vote], &commits(1, 1)], "not marked");
    }

    #[test]
    fn commit_names_those_never_marked() {
        broken(&[&voted(1), &taken_out(), &commits(3, 1)], "Commit names others");
        broken(&[&voted(1), &taken_out(), &commits(1, 0)], "Commit names others");
        broken(&[&voted(1), &voted(2), &commits(1, 1)], "Commit names others");
        broken(&[&voted(1), &voted(2), &commits(3, 1), &taken_out()], "Commit names others");
        broken(&[&voted(1), &taken_out(), &commits(1, 1), &voted(2)], "others voted");
        broken(&[&voted(1), &voted(2), &commits(3, 1)[2..]], "without a record");
    }

    #[test]
    fn one_outcome_and_its_replies() {
        let abort = [did(1, Effect::Enter(Outcome::Abort))];
        broken(&[&voted(1), &voted(2), &commits(3, 1), &abort], "entries of commit and of abort");
        let reply = |phase, kind| [delivered(1, YES, phase), did(0, Effect::Send(message(1, kind)))];
        let unknown = CoordinatorPhase::Unknown;
        assert_eq!(verdict(&[&voted(1), &reply(unknown, ABORT)]), Ok(()));
        broken(&[&voted(1), &reply(unknown, COMMIT)], "not its outcome");
        assert_eq!(verdict(&[&voted(1), &voted(2), &commits(3, 1), &reply(unknown, COMMIT)]), Ok(()));
        broken(&[&voted(1), &voted(2), &commits(3, 1), &reply(unknown, ABORT)], "not its outcome");
        // the outcome is that of the whole list; another phase, or a participant not in doubt, is no matter
        broken(&[&voted(1), &voted(2), &reply(unknown, ABORT), &commits(3, 1)], "not its outcome");
        assert_eq!(verdict(&[&voted(1), &reply(CoordinatorPhase::Aborting(1), COMMIT)]), Ok(()));
        assert_eq!(verdict(&[&reply(unknown, COMMIT)]), Ok(()));
    }
}
