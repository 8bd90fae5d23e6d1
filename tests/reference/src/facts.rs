//! Facts of every run that events can reach, asked after every event of a list, and of the logs after every effect.

use crate::codec::*;
use crate::drill::*;
use crate::joint::*;
use crate::log::Log;
use crate::monitor::rebuild;
use crate::step::*;
use crate::totals::{count, Totals};

type Fact = Result<(), String>;

/// Fails with the fact that does not hold.
fn fact(holds: bool, what: &str, transaction: u8, site: u8) -> Fact {
    if holds {
        Ok(())
    } else {
        Err(format!("{what} (transaction {transaction}, site {site})"))
    }
}

/// What the list has done so far.
#[derive(Default)]
struct Past {
    logs: [Log; 9],
    /// Transactions whose Commit record was stable at some moment.
    commit_was_stable: [bool; 8],
    totals: [Totals; 9],
    /// The forces that the events' answers tell, by the site of the event.
    told: [u64; 9],
    /// The most unforced records of the coordinator, and of a participant, at any moment.
    most_unforced: [usize; 2],
}

/// The most unforced records that the coordinator had, and a participant, or the fact that does not hold.
pub fn facts(input: &[u8]) -> Result<[usize; 2], String> {
    let mut run = Run::fresh();
    let mut past = Past::default();
    for (i, event) in drill_events(input).enumerate() {
        past.event(&mut run, event).map_err(|what| format!("after event {}: {what}", i + 1))?;
    }
    Ok(past.most_unforced)
}

/// The site at which an event's effects happen.
fn site_of(event: &[u8]) -> u8 {
    match *event {
        [2, _, b, kind, ..] if goes_to_participant(kind) => b,
        [3 | 4 | 7, _, site, ..] => site,
        _ => COORDINATOR,
    }
}

impl Past {
    fn event(&mut self, run: &mut Run, event: &[u8]) -> Fact {
        let seen = run.history.len();
        let Answer { number, forces, .. } = run.event(event);
        if number == 0 {
            self.told[site_of(event) as usize] += forces as u64;
        }
        run.history[seen..].iter().try_for_each(|happening| self.happen(happening))?;
        self.facts_now(run)
    }

    fn happen(&mut self, happening: &Happening) -> Fact {
        rebuild(&mut self.logs, happening);
        count(&mut self.totals, happening);
        if let Happening::Did { site, .. } | Happening::Down { site, .. } | Happening::Dropped { site, .. } = *happening
        {
            let log = &self.logs[site as usize];
            facts_of_log(site, log)?;
            let most = &mut self.most_unforced[(site != COORDINATOR) as usize];
            *most = log.unforced().max(*most);
        }
        for record in self.logs[0].stable_part().iter().filter(|record| record.kind() == 2) {
            self.commit_was_stable[record.transaction() as usize] = true;
        }
        Ok(())
    }

    fn facts_now(&self, run: &Run) -> Fact {
        for site in 0..SITES {
            let log = &run.logs[site as usize];
            fact(run.up[site as usize] || log.unforced() == 0, "a down site has unforced records", 0, site)?;
            fact(log.records[log.stable..].iter().all(|r| r.kind() != 5), "an unforced vote", 0, site)?;
            fact(log == &self.logs[site as usize], "a log that the history does not tell", 0, site)?;
            let with_it = |t: &&Transaction| site == COORDINATOR || has(t.names.members, site);
            let opened = run.transactions.iter().flatten().filter(with_it).count() as u64;
            facts_of_totals(site, self.totals[site as usize].numbers(), self.told[site as usize], opened)?;
        }
        for t in run.transactions.iter().flatten() {
            let view = View { run, t, commit_was_stable: self.commit_was_stable[t.names.transaction as usize] };
            view.coordinator()?;
            each(t.names.members).try_for_each(|b| view.participant(b))?;
        }
        Ok(())
    }
}

/// Of a site's four numbers, beside the forces that answers tell and the transactions with it that are opened.
fn facts_of_totals(site: u8, numbers: [u64; 4], told: u64, with_it: u64) -> Fact {
    let [forces, opened, quotient, remainder] = numbers;
    let fact = |holds, what| fact(holds, what, 0, site);
    fact(forces == told, "other forces than its answers tell")?;
    fact(opened == with_it, "other transactions than those opened with it")?;
    fact(forces == quotient * opened + remainder, "quotient and remainder are not the forces")?;
    let exact = if opened == 0 { quotient == 0 } else { remainder < opened };
    fact(exact, "a remainder too large, or a quotient without transactions")
}

/// Of the whole log, of its stable part and of its unforced records, at any moment, within a row too.
fn facts_of_log(site: u8, log: &Log) -> Fact {
    let most = if site == COORDINATOR { 24 } else { 16 };
    fact(log.records.len() <= most, "more records than an image holds", 0, site)?;
    for part in [&log.records[..], log.stable_part()] {
        let read = read_image(&image(site, part));
        fact(read.is_ok_and(|(of, log)| of == site && log == part), "a log that is no accepted image", 0, site)?;
    }
    let unforced = &log.records[log.stable..];
    fact(unforced.len() <= TRANSACTIONS as usize, "more than eight unforced records", 0, site)?;
    for h in 0..TRANSACTIONS {
        let of = unforced.iter().filter(|record| record.transaction() == h).count();
        fact(of <= 1, "two unforced records", h, site)?;
    }
    Ok(())
}

/// One transaction in the run.
struct View<'a> {
    run: &'a Run,
    t: &'a Transaction,
    commit_was_stable: bool,
}

impl View<'_> {
    fn sent(&self, participant: u8, kind: u8) -> bool {
        let transaction = self.t.names.transaction;
        self.run.sent[Message { transaction, participant, kind }.number() as usize]
    }

    /// Kinds of the records, and of the stable ones.
    fn kinds(&self, site: u8) -> (Vec<u8>, Vec<u8>) {
        let log = &self.run.logs[site as usize];
        let h = self.t.names.transaction;
        let all = log.records.iter().filter(|r| r.transaction() == h).map(|r| r.kind()).collect();
        (all, log.stable_of(h).iter().map(|r| r.kind()).collect())
    }

    fn coordinator(&self) -> Fact {
        let Names { transaction: h, members, presume_commit } = self.t.names;
        let CoordinatorState { phase, taken_out } = self.t.coordinator;
        let (all, stable) = self.kinds(0);
        let waiting = phase.waiting();
        let fact = |holds, what| fact(holds, what, h, 0);
        fact(all.len() <= 3, "more than 3 records")?;
        fact(is_part(taken_out, members & !waiting), "taken out: no member, or awaited")?;
        match phase {
            CoordinatorPhase::Open => {
                let none = (1..=8).all(|b| (0..8).all(|k| !self.sent(b, k)));
                fact(none && all.is_empty() && taken_out == 0, "Open with a message, a record or one taken out")?;
            }
            CoordinatorPhase::Collecting(_) => {
                let right: &[u8] = if presume_commit != 0 { &[1] } else { &[] };
                fact(waiting != 0 && is_part(waiting, members), "Collecting: waiting")?;
                fact(all == right && stable == right, "Collecting: log")?;
                each(members).try_for_each(|b| self.voter(b, waiting, taken_out))?;
            }
            CoordinatorPhase::Committing(_) => {
                fact(stable.contains(&2) && !all.contains(&3), "Committing: log")?;
                let owing = self.commit_names().map_or(0, |names| names.presume_abort());
                fact(waiting != 0 && is_part(waiting, owing), "Committing: waiting")?;
            }
            CoordinatorPhase::Aborting(_) => {
                fact(waiting != 0 && is_part(waiting, presume_commit), "Aborting: waiting")?;
                fact(all == [1], "Aborting: log")?;
            }
            CoordinatorPhase::Unknown if self.run.up[0] => {
                fact(!all.contains(&1) || all.contains(&2) || all.contains(&4), "Unknown: Init alone")?;
                let owing = self.commit_names().map_or(0, |names| names.presume_abort());
                fact(owing == 0 || all.contains(&3), "Unknown: Commit without end")?;
                for b in each(members).filter(|&b| self.kinds(b).1 == [5]) {
                    let commits = has(presume_commit, b);
                    fact(commits == self.commit_was_stable, "Unknown: presumption not the outcome")?;
                }
            }
            CoordinatorPhase::Unknown => fact(taken_out == 0, "down, and one is taken out")?,
        }
        let closed = self.run.up[0] && self.run.logs[0].is_closed(h);
        fact(!closed || phase == CoordinatorPhase::Unknown, "discard allowed, phase not Unknown")
    }

    /// The masks of the Commit record in the log.
    fn commit_names(&self) -> Option<Names> {
        self.run.logs[0].records.iter().find_map(|record| match *record {
            LogRecord::Commit { transaction, members, presume_commit } if transaction == self.t.names.transaction => {
                Some(Names { transaction, members, presume_commit })
            }
            _ => None,
        })
    }

    /// A member while the coordinator collects: awaited, taken out, or it has voted.
    fn voter(&self, b: u8, waiting: Mask, taken_out: Mask) -> Fact {
        let fact = |holds, what| fact(holds, what, self.t.names.transaction, b);
        let (all, stable) = self.kinds(b);
        fact((COMMIT..READ_ONLY).all(|k| !self.sent(b, k)), "Collecting: an outcome or ack was sent")?;
        if has(taken_out, b) {
            let voted = self.sent(b, READ_ONLY) && !self.sent(b, YES);
            return fact(voted && all.is_empty(), "Collecting: one taken out");
        }
        if self.sent(b, YES) || !has(waiting, b) {
            let voted = self.sent(b, YES) && !self.sent(b, NO) && !self.sent(b, READ_ONLY);
            return fact(voted && stable == [5], "Collecting: a voter");
        }
        Ok(())
    }

    fn participant(&self, b: u8) -> Fact {
        let fact = |holds, what| fact(holds, what, self.t.names.transaction, b);
        let sent = |kind| self.sent(b, kind);
        let (all, stable) = self.kinds(b);
        let phase = self.t.participants[b as usize - 1];
        let up = self.run.up[b as usize];
        fact(all.len() <= 2, "more than 2 records")?;
        let right = match phase {
            ParticipantPhase::Working => all.is_empty() && !sent(YES) && !sent(NO) && !sent(READ_ONLY),
            ParticipantPhase::Prepared => all == [5] && stable == [5],
            ParticipantPhase::Committed => all.last() == Some(&6),
            ParticipantPhase::Aborted => all.last() == Some(&7),
            ParticipantPhase::Unknown => !up || all.is_empty(),
        };
        fact(right, "participant's log")?;
        let presumes_commit = has(self.t.names.presume_commit, b);
        fact(!sent(COMMIT_ACK) || !presumes_commit, "CommitAck of a PrC participant")?;
        fact(!sent(ABORT_ACK) || presumes_commit, "AbortAck of a PrA participant")?;
        if sent(YES) && sent(NO) {
            fact(sent(COMMIT) || sent(ABORT), "Yes and No without an outcome message")?;
        }
        fact(!sent(YES) || !sent(READ_ONLY), "Yes and a read-only vote")?;
        if has(self.t.marked, b) {
            let voted = sent(YES) || all.contains(&5) || all.contains(&6);
            fact(!voted, "a marked participant voted Yes or committed")?;
        }
        if sent(READ_ONLY) {
            fact(has(self.t.marked, b), "a read-only vote without a mark")?;
            let forgotten = phase == ParticipantPhase::Unknown && all.is_empty();
            fact(forgotten && !sent(COMMIT), "a read-only vote, and not Unknown, a record, or a Commit")?;
        }
        Ok(())
    }
}

#[cfg(test)]
mod tests {
    use super::*;

    /// After these events and a change of the run some fact fails.
    fn fails(events: &[[u8; 4]], by: &str, change: impl FnOnce(&mut Run)) {
        let mut run = Run::fresh();
        let mut past = Past::default();
        for &[code, x, y, z] in events {
            let event = [code, x, y, z, NO_CUT, 0];
            assert!(run.judge(&event).is_ok());
            assert_eq!(past.event(&mut run, &event), Ok(()));
        }
        change(&mut run);
        past.logs = run.logs.clone();
        let found = past.facts_now(&run);
        assert!(found.as_ref().is_err_and(|what| what.contains(by)), "{found:?} instead of: {by}");
    }

    fn send(run: &mut Run, participant: u8, kind: u8) {
        run.sent[Message { transaction: 0, participant, kind }.number() as usize] = true;
    }

    fn first(run: &mut Run) -> &mut Transaction {
        run.transactions[0].as_mut().unwrap()
    }

    /// Participant 1 is marked and taken out, 2 has voted, 3 is awaited; 1 and 3 presume commit.
    const COLLECTING: [[u8; 4]; 7] =
        [[0, 0, 7, 5], [8, 0, 1, 0], [1, 0, 0, 0], [2, 0, 1, 0], [2, 0, 1, 7], [2, 0, 2, 0], [2, 0, 2, 1]];

    #[test]
    fn facts_of_a_read_only_vote_may_fail() {
        fails(&COLLECTING, "taken out: no member, or awaited", |run| first(run).coordinator.taken_out = 5);
        fails(&COLLECTING, "taken out: no member, or awaited", |run| first(run).coordinator.taken_out = 9);
        fails(&COLLECTING, "Collecting: a voter", |run| first(run).coordinator.taken_out = 0);
        fails(&COLLECTING, "Collecting: one taken out", |run| first(run).coordinator.taken_out = 3);
        fails(&COLLECTING, "Collecting: one taken out", |run| send(run, 1, YES));
        fails(&COLLECTING, "Collecting: a voter", |run| send(run, 2, READ_ONLY));
        fails(&COLLECTING, "Collecting: a voter", |run| send(run, 2, NO));
        fails(&COLLECTING, "Collecting: waiting", |run| first(run).coordinator.phase = CoordinatorPhase::Collecting(0));
        fails(&COLLECTING, "an outcome or ack was sent", |run| send(run, 3, ABORT));
        fails(&COLLECTING, "participant's log", |run| first(run).participants[0] = ParticipantPhase::Working);
        fails(&COLLECTING, "a read-only vote without a mark", |run| first(run).marked = 0);
        fails(&COLLECTING, "a marked participant voted Yes", |run| first(run).marked = 3);
        fails(&COLLECTING[..2], "Open", |run| first(run).coordinator.taken_out = 1);
    }

    #[test]
    fn facts_of_the_decided_may_fail() {
        // 3 votes as well: Commit names 2 and 3, and 2 owes an ack
        let committing = [&COLLECTING[..], &[[2, 0, 3, 0], [2, 0, 3, 1]]].concat();
        let wait = |phase: fn(Mask) -> CoordinatorPhase, waiting| {
            move |run: &mut Run| first(run).coordinator.phase = phase(waiting)
        };
        fails(&committing, "Committing: waiting", wait(CoordinatorPhase::Committing, 4));
        fails(&committing, "Committing: waiting", wait(CoordinatorPhase::Committing, 0));
        fails(&committing, "Commit without end", |run| first(run).coordinator.phase = CoordinatorPhase::Unknown);
        fails(&committing, "a read-only vote, and", |run| send(run, 1, COMMIT));
        let aborting = [&COLLECTING[..], &[[3, 0, 0, 0]]].concat();
        fails(&aborting, "Aborting: waiting", wait(CoordinatorPhase::Aborting, 2));
        fails(&aborting, "taken out: no member, or awaited", wait(CoordinatorPhase::Aborting, 5));
        fails(&aborting, "Init alone", |run| first(run).coordinator.phase = CoordinatorPhase::Unknown);
    }

    #[test]
    fn facts_of_totals_may_fail() {
        fails(&COLLECTING, "other transactions", |run| first(run).names.members = 15);
        fails(&COLLECTING, "other transactions", |run| run.transactions[1] = run.transactions[0].clone());
        for (numbers, by) in [
            ([8, 2, 4, 0], "other forces"),
            ([6, 2, 3, 0], "other forces"),
            ([7, 1, 7, 0], "other transactions"),
            ([7, 0, 0, 7], "other transactions"),
            ([7, 2, 3, 0], "are not the forces"),
            ([7, 2, 2, 3], "a remainder too large"),
            ([7, 2, 0, 7], "a remainder too large"),
        ] {
            let found = facts_of_totals(1, numbers, 7, 2);
            assert!(found.as_ref().is_err_and(|what| what.contains(by)), "{found:?} instead of: {by}");
        }
        assert_eq!(facts_of_totals(1, [7, 2, 3, 1], 7, 2), Ok(()));
        assert_eq!(facts_of_totals(1, [7, 0, 0, 7], 7, 0), Ok(()));
        assert!(facts_of_totals(1, [7, 0, 7, 7], 7, 0).is_err_and(|what| what.contains("a quotient without")));
        assert!(facts_of_totals(1, [7, 0, 0, 0], 7, 0).is_err_and(|what| what.contains("are not the forces")));
    }

    #[test]
    fn facts_of_logs_may_fail() {
        let record = |transaction: u8, kind: u8| match kind {
            1 => LogRecord::Init { transaction, members: 3, presume_commit: 1 },
            2 => LogRecord::Commit { transaction, members: 2, presume_commit: 0 },
            3 => LogRecord::CommitEnd { transaction },
            _ => LogRecord::AbortEnd { transaction },
        };
        let log = |stable: usize, kinds: &[u8]| {
            facts_of_log(0, &Log { records: kinds.iter().map(|&kind| record(0, kind)).collect(), stable })
        };
        assert_eq!(log(2, &[1, 2, 3]), Ok(()));
        assert!(log(1, &[1, 2, 3]).is_err_and(|what| what.contains("two unforced records")));
        assert!(log(1, &[1, 3]).is_err_and(|what| what.contains("no accepted image")));
        assert!(log(25, &[4; 25]).is_err_and(|what| what.contains("more records")));
        let ends = |unforced: u8, more: &[LogRecord]| {
            let records = (0..8).map(|h| record(h, 3)).take(unforced as usize).chain(more.iter().copied()).collect();
            facts_of_log(0, &Log { records, stable: 0 })
        };
        assert_eq!(ends(8, &[]), Ok(()));
        let two = [record(7, 1), record(7, 4)];
        assert!(ends(6, &two).is_err_and(|what| what.contains("two unforced records")));
        assert!(ends(7, &two).is_err_and(|what| what.contains("more than eight unforced records")));
    }
}
