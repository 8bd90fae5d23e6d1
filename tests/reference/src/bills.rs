//! Job 7: the bill for a clean run of a transaction, when a list of events has such a run, and what then holds of it.

use crate::codec::*;
use crate::drill::drill_events;
use crate::joint::*;
use crate::step::*;

/// What a transaction costs.
#[derive(Clone, Copy, PartialEq, Eq, Debug, Default)]
pub struct Bill {
    pub records: u32,
    pub forces: u32,
    pub sends: u32,
}

impl Bill {
    fn add(&mut self, answer: Answer) {
        self.records += answer.records;
        self.forces += answer.forces;
        self.sends += answer.sends;
    }
}

/// The bill by 02's formula. 1: no member, or presume_commit is no part of the members.
pub fn bill(members: Mask, presume_commit: Mask) -> Result<Bill, u8> {
    if members == 0 || !is_part(presume_commit, members) {
        return Err(1);
    }
    let n = members.count_ones();
    let c = presume_commit.count_ones();
    let a = n - c;
    let one_if = |condition: bool| condition as u32;
    let records = 2 * n + 1 + one_if(c > 0) + one_if(a > 0);
    let forces = n + a + 1 + one_if(c > 0);
    let sends = 3 * n + a;
    Ok(Bill { records, forces, sends })
}

/// The four bytes of the call: answer, records, forces, sends.
pub fn bill_bytes(members: Mask, presume_commit: Mask) -> [u8; 4] {
    match bill(members, presume_commit) {
        Ok(Bill { records, forces, sends }) => [0, records as u8, forces as u8, sends as u8],
        Err(number) => [number, 0, 0, 0],
    }
}

/// Each set of members with each part of it: 6,560 pairs.
pub fn pairs() -> impl Iterator<Item = (Mask, Mask)> {
    let all = (1..=255).flat_map(|members| (0..=members).map(move |part| (members, part)));
    all.filter(|&(members, part)| is_part(part, members))
}

/// Where the costs come from: all effects of a clean run, each with its site. Their order is not told.
pub fn items(names: Names) -> Vec<(u8, Effect)> {
    let Names { transaction, members, presume_commit } = names;
    let append = Effect::Append;
    let enter = Effect::Enter(Outcome::Commit);
    let mut items = vec![];
    if presume_commit != 0 {
        items.extend([append(LogRecord::Init { transaction, members, presume_commit }), Effect::Force]);
    }
    items.extend([append(LogRecord::Commit { transaction, members, presume_commit }), Effect::Force, enter]);
    if names.presume_abort() != 0 {
        items.push(append(LogRecord::CommitEnd { transaction }));
    }
    for participant in each(members) {
        items.extend([PREPARE, COMMIT].map(|kind| Effect::Send(Message { transaction, participant, kind })));
    }
    let mut items: Vec<(u8, Effect)> = items.into_iter().map(|item| (COORDINATOR, item)).collect();
    for participant in each(members) {
        let send = |kind| Effect::Send(Message { transaction, participant, kind });
        let presumption = names.presumption(participant);
        let vote = [append(LogRecord::Prepared { transaction, presumption }), Effect::Force, send(YES)];
        let outcome = [append(LogRecord::Committed { transaction }), enter];
        let acked = [Effect::Force, send(COMMIT_ACK)];
        let of_presumption: &[Effect] = if has(presume_commit, participant) { &[] } else { &acked };
        let all = vote.iter().chain(&outcome).chain(of_presumption);
        items.extend(all.map(|&item| (participant, item)));
    }
    items
}

/// What an accepted event, behind the opening of the transaction, does to its clean run, so that it is none.
pub fn disturbance(names: Names, event: &[u8], plan: &Plan) -> Option<&'static str> {
    let own = event[1] == names.transaction;
    let needed = |site: u8| site == COORDINATOR || has(names.members, site);
    match *plan {
        Plan::Row { site, cut: Some(_), .. } if needed(site) => Some("a cut at the coordinator or at a member"),
        Plan::Crash { site, .. } if needed(site) => Some("a crash of the coordinator or of a member"),
        Plan::Row { .. } if own && event[0] == 3 => Some("its timer"),
        Plan::Discard { .. } if own => Some("its discard"),
        Plan::Mark { .. } if own => Some("its mark"),
        _ => None,
    }
}

/// What the events of the transaction have done so far: those that were accepted, of the codes 0 to 2.
#[derive(Clone, Debug, Default)]
struct Own {
    begun: bool,
    delivered: Vec<Message>,
    told: Bill,
}

impl Own {
    fn event(&mut self, event: &[u8], answer: Answer) {
        match *event {
            [1, ..] => self.begun = true,
            [2, transaction, participant, kind, ..] => self.delivered.push(Message { transaction, participant, kind }),
            _ => {}
        }
        self.told.add(answer);
    }

    /// Begun, and each message sent was delivered once.
    fn is_over(&self, run: &Run, names: Names) -> Result<(), String> {
        if !self.begun {
            return Err("never begun".to_string());
        }
        for message in (0..MESSAGES as u16).map(|number| Message::from_number(number).expect("in range")) {
            let times = self.delivered.iter().filter(|&&delivered| delivered == message).count();
            let sent = message.transaction == names.transaction && run.sent[message.number() as usize];
            if times != sent as usize {
                return Err(format!("{message:?} is delivered {times} times"));
            }
        }
        Ok(())
    }
}

/// Does the list have a clean run of the transaction, up to its end, and does all hold that Job 7 says of it?
/// The counts of its events, added up; else what does not hold.
pub fn check(names: Names, input: &[u8]) -> Result<Bill, String> {
    let mut run = Run::fresh();
    let mut own = Own::default();
    for (i, event) in drill_events(input).enumerate() {
        let opened = run.transactions[names.transaction as usize].is_some();
        if let (true, Ok(plan)) = (opened, run.judge(event)) {
            if let Some(what) = disturbance(names, event, &plan) {
                return Err(format!("not clean: event {} is {what}", i + 1));
            }
        }
        let answer = run.event(event);
        if answer.number == 0 && event[0] <= 2 && event[1] == names.transaction {
            own.event(event, answer);
        }
    }
    own.is_over(&run, names).map_err(|what| format!("not clean: {what}"))?;
    claims(&run, names, own.told)?;
    Ok(own.told)
}

/// What Job 7 says of the run behind the last event.
fn claims(run: &Run, names: Names, told: Bill) -> Result<(), String> {
    let claim = |holds: bool, what: &str| if holds { Ok(()) } else { Err(what.to_string()) };
    let t = run.transactions[names.transaction as usize].as_ref().ok_or("never opened")?;
    claim(t.names == names, "opened with other masks")?;
    for (site, entered) in (0..SITES).zip(t.entries) {
        let commits = site == COORDINATOR || has(names.members, site);
        claim(entered.commit == commits, "commit is not entered by the coordinator and all members alone")?;
        claim(!entered.abort, "abort is entered")?;
    }
    claim(t.coordinator.phase == CoordinatorPhase::Unknown, "the coordinator is not Unknown")?;
    let did: Vec<(u8, Effect)> = run.history.iter().filter_map(|happening| effect_of(happening, names)).collect();
    let times = |of: &[(u8, Effect)], one: &(u8, Effect)| of.iter().filter(|other| *other == one).count();
    let sends = |(_, effect): &&(u8, Effect)| matches!(effect, Effect::Send(_));
    claim(did.iter().filter(sends).all(|one| times(&did, one) == 1), "a message is sent twice")?;
    claim(Ok(told) == bill(names.members, names.presume_commit), "the counts are not the bill")?;
    let items = items(names);
    claim(did.len() == items.len(), "more effects, or fewer, than the bill's")?;
    claim(items.iter().all(|one| times(&did, one) == times(&items, one)), "other effects than the bill's")
}

/// An effect of the transaction, with its site.
fn effect_of(happening: &Happening, names: Names) -> Option<(u8, Effect)> {
    match *happening {
        Happening::Did { site, transaction, effect } if transaction == Some(names.transaction) => Some((site, effect)),
        _ => None,
    }
}

#[cfg(test)]
mod tests {
    use super::*;

    #[test]
    fn the_formula_is_where_the_costs_come_from() {
        let mut all = 0;
        for (members, presume_commit) in pairs() {
            let mut itemized = Bill::default();
            for (_, item) in items(Names { transaction: 3, members, presume_commit }) {
                match item {
                    Effect::Append(_) => itemized.records += 1,
                    Effect::Force => itemized.forces += 1,
                    Effect::Send(_) => itemized.sends += 1,
                    Effect::Enter(_) => {}
                }
            }
            assert_eq!(bill(members, presume_commit), Ok(itemized), "{members} {presume_commit}");
            all += 1;
        }
        assert_eq!(all, 6_560);
    }

    #[test]
    fn bytes_of_the_call() {
        // K1 and K2, and three members
        assert_eq!(bill_bytes(1, 1), [0, 4, 3, 3]);
        assert_eq!(bill_bytes(1, 0), [0, 4, 3, 4]);
        let three = [0b000, 0b010, 0b101, 0b111].map(|presume_commit| bill_bytes(0b111, presume_commit));
        assert_eq!(three, [[0, 8, 7, 12], [0, 9, 7, 11], [0, 9, 6, 10], [0, 8, 5, 9]]);
        assert_eq!([bill_bytes(255, 0), bill_bytes(255, 255)], [[0, 18, 17, 32], [0, 18, 10, 24]]);
        let all = || (0..=255).flat_map(|members| (0..=255).map(move |part| (members, part)));
        let refused = all().filter(|&(members, part)| bill_bytes(members, part) == [1, 0, 0, 0]);
        assert_eq!(refused.count(), 65_536 - 6_560);
        assert_eq!([bill_bytes(0, 0), bill_bytes(5, 2), bill_bytes(5, 7)], [[1, 0, 0, 0]; 3]);
    }

    /// Participant 1 presumes abort and 3 commit.
    const NAMES: Names = Names { transaction: 2, members: 5, presume_commit: 4 };
    const CLEAN: [[u8; 4]; 9] = [
        [0, 2, 5, 4],
        [1, 2, 0, 0],
        [2, 2, 3, PREPARE],
        [2, 2, 1, PREPARE],
        [2, 2, 1, YES],
        [2, 2, 3, YES],
        [2, 2, 1, COMMIT],
        [2, 2, 1, COMMIT_ACK],
        [2, 2, 3, COMMIT],
    ];

    fn bytes(events: &[[u8; 4]]) -> Vec<u8> {
        events.iter().flat_map(|&[code, x, y, z]| [code, x, y, z, NO_CUT, 0]).collect()
    }

    /// The clean list with others put in before an event.
    fn with(at: usize, others: &[[u8; 6]]) -> Result<Bill, String> {
        check(NAMES, &[&bytes(&CLEAN[..at])[..], &others.concat(), &bytes(&CLEAN[at..])].concat())
    }

    fn broken(found: Result<Bill, String>, by: &str) {
        assert!(found.as_ref().is_err_and(|what| what.contains(by)), "{found:?} instead of: {by}");
    }

    #[test]
    fn what_is_clean() {
        let right = Ok(Bill { records: 7, forces: 5, sends: 7 });
        assert_eq!(with(0, &[]), right);
        // refused events; forces; another site; another transaction
        assert_eq!(with(1, &[[1, 2, 0, 0, 9, 0], [0, 2, 1, 0, NO_CUT, 0], [2, 2, 2, 0, NO_CUT, 0], [9; 6]]), right);
        assert_eq!(with(5, &[[4, 0, 0, 0, NO_CUT, 0], [6, 0, 0, 0, NO_CUT, 1], [8, 2, 1, 0, NO_CUT, 0]]), right);
        assert_eq!(with(3, &[[6, 0, 2, 0, NO_CUT, 0], [7, 0, 2, 0, 0, 0], [7, 0, 2, 0, NO_CUT, 0]]), right);
        assert_eq!(with(2, &[[0, 0, 1, 1, NO_CUT, 0], [1, 0, 0, 0, NO_CUT, 0], [3, 0, 1, 0, NO_CUT, 0]]), right);
        // anything before the opening
        assert_eq!(with(0, &[[6, 0, 0, 0, NO_CUT, 0], [7, 0, 0, 0, NO_CUT, 0], [3, 2, 0, 0, NO_CUT, 0]]), right);
    }

    #[test]
    fn what_is_not_clean() {
        for (site, at) in [(0, 1), (0, 5), (1, 3), (3, 8)] {
            broken(with(at, &[[6, 0, site, 0, NO_CUT, 0], [7, 0, site, 0, NO_CUT, 0]]), "is a crash");
        }
        let other = [[0, 0, 3, 0, NO_CUT, 0], [1, 0, 0, 0, NO_CUT, 0], [3, 0, 1, 0, 1, 0]];
        broken(with(1, &other), "event 4 is a cut");
        broken(with(1, &[[1, 2, 0, 0, 4, 0]]), "is a cut");
        broken(with(6, &[[2, 2, 1, COMMIT, 0, 0]]), "is a cut");
        broken(with(2, &[[3, 2, 0, 0, NO_CUT, 0]]), "is its timer");
        broken(with(4, &[[3, 2, 1, 0, NO_CUT, 0]]), "is its timer");
        broken(with(1, &[[8, 2, 3, 0, NO_CUT, 0]]), "is its mark");
        broken(with(8, &[[5, 2, 1, 0, NO_CUT, 0]]), "is its discard");
        broken(with(9, &[[2, 2, 1, YES, NO_CUT, 0]]), "delivered 2 times");
        broken(with(9, &[[3, 2, 3, 0, NO_CUT, 0], [4, 0, 3, 0, NO_CUT, 0], [5, 2, 3, 0, NO_CUT, 0]]), "is its discard");
        broken(check(NAMES, &bytes(&CLEAN[..8])), "delivered 0 times");
        broken(check(NAMES, &bytes(&CLEAN[..1])), "never begun");
        broken(check(Names { members: 7, ..NAMES }, &bytes(&CLEAN)), "other masks");
        broken(check(Names { transaction: 1, ..NAMES }, &bytes(&CLEAN)), "never begun");
    }

    /// After the clean list and a change some claim fails.
    fn fails(by: &str, change: impl FnOnce(&mut Run, &mut Bill)) {
        let mut run = Run::fresh();
        let mut told = Bill::default();
        bytes(&CLEAN).chunks(6).for_each(|event| told.add(run.event(event)));
        assert_eq!(claims(&run, NAMES, told), Ok(()));
        change(&mut run, &mut told);
        broken(claims(&run, NAMES, told).map(|()| told), by);
    }

    #[test]
    fn claims_may_fail() {
        fn t(run: &mut Run) -> &mut Transaction {
            run.transactions[2].as_mut().unwrap()
        }
        for site in [0, 1, 3] {
            fails("commit is not entered", |run, _| t(run).entries[site].commit = false);
            fails("abort is entered", |run, _| t(run).entries[site].abort = true);
        }
        fails("commit is not entered", |run, _| t(run).entries[2].commit = true);
        fails("not Unknown", |run, _| t(run).coordinator.phase = CoordinatorPhase::Committing(1));
        fails("counts are not the bill", |_, told| told.forces += 1);
        let did = |site, effect| Happening::Did { site, transaction: Some(2), effect };
        let message = |kind| Effect::Send(Message { transaction: 2, participant: 1, kind });
        fails("sent twice", |run, _| run.history.push(did(1, message(YES))));
        fails("more effects", |run, _| run.history.push(did(1, message(NO))));
        let end = Effect::Append(LogRecord::AbortEnd { transaction: 2 });
        fails("other effects", |run, _| {
            let last = run.history.iter().rposition(|happening| effect_of(happening, NAMES).is_some()).unwrap();
            run.history[last] = did(0, end);
        });
    }
}
