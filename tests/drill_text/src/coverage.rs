//! What the lists met, by the reference model, and how often each of it has to be met at least.

use reference::codec::*;
use reference::joint::{Phase, Plan, Run, Transaction};
use reference::log::Log;
use reference::losses::{self, Tried};
use reference::read_only::{met, NAMES, NEVER};
use reference::send_order;
use reference::step::{CoordinatorPhase, Effect};
use reference::totals::{self, totals};
use std::collections::BTreeMap;

/// Answers that an event of each code can get; the last are codes above 8, and events that are not six bytes.
const ANSWERS: [&[usize]; 10] = [
    &[0, 1, 2, 5],
    &[0, 1, 3, 5, 8, 9],
    &[0, 1, 3, 4, 5, 7, 9],
    &[0, 1, 3, 4, 5, 8, 9],
    &[0, 1, 5],
    &[0, 1, 3, 4, 5, 8],
    &[0, 1, 5, 9],
    &[0, 1, 6, 9],
    &[0, 1, 3, 4, 5, 8],
    &[1],
];

/// Beside the kinds of messages.
const BEGIN: u8 = 8;
const TIMER: u8 = 9;
const STIMULI: [&str; 10] =
    ["Prepare", "Yes", "No", "Commit", "Abort", "CommitAck", "AbortAck", "read-only vote", "begin", "timer"];

/// What steps can meet in each phase of the coordinator (false) and of a participant (true): stimuli of participants of
/// both presumptions, stimuli of those that presume abort or of none, and stimuli of those that presume commit.
const STEPS: [(bool, &str, &[u8], &[u8], &[u8]); 10] = [
    (false, "Open", &[], &[BEGIN], &[]),
    (false, "Collecting", &[YES, NO, READ_ONLY], &[TIMER], &[]),
    (false, "Committing", &[YES, NO, READ_ONLY], &[TIMER, COMMIT_ACK], &[]),
    (false, "Aborting", &[YES, NO, READ_ONLY], &[TIMER], &[ABORT_ACK]),
    (false, "Unknown", &[YES, NO, READ_ONLY], &[COMMIT_ACK], &[ABORT_ACK]),
    (true, "Working", &[PREPARE, ABORT, TIMER], &[], &[]),
    (true, "Prepared", &[PREPARE, COMMIT, ABORT, TIMER], &[], &[]),
    (true, "Committed", &[PREPARE, COMMIT], &[ABORT], &[]),
    (true, "Aborted", &[PREPARE, ABORT], &[], &[COMMIT]),
    (true, "Unknown", &[PREPARE, COMMIT, ABORT], &[], &[]),
];

/// Kinds of the stable records of a transaction: at a restart of the coordinator and of a participant; before a discard.
const RESTARTS: [&[&[u8]]; 2] =
    [&[&[], &[1], &[1, 2], &[1, 2, 3], &[2], &[2, 3], &[3], &[1, 4], &[4]], &[&[], &[5], &[5, 6], &[6], &[5, 7], &[7]]];
const DISCARDS: [&[u8]; 11] =
    [&[1, 2], &[2], &[1, 2, 3], &[2, 3], &[3], &[1, 4], &[4], &[5, 6], &[6], &[5, 7], &[7]];

/// Where a row is cut: not, before its first effect, between two effects, behind its last.
const CUTS: [&str; 4] = ["not cut", "cut before its effects", "cut between its effects", "cut behind its effects"];

/// What else has to be met, and how often.
const OTHERS: [(&str, u64); 21] = [
    ("cut between two sends", 5000),
    ("refused: cut one above the effects", 1000),
    ("refused: cut far above the effects", 100),
    ("opening refused for a member alone", 20),
    ("opened with eight members", 500),
    ("restart of the coordinator with effects of five or more transactions", 500),
    ("restart of the coordinator with 72 effects", 20),
    ("restart of the coordinator with 72 effects, cut", 1000),
    ("restart of a participant with effects of five or more transactions", 500),
    ("ten sends or more", 1000),
    ("restart of the coordinator with 22 records or more", 20),
    ("restart of a participant with 15 records or more", 20),
    ("discard of the coordinator with 24 records", 100),
    ("discard of a participant with 16 records", 100),
    ("in doubt, the coordinator Unknown: Commit", 200),
    ("in doubt, the coordinator Unknown: Abort", 200),
    ("list with eight transactions", 1000),
    ("list with a broken last event", 500),
    ("list of 10,000 events", 50),
    ("list of more than 60,000 bytes", 20),
    ("list without an event", 1),
];

#[derive(Default)]
pub struct Coverage {
    pub lists: u64,
    pub events: u64,
    answers: [[u64; 10]; 10],
    /// By participant, phase, stimulus, presumption, and where it is cut.
    steps: [[[[[u64; 4]; 2]; 10]; 5]; 2],
    longest: [[[[usize; 2]; 10]; 5]; 2],
    /// By participant, kinds of records, and whether it is cut.
    restarts: BTreeMap<(bool, Vec<u8>, bool), u64>,
    discards: BTreeMap<Vec<u8>, u64>,
    /// What Job 3 adds, by its name, what Job 4 counts, what cuts show of Job 5's order, and what Job 6 lets survive.
    read_only: BTreeMap<&'static str, u64>,
    forced: BTreeMap<&'static str, u64>,
    order: BTreeMap<String, u64>,
    kept: BTreeMap<String, u64>,
    tried: Tried,
    /// By transactions opened with a site, and by the digits of its forces, its quotient and its remainder.
    opened: [u64; 9],
    digits: [[u64; 5]; 3],
    others: BTreeMap<&'static str, u64>,
    /// HANDOVER lines with each letter.
    letters: BTreeMap<u8, u64>,
}

fn kinds(log: &Log, transaction: u8) -> Vec<u8> {
    log.stable_of(transaction).iter().map(|record| record.kind()).collect()
}

impl Coverage {
    fn other(&mut self, what: &'static str, met: bool) {
        *self.others.entry(what).or_default() += met as u64;
    }

    /// A whole list and the library's text.
    pub fn list(&mut self, input: &[u8], run: &Run, text: &[u8]) {
        self.lists += 1;
        let opened = run.transactions.iter().flatten().count();
        self.other("list with eight transactions", opened == 8);
        self.other("list with a broken last event", input.len() < 60_000 && input.len() % 6 != 0);
        self.other("list of 10,000 events", run.events == 10_000);
        self.other("list of more than 60,000 bytes", input.len() > 60_000);
        self.other("list without an event", input.is_empty());
        for of in totals(&run.history) {
            let [forces, opened, quotient, remainder] = of.numbers();
            self.opened[opened as usize] += 1;
            for (digits, number) in self.digits.iter_mut().zip([forces, quotient, remainder]) {
                digits[number.checked_ilog10().unwrap_or(0) as usize] += 1;
            }
            if let Some(name) = totals::met_by(of.numbers()) {
                *self.forced.entry(name).or_default() += 1;
            }
        }
        for line in text.split(|&b| b == b'\n').filter(|line| line.starts_with(b"HANDOVER")) {
            for letter in [b'C', b'A', b'X', b'-'].into_iter().filter(|letter| line[10..].contains(letter)) {
                *self.letters.entry(letter).or_default() += 1;
            }
        }
    }

    /// An event and the run before it.
    pub fn event(&mut self, run: &Run, event: &[u8]) {
        self.events += 1;
        let judged = run.judge(event);
        let code = if event.len() == 6 { event[0].min(9) } else { 9 };
        for name in met(run, event, &judged) {
            *self.read_only.entry(name).or_default() += 1;
        }
        if let Some(name) = totals::met(run, event, &judged) {
            *self.forced.entry(name).or_default() += 1;
        }
        for name in send_order::met(run, event, &judged) {
            *self.order.entry(name).or_default() += 1;
        }
        for name in losses::met(run, event) {
            *self.kept.entry(name).or_default() += 1;
        }
        self.tried.event(run, event);
        self.answers[code as usize][*judged.as_ref().err().unwrap_or(&0) as usize] += 1;
        match judged {
            Ok(plan) => self.accepted(run, event, &plan),
            Err(9) => self.above(run, event),
            Err(5) if code == 0 => self.other("opening refused for a member alone", run.up[0]),
            Err(_) => {}
        }
    }

    fn accepted(&mut self, run: &Run, event: &[u8], plan: &Plan) {
        match plan {
            Plan::Open(names) => self.other("opened with eight members", names.members == 255),
            Plan::Row { site, restart, effects, cut, .. } => {
                if let Some(cut) = *cut {
                    let sends = |i: usize| matches!(effects.get(i), Some((_, Effect::Send(_))));
                    self.other("cut between two sends", cut > 0 && sends(cut - 1) && sends(cut));
                }
                let happen = &effects[..cut.unwrap_or(effects.len())];
                let sends = happen.iter().filter(|(_, effect)| matches!(effect, Effect::Send(_))).count();
                self.other("ten sends or more", sends >= 10);
                if *restart {
                    self.restart(run, *site, effects, *cut);
                } else {
                    self.step(run, event, *site, effects, *cut);
                }
            }
            Plan::Force { .. } | Plan::Mark { .. } | Plan::Crash { .. } => {}
            Plan::Discard { transaction, site } => {
                let records = run.logs[*site as usize].records.len();
                self.other("discard of the coordinator with 24 records", *site == COORDINATOR && records == 24);
                self.other("discard of a participant with 16 records", *site != COORDINATOR && records == 16);
                *self.discards.entry(kinds(&run.logs[*site as usize], *transaction)).or_default() += 1;
            }
        }
    }

    /// Refusal 9 of a row: is it the cut?
    fn above(&mut self, run: &Run, event: &[u8]) {
        let &[code, x, y, z, cut, _] = event else { unreachable!() };
        let Ok(Plan::Row { effects, .. }) = run.judge(&[code, x, y, z, 255, 0]) else { return };
        self.other("refused: cut one above the effects", cut as usize == effects.len() + 1);
        self.other("refused: cut far above the effects", cut as usize > effects.len() + 1);
    }

    fn restart(&mut self, run: &Run, site: u8, effects: &[(u8, Effect)], cut: Option<usize>) {
        let participant = site != COORDINATOR;
        for t in run.transactions.iter().flatten().filter(|t| !participant || has(t.names.members, site)) {
            let records = kinds(&run.logs[site as usize], t.names.transaction);
            *self.restarts.entry((participant, records, cut.is_some())).or_default() += 1;
        }
        let mut with_effects: Vec<u8> = effects.iter().map(|(transaction, _)| *transaction).collect();
        with_effects.dedup();
        let many = with_effects.len() >= 5;
        let records = run.logs[site as usize].records.len();
        if participant {
            self.other("restart of a participant with 15 records or more", records >= 15);
            self.other("restart of a participant with effects of five or more transactions", many);
        } else {
            self.other("restart of the coordinator with 22 records or more", records >= 22);
            self.other("restart of the coordinator with effects of five or more transactions", many);
            self.other("restart of the coordinator with 72 effects", effects.len() == 72 && cut.is_none());
            self.other("restart of the coordinator with 72 effects, cut", effects.len() == 72 && cut.is_some());
        }
    }

    fn step(&mut self, run: &Run, event: &[u8], site: u8, effects: &[(u8, Effect)], cut: Option<usize>) {
        let t: &Transaction = run.transactions[event[1] as usize].as_ref().unwrap();
        let (participant, phase) = match t.phase(site) {
            Phase::Coordinator(state) => (false, state.phase.number()),
            Phase::Participant(phase) => (true, phase as u8),
        };
        let (stimulus, named) = match event[0] {
            1 => (BEGIN, 0),
            2 => (event[3], event[2]),
            _ => (TIMER, site),
        };
        let presumption = if named == 0 { 0 } else { t.names.presumption(named) };
        let place = match cut {
            None => 0,
            Some(0) => 1,
            Some(cut) if cut < effects.len() => 2,
            Some(_) => 3,
        };
        let (p, f, s) = (participant as usize, phase as usize, stimulus as usize);
        self.steps[p][f][s][presumption as usize][place] += 1;
        let longest = &mut self.longest[p][f][s][presumption as usize];
        *longest = effects.len().max(*longest);
        if stimulus == YES && t.coordinator.phase == CoordinatorPhase::Unknown && cut != Some(0) {
            let in_doubt = kinds(&run.logs[named as usize], t.names.transaction) == [5];
            self.other("in doubt, the coordinator Unknown: Commit", in_doubt && presumption == 1);
            self.other("in doubt, the coordinator Unknown: Abort", in_doubt && presumption == 0);
        }
    }

    /// What was met too rarely, or cannot be met.
    pub fn missing(&self) -> Vec<String> {
        let mut missing = vec![];
        let mut least = |met: u64, least: u64, what: String| {
            if met < least {
                missing.push(format!("{what}: met {met} times, at least {least} are asked"));
            }
        };
        for (code, can) in ANSWERS.iter().enumerate() {
            for answer in 0..10 {
                let met = self.answers[code][answer];
                let what = format!("answer {answer} of code {code}");
                if can.contains(&answer) {
                    least(met, 200, what);
                } else {
                    assert_eq!(met, 0, "{what} cannot be");
                }
            }
        }
        for (i, (participant, phase, of_both, of_pra, of_prc)) in STEPS.into_iter().enumerate() {
            let (p, f) = (participant as usize, i % 5);
            let site = ["coordinator", "participant"][p];
            for (s, stimulus) in STIMULI.iter().enumerate() {
                for presumption in 0..2 {
                    let what = format!("{stimulus} at a {site} in {phase}, presumption {presumption}");
                    let only = [of_pra, of_prc][presumption];
                    let met = self.steps[p][f][s][presumption];
                    if !of_both.contains(&(s as u8)) && !only.contains(&(s as u8)) {
                        assert_eq!(met, [0; 4], "{what} cannot be");
                        continue;
                    }
                    let longest = self.longest[p][f][s][presumption];
                    for place in (0..4).filter(|&place| place != 2 || longest >= 2) {
                        // a row without effects is cut before them alone
                        let asked = if place == 3 && longest == 0 { 0 } else { [100, 10, 10, 10][place] };
                        least(met[place], asked, format!("{what}, {}", CUTS[place]));
                    }
                }
            }
        }
        for (participant, asked) in [false, true].into_iter().zip(RESTARTS) {
            for (records, cut) in asked.iter().flat_map(|records| [(records, false), (records, true)]) {
                let met = self.restarts.get(&(participant, records.to_vec(), cut));
                least(*met.unwrap_or(&0), 50, format!("restart with records {records:?}, cut: {cut}"));
            }
        }
        for records in DISCARDS {
            least(*self.discards.get(records).unwrap_or(&0), 50, format!("discard with records {records:?}"));
        }
        for name in NAMES {
            least(*self.read_only.get(name).unwrap_or(&0), 100, name.to_string());
        }
        for name in totals::NAMES {
            least(*self.forced.get(name).unwrap_or(&0), 500, name.to_string());
        }
        for name in send_order::names() {
            least(*self.order.get(&name).unwrap_or(&0), 5, name);
        }
        for name in losses::names() {
            least(*self.kept.get(&name).unwrap_or(&0), 300, name);
        }
        for (opened, met) in self.opened.into_iter().enumerate() {
            least(met, 500, format!("a site with {opened} transactions"));
        }
        // 10,000 forces leave no event for an opening
        for ((of, most), digits) in [("forces", 5), ("quotient", 4), ("remainder", 5)].into_iter().zip(self.digits) {
            for (met, n) in digits.into_iter().zip(1..) {
                let what = format!("a site with {of} of {n} digits");
                if n <= most {
                    least(met, 5, what);
                } else {
                    assert_eq!(met, 0, "{what} cannot be");
                }
            }
        }
        for name in NEVER {
            assert_eq!(self.read_only.get(name), None, "{name} cannot be");
        }
        for (what, asked) in OTHERS {
            least(*self.others.get(what).unwrap_or(&0), asked, what.to_string());
        }
        for letter in [b'C', b'A', b'-'] {
            let what = format!("HANDOVER line with {}", letter as char);
            least(*self.letters.get(&letter).unwrap_or(&0), 500, what);
        }
        missing.extend(self.tried.missing());
        missing
    }

    pub fn show(&self) {
        let answers: Vec<String> =
            (0..10).map(|a| format!("{a}: {}", self.answers.iter().map(|of| of[a]).sum::<u64>())).collect();
        println!("answers {}", answers.join(", "));
        let codes: Vec<String> = (0..9).map(|code| format!("{code}: {}", self.answers[code][0])).collect();
        println!("accepted by code {}", codes.join(", "));
        let (cut, uncut): (Vec<_>, Vec<_>) = self.restarts.iter().partition(|((.., cut), _)| *cut);
        let sum = |of: Vec<(_, &u64)>| of.into_iter().map(|(_, met)| met).sum::<u64>();
        println!("transactions restarted {}, and in a cut restart {}", sum(uncut), sum(cut));
        let added = NAMES.map(|name| format!("{name} {}", self.read_only.get(name).unwrap_or(&0)));
        println!("of Job 3: {}", added.join("; "));
        let counted = totals::NAMES.map(|name| format!("{name} {}", self.forced.get(name).unwrap_or(&0)));
        println!("of Job 4: {}", counted.join("; "));
        for (job, names) in [(5, &self.order), (6, &self.kept)] {
            let (least, most) = (names.values().min(), names.values().max());
            println!("of Job {job}: {} names, each {} to {} times", names.len(), least.unwrap_or(&0), most.unwrap_or(&0));
        }
    }
}
