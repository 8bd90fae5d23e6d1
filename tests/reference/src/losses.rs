//! What Job 6 changes, by name: a site that loses power in a crash or in a cut event, with a keep that names some of its
//! unforced records. Tests ask that their lists meet each of it; `Tried` asks for every keep.

use crate::codec::*;
use crate::joint::*;
use crate::log::{keeps, Log};
use crate::random::Event;
use crate::step::Effect;
use std::collections::{BTreeMap, BTreeSet};

/// When power is lost.
#[derive(Clone, Copy, PartialEq, Eq, Debug)]
enum When {
    Crash,
    /// In a cut event, its last effect being a record that the row does not force.
    BehindRecord,
    /// The next effect would have been the force.
    BeforeForce,
    BehindForce,
    /// Behind another effect, or before all.
    Else,
}

const TRIED: [(When, &str); 4] = [
    (When::Crash, "crash"),
    (When::BehindRecord, "cut behind a record that is not forced"),
    (When::BeforeForce, "cut behind a record, before its force"),
    (When::BehindForce, "cut behind a force"),
];

/// An event in which a site loses power, or would if its keep named no other records than those there.
struct Loss {
    site: u8,
    when: When,
    /// As it is then; behind a force as it was before that.
    log: Log,
    keep: u8,
    accepted: bool,
}

impl Loss {
    fn of(run: &Run, event: &[u8]) -> Option<Loss> {
        let &[code, x, y, z, cut, keep] = event else { return None };
        if code != 6 && cut == NO_CUT {
            return None;
        }
        let accepted = run.judge(event).is_ok();
        let (site, when, log) = match run.judge(&[code, x, y, z, cut, 0]) {
            Ok(Plan::Crash { site, .. }) => (site, When::Crash, run.log_after(site, &[])),
            Ok(Plan::Row { site, effects, cut: Some(cut), .. }) => {
                let (before, next) = effects.split_at(cut);
                let (when, happened) = match (before, next) {
                    ([.., (_, Effect::Append(_))], [(_, Effect::Force), ..]) => (When::BeforeForce, before),
                    ([.., (_, Effect::Append(_))], _) => (When::BehindRecord, before),
                    ([records @ .., (_, Effect::Force)], _) => (When::BehindForce, records),
                    _ => (When::Else, before),
                };
                (site, when, run.log_after(site, happened))
            }
            _ => return None,
        };
        Some(Loss { site, when, log, keep, accepted })
    }

    /// Is there a record that is kept beside one before it, or behind it, that is lost?
    fn kept_beside_lost(&self, order: fn(&usize, &usize) -> bool) -> bool {
        let places = || 0..self.log.unforced();
        let kept = |i: &usize| keeps(self.keep, *i);
        self.accepted && places().filter(kept).any(|i| places().any(|j| order(&i, &j) && !kept(&j)))
    }

    fn names(&self) -> Vec<&'static str> {
        let unforced = self.log.unforced();
        let kept = (0..unforced).filter(|&i| keeps(self.keep, i)).count();
        let met = [
            self.accepted && unforced == 1 && kept == 0,
            self.accepted && unforced == 1 && kept == 1,
            self.accepted && unforced >= 2 && kept == 0,
            self.accepted && unforced >= 2 && kept == unforced,
            self.kept_beside_lost(usize::lt),
            self.kept_beside_lost(usize::gt),
            !self.accepted && keeps(self.keep, unforced),
            !self.accepted && !keeps(self.keep, unforced),
        ];
        WHAT.into_iter().zip(met).filter(|&(_, met)| met).map(|(name, _)| name).collect()
    }
}

const WHAT: [&str; 8] = [
    "the only record lost",
    "the only record kept",
    "two records or more, all lost",
    "two records or more, all kept",
    "a record lost behind one that is kept",
    "a record kept behind one that is lost",
    "9, the place behind the last record named",
    "9, a place farther behind named",
];

fn name(when: When, what: &str) -> String {
    format!("keep at a {}: {what}", if when == When::Crash { "crash" } else { "cut" })
}

/// All the names.
pub fn names() -> Vec<String> {
    [When::Crash, When::Else].into_iter().flat_map(|when| WHAT.map(|what| name(when, what))).collect()
}

/// What of it an event meets, given the run before it. Behind a force there is no record left to keep.
pub fn met(run: &Run, event: &[u8]) -> Vec<String> {
    let Some(loss) = Loss::of(run, event).filter(|loss| loss.when != When::BehindForce) else { return vec![] };
    loss.names().into_iter().map(|what| name(loss.when, what)).collect()
}

const SITE_KINDS: [&str; 2] = ["coordinator", "participant"];
const KEEPS: usize = 256;

/// The keeps that lists have tried, and what they were tried on.
#[derive(Default)]
pub struct Tried {
    /// By kind of site, place in TRIED, number of unforced records and keep: refused, accepted.
    answers: BTreeMap<(usize, usize, usize, u8), [bool; 2]>,
    /// The same but for keep: where they were of different sorts.
    mixed: BTreeSet<(usize, usize, usize)>,
    /// By kind of site: was it down before, and has it lost a record now and kept a later one?
    again: [bool; 2],
}

impl Tried {
    pub fn on(lists: &[Vec<Event>]) -> Tried {
        let mut tried = Tried::default();
        for list in lists {
            let mut run = Run::fresh();
            for event in list {
                tried.event(&run, event);
                run.event(event);
            }
        }
        tried
    }

    /// An event and the run before it.
    pub fn event(&mut self, run: &Run, event: &[u8]) {
        let Some(loss) = Loss::of(run, event) else { return };
        let Some(place) = TRIED.iter().position(|&(when, _)| when == loss.when) else { return };
        let (kind, unforced) = ((loss.site != COORDINATOR) as usize, loss.log.unforced());
        self.answers.entry((kind, place, unforced, loss.keep)).or_default()[loss.accepted as usize] = true;
        if is_mixed(loss.site, &loss.log) {
            self.mixed.insert((kind, place, unforced));
        }
        let down = |happening: &Happening| matches!(happening, Happening::Down { site, .. } if *site == loss.site);
        let again = || loss.kept_beside_lost(usize::gt) && run.history.iter().any(down);
        self.again[kind] = self.again[kind] || again();
    }

    /// What is missing of: every keep with 1 to 8 unforced records at each kind of site, those accepted that name none
    /// but these; from 2 on such records mixed, where the row does not force; and a second time after a restart.
    pub fn missing(&self) -> Vec<String> {
        let mut missing = vec![];
        for (kind, of) in SITE_KINDS.into_iter().enumerate() {
            for (place, (when, how)) in TRIED.into_iter().enumerate() {
                for unforced in 1..=TRANSACTIONS as usize {
                    let right = if when == When::BehindForce { 1 } else { 1 << unforced };
                    let wanted = |keep: usize| [keep >= right, keep < right];
                    let found = |keep: usize| self.answers.get(&(kind, place, unforced, keep as u8));
                    let wrong = (0..KEEPS).filter(|&keep| found(keep) != Some(&wanted(keep))).count();
                    if wrong > 0 {
                        missing.push(format!("{of}, {how}, {unforced} unforced: right answers to {wrong} keeps"));
                    }
                    let alike = unforced == 1 || matches!(when, When::BeforeForce | When::BehindForce);
                    if !alike && !self.mixed.contains(&(kind, place, unforced)) {
                        missing.push(format!("{of}, {how}, {unforced} unforced: of different sorts"));
                    }
                }
            }
            if !self.again[kind] {
                missing.push(format!("{of}: a second loss of power"));
            }
        }
        missing
    }
}

/// Are the unforced records of different transactions and of every sort that so many can be of: CommitEnd and AbortEnd;
/// Committed and Aborted, and from three on Aborted with a vote before it and without?
fn is_mixed(site: u8, log: &Log) -> bool {
    let unforced = &log.records[log.stable..];
    let has = |kind: u8, voted: bool| {
        unforced.iter().any(|r| r.kind() == kind && voted != log.stable_of(r.transaction()).is_empty())
    };
    let mut of: Vec<u8> = unforced.iter().map(|record| record.transaction()).collect();
    of.sort();
    of.dedup();
    let sorts = if site == COORDINATOR {
        has(3, true) && has(4, true)
    } else {
        has(6, true) && has(7, false) && (unforced.len() < 3 || has(7, true))
    };
    of.len() == unforced.len() && sorts
}
