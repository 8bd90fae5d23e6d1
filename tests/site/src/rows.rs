//! The rows of a site's step, each with what it does (the sets are compared with the model alone), and how often the
//! calls met them.

use crate::arguments::Arguments;
use crate::codec::*;
use std::collections::BTreeMap;
use Asks::*;
use Beside::*;

/// What a row asks of the participant that the call names, beside kind and phase: its presumption, and whether the
/// coordinator waits for it, has taken it out, or neither.
#[derive(Clone, Copy, PartialEq)]
enum Asks {
    PrA,
    PrC,
    Awaited,
    Neither,
    TakenOut,
    NotTakenOut,
}

/// A row is met without and with what Job 3 adds: at the coordinator the set taken out is empty or not before the step,
/// a participant is marked or not. Some rows are met in one of the two ways alone.
#[derive(Clone, Copy, PartialEq)]
enum Beside {
    Both,
    Without,
    With,
}

/// Phase after, record appended first, record appended last, forced, outcome entered, message sent.
type Does = [u8; 6];

struct Row {
    participant: bool,
    kind: u8,
    phase: u8,
    asks: &'static [Asks],
    beside: Beside,
    name: &'static str,
    does: Does,
}

/// No message.
const NO_MESSAGE: u8 = 255;
const BEGIN: u8 = 16;
const TIMER: u8 = 17;
const OPEN: u8 = 0;
const COLLECTING: u8 = 1;
const COMMITTING: u8 = 2;
const ABORTING: u8 = 3;
const WORKING: u8 = 0;
const PREPARED: u8 = 1;
const COMMITTED: u8 = 2;
const ABORTED: u8 = 3;
const UNKNOWN: u8 = 4;

/// What most messages that still wait for others do: nothing.
const fn stays(phase: u8) -> Does {
    [phase, 0, 0, 0, 0, NO_MESSAGE]
}

const fn hub(kind: u8, phase: u8, asks: &'static [Asks], beside: Beside, name: &'static str, does: Does) -> Row {
    Row { participant: false, kind, phase, asks, beside, name, does }
}

const fn member(kind: u8, phase: u8, asks: &'static [Asks], beside: Beside, name: &'static str, does: Does) -> Row {
    Row { participant: true, kind, phase, asks, beside, name, does }
}

const COMMITS: Does = [COMMITTING, 2, 0, 1, 1, COMMIT];
const COMMITS_WITHOUT_ACKS: Does = [UNKNOWN, 2, 0, 1, 1, COMMIT];
const ABORTS: Does = [ABORTING, 0, 0, 0, 2, ABORT];
const ABORTS_WITHOUT_INIT: Does = [UNKNOWN, 0, 0, 0, 2, ABORT];
const ABORTS_WITHOUT_ACKS: Does = [UNKNOWN, 0, 4, 0, 2, ABORT];
const ABORTS_ALONE: Does = [UNKNOWN, 0, 4, 0, 2, NO_MESSAGE];
const ENDS_ABORT: Does = [UNKNOWN, 4, 0, 0, 0, NO_MESSAGE];

const ROWS: [Row; 77] = [
    hub(BEGIN, OPEN, &[], Without, "begin", [COLLECTING, 1, 0, 1, 0, PREPARE]),
    hub(BEGIN, OPEN, &[], Without, "begin, PC empty", [COLLECTING, 0, 0, 0, 0, PREPARE]),
    hub(YES, COLLECTING, &[Awaited], Both, "Yes", stays(COLLECTING)),
    hub(YES, COLLECTING, &[Neither], Both, "Yes again", stays(COLLECTING)),
    hub(YES, COLLECTING, &[TakenOut], With, "Yes of one taken out", stays(COLLECTING)),
    hub(YES, COLLECTING, &[Awaited], Both, "last Yes", COMMITS),
    hub(YES, COLLECTING, &[Awaited, PrC], Both, "last Yes, all PrC", COMMITS_WITHOUT_ACKS),
    hub(YES, COMMITTING, &[NotTakenOut], Both, "Yes", [COMMITTING, 0, 0, 0, 0, COMMIT]),
    hub(YES, COMMITTING, &[TakenOut], With, "Yes of one taken out", [COMMITTING, 0, 0, 0, 0, COMMIT]),
    hub(YES, ABORTING, &[NotTakenOut], Both, "Yes", [ABORTING, 0, 0, 0, 0, ABORT]),
    hub(YES, ABORTING, &[TakenOut], With, "Yes of one taken out", [ABORTING, 0, 0, 0, 0, ABORT]),
    hub(YES, UNKNOWN, &[NotTakenOut, PrA], Both, "Yes of PrA", [UNKNOWN, 0, 0, 0, 0, ABORT]),
    hub(YES, UNKNOWN, &[NotTakenOut, PrC], Both, "Yes of PrC", [UNKNOWN, 0, 0, 0, 0, COMMIT]),
    hub(YES, UNKNOWN, &[TakenOut, PrA], With, "Yes of PrA, taken out", [UNKNOWN, 0, 0, 0, 0, ABORT]),
    hub(YES, UNKNOWN, &[TakenOut, PrC], With, "Yes of PrC, taken out", [UNKNOWN, 0, 0, 0, 0, COMMIT]),
    hub(NO, COLLECTING, &[Awaited], Both, "No", ABORTS),
    hub(NO, COLLECTING, &[Neither], Both, "No after Yes", ABORTS),
    hub(NO, COLLECTING, &[TakenOut], With, "No of one taken out", stays(COLLECTING)),
    hub(NO, COLLECTING, &[Awaited, PrA], Both, "No, PC empty", ABORTS_WITHOUT_INIT),
    hub(NO, COLLECTING, &[Neither, PrA], Both, "No after Yes, PC empty", ABORTS_WITHOUT_INIT),
    hub(NO, COLLECTING, &[Awaited, PrA], Both, "No of the last member, PC empty", [UNKNOWN, 0, 0, 0, 2, NO_MESSAGE]),
    hub(NO, COLLECTING, &[Awaited, PrC], Both, "No of the last PrC", ABORTS_WITHOUT_ACKS),
    hub(NO, COLLECTING, &[Neither, PrC], Both, "No after Yes of the last PrC", ABORTS_WITHOUT_ACKS),
    hub(NO, COLLECTING, &[Awaited, PrA], With, "No, PC taken out", ABORTS_WITHOUT_ACKS),
    hub(NO, COLLECTING, &[Neither, PrA], With, "No after Yes, PC taken out", ABORTS_WITHOUT_ACKS),
    hub(NO, COLLECTING, &[Awaited, PrC], Both, "No of the last member, PrC", ABORTS_ALONE),
    hub(NO, COLLECTING, &[Awaited, PrA], With, "No of the last member, PC taken out", ABORTS_ALONE),
    hub(READ_ONLY, COLLECTING, &[Awaited], Both, "read-only vote", stays(COLLECTING)),
    hub(READ_ONLY, COLLECTING, &[Neither], Both, "read-only vote after Yes", stays(COLLECTING)),
    hub(READ_ONLY, COLLECTING, &[TakenOut], With, "read-only vote again", stays(COLLECTING)),
    hub(READ_ONLY, COLLECTING, &[Awaited, PrA], Both, "last vote read-only, PrA", COMMITS),
    hub(READ_ONLY, COLLECTING, &[Awaited, PrC], Both, "last vote read-only, PrC", COMMITS),
    hub(READ_ONLY, COLLECTING, &[Awaited, PrA], Both, "last vote read-only, PrA, all PrC", COMMITS_WITHOUT_ACKS),
    hub(READ_ONLY, COLLECTING, &[Awaited, PrC], Both, "last vote read-only, PrC, all PrC", COMMITS_WITHOUT_ACKS),
    hub(READ_ONLY, COLLECTING, &[Awaited, PrC], Both, "nobody remains, the last PrC", ENDS_ABORT),
    hub(READ_ONLY, COLLECTING, &[Awaited, PrA], With, "nobody remains, the last PrA", ENDS_ABORT),
    hub(READ_ONLY, COLLECTING, &[Awaited, PrA], Both, "nobody remains, PC empty", stays(UNKNOWN)),
    hub(READ_ONLY, OPEN, &[], Without, "read-only vote", stays(OPEN)),
    hub(READ_ONLY, COMMITTING, &[], Both, "read-only vote", stays(COMMITTING)),
    hub(READ_ONLY, ABORTING, &[], Both, "read-only vote", stays(ABORTING)),
    hub(READ_ONLY, UNKNOWN, &[], Both, "read-only vote", stays(UNKNOWN)),
    hub(TIMER, COLLECTING, &[], Both, "timer", ABORTS),
    hub(TIMER, COLLECTING, &[], Both, "timer, PC empty", ABORTS_WITHOUT_INIT),
    hub(TIMER, COLLECTING, &[], With, "timer, PC taken out", ABORTS_WITHOUT_ACKS),
    hub(COMMIT_ACK, COMMITTING, &[Awaited, PrA], Both, "CommitAck", stays(COMMITTING)),
    hub(COMMIT_ACK, COMMITTING, &[Neither], Both, "CommitAck not awaited", stays(COMMITTING)),
    hub(COMMIT_ACK, COMMITTING, &[TakenOut], With, "CommitAck of one taken out", stays(COMMITTING)),
    hub(COMMIT_ACK, COMMITTING, &[Awaited, PrA], Both, "last CommitAck", [UNKNOWN, 3, 0, 0, 0, NO_MESSAGE]),
    hub(ABORT_ACK, ABORTING, &[Awaited, PrC], Both, "AbortAck", stays(ABORTING)),
    hub(ABORT_ACK, ABORTING, &[Neither], Both, "AbortAck not awaited", stays(ABORTING)),
    hub(ABORT_ACK, ABORTING, &[TakenOut], With, "AbortAck of one taken out", stays(ABORTING)),
    hub(ABORT_ACK, ABORTING, &[Awaited, PrC], Both, "last AbortAck", ENDS_ABORT),
    hub(TIMER, COMMITTING, &[], Both, "timer", [COMMITTING, 0, 0, 0, 0, COMMIT]),
    hub(TIMER, ABORTING, &[], Both, "timer", [ABORTING, 0, 0, 0, 0, ABORT]),
    member(PREPARE, WORKING, &[PrA], Without, "Prepare, PrA", [PREPARED, 5, 0, 1, 0, YES]),
    member(PREPARE, WORKING, &[PrC], Without, "Prepare, PrC", [PREPARED, 5, 0, 1, 0, YES]),
    member(PREPARE, WORKING, &[PrA], With, "Prepare, marked, PrA", [UNKNOWN, 0, 0, 0, 0, READ_ONLY]),
    member(PREPARE, WORKING, &[PrC], With, "Prepare, marked, PrC", [UNKNOWN, 0, 0, 0, 0, READ_ONLY]),
    member(PREPARE, PREPARED, &[], Both, "Prepare", [PREPARED, 0, 0, 0, 0, YES]),
    member(PREPARE, ABORTED, &[], Both, "Prepare", [ABORTED, 0, 0, 0, 0, NO]),
    member(PREPARE, UNKNOWN, &[], Both, "Prepare", [UNKNOWN, 0, 0, 0, 0, NO]),
    member(COMMIT, PREPARED, &[PrA], Both, "Commit, PrA", [COMMITTED, 6, 0, 1, 1, COMMIT_ACK]),
    member(COMMIT, PREPARED, &[PrC], Both, "Commit, PrC", [COMMITTED, 6, 0, 0, 1, NO_MESSAGE]),
    member(COMMIT, COMMITTED, &[PrA], Both, "Commit, PrA", [COMMITTED, 0, 0, 0, 0, COMMIT_ACK]),
    member(COMMIT, COMMITTED, &[PrC], Both, "Commit, PrC", stays(COMMITTED)),
    member(COMMIT, UNKNOWN, &[PrA], Both, "Commit, PrA", [UNKNOWN, 0, 0, 0, 0, COMMIT_ACK]),
    member(COMMIT, UNKNOWN, &[PrC], Both, "Commit, PrC", stays(UNKNOWN)),
    member(ABORT, WORKING, &[PrA], Both, "Abort, PrA", [ABORTED, 7, 0, 0, 2, NO_MESSAGE]),
    member(ABORT, WORKING, &[PrC], Both, "Abort, PrC", [ABORTED, 7, 0, 1, 2, ABORT_ACK]),
    member(ABORT, PREPARED, &[PrA], Both, "Abort, PrA", [ABORTED, 7, 0, 0, 2, NO_MESSAGE]),
    member(ABORT, PREPARED, &[PrC], Both, "Abort, PrC", [ABORTED, 7, 0, 1, 2, ABORT_ACK]),
    member(ABORT, ABORTED, &[PrA], Both, "Abort, PrA", stays(ABORTED)),
    member(ABORT, ABORTED, &[PrC], Both, "Abort, PrC", [ABORTED, 0, 0, 0, 0, ABORT_ACK]),
    member(ABORT, UNKNOWN, &[PrA], Both, "Abort, PrA", stays(UNKNOWN)),
    member(ABORT, UNKNOWN, &[PrC], Both, "Abort, PrC", [UNKNOWN, 0, 0, 0, 0, ABORT_ACK]),
    member(TIMER, WORKING, &[], Both, "timer", [UNKNOWN, 0, 0, 0, 2, NO_MESSAGE]),
    member(TIMER, PREPARED, &[], Both, "timer", [PREPARED, 0, 0, 0, 0, YES]),
];

/// How many rows there are.
pub const COUNT: usize = ROWS.len();

/// The number of the row of an accepted call that gave these bytes, or none.
pub fn row_of(call: Arguments, bytes: [u8; 8]) -> Option<usize> {
    let met = Met::of(call, bytes);
    ROWS.iter().position(|row| met.is(row))
}

/// What a row asks of a call, and what the call did.
#[derive(Clone, Copy)]
struct Met {
    participant: bool,
    kind: u8,
    phase: u8,
    presumption: u8,
    awaited: bool,
    taken_out: bool,
    /// The set taken out is not empty, or the participant is marked.
    beside: bool,
    does: Does,
}

impl Met {
    fn of(call: Arguments, bytes: [u8; 8]) -> Met {
        let [site, kind, _, b, presumption, phase, waiting, _, _, mark, taken_out] = call;
        Met {
            participant: site != 0,
            kind,
            phase,
            presumption,
            awaited: b != 0 && has(waiting, b),
            taken_out: b != 0 && has(taken_out, b),
            beside: mark != 0 || taken_out != 0,
            does: did(bytes),
        }
    }

    fn is(self, row: &Row) -> bool {
        let asked = |asks: &Asks| match asks {
            PrA => self.presumption == 0,
            PrC => self.presumption == 1,
            Awaited => self.awaited,
            Neither => !self.awaited && !self.taken_out,
            TakenOut => self.taken_out,
            NotTakenOut => !self.taken_out,
        };
        let beside = row.beside == Both || (row.beside == With) == self.beside;
        row.asks.iter().all(asked) && beside && self.meets(row) && row.does == self.does
    }

    /// Is it a call that this row speaks of?
    fn meets(self, row: &Row) -> bool {
        (row.participant, row.kind, row.phase) == (self.participant, self.kind, self.phase)
    }
}

fn did([_, after, _, _, records, effects, message, to]: [u8; 8]) -> Does {
    [after, records & 15, records >> 4, effects & 1, effects >> 1, if to == 0 { NO_MESSAGE } else { message }]
}

/// How often accepted calls did what, by the bits of what a row asks: site, kind, phase, presumption, awaited, taken
/// out, beside. Kinds 16 and 17 stand at 8 and 9 there.
pub struct Counts(Vec<Vec<(Met, u64)>>);

impl Counts {
    pub fn new() -> Counts {
        Counts(vec![vec![]; 1 << 12])
    }

    /// An accepted call and the eight bytes that it gave.
    pub fn add(&mut self, call: Arguments, bytes: [u8; 8]) {
        let met = Met::of(call, bytes);
        let kind = if met.kind < 16 { met.kind } else { met.kind - 8 } as usize;
        let bits = [met.participant, met.awaited, met.taken_out, met.beside].map(usize::from);
        let place = bits[0] << 11
            | kind << 7
            | (met.phase as usize) << 4
            | (met.presumption as usize) << 3
            | bits[1] << 2
            | bits[2] << 1
            | bits[3];
        let here = &mut self.0[place];
        match here.iter_mut().find(|(other, _)| other.does == met.does) {
            Some((_, count)) => *count += 1,
            None => here.push((met, 1)),
        }
    }

    /// Prints how often each row was met. Ends the program where one never was, without or with what Job 3 adds, or where
    /// a call did what no row says.
    pub fn show(&self) {
        let mut rows = [[0; 2]; ROWS.len()];
        let mut none = [[0; 5]; 2];
        let mut kinds: BTreeMap<(usize, usize), Vec<u8>> = BTreeMap::new();
        for &(met, count) in self.0.iter().flatten() {
            let (site, phase) = (met.participant as usize, met.phase as usize);
            kinds.entry((site, phase)).or_default().push(met.kind);
            match ROWS.iter().position(|row| met.is(row)) {
                Some(i) => rows[i][met.beside as usize] += count,
                None => {
                    if met.does != stays(met.phase) || ROWS.iter().any(|row| met.meets(row)) {
                        fail(&format!("{} in phase {phase}, kind {}: no row does this", SITES[site], met.kind));
                    }
                    none[site][phase] += count;
                }
            }
        }
        for site in 0..2 {
            for phase in 0..5 {
                let here = |(row, _): &(&Row, &[u64; 2])| row.participant == (site == 1) && row.phase == phase as u8;
                let shown = |(row, [without, with]): (&Row, &[u64; 2])| format!("{} {without}+{with}", row.name);
                let mut shown: Vec<String> = ROWS.iter().zip(&rows).filter(here).map(shown).collect();
                shown.push(format!("no row {}", none[site][phase]));
                println!("{}, {}: {}", SITES[site], PHASES[site][phase], shown.join("; "));
                let kinds = kinds.entry((site, phase)).or_default();
                kinds.sort();
                kinds.dedup();
                if kinds.len() != [7, 4][site] {
                    fail(&format!("{} kinds met there", kinds.len()));
                }
            }
        }
        for (row, [without, with]) in ROWS.iter().zip(rows) {
            if without == 0 && row.beside != With || with == 0 && row.beside != Without {
                let way = if with == 0 { "with" } else { "without" };
                let site = SITES[row.participant as usize];
                fail(&format!("{site} in phase {}, {}: no call met it {way} what Job 3 adds", row.phase, row.name));
            }
        }
    }
}

const SITES: [&str; 2] = ["coordinator", "participant"];
const PHASES: [[&str; 5]; 2] = [
    ["Open", "Collecting", "Committing", "Aborting", "Unknown"],
    ["Working", "Prepared", "Committed", "Aborted", "Unknown"],
];

fn fail(what: &str) -> ! {
    eprintln!("FAILED: {what}");
    std::process::exit(1);
}
