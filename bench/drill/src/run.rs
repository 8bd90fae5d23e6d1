//! The joint run of the drill in plain Rust. A set of participants is a mask, and so are the kinds of the stable records of
//! a transaction at a site, since these stand in rising order.

use crate::site::{names_more, Site};
use crate::step::*;

pub const EVENT: usize = 6;
const NO_CUT: u8 = 255;
/// Bits of the records' kinds.
const INIT: u8 = 1 << 1;
const COMMIT_RECORD: u8 = 1 << 2;
const COMMIT_END: u8 = 1 << 3;
const ABORT_END: u8 = 1 << 4;
const PREPARED_RECORD: u8 = 1 << 5;
const COMMITTED_RECORD: u8 = 1 << 6;
const ABORTED_RECORD: u8 = 1 << 7;

#[derive(Clone, Copy, Default)]
pub struct Answer {
    pub number: u8,
    pub records: u8,
    pub forces: u8,
    pub sends: u8,
}

/// A transaction; without members it is not opened.
#[derive(Clone, Copy, Default)]
pub struct Transaction {
    pub members: u8,
    presume_commit: u8,
    /// Those that only read.
    marked: u8,
    /// The members of the Commit record: those that are told.
    committing: u8,
    /// The participants whose message of each kind was sent.
    sent: [u8; 8],
    /// Sites that entered commit, and abort.
    pub committed: u16,
    pub aborted: u16,
}

impl Transaction {
    /// Who owes an ack for this message.
    fn owing(&self, message: u8) -> u8 {
        match message {
            COMMIT => self.members & !self.presume_commit,
            ABORT => self.presume_commit,
            _ => 0,
        }
    }
}

pub struct Run {
    /// Bit s: site s is up.
    up: u16,
    pub transactions: [Transaction; 8],
    /// The sets that the coordinator waits for, and those that it has taken out.
    waiting: [u8; 8],
    taken_out: [u8; 8],
    pub sites: [Site; 9],
}

fn bit(participant: u8) -> u8 {
    1 << (participant - 1)
}

/// The first n of a set in the turn of a transaction: from participant h + 1 up to 8, then from 1.
fn first_in_turn(set: u8, h: u8, n: u32) -> u8 {
    if n >= set.count_ones() {
        return set;
    }
    let mut rest = set.rotate_right(h as u32);
    for _ in 0..n {
        rest &= rest - 1;
    }
    set & !rest.rotate_left(h as u32)
}

/// The records, first and last, whether it forces, the outcome, the message, and to whom it goes.
fn parts(Step(row): Step) -> (u8, u8, bool, u8, u8, u8) {
    let [.., records, effects, message, to] = row.to_le_bytes();
    (records & 15, records >> 4, effects & 1 != 0, effects >> 1, message, to)
}

fn effects(row: Step) -> u32 {
    let (first, last, force, outcome, _, to) = parts(row);
    (first != 0) as u32 + (last != 0) as u32 + force as u32 + (outcome != 0) as u32 + to.count_ones()
}

impl Run {
    pub fn fresh() -> Run {
        let transactions = [Transaction::default(); 8];
        Run { up: 0x1FF, transactions, waiting: [0; 8], taken_out: [0; 8], sites: [Site::fresh(); 9] }
    }

    fn is_up(&self, site: u8) -> bool {
        self.up >> site & 1 != 0
    }

    /// An opened transaction; the site is the coordinator or a member.
    fn member(&self, h: u8, site: u8) -> Result<&Transaction, u8> {
        let t = &self.transactions[h as usize & 7];
        if t.members == 0 {
            return Err(3);
        }
        if site != 0 && t.members & bit(site) == 0 {
            return Err(4);
        }
        Ok(t)
    }

    /// The same, and the site is up.
    fn member_up(&self, h: u8, site: u8) -> Result<&Transaction, u8> {
        let t = self.member(h, site)?;
        if self.is_up(site) {
            Ok(t)
        } else {
            Err(5)
        }
    }

    /// One event: its answer with counts, or the number of a refusal.
    pub fn event(&mut self, &[code, x, y, z, cut, keep]: &[u8; EVENT]) -> Result<Answer, u8> {
        if match code {
            0 => x > 7 || y == 0 || z & !y != 0 || cut != NO_CUT || keep != 0,
            1 => x > 7 || y != 0 || z != 0 || cut == NO_CUT && keep != 0,
            2 => x > 7 || y == 0 || y > 8 || z > READ_ONLY || cut == NO_CUT && keep != 0,
            3 => x > 7 || y > 8 || z != 0 || cut == NO_CUT && keep != 0,
            4 => x != 0 || y > 8 || z != 0 || cut != NO_CUT || keep != 0,
            5 => x > 7 || y > 8 || z != 0 || cut != NO_CUT || keep != 0,
            6 => x != 0 || y > 8 || z != 0 || cut != NO_CUT,
            7 => x != 0 || y > 8 || z != 0 || cut == NO_CUT && keep != 0,
            8 => x > 7 || y == 0 || y > 8 || z != 0 || cut != NO_CUT || keep != 0,
            _ => true,
        } {
            return Err(1);
        }
        match code {
            0 => self.open(x, y, z),
            1 => {
                self.member_up(x, 0)?;
                if self.sites[0].phases[x as usize] != OPEN {
                    return Err(8);
                }
                self.step(0, x, self.row(x, 0, BEGIN, 0), cut, keep)
            }
            2 => self.deliver(x, y, z, cut, keep),
            3 => {
                self.member_up(x, y)?;
                let phase = self.sites[y as usize].phases[x as usize];
                let none = if y == 0 { matches!(phase, OPEN | UNKNOWN) } else { phase > PREPARED };
                if none {
                    return Err(8);
                }
                let row = self.row(x, y, TIMER, if y == 0 { 0 } else { bit(y) });
                self.step(y, x, row, cut, keep)
            }
            4 => {
                if !self.is_up(y) {
                    return Err(5);
                }
                self.sites[y as usize].force();
                Ok(Answer { forces: 1, ..Answer::default() })
            }
            5 => self.discard(x, y),
            6 => {
                if !self.is_up(y) {
                    return Err(5);
                }
                if names_more(keep, self.sites[y as usize].count) {
                    return Err(9);
                }
                self.down(y, keep);
                Ok(Answer::default())
            }
            7 => self.restart(y, cut, keep),
            _ => self.mark(x, y),
        }
    }

    fn open(&mut self, h: u8, members: u8, presume_commit: u8) -> Result<Answer, u8> {
        let t = &mut self.transactions[h as usize];
        if t.members != 0 {
            return Err(2);
        }
        let needed = (members as u16) << 1 | 1;
        if self.up & needed != needed {
            return Err(5);
        }
        *t = Transaction { members, presume_commit, ..Transaction::default() };
        self.sites[0].phases[h as usize] = OPEN;
        for b in (1..=8).filter(|&b| members & bit(b) != 0) {
            self.sites[b as usize].phases[h as usize] = WORKING;
        }
        Ok(Answer::default())
    }

    fn mark(&mut self, h: u8, b: u8) -> Result<Answer, u8> {
        self.member_up(h, b)?;
        if self.sites[b as usize].phases[h as usize] != WORKING {
            return Err(8);
        }
        self.transactions[h as usize].marked |= bit(b);
        Ok(Answer::default())
    }

    fn deliver(&mut self, h: u8, b: u8, kind: u8, cut: u8, keep: u8) -> Result<Answer, u8> {
        let t = self.member(h, b)?;
        let receiver = if matches!(kind, PREPARE | COMMIT | ABORT) { b } else { 0 };
        if !self.is_up(receiver) {
            return Err(5);
        }
        if t.sent[kind as usize] & bit(b) == 0 {
            return Err(7);
        }
        let row = self.row(h, receiver, kind, bit(b));
        self.step(receiver, h, row, cut, keep)
    }

    /// The row of begin, a message or a timer; `named` is the participant's bit, 0 for begin and the coordinator's timer.
    fn row(&self, h: u8, site: u8, kind: u8, named: u8) -> Step {
        let t = &self.transactions[h as usize];
        let phase = self.sites[site as usize].phases[h as usize];
        if site == 0 {
            let (waiting, taken_out) = (self.waiting[h as usize], self.taken_out[h as usize]);
            let Transaction { members, presume_commit, .. } = *t;
            coordinator(kind, named, Standing { phase, waiting, members, presume_commit, taken_out })
        } else {
            participant(kind, named, t.presume_commit & named != 0, t.marked & named != 0, phase)
        }
    }

    fn step(&mut self, site: u8, h: u8, row: Step, cut: u8, keep: u8) -> Result<Answer, u8> {
        let mut answer = Answer::default();
        if cut == NO_CUT {
            self.perform(site, h, row, NO_CUT as u32, &mut answer);
            self.enter_phase(site, h, row);
            return Ok(answer);
        }
        let (cut, all) = (cut as u32, effects(row));
        if cut > all {
            return Err(9);
        }
        let (first, last, force, ..) = parts(row);
        let appended = first != 0 && cut > 0 || last != 0 && cut == all;
        let forced = force && cut >= 2;
        let unforced = if forced { 0 } else { self.sites[site as usize].count + appended as u8 };
        if names_more(keep, unforced) {
            return Err(9);
        }
        self.perform(site, h, row, cut, &mut answer);
        self.down(site, keep);
        Ok(answer)
    }

    fn enter_phase(&mut self, site: u8, h: u8, Step(row): Step) {
        let [_, phase, waiting, taken_out, ..] = row.to_le_bytes();
        self.sites[site as usize].phases[h as usize] = phase;
        if site == 0 {
            self.waiting[h as usize] = waiting;
            self.taken_out[h as usize] = taken_out;
        }
    }

    /// The first effects of a row. How many are left to happen.
    fn perform(&mut self, site: u8, h: u8, row: Step, mut left: u32, answer: &mut Answer) -> u32 {
        let (first, last, force, outcome, message, to) = parts(row);
        let log = &mut self.sites[site as usize];
        let t = &mut self.transactions[h as usize];
        if first != 0 && left > 0 {
            log.append(h, 1 << first);
            if first == Record::Commit as u8 {
                t.committing = to;
            }
            answer.records += 1;
            left -= 1;
        }
        if force && left > 0 {
            log.force();
            answer.forces += 1;
            left -= 1;
        }
        if outcome != 0 && left > 0 {
            let entered = if outcome == Outcome::Commit as u8 { &mut t.committed } else { &mut t.aborted };
            *entered |= 1 << site;
            left -= 1;
        }
        if to != 0 {
            let owing = to & t.owing(message);
            let first = first_in_turn(owing, h, left);
            let rest = first_in_turn(to & !owing, h, left - first.count_ones());
            t.sent[message as usize] |= first | rest;
            let sends = (first | rest).count_ones();
            answer.sends += sends as u8;
            left -= sends;
        }
        if last != 0 && left > 0 {
            log.append(h, 1 << last);
            answer.records += 1;
            left -= 1;
        }
        left
    }

    fn down(&mut self, site: u8, keep: u8) {
        self.up &= !(1 << site);
        let log = &mut self.sites[site as usize];
        log.keep(keep);
        log.phases = [UNKNOWN; 8];
        if site == 0 {
            (self.waiting, self.taken_out) = ([0; 8], [0; 8]);
        }
    }

    fn discard(&mut self, h: u8, site: u8) -> Result<Answer, u8> {
        let t = *self.member_up(h, site)?;
        let log = &mut self.sites[site as usize];
        let stable = &mut log.stable[h as usize];
        let closed = match *stable {
            0..COMMIT_RECORD => false,
            COMMIT_RECORD..COMMIT_END => t.committing & !t.presume_commit == 0,
            COMMIT_END..PREPARED_RECORD => true,
            newest => newest >= COMMITTED_RECORD,
        };
        if !closed {
            return Err(8);
        }
        *stable &= *stable - 1;
        if *stable == 0 && site != 0 {
            log.phases[h as usize] = UNKNOWN;
        }
        Ok(Answer::default())
    }

    /// The row of a restart, for one transaction.
    fn restarted(&self, site: u8, h: u8) -> Step {
        let t = &self.transactions[h as usize];
        let stable = self.sites[site as usize].stable[h as usize];
        let has = |records: u8| stable & records != 0;
        let unknown = Step::to_phase(UNKNOWN, 0);
        if stable == 0 {
            unknown
        } else if has(COMMIT_RECORD) && !has(COMMIT_END) {
            let acks = t.committing & !t.presume_commit;
            let told = if acks == 0 { 0 } else { t.committing };
            Step::awaiting(COMMITTING, acks).enter(Outcome::Commit).send(COMMIT, told)
        } else if has(INIT) && !has(COMMIT_RECORD | ABORT_END) {
            Step::to_phase(ABORTING, t.presume_commit).enter(Outcome::Abort).send(ABORT, t.members)
        } else if has(COMMITTED_RECORD) {
            Step::to_phase(COMMITTED, 0).enter(Outcome::Commit)
        } else if has(ABORTED_RECORD) {
            Step::to_phase(ABORTED, 0).enter(Outcome::Abort)
        } else if has(PREPARED_RECORD) {
            Step::to_phase(PREPARED, 0).send(YES, bit(site))
        } else {
            unknown
        }
    }

    fn restart(&mut self, site: u8, cut: u8, keep: u8) -> Result<Answer, u8> {
        if self.is_up(site) {
            return Err(6);
        }
        let mut left = cut as u32;
        // a site that is down has no unforced record
        if cut != NO_CUT && (keep > 0 || left > (0..8).map(|h| effects(self.restarted(site, h))).sum()) {
            return Err(9);
        }
        let mut answer = Answer::default();
        for h in 0..8 {
            let row = self.restarted(site, h);
            left = self.perform(site, h, row, left, &mut answer);
            if cut == NO_CUT {
                self.enter_phase(site, h, row);
            }
        }
        if cut == NO_CUT {
            self.up |= 1 << site;
        }
        Ok(answer)
    }
}
