//! What an event would do to the joint run, or its refusal, 1 to 9.

use crate::codec::*;
use crate::joint::*;
use crate::log::{keeps_within, Log};
use crate::restart::*;
use crate::step::*;

impl Run {
    fn opened(&self, transaction: u8) -> Result<&Transaction, u8> {
        self.transactions[transaction as usize].as_ref().ok_or(3)
    }

    /// An opened transaction; the site is the coordinator or a member.
    fn opened_with(&self, transaction: u8, site: u8) -> Result<&Transaction, u8> {
        let t = self.opened(transaction)?;
        if site == COORDINATOR || has(t.names.members, site) {
            Ok(t)
        } else {
            Err(4)
        }
    }

    fn need_up(&self, site: u8) -> Result<(), u8> {
        if self.up[site as usize] {
            Ok(())
        } else {
            Err(5)
        }
    }

    /// What the event would do, or its refusal, checked in rising number.
    pub fn judge(&self, event: &[u8]) -> Result<Plan, u8> {
        let &[code, x, y, z, cut, keep] = event else { return Err(1) };
        let transaction_ok = x < TRANSACTIONS;
        let site_ok = y < SITES;
        // Cut belongs to codes 1, 2, 3, 7; keep to those when cut, and to crash.
        let may_cut = matches!(code, 1 | 2 | 3 | 7);
        let cut_ok = may_cut || cut == NO_CUT;
        let keep_ok = keep == 0 || code == 6 || (may_cut && cut != NO_CUT);
        let fields_ok = match code {
            0 => transaction_ok && y != 0 && is_part(z, y),
            1 => transaction_ok && y == 0 && z == 0,
            2 => transaction_ok && site_ok && y != COORDINATOR && z <= READ_ONLY,
            3 | 5 => transaction_ok && site_ok && z == 0,
            8 => transaction_ok && site_ok && y != COORDINATOR && z == 0,
            4 | 6 | 7 => x == 0 && site_ok && z == 0,
            _ => false,
        };
        if !fields_ok || !cut_ok || !keep_ok {
            return Err(1);
        }
        let cut = if cut == NO_CUT { None } else { Some(cut as usize) };
        match code {
            0 => {
                if self.transactions[x as usize].is_some() {
                    return Err(2);
                }
                self.need_up(COORDINATOR)?;
                for b in each(y) {
                    self.need_up(b)?;
                }
                Ok(Plan::Open(Names { transaction: x, members: y, presume_commit: z }))
            }
            1 => {
                let t = self.opened(x)?;
                self.need_up(COORDINATOR)?;
                let (after, row) = coordinator_step(t.names, t.coordinator, Stimulus::Begin).ok_or(8)?;
                self.row(COORDINATOR, x, Phase::Coordinator(after), row, cut, keep)
            }
            2 => {
                let t = self.opened_with(x, y)?;
                let receiver = if goes_to_participant(z) { y } else { COORDINATOR };
                self.need_up(receiver)?;
                let message = Message { transaction: x, participant: y, kind: z };
                if !self.sent[message.number() as usize] {
                    return Err(7);
                }
                // A message without a row is a row without effects.
                let (phase, row) = self.site_step(t, receiver, Stimulus::Deliver { kind: z, participant: y })
                    .unwrap_or((t.phase(receiver), vec![]));
                self.row(receiver, x, phase, row, cut, keep)
            }
            3 => {
                let t = self.opened_with(x, y)?;
                self.need_up(y)?;
                let (phase, row) = self.site_step(t, y, Stimulus::Timer).ok_or(8)?;
                self.row(y, x, phase, row, cut, keep)
            }
            4 => {
                self.need_up(y)?;
                Ok(Plan::Force { site: y })
            }
            5 => {
                self.opened_with(x, y)?;
                self.need_up(y)?;
                if !self.logs[y as usize].is_closed(x) {
                    return Err(8);
                }
                Ok(Plan::Discard { transaction: x, site: y })
            }
            6 => {
                self.need_up(y)?;
                self.may_keep(y, &[], keep)?;
                Ok(Plan::Crash { site: y, keep })
            }
            7 => {
                if self.up[y as usize] {
                    return Err(6);
                }
                let mut effects = Vec::new();
                let mut phases = Vec::new();
                for t in self.transactions.iter().flatten() {
                    let h = t.names.transaction;
                    let records = self.logs[y as usize].stable_of(h);
                    let (phase, row) = if y == COORDINATOR {
                        let (phase, row) = coordinator_restart(h, &records);
                        (Phase::Coordinator(CoordinatorState::of(phase)), row)
                    } else {
                        let (phase, row) = participant_restart(h, y, &records);
                        (Phase::Participant(phase), row)
                    };
                    effects.extend(row.into_iter().map(|e| (h, e)));
                    phases.push((h, phase));
                }
                self.checked(Plan::Row { site: y, restart: true, effects, phases, cut, keep })
            }
            _ => {
                let t = self.opened_with(x, y)?;
                self.need_up(y)?;
                if t.participants[y as usize - 1] != ParticipantPhase::Working {
                    return Err(8);
                }
                Ok(Plan::Mark { transaction: x, participant: y })
            }
        }
    }

    fn site_step(&self, t: &Transaction, site: u8, stimulus: Stimulus) -> Option<(Phase, Vec<Effect>)> {
        match t.phase(site) {
            Phase::Coordinator(state) => {
                coordinator_step(t.names, state, stimulus).map(|(after, row)| (Phase::Coordinator(after), row))
            }
            Phase::Participant(phase) => {
                let (presumption, marked) = (t.names.presumption(site), has(t.marked, site));
                participant_step(t.names.transaction, site, presumption, marked, phase, stimulus)
                    .map(|(after, row)| (Phase::Participant(after), row))
            }
        }
    }

    fn row(
        &self,
        site: u8,
        transaction: u8,
        phase: Phase,
        row: Vec<Effect>,
        cut: Option<usize>,
        keep: u8,
    ) -> Result<Plan, u8> {
        let effects = row.into_iter().map(|e| (transaction, e)).collect();
        self.checked(Plan::Row { site, restart: false, effects, phases: vec![(transaction, phase)], cut, keep })
    }

    /// Refusal 9 for a row.
    fn checked(&self, plan: Plan) -> Result<Plan, u8> {
        if let Plan::Row { site, effects, cut: Some(cut), keep, .. } = &plan {
            self.may_keep(*site, effects.get(..*cut).ok_or(9)?, *keep)?;
        }
        Ok(plan)
    }

    /// Refusal 9 for keep, where a site goes down once these effects have happened.
    fn may_keep(&self, site: u8, effects: &[(u8, Effect)], keep: u8) -> Result<(), u8> {
        if keeps_within(keep, self.unforced_after(site, effects)) {
            Ok(())
        } else {
            Err(9)
        }
    }

    /// A site's log once these effects have happened.
    pub fn log_after(&self, site: u8, effects: &[(u8, Effect)]) -> Log {
        let mut log = self.logs[site as usize].clone();
        effects.iter().for_each(|&(_, effect)| log.perform(effect));
        log
    }

    /// Its unforced records then.
    pub fn unforced_after(&self, site: u8, effects: &[(u8, Effect)]) -> usize {
        self.log_after(site, effects).unforced()
    }
}
