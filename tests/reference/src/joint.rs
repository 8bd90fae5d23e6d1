//! The joint run: what accepted events do.

use crate::codec::*;
use crate::log::Log;
use crate::step::*;

#[derive(Clone, Copy, PartialEq, Eq, Debug, Default)]
pub struct Entries {
    pub commit: bool,
    pub abort: bool,
}

/// An opened transaction.
#[derive(Clone, PartialEq, Eq, Debug)]
pub struct Transaction {
    /// As opened.
    pub names: Names,
    pub coordinator: CoordinatorState,
    /// Phase of participant b at b-1; non-members stay Unknown.
    pub participants: [ParticipantPhase; 8],
    /// Those that only read, never erased; it matters in Working alone.
    pub marked: Mask,
    /// What was entered at sites 0 to 8, never erased.
    pub entries: [Entries; 9],
}

/// What happened, one thing at a time, for the monitor.
#[derive(Clone, Copy, PartialEq, Eq, Debug)]
pub enum Happening {
    /// An accepted event begins; for a message to the coordinator, with its phase before it.
    Event { number: usize, delivered: Option<(Message, CoordinatorPhase)> },
    Opened(Names),
    Marked { transaction: u8, participant: u8 },
    Did { site: u8, transaction: Option<u8>, effect: Effect },
    Down { site: u8, keep: u8 },
    Dropped { site: u8, transaction: u8 },
}

#[derive(Clone, Copy, PartialEq, Eq, Debug)]
pub struct Answer {
    pub number: u8,
    pub records: u32,
    pub forces: u32,
    pub sends: u32,
}

#[derive(Clone, Copy, PartialEq, Eq, Debug)]
pub enum Phase {
    Coordinator(CoordinatorState),
    Participant(ParticipantPhase),
}

/// What an accepted event does.
#[derive(Clone, PartialEq, Eq, Debug)]
pub enum Plan {
    Open(Names),
    /// A step or a restart: effects with their transaction, and the phases it leads to.
    Row { site: u8, restart: bool, effects: Vec<(u8, Effect)>, phases: Vec<(u8, Phase)>, cut: Option<usize>, keep: u8 },
    Force { site: u8 },
    Discard { transaction: u8, site: u8 },
    Crash { site: u8, keep: u8 },
    Mark { transaction: u8, participant: u8 },
}

pub const NO_CUT: u8 = 255;

#[derive(Clone)]
pub struct Run {
    pub up: [bool; 9],
    pub logs: [Log; 9],
    pub transactions: [Option<Transaction>; 8],
    /// By message number; a message stays once sent.
    pub sent: [bool; MESSAGES],
    pub events: usize,
    pub history: Vec<Happening>,
}

impl Run {
    pub fn fresh() -> Run {
        Run {
            up: [true; 9],
            logs: Default::default(),
            transactions: Default::default(),
            sent: [false; MESSAGES],
            events: 0,
            history: Vec::new(),
        }
    }

    /// One event, any bytes. A refused one changes nothing.
    pub fn event(&mut self, event: &[u8]) -> Answer {
        self.events += 1;
        let mut answer = Answer { number: 0, records: 0, forces: 0, sends: 0 };
        let plan = match self.judge(event) {
            Ok(plan) => plan,
            Err(number) => return Answer { number, ..answer },
        };
        let delivered = match *event {
            [2, transaction, participant, kind, _, _] if !goes_to_participant(kind) => Some((
                Message { transaction, participant, kind },
                self.transactions[transaction as usize].as_ref().expect("accepted").coordinator.phase,
            )),
            _ => None,
        };
        self.history.push(Happening::Event { number: self.events, delivered });
        match plan {
            Plan::Open(names) => {
                let mut participants = [ParticipantPhase::Unknown; 8];
                for b in each(names.members) {
                    participants[b as usize - 1] = ParticipantPhase::Working;
                }
                self.transactions[names.transaction as usize] = Some(Transaction {
                    names,
                    coordinator: CoordinatorState::of(CoordinatorPhase::Open),
                    participants,
                    marked: 0,
                    entries: Default::default(),
                });
                self.history.push(Happening::Opened(names));
            }
            Plan::Row { site, restart, effects, phases, cut, keep } => {
                let happen = cut.unwrap_or(effects.len());
                for &(transaction, effect) in &effects[..happen] {
                    self.perform(site, Some(transaction), effect, &mut answer);
                }
                if cut.is_some() {
                    self.go_down(site, keep);
                } else {
                    if restart {
                        self.up[site as usize] = true;
                    }
                    for (transaction, phase) in phases {
                        self.set_phase(transaction, site, phase);
                    }
                }
            }
            Plan::Force { site } => self.perform(site, None, Effect::Force, &mut answer),
            Plan::Discard { transaction, site } => {
                let log = &mut self.logs[site as usize];
                log.drop_oldest(transaction);
                let gone = !log.records.iter().any(|r| r.transaction() == transaction);
                if gone && site != COORDINATOR {
                    self.set_phase(transaction, site, Phase::Participant(ParticipantPhase::Unknown));
                }
                self.history.push(Happening::Dropped { site, transaction });
            }
            Plan::Crash { site, keep } => self.go_down(site, keep),
            Plan::Mark { transaction, participant } => {
                let t = self.transactions[transaction as usize].as_mut().expect("opened");
                t.marked |= bit(participant);
                self.history.push(Happening::Marked { transaction, participant });
            }
        }
        answer
    }

    fn perform(&mut self, site: u8, transaction: Option<u8>, effect: Effect, answer: &mut Answer) {
        self.logs[site as usize].perform(effect);
        match effect {
            Effect::Append(_) => answer.records += 1,
            Effect::Force => answer.forces += 1,
            Effect::Enter(outcome) => {
                let h = transaction.expect("an entry has a transaction");
                let t = self.transactions[h as usize].as_mut().expect("opened");
                let entries = &mut t.entries[site as usize];
                match outcome {
                    Outcome::Commit => entries.commit = true,
                    Outcome::Abort => entries.abort = true,
                }
            }
            Effect::Send(message) => {
                self.sent[message.number() as usize] = true;
                answer.sends += 1;
            }
        }
        self.history.push(Happening::Did { site, transaction, effect });
    }

    fn go_down(&mut self, site: u8, keep: u8) {
        self.logs[site as usize].go_down(keep);
        self.up[site as usize] = false;
        for t in self.transactions.iter_mut().flatten() {
            if site == COORDINATOR {
                t.coordinator = CoordinatorState::of(CoordinatorPhase::Unknown);
            } else {
                t.participants[site as usize - 1] = ParticipantPhase::Unknown;
            }
        }
        self.history.push(Happening::Down { site, keep });
    }

    fn set_phase(&mut self, transaction: u8, site: u8, phase: Phase) {
        let t = self.transactions[transaction as usize].as_mut().expect("opened");
        match phase {
            Phase::Coordinator(state) => t.coordinator = state,
            Phase::Participant(phase) => t.participants[site as usize - 1] = phase,
        }
    }
}

impl Transaction {
    pub fn phase(&self, site: u8) -> Phase {
        if site == COORDINATOR {
            Phase::Coordinator(self.coordinator)
        } else {
            Phase::Participant(self.participants[site as usize - 1])
        }
    }
}

#[cfg(test)]
mod tests {
    use super::*;

    #[test]
    fn only_six_bytes() {
        for length in [0, 1, 2, 3, 4, 5, 7, 12] {
            let mut run = Run::fresh();
            let event: Vec<u8> = [0, 0, 1, 1, 255, 0, 0, 0, 1, 1, 255, 0][..length].to_vec();
            assert_eq!(run.event(&event).number, 1);
            assert!(run.transactions.iter().all(|t| t.is_none()));
        }
    }
}
