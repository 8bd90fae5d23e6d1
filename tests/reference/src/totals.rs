//! Forced writes of each site, and the transactions opened with it: both are counted from the history of events.

use crate::codec::*;
use crate::joint::*;
use crate::step::Effect;

/// The totals of one site; each stays at its highest value once there.
#[derive(Clone, Copy, PartialEq, Eq, Debug, Default)]
pub struct Totals {
    pub forces: u64,
    /// The transactions with it as a member; of the coordinator all.
    pub opened: u64,
}

impl Totals {
    /// Forces, transactions, quotient and remainder; without a transaction all forces are the remainder.
    pub fn numbers(self) -> [u64; 4] {
        let Totals { forces, opened } = self;
        let (quotient, remainder) = if opened == 0 { (0, forces) } else { (forces / opened, forces % opened) };
        [forces, opened, quotient, remainder]
    }
}

fn add_one(total: &mut u64) {
    *total = total.saturating_add(1);
}

/// What one happening adds: a force at its site, an opening at the coordinator and at each member.
pub fn count(totals: &mut [Totals; 9], happening: &Happening) {
    match *happening {
        Happening::Did { site, effect: Effect::Force, .. } => add_one(&mut totals[site as usize].forces),
        Happening::Opened(names) => {
            add_one(&mut totals[COORDINATOR as usize].opened);
            each(names.members).for_each(|b| add_one(&mut totals[b as usize].opened));
        }
        _ => {}
    }
}

/// The totals of the sites 0 to 8 after all that happened.
pub fn totals(history: &[Happening]) -> [Totals; 9] {
    let mut totals = [Totals::default(); 9];
    history.iter().for_each(|happening| count(&mut totals, happening));
    totals
}

/// What tests ask their lists to meet.
pub const NAMES: [&str; 10] = [
    "force: in a cut event",
    "force: cut before it",
    "force event: nothing unforced",
    "force event: two unforced records or more",
    "force event: 5",
    "site: forces without a transaction",
    "site: fewer forces than transactions",
    "site: a quotient without a remainder",
    "site: quotient 1 and a remainder",
    "site: quotient 2 or more and a remainder",
];

/// What of it an event meets, given the run before it and what that judges.
pub fn met(run: &Run, event: &[u8], judged: &Result<Plan, u8>) -> Option<&'static str> {
    match judged {
        Ok(Plan::Row { effects, cut: Some(cut), .. }) => {
            let force = effects.iter().position(|(_, effect)| *effect == Effect::Force)?;
            Some(if force < *cut { "force: in a cut event" } else { "force: cut before it" })
        }
        Ok(Plan::Force { site }) => match run.logs[*site as usize].unforced() {
            0 => Some("force event: nothing unforced"),
            1 => None,
            _ => Some("force event: two unforced records or more"),
        },
        Err(5) if event[0] == 4 => Some("force event: 5"),
        _ => None,
    }
}

/// What of it the four numbers of a site meet.
pub fn met_by(numbers: [u64; 4]) -> Option<&'static str> {
    match numbers {
        [0, ..] => None,
        [_, 0, ..] => Some("site: forces without a transaction"),
        [_, _, 0, _] => Some("site: fewer forces than transactions"),
        [.., 0] => Some("site: a quotient without a remainder"),
        [_, _, 1, _] => Some("site: quotient 1 and a remainder"),
        _ => Some("site: quotient 2 or more and a remainder"),
    }
}

#[cfg(test)]
mod tests {
    use super::*;
    use crate::step::Names;

    const MOST: u64 = u64::MAX;

    fn forced(site: u8) -> Happening {
        Happening::Did { site, transaction: None, effect: Effect::Force }
    }

    fn opened(members: Mask) -> Happening {
        Happening::Opened(Names { transaction: 0, members, presume_commit: 0 })
    }

    #[test]
    fn a_total_stays_at_its_highest_value() {
        let mut of = [Totals { forces: MOST - 1, opened: MOST - 1 }; 9];
        for _ in 0..3 {
            count(&mut of, &forced(0));
            count(&mut of, &forced(8));
            count(&mut of, &opened(2));
            assert_eq!(of[0], Totals { forces: MOST, opened: MOST });
            assert_eq!(of[2], Totals { forces: MOST - 1, opened: MOST });
            assert_eq!(of[8], Totals { forces: MOST, opened: MOST - 1 });
        }
        assert_eq!(of[0].numbers(), [MOST, MOST, 1, 0]);
        assert_eq!(of[2].numbers(), [MOST - 1, MOST, 0, MOST - 1]);
        assert_eq!(of[8].numbers(), [MOST, MOST - 1, 1, 1]);
        assert_eq!(Totals { forces: MOST, opened: 0 }.numbers(), [MOST, 0, 0, MOST]);
        assert_eq!(Totals { forces: MOST, opened: 7 }.numbers(), [MOST, 7, 2635249153387078802, 1]);
    }

    #[test]
    fn forces_and_openings_alone_count() {
        let append = Effect::Append(LogRecord::Prepared { transaction: 0, presumption: 0 });
        let did = |effect| Happening::Did { site: 1, transaction: Some(0), effect };
        let none = [did(append), Happening::Down { site: 1, keep: 1 }, Happening::Dropped { site: 1, transaction: 0 }];
        assert_eq!(totals(&none), [Totals::default(); 9]);
        let some = totals(&[opened(5), forced(1), forced(4), did(Effect::Force), opened(1), forced(1)]);
        let lines = some.map(Totals::numbers);
        assert_eq!(lines[..5], [[0, 2, 0, 0], [3, 2, 1, 1], [0, 0, 0, 0], [0, 1, 0, 0], [1, 0, 0, 1]]);
        assert_eq!(some[5..], [Totals::default(); 4]);
    }
}
