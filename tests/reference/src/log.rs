//! A site's log: appended to, forced, trimmed, and what is left of it when power goes.

use crate::codec::*;
use crate::step::Effect;

/// Does keep name unforced record i? Its bit i stands for that record, counted from the oldest.
pub fn keeps(keep: u8, i: usize) -> bool {
    i < 8 && keep >> i & 1 == 1
}

/// Does keep name none but the first so many unforced records?
pub fn keeps_within(keep: u8, unforced: usize) -> bool {
    (unforced..8).all(|i| !keeps(keep, i))
}

/// One log: the stable part first, then the unforced records.
#[derive(Clone, PartialEq, Eq, Debug, Default)]
pub struct Log {
    pub records: Vec<LogRecord>,
    /// How many of the records are stable.
    pub stable: usize,
}

impl Log {
    pub fn stable_part(&self) -> &[LogRecord] {
        &self.records[..self.stable]
    }

    pub fn unforced(&self) -> usize {
        self.records.len() - self.stable
    }

    pub fn stable_of(&self, transaction: u8) -> Vec<LogRecord> {
        self.stable_part().iter().copied().filter(|r| r.transaction() == transaction).collect()
    }

    /// What an effect at the site does to it.
    pub fn perform(&mut self, effect: Effect) {
        match effect {
            Effect::Append(record) => self.records.push(record),
            Effect::Force => self.stable = self.records.len(),
            Effect::Enter(_) | Effect::Send(_) => {}
        }
    }

    /// The site goes down: the unforced records that keep names become stable in their order, the others are lost.
    pub fn go_down(&mut self, keep: u8) {
        let unforced = self.records.split_off(self.stable).into_iter().enumerate();
        self.records.extend(unforced.filter(|&(i, _)| keeps(keep, i)).map(|(_, record)| record));
        self.stable = self.records.len();
    }

    /// Is the newest stable record of the transaction one that closes it?
    pub fn is_closed(&self, transaction: u8) -> bool {
        match self.stable_of(transaction).last() {
            Some(LogRecord::Commit { members, presume_commit, .. }) => members & !presume_commit == 0,
            Some(LogRecord::CommitEnd { .. } | LogRecord::AbortEnd { .. }) => true,
            Some(LogRecord::Committed { .. } | LogRecord::Aborted { .. }) => true,
            Some(LogRecord::Init { .. } | LogRecord::Prepared { .. }) | None => false,
        }
    }

    /// Drops the oldest record of a closed transaction.
    pub fn drop_oldest(&mut self, transaction: u8) {
        let place = self.records.iter().position(|r| r.transaction() == transaction).expect("closed: has a record");
        assert!(place < self.stable);
        self.records.remove(place);
        self.stable -= 1;
    }
}

#[cfg(test)]
mod tests {
    use super::*;

    /// The transactions of the records that are left of two stable and so many unforced ones.
    fn left(unforced: u8, keep: u8) -> Vec<u8> {
        let records = (0..2 + unforced).map(|transaction| LogRecord::Aborted { transaction }).collect();
        let mut log = Log { records, stable: 2 };
        log.go_down(keep);
        assert_eq!(log.unforced(), 0);
        log.records.iter().map(|record| record.transaction()).collect()
    }

    #[test]
    fn a_bit_for_each_unforced_record() {
        assert_eq!(left(2, 0), [0, 1]);
        assert_eq!(left(2, 1), [0, 1, 2]);
        assert_eq!(left(2, 2), [0, 1, 3]);
        assert_eq!(left(2, 3), [0, 1, 2, 3]);
        assert_eq!(left(3, 0b101), [0, 1, 2, 4]);
        assert_eq!(left(8, 0b1000_0000), [0, 1, 9]);
        assert_eq!(left(8, 0b0101_0110), [0, 1, 3, 4, 6, 8]);
        assert_eq!(left(8, 255).len(), 10);
    }

    #[test]
    fn no_bit_at_or_above_their_number() {
        let most = |unforced: usize| (0..=255).filter(|&keep| keeps_within(keep, unforced)).collect::<Vec<u8>>();
        assert_eq!(most(0), [0]);
        assert_eq!(most(1), [0, 1]);
        assert_eq!(most(2), [0, 1, 2, 3]);
        assert_eq!(most(7), (0..128).collect::<Vec<u8>>());
        assert_eq!(most(8).len(), 256);
    }
}
