//! A site of the joint run: its phases and its log.

use crate::step::UNKNOWN;

#[derive(Clone, Copy)]
pub struct Site {
    /// The phase of each transaction here.
    pub phases: [u8; 8],
    /// Kinds of the stable records of each transaction.
    pub stable: [u8; 8],
    /// Transaction and bit of the kind, the oldest first. Each transaction has one at most.
    unforced: [(u8, u8); 8],
    pub count: u8,
    pub forces: u64,
}

impl Site {
    pub fn fresh() -> Site {
        Site { phases: [UNKNOWN; 8], stable: [0; 8], unforced: [(0, 0); 8], count: 0, forces: 0 }
    }

    pub fn append(&mut self, h: u8, kind: u8) {
        self.unforced[self.count as usize] = (h, kind);
        self.count += 1;
    }

    pub fn force(&mut self) {
        for &(h, kind) in &self.unforced[..self.count as usize] {
            self.stable[h as usize] |= kind;
        }
        self.count = 0;
        self.forces = self.forces.saturating_add(1);
    }

    /// The unforced records that keep names become stable, the others are lost: bit i is the one at i.
    pub fn keep(&mut self, mut keep: u8) {
        while keep != 0 {
            let (h, kind) = self.unforced[keep.trailing_zeros() as usize];
            self.stable[h as usize] |= kind;
            keep &= keep - 1;
        }
        self.count = 0;
    }
}

/// Does keep name more than so many unforced records?
pub fn names_more(keep: u8, unforced: u8) -> bool {
    unforced < 8 && keep >> unforced != 0
}
