//! Random arguments of the step on numbers.

use crate::codec::*;
use crate::numbers::ARGUMENTS;
use crate::random::*;

/// The numbers of a step that is accepted.
fn legal_step(rng: &mut Rng) -> [u64; ARGUMENTS] {
    let members = if rng.percent(60) { 1 + rng.below(15) as u8 } else { 1 + rng.below(255) as u8 };
    let presume_commit = match rng.below(4) {
        0 => 0,
        1 => members,
        _ => members & rng.byte(),
    };
    let list: Vec<u8> = each(members).collect();
    let b = rng.pick(&list);
    let presumption = has(presume_commit, b) as u64;
    let transaction = rng.below(8) as u64;
    let (m, p) = (members as u64, presume_commit as u64);
    if rng.percent(40) {
        let kind = rng.pick(&[0, 3, 4, 17]);
        let (phase, mark) = (rng.pick(&[0, 0, 1, 2, 3, 4]), rng.below(2) as u64);
        return [b as u64, kind, transaction, b as u64, presumption, phase, 0, m, p, mark, 0];
    }
    let phase = rng.pick(&[0, 1, 1, 1, 2, 2, 3, 3, 4]);
    let of = match phase {
        1 => members,
        2 => members & !presume_commit,
        3 => presume_commit,
        _ => 0,
    };
    if of == 0 && matches!(phase, 2 | 3) {
        return legal_step(rng);
    }
    let mut waiting = of;
    if of != 0 && rng.percent(80) {
        let part: Vec<u8> = each(of).collect();
        waiting = bit(rng.pick(&part));
        if rng.percent(50) {
            waiting |= of & rng.byte();
        }
    }
    // None, all that are not awaited, or some of them.
    let taken_out = match rng.below(3) {
        _ if phase == 0 => 0,
        0 => 0,
        1 => members & !waiting,
        _ => members & !waiting & rng.byte(),
    };
    let (w, out) = (waiting as u64, taken_out as u64);
    let kind = rng.pick(&[1, 1, 2, 5, 6, 7, 7, 16, 17]);
    if kind >= 16 {
        return [0, kind, transaction, 0, 0, phase, w, m, p, 0, out];
    }
    // Mostly a participant that is awaited.
    let mut b = b;
    if waiting != 0 && rng.percent(70) {
        let part: Vec<u8> = each(waiting).collect();
        b = rng.pick(&part);
    }
    let presumption = has(presume_commit, b) as u64;
    [0, kind, transaction, b as u64, presumption, phase, w, m, p, 0, out]
}

pub fn random_step(rng: &mut Rng) -> [u64; ARGUMENTS] {
    let mut step = legal_step(rng);
    match rng.below(100) {
        0..=46 => {}
        47..=69 => {
            let i = rng.below(ARGUMENTS);
            let most = [10, 19, 9, 10, 3, 6, 256, 256, 256, 3, 256][i];
            step[i] = rng.below(most) as u64;
        }
        70..=79 => {
            // Wider than a byte, some of them the right number in the low bits.
            let i = rng.below(ARGUMENTS);
            step[i] = match rng.below(5) {
                0 => step[i] + 256,
                1 => step[i] + 65536,
                2 => rng.pick(&[255, 256, 257, 65535, 4294967295]),
                3 => rng.below(65536) as u64,
                _ => step[i] + 128,
            };
        }
        80..=91 => {
            for _ in 0..2 + rng.below(2) {
                let i = rng.below(ARGUMENTS);
                let most = [9, 18, 8, 9, 2, 5, 8, 8, 8, 2, 8][i];
                step[i] = rng.below(most) as u64;
            }
        }
        _ => {
            for (i, n) in step.iter_mut().enumerate() {
                *n = rng.below([9, 18, 8, 9, 2, 5, 4, 4, 4, 2, 4][i]) as u64;
            }
        }
    }
    step
}
