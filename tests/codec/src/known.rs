//! Images and message numbers whose answers are known without the reference model, which is held to them too.

use crate::images::exact;
use crate::library::Trial;
use crate::random::Random;
use crate::two_buffers;

const VECTORS: &str = include_str!("../../vectors/images.txt");

fn bytes(words: &[&str], radix: u32) -> Vec<u8> {
    words.iter().map(|word| u8::from_str_radix(word, radix).unwrap()).collect()
}

/// The lines of tests/vectors/images.txt, whose top says what they mean. A written log is given as its image.
pub fn vectors(trial: &mut Trial, _: &mut Random) {
    for line in VECTORS.lines().filter(|line| !line.starts_with('#')) {
        let (left, right) = line.split_once(" =").unwrap();
        let words: Vec<&str> = left.split(' ').collect();
        let right: Vec<&str> = right.split_whitespace().collect();
        let answer: u8 = if words[1] == "number" && right.len() == 3 { 0 } else { right[0].parse().unwrap_or(255) };
        let before = trial.answers[answer as usize];
        match words[1] {
            "read" => {
                let image = bytes(&words[2..], 16);
                let reading = trial.check(&image);
                assert_eq!(reading.answer(), (answer, right[1].parse().unwrap()), "vectors: the line '{line}'");
                trial.copy(&image, &reading, image.len(), 0);
            }
            "write" => {
                let numbers = bytes(&words[2..5], 10);
                let records: Vec<Vec<u8>> =
                    words[5..].iter().map(|r| bytes(&r.split(',').collect::<Vec<_>>(), 10)).collect();
                let image = exact(numbers[0], &records);
                let reading = trial.check(&image);
                trial.copy(&image, &reading, numbers[1] as usize, numbers[2] as usize);
            }
            "number" => trial.message(words[2].parse().unwrap()),
            "events" => continue,
            word => panic!("vectors: '{word}' is not known"),
        }
        assert_eq!(trial.answers[answer as usize], before + 1, "vectors: not the answer of the line '{line}'");
    }
}

/// K10, the same bytes with faults of more than one number, and logs of several records: answer and index by hand.
pub fn examples(trial: &mut Trial, _: &mut Random) {
    let k10 = bytes(&"44 50 52 4C 01 01 0A 00 03 00 05 00 01".split(' ').collect::<Vec<_>>(), 16);
    let changed = |changes: &[(usize, u8)]| {
        let mut image = k10.clone();
        changes.iter().for_each(|&(i, value)| image[i] = value);
        image
    };
    let log = |site: u8, records: &[&[u8]]| exact(site, &records.iter().map(|r| r.to_vec()).collect::<Vec<_>>());
    let cases = [
        ((0, 1), changed(&[])),
        ((20, 0), changed(&[(3, 0), (4, 9), (6, 0), (10, 4), (11, 8), (12, 2)])),
        ((21, 0), changed(&[(4, 9), (6, 0), (10, 4), (11, 8), (12, 2)])),
        ((21, 0), changed(&[(5, 17), (12, 2)])),
        ((22, 0), changed(&[(6, 0), (10, 4), (11, 8), (12, 2)])),
        ((23, 0), changed(&[(10, 4), (11, 8), (12, 2)])),
        ((27, 0), changed(&[(11, 8), (12, 2)])),
        ((28, 0), changed(&[(12, 2)])),
        // a record with faults of two numbers
        ((23, 1), log(1, &[&[7, 7], &[6, 8, 0]])),
        ((23, 1), log(1, &[&[5, 0, 0], &[5, 0, 2, 0]])),
        ((23, 1), log(0, &[&[4, 0], &[4, 0, 0]])),
        ((27, 1), log(0, &[&[4, 0], &[1, 8, 3, 0]])),
        ((28, 1), log(1, &[&[5, 0, 0], &[5, 0, 2]])),
        ((28, 1), log(0, &[&[1, 0, 3, 1], &[1, 0, 3, 0]])),
        ((28, 1), log(0, &[&[1, 0, 3, 1], &[2, 0, 3, 5]])),
        // the rules between two records
        ((24, 1), log(0, &[&[1, 0, 3, 1], &[2, 0, 7, 1]])),
        ((24, 1), log(0, &[&[1, 0, 3, 1], &[2, 0, 3, 0]])),
        ((24, 1), log(0, &[&[1, 0, 3, 1], &[2, 0, 1, 0]])),
        ((24, 1), log(0, &[&[1, 0, 3, 1], &[2, 0, 2, 2]])),
        ((0, 2), log(0, &[&[1, 0, 3, 1], &[2, 0, 1, 1]])),
        ((0, 3), log(0, &[&[1, 0, 3, 1], &[2, 0, 2, 0], &[3, 0]])),
        ((24, 2), log(0, &[&[1, 0, 3, 1], &[2, 0, 1, 1], &[3, 0]])),
        ((24, 2), log(0, &[&[1, 0, 3, 3], &[2, 0, 3, 3], &[3, 0]])),
        ((24, 3), log(0, &[&[4, 0], &[3, 1], &[4, 2], &[3, 1]])),
        // faults of two records: the first of them, of whatever number
        ((24, 1), log(1, &[&[5, 0, 0], &[5, 0, 0], &[5, 0, 2]])),
        ((24, 2), log(0, &[&[4, 0], &[3, 1], &[3, 1], &[9, 9]])),
        ((28, 0), log(1, &[&[5, 0, 2], &[5, 1, 0], &[5, 1, 0]])),
        ((28, 1), log(1, &[&[6, 0], &[5, 1, 2], &[6, 8]])),
        ((28, 1), log(1, &[&[6, 0], &[5, 1, 2], &[4, 0]])),
        ((27, 1), log(0, &[&[4, 0], &[4, 8], &[5, 0, 0]])),
    ];
    for (answer, image) in cases {
        let reading = trial.check(&image);
        assert_eq!(reading.answer(), answer, "the reference model on an example");
        for (length, offset) in [(image.len(), 0), (200, 100), (5, 0), (0, 0), (13, 14), (13, usize::MAX)] {
            trial.copy(&image, &reading, length, offset);
        }
    }
}

/// Init and Commit of one transaction, with CommitEnd and without: all masks over four participants, and masks over
/// eight that are nearly right. Each participant is judged by itself: one in Commit has to be in Init, with the same
/// presumption, and CommitEnd asks for one that presumes abort.
pub fn masks_of_two(trial: &mut Trial, random: &mut Random) {
    let mut both = |[m1, p1, m2, p2]: [u8; 4]| {
        let stands = |members: u8, part: u8, i: u8| (members >> i & 1, part >> i & 1);
        let follows = |i: u8| m2 >> i & 1 == 0 || stands(m1, p1, i) == stands(m2, p2, i);
        let (two, three) = match (0..8).all(follows) {
            _ if m1 == 0 || p1 == 0 || p1 & !m1 != 0 => ((28, 0), (28, 0)),
            _ if m2 == 0 || p2 & !m2 != 0 => ((28, 1), (28, 1)),
            false => ((24, 1), (24, 1)),
            true if m2 == p2 => ((0, 2), (24, 2)),
            true => ((0, 2), (0, 3)),
        };
        let records = [vec![1, 6, m1, p1], vec![2, 6, m2, p2], vec![3, 6]];
        for (count, wanted) in [(2, two), (3, three)] {
            let answer = two_buffers(trial, random, &exact(0, &records[..count]));
            assert_eq!(answer, wanted, "the reference model on {:?}", &records[..count]);
        }
    };
    for number in 0..=65535u16 {
        let [low, high] = number.to_le_bytes();
        let masks = [low & 15, low >> 4, high & 15, high >> 4];
        both(masks);
        both(masks.map(|mask| mask << 4));
    }
    let mut near = Random(3);
    for i in 0..200_000 {
        let (m1, p1, m2) = (near.byte(), near.byte(), near.byte());
        let mut masks = [m1, p1 & m1, m2 & m1, p1 & m2 & m1];
        if i % 3 > 0 {
            masks[near.below(4)] ^= 1 << near.below(8);
        }
        both(masks);
    }
}
