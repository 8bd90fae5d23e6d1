//! Calls the three C functions of libcodec.a and compares each answer, and all memory lent, with the reference model.
//! The first difference ends the program with what was given, what was expected and what came.
//! Words on the command line name the parts to run; without any, all are run.

#[allow(dead_code)]
#[path = "../../reference/src/codec.rs"]
mod codec;
#[allow(dead_code)]
#[path = "../../fenced.rs"]
mod fenced;
mod images;
mod known;
mod library;
mod random;

use images::{accepted, bad_records, exact, random_image, records_of};
use known::{examples, masks_of_two, vectors};
use library::Trial;
use random::Random;
use std::collections::BTreeSet;

/// A buffer with room and one without, each at some offset. Gives number and index.
fn two_buffers(trial: &mut Trial, random: &mut Random, image: &[u8]) -> (u8, usize) {
    let reading = trial.check(image);
    let offset = random.below(9);
    trial.copy(image, &reading, (offset + image.len() + random.below(9)).min(256), offset);
    let length = (offset + random.below(image.len().max(1))).min(256);
    let offset = if random.once_in(8) { usize::MAX - random.below(300) } else { offset };
    trial.copy(image, &reading, length, offset);
    reading.answer()
}

/// Each number that an image may get was met in this part, and each that names a record with an index above 0 too.
fn all_met(trial: &Trial) {
    for number in [0, 20, 21, 22, 23, 24, 25, 27, 28] {
        assert!(trial.answers[number] > 0, "no image got the answer {number}");
        assert!(number == 25 || trial.checks[number] != [0, 0], "no check of an image got the number {number}");
    }
    for number in [0, 23, 24, 27, 28] {
        assert!(trial.checks[number][1] > 0, "no check of an image got the number {number} with an index above 0");
    }
}

fn prefixes(trial: &mut Trial, random: &mut Random) {
    for image in accepted(&mut Random(7)) {
        for length in 0..=image.len() {
            two_buffers(trial, random, &image[..length]);
        }
        for more in 1..=4 {
            two_buffers(trial, random, &[image.clone(), vec![image[0]; more]].concat());
        }
    }
}

fn changes(trial: &mut Trial, random: &mut Random) {
    for image in accepted(&mut Random(7)) {
        for i in 0..image.len() {
            for value in 0..=255 {
                let mut changed = image.clone();
                changed[i] = value;
                two_buffers(trial, random, &changed);
            }
        }
    }
    all_met(trial);
}

/// In each place of an accepted image, before the record there and instead of it: a record that is refused by itself,
/// and a second copy of an earlier one. The number is known, and the place is the index.
fn bad_places(trial: &mut Trial, random: &mut Random) {
    for image in accepted(&mut Random(7)) {
        let (site, records) = (image[4], records_of(&image));
        let most = if site == 0 { 24 } else { 16 };
        for place in 0..=records.len() {
            let earlier = records[..place].iter().map(|record| (24, record.clone()));
            for (number, bad) in bad_records(site).into_iter().chain(earlier) {
                for taken in 0..=1 {
                    let rest = records.get(place + taken..).unwrap_or(&[]);
                    let changed = [&records[..place], &[bad.clone()], rest].concat();
                    if changed.len() <= most {
                        let answer = two_buffers(trial, random, &exact(site, &changed));
                        assert_eq!(answer, (number, place), "the reference model on {changed:?}");
                    }
                }
            }
        }
    }
}

/// The border between two records moved: the pair table stays exact, and two lengths are wrong.
fn borders(trial: &mut Trial, random: &mut Random) {
    for image in accepted(&mut Random(7)) {
        for second in 1..image[5] as usize {
            for moved in -4i8..=4 {
                let mut changed = image.clone();
                let pair = 6 + 4 * second;
                changed[pair] = changed[pair].wrapping_add_signed(moved);
                changed[pair - 2] = changed[pair - 2].wrapping_add_signed(moved);
                changed[pair + 2] = changed[pair + 2].wrapping_sub(moved as u8);
                two_buffers(trial, random, &changed);
            }
        }
    }
}

/// Images of one record: every kind and length, every transaction and presumption, all masks.
fn single_records(trial: &mut Trial, random: &mut Random) {
    for site in 0..=8 {
        for kind in 0..=255 {
            for length in 0..=6 {
                let mut record = vec![kind, 3, 1, 1, 0, 0];
                record.truncate(length);
                two_buffers(trial, random, &exact(site, &[record]));
            }
        }
    }
    for number in 0..=65535u16 {
        let [a, b] = number.to_le_bytes();
        two_buffers(trial, random, &exact(0, &[vec![1, 2, a, b]]));
        two_buffers(trial, random, &exact(0, &[vec![2, 2, a, b]]));
        two_buffers(trial, random, &exact(8, &[vec![5, a, b]]));
        two_buffers(trial, random, &exact(0, &[vec![a, b]]));
        two_buffers(trial, random, &exact(1, &[vec![a, b]]));
    }
}

/// Every row of up to so many of these records.
fn rows(trial: &mut Trial, random: &mut Random, site: u8, records: &[&[u8]], most: usize, row: &mut Vec<Vec<u8>>) {
    two_buffers(trial, random, &exact(site, row));
    if row.len() < most {
        for record in records {
            row.push(record.to_vec());
            rows(trial, random, site, records, most, row);
            row.pop();
        }
    }
}

/// Short logs of two transactions, legal and not, with other masks for one of them, and records that no log may hold.
fn sequences(trial: &mut Trial, random: &mut Random) {
    let coordinator: [&[u8]; 16] = [
        &[1, 0, 3, 1],
        &[2, 0, 3, 1],
        &[2, 0, 2, 0],
        &[2, 0, 1, 1],
        &[1, 0, 3, 3],
        &[2, 0, 3, 3],
        &[2, 0, 7, 1],
        &[3, 0],
        &[4, 0],
        &[1, 7, 3, 1],
        &[2, 7, 3, 1],
        &[3, 7],
        &[4, 7],
        &[5, 0],
        &[3, 8],
        &[2, 0, 3, 4],
    ];
    rows(trial, random, 0, &coordinator, 4, &mut vec![]);
    let participant: [&[u8]; 7] = [&[5, 0, 0], &[5, 0, 1], &[6, 0], &[7, 0], &[5, 7, 1], &[6, 7], &[7, 7]];
    let bad: [&[u8]; 3] = [&[4, 0], &[6, 8], &[5, 0, 2]];
    rows(trial, random, 5, &[&participant[..], &bad].concat(), 4, &mut vec![]);
}

/// Every count at every site, over so many records.
fn counts(trial: &mut Trial, random: &mut Random) {
    for site in 0..=255 {
        let kind = if site == 0 { 3 } else { 6 };
        for count in 0..=if site > 9 { 1 } else { 255 } {
            let records: Vec<Vec<u8>> = (0..count).map(|transaction| vec![kind, transaction]).collect();
            two_buffers(trial, random, &exact(site, &records));
        }
    }
}

/// Lengths and offsets that are right only in 8, 16 or 32 bits.
fn long_images(trial: &mut Trial, random: &mut Random) {
    let k10 = exact(1, &[vec![5, 0, 1]]);
    for longer in [256, 512, 65536, 65536 + 256] {
        two_buffers(trial, random, &[k10.clone(), vec![0; longer]].concat());
    }
    for length in [255, 256, 256 + 3, 65533, 65534, 65535, 65536, 65536 + 3] {
        let mut record = vec![0; length];
        record[..3].copy_from_slice(&[5, 0, 1]);
        let image = exact(1, &[record.clone()]);
        two_buffers(trial, random, &image);
        two_buffers(trial, random, &image[..13]);
        two_buffers(trial, random, &exact(1, &[vec![7, 2], record, vec![6, 3]]));
    }
    let reading = trial.check(&k10);
    for high in 8..64 {
        for low in 0..4 {
            trial.copy(&k10, &reading, 16, (1 << high) + low);
        }
    }
}

/// Every buffer up to 8 bytes more than needed, at every offset up to beyond its end, and at offsets that would wrap round.
fn buffers(trial: &mut Trial, _: &mut Random) {
    for image in accepted(&mut Random(7)) {
        let reading = trial.check(&image);
        for length in 0..=image.len() + 8 {
            for offset in 0..=length + 3 {
                trial.copy(&image, &reading, length, offset);
            }
            for back in [1, 2, 3, 8, length, length + 1, image.len() - 1, image.len(), image.len() + 1, 200] {
                trial.copy(&image, &reading, length, 0usize.wrapping_sub(back));
            }
        }
        for back in 1..=image.len() + 16 {
            trial.copy(&image, &reading, image.len() + 8, 0usize.wrapping_sub(back));
        }
    }
}

fn random_bytes(trial: &mut Trial, random: &mut Random) {
    for _ in 0..1000 {
        for length in 0..=200 {
            let image = random_image(random, length);
            two_buffers(trial, random, &image);
        }
    }
    all_met(trial);
}

/// All numbers, twice, so that bytes left as they were are told from bytes written.
fn messages(trial: &mut Trial, _: &mut Random) {
    for number in (0..=65535).chain(0..=65535) {
        trial.message(number);
    }
    assert_eq!((trial.answers[0], trial.answers[26]), (2 * 512, 2 * (65536 - 512)), "numbers accepted and refused");
}

/// Each answer that came, and how often.
fn counted(answers: &[usize; 256]) -> String {
    let met = answers.iter().enumerate().filter(|(_, times)| **times > 0);
    met.map(|(answer, times)| format!("{answer}: {times}")).collect::<Vec<_>>().join(", ")
}

fn main() {
    let parts: [(&'static str, fn(&mut Trial, &mut Random)); 14] = [
        ("vectors", vectors),
        ("examples", examples),
        ("message numbers", messages),
        ("buffers and offsets", buffers),
        ("prefixes of accepted images", prefixes),
        ("single-byte changes of accepted images", changes),
        ("a bad record in each place", bad_places),
        ("borders of records", borders),
        ("images of one record", single_records),
        ("masks of Init and Commit", masks_of_two),
        ("sequences of records", sequences),
        ("counts of records", counts),
        ("long images and far offsets", long_images),
        ("random bytes", random_bytes),
    ];
    let images = accepted(&mut Random(7));
    assert!(images.iter().collect::<BTreeSet<_>>().len() >= 50);
    assert!(images.iter().all(|image| codec::check_image(image) == (0, image[5] as usize)));
    assert_eq!(images.iter().filter(|image| image[4] == 0).map(Vec::len).max(), Some(182));
    assert_eq!(images.iter().filter(|image| image[4] != 0).map(Vec::len).max(), Some(110));
    println!("{} accepted images, {} bytes", images.len(), images.iter().map(Vec::len).sum::<usize>());
    let named: Vec<String> = std::env::args().skip(1).collect();
    assert!(named.iter().all(|n| parts.iter().any(|(name, _)| n == name)), "no part of that name");
    let mut trial = Trial::new();
    let mut random = Random(20);
    for (name, part) in parts.into_iter().filter(|(name, _)| named.is_empty() || named.iter().any(|n| n == name)) {
        let before = trial.cases;
        trial.part = name;
        trial.answers = [0; 256];
        trial.checks = [[0; 2]; 256];
        part(&mut trial, &mut random);
        println!("{name}: {} cases (answers {})", trial.cases - before, counted(&trial.answers));
        if trial.checks != [[0; 2]; 256] {
            let [all, above] = [trial.checks.map(|[zero, above]| zero + above), trial.checks.map(|[_, above]| above)];
            println!("  checks {}; with an index above 0 {}", counted(&all), counted(&above));
        }
    }
    println!("{} cases, ok", trial.cases);
}
