//! The function of libsite.a beside a step in plain Rust, for bench/run-site.
//! `check`: do the two agree? `measure MIX N`: the calls of a mix, N times each, to be counted by callgrind under the
//! names below; each result is compared.

#[allow(dead_code)]
#[path = "../../../tests/site/src/arguments.rs"]
mod arguments;
#[allow(dead_code)]
#[path = "../../../tests/reference/src/codec.rs"]
mod codec;
mod lean;
#[allow(dead_code)]
#[path = "../../../tests/reference/src/numbers.rs"]
mod numbers;
#[allow(dead_code)]
#[path = "../../../tests/codec/src/random.rs"]
mod random;
#[allow(dead_code)]
#[path = "../../../tests/site/src/rows.rs"]
mod rows;
#[allow(dead_code)]
#[path = "../../../tests/reference/src/step.rs"]
mod step;

use arguments::{accepted, expected, random_accepted, Arguments};
use numbers::ARGUMENTS;
use random::Random;
use std::hint::black_box;

#[link(name = "site", kind = "static")]
extern "C" {
    fn dpr_site_step(
        site: u8,
        kind: u8,
        transaction: u8,
        participant: u8,
        presumption: u8,
        phase: u8,
        waiting: u8,
        members: u8,
        presume_commit: u8,
        mark: u8,
        taken_out: u8,
    ) -> u64;
}

#[no_mangle]
#[inline(never)]
extern "C" fn lean_site_step(
    site: u8,
    kind: u8,
    transaction: u8,
    participant: u8,
    presumption: u8,
    phase: u8,
    waiting: u8,
    members: u8,
    presume_commit: u8,
    mark: u8,
    taken_out: u8,
) -> u64 {
    lean::site_step(
        site,
        kind,
        transaction,
        participant,
        presumption,
        phase,
        waiting,
        members,
        presume_commit,
        mark,
        taken_out,
    )
}

fn compare(arguments: Arguments) {
    let [a, b, c, d, e, f, g, h, i, j, k] = arguments;
    let proved = unsafe { dpr_site_step(a, b, c, d, e, f, g, h, i, j, k) };
    let plain = lean_site_step(a, b, c, d, e, f, g, h, i, j, k);
    assert_eq!(proved, plain, "arguments {arguments:?}");
}

/// Calls of each row in the mix.
const EACH: usize = 40;

/// Every row equally often, and as often a call without a row.
fn accepted_mix(random: &mut Random) -> Vec<Arguments> {
    let mut missing = [EACH; rows::COUNT + 1];
    let mut mix = vec![];
    while mix.len() < EACH * missing.len() {
        let call = random_accepted(random);
        let row = &mut missing[rows::row_of(call, expected(call)).unwrap_or(rows::COUNT)];
        if *row > 0 {
            *row -= 1;
            mix.push(call);
        }
    }
    mix
}

/// Refused calls: each argument equally often is the one that is changed in an accepted call of the mix above.
fn refused_mix(random: &mut Random) -> Vec<Arguments> {
    let taken = accepted_mix(random);
    let mut mix = vec![];
    while mix.len() < ARGUMENTS * 6 * EACH {
        let mut call = taken[random.below(taken.len())];
        let i = mix.len() % ARGUMENTS;
        call[i] = if random.once_in(2) { random.below(20) as u8 } else { random.byte() };
        if expected(call)[0] == 1 {
            mix.push(call);
        }
    }
    mix
}

fn mix(name: &str) -> Vec<Arguments> {
    match name {
        "accepted" => accepted_mix(&mut Random(20)),
        "refused" => refused_mix(&mut Random(20)),
        _ => panic!("no mix of that name"),
    }
}

fn check() {
    let mut compared = 0;
    accepted(|call| {
        compare(call);
        compared += 1;
    });
    let mut random = Random(7);
    for _ in 0..2_000_000 {
        let mut call = random_accepted(&mut random);
        call[random.below(ARGUMENTS)] = random.byte();
        compare(call);
        compared += 1;
    }
    println!("libsite.a and the step in plain Rust agree on {compared} calls");
}

fn measure(name: &str, times: usize) {
    let calls = mix(name);
    for _ in 0..times {
        for &call in &calls {
            compare(black_box(call));
        }
    }
    println!("{}", calls.len() * times);
}

fn main() {
    let words: Vec<String> = std::env::args().skip(1).collect();
    match words.iter().map(String::as_str).collect::<Vec<_>>()[..] {
        ["check"] => check(),
        ["measure", name, times] => measure(name, times.parse().unwrap()),
        _ => panic!("check, or measure with the name of a mix and a number"),
    }
}
