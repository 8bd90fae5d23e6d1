//! One request per line on stdin, one answer line on stdout.

use reference::bills;
use reference::clean_lists::*;
use reference::codec::*;
use reference::drill::*;
use reference::facts;
use reference::joint::*;
use reference::losses;
use reference::mask_lists::*;
use reference::monitor;
use reference::numbers::*;
use reference::order_lists::*;
use reference::random::*;
use reference::random_images::*;
use reference::random_steps::*;
use reference::read_only;
use reference::send_order;
use reference::step::Names;
use reference::totals;
use std::collections::BTreeMap;
use std::io::{self, BufRead, BufWriter, Write};

const USAGE: &str = "usage: reference drill|dump|read|write|step|message|bill|safe|facts|clean|met|between|orders|masks
       reference bills SEED
       reference random SEED COUNT MAXLEN
       reference random-images SEED COUNT
       reference random-steps SEED COUNT";

/// Hex bytes separated by blanks; `;` counts as a blank.
fn hex(line: &str) -> Option<Vec<u8>> {
    let mut bytes = Vec::new();
    for token in line.split(|c: char| c.is_whitespace() || c == ';').filter(|t| !t.is_empty()) {
        if !token.is_ascii() || token.len() % 2 != 0 {
            return None;
        }
        for i in (0..token.len()).step_by(2) {
            bytes.push(u8::from_str_radix(&token[i..i + 2], 16).ok()?);
        }
    }
    Some(bytes)
}

fn to_hex(bytes: &[u8]) -> String {
    let tokens: Vec<String> = bytes.iter().map(|b| format!("{b:02X}")).collect();
    tokens.join(" ")
}

fn decimals(record: &[u8]) -> String {
    let tokens: Vec<String> = record.iter().map(|b| b.to_string()).collect();
    tokens.join(",")
}

fn answer_drill(line: &str) -> Option<String> {
    Some(drill(&hex(line)?).join("|"))
}

fn answer_dump(line: &str) -> Option<String> {
    let mut run = Run::fresh();
    for event in drill_events(&hex(line)?) {
        run.event(event);
    }
    Some(run.dump().join("|"))
}

/// `number index`, and on 0, where the index is the count, also `site count rec rec ..`
fn answer_read(line: &str) -> Option<String> {
    Some(match read_image(&hex(line)?) {
        Err(Refusal { number, index }) => format!("{number} {index}"),
        Ok((site, log)) => {
            let mut out = format!("0 {} {} {}", log.len(), site, log.len());
            for record in log {
                out += " ";
                out += &decimals(&record.bytes());
            }
            out
        }
    })
}

/// `site buffer_len offset rec rec ..`
fn answer_write(line: &str) -> Option<String> {
    let mut tokens = line.split_whitespace();
    let site: u64 = tokens.next()?.parse().ok()?;
    let length: usize = tokens.next()?.parse().ok()?;
    let offset: u64 = tokens.next()?.parse().ok()?;
    if length > 1_000_000 {
        return None;
    }
    let mut records = Vec::new();
    for token in tokens {
        let record: Result<Vec<u8>, _> = token.split(',').map(|n| n.parse::<u8>()).collect();
        records.push(record.ok()?);
    }
    let mut buffer = vec![0xEE; length];
    Some(match write_image(site, &records, &mut buffer, offset) {
        Ok(written) => format!("0 {} {}", written, to_hex(&buffer)),
        Err(number) => {
            assert!(buffer.iter().all(|&b| b == 0xEE));
            number.to_string()
        }
    })
}

/// Eleven numbers; one too large for 64 bits is as good as any other too large one. The eight bytes of the call.
fn answer_step(line: &str) -> Option<String> {
    let mut arguments = [0u64; ARGUMENTS];
    let mut tokens = line.split_whitespace();
    for a in &mut arguments {
        let token = tokens.next()?;
        if !token.bytes().all(|b| b.is_ascii_digit()) {
            return None;
        }
        *a = token.parse().unwrap_or(u64::MAX);
    }
    if tokens.next().is_some() {
        return None;
    }
    Some(step_on_numbers(arguments).bytes().map(|byte| byte.to_string()).join(" "))
}

/// A message number: `transaction participant kind`, or 26.
fn answer_message(line: &str) -> Option<String> {
    let number: u16 = line.trim().parse().ok()?;
    Some(match Message::from_number(number) {
        Ok(m) => format!("{} {} {}", m.transaction, m.participant, m.kind),
        Err(number) => number.to_string(),
    })
}

/// The members and those that presume commit: the four bytes of the call.
fn answer_bill(line: &str) -> Option<String> {
    let numbers: Result<Vec<Mask>, _> = line.split_whitespace().map(|token| token.parse()).collect();
    let [members, presume_commit] = numbers.ok()?[..] else { return None };
    Some(bills::bill_bytes(members, presume_commit).map(|byte| byte.to_string()).join(" "))
}

/// `transaction members presume_commit: event; event; ..`
fn clean_line(CleanList { names, events }: &CleanList) -> String {
    let Names { transaction, members, presume_commit } = names;
    format!("{transaction} {members} {presume_commit}: {}", event_line(events))
}

fn clean_list(line: &str) -> Option<CleanList> {
    let (names, events) = line.split_once(':')?;
    let names: Result<Vec<u8>, _> = names.split_whitespace().map(|token| token.parse()).collect();
    let [transaction @ 0..TRANSACTIONS, members, presume_commit] = names.ok()?[..] else { return None };
    let events: Option<Vec<Event>> = hex(events)?.chunks(6).map(|event| event.try_into().ok()).collect();
    Some(CleanList { names: Names { transaction, members, presume_commit }, events: events? })
}

/// Is it a clean run, and does Job 7 hold of it? `ok records forces sends`, of its events.
fn answer_clean(line: &str) -> Option<String> {
    let CleanList { names, events } = clean_list(line)?;
    Some(verdict(bills::check(names, &events.concat()), |told| {
        format!("ok {} {} {}", told.records, told.forces, told.sends)
    }))
}

/// What stands before clean runs and in between: `can count name`, and `cannot count name` for what may not.
fn answer_between() -> io::Result<()> {
    let lines: Result<Vec<String>, _> = io::stdin().lock().lines().collect();
    let lists: Vec<CleanList> = lines?.iter().filter_map(|line| clean_list(line)).collect();
    let can = names();
    for (name, count) in met_by(&lists) {
        println!("{} {count} {name}", if can.contains(&name) { "can" } else { "cannot" });
    }
    Ok(())
}

fn verdict<T>(result: Result<T, String>, ok: impl Fn(T) -> String) -> String {
    result.map_or_else(|what| format!("broken: {what}"), ok)
}

/// Of the coordinator and of a participant.
fn most_unforced([coordinator, participant]: [usize; 2]) -> String {
    format!("ok {coordinator} {participant}")
}

fn answer_lines(answer: impl Fn(&str) -> Option<String>) -> io::Result<()> {
    let mut out = BufWriter::new(io::stdout().lock());
    for line in io::stdin().lock().lines() {
        let line = line?;
        writeln!(out, "{}", answer(&line).unwrap_or_else(|| "bad request".to_string()))?;
    }
    out.flush()
}

/// What of Jobs 3 to 6 all the lists meet: `can count name`, and `cannot count name` for what none can meet.
fn answer_met() -> io::Result<()> {
    let mut counts: BTreeMap<String, usize> = BTreeMap::new();
    for line in io::stdin().lock().lines() {
        let mut found: Vec<String> = Vec::new();
        let (_, run) = watched_drill(&hex(&line?).unwrap_or_default(), |run, event| {
            let judged = run.judge(event);
            found.extend(read_only::met(run, event, &judged).into_iter().map(String::from));
            found.extend(totals::met(run, event, &judged).map(String::from));
            found.extend(send_order::met(run, event, &judged));
            found.extend(losses::met(run, event));
        });
        let sites = totals::totals(&run.history).into_iter().filter_map(|of| totals::met_by(of.numbers()));
        found.extend(sites.map(String::from));
        found.into_iter().for_each(|name| *counts.entry(name).or_default() += 1);
    }
    let names = |names: &[&str]| names.iter().map(|name| name.to_string()).collect::<Vec<_>>();
    let can = [names(&read_only::NAMES), names(&totals::NAMES), send_order::names(), losses::names()].concat();
    for (can, names) in [("can", can), ("cannot", names(&read_only::NEVER))] {
        names.iter().for_each(|name| println!("{can} {} {name}", counts.remove(name).unwrap_or(0)));
    }
    assert!(counts.is_empty(), "names that no list of names has: {counts:?}");
    Ok(())
}

/// Events as a request names them.
fn event_line(list: &[Event]) -> String {
    list.iter().map(|event| to_hex(event)).collect::<Vec<_>>().join("; ")
}

fn show_lists<T>(lists: &[T], line: impl Fn(&T) -> String) -> io::Result<()> {
    let mut out = BufWriter::new(io::stdout().lock());
    for list in lists {
        writeln!(out, "{}", line(list))?;
    }
    out.flush()
}

fn generate(count: u64, seed: u64, one: impl Fn(&mut Rng) -> String) -> io::Result<()> {
    let mut out = BufWriter::new(io::stdout().lock());
    let mut rng = Rng::new(seed);
    for _ in 0..count {
        writeln!(out, "{}", one(&mut rng))?;
    }
    out.flush()
}

fn main() -> io::Result<()> {
    let arguments: Vec<String> = std::env::args().skip(1).collect();
    let words: Vec<&str> = arguments.iter().map(|s| s.as_str()).collect();
    let numbers: Vec<u64> = words.iter().skip(1).filter_map(|w| w.parse().ok()).collect();
    match (words.as_slice(), numbers.as_slice()) {
        (["drill"], _) => answer_lines(answer_drill),
        (["dump"], _) => answer_lines(answer_dump),
        (["read"], _) => answer_lines(answer_read),
        (["write"], _) => answer_lines(answer_write),
        (["step"], _) => answer_lines(answer_step),
        (["message"], _) => answer_lines(answer_message),
        (["safe"], _) => answer_lines(|line| Some(verdict(monitor::safe(&hex(line)?), |()| "ok".to_string()))),
        (["facts"], _) => answer_lines(|line| Some(verdict(facts::facts(&hex(line)?), most_unforced))),
        (["bill"], _) => answer_lines(answer_bill),
        (["clean"], _) => answer_lines(answer_clean),
        (["met"], _) => answer_met(),
        (["between"], _) => answer_between(),
        (["bills", _], &[seed]) => show_lists(&clean_lists(seed), clean_line),
        (["orders"], _) => show_lists(&order_lists(), |list| event_line(list)),
        (["masks"], _) => {
            let lists = mask_lists();
            let missing = losses::Tried::on(&lists).missing();
            if !missing.is_empty() {
                eprintln!("the lists do not meet\n  {}", missing.join("\n  "));
                std::process::exit(1);
            }
            show_lists(&lists, |list| event_line(list))
        }
        (["random", _, _, _], &[seed, count, most]) => {
            generate(count, seed, |rng| event_line(&event_list(rng, most as usize)))
        }
        (["random-images", _, _], &[seed, count]) => generate(count, seed, |rng| to_hex(&random_image(rng))),
        (["random-steps", _, _], &[seed, count]) => generate(count, seed, |rng| {
            let numbers: Vec<String> = random_step(rng).iter().map(|n| n.to_string()).collect();
            numbers.join(" ")
        }),
        _ => {
            eprintln!("{USAGE}");
            std::process::exit(2)
        }
    }
}
