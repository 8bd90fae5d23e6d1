//! Random numbers that a seed decides, and random lists of events.

use crate::codec::*;
use crate::joint::*;
use crate::step::Effect;

/// xorshift64*.
pub struct Rng(u64);

impl Rng {
    pub fn new(seed: u64) -> Rng {
        // Spread small seeds over the word; the state must not be 0.
        let mut z = seed.wrapping_add(0x9E37_79B9_7F4A_7C15);
        z = (z ^ (z >> 30)).wrapping_mul(0xBF58_476D_1CE4_E5B9);
        z = (z ^ (z >> 27)).wrapping_mul(0x94D0_49BB_1331_11EB);
        Rng((z ^ (z >> 31)) | 1)
    }

    pub fn next(&mut self) -> u64 {
        self.0 ^= self.0 >> 12;
        self.0 ^= self.0 << 25;
        self.0 ^= self.0 >> 27;
        self.0.wrapping_mul(0x2545_F491_4F6C_DD1D)
    }

    pub fn below(&mut self, n: usize) -> usize {
        ((self.next() >> 32) * n as u64 >> 32) as usize
    }

    pub fn byte(&mut self) -> u8 {
        self.below(256) as u8
    }

    pub fn percent(&mut self, p: usize) -> bool {
        self.below(100) < p
    }

    pub fn pick<T: Copy>(&mut self, from: &[T]) -> T {
        from[self.below(from.len())]
    }
}

pub type Event = [u8; 6];

/// How often what is chosen in one list.
struct Style {
    cut: usize,
    fault: usize,
    wild: usize,
    deliver: usize,
    again: usize,
    timer: usize,
    force: usize,
    discard: usize,
    crash: usize,
    restart: usize,
    /// Weight of a mark, and of a hundred members how many are to be marked; the others are once in a while.
    mark: usize,
    reads: usize,
}

/// One event list of 1 to `most` events.
pub fn event_list(rng: &mut Rng, most: usize) -> Vec<Event> {
    let most = most.max(1);
    let length = 1 + rng.below(most).max(rng.below(most));
    let kind = rng.below(100);
    let patient = rng.percent(60);
    let mut style = Style {
        cut: 3,
        fault: 0,
        wild: 0,
        deliver: 60,
        again: rng.pick(&[1, 4, 15]),
        timer: if patient { 1 } else { 8 },
        force: rng.pick(&[1, 4]),
        discard: rng.pick(&[1, 5, 15]),
        crash: if patient { 1 } else { rng.pick(&[2, 6]) },
        restart: rng.pick(&[5, 25]),
        mark: rng.pick(&[0, 5, 20, 60]),
        reads: rng.pick(&[20, 40, 60, 100]),
    };
    if kind < 45 {
        style.cut = rng.pick(&[0, 3, 6]);
    } else if kind < 70 {
        style.cut = rng.pick(&[15, 35, 60]);
    } else if kind < 90 {
        style.cut = 10;
        style.fault = 10;
    } else {
        style.wild = rng.pick(&[30, 60, 100]);
    }
    let names = transactions_to_open(rng);
    if names.len() == TRANSACTIONS as usize {
        // records stay unforced
        (style.force, style.timer, style.discard) = (0, 1, 1);
    }
    let readers: Vec<Mask> = names.iter().map(|open| some_of(rng, open[2], style.reads)).collect();
    let mut run = Run::fresh();
    let mut list = Vec::new();
    while list.len() < length {
        let event = if rng.percent(style.wild) {
            wild_event(rng)
        } else if rng.percent(style.fault) {
            faulty_event(rng, &run, &names, &readers, &style)
        } else {
            good_event(rng, &run, &names, &readers, &style)
        };
        run.event(&event);
        list.push(event);
    }
    list
}

/// 1 to 3 transactions of 1 to 4 members, or once in a while all eight, as events of opening.
fn transactions_to_open(rng: &mut Rng) -> Vec<Event> {
    let count = if rng.percent(10) { TRANSACTIONS as usize } else { 1 + rng.below(3) };
    let pool: Mask = if rng.percent(70) { random_mask(rng, 4) } else { 255 };
    let mut opens: Vec<Event> = Vec::new();
    while opens.len() < count {
        let transaction = rng.below(8) as u8;
        if opens.iter().any(|o| o[1] == transaction) {
            continue;
        }
        let size = 1 + rng.below(4);
        let mut members = 0;
        while members == 0 {
            members = random_mask(rng, size) & pool;
        }
        let presume_commit = match rng.below(4) {
            0 => 0,
            1 => members,
            _ => members & rng.byte(),
        };
        opens.push([0, transaction, members, presume_commit, NO_CUT, 0]);
    }
    opens
}

/// A mask of so many participants.
pub fn random_mask(rng: &mut Rng, size: usize) -> Mask {
    let mut mask = 0u8;
    while mask.count_ones() < size as u32 {
        mask |= bit(1 + rng.below(8) as u8);
    }
    mask
}

/// So many of a hundred.
pub fn some_of(rng: &mut Rng, members: Mask, share: usize) -> Mask {
    each(members).filter(|_| rng.percent(share)).map(bit).sum()
}

/// An event that the run accepts; `readers` are the members of each opening that are to be marked.
fn good_event(rng: &mut Rng, run: &Run, opens: &[Event], readers: &[Mask], style: &Style) -> Event {
    let mut choices: Vec<(Event, usize)> = Vec::new();
    let mut add = |event: Event, weight: usize| choices.push((event, weight));
    for &open in opens {
        if run.judge(&open).is_ok() {
            add(open, 40);
        }
    }
    let mut useful = Vec::new();
    let mut others = Vec::new();
    for number in 0..MESSAGES {
        if run.sent[number] {
            let m = Message::from_number(number as u16).expect("in range");
            let event = [2, m.transaction, m.participant, m.kind, NO_CUT, 0];
            match run.judge(&event) {
                Ok(plan) if leads_on(run, &plan) => useful.push(event),
                Ok(_) => others.push(event),
                Err(_) => {}
            }
        }
    }
    for &e in &useful {
        add(e, 1 + style.deliver / useful.len());
    }
    for &e in &others {
        add(e, 1 + style.again / others.len());
    }
    for t in run.transactions.iter().flatten() {
        let h = t.names.transaction;
        let begin = [1, h, 0, 0, NO_CUT, 0];
        if run.judge(&begin).is_ok() {
            add(begin, 30);
        }
        for site in 0..SITES {
            let timer = [3, h, site, 0, NO_CUT, 0];
            if run.judge(&timer).is_ok() {
                add(timer, style.timer);
            }
            let discard = [5, h, site, 0, NO_CUT, 0];
            if run.judge(&discard).is_ok() {
                add(discard, style.discard);
            }
            let mark = [8, h, site, 0, NO_CUT, 0];
            if run.judge(&mark).is_ok() {
                let reader = opens.iter().zip(readers).any(|(open, readers)| open[1] == h && has(*readers, site));
                add(mark, if reader && !has(t.marked, site) { style.mark } else { style.mark / 10 });
            }
        }
    }
    for site in 0..SITES {
        if run.up[site as usize] {
            let unforced = run.logs[site as usize].unforced();
            let concerned = site == 0 || opens.iter().any(|o| has(o[2], site));
            if unforced > 0 {
                add([4, 0, site, 0, NO_CUT, 0], 3 * style.force);
            }
            if concerned {
                let keep = some_keep(rng, unforced);
                add([6, 0, site, 0, NO_CUT, keep], style.crash);
            }
            if unforced >= 2 {
                let keep = 1 + rng.below(all_of(unforced) as usize - 1) as u8;
                add([6, 0, site, 0, NO_CUT, keep], 4 * (unforced - 1));
            }
        } else {
            add([7, 0, site, 0, NO_CUT, 0], style.restart);
        }
    }
    if choices.is_empty() {
        choices.push(([4, 0, rng.below(9) as u8, 0, NO_CUT, 0], 1));
    }
    let total: usize = choices.iter().map(|c| c.1).sum();
    let mut at = rng.below(total);
    let mut event = choices[0].0;
    for &(e, weight) in &choices {
        event = e;
        if at < weight {
            break;
        }
        at -= weight;
    }
    // Long rows are cut more often.
    let long = matches!(run.judge(&event), Ok(Plan::Row { effects, .. }) if effects.len() >= 3);
    let cut = if long && style.cut > 0 { style.cut + 10 } else { style.cut };
    if rng.percent(cut) {
        event = with_cut(rng, run, event);
    }
    event
}

/// Does it change a phase, or do more than to send what was sent before, or a No behind a read-only vote?
pub fn leads_on(run: &Run, plan: &Plan) -> bool {
    let Plan::Row { site, effects, phases, .. } = plan else { return true };
    let moved = |h: u8, phase: Phase| run.transactions[h as usize].as_ref().map(|t| t.phase(*site)) != Some(phase);
    let sent = |message: Message| run.sent[message.number() as usize];
    let new = |effect: &Effect| match *effect {
        Effect::Send(no @ Message { kind: NO, .. }) => !sent(no) && !sent(Message { kind: READ_ONLY, ..no }),
        Effect::Send(message) => !sent(message),
        _ => true,
    };
    effects.iter().any(|(_, effect)| new(effect)) || phases.iter().any(|&(h, phase)| moved(h, phase))
}

/// The keep that names all of so many unforced records.
fn all_of(unforced: usize) -> u8 {
    ((1u16 << unforced) - 1) as u8
}

/// A keep that names none, all or any of so many unforced records.
pub fn some_keep(rng: &mut Rng, unforced: usize) -> u8 {
    match rng.below(3) {
        0 => 0,
        1 => all_of(unforced),
        _ => rng.below(1 << unforced) as u8,
    }
}

/// The same event with a cut within its effects and a keep of the unforced records then there.
pub fn with_cut(rng: &mut Rng, run: &Run, mut event: Event) -> Event {
    if let Ok(Plan::Row { site, effects, .. }) = run.judge(&event) {
        let cut = rng.below(effects.len() + 1);
        event[4] = cut as u8;
        event[5] = some_keep(rng, run.unforced_after(site, &effects[..cut]));
    }
    event
}

/// The event at the border of refusal 9: its cut is within the effects or one above, and keep may name the record behind
/// the last unforced one, or be any byte.
pub fn at_the_border(rng: &mut Rng, run: &Run, mut event: Event) -> Event {
    let unforced = match run.judge(&event) {
        Ok(Plan::Row { site, effects, .. }) => {
            let cut = rng.below(effects.len() + 2);
            event[4] = cut as u8;
            run.unforced_after(site, &effects[..cut.min(effects.len())])
        }
        Ok(Plan::Crash { site, .. }) => run.logs[site as usize].unforced(),
        _ => 0,
    };
    let behind = (1u16 << unforced) as u8;
    event[5] = match rng.below(5) {
        0 => rng.byte(),
        1 | 2 => some_keep(rng, unforced),
        _ => some_keep(rng, unforced) | behind,
    };
    event
}

/// A malformed event, or one that is likely refused.
fn faulty_event(rng: &mut Rng, run: &Run, opens: &[Event], readers: &[Mask], style: &Style) -> Event {
    let mut event = good_event(rng, run, opens, readers, style);
    match rng.below(10) {
        0 => {
            event[rng.below(6)] = rng.byte();
        }
        1 => {
            let change = rng.pick(&[1, 255, 2, 8]);
            let at = rng.below(6);
            event[at] = event[at].wrapping_add(change);
        }
        2 => event = at_the_border(rng, run, event),
        3 => event = small_event(rng),
        4 => event = opens[rng.below(opens.len())],
        _ => {
            // Well formed, about a known transaction and mostly one of its sites.
            let open = opens[rng.below(opens.len())];
            let h = open[1];
            let members: Vec<u8> = each(open[2]).collect();
            let b = if rng.percent(90) { rng.pick(&members) } else { 1 + rng.below(8) as u8 };
            let site = if rng.percent(40) { COORDINATOR } else { b };
            event = match rng.below(14) {
                0 => [1, h, 0, 0, NO_CUT, 0],
                1..=3 => [2, h, b, rng.below(8) as u8, NO_CUT, 0],
                4 | 5 => [3, h, site, 0, NO_CUT, 0],
                6..=8 => [5, h, site, 0, NO_CUT, 0],
                9 => [4, 0, site, 0, NO_CUT, 0],
                10 => [6, 0, site, 0, NO_CUT, 0],
                11 => [7, 0, site, 0, NO_CUT, 0],
                _ => [8, h, b, 0, NO_CUT, 0],
            };
        }
    }
    event
}

/// Fields near their ranges.
pub fn small_event(rng: &mut Rng) -> Event {
    let code = rng.below(10) as u8;
    let x = if rng.percent(40) { 0 } else { rng.below(9) as u8 };
    let y = if code == 0 { rng.byte() } else { rng.below(10) as u8 };
    let z = match code {
        0 => y & rng.byte(),
        2 => rng.below(9) as u8,
        _ => rng.percent(10) as u8,
    };
    let cut = if rng.percent(70) { NO_CUT } else { rng.below(6) as u8 };
    let keep = if rng.percent(85) { 0 } else { rng.below(3) as u8 };
    [code, x, y, z, cut, keep]
}

pub fn wild_event(rng: &mut Rng) -> Event {
    if rng.percent(70) {
        return small_event(rng);
    }
    let mut event = [0; 6];
    for b in &mut event {
        *b = rng.byte();
    }
    event
}
