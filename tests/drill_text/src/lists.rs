//! Random lists of events that reach deep states at a low cost, so that they may be long. The reference model's own run
//! says what can happen next; what a list does is compared elsewhere.

use reference::codec::{each, Mask, Message, COORDINATOR, PARTICIPANTS, SITES};
use reference::joint::{Plan, Run, NO_CUT};
use reference::random::{
    at_the_border, leads_on, random_mask, small_event, some_keep, some_of, wild_event, with_cut, Event, Rng,
};
use reference::step::{CoordinatorPhase, Names};

/// What a list is made of. The weights are shares of the events that follow the protocol.
#[derive(Clone, Copy, Debug)]
pub struct Style {
    /// Transactions to open, and whether all members are of each.
    pub transactions: usize,
    pub all_members: bool,
    /// Are they opened over the whole list, or at once?
    pub spread: bool,
    pub deliver: usize,
    pub again: usize,
    pub timer: usize,
    pub force: usize,
    pub discard: usize,
    pub crash: usize,
    pub restart: usize,
    /// Weight of a mark, and of a hundred members how many are to be marked.
    pub mark: usize,
    pub reads: usize,
    /// Of a hundred events: cut, changed for the worse, any bytes.
    pub cut: usize,
    pub fault: usize,
    pub wild: usize,
}

pub const PLAIN: Style = Style {
    transactions: 8,
    all_members: false,
    spread: true,
    deliver: 60,
    again: 6,
    timer: 1,
    force: 2,
    discard: 4,
    crash: 1,
    restart: 12,
    mark: 20,
    reads: 20,
    cut: 2,
    fault: 0,
    wild: 0,
};

pub const STYLES: [Style; 15] = [
    PLAIN,
    Style { timer: 8, again: 20, crash: 4, mark: 4, reads: 10, ..PLAIN },
    Style { spread: false, discard: 3, ..PLAIN },
    // eight transactions of eight members; the second goes on slowly
    Style { spread: false, all_members: true, timer: 0, force: 0, discard: 2, mark: 4, reads: 10, cut: 1, ..PLAIN },
    Style { spread: false, all_members: true, deliver: 10, again: 10, crash: 3, restart: 6, cut: 8, ..PLAIN },
    // records stay unforced
    Style { spread: false, timer: 0, force: 0, discard: 0, again: 1, crash: 3, restart: 60, mark: 4, reads: 10, ..PLAIN },
    // logs are trimmed soon, and messages come late
    Style { again: 40, force: 15, discard: 60, ..PLAIN },
    // cuts and crashes
    Style { crash: 6, restart: 25, cut: 40, ..PLAIN },
    Style { transactions: 2, crash: 6, restart: 25, reads: 50, cut: 60, ..PLAIN },
    Style { spread: false, discard: 2, crash: 20, restart: 25, mark: 4, reads: 10, cut: 15, ..PLAIN },
    // many that only read: some early, all late
    Style { mark: 60, reads: 60, timer: 2, ..PLAIN },
    Style { mark: 5, reads: 100, again: 20, cut: 10, ..PLAIN },
    // refusals
    Style { transactions: 5, cut: 10, fault: 35, ..PLAIN },
    Style { transactions: 4, fault: 10, wild: 60, ..PLAIN },
    Style { transactions: 8, crash: 6, fault: 60, ..PLAIN },
];

/// A list of so many events.
pub fn list(rng: &mut Rng, style: &Style, length: usize) -> Vec<u8> {
    let opens = opens(rng, style);
    let mut readers = [0; 8];
    for open in &opens {
        readers[open[1] as usize] = some_of(rng, open[2], style.reads);
    }
    let pace = if style.spread { length / (style.transactions + 1) } else { 1 };
    let mut run = Run::fresh();
    let mut list = Vec::with_capacity(6 * length);
    for at in 0..length {
        let due = opens.get(run.transactions.iter().flatten().count()).filter(|_| at % pace.max(1) == 0);
        let event = if rng.percent(style.wild) {
            wild_event(rng)
        } else {
            match due {
                Some(&open) if run.judge(&open).is_ok() => open,
                _ => good_event(rng, &run, &readers, style),
            }
        };
        let event = if rng.percent(style.fault) { faulty(rng, &run, event) } else { event };
        run.event(&event);
        run.history.clear();
        list.extend(event);
    }
    list
}

fn opens(rng: &mut Rng, style: &Style) -> Vec<Event> {
    let first = rng.below(8);
    let pool = if rng.percent(50) { random_mask(rng, 3) } else { 255 };
    let one = |i: usize| {
        let size = 1 + rng.below(8);
        let members = match random_mask(rng, size) & pool {
            _ if style.all_members => 255,
            0 => pool,
            members => members,
        };
        let presume_commit = match rng.below(4) {
            0 => 0,
            1 => members,
            _ => members & rng.byte(),
        };
        [0, ((first + 3 * i) % 8) as u8, members, presume_commit, NO_CUT, 0]
    };
    (0..style.transactions).map(one).collect()
}

/// The place among the weights.
const DELIVER: usize = 1;

/// An event that the run accepts; `readers` are the members of each transaction that are to be marked.
fn good_event(rng: &mut Rng, run: &Run, readers: &[Mask; 8], style: &Style) -> Event {
    let Style { deliver, again, timer, force, discard, crash, restart, mark, .. } = *style;
    let weights = [20, deliver, again, timer, force, discard, crash, restart, mark];
    let total: usize = weights.iter().sum();
    for _ in 0..30 {
        let mut at = rng.below(total);
        let choice = weights.iter().position(|&weight| {
            let here = at < weight;
            at = at.wrapping_sub(weight);
            here
        });
        // a delivery that leads on is looked for longer
        let tries = if choice == Some(DELIVER) { 8 } else { 1 };
        let mut found = None;
        for _ in 0..tries {
            let event = proposed(rng, run, readers, choice.unwrap());
            found = event.and_then(|event| Some((event, run.judge(&event).ok()?))).or(found);
            if found.as_ref().is_some_and(|(_, plan)| leads_on(run, plan)) {
                break;
            }
        }
        let Some((event, plan)) = found else { continue };
        // long rows are cut more often
        let long = matches!(&plan, Plan::Row { effects, .. } if effects.len() >= 3);
        let cut = if long && style.cut > 0 { style.cut + 10 } else { style.cut };
        return if rng.percent(cut) { with_cut(rng, run, event) } else { event };
    }
    match (0..SITES).find(|&site| !run.up[site as usize]) {
        Some(site) => [7, 0, site, 0, NO_CUT, 0],
        None => [4, 0, rng.below(9) as u8, 0, NO_CUT, 0],
    }
}

/// An event of a kind, which the run may refuse.
fn proposed(rng: &mut Rng, run: &Run, readers: &[Mask; 8], choice: usize) -> Option<Event> {
    let opened = run.transactions.iter().flatten().count();
    let any = |rng: &mut Rng| run.transactions.iter().flatten().nth(rng.below(opened.max(1)));
    match choice {
        0 => {
            let t = any(rng)?;
            (t.coordinator.phase == CoordinatorPhase::Open).then_some([1, t.names.transaction, 0, 0, NO_CUT, 0])
        }
        1 | 2 => {
            let t = any(rng)?;
            let b = member(rng, t.names.members);
            let sent = |kind: u8| run.sent[Message { transaction: t.names.transaction, participant: b, kind }.number() as usize];
            let kind = (0..4).map(|_| rng.below(8) as u8).find(|&kind| sent(kind))?;
            Some([2, t.names.transaction, b, kind, NO_CUT, 0])
        }
        3 | 5 => {
            let t = any(rng)?;
            let site = if rng.percent(35) { COORDINATOR } else { member(rng, t.names.members) };
            Some([choice as u8, t.names.transaction, site, 0, NO_CUT, 0])
        }
        4 => Some([4, 0, some_site(rng), 0, NO_CUT, 0]),
        6 => {
            // rather where more would be lost
            let unforced = |site: u8| run.logs[site as usize].unforced();
            let site = [some_site(rng), some_site(rng)].into_iter().max_by_key(|&site| unforced(site)).unwrap();
            let unforced = unforced(site);
            Some([6, 0, site, 0, NO_CUT, some_keep(rng, unforced)])
        }
        7 => {
            let site = some_site(rng);
            (!run.up[site as usize]).then_some([7, 0, site, 0, NO_CUT, 0])
        }
        _ => {
            let t = any(rng)?;
            let Names { transaction, members, .. } = t.names;
            let wanted = readers[transaction as usize] & !t.marked;
            let of = if wanted != 0 && rng.percent(95) { wanted } else { members };
            rng.percent(if wanted != 0 { 100 } else { 5 }).then_some([8, transaction, member(rng, of), 0, NO_CUT, 0])
        }
    }
}

pub fn member(rng: &mut Rng, members: Mask) -> u8 {
    each(members).nth(rng.below(members.count_ones() as usize)).unwrap()
}

fn some_site(rng: &mut Rng) -> u8 {
    if rng.percent(30) {
        COORDINATOR
    } else {
        1 + rng.below(PARTICIPANTS as usize) as u8
    }
}

/// The event with a fault, or another one that is likely refused.
fn faulty(rng: &mut Rng, run: &Run, mut event: Event) -> Event {
    match rng.below(8) {
        0 => event[rng.below(6)] = rng.byte(),
        1 => {
            let at = rng.below(6);
            event[at] = event[at].wrapping_add(rng.pick(&[1, 255, 8, 128]));
        }
        2 | 3 => event = at_the_border(rng, run, event),
        4 => event = small_event(rng),
        _ => {
            // well formed, of an opened transaction mostly
            let opened = run.transactions.iter().flatten().nth(rng.below(8));
            let (h, members) = opened.map_or((rng.below(8) as u8, 255), |t| (t.names.transaction, t.names.members));
            let b = if rng.percent(80) { member(rng, members) } else { 1 + rng.below(8) as u8 };
            let site = if rng.percent(40) { COORDINATOR } else { b };
            event = match rng.below(9) as u8 {
                0 => [0, h, members, 0, NO_CUT, 0],
                1 => [1, h, 0, 0, NO_CUT, 0],
                2 => [2, h, b, rng.below(8) as u8, NO_CUT, 0],
                code @ (3 | 5) => [code, h, site, 0, NO_CUT, 0],
                8 => [8, h, b, 0, NO_CUT, 0],
                code => [code, 0, site, 0, NO_CUT, 0],
            };
            if rng.percent(15) {
                event[4] = rng.below(80) as u8;
            }
        }
    }
    event
}
