//! Lists of events that show the order of sends: for each transaction and each row of several sends a list for every cut
//! between two of them. At the end each message of the row is delivered, and 7 tells that it was not sent. What the timer
//! sends again was sent before: there no answer shows the order, the effects alone do.

use crate::codec::*;
use crate::joint::*;
use crate::random::Event;
use crate::step::Effect;

/// Who presumes commit of all eight members: every second one, every second pair, one half, nobody, and the others each.
const PRESUME_COMMIT: [Mask; 8] = [0x55, 0xAA, 0x33, 0xCC, 0x0F, 0xF0, 0, 255];

pub fn order_lists() -> Vec<Vec<Event>> {
    let mut lists = vec![];
    for presume_commit in PRESUME_COMMIT {
        for transaction in 0..TRANSACTIONS {
            for way in ways(transaction, presume_commit) {
                lists.extend(cut_between_sends(&way, transaction));
            }
        }
    }
    lists
}

/// Lists whose last event is a row of several sends, if the presumptions allow it.
fn ways(h: u8, presume_commit: Mask) -> Vec<Vec<Event>> {
    let opened = |h: u8| [[0, h, 255, presume_commit, NO_CUT, 0], [1, h, 0, 0, NO_CUT, 0]];
    let deliver = |b: u8, kind: u8| [2, h, b, kind, NO_CUT, 0];
    let all = |kind: u8| (1..=PARTICIPANTS).map(|b| deliver(b, kind)).collect::<Vec<Event>>();
    // the third in turn: where it is not told, the others still show the order
    let one = (h + 2) % PARTICIPANTS + 1;
    let votes = |of_one: &[Event]| {
        let others = (1..=PARTICIPANTS).filter(|&b| b != one).map(|b| deliver(b, YES));
        others.chain(of_one.iter().copied()).collect::<Vec<Event>>()
    };
    let mark = [8, h, one, 0, NO_CUT, 0];
    let timer = |site: u8| [3, h, site, 0, NO_CUT, 0];
    let begun = opened(h).to_vec();
    let prepared = [&begun[..], &all(PREPARE)].concat();
    let marked = [&[begun[0], mark, begun[1]][..], &all(PREPARE)].concat();
    let committing = [&prepared[..], &all(YES)].concat();
    let aborting = [&begun[..], &[timer(COORDINATOR)]].concat();
    // a restart goes through all transactions; the others were begun
    let begun_all: Vec<Event> = (0..TRANSACTIONS).flat_map(opened).collect();
    let down_with_commit = [2, h, one, YES, 2, 0];
    let restart = [7, 0, COORDINATOR, 0, NO_CUT, 0];
    let taken_out = [&[deliver(one, READ_ONLY)][..], &votes(&[])].concat();
    vec![
        begun.clone(),
        committing.clone(),
        [&marked[..], &taken_out].concat(),
        [&marked[..], &votes(&[deliver(one, READ_ONLY)])].concat(),
        [&begun[..], &[timer(one), deliver(one, PREPARE), deliver(one, NO)]].concat(),
        aborting.clone(),
        [&committing[..], &[timer(COORDINATOR)]].concat(),
        [&aborting[..], &[timer(COORDINATOR)]].concat(),
        [&begun_all[..], &all(PREPARE), &votes(&[down_with_commit, restart])].concat(),
        [&begun_all[..], &[[6, 0, COORDINATOR, 0, NO_CUT, 0], restart]].concat(),
    ]
}

/// The list with its last event cut between each two sends of the transaction.
fn cut_between_sends(way: &[Event], transaction: u8) -> Vec<Vec<Event>> {
    let mut run = Run::fresh();
    let (last, before) = way.split_last().expect("not empty");
    before.iter().for_each(|event| assert_eq!(run.event(event).number, 0, "{event:?}"));
    let Ok(Plan::Row { effects, .. }) = run.judge(last) else { return vec![] };
    let mut sent: Vec<Message> = effects.iter().filter_map(|&(_, effect)| message(effect)).collect();
    sent.sort_by_key(|message| message.number());
    let probes = sent.iter().map(|m| [2, m.transaction, m.participant, m.kind, NO_CUT, 0]);
    let between = |cut: &usize| {
        effects[cut - 1..=*cut].iter().all(|&(h, effect)| h == transaction && message(effect).is_some())
    };
    let places = (1..effects.len()).filter(between);
    let cut_there = |cut: usize| {
        let mut last = *last;
        last[4] = cut as u8;
        before.iter().copied().chain([last]).chain(probes.clone()).collect()
    };
    places.map(cut_there).collect()
}

fn message(effect: Effect) -> Option<Message> {
    match effect {
        Effect::Send(message) => Some(message),
        _ => None,
    }
}
