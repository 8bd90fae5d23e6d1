//! What Job 5 changes, by name: the order in which the coordinator sends to several participants. A cut between two sends
//! shows it where another order would have reached other participants. Tests ask that their lists meet each of it.

use crate::codec::*;
use crate::joint::*;
use crate::step::*;

/// The rows of several sends, whether there are participants among them that owe an ack, and whether there are others.
const ROWS: [(&str, bool, bool); 10] = [
    ("Prepare", false, true),
    ("Init and Prepare", false, true),
    ("Commit at the last Yes", true, true),
    ("Commit at a last read-only vote", true, true),
    ("Abort at a No", true, true),
    ("Abort at the timer", true, true),
    ("Commit again", true, false),
    ("Abort again", true, false),
    ("restart from Commit", true, true),
    ("restart from Init", true, true),
];

/// What a cut of a row shows.
#[derive(Clone, Copy)]
enum Shown {
    /// In which order those go that owe an ack.
    Owing,
    /// In which order the others go.
    Others,
    /// That those come first.
    OwingFirst,
}

fn name(row: usize, transaction: u8, shown: Shown) -> String {
    let (row, owing, _) = ROWS[row];
    let shown = match shown {
        Shown::Owing => "the order of those that owe an ack",
        Shown::Others if owing => "the order of the others",
        Shown::Others => "the order",
        Shown::OwingFirst => "that those come first which owe an ack",
    };
    format!("{row}, transaction {transaction}: {shown}")
}

/// All the names: each row has them for every transaction.
pub fn names() -> Vec<String> {
    let mut names = vec![];
    for (row, (_, owing, others)) in ROWS.into_iter().enumerate() {
        for transaction in 0..TRANSACTIONS {
            let shown = [(Shown::Owing, owing), (Shown::Others, others), (Shown::OwingFirst, owing && others)];
            let can = shown.into_iter().filter(|&(_, can)| can);
            names.extend(can.map(|(shown, _)| name(row, transaction, shown)));
        }
    }
    names
}

/// Orders that might be taken for the turn: the lowest first, one participant earlier, and down.
fn other_turns(transaction: u8) -> Vec<[u8; 8]> {
    let places = [0, 1, 2, 3, 4, 5, 6, 7];
    let lowest_first = places.map(|i| i + 1);
    let earlier = places.map(|i| (transaction + 7 + i) % 8 + 1);
    let down = places.map(|i| (transaction + 8 - i) % 8 + 1);
    // the turn of transaction 0 has the lowest first
    [lowest_first, earlier, down].into_iter().skip((transaction == 0) as usize).collect()
}

/// The first of one set and then of another, each in turn.
fn first(count: u32, turn: &[u8], sets: [Mask; 2]) -> Mask {
    let of = |set: Mask| turn.iter().copied().filter(move |&b| has(set, b));
    of(sets[0]).chain(of(sets[1])).take(count as usize).map(bit).sum()
}

/// What of it an event meets, given the run before it and what that judges.
pub fn met(run: &Run, event: &[u8], judged: &Result<Plan, u8>) -> Vec<String> {
    let Ok(Plan::Row { site: COORDINATOR, effects, cut: Some(cut), .. }) = judged else { return vec![] };
    let (before, behind) = effects.split_at(*cut);
    let (Some((h, Effect::Send(last))), Some((of, Effect::Send(next)))) = (before.last(), behind.first()) else {
        return vec![];
    };
    if h != of {
        return vec![];
    }
    let h = *h;
    let told = |(of, effect): &(u8, Effect)| match effect {
        Effect::Send(message) if *of == h => bit(message.participant),
        _ => 0,
    };
    let all: Mask = effects.iter().map(told).sum();
    let reached: Mask = before.iter().map(told).sum();
    let other = |turn: &[u8], sets: [Mask; 2]| first(reached.count_ones(), turn, sets) != reached;
    let t = run.transactions[h as usize].as_ref().expect("opened");
    let owing = match last.kind {
        COMMIT => all & t.names.owing(Outcome::Commit),
        ABORT => all & t.names.owing(Outcome::Abort),
        _ => 0,
    };
    let others = all & !owing;
    let row = row(event, t, last.kind);
    let mut found = vec![];
    let owes = has(owing, last.participant);
    if owes == has(owing, next.participant) && other_turns(h).iter().all(|turn| other(turn, [owing, others])) {
        found.push(name(row, h, if owes { Shown::Owing } else { Shown::Others }));
    }
    let (_, some_owe, some_do_not) = ROWS[row];
    let turn: Vec<u8> = in_turn(h, 255).collect();
    // all at once, and those last that owe an ack
    if some_owe && some_do_not && [[all, 0], [others, owing]].into_iter().all(|sets| other(&turn, sets)) {
        found.push(name(row, h, Shown::OwingFirst));
    }
    found
}

/// The place of a row of several sends, by the event and the kind of message.
fn row(event: &[u8], t: &Transaction, kind: u8) -> usize {
    let again = !matches!(t.coordinator.phase, CoordinatorPhase::Collecting(_));
    let name = match (event[0], kind) {
        (1, _) if t.names.presume_commit == 0 => "Prepare",
        (1, _) => "Init and Prepare",
        (7, COMMIT) => "restart from Commit",
        (7, _) => "restart from Init",
        (3, COMMIT) => "Commit again",
        (3, _) if again => "Abort again",
        (3, _) => "Abort at the timer",
        (_, ABORT) => "Abort at a No",
        _ if event[3] == READ_ONLY => "Commit at a last read-only vote",
        _ => "Commit at the last Yes",
    };
    ROWS.iter().position(|row| row.0 == name).expect("a row")
}

#[cfg(test)]
mod tests {
    use super::*;

    /// What a cut behind so many Prepares shows.
    fn shows(transaction: u8, members: Mask, count: u8) -> Vec<String> {
        let mut run = Run::fresh();
        run.event(&[0, transaction, members, 0, NO_CUT, 0]);
        let begin = [1, transaction, 0, 0, count, 0];
        met(&run, &begin, &run.judge(&begin))
    }

    #[test]
    fn a_cut_shows_the_order_or_not() {
        let name = "Prepare, transaction 2: the order".to_string();
        assert!(names().contains(&name));
        // 3 4 of 3 4 5 .. 2; the others: 1 2, 2 3, 3 2
        assert_eq!(shows(2, 255, 2), [name.as_str()]);
        // 3, and down is 3 too
        assert!(shows(2, 255, 1).is_empty());
        // before the first and behind the last send
        assert!(shows(2, 255, 0).is_empty() && shows(2, 255, 8).is_empty());
        // 5 6 8: the lowest first, and without 2 one earlier is the same
        assert!(shows(2, 0b1011_0000, 2).is_empty());
        assert!(shows(2, 0b1011_0001, 2).is_empty());
        // 5 1 2: 1 2, 2 5, 2 1 for 5 1
        assert_eq!(shows(2, 0b0001_0011, 2), [name]);
        // 1 2 of 1 .. 8; the others: 8 1, 1 8
        assert_eq!(shows(0, 255, 2), ["Prepare, transaction 0: the order"]);
    }
}
