//! What the drill prints, and a dump of the run's state.

use crate::codec::*;
use crate::joint::*;
use crate::totals::{totals, Totals};

/// The drill looks at the first 60,000 bytes and cuts them in sixes.
pub fn drill_events(input: &[u8]) -> std::slice::Chunks<'_, u8> {
    input[..input.len().min(60_000)].chunks(6)
}

/// The drill's output lines.
pub fn drill(input: &[u8]) -> Vec<String> {
    watched_drill(input, |_, _| {}).0
}

/// The drill's output lines and the run after it; `watch` gets each event with the run before it.
pub fn watched_drill(input: &[u8], mut watch: impl FnMut(&Run, &[u8])) -> (Vec<String>, Run) {
    let mut run = Run::fresh();
    let mut lines = Vec::new();
    for (i, event) in drill_events(input).enumerate() {
        watch(&run, event);
        let a = run.event(event);
        lines.push(format!("{} {} {} {} {}", i + 1, a.number, a.records, a.forces, a.sends));
    }
    lines.extend(run.handover_lines());
    lines.extend(run.site_lines());
    (lines, run)
}

impl Run {
    /// The dump: phases of each opened transaction, then each site's log.
    pub fn dump(&self) -> Vec<String> {
        let mut lines = Vec::new();
        for t in self.transactions.iter().flatten() {
            let h = t.names.transaction;
            lines.push(format!("H {} {} {}", h, t.coordinator.phase.number(), t.coordinator.phase.waiting()));
            let mut line = format!("B {h}");
            for b in 1..=PARTICIPANTS {
                if has(t.names.members, b) {
                    line += &format!(" {}", t.participants[b as usize - 1] as u8);
                } else {
                    line += " .";
                }
            }
            lines.push(line);
        }
        for (site, log) in self.logs.iter().enumerate() {
            let mut line = format!("L {} {}:", site, log.stable);
            for record in &log.records {
                let bytes: Vec<String> = record.bytes().iter().map(|b| b.to_string()).collect();
                line += " ";
                line += &bytes.join(",");
            }
            lines.push(line);
        }
        lines
    }

    pub fn handover_lines(&self) -> Vec<String> {
        let letter = |e: &Entries| match (e.commit, e.abort) {
            (true, true) => 'X',
            (true, false) => 'C',
            (false, true) => 'A',
            (false, false) => '-',
        };
        let line = |t: &Transaction| {
            let letters: String = t.entries.iter().map(letter).collect();
            format!("HANDOVER {} {}", t.names.transaction, letters)
        };
        self.transactions.iter().flatten().map(line).collect()
    }

    /// Forces, transactions, quotient and remainder of the sites 0 to 8.
    pub fn site_lines(&self) -> Vec<String> {
        let line = |of: Totals| of.numbers().map(|number| number.to_string()).join(" ");
        totals(&self.history).map(line).to_vec()
    }
}
