//! Restart: what a site does for one transaction, from its stable records of it.

use crate::codec::*;
use crate::step::*;

/// Restart of the coordinator for one transaction, from its stable records of it; their masks decide.
pub fn coordinator_restart(transaction: u8, records: &[LogRecord]) -> (CoordinatorPhase, Vec<Effect>) {
    let mut init = None;
    let mut commit = None;
    let mut commit_end = false;
    let mut abort_end = false;
    for record in records {
        match *record {
            LogRecord::Init { members, presume_commit, .. } => {
                init = Some(Names { transaction, members, presume_commit })
            }
            LogRecord::Commit { members, presume_commit, .. } => {
                commit = Some(Names { transaction, members, presume_commit })
            }
            LogRecord::CommitEnd { .. } => commit_end = true,
            LogRecord::AbortEnd { .. } => abort_end = true,
            _ => {}
        }
    }
    if let (Some(names), false) = (commit, commit_end) {
        let mut row = vec![Effect::Enter(Outcome::Commit)];
        let acks = names.presume_abort();
        if acks == 0 {
            return (CoordinatorPhase::Unknown, row);
        }
        row.extend(names.outcomes(Outcome::Commit, names.members));
        return (CoordinatorPhase::Committing(acks), row);
    }
    if let (Some(names), None, false) = (init, commit, abort_end) {
        let mut row = vec![Effect::Enter(Outcome::Abort)];
        row.extend(names.outcomes(Outcome::Abort, names.members));
        return (CoordinatorPhase::Aborting(names.presume_commit), row);
    }
    (CoordinatorPhase::Unknown, vec![])
}

/// Restart of a participant for one transaction, from its stable records of it.
pub fn participant_restart(
    transaction: u8,
    participant: u8,
    records: &[LogRecord],
) -> (ParticipantPhase, Vec<Effect>) {
    let holds = |kind| records.iter().any(|r| r.kind() == kind);
    if holds(6) {
        (ParticipantPhase::Committed, vec![Effect::Enter(Outcome::Commit)])
    } else if holds(7) {
        (ParticipantPhase::Aborted, vec![Effect::Enter(Outcome::Abort)])
    } else if holds(5) {
        let yes = Message { transaction, participant, kind: YES };
        (ParticipantPhase::Prepared, vec![Effect::Send(yes)])
    } else {
        (ParticipantPhase::Unknown, vec![])
    }
}

#[cfg(test)]
mod tests {
    use super::*;

    const H: u8 = 3;

    /// Init has the masks as opened: two members more, one of each presumption.
    fn coordinator(kinds: &[u8], members: Mask, presume_commit: Mask) -> (CoordinatorPhase, String) {
        let record = |&kind: &u8| match kind {
            1 => LogRecord::Init { transaction: H, members: members | 24, presume_commit: presume_commit | 8 },
            2 => LogRecord::Commit { transaction: H, members, presume_commit },
            3 => LogRecord::CommitEnd { transaction: H },
            _ => LogRecord::AbortEnd { transaction: H },
        };
        let records: Vec<LogRecord> = kinds.iter().map(record).collect();
        let (phase, row) = coordinator_restart(H, &records);
        (phase, show(&row))
    }

    fn show(row: &[Effect]) -> String {
        let one = |e: &Effect| match e {
            Effect::Append(r) => format!("a{}", r.kind()),
            Effect::Force => "f".to_string(),
            Effect::Enter(Outcome::Commit) => "eC".to_string(),
            Effect::Enter(Outcome::Abort) => "eA".to_string(),
            Effect::Send(m) => format!("s{}:{}", m.participant, m.kind),
        };
        row.iter().map(one).collect::<Vec<String>>().join(" ")
    }

    /// Restart by the kinds of record in the log.
    #[test]
    fn restart_table() {
        use CoordinatorPhase::*;
        for kinds in [&[][..], &[3], &[2, 3], &[1, 2, 3], &[4], &[1, 4]] {
            assert_eq!(coordinator(kinds, 7, 2), (Unknown, String::new()));
        }
        assert_eq!(coordinator(&[1], 7, 2), (Aborting(10), "eA s4:4 s2:4 s5:4 s1:4 s3:4".to_string()));
        for kinds in [&[2][..], &[1, 2]] {
            assert_eq!(coordinator(kinds, 7, 1), (Committing(6), "eC s2:3 s3:3 s1:3".to_string()));
            assert_eq!(coordinator(kinds, 7, 7), (Unknown, "eC".to_string()));
        }
        let participant = |records: &[LogRecord]| {
            let (phase, row) = participant_restart(H, 4, records);
            (phase, show(&row))
        };
        let vote = LogRecord::Prepared { transaction: H, presumption: 1 };
        let (c, a) = (LogRecord::Committed { transaction: H }, LogRecord::Aborted { transaction: H });
        assert_eq!(participant(&[]), (ParticipantPhase::Unknown, String::new()));
        assert_eq!(participant(&[vote]), (ParticipantPhase::Prepared, "s4:1".to_string()));
        for records in [&[c][..], &[vote, c]] {
            assert_eq!(participant(records), (ParticipantPhase::Committed, "eC".to_string()));
        }
        for records in [&[a][..], &[vote, a]] {
            assert_eq!(participant(records), (ParticipantPhase::Aborted, "eA".to_string()));
        }
    }
}
