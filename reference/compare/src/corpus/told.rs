//! The first cases of every corpus: what the specification itself tells of
//! words, rooms, pairs and workspaces at the limits. What it tells stands here,
//! and the second implementation, which works out the rest of each case, has to
//! agree with it.

use super::case::{Asked, Case, Written};
use crate::returned::refused;
use crate::stand_in::LIBRARY;
use reference::{Reason, LONGEST_NORMAL_FORM};

const P2: &[u8] = &[0x02];
const P5: &[u8] = &[0x03, 0x02, 0x04];
const P10: &[u8] = &[0x02, 0x05, 0x02, 0x04, 0x0A, 0x04];
const MATCH_TABLE: usize = 32_768;

pub fn told() -> Vec<Case> {
    let steps = |times| [vec![0x02], [0x02, 0x04].repeat(times)].concat();
    let inverses = |times| [vec![0x01], vec![0x08; times]].concat();
    vec![
        // "256 bytes 01 give 6 at 256, 257 give 4 at 256."
        refusing(vec![0x01; 256], Reason::NotOneOperand, 256),
        refusing(vec![0x01; 257], Reason::TooManyPending, 256),
        // "02 and then 254 times 02 04 is accepted (255 steps); once more 02 04
        // gives 5 at 509." The first is a normal form.
        normal(steps(254), &steps(254)),
        refusing(steps(255), Reason::TooManySteps, 509),
        // 4,096 bytes are read, 4,097 are not.
        normal(inverses(4_095), &[0x01]),
        refusing(inverses(4_096), Reason::WordTooLong, 4_096),
        // "P2's image into 6 bytes: 7, needing 7; into 7: written."
        image(6, refused(Reason::RoomTooShort, 7), &[]),
        image(7, 7, &[0x02, 0x00, 0x01, 0x01, 0x00, 0x02, 0x00]),
        // "On the table parents 0 0 0, labels 9 1 2: P5 takes (1,2) and (1,1);
        // P10 takes (0,1) and not (0,2)." It has no node 3.
        asking(P5, (1, 2), MATCH_TABLE, 1),
        asking(P5, (1, 1), MATCH_TABLE, 1),
        asking(P10, (0, 1), MATCH_TABLE, 1),
        asking(P10, (0, 2), MATCH_TABLE, 0),
        asking(P10, (0, 3), MATCH_TABLE, refused(Reason::NoSuchNode, 0)),
        // "the workspace has under 32,768 bytes"
        asking(
            P5,
            (1, 2),
            MATCH_TABLE - 1,
            refused(Reason::WorkspaceTooShort, MATCH_TABLE),
        ),
    ]
}

/// A word that all three writers refuse.
fn refusing(word: Vec<u8>, reason: Reason, place: usize) -> Case {
    let case = case(word, [LONGEST_NORMAL_FORM; 3], Vec::new());
    for written in &case.written {
        assert_eq!(written.result, refused(reason, place));
    }
    case
}

/// A word and its normal form, in a room of that length.
fn normal(word: Vec<u8>, form: &[u8]) -> Case {
    let rooms = [LONGEST_NORMAL_FORM, LONGEST_NORMAL_FORM, form.len()];
    let case = case(word, rooms, Vec::new());
    assert_eq!(case.written[2].answer, form);
    case
}

/// The minimal image of P2 into a room.
fn image(room: usize, result: u64, answer: &[u8]) -> Case {
    let rooms = [LONGEST_NORMAL_FORM, room, LONGEST_NORMAL_FORM];
    let case = case(P2.to_vec(), rooms, Vec::new());
    assert_eq!(case.written[1].result, result);
    assert_eq!(case.written[1].answer, answer);
    case
}

/// A pair on the table of three nodes.
fn asking(word: &[u8], (m, n): (u64, u64), workspace: usize, result: u64) -> Case {
    let asked = Asked {
        parents: vec![0, 0, 0],
        labels: vec![9, 1, 2],
        m,
        n,
        workspace,
        result: 0,
        checksum: 0,
    };
    let case = case(word.to_vec(), [LONGEST_NORMAL_FORM; 3], vec![asked]);
    assert_eq!(case.asked[0].result, result);
    case
}

fn case(word: Vec<u8>, rooms: [usize; 3], asked: Vec<Asked>) -> Case {
    let unanswered = Case {
        word,
        written: rooms.map(|room| Written {
            room,
            result: 0,
            answer: Vec::new(),
            rest_kept: true,
        }),
        asked,
    };
    unanswered.by(&LIBRARY)
}
