//! Lent states with queued sends.

use crate::lent::{answer, refuses, sample, LEFT};
use cards::build::*;
use cards::{Card, Outcome};
use reference::layout::*;
use reference::record::*;
use reference::{fault, Fault};

/// The sample with a write of two pieces and an inline send queued on pair 0, and the turn place 1. The places of the rings hold something else
/// where nothing is queued.
fn queued_sample(card: &dyn Card) -> Vec<u8> {
    let mut state = sample(card);
    state[KIND_ROWS..].fill(LEFT);
    for record in [two_pieces(), Send::new(12, SEND).inline(&[5; 3]).bytes()] {
        assert_eq!(card.enqueue(&mut state, &[LEFT; 4096], 0, &record), answer(0));
    }
    state[TURN] = 1;
    state
}

/// A write from one end of the region to the other.
fn two_pieces() -> Vec<u8> {
    let send = Send::new(11, WRITE).piece(1 << 32, 2, 1).piece((1 << 32) + 2, 3, 1).remote((1 << 32) + 100, 257);
    let mut record = send.immediate(0x0102_0304).bytes();
    record[28..48].fill(0x77);
    record[564..576].fill(0x88);
    record
}

fn served(qpn: u8, status: u8) -> Outcome {
    Outcome { served: qpn, ..Outcome::ended(status) }
}

/// An enqueue writes the record as it was lent, its kind and one more in the head; a turn that writes no completion the head and the place; and
/// no other byte.
pub fn a_queue_is_written_byte_for_byte(card: &dyn Card) {
    let good = queued_sample(card);
    let full = Send::new(13, READ).piece(1, 2, 3).piece(4, 5, 6).piece(7, 8, 9).piece(10, 11, 12).flags(7).bytes();
    let inline = Send::new(13, SEND).inline(&[1; 512]).flags(7).bytes();
    for (record, kind) in [(&two_pieces(), [0, 0, 2, 0]), (&full, [4, 7, 4, 0]), (&inline, [2, 15, 0, 2])] {
        for first in 0..8 {
            let mut state = good.clone();
            state[sends_row(0) + SENDS_FIRST] = first;
            let mut wanted = state.clone();
            for place in 0..2 {
                // the queued ones stand wherever the ring begins
                let at = kind_row(0, usize::from(first) + place);
                state[at..at + KIND_ROW].copy_from_slice(&[0; 4]);
                wanted[at..at + KIND_ROW].copy_from_slice(&[0; 4]);
            }
            assert_eq!(card.enqueue(&mut state, &[LEFT; 4096], 0, record), answer(0));
            let place = usize::from(first) + 2;
            wanted[sends_row(0) + SENDS_COUNT] = 3;
            wanted[kind_row(0, place)..][..KIND_ROW].copy_from_slice(&kind);
            wanted[record_row(0, place)..][..record.len()].copy_from_slice(record);
            assert!(state == wanted, "first place {first}");
        }
    }
    for first in 0..8 {
        let mut state = good.clone();
        state[pair_row(0) + PAIR_SIGNAL] = 1;
        let (kind, record) = (kind_row(0, first.into()), record_row(0, first.into()));
        state.copy_within(kind_row(0, 0)..kind_row(0, 1), kind);
        state.copy_within(record_row(0, 0)..record_row(0, 1), record);
        state[sends_row(0) + SENDS_FIRST] = first;
        let next = kind_row(0, usize::from(first) + 1);
        state[next..next + KIND_ROW].fill(0);
        let mut wanted = state.clone();
        assert_eq!(card.turn(&mut state, &mut [LEFT; 4096]), served(0, 0));
        wanted[sends_row(0) + SENDS_FIRST] = (first + 1) % 8;
        wanted[sends_row(0) + SENDS_COUNT] = 1;
        wanted[TURN] = 1;
        assert!(state == wanted, "first place {first}");
    }
}

/// A turn that fails writes its completion and the pair's row too; a creation and a move to 0 write the head, a destruction leaves the rows.
pub fn what_drops_a_queue_writes_its_head(card: &dyn Card) {
    let mut good = queued_sample(card);
    good[sends_row(0) + SENDS_FIRST] = 6;
    for place in [6, 7] {
        good[kind_row(0, place)..][..KIND_ROW].fill(0);
    }
    good[pair_row(0) + PAIR_STATE] = ERROR;
    let mut state = good.clone();
    let mut wanted = good.clone();
    assert_eq!(card.turn(&mut state, &mut [LEFT; 4096]), served(0, 4));
    let wr_id = get64(&good, record_row(0, 6));
    Completion { wr_id, status: 4, opcode: 1, length: 0, immediate: 0, owner: 0 }.write(&mut wanted, completion_row(0, 1));
    wanted[queue_row(0) + QUEUE_COUNT] += 1;
    wanted[sends_row(0)..][..2].copy_from_slice(&[7, 1]);
    assert!(state == wanted);
    let control = |state: &mut [u8], command: Vec<u8>| assert_eq!(card.control(state, &command, &mut [0; 13]), answer(0));
    let mut state = good.clone();
    control(&mut state, move_to(0, RESET));
    assert_eq!((state[sends_row(0) + SENDS_FIRST], state[sends_row(0) + SENDS_COUNT]), (6, 0));
    assert!(state[KIND_ROWS..] == good[KIND_ROWS..]);
    let mut state = good.clone();
    control(&mut state, destroy_pair(0));
    assert!(state[SENDS_ROWS..] == good[SENDS_ROWS..]);
    state[sends_row(0)..][..2].fill(255);
    control(&mut state, create_pair(0, 2, 0, 0, 0));
    assert_eq!((state[sends_row(0) + SENDS_FIRST], state[sends_row(0) + SENDS_COUNT]), (0, 0));
    assert!(state[KIND_ROWS..] == good[KIND_ROWS..] && state[TURN] == 1);
}

/// A fault of a queue or of the turn place, and the bytes of the sample that make it.
pub(crate) const QUEUE_FAULTS: [(Fault, usize, &[u8]); 26] = [
    (Fault::TurnPlace, TURN, &[8]),
    (Fault::TurnPlace, TURN, &[9]),
    (Fault::TurnPlace, TURN, &[255]),
    (Fault::SendsFirst, sends_row(0) + SENDS_FIRST, &[8]),
    (Fault::SendsFirst, sends_row(1) + SENDS_FIRST, &[8]),
    (Fault::SendsFirst, sends_row(1) + SENDS_FIRST, &[255]),
    (Fault::SendsCount, sends_row(0) + SENDS_COUNT, &[9]),
    (Fault::SendsCount, sends_row(0) + SENDS_COUNT, &[255]),
    (Fault::SendsState, pair_row(0) + PAIR_STATE, &[0]),
    (Fault::SendsState, pair_row(0) + PAIR_STATE, &[1]),
    (Fault::SendsState, pair_row(0) + PAIR_STATE, &[2]),
    (Fault::QueuedOpcode, kind_row(0, 0) + KIND_OPCODE, &[5]),
    (Fault::QueuedOpcode, kind_row(0, 1) + KIND_OPCODE, &[255]),
    (Fault::QueuedFlags, kind_row(0, 0) + KIND_FLAGS, &[16]),
    (Fault::QueuedFlags, kind_row(0, 0) + KIND_FLAGS, &[128]),
    (Fault::QueuedFlags, kind_row(0, 1) + KIND_FLAGS, &[24]),
    (Fault::QueuedInlineRead, kind_row(0, 1) + KIND_OPCODE, &[4]),
    (Fault::QueuedInlineRead, kind_row(0, 0) + KIND_OPCODE, &[4, 8]),
    (Fault::QueuedInlineLength, kind_row(0, 1) + KIND_COUNT, &[1, 2]),
    (Fault::QueuedInlineLength, kind_row(0, 1) + KIND_COUNT, &[255, 255]),
    (Fault::QueuedInlineLength, kind_row(0, 0) + KIND_FLAGS, &[8, 1, 2]),
    (Fault::QueuedPieces, kind_row(0, 0) + KIND_COUNT, &[5]),
    (Fault::QueuedPieces, kind_row(0, 0) + KIND_COUNT, &[0, 1]),
    (Fault::QueuedPieces, kind_row(0, 0) + KIND_COUNT, &[0, 2]),
    (Fault::QueuedPieces, kind_row(0, 1) + KIND_FLAGS, &[7, 5, 0]),
    (Fault::QueuedOpcode, sends_row(0) + SENDS_COUNT, &[3]),
];

/// 15 for each of them, wherever the ring begins, in error too; each of the eight places is looked at, and what post send takes passes.
pub fn each_fault_of_a_queue_is_found(card: &dyn Card) {
    let good = queued_sample(card);
    for (why, at, bytes) in QUEUE_FAULTS {
        let mut state = good.clone();
        state[at..at + bytes.len()].copy_from_slice(bytes);
        refuses(card, &state, why);
    }
    for kind in [[0, 0, 0, 0], [4, 7, 4, 0], [3, 15, 0, 2], [0, 8, 0, 0], [1, 8, 255, 1]] {
        let mut state = good.clone();
        state[kind_row(0, 1)..][..KIND_ROW].copy_from_slice(&kind);
        takes(card, &state);
    }
    let mut full = good.clone();
    full[kind_row(0, 0)..kind_row(1, 0)].fill(0);
    full[sends_row(0) + SENDS_COUNT] = 8;
    for (first, phase) in [(0, READY_TO_SEND), (5, ERROR), (7, READY_TO_SEND)] {
        full[sends_row(0) + SENDS_FIRST] = first;
        full[pair_row(0) + PAIR_STATE] = phase;
        takes(card, &full);
        full[sends_row(0) + SENDS_COUNT] = 9;
        refuses(card, &full, Fault::SendsCount);
        full[sends_row(0) + SENDS_COUNT] = 8;
        for place in 0..8 {
            let mut state = full.clone();
            state[kind_row(0, place) + KIND_OPCODE] = 5;
            refuses(card, &state, Fault::QueuedOpcode);
        }
    }
}

/// A turn is not refused for the state.
fn takes(card: &dyn Card, state: &[u8]) {
    assert_eq!(fault(state), None);
    assert_ne!(card.turn(&mut state.to_vec(), &mut [0; 4096]).answer, 15, "{}", card.name());
}

/// Nor are the places that hold nothing, the rows of a pair that is not live, the kind's bytes in a record, and the header's last bytes.
pub fn empty_places_are_not_looked_at(card: &dyn Card) {
    let good = queued_sample(card);
    takes(card, &good);
    for first in 0..8u8 {
        let mut state = good.clone();
        state[sends_row(0)..][..2].copy_from_slice(&[first, 3]);
        state[kind_row(0, 0)..kind_row(1, 0)].fill(255);
        for k in 0..3 {
            state[kind_row(0, usize::from(first) + k)..][..KIND_ROW].copy_from_slice(&[4, 7, 4, 0]);
        }
        takes(card, &state);
        state[sends_row(0) + SENDS_COUNT] = 4;
        refuses(card, &state, Fault::QueuedOpcode);
        state[sends_row(0) + SENDS_COUNT] = 0;
        for phase in [RESET, INIT, READY_TO_RECEIVE, READY_TO_SEND, ERROR] {
            state[pair_row(0) + PAIR_STATE] = phase;
            takes(card, &state);
        }
    }
    let mut state = good.clone();
    state[HEADER_UNUSED..DOMAIN_FLAGS].fill(255);
    for n in 2..8 {
        state[sends_row(n)..][..2].fill(255);
        state[kind_row(n, 0)..][..MOST_QUEUED * KIND_ROW].fill(255);
    }
    state[RECORD_ROWS..].fill(255);
    takes(card, &state);
    for turn in 0..8 {
        state[TURN] = turn;
        takes(card, &state);
    }
}

/// Opcode, flags and count are those of the kind; all else is the record's.
pub fn a_queued_record_is_read_by_its_kind(card: &dyn Card) {
    let good = queued_sample(card);
    let turned = |state: &[u8]| {
        let (mut state, mut memory) = (state.to_vec(), (0..4096).map(|n| (n % 251) as u8).collect::<Vec<u8>>());
        let outcome = card.turn(&mut state, &mut memory);
        (outcome, state[..RECORD_ROWS].to_vec(), memory)
    };
    let wanted = turned(&good);
    assert_eq!(wanted.0, served(0, 0));
    assert_eq!(wanted.2[100..106], [0, 1, 2, 3, 4, 105]);
    let mut state = good.clone();
    for at in [OPCODE_AT, FLAGS_AT, COUNT_AT, COUNT_AT + 1, COUNT_AT + 2, COUNT_AT + 3] {
        state[record_row(0, 0) + at] = 255;
    }
    assert!(turned(&state) == wanted);
    // one piece, a read, and inline bytes by the kind alone
    for (kind, bytes) in [([0, 0, 1, 0], [0, 1, 102, 103, 104]), ([4, 0, 2, 0], [100; 5]), ([0, 8, 3, 0], [0, 0, 0, 103, 104])] {
        let mut state = good.clone();
        state[kind_row(0, 0)..][..KIND_ROW].copy_from_slice(&kind);
        let (outcome, _, memory) = turned(&state);
        assert_eq!(outcome, served(0, 0));
        if kind[0] == 4 {
            assert_eq!((&memory[..5], &memory[100..105]), (&[100, 101, 102, 103, 104][..], &[100, 101, 102, 103, 104][..]));
        } else {
            assert_eq!(memory[100..105], bytes);
        }
    }
}

/// Acceptable states that no call leaves: a queue of a pair without destination is held in state 3 and flushed in state 6, and any place is
/// where the visit starts.
pub fn forged_queues_are_served(card: &dyn Card) {
    let mut good = queued_sample(card);
    good[kind_row(1, 0)..][..KIND_ROW].fill(0);
    good[sends_row(1) + SENDS_COUNT] = 1;
    for (destination, phase, first) in [(8, 3, 1), (8, 6, 0), (7, 3, 1), (7, 6, 0)] {
        let mut state = good.clone();
        state[TURN] = 0;
        state[pair_row(0) + PAIR_DESTINATION] = destination;
        state[pair_row(0) + PAIR_STATE] = phase;
        state[pair_row(1) + PAIR_STATE] = ERROR;
        assert_eq!(card.turn(&mut state, &mut [0; 4096]), served(first, 4), "destination {destination}, state {phase}");
        assert_eq!(state[TURN], first + 1);
    }
    for turn in 0..8 {
        let mut state = good.clone();
        state[TURN] = turn;
        state[pair_row(0) + PAIR_STATE] = ERROR;
        state[pair_row(1) + PAIR_STATE] = ERROR;
        let first = u8::from(turn == 1);
        assert_eq!(card.turn(&mut state, &mut [0; 4096]), served(first, 4), "place {turn}");
        assert_eq!(card.turn(&mut state, &mut [0; 4096]), served(1 - first, 4), "place {turn}");
    }
}

/// The length of the lent memory is that of the reset, for both calls; an enqueue looks at nothing else of it.
pub fn queues_need_the_reset_length(card: &dyn Card) {
    let good = queued_sample(card);
    for length in [0, 1, 4095, 4096, 4097, 8192] {
        for (record, qpn, wanted) in [(two_pieces(), 0, 0), (vec![], 0, 1), (two_pieces(), 9, 2)] {
            let mut state = good.clone();
            let outcome = card.enqueue(&mut state, &vec![LEFT; length], qpn, &record);
            assert_eq!(outcome, answer(if length == 4096 { wanted } else { 7 }));
            assert_eq!(state == good, outcome.answer != 0);
        }
        let (mut state, mut memory) = (good.clone(), vec![LEFT; length]);
        let outcome = card.turn(&mut state, &mut memory);
        assert_eq!(outcome, if length == 4096 { served(0, 0) } else { answer(7) });
        assert!(memory == vec![LEFT; length] && (state == good) == (length != 4096));
    }
    // each length of the reset, with one byte fewer and one more
    for length in [1, 2, 4096] {
        let mut state = vec![LEFT; STATE_BYTES];
        assert_eq!(card.reset(&mut state, length), answer(0));
        for lent in length.saturating_sub(1)..=length + 1 {
            let memory = &mut vec![LEFT; lent as usize][..];
            assert_eq!(card.turn(&mut state, memory), answer(if lent == length { 9 } else { 7 }));
            assert_eq!(card.enqueue(&mut state, memory, 0, &two_pieces()), answer(if lent == length { 2 } else { 7 }));
        }
    }
}
