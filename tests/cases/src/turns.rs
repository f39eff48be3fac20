//! Sends in queues and the turns that run them: the tests of both calls, the order of the queues, held heads, heads that fail.

use crate::script::*;
use cards::build::*;
use reference::record::*;

pub fn cases() -> Vec<Case> {
    [enqueues(), orders(), visits(), held(), all_held(), failures(), direct()].into_iter().flatten().collect()
}

/// Eight pairs of one domain, each with a completion queue of its own and joined with its neighbour; one region with all rights.
pub(crate) fn eight(places: u32, signal: u8) -> Script {
    let mut script = Script::new();
    script.create(create_domain(), 0).register(0, 7, 0, REGION.into(), A_VIRT, A_KEY);
    for n in 0..8 {
        script.create(create_queue(places), n).create(create_pair(0, 2, signal, n, n), n);
    }
    for n in [0, 2, 4, 6] {
        script.join_pairs(n, n + 1);
    }
    script
}

/// A write of four bytes over itself, with the number that its completion has.
pub(crate) fn write(wr_id: u64) -> Send {
    Send::new(wr_id, WRITE).piece(A_VIRT, 4, A_KEY).remote(A_VIRT, A_KEY)
}

/// A send of no bytes, which takes a receive.
pub(crate) fn send(wr_id: u64) -> Send {
    Send::new(wr_id, SEND)
}

/// The five bad fields of a send record.
fn bad_fields() -> [Vec<u8>; 5] {
    let count_5 = {
        let mut record = write(1).bytes();
        record[COUNT_AT] = 5;
        record
    };
    [
        Send { opcode: 5, ..write(1) }.bytes(),
        write(1).flags(16).bytes(),
        Send::new(1, READ).inline(&[1]).bytes(),
        Send::new(1, WRITE).inline(&[1; 513]).bytes(),
        count_5,
    ]
}

fn resized(record: &[u8], length: usize) -> Vec<u8> {
    let mut record = record.to_vec();
    record.resize(length, 0);
    record
}

fn enqueues() -> Vec<Case> {
    let mut states = Script::joined();
    states.create(create_pair(0, 2, 0, 0, 0), 2).enqueue(2, write(1), 3).done(move_to(2, 1)).enqueue(2, write(1), 3);
    states.done(join(2, 1)).enqueue(2, write(1), 3).done(move_to(2, 3)).enqueue(2, write(1), 0).done(move_to(2, 6));
    states.enqueue(2, write(2), 0).done(move_to(2, 0)).enqueue(2, write(3), 3).turn_refused(9).poll_empty(0);
    for qpn in [3, 7, 8, 9, 255] {
        states.enqueue(qpn, write(1), 2);
    }
    let mut full = eight(16, 0);
    // the second round begins at another place of each ring
    for _ in 0..2 {
        full.done(move_to(4, 6));
        for wr_id in 0..8 {
            full.enqueue(2, write(wr_id), 0).enqueue(4, write(10 + wr_id), 0);
        }
        full.enqueue(2, write(8), 8).enqueue(4, write(8), 8).enqueue(3, write(20), 0).enqueue(2, send(8), 8);
        full.turn(2, 0).enqueue(2, write(8), 0).enqueue(2, write(9), 8).enqueue(4, write(18), 8).turn(3, 0).turn(4, 4);
        full.enqueue(4, write(18), 0).enqueue(4, write(19), 8);
        full.done(move_to(2, 0)).done(move_to(3, 0)).done(move_to(4, 0)).join_pairs(2, 3).ready(4, 5);
        full.poll(2, 0, 0, 1, 4, 2).poll(3, 20, 0, 1, 4, 3).poll(4, 10, 4, 1, 0, 4);
        for n in [2, 3, 4] {
            full.poll_empty(n);
        }
    }
    vec![
        states.named("enqueue-in-states-3-and-6"),
        full.named("enqueue-ninth-is-8"),
        first_of_two_faults(),
        looks_at_nothing_else(),
    ]
}

/// Each fault with each one that is tested later: 7, 1, 4, 1, 2, 3, 8; the queue is full in state 3 and in state 6.
fn first_of_two_faults() -> Case {
    let mut script = eight(16, 0);
    script.done(move_to(1, 0)).done(move_to(5, 6)).done(destroy_pair(7));
    for wr_id in 0..8 {
        script.enqueue(2, write(wr_id), 0).enqueue(5, write(wr_id), 0);
    }
    let (not_live, in_reset, full, full_in_error, free) = (7, 1, 2, 5, 3);
    let good = write(1).bytes();
    let pairs = [(not_live, 2), (8, 2), (in_reset, 3), (full, 8), (full_in_error, 8), (free, 0)];
    // the record's own faults, each with every pair behind it
    let mut records = vec![(resized(&good, 575), 1), (vec![], 1), (resized(&good, 591), 1), (resized(&good, 593), 1)];
    records.push((resized(&Send::new(1, WRITE).inline(&[1]).bytes(), 592), 1));
    for record in bad_fields() {
        records.push((resized(&record, 575), 1));
        records.push((resized(&record, record.len() + 1), 4));
        records.push((record, 4));
    }
    for (record, answer) in &records {
        for (qpn, _) in pairs {
            script.enqueue_bytes(qpn, record.clone(), *answer);
        }
    }
    for (qpn, answer) in pairs.into_iter().filter(|(qpn, _)| *qpn != free) {
        script.enqueue_bytes(qpn, good.clone(), answer);
    }
    // and the memory's length before all of them
    for (qpn, _) in pairs {
        for memory in [0, 1, 4095, 4097] {
            script.enqueue_lent(qpn, good.clone(), memory, 7);
        }
        for (record, _) in &records {
            script.enqueue_lent(qpn, record.clone(), 4095, 7);
        }
    }
    script.enqueue_bytes(free, good, 0).turn(2, 0).turn(3, 0).turn(5, 4);
    script.named("enqueue-first-of-two-faults")
}

/// Neither the peer nor places, keys, lengths or receives: a send that could not run is queued, puts nothing and moves nothing.
fn looks_at_nothing_else() -> Case {
    let mut script = eight(1, 0);
    script.guest(0, &[7; 16]).fill_queue(0, 1).done(destroy_pair(3)).done(move_to(5, 0));
    let records = [
        Send::new(1, WRITE).piece(0, 8, 0).remote(0, 0),
        Send::new(2, WRITE).piece(A_VIRT, 4097, A_KEY).remote(A_VIRT, A_KEY),
        send(3),
        Send::new(4, SEND_IMMEDIATE).inline(&[9; 512]),
        Send::new(5, READ).piece(u64::MAX, u32::MAX, u32::MAX),
        write(6).flags(FENCE | SOLICITED),
        Send::new(7, WRITE_IMMEDIATE).inline(&[]),
    ];
    for qpn in [0, 2, 4, 6] {
        for record in &records {
            script.enqueue(qpn, record.clone(), 0);
        }
    }
    script.poll(0, 900, 0, 1, 0, 0).memory(0, &[7; 16]);
    for cqn in 0..8 {
        script.poll_empty(cqn);
    }
    script.named("enqueue-looks-at-nothing-else")
}

/// The oldest first, round the ring and whatever its places held before.
fn orders() -> Vec<Case> {
    let mut ten = Script::joined();
    let (mut next, mut oldest) = (1, 1);
    for (come, go) in [(8, 5), (5, 6), (3, 1), (4, 8), (8, 8)] {
        for _ in 0..come {
            ten.enqueue(0, Send::new(next, WRITE).inline(&[next as u8; 3]).remote(B_VIRT + next, B_KEY), 0);
            next += 1;
        }
        for _ in 0..go {
            ten.turn(0, 0).poll(0, oldest, 0, 1, 3, 0).memory(B_START + oldest as usize, &[oldest as u8; 3]);
            oldest += 1;
        }
    }
    ten.turn_refused(9).poll_empty(0);
    vec![ten.named("queue-ten-records-oldest-first"), each_field(), old_places()]
}

/// A record comes out of its queue as it went in: every opcode, with pieces and inline.
fn each_field() -> Case {
    let mut script = Script::joined_with(16, 1);
    script.guest(0, &[1, 2, 3, 4, 5, 6, 7, 8]).guest(B_START, &[11, 12, 13, 14, 15, 16, 17, 18]);
    script.receive(1, 50, &[], 0).receive(1, 51, &[piece(B_VIRT + 100, 8, B_KEY)], 0);
    script.receive(1, 52, &[piece(B_VIRT + 200, 300, B_KEY), piece(B_VIRT + 600, 300, B_KEY)], 0);
    let four = |wr_id: u64, opcode: u8| {
        let send = Send::new(wr_id, opcode).piece(A_VIRT + 6, 2, A_KEY).piece(A_VIRT, 0, 0).piece(A_VIRT, 1, A_KEY);
        send.piece(A_VIRT + 3, 3, A_KEY).immediate(0xaabb_ccdd)
    };
    script.enqueue(0, four(1, WRITE).remote(B_VIRT + 20, B_KEY), 0);
    script.enqueue(0, four(0x1122_3344_5566_7788, WRITE_IMMEDIATE).remote(B_VIRT + 30, B_KEY).flags(SIGNALED), 0);
    script.enqueue(0, four(3, SEND).flags(FENCE), 0);
    script.enqueue(0, Send::new(4, SEND_IMMEDIATE).inline(&[9; 512]).immediate(5).flags(SIGNALED | SOLICITED), 0);
    script.enqueue(0, Send::new(5, READ).piece(A_VIRT + 40, 3, A_KEY).remote(B_VIRT + 1, B_KEY).flags(SIGNALED), 0);
    script.enqueue(0, Send::new(6, WRITE).inline(&[]).flags(SIGNALED), 0);
    let message = [7, 8, 1, 4, 5, 6];
    script.turn(0, 0).memory(B_START + 20, &message).poll_empty(0).poll_empty(1);
    script.turn(0, 0).memory(B_START + 30, &message).poll(0, 0x1122_3344_5566_7788, 0, 1, 6, 0);
    script.poll_immediate(1, 50, [0, 4], 6, 0xaabb_ccdd, 1);
    script.turn(0, 0).memory(B_START + 100, &message).poll_empty(0).poll(1, 51, 0, 3, 6, 1);
    script.turn(0, 0).memory(B_START + 200, &[9; 300]).memory(B_START + 600, &[9; 212]).memory(B_START + 812, &[0; 88]);
    script.poll(0, 4, 0, 0, 512, 0).poll_immediate(1, 52, [0, 3], 512, 5, 1);
    script.turn(0, 0).memory(40, &[12, 13, 14]).poll(0, 5, 0, 2, 3, 0);
    script.turn(0, 0).poll(0, 6, 0, 1, 0, 0).turn_refused(9);
    script.named("queue-keeps-each-field")
}

/// Short records in places that held longer ones, and inline ones where pieces stood.
fn old_places() -> Case {
    let mut script = Script::joined();
    script.guest(0, &[1, 2, 3, 4]);
    for round in 0..3u64 {
        for place in 0..8u64 {
            let send = Send::new(10 * round + place, WRITE).remote(B_VIRT + 8 * place, B_KEY);
            let send = match (round + place) % 3 {
                0 => send.piece(A_VIRT, 1, A_KEY).piece(A_VIRT + 1, 1, A_KEY).piece(A_VIRT + 2, 1, A_KEY).piece(
                    A_VIRT + 3,
                    1,
                    A_KEY,
                ),
                1 => send.inline(&[100 + place as u8; 5]),
                _ => send,
            };
            script.enqueue(0, send, 0);
        }
        for place in 0..8u64 {
            let length = [4, 5, 0][((round + place) % 3) as usize];
            script.turn(0, 0).poll(0, 10 * round + place, 0, 1, length, 0);
            let at = B_START + 8 * place as usize;
            match length {
                4 => script.memory(at, &[1, 2, 3, 4]),
                5 => script.memory(at, &[100 + place as u8; 5]),
                _ => &mut script,
            };
        }
    }
    script.named("queue-places-are-used-again")
}

/// Where a turn begins and what it serves.
fn visits() -> Vec<Case> {
    let mut round = eight(16, 0);
    for n in 0..8 {
        round.enqueue(n, write(10 + u64::from(n)), 0).enqueue(n, write(20 + u64::from(n)), 0);
    }
    for ten in [10, 20] {
        for n in 0..8 {
            round.turn(n, 0).poll(n, ten + u64::from(n), 0, 1, 4, n.into()).poll_empty(n);
        }
    }
    round.turn_refused(9);
    let mut after = eight(16, 0);
    after.enqueue(5, write(1), 0).turn(5, 0);
    for n in [0, 5, 6, 7] {
        after.enqueue(n, write(2), 0).enqueue(n, write(3), 0);
    }
    for n in [6, 7, 0, 5, 6, 7, 0, 5] {
        after.turn(n, 0);
    }
    after.turn_refused(9).enqueue(4, write(4), 0).enqueue(6, write(4), 0).turn(6, 0).turn(4, 0);
    let mut one = eight(16, 0);
    one.enqueue(3, write(1), 0).enqueue(3, write(2), 0).enqueue(3, write(3), 0).turn(3, 0).poll(3, 1, 0, 1, 4, 3).poll_empty(3);
    one.turn(3, 0).poll(3, 2, 0, 1, 4, 3).poll_empty(3).enqueue(2, write(4), 0).turn(2, 0).turn(3, 0).poll(3, 3, 0, 1, 4, 3);
    let mut last = eight(16, 0);
    last.enqueue(7, write(1).remote(A_VIRT, 0), 0).enqueue(7, write(2), 0).enqueue(7, write(3), 0).turn(7, 8).turn(7, 4);
    last.enqueue(0, write(4), 0).turn(0, 0).turn(7, 4).turn_refused(9).send(0, write(5), 0, 0).turn_refused(9);
    let mut stream = eight(16, 0);
    for wr_id in 0..8 {
        stream.enqueue(0, write(wr_id), 0);
    }
    stream.enqueue(6, write(1), 0).enqueue(6, write(2), 0).enqueue(3, write(1), 0);
    for (n, come) in [(0, false), (3, true), (6, false), (0, false), (3, false), (6, false), (0, false), (0, false)] {
        stream.turn(n, 0);
        if come {
            stream.enqueue(3, write(2), 0);
        }
    }
    vec![
        round.named("turn-visits-each-in-turn"),
        after.named("turn-starts-after-the-served"),
        one.named("turn-runs-one-request"),
        last.named("turn-names-the-served-and-its-status"),
        stream.named("turn-a-stream-holds-up-nobody"),
    ]
}

/// Pair 0's head is held, for each cause of 5 and 6; pair 2's is not. When the cause is gone, pair 0 has its turn.
fn held() -> Vec<Case> {
    let mut cases = Vec::new();
    for (name, hold, release) in causes() {
        let mut script = eight(1, 0);
        hold(&mut script);
        // a second record of the held pair could run: it isn't tried
        script.enqueue(0, write(2), 0).enqueue(2, write(3), 0).enqueue(2, write(4), 0);
        script.turn(2, 0).poll(2, 3, 0, 1, 4, 2).turn(2, 0).poll(2, 4, 0, 1, 4, 2).turn_refused(9);
        release(&mut script);
        script.named_into(&mut cases, name);
    }
    cases
}

type Part = fn(&mut Script);

/// A cause, how it comes with a head enqueued on pair 0, and how it goes, up to the turn of pair 0 and its completion.
fn causes() -> Vec<(&'static str, Part, Part)> {
    fn peer_joins(script: &mut Script) {
        script.ready(1, 0).turn(0, 0).poll(0, 1, 0, 1, 4, 0).turn(0, 0).poll(0, 2, 0, 1, 4, 0).turn_refused(9);
    }
    vec![
        (
            "turn-passes-over-a-peer-that-is-not-live",
            |s| {
                s.done(destroy_pair(1)).enqueue(0, write(1), 0);
            },
            |s| {
                s.create(create_pair(0, 2, 0, 1, 1), 1);
                peer_joins(s);
            },
        ),
        (
            "turn-passes-over-a-peer-that-is-not-ready",
            |s| {
                s.done(move_to(1, 0)).enqueue(0, write(1), 0);
            },
            |s| {
                s.turn_refused(9).done(move_to(1, 1)).turn_refused(9).done(move_to(1, 6)).turn_refused(9).done(move_to(1, 0));
                peer_joins(s);
            },
        ),
        (
            "turn-passes-over-a-peer-that-names-another",
            |s| {
                s.done(move_to(1, 0)).ready(1, 5).enqueue(0, write(1), 0);
            },
            |s| {
                s.done(move_to(1, 0));
                peer_joins(s);
            },
        ),
        (
            "turn-passes-over-a-peer-without-a-receive",
            |s| {
                s.enqueue(0, send(1), 0);
            },
            |s| {
                s.receive(1, 9, &[], 0).turn(0, 0).poll(0, 1, 0, 0, 0, 0).poll(1, 9, 0, 3, 0, 1);
                s.turn(0, 0).poll(0, 2, 0, 1, 4, 0);
            },
        ),
        (
            "turn-passes-over-a-write-with-immediate-without-a-receive",
            |s| {
                s.enqueue(0, Send { opcode: WRITE_IMMEDIATE, ..write(1) }, 0);
            },
            |s| {
                s.receive(1, 9, &[], 0).turn(0, 0).poll(0, 1, 0, 1, 4, 0).poll(1, 9, 0, 4, 4, 1);
                s.turn(0, 0).poll(0, 2, 0, 1, 4, 0);
            },
        ),
        (
            "turn-passes-over-a-full-send-queue",
            |s| {
                s.fill_queue(0, 1).enqueue(0, write(1), 0);
            },
            |s| {
                s.poll(0, 900, 0, 1, 0, 0).turn(0, 0).turn_refused(9).poll(0, 1, 0, 1, 4, 0).turn(0, 0).poll(0, 2, 0, 1, 4, 0);
            },
        ),
        (
            "turn-passes-over-a-full-receive-queue-of-the-peer",
            |s| {
                s.receive(1, 9, &[], 0).fill_queue(1, 1).enqueue(0, send(1), 0);
            },
            |s| {
                s.poll(1, 900, 0, 1, 0, 1).turn(0, 0).poll(0, 1, 0, 0, 0, 0).poll(1, 9, 0, 3, 0, 1);
                s.turn(0, 0).poll(0, 2, 0, 1, 4, 0);
            },
        ),
        (
            "turn-passes-over-one-place-in-a-shared-queue",
            |s| {
                s.done(destroy_pair(1)).create(create_pair(0, 2, 0, 1, 0), 1).ready(1, 0).receive(1, 9, &[], 0).enqueue(
                    0,
                    send(1),
                    0,
                );
            },
            |s| {
                // such a queue never has two places: the pairs get another
                s.turn_refused(9).done(destroy_pair(1)).create(create_pair(0, 2, 0, 1, 1), 1).ready(1, 0).receive(1, 9, &[], 0);
                s.turn(0, 0).poll(0, 1, 0, 0, 0, 0).poll(1, 9, 0, 3, 0, 1).turn(0, 0).poll(0, 2, 0, 1, 4, 0);
            },
        ),
        (
            "turn-passes-over-an-errored-pair",
            |s| {
                s.fill_queue(0, 1).enqueue(0, write(1), 0).done(move_to(0, 6));
            },
            |s| {
                s.poll(0, 900, 0, 1, 0, 0).turn(0, 4).turn_refused(9).poll(0, 1, 4, 1, 0, 0).turn(0, 4).poll(0, 2, 4, 1, 0, 0);
            },
        ),
    ]
}

/// Where every head is held, or there is none, the answer is 9, and the place stays.
fn all_held() -> Vec<Case> {
    let mut empty = Script::new();
    empty.turn_refused(9).create(create_domain(), 0).turn_refused(9);
    let mut joined = eight(16, 0);
    joined.turn_refused(9).send(0, write(1), 0, 0).turn_refused(9).poll(0, 1, 0, 1, 4, 0);
    let mut held = eight(1, 0);
    held.enqueue(4, write(1), 0).turn(4, 0).poll(4, 1, 0, 1, 4, 4);
    // 0 without a receive, 2 without a place, 4 without a peer, 6 in error without a place
    held.enqueue(0, send(1), 0).fill_queue(2, 1).enqueue(2, write(2), 0).done(move_to(5, 0)).enqueue(4, write(3), 0);
    held.fill_queue(6, 1).enqueue(6, write(4), 0).done(move_to(6, 6));
    for _ in 0..3 {
        held.turn_refused(9);
    }
    held.turn_lent(4095, 7).turn_lent(4097, 7).turn_lent(0, 7);
    // the place is still 5: of 2 and 6, both free now, 6 comes first
    held.poll(2, 900, 0, 1, 0, 2).poll(6, 900, 0, 1, 0, 6).turn(6, 4).turn(2, 0).turn_refused(9);
    held.receive(1, 9, &[], 0).done(move_to(5, 1)).turn(0, 0).turn_refused(9).done(join(5, 4)).turn(4, 0).turn_refused(9);
    let mut lengths = eight(16, 0);
    lengths.turn_lent(4095, 7).turn_lent(4097, 7).enqueue(3, write(1), 0).turn_lent(4095, 7).turn_lent(4097, 7).turn_lent(0, 7);
    lengths.turn(3, 0).poll(3, 1, 0, 1, 4, 3).turn_lent(4095, 7).turn_refused(9);
    vec![
        empty.named("turn-on-an-empty-card-is-9"),
        joined.named("turn-without-queued-sends-is-9"),
        held.named("turn-all-held-is-9"),
        lengths.named("turn-7-before-all-but-15"),
    ]
}

/// A head that fails leaves its queue, and those behind it are flushed one by one.
fn failures() -> Vec<Case> {
    let mut cases = Vec::new();
    let heads: [(&str, Send, u8, u8); 4] = [
        ("turn-head-fails-by-length", Send::new(1, WRITE).piece(A_VIRT, 4097, A_KEY).remote(B_VIRT, B_KEY), 1, 1),
        ("turn-head-fails-by-protection", Send::new(1, READ).piece(A_VIRT, 8, B_KEY).remote(B_VIRT, B_KEY), 3, 2),
        ("turn-head-fails-by-access", Send::new(1, WRITE).piece(A_VIRT, 8, A_KEY).remote(B_VIRT, A_KEY), 8, 1),
        ("turn-head-fails-by-receive", Send::new(1, SEND).piece(A_VIRT, 8, A_KEY), 7, 0),
    ];
    for (name, head, status, opcode) in heads {
        let mut script = Script::joined_with(3, 1);
        script.receive(1, 9, &[piece(B_VIRT, 7, B_KEY)], 0).enqueue(0, head, 0);
        for wr_id in 2..=4 {
            script.enqueue(0, Send { wr_id, ..Send::new(0, WRITE).piece(A_VIRT, 4, A_KEY).remote(B_VIRT, B_KEY) }, 0);
        }
        script.turn(0, status).turn(0, 4).turn(0, 4).turn_refused(9).send(0, Send::new(7, WRITE), 10, 0);
        script.poll(0, 1, status, opcode, 0, 0).turn(0, 4).turn_refused(9);
        script.poll(0, 2, 4, 1, 0, 0).poll(0, 3, 4, 1, 0, 0).poll(0, 4, 4, 1, 0, 0).poll_empty(0).memory(B_START, &[0; 64]);
        if status == 7 {
            script.poll(1, 9, 1, 3, 0, 1);
        }
        script.poll_empty(1).named_into(&mut cases, name);
    }
    let mut both = Script::joined();
    both.receive(1, 9, &[], 0).enqueue(1, Send::new(5, WRITE), 0).enqueue(1, Send::new(6, SEND), 0);
    both.turn(1, 0).enqueue(0, Send::new(1, SEND).inline(&[1]), 0).enqueue(0, Send::new(2, SEND), 0);
    both.turn(0, 7).turn(1, 4).turn(0, 4).turn_refused(9).poll(1, 5, 0, 1, 0, 1).poll(1, 9, 1, 3, 0, 1).poll(1, 6, 4, 0, 0, 1);
    both.poll(0, 1, 7, 0, 0, 0).poll(0, 2, 4, 0, 0, 0).poll_empty(0).poll_empty(1);
    cases.push(both.named("turn-status-7-flushes-both-queues"));
    cases.push(flushed());
    cases
}

/// In error each head completes with status 4, whatever its peer, its keys and its flags are.
fn flushed() -> Case {
    let mut script = Script::joined_with(16, 1);
    script.receive(1, 9, &[piece(B_VIRT, 64, B_KEY)], 0);
    for opcode in 0..=4 {
        script.enqueue(0, Send::new(30 + u64::from(opcode), opcode).piece(0, 9, 0).immediate(7), 0);
    }
    script.done(move_to(0, 6)).enqueue(0, Send::new(35, SEND).inline(&[1]), 0).done(move_to(0, 6)).done(destroy_pair(1));
    for (wr_id, opcode) in [(30, 1), (31, 1), (32, 0), (33, 0), (34, 2), (35, 0)] {
        script.turn(0, 4).poll(0, wr_id, 4, opcode, 0, 0).poll_empty(0);
    }
    script.turn_refused(9).send(0, Send::new(1, SEND), 0, 4).memory(B_START, &[0; 64]).poll_empty(1);
    script.named("turn-flushes-in-error")
}

/// A direct send while its pair's queue isn't empty is 10: after the tests up to 3, before the holds and the flush.
fn direct() -> Vec<Case> {
    let mut cases = Vec::new();
    for (state, name) in [(3, "queue-10-in-state-3"), (6, "queue-10-in-state-6")] {
        let mut script = eight(1, 0);
        script.enqueue(0, write(1), 0).done(move_to(7, 0));
        if state == 6 {
            script.done(move_to(0, 6));
        }
        let good = write(2).bytes();
        for record in [resized(&good, 575), resized(&good, 593), vec![]] {
            script.send_bytes(0, record, 1, 0);
        }
        for record in bad_fields() {
            script.send_bytes(0, record, 4, 0);
        }
        script.send(8, write(2), 2, 0).send(7, write(2), 3, 0).send(0, write(2), 10, 0).send(0, send(2), 10, 0);
        script.call(cards::Call::Send { qpn: 0, record: good, memory: 4095 }, 7, 0, vec![]);
        // no receive, no place, no peer: 10 all the same
        script.enqueue(2, write(5), 0).done(move_to(3, 0)).send(2, write(6), 10, 0).done(move_to(2, 6)).send(2, send(6), 10, 0);
        script.send(4, write(3), 0, 0).enqueue(4, write(4), 0).send(4, write(4), 10, 0).done(move_to(4, 6)).send(
            4,
            write(4),
            10,
            0,
        );
        // another pair's queue is nothing to it
        script.send(1, write(9), if state == 6 { 5 } else { 0 }, 0);
        script.turn(0, if state == 6 { 4 } else { 0 }).poll(
            0,
            1,
            if state == 6 { 4 } else { 0 },
            1,
            if state == 6 { 0 } else { 4 },
            0,
        );
        script.send(0, write(2), 0, if state == 6 { 4 } else { 0 }).named_into(&mut cases, name);
    }
    let mut posted = Script::joined();
    posted.enqueue(0, Send::new(1, SEND), 0).receive(0, 2, &[], 0).receive(1, 3, &[], 0).flush(0, 3).send(
        1,
        Send::new(4, SEND),
        0,
        0,
    );
    posted.poll(1, 4, 0, 0, 0, 1).poll(0, 2, 0, 3, 0, 0).turn(0, 0).poll(0, 1, 0, 0, 0, 0).poll(1, 3, 0, 3, 0, 1);
    cases.push(posted.named("queue-receives-pass-it"));
    cases
}
