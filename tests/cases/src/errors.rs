//! Work posted in the error state: sends and receives that are flushed at once, held or queued.

use crate::script::*;
use cards::build::*;
use reference::record::*;

pub fn cases() -> Vec<Case> {
    [sends(), send_holds(), receives(), queued_receives(), shared(), ends()].into_iter().flatten().collect()
}

/// The two operators with operator A's pair in error.
fn failed(places: u32, signal: u8) -> Script {
    let mut script = Script::joined_with(places, signal);
    script.done(move_to(0, 6));
    script
}

/// Two domains with a send and a receive queue of one place each: pair 0 has queues 0 and 1, pair 1 has 2 and 3.
fn queues_apart() -> Script {
    let mut script = Script::new();
    for n in 0..2 {
        script.create(create_domain(), n);
    }
    for n in 0..4 {
        script.create(create_queue(1), n);
    }
    script.create(create_pair(0, 2, 0, 0, 1), 0).create(create_pair(1, 2, 0, 2, 3), 1).join_pairs(0, 1);
    script
}

fn write(length: u32) -> Send {
    Send::new(7, WRITE).piece(A_VIRT, length, A_KEY).remote(B_VIRT, B_KEY)
}

fn sends() -> Vec<Case> {
    let mut cases = Vec::new();
    let opcodes = [(WRITE, 1), (WRITE_IMMEDIATE, 1), (SEND, 0), (SEND_IMMEDIATE, 0), (READ, 2)];
    for (signal, flag) in [(0, 0), (1, SIGNALED), (1, 0)] {
        let mut script = Script::joined_with(16, signal);
        script.send(0, Send::new(1, WRITE).inline(&[9; 8]).remote(B_VIRT, B_KEY).flags(SIGNALED), 0, 0).poll(0, 1, 0, 1, 8, 0);
        script.receive(1, 5, &[piece(B_VIRT, 64, B_KEY)], 0).done(move_to(0, 6));
        for (opcode, completed) in opcodes {
            let wr_id = 40 + u64::from(opcode);
            let send = Send { wr_id, opcode, ..write(4) }.immediate(0xaabb_ccdd).flags(flag);
            script.send(0, send, 0, 4).poll(0, wr_id, 4, completed, 0, 0).poll_empty(0);
        }
        script.memory(0, &[0; 16]).memory(B_START, &[9, 9, 9, 9, 9, 9, 9, 9, 0]).poll_empty(1);
        cases.push(script.named(format!("error-send-flushed-signal-{signal}-flag-{}", flag >> 1)));
    }
    let mut unjudged = failed(16, 0);
    let dead = Send::new(1, WRITE).piece(0, 8, 0).remote(0, 0);
    for (wr_id, send) in
        (1..).zip([dead, write(4097), write(REGION + 1), write(4).remote(B_VIRT, 0), write(4), Send::new(1, READ)])
    {
        let completed = if send.opcode == READ { 2 } else { 1 };
        unjudged.send(0, Send { wr_id, ..send }, 0, 4).poll(0, wr_id, 4, completed, 0, 0);
    }
    unjudged.send(0, Send::new(8, SEND).inline(&[3; 512]), 0, 4).poll(0, 8, 4, 0, 0, 0).memory(0, &[0; 4096]);
    cases.push(unjudged.named("error-send-judges-no-byte"));
    cases.push(send_records());
    cases
}

/// The tests of the record and of the number come first, with a place and then without.
fn send_records() -> Case {
    let mut script = failed(1, 0);
    let resized = |length: usize| {
        let mut record = write(4).bytes();
        record.resize(length, 0);
        record
    };
    let counted = |count: u32| {
        let mut record = write(4).bytes();
        record[COUNT_AT..COUNT_AT + 4].copy_from_slice(&count.to_le_bytes());
        record
    };
    for (answer, status) in [(0, 4), (6, 0)] {
        for record in [vec![], resized(575), resized(576), resized(591), resized(593), counted(2)] {
            script.send_bytes(0, record, 1, 0);
        }
        script.send(0, Send::new(1, 5), 4, 0).send(0, Send::new(1, WRITE).flags(16), 4, 0).send_bytes(0, counted(5), 4, 0);
        script.send(0, Send::new(1, READ).inline(&[1]), 4, 0).send(0, Send::new(1, SEND).inline(&[1; 513]), 4, 0);
        script.send_bytes(0, [&Send::new(1, SEND).inline(&[1]).bytes()[..], &[0]].concat(), 1, 0);
        for qpn in [2, 8, 255] {
            script.send(qpn, write(4), 2, 0);
        }
        script.send(0, write(4), answer, status);
    }
    script.poll(0, 7, 4, 1, 0, 0).poll_empty(0);
    script.named("error-send-record-tests-first")
}

fn send_holds() -> Vec<Case> {
    let mut place = Script::joined_with(1, 1);
    place.fill_queue(0, 1).done(move_to(0, 6));
    for opcode in 0..=4 {
        place.send(0, Send { opcode, ..write(4) }, 6, 0).send(0, Send { opcode, ..write(4) }.flags(SIGNALED), 6, 0);
    }
    place.poll(0, 900, 0, 1, 0, 0).send(0, write(4), 0, 4).send(0, write(4), 6, 0).poll(0, 7, 4, 1, 0, 0).poll_empty(0);
    let mut last = failed(3, 0);
    for _ in 0..3 {
        last.send(0, write(4), 0, 4);
    }
    last.send(0, write(4), 6, 0).poll(0, 7, 4, 1, 0, 0).send(0, Send::new(8, SEND), 0, 4).send(0, write(4), 6, 0);
    last.poll(0, 7, 4, 1, 0, 0).poll(0, 7, 4, 1, 0, 0).poll(0, 8, 4, 0, 0, 0).poll_empty(0);
    let mut peer = Script::joined_with(2, 0);
    peer.create(create_pair(0, 2, 0, 0, 0), 2).done(move_to(2, 6)).send(2, Send::new(1, SEND), 0, 4).poll(0, 1, 4, 0, 0, 2);
    peer.done(move_to(0, 6)).send(0, Send::new(2, SEND), 0, 4).poll(0, 2, 4, 0, 0, 0);
    for state in [6, 0, 1] {
        peer.done(move_to(1, state)).send(0, Send::new(3, SEND), 0, 4).poll(0, 3, 4, 0, 0, 0);
    }
    peer.done(join(1, 2)).send(0, write(4), 0, 4).poll(0, 7, 4, 1, 0, 0).done(destroy_pair(1));
    peer.send(0, write(4), 0, 4).poll(0, 7, 4, 1, 0, 0).send(0, Send { opcode: READ, ..write(4) }, 0, 4).poll(0, 7, 4, 2, 0, 0);
    let mut theirs = Script::joined_with(1, 0);
    theirs.receive(1, 5, &[], 0).fill_queue(1, 1).done(move_to(0, 6)).send(0, Send::new(1, SEND), 0, 4).poll(0, 1, 4, 0, 0, 0);
    theirs.done(move_to(0, 0)).ready(0, 1).poll(1, 900, 0, 1, 0, 1).send(0, Send::new(2, SEND), 0, 0).poll(1, 5, 0, 3, 0, 1);
    vec![
        place.named("error-send-without-a-place"),
        last.named("error-send-takes-the-last-place"),
        peer.named("error-send-looks-at-no-peer"),
        theirs.named("error-send-takes-no-receive"),
    ]
}

fn receives() -> Vec<Case> {
    let dead = piece(u64::MAX, u32::MAX, u32::MAX);
    let mut once = failed(16, 0);
    for (wr_id, pieces) in (1..).zip([vec![], vec![dead], vec![dead; 2], vec![piece(A_VIRT, 8, A_KEY)]]) {
        once.receive_flushed(0, wr_id, &pieces).flush(0, 9);
    }
    for wr_id in 1..=4 {
        once.poll(0, wr_id, 4, 3, 0, 0);
    }
    once.poll_empty(0).poll_empty(1).memory(0, &[0; 4096]);
    let mut records = failed(1, 0);
    let two = receive(1, &[dead; 2]);
    for answer in [0, 6] {
        records.receive_bytes(0, vec![], 1).receive_bytes(0, two[..23].to_vec(), 1).receive_bytes(0, two[..55].to_vec(), 1);
        records.receive_bytes(0, [&two[..], &[0]].concat(), 1).receive_bytes(0, receive(1, &[dead; 3]), 4);
        records.receive_bytes(2, two.clone(), 2).receive_bytes(8, two.clone(), 2).receive_bytes(255, two.clone(), 2);
        if answer == 0 {
            records.receive_flushed(0, 1, &[dead; 2]);
        } else {
            records.receive(0, 2, &[], answer);
        }
    }
    records.poll(0, 1, 4, 3, 0, 0).poll_empty(0);
    let mut place = failed(2, 0);
    place.receive_flushed(0, 1, &[]).receive_flushed(0, 2, &[]).receive(0, 3, &[], 6).flush(0, 9).poll(0, 1, 4, 3, 0, 0);
    place.receive_flushed(0, 4, &[]).receive(0, 5, &[], 6).poll(0, 2, 4, 3, 0, 0).poll(0, 4, 4, 3, 0, 0).poll_empty(0);
    let mut apart = queues_apart();
    apart.fill_queue(0, 1).done(move_to(0, 6)).send(0, Send::new(1, SEND), 6, 0).receive_flushed(0, 2, &[]);
    apart.receive(0, 3, &[], 6).poll(0, 900, 0, 1, 0, 0).send(0, Send::new(4, SEND), 0, 4).receive(0, 5, &[], 6);
    apart.poll(1, 2, 4, 3, 0, 0).poll_empty(1).send(0, Send::new(6, SEND), 6, 0).receive_flushed(0, 7, &[]);
    apart.poll(0, 4, 4, 0, 0, 0).poll_empty(0).poll(1, 7, 4, 3, 0, 0).poll_empty(2).poll_empty(3);
    vec![
        once.named("error-receive-flushed-at-once"),
        records.named("error-receive-record-tests-first"),
        place.named("error-receive-without-a-place"),
        apart.named("error-queues-apart"),
    ]
}

/// Older receives go first: with some waiting a receive joins them, up to four, and asks for no place.
fn queued_receives() -> Vec<Case> {
    let mut cases = Vec::new();
    for waiting in 1..=4 {
        let mut script = Script::joined_with(16, 0);
        for wr_id in 1..=waiting {
            script.receive(0, wr_id, &[], 0);
        }
        script.done(move_to(0, 6));
        for wr_id in waiting + 1..=4 {
            script.receive(0, wr_id, &[piece(0, 8, 0)], 0);
        }
        script.receive(0, 5, &[], 8).poll_empty(0);
        for wr_id in 1..=4 {
            script.flush(0, 0).poll(0, wr_id, 4, 3, 0, 0);
        }
        script.flush(0, 9).receive_flushed(0, 6, &[]).flush(0, 9).poll(0, 6, 4, 3, 0, 0).poll_empty(0);
        cases.push(script.named(format!("error-receive-joins-behind-{waiting}")));
    }
    let mut full = Script::joined_with(1, 0);
    full.receive(0, 1, &[], 0).fill_queue(0, 1).done(move_to(0, 6)).receive(0, 2, &[], 0).receive(0, 3, &[], 0);
    full.flush(0, 6).receive(0, 4, &[], 0).receive(0, 5, &[], 8).flush(0, 6).poll(0, 900, 0, 1, 0, 0).flush(0, 0);
    full.receive(0, 6, &[], 0).receive(0, 7, &[], 8);
    for wr_id in [1, 2, 3, 4] {
        full.poll(0, wr_id, 4, 3, 0, 0).flush(0, 0);
    }
    full.flush(0, 9).receive(0, 8, &[], 6).poll(0, 6, 4, 3, 0, 0).receive_flushed(0, 9, &[]).poll(0, 9, 4, 3, 0, 0);
    let mut sends = Script::joined();
    sends.receive(0, 1, &[], 0).receive(0, 2, &[], 0).done(move_to(0, 6)).send(0, write(4), 0, 4).poll(0, 7, 4, 1, 0, 0);
    sends.poll_empty(0).flush(0, 0).send(0, Send::new(8, SEND), 0, 4).poll(0, 1, 4, 3, 0, 0).poll(0, 8, 4, 0, 0, 0);
    sends.flush(0, 0).poll(0, 2, 4, 3, 0, 0).flush(0, 9);
    cases.push(full.named("error-receive-joins-without-a-place"));
    cases.push(sends.named("error-send-passes-waiting-receives"));
    cases
}

/// Both pairs complete in one queue of `places`, and pair 0 is in error.
fn shared_queue(places: u32) -> Script {
    let mut script = Script::new();
    script.create(create_domain(), 0).create(create_queue(places), 0);
    script.create(create_pair(0, 2, 0, 0, 0), 0).create(create_pair(0, 2, 0, 0, 0), 1).join_pairs(0, 1).done(move_to(0, 6));
    script
}

fn shared() -> Vec<Case> {
    let mut one = shared_queue(1);
    one.receive(1, 5, &[], 0).send(0, Send::new(1, SEND), 0, 4).receive(0, 2, &[], 6).send(0, Send::new(2, SEND), 6, 0);
    one.poll(0, 1, 4, 0, 0, 0).receive_flushed(0, 3, &[]).send(0, Send::new(4, SEND), 6, 0).receive(0, 4, &[], 6);
    one.poll(0, 3, 4, 3, 0, 0).poll_empty(0);
    let mut two = shared_queue(2);
    two.done(move_to(1, 6)).send(1, Send::new(1, READ), 0, 4).receive_flushed(0, 2, &[]).receive(1, 3, &[], 6);
    two.send(0, Send::new(3, WRITE), 6, 0).poll(0, 1, 4, 2, 0, 1).poll(0, 2, 4, 3, 0, 0).poll_empty(0);
    vec![one.named("error-shared-queue-of-one-place"), two.named("error-shared-queue-of-two-pairs")]
}

/// The pair stays in error until it moves to 0 or is destroyed.
fn ends() -> Vec<Case> {
    let mut stays = Script::joined();
    stays.send(0, write(4).remote(B_VIRT, 0), 0, 8).poll(0, 7, 8, 1, 0, 0);
    for _ in 0..2 {
        stays.send(0, write(4), 0, 4).poll(0, 7, 4, 1, 0, 0).receive_flushed(0, 1, &[]).poll(0, 1, 4, 3, 0, 0);
        for state in [1, 3] {
            stays.refused(move_to(0, state), 3);
        }
        stays.refused(join(0, 1), 3).flush(0, 9).send(1, Send::new(2, WRITE), 5, 0).done(move_to(0, 6));
    }
    let mut moved = Script::joined();
    moved.receive(0, 1, &[], 0).done(move_to(0, 6)).receive(0, 2, &[], 0).done(move_to(0, 0));
    moved.send(0, write(4), 3, 0).receive(0, 3, &[], 3).flush(0, 3).done(move_to(0, 1)).send(0, write(4), 3, 0);
    moved.receive(0, 4, &[piece(A_VIRT, 4, A_KEY)], 0).done(join(0, 1)).send(0, write(4), 3, 0).done(move_to(0, 3));
    moved.send(0, write(4), 0, 0).poll(0, 7, 0, 1, 4, 0).send(1, Send::new(5, SEND).inline(&[6; 4]), 0, 0);
    moved.poll(0, 4, 0, 3, 4, 0).poll_empty(0).memory(0, &[6, 6, 6, 6, 0]);
    let mut both = Script::joined();
    both.receive(1, 1, &[], 0).receive(1, 2, &[], 0).send(0, Send::new(3, SEND).inline(&[1]), 0, 7).poll(0, 3, 7, 0, 0, 0);
    both.poll(1, 1, 1, 3, 0, 1).send(1, Send::new(4, WRITE), 0, 4).poll(1, 4, 4, 1, 0, 1).receive(1, 5, &[], 0);
    both.send(0, Send::new(6, READ), 0, 4).poll(0, 6, 4, 2, 0, 0).receive_flushed(0, 7, &[]).poll(0, 7, 4, 3, 0, 0);
    both.flush(1, 0).flush(1, 0).flush(1, 9).poll(1, 2, 4, 3, 0, 1).poll(1, 5, 4, 3, 0, 1).poll_empty(1);
    let mut gone = failed(16, 0);
    gone.receive_flushed(0, 1, &[]).poll(0, 1, 4, 3, 0, 0).done(destroy_pair(0)).create(create_pair(0, 2, 0, 0, 0), 0);
    gone.send(0, write(4), 3, 0).receive(0, 2, &[], 3).flush(0, 3).ready(0, 1).receive(0, 3, &[], 0).poll_empty(0);
    gone.send(0, write(4), 0, 0).poll(0, 7, 0, 1, 4, 0).send(1, Send::new(5, SEND), 0, 0).poll(0, 3, 0, 3, 0, 0).poll_empty(0);
    vec![
        stays.named("error-flushed-work-leaves-the-pair-in-error"),
        moved.named("error-ends-with-a-move-to-0"),
        gone.named("error-is-gone-with-the-pair"),
        both.named("error-of-both-after-status-7"),
    ]
}
