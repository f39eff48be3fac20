//! Situations in which several rules meet.

use crate::script::*;
use cards::build::*;
use reference::record::*;

pub fn cases() -> Vec<Case> {
    [orders(), shared_queue(), empties(), receive_lists(), receive_rights(), dropped_regions(), overlaps(), lives()]
        .into_iter()
        .flatten()
        .collect()
}

fn send(length: u32) -> Send {
    Send::new(1, SEND).piece(A_VIRT, length, A_KEY)
}

fn orders() -> Vec<Case> {
    let mut region = Script::new();
    region.create(create_domain(), 0);
    for n in 0..256 {
        region.register(0, 7, 0, 1, 0, 256 * n + 1);
    }
    for access in [2, 6, 8] {
        region.refused(register(9, access, 4096, 1, 0), 4).refused(register(0, access, 4096, 1, 0), 4);
        region.refused(register(0, access, 0, 1, 0), 4);
    }
    region.refused(register(9, 7, 4096, 1, 0), 2).refused(register(0, 7, 4096, 1, 0), 11);
    region.refused(register(0, 7, 0, 1, 0), 8).refused(register(0, 3, 0, 1, 0), 8);
    let mut pair = Script::joined();
    for n in 2..8 {
        pair.create(create_pair(0, 2, 0, 0, 0), n);
    }
    pair.refused(create_pair(9, 3, 0, 9, 9), 4).refused(create_pair(9, 2, 0, 9, 9), 2);
    pair.refused(create_pair(0, 2, 0, 9, 0), 2).refused(create_pair(0, 2, 0, 0, 9), 2).refused(create_pair(0, 2, 0, 0, 0), 8);
    vec![region.named("register-4-then-2-then-11-then-8"), pair.named("create-qp-4-then-2-then-8")]
}

/// Both pairs complete in one queue.
fn shared(places: u32, signal: u8) -> Script {
    let mut script = Script::new();
    script.create(create_domain(), 0).create(create_queue(places), 0).register(0, 7, 0, REGION.into(), A_VIRT, A_KEY);
    script.create(create_pair(0, 2, signal, 0, 0), 0).create(create_pair(0, 2, signal, 0, 0), 1).join_pairs(0, 1);
    script
}

fn shared_queue() -> Vec<Case> {
    let mut two = shared(2, 0);
    two.receive(1, 5, &[], 0).receive(1, 6, &[], 0).fill_queue(0, 1).send(0, Send::new(1, SEND), 6, 0);
    two.send(0, Send::new(1, SEND).piece(0, 1, 0), 6, 0).poll(0, 900, 0, 1, 0, 0).send(0, Send::new(1, SEND), 0, 0);
    two.poll(0, 1, 0, 0, 0, 0).poll(0, 5, 0, 3, 0, 1).poll_empty(0);
    let mut unsignaled = shared(2, 1);
    unsignaled.receive(1, 5, &[], 0).fill_queue(0, 1).send(0, Send::new(1, SEND), 6, 0).poll(0, 900, 0, 1, 0, 0);
    unsignaled.send(0, Send::new(1, SEND), 0, 0).poll(0, 5, 0, 3, 0, 1).poll_empty(0);
    let mut one = shared(1, 0);
    one.receive(1, 5, &[], 0);
    for opcode in [WRITE_IMMEDIATE, SEND, SEND_IMMEDIATE] {
        one.send(0, Send::new(1, opcode), 6, 0);
    }
    one.send(0, Send::new(1, WRITE), 0, 0).poll(0, 1, 0, 1, 0, 0).send(0, Send::new(1, READ), 0, 0);
    one.poll(0, 1, 0, 2, 0, 0);
    let mut failed = shared(2, 0);
    failed.receive(1, 5, &[], 0).send(0, send(1), 0, 7).poll(0, 1, 7, 0, 0, 0).poll(0, 5, 1, 3, 0, 1);
    vec![
        two.named("shared-queue-needs-two-places"),
        unsignaled.named("shared-queue-needs-two-places-unsignaled"),
        one.named("shared-queue-of-one-place"),
        failed.named("shared-queue-senders-failure-first"),
    ]
}

fn empties() -> Vec<Case> {
    let mut between = Script::joined();
    let pieces = Send::new(1, WRITE).piece(A_VIRT, 2, A_KEY).piece(u64::MAX, 0, 9999).piece(A_VIRT, 2, A_KEY);
    between.send(0, pieces.remote(B_VIRT, B_KEY), 0, 0).poll(0, 1, 0, 1, 4, 0);
    let mut nothing = Script::joined();
    for opcode in [WRITE, READ] {
        nothing.send(0, Send::new(1, opcode).remote(u64::MAX, u32::MAX), 0, 0);
    }
    let mut to_dead = Script::joined();
    to_dead.receive(1, 5, &[piece(0, 100, 0)], 0).receive(1, 6, &[], 0);
    to_dead.send(0, Send::new(1, SEND), 0, 0).send(0, Send::new(2, SEND_IMMEDIATE).immediate(9), 0, 0);
    to_dead.poll(1, 5, 0, 3, 0, 1).poll_immediate(1, 6, [0, 3], 0, 9, 1);
    vec![
        between.named("empty-piece-looks-at-no-key"),
        nothing.named("empty-remote-range-looks-at-no-key"),
        to_dead.named("empty-send-to-a-dead-list"),
    ]
}

fn receive_lists() -> Vec<Case> {
    let dead = piece(B_VIRT, REGION, 0);
    let at = |length| piece(B_VIRT, length, B_KEY);
    type Row<'a> = (&'a str, Vec<Piece>, u32, u8, u8);
    let rows: [Row; 14] = [
        ("exact", vec![at(8)], 8, 0, 0),
        ("one-short", vec![at(7)], 8, 7, 1),
        ("no-pieces", vec![], 1, 7, 1),
        ("two-exact", vec![at(3), at(5)], 8, 0, 0),
        ("two-one-short", vec![at(3), at(4)], 8, 7, 1),
        ("dead-key", vec![dead], 8, 7, 3),
        ("dead-key-behind", vec![at(8), dead], 8, 0, 0),
        ("dead-key-one-byte-in", vec![at(7), dead], 8, 7, 3),
        ("short-and-dead", vec![piece(B_VIRT, 7, 0)], 8, 7, 1),
        ("longer-than-its-region", vec![piece(B_VIRT, REGION + 1, B_KEY)], REGION, 0, 0),
        ("overhang-by-one", vec![piece(B_VIRT + 1, REGION, B_KEY)], REGION, 7, 3),
        ("sum-past-2-32", vec![piece(B_VIRT, u32::MAX, B_KEY), piece(0, u32::MAX, 0)], 8, 0, 0),
        ("senders-key", vec![piece(A_VIRT, 8, A_KEY)], 8, 7, 3),
        ("wraps", vec![piece(u64::MAX, 8, B_KEY)], 2, 7, 3),
    ];
    let mut cases = Vec::new();
    for (name, pieces, length, status, receiver) in rows {
        let mut script = Script::joined();
        script.receive(1, 5, &pieces, 0).send(0, send(length), 0, status);
        let moved = if status == 0 { length } else { 0 };
        script.poll(0, 1, status, 0, moved, 0).poll(1, 5, receiver, 3, moved, 1);
        if status == 7 {
            script.receive_flushed(1, 6, &[]).send(0, send(0), 0, 4).flush(1, 9).memory(0, &[0; 4096]);
            script.poll(0, 1, 4, 0, 0, 0).poll(1, 6, 4, 3, 0, 1);
        }
        cases.push(script.named(format!("receive-list-{name}")));
    }
    cases
}

fn receive_rights() -> Vec<Case> {
    let whole = piece(B_VIRT, REGION, B_KEY);
    let dead = piece(B_VIRT, REGION, 0);
    let mut rights = Script::joined();
    for (slot, access) in (2..).zip(ACCESSES) {
        let (key, status) = (256 * slot + 1, if access & 1 == 1 { 0 } else { 7 });
        rights.register(1, access, 0, 64, 0, key).receive(1, 5, &[piece(0, 4, key)], 0).send(0, send(4), 0, status);
        rights.poll(1, 5, if status == 0 { 0 } else { 3 }, 3, if status == 0 { 4 } else { 0 }, 1);
        rights.done(move_to(0, 0)).done(move_to(1, 0)).join_pairs(0, 1);
    }
    let mut written = Script::joined();
    for pieces in [vec![dead], vec![], vec![whole]] {
        written.receive(1, 5, &pieces, 0);
        let write = Send::new(1, WRITE_IMMEDIATE).inline(&[8; 16]).remote(B_VIRT + 32, B_KEY).immediate(77);
        written.send(0, write, 0, 0).poll(0, 1, 0, 1, 16, 0).poll_immediate(1, 5, [0, 4], 16, 77, 1).memory(B_START, &[0; 32]);
    }
    let mut outside = Script::joined();
    outside.receive(1, 5, &[whole], 0).send(0, Send::new(1, WRITE_IMMEDIATE).inline(&[8; 2]).remote(B_VIRT + 1023, B_KEY), 0, 8);
    outside.poll(0, 1, 8, 1, 0, 0).poll_empty(1).done(move_to(0, 0)).ready(0, 1).send(0, send(4), 0, 0).poll(1, 5, 0, 3, 4, 1);
    vec![
        rights.named("receive-list-needs-local-write"),
        written.named("write-with-immediate-touches-no-list"),
        outside.named("failed-write-with-immediate-takes-no-receive"),
    ]
}

fn dropped_regions() -> Vec<Case> {
    let waiting = |script: &mut Script| {
        script.put(1, 0, &[6; 8]).receive(1, 5, &[piece(B_VIRT, 8, B_KEY)], 0);
    };
    let mut plain = Script::joined();
    waiting(&mut plain);
    plain.done(deregister(1)).send(0, send(8), 0, 7).poll(0, 1, 7, 0, 0, 0).poll(1, 5, 3, 3, 0, 1).memory(B_START, &[0; 8]);
    plain.flush(1, 9).receive_flushed(1, 6, &[]).send(0, send(8), 0, 4).memory(B_START, &[0; 8]);
    let mut again = Script::joined();
    waiting(&mut again);
    again.done(deregister(1)).register(1, 7, B_START as u64, REGION.into(), B_VIRT, B_KEY + 1);
    again.send(0, send(8), 0, 7).poll(1, 5, 3, 3, 0, 1).memory(B_START, &[0; 8]);
    let mut later = Script::joined();
    later.receive(1, 5, &[piece(0, 8, 513)], 0).register(1, 1, 100, 8, 0, 513).send(0, Send::new(1, SEND).inline(&[4; 8]), 0, 0);
    later.poll(1, 5, 0, 3, 8, 1).memory(100, &[4; 8]);
    let mut behind = Script::joined();
    waiting(&mut behind);
    behind.receive(1, 6, &[], 0).done(deregister(1)).send(0, send(8), 0, 7).flush(1, 0).poll(1, 5, 3, 3, 0, 1);
    behind.poll(1, 6, 4, 3, 0, 1).flush(1, 9);
    let mut unused = Script::joined();
    waiting(&mut unused);
    unused.done(deregister(1)).send(0, send(0), 0, 0).poll(1, 5, 0, 3, 0, 1);
    vec![
        plain.named("region-dropped-under-a-waiting-receive"),
        again.named("region-dropped-and-slot-used-again-under-a-receive"),
        later.named("receive-posted-before-its-region"),
        behind.named("region-dropped-the-next-receive-waits-on"),
        unused.named("region-dropped-under-a-receive-that-takes-no-bytes"),
    ]
}

fn overlaps() -> Vec<Case> {
    let text: Vec<u8> = (1..=32).collect();
    let mut forward = shared(16, 1);
    forward.send(1, Send::new(2, WRITE).inline(&text).remote(A_VIRT, A_KEY), 0, 0);
    forward.send(0, Send::new(1, WRITE).piece(A_VIRT, 32, A_KEY).remote(A_VIRT + 1, A_KEY), 0, 0);
    forward.memory(0, &[&[1], &text[..]].concat());
    let mut backward = shared(16, 1);
    backward.send(1, Send::new(2, WRITE).inline(&text).remote(A_VIRT + 1, A_KEY), 0, 0);
    backward.send(0, Send::new(1, WRITE).piece(A_VIRT + 1, 32, A_KEY).remote(A_VIRT, A_KEY), 0, 0);
    backward.memory(0, &[&text[..], &[32]].concat());
    let mut swapped = shared(16, 1);
    swapped.send(1, Send::new(2, WRITE).inline(&[1, 2, 3, 4]).remote(A_VIRT, A_KEY), 0, 0);
    let halves = Send::new(1, WRITE).piece(A_VIRT + 2, 2, A_KEY).piece(A_VIRT, 2, A_KEY);
    swapped.send(0, halves.remote(A_VIRT, A_KEY), 0, 0).memory(0, &[3, 4, 1, 2]);
    let mut last = shared(16, 1);
    last.receive(1, 5, &[piece(A_VIRT, 4, A_KEY), piece(A_VIRT + 2, 4, A_KEY)], 0);
    last.send(0, Send::new(1, SEND).inline(&[1, 2, 3, 4, 5, 6, 7, 8]), 0, 0).memory(0, &[1, 2, 5, 6, 7, 8]);
    let mut read = shared(16, 1);
    read.send(1, Send::new(2, WRITE).inline(&text).remote(A_VIRT, A_KEY), 0, 0);
    let into = Send::new(1, READ).piece(A_VIRT + 64, 4, A_KEY).piece(A_VIRT + 66, 4, A_KEY).piece(A_VIRT, 2, A_KEY);
    read.send(0, into.remote(A_VIRT + 8, A_KEY), 0, 0).memory(64, &[9, 10, 13, 14, 15, 16]).memory(0, &[17, 18, 3]);
    let mut domains = Script::joined();
    domains.register(1, 3, 0, 64, 0, 513).register(0, 0, 2048, 64, 0, 769);
    domains.send(0, Send::new(1, WRITE).inline(&[5; 4]).remote(0, 513), 0, 0).memory(0, &[5; 4]);
    domains.send(0, Send::new(2, WRITE).piece(0, 4, 769).remote(0, 513), 0, 0).memory(0, &[0; 4]);
    domains.send(0, Send::new(3, WRITE).inline(&[5; 4]).remote(0, 769), 0, 8);
    vec![
        forward.named("overlap-forward"),
        backward.named("overlap-backward"),
        swapped.named("overlap-swapped-halves"),
        last.named("overlap-later-receive-piece-wins"),
        read.named("overlap-later-read-piece-wins"),
        domains.named("two-domains-over-one-place"),
    ]
}

fn lives() -> Vec<Case> {
    let write = || Send::new(1, WRITE).inline(&[1]).remote(B_VIRT, B_KEY);
    let mut moved = Script::joined();
    moved.create(create_pair(0, 2, 0, 0, 0), 2).done(destroy_pair(1)).create(create_pair(0, 2, 0, 1, 1), 1);
    moved.send(0, write(), 5, 0).ready(1, 0).send(0, write(), 0, 8);
    let mut reset = Script::joined();
    reset.done(move_to(0, 0)).send(1, Send::new(1, WRITE), 5, 0).done(move_to(0, 1)).send(1, Send::new(1, WRITE), 5, 0);
    reset.done(join(0, 2)).send(1, Send::new(1, WRITE), 5, 0).done(move_to(0, 0)).ready(0, 1).send(1, Send::new(1, WRITE), 0, 0);
    let mut old = Script::joined();
    old.receive(1, 5, &[], 0).receive(1, 6, &[], 0).done(destroy_pair(1)).create(create_pair(1, 2, 0, 1, 1), 1).ready(1, 0);
    old.send(0, Send::new(1, SEND), 5, 0).receive(1, 7, &[], 0).send(0, Send::new(1, SEND), 0, 0).poll(1, 7, 0, 3, 0, 1);
    let mut kept = Script::joined();
    kept.receive(1, 5, &[], 0).done(move_to(1, 6)).send(0, Send::new(1, SEND), 5, 0).flush(1, 0).poll(1, 5, 4, 3, 0, 1);
    let mut held = Script::joined();
    held.send(0, Send::new(1, SEND).inline(&[3; 3]), 5, 0).receive(1, 5, &[piece(B_VIRT, 3, B_KEY)], 0);
    held.send(0, Send::new(1, SEND).inline(&[3; 3]), 0, 0).poll(0, 1, 0, 0, 3, 0).poll(1, 5, 0, 3, 3, 1);
    held.memory(B_START, &[3; 3]);
    let mut both = Script::joined();
    both.send(0, Send::new(1, WRITE).inline(&[1]).remote(B_VIRT, 0), 0, 8).send(1, Send::new(2, WRITE), 5, 0);
    both.done(move_to(0, 0)).ready(0, 1).send(1, Send::new(2, WRITE), 0, 0);
    vec![
        moved.named("pair-created-again-in-another-domain"),
        reset.named("peer-reset-and-joined-again"),
        old.named("receives-of-an-earlier-pair-are-gone"),
        kept.named("move-to-6-keeps-receives"),
        held.named("held-call-leaves-no-trace"),
        both.named("statuses-1-3-8-move-only-the-sender"),
    ]
}
