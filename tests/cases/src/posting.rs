//! Post send: record tests, holds, and steps 3 to 6 at their boundaries.

use crate::script::*;
use cards::build::*;
use reference::record::*;

pub fn cases() -> Vec<Case> {
    let mut cases = Vec::new();
    cases.extend(records());
    cases.extend(inline());
    cases.extend(pair_states());
    cases.extend(peers());
    cases.extend(places());
    cases.extend(marked_positions());
    cases.extend(local_pieces());
    cases.extend(local_rights());
    cases.extend(totals());
    cases.extend(remote_ranges());
    cases.extend(remote_rights());
    cases.extend(deliveries());
    cases.extend(completions());
    cases
}

fn write(length: u32) -> Send {
    Send::new(7, WRITE).piece(A_VIRT, length, A_KEY).remote(B_VIRT, B_KEY)
}

fn changed(send: &Send, change: impl Fn(&mut Vec<u8>)) -> Vec<u8> {
    let mut record = send.bytes();
    change(&mut record);
    record
}

/// One send on the card of the two operators.
fn one(name: &str, record: Vec<u8>, answer: u8, status: u8) -> Case {
    let mut script = Script::joined();
    script.send_bytes(0, record, answer, status);
    script.named(format!("send-{name}"))
}

fn records() -> Vec<Case> {
    let short = |length: usize| changed(&write(4), |record| record.truncate(length));
    let count = |count: u32| changed(&write(4), |record| record[560..564].copy_from_slice(&count.to_le_bytes()));
    let long = |length: usize, opcode: u8| {
        changed(&write(4), |record| {
            record[8] = opcode;
            record.resize(length, 0)
        })
    };
    vec![
        one("empty-record", vec![], 1, 0),
        one("575-bytes", short(575), 1, 0),
        one("575-bytes-opcode-5", changed(&Send::new(1, 5), |record| record.truncate(575)), 1, 0),
        one("577-bytes-opcode-5", long(577, 5), 4, 0),
        one("576-bytes-count-1", short(576), 1, 0),
        one("591-bytes-count-1", short(591), 1, 0),
        one("593-bytes-count-1", long(593, 0), 1, 0),
        one("640-bytes-count-4", Send { pieces: vec![piece(A_VIRT, 1, A_KEY); 4], ..write(1) }.bytes(), 0, 0),
        one("count-0", Send::new(1, WRITE).bytes(), 0, 0),
        one("count-5", count(5), 4, 0),
        one("count-65537", count(65537), 4, 0),
        one("count-2-32-1", count(u32::MAX), 4, 0),
        one("count-2", count(2), 1, 0),
        one("opcode-5", changed(&write(4), |record| record[8] = 5), 4, 0),
        one("opcode-255", changed(&write(4), |record| record[8] = 255), 4, 0),
        one("flag-bit-4", changed(&write(4), |record| record[9] = 16), 4, 0),
        one("flag-bit-7", changed(&write(4), |record| record[9] = 128), 4, 0),
        one("fence-signaled-solicited", write(4).flags(FENCE | SIGNALED | SOLICITED).bytes(), 0, 0),
        one("reserved-bytes-ignored", changed(&write(4), |record| fill_reserved(record)), 0, 0),
    ]
}

/// Sets every byte of a send without inline that has no meaning.
fn fill_reserved(record: &mut [u8]) {
    record[10..12].fill(0xff);
    record[28..560].fill(0xff);
    record[564..576].fill(0xff);
}

fn inline() -> Vec<Case> {
    let send = |length: usize| Send::new(1, WRITE).inline(&vec![9; length]).remote(B_VIRT, B_KEY);
    let mut cases = Vec::new();
    for length in [0, 1, 4, 5, 511, 512] {
        let mut script = Script::joined();
        script.send(0, send(length), 0, 0).poll(0, 1, 0, 1, length as u32, 0);
        script.memory(B_START, &vec![9; length]).memory(B_START + length, &[0]);
        cases.push(script.named(format!("inline-{length}")));
    }
    cases.push(one("inline-513", send(513).bytes(), 4, 0));
    cases.push(one("inline-65535", send(65535).bytes(), 4, 0));
    cases.push(one("inline-577-bytes", changed(&send(4), |record| record.push(0)), 1, 0));
    cases.push(one("inline-with-a-piece", changed(&send(1), |record| record.extend([0; 16])), 1, 0));
    cases.push(one("inline-513-too-long", changed(&send(513), |record| record.push(0)), 4, 0));
    cases.push(one("inline-read", Send::new(1, READ).inline(&[1]).remote(B_VIRT, B_KEY).bytes(), 4, 0));
    cases.push(one("inline-padding-562", changed(&send(4), |record| record[562..564].fill(0xff)), 0, 0));
    cases
}

fn pair_states() -> Vec<Case> {
    let mut numbers = Script::joined();
    for qpn in [2, 7, 8, 255] {
        numbers.send(qpn, write(1), 2, 0).send_bytes(qpn, vec![0; 9], 1, 0).send(qpn, Send::new(1, 5), 4, 0);
    }
    let mut states = Script::joined();
    states.create(create_pair(0, 2, 0, 0, 0), 2).send(2, write(1), 3, 0);
    states.done(move_to(2, 1)).send(2, write(1), 3, 0).done(join(2, 1)).send(2, write(1), 3, 0);
    states.send(2, Send::new(1, 5), 4, 0).done(move_to(2, 3)).send(2, write(1), 5, 0);
    states.done(move_to(2, 6)).send(2, write(1), 0, 4).done(move_to(2, 0)).send(2, write(1), 3, 0);
    let mut error = Script::joined();
    error.send(0, write(1).remote(B_VIRT, 0), 0, 8).send(0, write(1), 0, 4);
    error.done(move_to(0, 0)).ready(0, 1).send(0, write(1), 0, 0);
    vec![numbers.named("send-numbers-not-live"), states.named("send-only-in-rts"), error.named("send-after-a-failed-send")]
}

fn peers() -> Vec<Case> {
    let mut states = Script::joined();
    states.done(move_to(1, 0)).send(0, write(1), 5, 0).done(move_to(1, 1)).send(0, write(1), 5, 0);
    states.done(join(1, 0)).send(0, write(1), 0, 0).done(move_to(1, 3)).send(0, write(1), 0, 0);
    states.done(move_to(1, 6)).send(0, write(1), 5, 0);
    let mut back = Script::joined();
    back.create(create_pair(0, 2, 0, 0, 0), 2).ready(2, 1).send(2, write(1), 5, 0).send(0, write(1), 0, 0);
    back.done(move_to(1, 0)).ready(1, 2).send(0, write(1), 5, 0).send(2, write(1), 0, 0);
    let mut gone = Script::joined();
    gone.done(destroy_pair(1)).send(0, write(1), 5, 0).create(create_pair(1, 2, 0, 1, 1), 1);
    gone.send(0, write(1), 5, 0).ready(1, 0).send(0, write(1), 0, 0);
    let mut early = Script::joined();
    early.create(create_pair(0, 2, 0, 0, 0), 2).ready(2, 5).send(2, write(1), 5, 0);
    for n in 3..6 {
        early.create(create_pair(1, 2, 0, 1, 1), n);
    }
    early.send(2, write(1), 5, 0).ready(5, 2).send(2, write(1), 0, 0);
    let mut receive = Script::joined();
    for opcode in [WRITE_IMMEDIATE, SEND, SEND_IMMEDIATE] {
        receive.send(0, Send { opcode, ..write(1) }, 5, 0);
    }
    receive.send(0, write(1), 0, 0).send(0, Send { opcode: READ, ..write(1) }, 0, 0);
    vec![
        states.named("peer-in-each-state"),
        back.named("peer-must-name-back"),
        gone.named("peer-destroyed-and-created-again"),
        early.named("peer-created-after-it-is-named"),
        receive.named("no-receive-waiting"),
    ]
}

fn places() -> Vec<Case> {
    let mut own = Script::joined_with(2, 0);
    own.fill_queue(0, 2).send(0, write(1), 6, 0).send(0, write(1).piece(0, 1, 0), 6, 0).poll(0, 900, 0, 1, 0, 0);
    own.send(0, write(1), 0, 0).send(0, write(1), 6, 0);
    let mut unsignaled = Script::joined_with(1, 1);
    unsignaled.send(0, write(1), 0, 0).poll_empty(0).fill_queue(0, 1).send(0, write(1), 6, 0);
    let mut peer = Script::joined_with(1, 0);
    peer.receive(1, 5, &[], 0).fill_queue(1, 1).send(0, Send::new(1, SEND), 6, 0).send(0, write(1), 0, 0);
    peer.send(0, write(1), 6, 0).poll(0, 7, 0, 1, 1, 0).send(0, Send::new(1, SEND), 6, 0);
    peer.poll(1, 900, 0, 1, 0, 1).send(0, Send::new(1, SEND), 0, 0).poll(1, 5, 0, 3, 0, 1);
    let mut first = Script::joined_with(1, 0);
    first.fill_queue(0, 1).done(move_to(1, 6)).send(0, write(1), 5, 0);
    vec![
        own.named("no-place-in-the-send-queue"),
        unsignaled.named("a-place-is-needed-even-if-unsignaled"),
        peer.named("no-place-in-the-peers-receive-queue"),
        first.named("held-5-before-6"),
    ]
}

/// P1 to P7: region over memory 256 to 355 at address 4096, key 1, here the target of operator A's writes.
fn marked_positions() -> Vec<Case> {
    let marks: [(&str, u64, u32, u32, u8); 9] = [
        ("p1-100-bytes", 4096, 100, 1, 0),
        ("p2-101-bytes", 4096, 101, 1, 8),
        ("p3-last-byte", 4195, 1, 1, 0),
        ("p4-past-last-byte", 4196, 1, 1, 8),
        ("p5-no-bytes-key-9999", 4096, 0, 9999, 0),
        ("p6-address-2-64-1", u64::MAX, 2, 1, 8),
        ("p7-key-2", 4096, 1, 2, 8),
        ("one-before-first-byte", 4095, 1, 1, 8),
        ("last-two-bytes", 4194, 2, 1, 0),
    ];
    let mut cases = Vec::new();
    for (name, address, length, key, status) in marks {
        let mut script = Script::new();
        script.create(create_domain(), 0).create(create_queue(16), 0).register(0, 7, 256, 100, 4096, 1);
        script.register(0, 0, 0, 128, 0, 257).create(create_pair(0, 2, 0, 0, 0), 0);
        script.create(create_pair(0, 2, 0, 0, 0), 1).join_pairs(0, 1);
        script.send(1, Send::new(2, WRITE).inline(&[3; 100]).remote(4096, 1), 0, 0).poll(0, 2, 0, 1, 100, 1);
        script.send(0, Send::new(1, WRITE).piece(0, length, 257).remote(address, key), 0, status);
        let moved = if status == 0 { length } else { 0 };
        script.poll(0, 1, status, 1, moved, 0);
        let mut wanted = [3u8; 100];
        if moved > 0 {
            let first = (address - 4096) as usize;
            wanted[first..first + length as usize].fill(0);
        }
        script.memory(256, &wanted).memory(356, &[0; 64]);
        cases.push(script.named(format!("mark-{name}")));
    }
    cases
}

fn local_pieces() -> Vec<Case> {
    let end = A_VIRT + u64::from(REGION);
    let local: [(&str, u64, u32, u32, u8); 14] = [
        ("whole-region", A_VIRT, REGION, A_KEY, 0),
        ("one-past-the-end", A_VIRT, REGION + 1, A_KEY, 3),
        ("last-byte", end - 1, 1, A_KEY, 0),
        ("overhang-by-one", end - 1, 2, A_KEY, 3),
        ("at-the-end", end, 1, A_KEY, 3),
        ("before-the-start", A_VIRT - 1, 1, A_KEY, 3),
        ("across-the-start", A_VIRT - 1, 2, A_KEY, 3),
        ("wraps", u64::MAX, 2, A_KEY, 3),
        ("key-0", A_VIRT, 1, 0, 3),
        ("key-variant-0", A_VIRT, 1, 256, 3),
        ("key-next-variant", A_VIRT, 1, A_KEY + 1, 3),
        ("key-65536-on", A_VIRT, 1, 65536 + A_KEY, 3),
        ("key-high-bits", A_VIRT, 1, 1 << 31 | A_KEY, 3),
        ("other-domains-key", B_VIRT, 1, B_KEY, 3),
    ];
    let mut cases = Vec::new();
    for (name, address, length, key, status) in local {
        let mut script = Script::joined();
        let send = Send::new(1, WRITE).piece(address, length, key).remote(B_VIRT, B_KEY);
        script.send(0, send, 0, status).poll(0, 1, status, 1, if status == 0 { length } else { 0 }, 0);
        cases.push(script.named(format!("local-{name}")));
    }
    cases
}

fn local_rights() -> Vec<Case> {
    let mut each = Script::joined();
    for bad in 0..4 {
        let mut send = Send::new(1, WRITE).remote(B_VIRT, B_KEY);
        for n in 0..4 {
            send = send.piece(A_VIRT + 10 * n, 5, if n == bad { 0 } else { A_KEY });
        }
        each.send(0, send, 0, 3).poll(0, 1, 3, 1, 0, 0).memory(B_START, &[0; 20]);
        each.done(move_to(0, 0)).ready(0, 1);
    }
    let mut rights = Script::joined();
    for (slot, access) in (2..).zip(ACCESSES) {
        let key = 256 * slot + 1;
        rights.register(0, access, 64, 64, 0, key);
        rights.send(0, Send::new(1, WRITE).piece(0, 64, key).remote(B_VIRT, B_KEY), 0, 0);
        rights.poll(0, 1, 0, 1, 64, 0);
        let status = if access & 1 == 1 { 0 } else { 3 };
        rights.send(0, Send::new(2, READ).piece(0, 64, key).remote(B_VIRT, B_KEY), 0, status);
        rights.poll(0, 2, status, 2, if status == 0 { 64 } else { 0 }, 0).done(move_to(0, 0)).ready(0, 1);
    }
    vec![each.named("local-each-piece-is-tested"), rights.named("local-rights-for-reading-and-writing")]
}

/// The message limit, over a region that covers the whole memory.
fn totals() -> Vec<Case> {
    let sums: [(&str, &[u32], u8); 9] = [
        ("4096", &[4096], 0),
        ("4097", &[4097], 1),
        ("4096-in-four", &[1024, 1024, 1024, 1024], 0),
        ("4097-in-two", &[4096, 1], 1),
        ("4100-in-four", &[1025, 1025, 1025, 1025], 1),
        ("four-of-4096", &[4096, 4096, 4096, 4096], 1),
        ("2-32", &[1 << 31, 1 << 31], 1),
        ("2-32-plus-1", &[u32::MAX, 2], 1),
        ("0-in-four", &[0, 0, 0, 0], 0),
    ];
    let mut cases = Vec::new();
    for (name, lengths, status) in sums {
        let mut script = Script::joined();
        script.register(0, 7, 0, 4096, 0, 513).register(1, 7, 0, 4096, 0, 769);
        let mut send = Send::new(1, WRITE).remote(0, 769);
        for &length in lengths {
            send = send.piece(0, length, 513);
        }
        let total = if status == 0 { lengths.iter().sum() } else { 0 };
        script.send(0, send, 0, status).poll(0, 1, status, 1, total, 0);
        cases.push(script.named(format!("total-{name}")));
    }
    let mut order = Script::joined();
    order.send(0, Send::new(1, WRITE).piece(0, 4097, 0), 0, 1).done(move_to(0, 0)).ready(0, 1);
    order.send(0, Send::new(1, WRITE).piece(0, 4096, 0), 0, 3);
    cases.push(order.named("total-status-1-before-3-before-8"));
    let mut each = Script::joined();
    each.receive(1, 5, &[], 0);
    for (opcode, completed) in [(WRITE, 1), (WRITE_IMMEDIATE, 1), (SEND, 0), (SEND_IMMEDIATE, 0), (READ, 2)] {
        each.send(0, Send { opcode, ..write(4097) }, 0, 1).poll(0, 7, 1, completed, 0, 0).done(move_to(0, 0)).ready(0, 1);
    }
    each.poll_empty(1).send(0, Send::new(8, SEND), 0, 0).poll(1, 5, 0, 3, 0, 1);
    cases.push(each.named("total-4097-of-each-opcode"));
    cases
}

fn remote_ranges() -> Vec<Case> {
    let end = B_VIRT + u64::from(REGION);
    let remote: [(&str, u64, u32, u32, u8); 10] = [
        ("whole-region", B_VIRT, REGION, B_KEY, 0),
        ("overhang-by-one", B_VIRT + 1, REGION, B_KEY, 8),
        ("last-byte", end - 1, 1, B_KEY, 0),
        ("at-the-end", end, 1, B_KEY, 8),
        ("before-the-start", B_VIRT - 1, 1, B_KEY, 8),
        ("wraps", u64::MAX - 3, 8, B_KEY, 8),
        ("senders-own-key", A_VIRT, 1, A_KEY, 8),
        ("dead-key-no-bytes", 0, 0, 0, 0),
        ("key-0", B_VIRT, 1, 0, 8),
        ("key-of-free-slot", B_VIRT, 1, 513, 8),
    ];
    let mut cases = Vec::new();
    for opcode in [WRITE, READ] {
        for (name, address, length, key, status) in remote {
            let mut script = Script::joined();
            let send = Send::new(1, opcode).piece(A_VIRT, length, A_KEY).remote(address, key);
            script.send(0, send, 0, status);
            let (done, moved) = (if opcode == READ { 2 } else { 1 }, if status == 0 { length } else { 0 });
            script.poll(0, 1, status, done, moved, 0).poll_empty(1);
            cases.push(script.named(format!("remote-{}-{name}", if opcode == READ { "read" } else { "write" })));
        }
    }
    cases
}

fn remote_rights() -> Vec<Case> {
    let mut rights = Script::joined();
    for (slot, access) in (2..).zip(ACCESSES) {
        let key = 256 * slot + 1;
        rights.register(1, access, 0, 64, 0, key);
        for (opcode, right, done) in [(WRITE, 2, 1), (READ, 4, 2)] {
            let status = if access & right != 0 { 0 } else { 8 };
            rights.send(0, Send::new(1, opcode).piece(A_VIRT, 4, A_KEY).remote(0, key), 0, status);
            rights.poll(0, 1, status, done, if status == 0 { 4 } else { 0 }, 0).done(move_to(0, 0)).ready(0, 1);
        }
    }
    let mut over = Script::joined();
    let send = Send::new(1, WRITE).piece(A_VIRT, 1000, A_KEY).piece(A_VIRT, 25, A_KEY).remote(B_VIRT, B_KEY);
    over.put(1, 0, &[5; 32]).send(0, send, 0, 8).poll(0, 1, 8, 1, 0, 0).memory(B_START, &[0; 2048]);
    over.send(1, Send::new(2, WRITE), 5, 0);
    vec![rights.named("remote-rights-for-write-and-read"), over.named("remote-range-is-the-total-not-a-piece")]
}

fn deliveries() -> Vec<Case> {
    let text: Vec<u8> = (1..=64).collect();
    let mut gather = Script::joined();
    gather.put(1, 0, &text);
    let send = Send::new(1, WRITE).piece(A_VIRT + 3, 2, A_KEY).piece(A_VIRT, 1, A_KEY).piece(A_VIRT + 60, 4, A_KEY);
    gather.send(0, send.remote(B_VIRT + 8, B_KEY), 0, 0).memory(B_START, &[0; 8]);
    gather.memory(B_START + 8, &[4, 5, 1, 61, 62, 63, 64, 0]);
    let mut read = Script::joined();
    read.put(0, 100, &text).send(
        0,
        Send::new(1, READ).piece(A_VIRT, 2, A_KEY).piece(A_VIRT + 9, 3, A_KEY).remote(B_VIRT + 100, B_KEY),
        0,
        0,
    );
    read.memory(0, &[1, 2, 0, 0, 0, 0, 0, 0, 0, 3, 4, 5, 0]);
    let mut receive = Script::joined();
    receive.put(1, 0, &text).receive(1, 6, &[piece(B_VIRT + 4, 3, B_KEY), piece(B_VIRT, 20, B_KEY)], 0);
    receive.send(0, Send::new(1, SEND).piece(A_VIRT, 6, A_KEY), 0, 0).poll(0, 1, 0, 0, 6, 0).poll(1, 6, 0, 3, 6, 1);
    receive.memory(B_START, &[4, 5, 6, 0, 1, 2, 3, 0]);
    let mut oldest = Script::joined();
    for n in 0..4 {
        oldest.receive(1, 10 + n, &[piece(B_VIRT + 8 * n, 8, B_KEY)], 0);
    }
    for n in 0..4u8 {
        oldest.send(0, Send::new(1, SEND).inline(&[n + 1; 8]), 0, 0).poll(1, 10 + u64::from(n), 0, 3, 8, 1);
        oldest.memory(B_START + 8 * usize::from(n), &[n + 1; 8]);
    }
    oldest.send(0, Send::new(1, SEND), 5, 0);
    vec![
        gather.named("pieces-are-gathered-in-order"),
        read.named("read-fills-pieces-in-order"),
        receive.named("receive-list-filled-in-order"),
        oldest.named("oldest-receive-first"),
    ]
}

fn completions() -> Vec<Case> {
    let mut cases = Vec::new();
    for signal in 0..2 {
        for flag in [0, SIGNALED] {
            let mut script = Script::joined_with(16, signal);
            script.send(0, write(4).flags(flag), 0, 0);
            if signal == 0 || flag == SIGNALED {
                script.poll(0, 7, 0, 1, 4, 0);
            }
            script.poll_empty(0).receive(1, 3, &[], 0).send(0, Send::new(8, SEND).flags(flag), 0, 0);
            script.poll(1, 3, 0, 3, 0, 1).poll_empty(1).send(0, write(REGION + 1).flags(flag), 0, 3);
            if signal == 0 || flag == SIGNALED {
                script.poll(0, 8, 0, 0, 0, 0);
            }
            script.poll(0, 7, 3, 1, 0, 0).poll_empty(0);
            cases.push(script.named(format!("signal-{signal}-flag-{}", flag >> 1)));
        }
    }
    let mut immediate = Script::joined();
    let kinds = [(WRITE_IMMEDIATE, 1, 4, 0xaabb_ccdd), (SEND, 0, 3, 0), (SEND_IMMEDIATE, 0, 3, 0xaabb_ccdd)];
    for (opcode, sent, received, shown) in kinds {
        immediate.receive(1, 5, &[piece(B_VIRT, 8, B_KEY)], 0);
        immediate.send(0, Send { opcode, ..write(4) }.immediate(0xaabb_ccdd), 0, 0);
        immediate.poll(0, 7, 0, sent, 4, 0).poll_immediate(1, 5, [0, received], 4, shown, 1);
    }
    cases.push(immediate.named("immediate-only-at-the-receiver"));
    let mut ring = Script::joined_with(3, 0);
    for n in 0..40 {
        ring.send(0, Send::new(2 * n, WRITE), 0, 0).send(0, Send::new(2 * n + 1, WRITE), 0, 0);
        ring.poll(0, 2 * n, 0, 1, 0, 0).poll(0, 2 * n + 1, 0, 1, 0, 0);
    }
    ring.poll_empty(0);
    cases.push(ring.named("completion-order-across-the-ring"));
    cases
}
