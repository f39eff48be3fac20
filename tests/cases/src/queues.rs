//! Post receive, flush and poll.

use crate::script::*;
use cards::build::*;
use reference::record::*;

pub fn cases() -> Vec<Case> {
    [receives(), flushes(), polls()].into_iter().flatten().collect()
}

fn receives() -> Vec<Case> {
    let mut records = Script::joined();
    let two = receive(1, &[piece(0, 0, 0), piece(0, 0, 0)]);
    let mut three = receive(1, &[piece(0, 0, 0); 3]);
    records.receive_bytes(1, vec![], 1).receive_bytes(1, two[..23].to_vec(), 1).receive_bytes(1, two[..55].to_vec(), 1);
    records.receive_bytes(1, [&two[..], &[0]].concat(), 1).receive_bytes(1, three.clone(), 4);
    three[8..12].copy_from_slice(&u32::MAX.to_le_bytes());
    records.receive_bytes(1, three[..24].to_vec(), 4).receive_bytes(9, three, 4).receive_bytes(9, two.clone(), 2);
    records.receive_bytes(1, two, 0).receive(1, 1, &[], 0).receive(1, 1, &[piece(0, 0, 0)], 0);
    let mut reserved = Script::joined();
    let mut record = receive(4, &[piece(B_VIRT, 8, B_KEY)]);
    record[12..24].fill(0xff);
    reserved.receive_bytes(1, record, 0).send(0, Send::new(1, SEND).inline(&[7]), 0, 0).poll(1, 4, 0, 3, 1, 1);
    let mut full = Script::joined();
    for n in 0..4 {
        full.receive(1, n, &[], 0);
    }
    full.receive(1, 4, &[], 8).send(0, Send::new(1, SEND), 0, 0).receive(1, 5, &[], 0).receive(1, 6, &[], 8);
    full.done(move_to(1, 6)).receive(1, 7, &[], 8);
    let mut states = Script::joined();
    states.create(create_pair(0, 2, 0, 0, 0), 2).receive(2, 1, &[], 3).done(move_to(2, 1)).receive(2, 1, &[], 0);
    states.done(join(2, 1)).receive(2, 1, &[], 0).done(move_to(2, 3)).receive(2, 1, &[], 0);
    states.done(move_to(2, 0)).receive(2, 1, &[], 3).receive(8, 1, &[], 2).receive(255, 1, &[], 2);
    vec![
        records.named("receive-record-lengths-and-count"),
        reserved.named("receive-reserved-bytes-ignored"),
        full.named("receive-fifth-is-8"),
        states.named("receive-in-states-1-2-3"),
    ]
}

fn flushes() -> Vec<Case> {
    let mut order = Script::joined_with(1, 0);
    order.flush(8, 2).flush(2, 2).flush(255, 2).flush(1, 3).receive(1, 1, &[], 0).receive(1, 2, &[piece(0, 9, 0)], 0);
    order.fill_queue(1, 1).done(move_to(1, 6)).flush(1, 6).poll(1, 900, 0, 1, 0, 1).flush(1, 0).flush(1, 6);
    order.poll(1, 1, 4, 3, 0, 1).flush(1, 0).flush(1, 9).poll(1, 2, 4, 3, 0, 1).flush(1, 9).poll_empty(1);
    let mut states = Script::joined();
    states.create(create_pair(0, 2, 0, 0, 0), 2).flush(2, 3).done(move_to(2, 1)).flush(2, 3);
    states.done(join(2, 1)).flush(2, 3).done(move_to(2, 3)).flush(2, 3).done(move_to(2, 6)).flush(2, 9);
    let mut dropped = Script::joined();
    dropped.receive(1, 1, &[], 0).receive(1, 2, &[], 0).done(move_to(1, 6)).done(move_to(1, 6)).flush(1, 0);
    dropped.done(move_to(1, 0)).done(move_to(1, 6)).flush(1, 9).poll(1, 1, 4, 3, 0, 1).poll_empty(1);
    vec![
        order.named("flush-one-at-a-time-9-before-6"),
        states.named("flush-only-in-error"),
        dropped.named("move-to-0-drops-receives"),
    ]
}

fn polls() -> Vec<Case> {
    let mut numbers = Script::joined();
    for cqn in [2, 7, 8, 255] {
        numbers.poll_refused(cqn, 2);
    }
    numbers.poll_empty(0).poll_empty(1);
    let mut kept = Script::joined();
    kept.send(0, Send::new(1, WRITE), 0, 0).done(destroy_pair(0)).create(create_pair(1, 2, 0, 1, 1), 0);
    kept.poll(0, 1, 0, 1, 0, 0).poll_empty(0);
    let mut apart = Script::new();
    apart.create(create_domain(), 0);
    for n in 0..4 {
        apart.create(create_queue(1), n);
    }
    apart.create(create_pair(0, 2, 0, 0, 1), 0).create(create_pair(0, 2, 0, 2, 3), 1).join_pairs(0, 1);
    apart.receive(1, 5, &[], 0).receive(1, 6, &[], 0).send(0, Send::new(1, SEND), 0, 0).poll_empty(1).poll_empty(2);
    apart.poll(0, 1, 0, 0, 0, 0).send(0, Send::new(2, SEND), 6, 0).send(0, Send::new(3, WRITE), 0, 0);
    apart.poll(3, 5, 0, 3, 0, 1).done(move_to(1, 6)).flush(1, 0).poll_empty(2).poll(3, 6, 4, 3, 0, 1).poll(0, 3, 0, 1, 0, 0);
    let mut fresh = Script::joined();
    fresh.send(0, Send::new(1, WRITE), 0, 0).done(destroy_pair(0)).done(destroy_queue(0)).poll_refused(0, 2);
    fresh.create(create_queue(2), 0).poll_empty(0);
    vec![
        numbers.named("poll-numbers-not-live"),
        kept.named("completions-stay-when-their-pair-goes"),
        apart.named("send-and-receive-queues-apart"),
        fresh.named("a-new-queue-is-empty"),
    ]
}
