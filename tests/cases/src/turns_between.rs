//! What happens between an enqueue and its turn: a turn runs its request on the card as it then is.

use crate::script::*;
use crate::turns::{eight, send, write};
use cards::build::*;
use reference::record::*;

pub fn cases() -> Vec<Case> {
    [regions(), peers(), dropped(), places()].into_iter().flatten().collect()
}

/// A write from operator A's region to B's.
fn to_b(wr_id: u64) -> Send {
    Send::new(wr_id, WRITE).piece(A_VIRT, 4, A_KEY).remote(B_VIRT, B_KEY)
}

/// Keys, rights and memory are those of the turn.
fn regions() -> Vec<Case> {
    let mut own = Script::joined();
    own.enqueue(0, to_b(1), 0).done(deregister(0)).turn(0, 3).poll(0, 1, 3, 1, 0, 0).memory(B_START, &[0; 8]);
    let mut far = Script::joined();
    far.enqueue(0, to_b(1), 0).enqueue(0, to_b(2), 0).turn(0, 0).done(deregister(1)).turn(0, 8);
    far.poll(0, 1, 0, 1, 4, 0).poll(0, 2, 8, 1, 0, 0);
    let mut again = Script::joined();
    again.enqueue(0, to_b(1), 0).enqueue(0, to_b(2).remote(B_VIRT, B_KEY + 1), 0).done(deregister(1));
    again.register(1, 7, B_START as u64, REGION.into(), B_VIRT, B_KEY + 1).turn(0, 8).turn(0, 4);
    again.poll(0, 1, 8, 1, 0, 0).poll(0, 2, 4, 1, 0, 0);
    let mut later = Script::joined();
    later.guest(0, &[1, 2, 3, 4]).enqueue(0, to_b(1).remote(B_VIRT, 513), 0).enqueue(
        0,
        Send { pieces: vec![piece(0x9000, 4, 769)], ..to_b(2) },
        0,
    );
    later.register(1, 3, B_START as u64, 64, B_VIRT, 513).register(0, 0, 2, 64, 0x9000, 769);
    later.turn(0, 0).memory(B_START, &[1, 2, 3, 4]).turn(0, 0).memory(B_START, &[3, 4, 0, 0]);
    let mut rights = Script::joined();
    rights.enqueue(0, to_b(1), 0).enqueue(0, to_b(2), 0).turn(0, 0).done(to_state(1, 6).bytes()).turn_refused(9);
    rights
        .done(move_to(1, 0))
        .done(move_to(1, 1))
        .done(to_peer(1, 0).access(4).bytes())
        .turn(0, 8)
        .poll(0, 1, 0, 1, 4, 0)
        .poll(0, 2, 8, 1, 0, 0);
    let mut guest = Script::joined();
    guest.guest(0, &[1, 2, 3, 4]).enqueue(0, to_b(1), 0).guest(0, &[5, 6, 7, 8]).turn(0, 0).memory(B_START, &[5, 6, 7, 8]);
    guest.enqueue(0, Send::new(2, WRITE).inline(&[9, 9]).remote(B_VIRT + 8, B_KEY), 0).guest(B_START, &[0; 16]).turn(0, 0);
    guest.memory(B_START, &[0, 0, 0, 0, 0, 0, 0, 0, 9, 9, 0]);
    vec![
        own.named("queued-then-its-own-region-dropped"),
        far.named("queued-then-the-remote-region-dropped"),
        again.named("queued-then-the-region-registered-again"),
        later.named("queued-before-its-regions-are-registered"),
        rights.named("queued-then-the-peer-grants-less"),
        guest.named("queued-then-the-guest-writes"),
    ]
}

/// Peer, receives and signal are those of the turn.
fn peers() -> Vec<Case> {
    let mut receive = Script::joined();
    receive.enqueue(0, Send::new(1, SEND).inline(&[7; 4]), 0).receive(1, 5, &[piece(B_VIRT, 4, B_KEY)], 0);
    receive.receive(1, 6, &[piece(B_VIRT + 8, 4, B_KEY)], 0).turn(0, 0).memory(B_START, &[7, 7, 7, 7, 0, 0, 0, 0, 0]);
    receive.poll(1, 5, 0, 3, 4, 1).enqueue(0, Send::new(2, SEND).inline(&[8; 4]), 0).done(deregister(1)).turn(0, 7);
    receive.poll(1, 6, 3, 3, 0, 1).poll(0, 1, 0, 0, 4, 0).poll(0, 2, 7, 0, 0, 0);
    let mut taken = Script::joined();
    taken.receive(1, 5, &[], 0).enqueue(0, send(1), 0).enqueue(0, send(2), 0).turn(0, 0).turn_refused(9).poll(1, 5, 0, 3, 0, 1);
    taken.receive(1, 6, &[], 0).turn(0, 0).poll(1, 6, 0, 3, 0, 1).poll_empty(1);
    // the peer's number is created again, in the sender's own domain: it is the peer when it names back
    let mut replaced = Script::joined();
    replaced.enqueue(0, to_b(1), 0).enqueue(0, to_b(2).remote(A_VIRT + 8, A_KEY), 0).done(destroy_pair(1)).turn_refused(9);
    replaced.create(create_pair(0, 2, 0, 1, 1), 1).turn_refused(9).ready(1, 0).turn(0, 8).turn(0, 4);
    let mut unsignaled = Script::joined_with(16, 1);
    unsignaled.enqueue(0, to_b(1), 0).enqueue(0, to_b(2).flags(SIGNALED), 0).turn(0, 0).poll_empty(0).turn(0, 0);
    unsignaled.poll(0, 2, 0, 1, 4, 0).poll_empty(0);
    let mut shared = eight(2, 0);
    shared.receive(1, 5, &[], 0).receive(1, 6, &[], 0).done(destroy_pair(0)).create(create_pair(0, 2, 0, 1, 1), 0).ready(0, 1);
    shared.enqueue(0, send(1), 0).enqueue(0, write(2), 0).turn(0, 0).turn_refused(9).poll(1, 1, 0, 0, 0, 0).turn(0, 0);
    shared.poll(1, 5, 0, 3, 0, 1).poll(1, 2, 0, 1, 4, 0).poll_empty(1);
    vec![
        receive.named("queued-before-the-receive-that-it-takes"),
        taken.named("queued-sends-take-one-receive-each"),
        replaced.named("queued-then-the-peer-is-another"),
        unsignaled.named("queued-unsignaled-success-puts-nothing"),
        shared.named("queued-to-a-peer-in-one-completion-queue"),
    ]
}

/// A move to 0 and a destruction drop the queue and put nothing; a move to 6 keeps it.
fn dropped() -> Vec<Case> {
    let mut reset = eight(16, 0);
    for wr_id in 1..=8 {
        reset.enqueue(2, write(wr_id), 0);
    }
    reset.turn(2, 0).poll(2, 1, 0, 1, 4, 2).done(move_to(2, 0)).turn_refused(9).poll_empty(2).ready(2, 3).turn_refused(9);
    reset.send(2, write(20), 0, 0).poll(2, 20, 0, 1, 4, 2).enqueue(2, write(21), 0).turn(2, 0).poll(2, 21, 0, 1, 4, 2);
    reset.enqueue(2, write(22), 0).done(move_to(2, 6)).done(move_to(2, 0)).done(move_to(2, 6)).turn_refused(9).poll_empty(2);
    reset.send(2, write(23), 0, 4).poll(2, 23, 4, 1, 0, 2);
    let mut refused = eight(16, 0);
    refused.enqueue(2, write(1), 0);
    for state in [1, 3] {
        refused.refused(move_to(2, state), 3);
    }
    refused.refused(join(2, 3), 3).refused(to_state(2, 0).access(8).bytes(), 4).turn(2, 0).poll(2, 1, 0, 1, 4, 2);
    let mut gone = eight(16, 0);
    for wr_id in 1..=8 {
        gone.enqueue(2, write(wr_id), 0);
    }
    gone.done(destroy_pair(2))
        .turn_refused(9)
        .enqueue(2, write(9), 2)
        .send(2, write(9), 2, 0)
        .create(create_pair(0, 2, 0, 2, 2), 2);
    gone.turn_refused(9).enqueue(2, write(9), 3).ready(2, 3).turn_refused(9).send(2, write(9), 0, 0).poll(2, 9, 0, 1, 4, 2);
    // one in error, whose head would be flushed
    gone.enqueue(4, write(1), 0).done(move_to(4, 6)).done(destroy_pair(4)).turn_refused(9).poll_empty(4);
    gone.create(create_pair(0, 2, 0, 4, 4), 4).done(move_to(4, 6)).turn_refused(9).poll_empty(4);
    gone.enqueue(2, write(10), 0).turn(2, 0).poll(2, 10, 0, 1, 4, 2).turn_refused(9).poll_empty(2);
    let mut kept = eight(16, 0);
    kept.enqueue(2, write(1), 0)
        .enqueue(2, send(2), 0)
        .done(to_state(2, 6).access(1).bytes())
        .turn(2, 4)
        .done(move_to(2, 6))
        .turn(2, 4);
    kept.poll(2, 1, 4, 1, 0, 2).poll(2, 2, 4, 0, 0, 2).turn_refused(9);
    let mut used = eight(16, 0);
    used.enqueue(2, write(1), 0)
        .refused(destroy_queue(2), 10)
        .refused(destroy_domain(0), 10)
        .done(destroy_pair(2))
        .done(destroy_queue(2));
    used.turn_refused(9);
    vec![
        reset.named("queue-dropped-by-a-move-to-0"),
        refused.named("queue-kept-by-a-refused-move"),
        gone.named("queue-gone-with-its-pair"),
        kept.named("queue-kept-by-a-move-to-6"),
        used.named("queue-keeps-its-pair-no-longer"),
    ]
}

/// The turn place: what moves it, and what does not.
fn places() -> Vec<Case> {
    let mut destroyed = eight(16, 0);
    destroyed.enqueue(4, write(1), 0).turn(4, 0).done(destroy_pair(4)).enqueue(2, write(2), 0).enqueue(5, write(3), 0);
    destroyed.enqueue(3, write(4), 0).done(move_to(5, 6)).turn(5, 4).turn(2, 0).turn(3, 0);
    destroyed
        .create(create_pair(0, 2, 0, 4, 4), 4)
        .ready(4, 5)
        .enqueue(4, write(5), 0)
        .enqueue(0, write(6), 0)
        .turn(0, 0)
        .turn_refused(9);
    let mut kept = eight(16, 0);
    kept.enqueue(2, write(1), 0).turn(2, 0);
    kept.send(6, write(2), 0, 0)
        .send(0, write(2), 0, 0)
        .send(8, write(2), 2, 0)
        .enqueue(8, write(2), 2)
        .turn_lent(1, 7)
        .turn_refused(9);
    kept.done(move_to(6, 0)).ready(6, 7).refused(create_pair(0, 2, 0, 0, 0), 8).poll(6, 2, 0, 1, 4, 6).receive(3, 1, &[], 0);
    kept.enqueue(1, write(3), 0).enqueue(5, write(4), 0).done(destroy_pair(6)).turn(5, 0).turn(1, 0);
    let mut reset = eight(16, 0);
    reset.enqueue(5, write(1), 0).turn(5, 0).reset().turn_refused(9);
    reset.create(create_domain(), 0).register(0, 7, 0, REGION.into(), A_VIRT, A_KEY).create(create_queue(16), 0);
    for n in 0..8 {
        reset.create(create_pair(0, 2, 0, 0, 0), n);
    }
    for n in [0, 2, 4, 6] {
        reset.join_pairs(n, n + 1);
    }
    for n in [6, 4, 1] {
        reset.enqueue(n, write(n.into()), 0);
    }
    reset.turn(1, 0).turn(4, 0).turn(6, 0);
    let mut refused = eight(16, 0);
    refused.enqueue(5, write(1), 0).turn(5, 0).enqueue(5, write(2), 0).enqueue(6, write(3), 0);
    for memory_length in [0, 1 << 25] {
        refused.call(cards::Call::Reset { memory_length }, 11, 0, vec![]);
    }
    refused.turn(6, 0).turn(5, 0);
    vec![
        destroyed.named("turn-place-after-a-destroyed-pair"),
        kept.named("turn-place-kept-by-other-calls"),
        reset.named("turn-place-0-after-a-reset"),
        refused.named("turn-place-kept-by-a-refused-reset"),
    ]
}
