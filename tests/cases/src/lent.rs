//! Lent lengths and lent states: what no tape can show. Each check panics on a card that does anything else than documents 01 and 02 say.

pub use crate::fair::turns_are_fair;
use crate::lent_pages::PAGED_FAULTS;
pub use crate::lent_pages::{
    a_page_list_is_stored_by_numbers, each_fault_of_a_paged_region_is_found, pages_past_the_need_are_not_looked_at,
};
use crate::lent_turns::QUEUE_FAULTS;
pub use crate::lent_turns::{
    a_queue_is_written_byte_for_byte, a_queued_record_is_read_by_its_kind, each_fault_of_a_queue_is_found,
    empty_places_are_not_looked_at, forged_queues_are_served, queues_need_the_reset_length, what_drops_a_queue_writes_its_head,
};
use crate::script::{device_ack, port_ack, ACCESSES};
use cards::build::*;
use cards::{Call, Card};
use reference::layout::*;
use reference::queues::RECEIVED;
use reference::record::Completion;
use reference::{accepts, fault, Fault, Outcome, ACK_BYTES};

pub(crate) const LEFT: u8 = 0xa5;

type Check = (&'static str, fn(&dyn Card));

/// Every check by its name.
pub const CHECKS: [Check; 28] = [
    ("reset_takes_1_to_16777216", reset_takes_1_to_16777216),
    ("ack_needs_13_bytes", ack_needs_13_bytes),
    ("queries_need_129_or_33_bytes", queries_need_129_or_33_bytes),
    ("queries_report_the_card", queries_report_the_card),
    ("poll_needs_24_bytes", poll_needs_24_bytes),
    ("memory_has_the_reset_length", memory_has_the_reset_length),
    ("flushed_work_writes_its_completion_alone", flushed_work_writes_its_completion_alone),
    ("a_pair_keeps_its_access_flags", a_pair_keeps_its_access_flags),
    ("numbers_past_the_tables_are_not_live", numbers_past_the_tables_are_not_live),
    ("a_bad_state_comes_before_all_else", a_bad_state_comes_before_all_else),
    ("a_reset_mends_a_damaged_state", a_reset_mends_a_damaged_state),
    ("forged_but_acceptable_states", forged_but_acceptable_states),
    ("each_fault_is_found", each_fault_is_found),
    ("retired_slots_are_passed_over", retired_slots_are_passed_over),
    ("a_state_without_a_fault_is_taken", a_state_without_a_fault_is_taken),
    ("each_fault_of_a_paged_region_is_found", each_fault_of_a_paged_region_is_found),
    ("pages_past_the_need_are_not_looked_at", pages_past_the_need_are_not_looked_at),
    ("a_page_list_is_stored_by_numbers", a_page_list_is_stored_by_numbers),
    ("a_queue_is_written_byte_for_byte", a_queue_is_written_byte_for_byte),
    ("what_drops_a_queue_writes_its_head", what_drops_a_queue_writes_its_head),
    ("each_fault_of_a_queue_is_found", each_fault_of_a_queue_is_found),
    ("empty_places_are_not_looked_at", empty_places_are_not_looked_at),
    ("a_queued_record_is_read_by_its_kind", a_queued_record_is_read_by_its_kind),
    ("forged_queues_are_served", forged_queues_are_served),
    ("queues_need_the_reset_length", queues_need_the_reset_length),
    ("a_refused_reset_leaves_the_card", a_refused_reset_leaves_the_card),
    ("each_slot_hands_out_255_keys", each_slot_hands_out_255_keys),
    ("turns_are_fair", turns_are_fair),
];

pub(crate) fn answer(answer: u8) -> Outcome {
    Outcome { answer, ..Outcome::DONE }
}

/// Two joined pairs with a region each, a waiting receive and an unread completion.
pub(crate) fn sample(card: &dyn Card) -> Vec<u8> {
    let mut state = vec![0; STATE_BYTES];
    let mut memory = vec![0; 4096];
    card.reset(&mut state, 4096);
    let mut commands = Vec::new();
    for n in 0..2 {
        commands.push(create_domain());
        commands.push(create_queue(4));
        commands.push(register(n, 7, 0, 4096, 1 << 32));
        commands.push(create_pair(n, 2, 0, n, n));
    }
    commands.extend(ready_both(0, 1));
    for command in commands {
        assert_eq!(card.control(&mut state, &command, &mut [0; 13]), answer(0));
    }
    assert_eq!(card.post_receive(&mut state, 1, &receive(5, &[piece(0, 1, 1)])), answer(0));
    assert_eq!(card.post_send(&mut state, &mut memory, 0, &Send::new(1, 0).bytes()), answer(0));
    state
}

/// The state with a pair in error.
fn in_error(mut state: Vec<u8>, pair: usize) -> Vec<u8> {
    state[pair_row(pair) + PAIR_STATE] = ERROR;
    state
}

pub fn reset_takes_1_to_16777216(card: &dyn Card) {
    for (length, wanted) in [
        (0, 11),
        (1, 0),
        (4096, 0),
        ((1 << 20) + 1, 0),
        (16_777_215, 0),
        (16_777_216, 0),
        (16_777_217, 11),
        (1 << 32, 11),
        (u64::MAX, 11),
    ] {
        let mut state = vec![LEFT; STATE_BYTES];
        assert_eq!(card.reset(&mut state, length), answer(wanted), "length {length}");
        assert_eq!(accepts(&state), wanted == 0);
        assert_eq!(state == vec![LEFT; STATE_BYTES], wanted != 0);
        assert_eq!(card.flush(&mut state, 0), answer(if wanted == 0 { 2 } else { 15 }), "after length {length}");
    }
    for state_length in [0, 1, STATE_BYTES - 1, STATE_BYTES + 1, 2 * STATE_BYTES] {
        for length in [0, 4096] {
            let mut state = vec![LEFT; state_length];
            assert_eq!(card.reset(&mut state, length), answer(15));
            assert_eq!(state, vec![LEFT; state_length]);
        }
    }
}

pub fn ack_needs_13_bytes(card: &dyn Card) {
    let good = sample(card);
    for (command, wanted) in [(create_domain(), 0), (vec![], 1), (vec![5, 4], 13), (destroy_domain(0), 10)] {
        for length in 0..16 {
            let (mut state, mut ack) = (good.clone(), vec![LEFT; length]);
            let short = length < 13;
            assert_eq!(card.control(&mut state, &command, &mut ack), answer(if short { 12 } else { wanted }));
            assert_eq!(state == good, short || wanted != 0);
            let written = if short {
                0
            } else if wanted == 0 {
                5
            } else {
                1
            };
            assert!(ack[written..].iter().all(|&byte| byte == LEFT));
            assert!(short || ack[0] == u8::from(wanted != 0));
        }
    }
}

/// Where the record's first two bytes are 06 00 or 06 01, whatever follows them.
pub fn queries_need_129_or_33_bytes(card: &dyn Card) {
    let good = sample(card);
    let records: [(&[u8], usize, u8); 13] = [
        (&[6, 0], 129, 0),
        (&[6, 1], 33, 0),
        (&[6, 0, 0], 129, 1),
        (&[6, 1, 0], 33, 1),
        (&[6, 0, 1, 2, 3, 4], 129, 1),
        (&[6, 1, 255, 255, 255, 255], 33, 1),
        (&[6], 13, 1),
        (&[5, 0], 13, 13),
        (&[7, 1], 13, 13),
        (&[0, 0, 0], 13, 13),
        (&[0], 13, 1),
        (&[6, 6], 13, 13),
        (&[6, 11], 13, 13),
    ];
    for (command, need, wanted) in records {
        for length in 0..=140 {
            let (mut state, mut ack) = (good.clone(), vec![LEFT; length]);
            let outcome = card.control(&mut state, command, &mut ack);
            assert_eq!(outcome, answer(if length < need { 12 } else { wanted }), "{command:?}, ack of {length} bytes");
            let written = match (length < need, wanted) {
                (true, _) => vec![],
                (false, 0) if need == 129 => device_ack(4096),
                (false, 0) => port_ack(),
                _ => vec![1],
            };
            assert_eq!(ack[..written.len()], written, "{command:?}, ack of {length} bytes");
            assert!(ack[written.len()..].iter().all(|&byte| byte == LEFT), "{command:?}, ack of {length} bytes");
            assert!(state == good);
        }
    }
}

/// The largest region is the memory length of the reset, whatever the tables hold; they stay as they are.
pub fn queries_report_the_card(card: &dyn Card) {
    for memory_length in [1, 2, 100, 4095, 4096, 65_537, MOST_MEMORY - 1, MOST_MEMORY] {
        let mut state = vec![LEFT; STATE_BYTES];
        assert_eq!(card.reset(&mut state, memory_length), answer(0));
        for command in [create_domain(), create_queue(1), register(0, 7, 0, 1, 0), create_pair(0, 2, 0, 0, 0)] {
            let before = state.clone();
            let (mut device, mut port) = ([LEFT; 130], [LEFT; 34]);
            assert_eq!(card.control(&mut state, &query_device(), &mut device), answer(0));
            assert_eq!(card.control(&mut state, &query_port(), &mut port), answer(0));
            assert_eq!(device[..], [device_ack(memory_length), vec![LEFT]].concat());
            assert_eq!(port[..], [port_ack(), vec![LEFT]].concat());
            assert!(state == before);
            assert_eq!(card.control(&mut state, &command, &mut [LEFT; 13]), answer(0));
        }
    }
}

pub fn poll_needs_24_bytes(card: &dyn Card) {
    let good = sample(card);
    for (cqn, wanted) in [(0, 0), (1, 9), (2, 2), (8, 2), (256, 2), (u32::MAX, 2)] {
        for length in 0..30 {
            let (mut state, mut buffer) = (good.clone(), vec![LEFT; length]);
            let short = length < 24;
            let outcome = card.poll(&mut state, cqn, &mut buffer);
            assert_eq!(outcome, answer(if short { 12 } else { wanted }));
            let written = if outcome.answer == 0 { 24 } else { 0 };
            assert_eq!(state == good, written == 0);
            assert!(buffer[written..].iter().all(|&byte| byte == LEFT));
        }
    }
}

pub fn memory_has_the_reset_length(card: &dyn Card) {
    let good = sample(card);
    for (good, status) in [(good.clone(), 0), (in_error(good, 0), 4)] {
        for length in [0, 1, 4095, 4096, 4097, 8192] {
            for (qpn, record, wanted) in [(0, Send::new(1, 0).bytes(), 0), (0, vec![], 1), (9, Send::new(1, 0).bytes(), 2)] {
                let (mut state, mut memory) = (good.clone(), vec![LEFT; length]);
                let outcome = card.post_send(&mut state, &mut memory, qpn, &record);
                let wanted = match (length, wanted) {
                    (4096, 0) => Outcome::ended(status),
                    (4096, _) => answer(wanted),
                    _ => answer(7),
                };
                assert_eq!(outcome, wanted);
                assert_eq!(memory, vec![LEFT; length]);
                assert_eq!(state == good, wanted.answer != 0);
            }
        }
    }
}

/// Work posted in error writes the next place of its own queue and that queue's head, and no other byte of state or memory.
pub fn flushed_work_writes_its_completion_alone(card: &dyn Card) {
    let mut good = in_error(sample(card), 0);
    good[pair_row(0) + PAIR_ZERO] = LEFT;
    let record = Send::new(7, 3).immediate(9).piece(1 << 32, 4, 1).bytes();
    for (opcode, is_send) in [(0, true), (RECEIVED, false)] {
        let (mut state, mut memory) = (good.clone(), vec![LEFT; 4096]);
        let outcome = match is_send {
            true => card.post_send(&mut state, &mut memory, 0, &record),
            false => card.post_receive(&mut state, 0, &receive(7, &[piece(1 << 32, 4, 1)])),
        };
        assert_eq!(outcome, Outcome::ended(4));
        let mut wanted = good.clone();
        wanted[queue_row(0) + QUEUE_COUNT] += 1;
        Completion { wr_id: 7, status: 4, opcode, length: 0, immediate: 0, owner: 0 }.write(&mut wanted, completion_row(0, 1));
        assert!(state == wanted && memory == [LEFT; 4096]);
    }
}

/// What no call shows of the flags: they stand at byte 6 of the pair's row, in error too, and a failed request leaves them.
pub fn a_pair_keeps_its_access_flags(card: &dyn Card) {
    let mut state = sample(card);
    let mut ack = [0; 13];
    let mut step = |modify: Modify, wanted: u8, flags: u8| {
        assert_eq!(card.control(&mut state, &modify.bytes(), &mut ack), answer(wanted), "{modify:?}");
        assert_eq!((state[pair_row(0) + PAIR_ACCESS], state[pair_row(0) + PAIR_ZERO]), (flags, 0), "{modify:?}");
    };
    step(to_state(0, 3).access(2), 3, 7);
    step(to_state(0, 6).access(8), 4, 7);
    step(to_state(0, 6), 0, 7);
    step(to_state(0, 6).access(3), 0, 3);
    step(Modify { access: 4, ..to_state(0, 6) }, 0, 3);
    step(to_state(0, 6).access(4), 0, 4);
    step(to_state(0, 0).access(8), 4, 4);
    step(to_state(0, 0).access(7), 0, 0);
    step(to_state(0, 0).access(5), 0, 0);
    step(to_state(0, 6).access(1), 0, 1);
    step(to_state(0, 0), 0, 0);
    step(Modify { access: u32::MAX, ..to_state(0, 1) }, 0, 0);
    step(to_peer(0, 1).access(6), 0, 6);
    step(to_peer(0, 1).access(7), 3, 6);
    step(to_state(0, 3), 0, 6);
    let outcome = card.post_send(&mut state, &mut [0; 4096], 0, &Send::new(1, 0).piece(0, 1, 0).bytes());
    assert_eq!((outcome, state[pair_row(0) + PAIR_ACCESS]), (Outcome::ended(3), 6));
    // a new pair has none, whatever its number's row held
    for command in [destroy_pair(0), create_pair(0, 2, 0, 0, 0)] {
        state[pair_row(0) + PAIR_ACCESS] = if command[1] == 9 { 255 } else { 7 };
        assert_eq!(card.control(&mut state, &command, &mut ack), answer(0));
    }
    assert_eq!(state[pair_row(0) + PAIR_ACCESS], 0);
}

pub fn numbers_past_the_tables_are_not_live(card: &dyn Card) {
    let good = sample(card);
    for qpn in [2, 8, 255, 256, 1 << 16, u32::MAX] {
        let mut state = good.clone();
        assert_eq!(card.post_send(&mut state, &mut vec![0; 4096], qpn, &Send::new(1, 0).bytes()), answer(2));
        assert_eq!(card.enqueue(&mut state, &[0; 4096], qpn, &Send::new(1, 0).bytes()), answer(2));
        assert_eq!(card.post_receive(&mut state, qpn, &receive(1, &[])), answer(2));
        assert_eq!(card.flush(&mut state, qpn), answer(2));
        assert_eq!(state, good);
    }
}

pub fn a_bad_state_comes_before_all_else(card: &dyn Card) {
    let mut bad = sample(card);
    bad[pair_row(0) + PAIR_STATE] = 4;
    let longer = [&sample(card)[..], &[0]].concat();
    let shorter = sample(card)[..STATE_BYTES - 1].to_vec();
    for lent in [bad, longer, shorter, vec![]] {
        let (mut state, mut ack, mut memory) = (lent.clone(), [LEFT; 12], [LEFT; 5]);
        assert_eq!(card.control(&mut state, &[5], &mut ack), answer(15));
        assert_eq!(card.control(&mut state, &[5], &mut [LEFT; 13]), answer(15));
        assert_eq!(card.control(&mut state, &query_device(), &mut ack), answer(15));
        assert_eq!(card.control(&mut state, &query_port(), &mut [LEFT; 33]), answer(15));
        assert_eq!(card.register_pages(&mut state, &[5], &[1], &mut ack), answer(15));
        assert_eq!(card.register_pages(&mut state, &register(0, 7, 0, 1, 0), &[0], &mut [LEFT; 13]), answer(15));
        assert_eq!(card.post_send(&mut state, &mut memory, 99, &[]), answer(15));
        assert_eq!(card.enqueue(&mut state, &memory, 99, &[]), answer(15));
        assert_eq!(card.turn(&mut state, &mut memory), answer(15));
        assert_eq!(card.post_receive(&mut state, 99, &[]), answer(15));
        assert_eq!(card.flush(&mut state, 99), answer(15));
        assert_eq!(card.poll(&mut state, 99, &mut ack[..3]), answer(15));
        assert_eq!((state, ack, memory), (lent, [LEFT; 12], [LEFT; 5]));
    }
}

pub fn a_reset_mends_a_damaged_state(card: &dyn Card) {
    let mut state = vec![0xff; STATE_BYTES];
    assert_eq!(card.flush(&mut state, 0), answer(15));
    assert_eq!(card.reset(&mut state, 0), answer(11));
    assert_eq!(state, vec![0xff; STATE_BYTES]);
    assert_eq!(card.reset(&mut state, 1), answer(0));
    let mut ack = [LEFT; 13];
    assert_eq!(card.control(&mut state, &register(0, 0, 0, 1, 0), &mut ack), answer(2));
    assert_eq!(card.control(&mut state, &create_domain(), &mut ack), answer(0));
    assert_eq!(card.control(&mut state, &register(0, 0, 0, 1, 0), &mut ack), answer(0));
    assert_eq!(ack, [0, 0, 0, 0, 0, 1, 0, 0, 0, 1, 0, 0, 0]);
}

pub fn forged_but_acceptable_states(card: &dyn Card) {
    type Change<'a> = (&'a str, &'a [(usize, u8)], u8, u8);
    let changes: [Change; 13] = [
        ("ready to send without destination", &[(pair_row(0) + PAIR_DESTINATION, 8)], 5, 0),
        ("destination not live", &[(pair_row(0) + PAIR_DESTINATION, 7)], 5, 0),
        ("peer in state 0 with a waiting receive", &[(pair_row(1) + PAIR_STATE, 0)], 5, 0),
        ("in error", &[(pair_row(0) + PAIR_STATE, 6)], 0, 4),
        ("in error without destination", &[(pair_row(0) + PAIR_STATE, 6), (pair_row(0) + PAIR_DESTINATION, 8)], 0, 4),
        ("in error, destination not live", &[(pair_row(0) + PAIR_STATE, 6), (pair_row(0) + PAIR_DESTINATION, 7)], 0, 4),
        ("in error, its queue full", &[(pair_row(0) + PAIR_STATE, 6), (queue_row(0) + QUEUE_PLACES, 1)], 6, 0),
        ("free slot with any variant", &[(region_row(9) + REGION_VARIANT, 255)], 0, 0),
        ("queue's first place past its places", &[(queue_row(0) + QUEUE_FIRST, 15), (queue_row(0) + QUEUE_COUNT, 0)], 0, 0),
        ("free queue with any head", &[(queue_row(7) + QUEUE_PLACES, 17), (queue_row(7) + QUEUE_COUNT, 18)], 0, 0),
        ("free pair with any row", &[(pair_row(7) + PAIR_STATE, 4), (waiting_row(7) + WAITING_COUNT, 5)], 0, 0),
        ("free pair with any access flags", &[(pair_row(7) + PAIR_ACCESS, 255)], 0, 0),
        ("peer in state 0 with access flags", &[(pair_row(1) + PAIR_STATE, 0), (pair_row(1) + PAIR_ACCESS, 7)], 5, 0),
    ];
    for (name, bytes, answer, status) in changes {
        let mut state = sample(card);
        for &(at, value) in bytes {
            state[at] = value;
        }
        let outcome = card.post_send(&mut state, &mut vec![0; 4096], 0, &Send::new(1, 0).bytes());
        assert_eq!(outcome, Outcome { answer, status, served: 0 }, "{name}");
    }
}

/// A fault, and the bytes of the sample that make it. A wrong length is made apart.
const FAULTS: [(Fault, usize, &[u8]); 41] = [
    (Fault::MemoryLength, MEMORY_LENGTH, &[0, 0]),
    (Fault::MemoryLength, MEMORY_LENGTH + 3, &[1]),
    (Fault::DomainFlag, DOMAIN_FLAGS + 5, &[2]),
    (Fault::QueueFlag, QUEUE_FLAGS + 7, &[2]),
    (Fault::QueuePlaces, queue_row(1) + QUEUE_PLACES, &[0]),
    (Fault::QueuePlaces, queue_row(0) + QUEUE_PLACES, &[17]),
    (Fault::QueueFirst, queue_row(0) + QUEUE_FIRST, &[16]),
    (Fault::QueueCount, queue_row(0) + QUEUE_COUNT, &[5]),
    (Fault::CompletionStatus, completion_row(0, 0) + COMPLETION_STATUS, &[2]),
    (Fault::CompletionOpcode, completion_row(0, 0) + COMPLETION_OPCODE, &[5]),
    (Fault::CompletionLength, completion_row(0, 0) + COMPLETION_LENGTH, &[1, 16]),
    (Fault::CompletionOwner, completion_row(0, 0) + COMPLETION_OWNER, &[8]),
    (Fault::RegionFlag, REGION_FLAGS + REGIONS - 1, &[2]),
    (Fault::RegionAccess, region_row(0) + REGION_ACCESS, &[8]),
    (Fault::RegionAccess, region_row(0) + REGION_ACCESS, &[2]),
    (Fault::RegionAccess, region_row(1) + REGION_ACCESS, &[6]),
    (Fault::RegionVariant, region_row(0) + REGION_VARIANT, &[0]),
    (Fault::RegionDomain, region_row(0) + REGION_DOMAIN, &[2]),
    (Fault::RegionDomain, region_row(0) + REGION_DOMAIN, &[8]),
    (Fault::RegionEmpty, region_row(0) + REGION_LENGTH, &[0, 0]),
    (Fault::RegionMemory, region_row(0) + REGION_START, &[1]),
    (Fault::RegionAddress, region_row(0) + REGION_VIRT, &[0, 0xf0, 0xff, 0xff, 0xff, 0xff, 0xff, 0xff]),
    (Fault::PairFlag, PAIR_FLAGS, &[2]),
    (Fault::PairDomain, pair_row(0) + PAIR_DOMAIN, &[2]),
    (Fault::PairDomain, pair_row(0) + PAIR_DOMAIN, &[8]),
    (Fault::PairSignal, pair_row(0) + PAIR_SIGNAL, &[2]),
    (Fault::PairSendQueue, pair_row(0) + PAIR_SEND_QUEUE, &[2]),
    (Fault::PairSendQueue, pair_row(0) + PAIR_SEND_QUEUE, &[8]),
    (Fault::PairReceiveQueue, pair_row(0) + PAIR_RECEIVE_QUEUE, &[2]),
    (Fault::PairReceiveQueue, pair_row(0) + PAIR_RECEIVE_QUEUE, &[255]),
    (Fault::PairState, pair_row(0) + PAIR_STATE, &[4]),
    (Fault::PairState, pair_row(0) + PAIR_STATE, &[5]),
    (Fault::PairState, pair_row(0) + PAIR_STATE, &[7]),
    (Fault::PairDestination, pair_row(0) + PAIR_DESTINATION, &[9]),
    (Fault::PairNamesItself, pair_row(0) + PAIR_DESTINATION, &[0]),
    (Fault::PairAccess, pair_row(0) + PAIR_ACCESS, &[8]),
    (Fault::PairAccess, pair_row(1) + PAIR_ACCESS, &[15]),
    (Fault::PairAccess, pair_row(1) + PAIR_ACCESS, &[128]),
    (Fault::WaitingFirst, waiting_row(1) + WAITING_FIRST, &[4]),
    (Fault::WaitingCount, waiting_row(1) + WAITING_COUNT, &[5]),
    (Fault::ReceivePieces, receive_row(1, 0) + RECEIVE_COUNT, &[3]),
];

/// A call of each kind but reset, with all that it is lent in order.
fn tested_calls() -> [Call; 8] {
    [
        Call::Control { command: create_domain(), ack: ACK_BYTES },
        Call::Pages { command: register(0, 7, 4095, 2, 0), pages: vec![0, 0], ack: ACK_BYTES },
        Call::Send { qpn: 0, record: Send::new(1, 0).bytes(), memory: 4096 },
        Call::Enqueue { qpn: 0, record: Send::new(1, 0).bytes(), memory: 4096 },
        Call::Turn { memory: 4096 },
        Call::Receive { qpn: 1, record: receive(1, &[]) },
        Call::Flush { qpn: 1 },
        Call::Poll { cqn: 0, buffer: COMPLETION_BYTES },
    ]
}

/// Every call answers 15 and leaves every byte.
pub(crate) fn refuses(card: &dyn Card, bad: &[u8], why: Fault) {
    assert_eq!(fault(bad), Some(why));
    for call in tested_calls() {
        let (mut state, mut memory, mut buffer) = (bad.to_vec(), vec![LEFT; 4096], vec![LEFT; call.buffer()]);
        assert_eq!(call.make(card, &mut state, &mut memory, &mut buffer), answer(15), "{} on {why:?}, {call}", card.name());
        assert!(state == bad && memory == [LEFT; 4096] && buffer.iter().all(|&byte| byte == LEFT));
    }
}

pub fn each_fault_is_found(card: &dyn Card) {
    let good = sample(card);
    let mut made = vec![Fault::StateLength];
    refuses(card, &good[1..], Fault::StateLength);
    refuses(card, &[&good[..], &[0]].concat(), Fault::StateLength);
    for (why, at, bytes) in FAULTS {
        let mut state = good.clone();
        state[at..at + bytes.len()].copy_from_slice(bytes);
        refuses(card, &state, why);
        made.push(why);
    }
    made.extend(PAGED_FAULTS.map(|(why, ..)| why));
    made.extend(QUEUE_FAULTS.map(|(why, ..)| why));
    assert!(Fault::ALL.iter().all(|fault| made.contains(fault)), "a fault is not made");
}

pub fn a_state_without_a_fault_is_taken(card: &dyn Card) {
    let good = sample(card);
    let mut edge = good.clone();
    put64(&mut edge, region_row(0) + REGION_VIRT, u64::MAX - 4096);
    let with_access = ACCESSES.map(|access| {
        let mut state = good.clone();
        state[region_row(0) + REGION_ACCESS] = access as u8;
        state
    });
    let with_flags = [0, 1, 2, 3, 4, 5, 6, 7].map(|flags| {
        let mut state = good.clone();
        state[pair_row(0) + PAIR_ACCESS] = flags;
        state
    });
    for lent in [good, edge].into_iter().chain(with_access).chain(with_flags) {
        assert_eq!(fault(&lent), None);
        let answers =
            tested_calls().map(|call| call.make(card, &mut lent.clone(), &mut [0; 4096], &mut vec![LEFT; call.buffer()]).answer);
        assert_eq!(answers, [0, 0, 0, 0, 9, 0, 3, 0], "{}", card.name());
    }
}

/// The answer and, if it is done, the key of a registration of one byte, adjacent or over a page.
fn registered(card: &dyn Card, state: &mut [u8], paged: bool) -> (u8, u32) {
    let (record, mut ack) = (register(0, 7, 0, 1, 0), [LEFT; 13]);
    let outcome = match paged {
        true => card.register_pages(state, &record, &[0], &mut ack),
        false => card.control(state, &record, &mut ack),
    };
    (outcome.answer, if outcome.answer == 0 { get32(&ack, 5) } else { 0 })
}

/// A free slot with variant 255 is retired, whatever its row holds: a registration goes past it, 8 comes where no other is free, and a
/// reset ends it.
pub fn retired_slots_are_passed_over(card: &dyn Card) {
    let mut retired = sample(card);
    for slot in 2..REGIONS {
        retired[region_row(slot) + REGION_VARIANT] = LAST_VARIANT;
    }
    let registers = |state: &mut [u8]| registered(card, state, false);
    let mut state = retired.clone();
    assert_eq!(registers(&mut state), (8, 0));
    assert!(state == retired);
    for (slot, last, key) in [(2, 254, 767), (77, 0, 77 * 256 + 1), (255, 254, 65_535)] {
        let mut state = retired.clone();
        state[region_row(slot) + REGION_VARIANT] = last;
        assert_eq!(registers(&mut state), (0, key));
        assert_eq!(registers(&mut state), (8, 0));
        assert_eq!(card.control(&mut state, &deregister(slot as u32), &mut [LEFT; 13]), answer(0));
        assert_eq!(registers(&mut state), if last == 254 { (8, 0) } else { (0, key + 1) });
    }
    assert_eq!(card.reset(&mut retired, 4096), answer(0));
    assert_eq!(card.control(&mut retired, &create_domain(), &mut [LEFT; 13]), answer(0));
    assert_eq!(registers(&mut retired), (0, 1));
}

/// A refused reset in the middle of other calls changes nothing of what they find.
pub fn a_refused_reset_leaves_the_card(card: &dyn Card) {
    let good = sample(card);
    for length in [0, MOST_MEMORY + 1, u64::MAX] {
        let mut state = good.clone();
        assert_eq!(card.reset(&mut state, length), answer(11));
        assert!(state == good);
        let mut completion = [LEFT; COMPLETION_BYTES];
        assert_eq!(card.poll(&mut state, 0, &mut completion), answer(0));
        assert_eq!(card.post_send(&mut state, &mut [0; 4096], 0, &Send::new(2, 0).bytes()), answer(0));
    }
}

/// Each slot hands out its 255 keys once, by both registrations in turn, and is dropped after each; then both are 8, until a reset.
pub fn each_slot_hands_out_255_keys(card: &dyn Card) {
    let restart = |state: &mut [u8]| {
        assert_eq!(card.reset(state, 4096), answer(0));
        assert_eq!(card.control(state, &create_domain(), &mut [LEFT; 13]), answer(0));
    };
    let (mut state, slots, keys) = (vec![LEFT; STATE_BYTES], REGIONS as u32, u32::from(LAST_VARIANT));
    restart(&mut state);
    for n in 0..slots * keys {
        let slot = n / keys;
        assert_eq!(registered(card, &mut state, n % 2 == 1), (0, 256 * slot + n % keys + 1), "{}", card.name());
        assert_eq!(card.control(&mut state, &deregister(slot), &mut [LEFT; 13]), answer(0));
    }
    assert_eq!([false, true].map(|paged| registered(card, &mut state, paged)), [(8, 0); 2]);
    restart(&mut state);
    for slot in 0..slots {
        assert_eq!(registered(card, &mut state, slot % 2 == 1), (0, 256 * slot + 1));
    }
}
