//! Cards to time: thin ones with what a write needs, and full ones; their regions are of adjacent bytes, or over 16 pages each.

use cards::build::*;
use cards::{Card, Reference};
use reference::layout::*;
use reference::{Refusal, ACK_BYTES};

pub const MEMORY: usize = 1 << 16;
pub const LOCAL_VIRT: u64 = 0x10_0000;
pub const REMOTE_VIRT: u64 = 0x20_0000;
pub const LOCAL_KEY: u32 = 1;
pub const REMOTE_KEY: u32 = 257;

/// What the regions of a card lie in.
#[derive(Clone, Copy, Debug, PartialEq, Eq)]
pub enum Regions {
    Adjacent,
    Paged,
}

/// Two domains with a queue, a region and a queue pair each; the pairs are joined, and only flagged successes complete.
pub fn thin(regions: Regions) -> Vec<u8> {
    let mut state = vec![0; STATE_BYTES];
    assert_eq!(Reference.reset(&mut state, MEMORY as u64).answer, 0);
    for _ in 0..2 {
        run(&mut state, create_domain());
        run(&mut state, create_queue(MOST_PLACES as u32));
    }
    add_region(&mut state, regions, 0, 0, 8192, LOCAL_VIRT);
    add_region(&mut state, regions, 1, 32768, 8192, REMOTE_VIRT);
    for n in 0..2 {
        run(&mut state, create_pair(n, 2, 1, n, n));
    }
    join_pairs(&mut state, 0, 1);
    state
}

/// A region of adjacent bytes, or of all pages from the one with its first byte on, in steps of seven.
fn add_region(state: &mut [u8], regions: Regions, domain: u32, start: u64, length: u64, virt: u64) {
    if regions == Regions::Adjacent {
        return run(state, register(domain, 7, start, length, virt));
    }
    let whole = MEMORY as u64 / PAGE_BYTES;
    let pages: Vec<u64> = (0..MOST_PAGES as u64).map(|k| PAGE_BYTES * ((start / PAGE_BYTES + 7 * k) % whole)).collect();
    let command = register(domain, 7, 0, PAGE_BYTES * MOST_PAGES as u64, virt);
    assert_eq!(Reference.register_pages(state, &command, &pages, &mut [0; ACK_BYTES]).answer, 0);
}

/// Every domain, queue, region and pair is live, and four receives wait on each pair.
pub fn full(regions: Regions) -> Vec<u8> {
    let mut state = thin(regions);
    for n in 2..PAIRS as u32 {
        run(&mut state, create_domain());
        run(&mut state, create_queue(MOST_PLACES as u32));
        run(&mut state, create_pair(n, 2, 1, n, n));
    }
    for n in 2..REGIONS as u64 {
        add_region(&mut state, regions, (n % DOMAINS as u64) as u32, n * 1024 % MEMORY as u64, 1024, n << 32);
    }
    for n in (2..PAIRS as u32).step_by(2) {
        join_pairs(&mut state, n, n + 1);
    }
    for n in 0..PAIRS as u32 {
        for wr_id in 0..MOST_WAITING as u64 {
            assert_eq!(Reference.post_receive(&mut state, n, &receive(wr_id, &[piece(0, 64, 1), piece(64, 64, 1)])).answer, 0);
        }
    }
    state
}

/// Full tables but for the last region.
pub fn all_but_one_region() -> Vec<u8> {
    let mut state = full(Regions::Adjacent);
    run(&mut state, deregister(REGIONS as u32 - 1));
    state
}

/// A card with a domain and a queue on which the command can be done once more, and then its table is full.
pub fn once_more(command: &[u8]) -> Vec<u8> {
    let mut state = vec![0; STATE_BYTES];
    assert_eq!(Reference.reset(&mut state, MEMORY as u64).answer, 0);
    run(&mut state, create_domain());
    run(&mut state, create_queue(MOST_PLACES as u32));
    let mut last = state.clone();
    loop {
        let before = state.clone();
        match Reference.control(&mut state, command, &mut [0; ACK_BYTES]).answer {
            0 => last = before,
            answer => {
                assert_eq!(answer, Refusal::Full as u8);
                return last;
            }
        }
    }
}

/// Puts unread completions into each live queue that has a joined pair, as many as fit.
pub fn fill_queues(state: &mut [u8]) {
    let mut memory = vec![0; MEMORY];
    for n in 0..PAIRS as u32 {
        for wr_id in 0..MOST_PLACES as u64 {
            Reference.post_send(state, &mut memory, n, &Send::new(wr_id, 0).flags(2).bytes());
        }
    }
}

/// Fills the queue of each live pair with unsignaled writes of 64 bytes to its peer.
pub fn fill_sends(state: &mut [u8]) {
    for n in live_pairs(state) {
        for _ in 0..MOST_QUEUED {
            assert_eq!(Reference.enqueue(state, &[0; MEMORY], n, &write_on(n)).answer, 0);
        }
    }
}

pub fn live_pairs(state: &[u8]) -> Vec<u32> {
    (0..PAIRS as u32).filter(|&n| state[PAIR_FLAGS + n as usize] == 1).collect()
}

/// A write of 64 bytes of a pair's region to its peer's.
pub fn write_on(qpn: u32) -> Vec<u8> {
    let region = |n: u32| match n {
        0 => (LOCAL_VIRT, LOCAL_KEY),
        1 => (REMOTE_VIRT, REMOTE_KEY),
        _ => (u64::from(n) << 32, 256 * n + 1),
    };
    let ((address, key), (remote, remote_key)) = (region(qpn), region(qpn ^ 1));
    Send::new(1, 0).remote(remote, remote_key).piece(address, 64, key).bytes()
}

/// A write of `length` bytes in `pieces` pieces that succeeds without a completion.
pub fn write(length: u32, pieces: u32) -> Vec<u8> {
    let mut send = Send::new(1, 0).remote(REMOTE_VIRT, REMOTE_KEY);
    for n in 0..pieces {
        let part = length / pieces;
        send = send.piece(LOCAL_VIRT + u64::from(n * part), part, LOCAL_KEY);
    }
    send.bytes()
}

/// A write of one piece of 4,096 bytes, source and target from this offset on: with pages, over an end of one on both sides.
pub fn write_from(offset: u64) -> Vec<u8> {
    let length = MOST_MESSAGE as u32;
    Send::new(1, 0).remote(REMOTE_VIRT + offset, REMOTE_KEY).piece(LOCAL_VIRT + offset, length, LOCAL_KEY).bytes()
}

/// A write of `length` inline bytes.
pub fn inline_write(length: usize) -> Vec<u8> {
    Send::new(1, 0).remote(REMOTE_VIRT, REMOTE_KEY).inline(&vec![7; length]).bytes()
}

fn run(state: &mut [u8], command: Vec<u8>) {
    assert_eq!(Reference.control(state, &command, &mut [0; ACK_BYTES]).answer, 0);
}

fn join_pairs(state: &mut [u8], a: u32, b: u32) {
    for command in ready_both(a, b) {
        run(state, command);
    }
}
