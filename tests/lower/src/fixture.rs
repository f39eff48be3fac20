//! A card on which every field of a record tells: two joined pairs of two domains, and an object of each kind beside them.

use cards::build::*;
use cards::{Call, Card, Reference, Rng};
use reference::layout::STATE_BYTES;
use reference::{ack_need, ACK_BYTES};

pub const MEMORY: usize = 8192;
pub const LOCAL: u64 = 1 << 32;
pub const REMOTE: u64 = 2 << 32;
pub const LOCAL_KEY: u32 = 1;
pub const REMOTE_KEY: u32 = 257;
/// Sends; its peer has two receives waiting.
pub const SENDER: u32 = 0;
pub const RECEIVER: u32 = 1;
/// A pair in state 1, and a domain, a queue and a region that no pair names.
pub const SPARE: u32 = 2;

/// A command with just the ack bytes that it needs.
pub fn control(command: Vec<u8>) -> Call {
    let ack = ack_need(&command);
    Call::Control { command, ack }
}

pub fn state() -> Vec<u8> {
    let mut state = vec![0; STATE_BYTES];
    assert_eq!(Reference.reset(&mut state, MEMORY as u64).answer, 0);
    let mut commands: Vec<Vec<u8>> = (0..3).flat_map(|_| [create_domain(), create_queue(8)]).collect();
    commands.push(register(0, 7, 0, 4096, LOCAL));
    commands.push(register(1, 7, 4096, 4096, REMOTE));
    commands.push(register(1, 7, 0, 1, 0));
    // only flagged successes complete, so that the flag tells
    commands.push(create_pair(0, 2, 1, 0, 0));
    commands.push(create_pair(1, 2, 0, 1, 1));
    commands.push(create_pair(0, 2, 0, 1, 0));
    commands.extend(ready_both(SENDER, RECEIVER));
    commands.push(move_to(SPARE, 1));
    for command in commands {
        assert_eq!(Reference.control(&mut state, &command, &mut [0; ACK_BYTES]).answer, 0);
    }
    for wr_id in [0x1122_3344_5566_7788, 9] {
        let pieces = [piece(REMOTE + 1024, 100, REMOTE_KEY), piece(REMOTE + 2048, 500, REMOTE_KEY)];
        assert_eq!(Reference.post_receive(&mut state, RECEIVER, &receive(wr_id, &pieces)).answer, 0);
    }
    state
}

pub fn memory(rng: &mut Rng) -> Vec<u8> {
    let mut memory = vec![0; MEMORY];
    rng.fill(&mut memory);
    memory
}
