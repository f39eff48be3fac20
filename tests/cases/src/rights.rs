//! Access flags of a queue pair: how they are set, kept and dropped, and what they allow its peer.

use crate::script::*;
use cards::build::*;
use reference::record::*;

pub fn cases() -> Vec<Case> {
    [fields(), granted(), unset(), moves(), regions(), local_uses()].into_iter().flatten().collect()
}

fn write(length: u32) -> Send {
    Send::new(7, WRITE).piece(A_VIRT, length, A_KEY).remote(B_VIRT, B_KEY)
}

fn read(length: u32) -> Send {
    Send { opcode: READ, ..write(length) }
}

/// The two operators with A's pair and B's at these access flags; None: the mask never has bit 2.
fn joined_at(a: Option<u32>, b: Option<u32>) -> Script {
    let mut script = Script::joined();
    script.join_at(0, 1, a).join_at(1, 0, b);
    script
}

impl Script {
    /// Brings a pair by reset to ready to send at these access flags.
    fn join_at(&mut self, qpn: u32, destination: u32, access: Option<u32>) -> &mut Script {
        let peer = to_peer(qpn, destination);
        self.done(move_to(qpn, 0)).done(move_to(qpn, 1));
        self.done(access.map_or(peer, |access| peer.access(access)).bytes()).done(move_to(qpn, 3))
    }

    /// A request of A's pair on B's region, its completion, and A's pair brought back if it failed.
    fn tried(&mut self, send: Send, status: u8) -> &mut Script {
        let completed = if send.opcode == READ { 2 } else { 1 };
        let length = if status == 0 { send.pieces.iter().map(|piece| piece.length).sum() } else { 0 };
        self.send(0, send, 0, status).poll(0, 7, status, completed, length, 0);
        if status != 0 {
            self.join_at(0, 1, None);
        }
        self
    }

    /// A write and a read of four bytes, each done if B's pair grants it.
    fn granted(&mut self, write_status: u8, read_status: u8) -> &mut Script {
        self.tried(write(4), write_status).tried(read(4), read_status)
    }
}

/// The status of a remote use that needs this bit of the flags.
fn status(flags: u32, bit: u32) -> u8 {
    if flags & bit != 0 {
        0
    } else {
        8
    }
}

/// What the flags of a record may be, with bit 2 of the mask and without it.
fn fields() -> Vec<Case> {
    let mut good = Script::joined();
    good.create(create_pair(0, 2, 0, 0, 0), 2);
    for access in 0..=7 {
        for modify in
            [to_state(2, 1), to_peer(2, 1), to_state(2, 3), to_state(2, 6), to_state(2, 6), to_state(2, 0), to_state(2, 0)]
        {
            good.done(modify.access(access).bytes());
        }
    }
    let bad = [8, 9, 15, 16, 128, 255, 256, 1 << 16, 1 << 31, u32::MAX];
    let mut refused = Script::joined();
    for access in bad {
        for state in [0, 1, 3, 6] {
            refused.refused(to_state(0, state).access(access).bytes(), 4).refused(to_state(2, state).access(access).bytes(), 4);
        }
        refused.refused(to_peer(0, 1).access(access).bytes(), 4).refused(to_peer(9, 1).access(access).bytes(), 4);
    }
    // 4 before 2 before 3, and nothing has changed
    refused.refused(to_state(2, 6).access(7).bytes(), 2).refused(to_state(0, 1).access(7).bytes(), 3);
    refused.refused(to_state(1, 3).access(0).bytes(), 3).granted(0, 0);
    let mut ignored = Script::joined();
    ignored.create(create_pair(0, 2, 0, 0, 0), 2);
    for access in bad {
        for modify in [to_state(2, 1), to_peer(2, 1), to_state(2, 3), to_state(2, 6), to_state(2, 0)] {
            ignored.done(Modify { access, ..modify }.bytes());
        }
    }
    let mut masks = Script::joined();
    let fails = to_state(0, 6).access(7);
    for mask in [4, 4 | 32768, 5 | 1 << 1, 5 | 1 << 3, 5 | 1 << 14, 5 | 1 << 16, 5 | 1 << 31, 5 | 32768] {
        masks.refused(Modify { mask, ..fails }.bytes(), 4);
    }
    masks.refused(to_state(0, 2).access(7).bytes(), 4).refused(Modify { padding: [0, 1, 0], ..fails }.bytes(), 4);
    masks.refused(to_state(0, 4).access(7).bytes(), 4).done(fails.bytes());
    let mut lengths = Script::joined();
    for modify in [to_state(0, 6), fails, to_peer(0, 1), to_peer(0, 1).access(7)] {
        for length in [2, 6, 17, 18, 19, 21, 23, 26, 38] {
            let mut record = modify.bytes();
            record.resize(length, 0);
            lengths.refused(record, 1);
        }
    }
    vec![
        good.named("rights-0-to-7-with-each-state"),
        refused.named("rights-above-7-refused-first"),
        ignored.named("rights-ignored-without-bit-2"),
        masks.named("rights-beside-other-mask-bits"),
        lengths.named("rights-record-has-20-bytes-of-data"),
    ]
}

/// Each opcode at each value of the peer's flags. The sender's own grant nothing where the peer's grant all, and all where they grant nothing.
fn granted() -> Vec<Case> {
    let mut cases = Vec::new();
    for flags in 0..=7 {
        let mut script = joined_at(Some(7 - flags), Some(flags));
        script.granted(status(flags, 2), status(flags, 4)).receive(1, 5, &[piece(B_VIRT, 64, B_KEY)], 0);
        let immediate = Send { opcode: WRITE_IMMEDIATE, ..write(4) }.immediate(9);
        script.tried(immediate, status(flags, 2));
        if flags & 2 != 0 {
            script.poll_immediate(1, 5, [0, 4], 4, 9, 1).receive(1, 5, &[piece(B_VIRT, 64, B_KEY)], 0);
        }
        script.poll_empty(1).send(0, Send::new(8, SEND).inline(&[5; 6]), 0, 0).poll(0, 8, 0, 0, 6, 0).poll(1, 5, 0, 3, 6, 1);
        script.memory(B_START, &[5, 5, 5, 5, 5, 5, 0]);
        cases.push(script.named(format!("rights-of-the-peer-{flags}")));
    }
    let mut bytes = joined_at(Some(0), Some(4));
    bytes.done(move_to(1, 0)).done(to_state(1, 1).access(6).bytes()).done(to_peer(1, 0).bytes()).done(move_to(1, 3));
    bytes.send(0, Send::new(7, WRITE).inline(&[6; 8]).remote(B_VIRT, B_KEY), 0, 0).poll(0, 7, 0, 1, 8, 0);
    bytes.join_at(1, 0, Some(4)).tried(read(8), 0).memory(0, &[6, 6, 6, 6, 6, 6, 6, 6, 0]);
    bytes.send(0, Send::new(7, WRITE).inline(&[1; 8]).remote(B_VIRT, B_KEY), 0, 8).poll(0, 7, 8, 1, 0, 0);
    bytes.memory(B_START, &[6; 8]);
    cases.push(bytes.named("rights-to-be-read-and-not-written"));
    cases
}

/// Flags that were never set, or not since creation or the last move to 0, are 0.
fn unset() -> Vec<Case> {
    let mut never = joined_at(None, None);
    never.granted(8, 8).receive(1, 5, &[piece(B_VIRT, 8, B_KEY)], 0).send(0, Send::new(7, SEND).piece(A_VIRT, 8, A_KEY), 0, 0);
    never.poll(0, 7, 0, 0, 8, 0).poll(1, 5, 0, 3, 8, 1);
    let mut empty = joined_at(Some(0), Some(0));
    for key in [B_KEY, 0, 9999] {
        for opcode in [WRITE, READ] {
            empty
                .tried(Send::new(7, opcode).remote(u64::MAX, key), 0)
                .tried(Send::new(7, opcode).piece(0, 0, 0).remote(0, key), 0);
        }
    }
    empty.receive(1, 5, &[], 0).tried(Send::new(7, WRITE_IMMEDIATE).immediate(3), 0).poll_immediate(1, 5, [0, 4], 0, 3, 1);
    empty.tried(write(1), 8).tried(read(1), 8);
    let mut reset = joined_at(Some(0), Some(7));
    reset.granted(0, 0).done(move_to(1, 0)).join_at(1, 0, None).granted(8, 8).join_at(1, 0, Some(7)).granted(0, 0);
    reset
        .done(to_state(1, 0).access(7).bytes())
        .done(move_to(1, 1))
        .done(to_peer(1, 0).bytes())
        .done(move_to(1, 3))
        .granted(8, 8);
    reset.join_at(1, 0, Some(7)).done(to_state(1, 6).access(7).bytes()).done(to_state(1, 0).access(7).bytes());
    reset.done(to_state(1, 0).access(7).bytes()).join_at(1, 0, None).granted(8, 8);
    let mut created = joined_at(Some(0), Some(7));
    created.granted(0, 0).done(destroy_pair(1)).create(create_pair(1, 2, 0, 1, 1), 1).done(move_to(1, 1));
    created.done(to_peer(1, 0).bytes()).done(move_to(1, 3)).granted(8, 8);
    created.done(destroy_pair(1)).create(create_pair(1, 2, 0, 1, 1), 1).done(to_state(1, 1).access(6).bytes());
    created.done(to_peer(1, 0).bytes()).done(move_to(1, 3)).granted(0, 0);
    vec![
        never.named("rights-never-set"),
        empty.named("rights-are-not-asked-for-no-bytes"),
        reset.named("rights-are-gone-after-a-move-to-0"),
        created.named("rights-are-gone-with-the-pair"),
    ]
}

/// Each move may set the flags; a later one with bit 2 replaces them, and one without it leaves them.
fn moves() -> Vec<Case> {
    let mut cases = Vec::new();
    for (name, flags) in [
        ("set-with-state-1", [Some(7), None, None]),
        ("set-with-state-2", [None, Some(7), None]),
        ("set-with-state-3", [None, None, Some(7)]),
        ("replaced-by-0", [Some(7), Some(7), Some(0)]),
        ("replaced-in-turn", [Some(0), Some(2), Some(4)]),
        ("replaced-and-kept", [Some(4), Some(2), None]),
    ] {
        let mut script = joined_at(Some(0), None);
        script.done(move_to(1, 0));
        for (modify, access) in [to_state(1, 1), to_peer(1, 0), to_state(1, 3)].into_iter().zip(flags) {
            script.done(access.map_or(modify, |access| modify.access(access)).bytes());
        }
        let last = flags.into_iter().flatten().last().unwrap_or(0);
        script.granted(status(last, 2), status(last, 4));
        cases.push(script.named(format!("rights-{name}")));
    }
    let mut early = joined_at(Some(0), Some(0));
    early.done(move_to(1, 0)).done(move_to(1, 1)).done(to_peer(1, 0).access(6).bytes()).granted(0, 0);
    early.done(to_state(1, 3).access(4).bytes()).granted(8, 0);
    cases.push(early.named("rights-of-a-peer-in-state-2"));
    cases
}

/// A byte needs the right in its region and in the flags.
fn regions() -> Vec<Case> {
    let mut both = joined_at(Some(7), None);
    for (slot, access) in (2..).zip(ACCESSES) {
        let key = 256 * slot + 1;
        both.register(1, access, 0, 64, 0, key);
        for flags in [0, 1, 2, 4, 6, 7] {
            both.join_at(1, 0, Some(flags)).tried(write(4).remote(0, key), status(flags & access, 2));
            both.tried(read(4).remote(0, key), status(flags & access, 4));
        }
    }
    let mut order = joined_at(Some(0), Some(0));
    order.tried(write(4097), 1).tried(write(4).piece(0, 1, 0), 3).tried(read(4).piece(0, 1, 0), 3).tried(write(4), 8);
    order.tried(write(4).remote(B_VIRT, 0), 8).tried(read(4).remote(A_VIRT, A_KEY), 8);
    vec![both.named("rights-of-region-and-pair"), order.named("rights-after-statuses-1-and-3")]
}

/// A sender's own entries and a receive's list look at the region alone, whatever the flags of their pair are.
fn local_uses() -> Vec<Case> {
    let mut local = joined_at(Some(0), Some(6));
    local.granted(0, 0).tried(read(REGION), 0).tried(write(REGION), 0);
    let mut list = joined_at(None, None);
    for (flags, wr_id) in (0..=7).zip(10..) {
        list.join_at(1, 0, Some(flags)).receive(1, wr_id, &[piece(B_VIRT, 4, B_KEY)], 0);
        list.send(0, Send::new(7, SEND).inline(&[flags as u8; 4]), 0, 0).poll(0, 7, 0, 0, 4, 0).poll(1, wr_id, 0, 3, 4, 1);
        list.memory(B_START, &[flags as u8; 4]);
    }
    list.join_at(1, 0, Some(7)).register(1, 4, 0, 64, 0, 513).receive(1, 5, &[piece(0, 4, 513)], 0);
    list.send(0, Send::new(7, SEND).inline(&[9; 4]), 0, 7).poll(0, 7, 7, 0, 0, 0).poll(1, 5, 3, 3, 0, 1).memory(0, &[0; 4]);
    vec![local.named("rights-of-the-sender-do-not-matter"), list.named("rights-do-not-matter-to-receives")]
}
