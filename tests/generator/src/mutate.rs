//! Changes at the boundaries: one off, another domain, a missing right, a stale key, an overhang, a wrapping sum, a wrong length.

use crate::work::{key_of, peer_of};
use crate::Generator;
use cards::build::{Modify, Send, MASK_ACCESS, MASK_DESTINATION};
use cards::Call;
use reference::layout::*;
use reference::listing::Listing;
use reference::record::*;
use reference::{ack_need, ACK_BYTES};

impl Generator {
    /// A key that mostly isn't the right one.
    fn other_key(&mut self, card: &Listing, key: u32) -> u32 {
        match self.rng.below(8) {
            0 => key.wrapping_add(1),
            1 => key.wrapping_sub(1),
            2 => key.wrapping_add(256 * REGIONS as u32),
            3 => key & !0xff,
            4 => key | 1 << 31,
            5 => self.rng.choose(&self.keys.clone()).unwrap_or(0),
            _ => self.live_key(card),
        }
    }

    fn live_key(&mut self, card: &Listing) -> u32 {
        let live: Vec<usize> = (0..REGIONS).filter(|&n| card.regions[n].is_some()).collect();
        let slot = self.rng.choose(&live).unwrap_or(0);
        card.regions[slot].map_or(0, |region| key_of(slot, &region))
    }

    /// An address that just misses, or just fits, a range of `length` bytes under the key.
    fn edge_address(&mut self, card: &Listing, key: u32, length: u64) -> u64 {
        let region = match card.regions.get((key >> 8) as usize).copied().flatten() {
            Some(region) => region,
            None => return self.rng.word(),
        };
        let end = region.virt + region.length;
        match self.rng.below(7) {
            0 => region.virt.wrapping_sub(1),
            1 => end.wrapping_sub(length),
            2 => end.wrapping_sub(length).wrapping_add(1),
            3 => end,
            4 => u64::MAX,
            5 => u64::MAX.wrapping_sub(length).wrapping_add(1 + self.rng.below(2)),
            _ => region.virt,
        }
    }

    pub(crate) fn change_pieces(&mut self, pieces: &mut Vec<Piece>, card: &Listing) {
        if pieces.is_empty() {
            pieces.push(Piece { address: self.rng.word(), length: self.rng.below(3) as u32, key: self.live_key(card) });
            return;
        }
        let n = self.rng.index(pieces.len());
        match self.rng.below(8) {
            0 | 1 => pieces[n].key = self.other_key(card, pieces[n].key),
            2 | 3 => pieces[n].address = self.edge_address(card, pieces[n].key, pieces[n].length.into()),
            4 => pieces[n].length = pieces[n].length.wrapping_add(self.rng.pick(&[1, u32::MAX, 16])),
            5 => pieces[n].length = self.rng.pick(&[0, 4096, 4097, 1 << 31, u32::MAX]),
            6 => pieces[n] = Piece { address: u64::MAX, length: 0, key: self.rng.word() as u32 },
            _ => pieces.swap(0, n),
        }
    }

    pub(crate) fn change_send(&mut self, send: &mut Send, card: &Listing, number: usize) {
        let bytes = total(&send.pieces) + send.inline.len() as u64;
        match self.rng.below(12) {
            0..=3 => self.change_pieces(&mut send.pieces, card),
            4 => send.key = self.other_key(card, send.key),
            5 | 6 => send.address = self.edge_address(card, send.key, bytes),
            7 => self.set_total(send),
            8 => {
                let extra = Piece { address: self.rng.word(), length: 0, key: self.rng.word() as u32 };
                send.pieces.insert(self.rng.index(send.pieces.len() + 1), extra);
            }
            9 => send.key = self.domain_key(card, number).unwrap_or(send.key),
            10 if send.flags & INLINE != 0 => send.inline.resize(self.rng.pick(&[0, 511, 512, 513, 600]), 7),
            10 => send.pieces.resize(self.rng.pick(&[0, 3, 4, 5, 6]), Piece::default()),
            _ => send.opcode = self.rng.pick(&[0, 1, 2, 3, 4, 4, 5, 128, 255]),
        }
    }

    /// Brings the pieces' sum to one of the sides of the message limit.
    fn set_total(&mut self, send: &mut Send) {
        let goal = self.rng.pick(&[4095, 4096, 4097, 4100, 1u64 << 32, (1 << 32) + 8]);
        if let Some((last, others)) = send.pieces.split_last_mut() {
            if let Some(first) = others.first_mut() {
                first.length = if goal > 8192 { 1 << 31 } else { first.length };
            }
            last.length = goal.saturating_sub(total(others)).min(u32::MAX.into()) as u32;
        }
    }

    /// A key of the sender's own domain, where the peer's is due.
    fn domain_key(&mut self, card: &Listing, number: usize) -> Option<u32> {
        peer_of(card, number)?;
        let domain = card.pairs[number].as_ref()?.pair.domain;
        let slot = self.rng.choose(&crate::regions_of(card, domain, 0))?;
        card.regions[slot].map(|region| key_of(slot, &region))
    }

    /// Puts anything into the bytes of a send that have no meaning.
    pub(crate) fn fill_reserved(&mut self, record: &mut [u8]) {
        self.rng.fill(&mut record[10..12]);
        self.rng.fill(&mut record[28..48]);
        self.rng.fill(&mut record[564..576]);
        if record[9] & INLINE != 0 {
            let used = usize::from(get16(record, COUNT_AT)).min(MOST_INLINE);
            self.rng.fill(&mut record[INLINE_AT + used..COUNT_AT]);
            self.rng.fill(&mut record[562..564]);
        } else {
            self.rng.fill(&mut record[INLINE_AT..COUNT_AT]);
        }
    }

    pub(crate) fn change_send_record(&mut self, record: &mut Vec<u8>) {
        match self.rng.below(7) {
            0 => record[8] = self.rng.word() as u8,
            1 => record[9] = self.rng.word() as u8,
            2 => record[9] ^= INLINE,
            3 => record[COUNT_AT + self.rng.index(4)] ^= 1 << self.rng.below(8),
            _ => self.change_length(record),
        }
    }

    pub(crate) fn change_receive_record(&mut self, record: &mut Vec<u8>) {
        if self.rng.percent(40) {
            record[8 + self.rng.index(4)] = self.rng.below(4) as u8;
        } else {
            self.change_length(record);
        }
    }

    fn change_length(&mut self, record: &mut Vec<u8>) {
        let length = record.len();
        let changed = match self.rng.below(6) {
            0 => length + 1,
            1 => length.saturating_sub(1),
            2 => length + 16,
            3 => length.saturating_sub(16),
            4 => 0,
            _ => self.rng.index(700),
        };
        record.resize(changed, 0);
    }

    pub(crate) fn change_command(&mut self, mut command: Vec<u8>, card: &Listing) -> Vec<u8> {
        match self.rng.below(8) {
            0 => self.change_length(&mut command),
            1 => command[0] = self.rng.pick(&[5, 7, 0, 255]),
            2 => command[1] = self.rng.below(20) as u8,
            3 => command.truncate(self.rng.index(3)),
            4 if command.len() > 2 => {
                let at = 2 + self.rng.index(command.len() - 2);
                command[at] = self.rng.pick(&[0, 1, 2, 4, 7, 8, 16, 17, 128, 255]);
            }
            _ if matches!(command[..], [CONTROL_CLASS, 0 | 1]) => command.resize(3 + self.rng.index(40), 0),
            _ if command[1] == 7 && command.len() == 34 => self.change_registration(&mut command, card),
            _ if Modify::read(&command).is_some() => self.change_modification(&mut command),
            5 if command.len() > 2 => {
                let at = 2 + self.rng.index(command.len() - 2);
                command[at] ^= 1 << self.rng.below(8);
            }
            _ => {}
        }
        command
    }

    /// Start, length and address at both sides of their limits.
    fn change_registration(&mut self, command: &mut [u8], card: &Listing) {
        let memory = card.memory_length;
        let length = get64(command, 18);
        match self.rng.below(6) {
            0 => put64(command, 10, (memory - length.min(memory)).wrapping_add(self.rng.below(2))),
            1 => put64(command, 10, u64::MAX - self.rng.below(3)),
            2 => put64(command, 18, self.rng.pick(&[0, memory, memory + 1, u64::MAX])),
            3 => put64(command, 26, (u64::MAX - length).wrapping_add(self.rng.below(2))),
            4 => put64(command, 26, u64::MAX - self.rng.below(2)),
            _ => put32(command, 6, self.rng.pick(&[2, 6, 8, 10, 15, 16, 256, 1 << 31])),
        }
    }

    /// Mask, state, padding, destination and access flags at both sides of their limits.
    fn change_modification(&mut self, command: &mut Vec<u8>) {
        let mut modify = Modify::read(command).unwrap_or_default();
        match self.rng.below(9) {
            0 => modify.mask ^= MASK_DESTINATION,
            1 => modify.mask ^= 1 << self.rng.below(32),
            2 => modify.state = self.rng.below(8) as u8,
            3 => {
                let byte = self.rng.word() as u8;
                modify.padding[self.rng.index(3)] = byte;
            }
            4 => modify.destination = self.rng.pick(&[7, 8, 256, u32::MAX]),
            5 => modify.destination = modify.qpn,
            6 => modify.mask ^= MASK_ACCESS,
            _ => modify = modify.access(self.rng.pick(&[4, 7, 8, 15, 256, 1 << 31, u32::MAX])),
        }
        *command = modify.bytes();
    }

    /// Lent lengths and numbers that do not fit.
    pub(crate) fn change_lengths(&mut self, call: Call, card: &Listing) -> Call {
        if self.rng.percent(70) {
            return call;
        }
        match call {
            Call::Control { command, .. } => {
                let ack = self.ack_length(ack_need(&command));
                Call::Control { command, ack }
            }
            Call::Pages { command, pages, .. } => Call::Pages { command, pages, ack: self.ack_length(ACK_BYTES) },
            Call::Poll { cqn, .. } => Call::Poll { cqn, buffer: self.rng.index(28) },
            Call::Send { record, memory, .. } if self.rng.percent(50) => {
                Call::Send { qpn: self.number(PAIRS) | self.rng.pick(&[0, 8, 256]), record, memory }
            }
            Call::Send { qpn, record, .. } => Call::Send { qpn, record, memory: self.other_memory(card) },
            Call::Enqueue { record, memory, .. } if self.rng.percent(50) => {
                Call::Enqueue { qpn: self.number(PAIRS) | self.rng.pick(&[0, 8, 256]), record, memory }
            }
            Call::Enqueue { qpn, record, .. } => Call::Enqueue { qpn, record, memory: self.other_memory(card) },
            Call::Turn { .. } => Call::Turn { memory: self.other_memory(card) },
            Call::Receive { record, .. } => Call::Receive { qpn: self.number(PAIRS) | self.rng.pick(&[0, 8, 256]), record },
            Call::Flush { .. } => Call::Flush { qpn: self.rng.pick(&[8, 255, 256, u32::MAX]) },
            other => other,
        }
    }

    /// A length of memory that is mostly not the card's.
    fn other_memory(&mut self, card: &Listing) -> usize {
        let right = card.memory_length as usize;
        self.rng.pick(&[0, 1, right - 1, right + 1])
    }

    /// At both sides of what this command's ack needs, and of what another's does.
    pub(crate) fn ack_length(&mut self, need: usize) -> usize {
        match self.rng.below(4) {
            0 => self.rng.index(16),
            1 => self.rng.index(141),
            2 => self.rng.pick(&[12, 13, 32, 33, 128, 129]),
            _ => need - self.rng.index(2),
        }
    }
}
