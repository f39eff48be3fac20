//! Writers of the records that a caller hands in.

use reference::layout::{INIT, LOCAL_WRITE, READY_TO_RECEIVE, READY_TO_SEND, REMOTE_READ, REMOTE_WRITE};
use reference::record::{Command, Piece, CONTROL_CLASS, COUNT_AT, INLINE, INLINE_AT, PIECE_BYTES, RECEIVE_BYTES, SEND_BYTES};

pub const MASK_STATE: u32 = 1;
pub const MASK_ACCESS: u32 = 1 << 2;
pub const MASK_DESTINATION: u32 = 1 << 15;
pub const ALL_RIGHTS: u32 = (LOCAL_WRITE | REMOTE_WRITE | REMOTE_READ) as u32;

pub fn number_command(command: u8, number: u32) -> Vec<u8> {
    [&[CONTROL_CLASS, command][..], &number.to_le_bytes()].concat()
}

pub fn query_device() -> Vec<u8> {
    vec![CONTROL_CLASS, 0]
}

pub fn query_port() -> Vec<u8> {
    vec![CONTROL_CLASS, 1]
}

pub fn create_queue(places: u32) -> Vec<u8> {
    number_command(2, places)
}

pub fn destroy_queue(cqn: u32) -> Vec<u8> {
    number_command(3, cqn)
}

pub fn create_domain() -> Vec<u8> {
    vec![CONTROL_CLASS, 4]
}

pub fn destroy_domain(pdn: u32) -> Vec<u8> {
    number_command(5, pdn)
}

pub fn register(pdn: u32, access: u32, start: u64, length: u64, virt: u64) -> Vec<u8> {
    let mut record = number_command(7, pdn);
    record.extend(access.to_le_bytes());
    for number in [start, length, virt] {
        record.extend(number.to_le_bytes());
    }
    record
}

pub fn deregister(mrn: u32) -> Vec<u8> {
    number_command(8, mrn)
}

pub fn create_pair(pdn: u32, kind: u8, signal: u8, send_cqn: u32, receive_cqn: u32) -> Vec<u8> {
    let mut record = number_command(9, pdn);
    record.extend([kind, signal, 0, 0]);
    record.extend(send_cqn.to_le_bytes());
    record.extend(receive_cqn.to_le_bytes());
    record
}

/// A modify record to be written. Its layout is in `bytes` alone.
#[derive(Clone, Copy, Debug, Default, PartialEq, Eq)]
pub struct Modify {
    pub qpn: u32,
    pub mask: u32,
    pub state: u8,
    pub padding: [u8; 3],
    pub destination: u32,
    pub access: u32,
}

impl Modify {
    /// What a command asks for, if it is a modify record of the right length.
    pub fn read(command: &[u8]) -> Option<Modify> {
        match Command::read(command) {
            Ok(Command::ModifyPair { number, mask, state, padding, destination, access }) => {
                Some(Modify { qpn: number, mask, state, padding, destination, access })
            }
            _ => None,
        }
    }

    pub fn bytes(&self) -> Vec<u8> {
        let mut record = number_command(10, self.qpn);
        record.extend(self.mask.to_le_bytes());
        record.push(self.state);
        record.extend(self.padding);
        record.extend(self.destination.to_le_bytes());
        record.extend(self.access.to_le_bytes());
        record
    }

    /// The same with these access flags.
    pub fn access(self, access: u32) -> Modify {
        Modify { mask: self.mask | MASK_ACCESS, access, ..self }
    }
}

/// A move to a state other than 2.
pub fn move_to(qpn: u32, state: u8) -> Vec<u8> {
    to_state(qpn, state).bytes()
}

/// The same, to be changed.
pub fn to_state(qpn: u32, state: u8) -> Modify {
    Modify { qpn, mask: MASK_STATE, state, ..Modify::default() }
}

/// The move to state 2 as a peer that grants nothing, to be changed.
pub fn to_peer(qpn: u32, destination: u32) -> Modify {
    Modify { qpn, mask: MASK_STATE | MASK_DESTINATION, state: READY_TO_RECEIVE, destination, ..Modify::default() }
}

/// The move to state 2, by which a pair gets all that it needs to be a peer: a destination, and every right for its peer.
pub fn join(qpn: u32, destination: u32) -> Vec<u8> {
    to_peer(qpn, destination).access(ALL_RIGHTS).bytes()
}

/// The moves of a pair from reset to ready to send.
pub fn ready(qpn: u32, destination: u32) -> [Vec<u8>; 3] {
    [move_to(qpn, INIT), join(qpn, destination), move_to(qpn, READY_TO_SEND)]
}

/// The moves of two pairs from reset to ready to send to each other.
pub fn ready_both(a: u32, b: u32) -> Vec<Vec<u8>> {
    [ready(a, b), ready(b, a)].concat()
}

pub fn destroy_pair(qpn: u32) -> Vec<u8> {
    number_command(12, qpn)
}

pub fn piece(address: u64, length: u32, key: u32) -> Piece {
    Piece { address, length, key }
}

/// A send record to be written.
#[derive(Clone, Debug, Default)]
pub struct Send {
    pub wr_id: u64,
    pub opcode: u8,
    pub flags: u8,
    pub immediate: u32,
    pub address: u64,
    pub key: u32,
    pub pieces: Vec<Piece>,
    pub inline: Vec<u8>,
}

impl Send {
    pub fn new(wr_id: u64, opcode: u8) -> Send {
        Send { wr_id, opcode, ..Send::default() }
    }

    pub fn flags(mut self, flags: u8) -> Send {
        self.flags |= flags;
        self
    }

    pub fn immediate(mut self, immediate: u32) -> Send {
        self.immediate = immediate;
        self
    }

    pub fn remote(mut self, address: u64, key: u32) -> Send {
        self.address = address;
        self.key = key;
        self
    }

    pub fn piece(mut self, address: u64, length: u32, key: u32) -> Send {
        self.pieces.push(piece(address, length, key));
        self
    }

    /// Bytes in the record itself, in place of pieces; past 512 only their number is written.
    pub fn inline(mut self, bytes: &[u8]) -> Send {
        self.inline = bytes.to_vec();
        self.flags(INLINE)
    }

    pub fn bytes(&self) -> Vec<u8> {
        let mut record = vec![0; SEND_BYTES];
        record[..8].copy_from_slice(&self.wr_id.to_le_bytes());
        record[8] = self.opcode;
        record[9] = self.flags;
        record[12..16].copy_from_slice(&self.immediate.to_le_bytes());
        record[16..24].copy_from_slice(&self.address.to_le_bytes());
        record[24..28].copy_from_slice(&self.key.to_le_bytes());
        if self.flags & INLINE != 0 {
            let fits = self.inline.len().min(COUNT_AT - INLINE_AT);
            record[INLINE_AT..INLINE_AT + fits].copy_from_slice(&self.inline[..fits]);
            record[COUNT_AT..COUNT_AT + 2].copy_from_slice(&(self.inline.len() as u16).to_le_bytes());
        } else {
            record[COUNT_AT..COUNT_AT + 4].copy_from_slice(&(self.pieces.len() as u32).to_le_bytes());
            write_pieces(&mut record, &self.pieces);
        }
        record
    }
}

/// A receive record.
pub fn receive(wr_id: u64, pieces: &[Piece]) -> Vec<u8> {
    let mut record = vec![0; RECEIVE_BYTES];
    record[..8].copy_from_slice(&wr_id.to_le_bytes());
    record[8..12].copy_from_slice(&(pieces.len() as u32).to_le_bytes());
    write_pieces(&mut record, pieces);
    record
}

fn write_pieces(record: &mut Vec<u8>, pieces: &[Piece]) {
    for piece in pieces {
        let at = record.len();
        record.resize(at + PIECE_BYTES, 0);
        piece.write(record, at);
    }
}
