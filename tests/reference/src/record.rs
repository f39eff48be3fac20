//! The records of document 01: what a caller hands in, and the completion that it gets.

use crate::answer::Refusal;
use crate::layout::*;

pub const CONTROL_CLASS: u8 = 6;
/// The command that registers a region.
pub const REGISTER: u8 = 7;
pub const SEND_BYTES: usize = 576;
pub const RECEIVE_BYTES: usize = 24;
pub const PIECE_BYTES: usize = 16;
pub const OPCODE_AT: usize = 8;
pub const FLAGS_AT: usize = 9;
pub const ADDRESS_AT: usize = 16;
pub const KEY_AT: usize = 24;
pub const INLINE_AT: usize = 48;
pub const COUNT_AT: usize = 560;

pub const FENCE: u8 = 1;
pub const SIGNALED: u8 = 2;
pub const SOLICITED: u8 = 4;
pub const INLINE: u8 = 8;

pub const WRITE: u8 = 0;
pub const WRITE_IMMEDIATE: u8 = 1;
pub const SEND: u8 = 2;
pub const SEND_IMMEDIATE: u8 = 3;
pub const READ: u8 = 4;

/// A range of addresses under a key.
#[derive(Clone, Copy, Debug, Default, PartialEq, Eq)]
pub struct Piece {
    pub address: u64,
    pub length: u32,
    pub key: u32,
}

impl Piece {
    pub fn read(bytes: &[u8], at: usize) -> Piece {
        Piece { address: get64(bytes, at), length: get32(bytes, at + 8), key: get32(bytes, at + 12) }
    }

    pub fn write(&self, bytes: &mut [u8], at: usize) {
        put64(bytes, at, self.address);
        put32(bytes, at + 8, self.length);
        put32(bytes, at + 12, self.key);
    }
}

/// The pieces' lengths added as whole numbers.
pub fn total(pieces: &[Piece]) -> u64 {
    pieces.iter().map(|piece| u64::from(piece.length)).sum()
}

/// What decides how a send record is read: its opcode, its flags, and how many pieces or inline bytes it has.
#[derive(Clone, Copy, Debug, PartialEq, Eq)]
pub struct Kind {
    pub opcode: u8,
    pub flags: u8,
    pub count: usize,
}

impl Kind {
    /// As it stands beside a queued record.
    pub fn read(bytes: &[u8], at: usize) -> Kind {
        let count = get16(bytes, at + KIND_COUNT).into();
        Kind { opcode: bytes[at + KIND_OPCODE], flags: bytes[at + KIND_FLAGS], count }
    }

    pub fn write(&self, bytes: &mut [u8], at: usize) {
        bytes[at + KIND_OPCODE] = self.opcode;
        bytes[at + KIND_FLAGS] = self.flags;
        put16(bytes, at + KIND_COUNT, self.count as u16);
    }

    pub fn is_inline(&self) -> bool {
        self.flags & INLINE != 0
    }
}

/// The local side of a work request.
#[derive(Clone, Copy, Debug)]
pub enum Local<'a> {
    Inline(&'a [u8]),
    Pieces { pieces: [Piece; MOST_PIECES], count: usize },
}

#[derive(Clone, Copy, Debug)]
pub struct SendRecord<'a> {
    pub wr_id: u64,
    pub opcode: u8,
    pub flags: u8,
    pub immediate: u32,
    pub address: u64,
    pub key: u32,
    pub local: Local<'a>,
}

impl<'a> SendRecord<'a> {
    pub fn read(record: &'a [u8]) -> Result<SendRecord<'a>, Refusal> {
        if record.len() < SEND_BYTES {
            return Err(Refusal::RecordLength);
        }
        let (opcode, flags) = (record[OPCODE_AT], record[FLAGS_AT]);
        if opcode > READ || flags > FENCE | SIGNALED | SOLICITED | INLINE {
            return Err(Refusal::BadField);
        }
        let count = if flags & INLINE != 0 { inline_length(record, opcode)? } else { piece_count(record)? };
        Ok(SendRecord::of(Kind { opcode, flags, count }, record))
    }

    /// A record of a kind that has passed the tests.
    pub fn of(kind: Kind, record: &'a [u8]) -> SendRecord<'a> {
        SendRecord {
            wr_id: get64(record, 0),
            opcode: kind.opcode,
            flags: kind.flags,
            immediate: get32(record, 12),
            address: get64(record, ADDRESS_AT),
            key: get32(record, KEY_AT),
            local: if kind.is_inline() { inline_bytes(record, kind.count) } else { pieces(record, kind.count) },
        }
    }

    pub fn kind(&self) -> Kind {
        let count = match self.local {
            Local::Inline(bytes) => bytes.len(),
            Local::Pieces { count, .. } => count,
        };
        Kind { opcode: self.opcode, flags: self.flags, count }
    }

    pub fn total(&self) -> u64 {
        match &self.local {
            Local::Inline(bytes) => bytes.len() as u64,
            Local::Pieces { pieces, count } => total(&pieces[..*count]),
        }
    }

    /// Opcodes 1, 2 and 3 use up one of the peer's receives.
    pub fn takes_receive(&self) -> bool {
        matches!(self.opcode, WRITE_IMMEDIATE | SEND | SEND_IMMEDIATE)
    }
}

fn inline_length(record: &[u8], opcode: u8) -> Result<usize, Refusal> {
    let length = usize::from(get16(record, COUNT_AT));
    if opcode == READ || length > MOST_INLINE {
        return Err(Refusal::BadField);
    }
    if record.len() != SEND_BYTES {
        return Err(Refusal::RecordLength);
    }
    Ok(length)
}

fn inline_bytes(record: &[u8], length: usize) -> Local<'_> {
    Local::Inline(&record[INLINE_AT..INLINE_AT + length])
}

fn piece_count(record: &[u8]) -> Result<usize, Refusal> {
    let count = get32(record, COUNT_AT) as usize;
    if count > MOST_PIECES {
        return Err(Refusal::BadField);
    }
    if record.len() != SEND_BYTES + count * PIECE_BYTES {
        return Err(Refusal::RecordLength);
    }
    Ok(count)
}

fn pieces(record: &[u8], count: usize) -> Local<'_> {
    let mut pieces = [Piece::default(); MOST_PIECES];
    for (n, piece) in pieces[..count].iter_mut().enumerate() {
        *piece = Piece::read(record, SEND_BYTES + n * PIECE_BYTES);
    }
    Local::Pieces { pieces, count }
}

/// A receive as posted and as it waits.
#[derive(Clone, Copy, Debug, PartialEq, Eq)]
pub struct ReceiveRecord {
    pub wr_id: u64,
    pub count: usize,
    pub pieces: [Piece; MOST_RECEIVE_PIECES],
}

impl ReceiveRecord {
    pub fn read(record: &[u8]) -> Result<ReceiveRecord, Refusal> {
        if record.len() < RECEIVE_BYTES {
            return Err(Refusal::RecordLength);
        }
        let count = get32(record, 8) as usize;
        if count > MOST_RECEIVE_PIECES {
            return Err(Refusal::BadField);
        }
        if record.len() != RECEIVE_BYTES + count * PIECE_BYTES {
            return Err(Refusal::RecordLength);
        }
        let mut pieces = [Piece::default(); MOST_RECEIVE_PIECES];
        for (n, piece) in pieces[..count].iter_mut().enumerate() {
            *piece = Piece::read(record, RECEIVE_BYTES + n * PIECE_BYTES);
        }
        Ok(ReceiveRecord { wr_id: get64(record, 0), count, pieces })
    }

    pub fn pieces(&self) -> &[Piece] {
        &self.pieces[..self.count]
    }
}

#[derive(Clone, Copy, Debug, PartialEq, Eq)]
pub struct Completion {
    pub wr_id: u64,
    pub status: u8,
    pub opcode: u8,
    pub length: u32,
    pub immediate: u32,
    pub owner: u32,
}

impl Completion {
    pub fn read(bytes: &[u8], at: usize) -> Completion {
        Completion {
            wr_id: get64(bytes, at),
            status: bytes[at + COMPLETION_STATUS],
            opcode: bytes[at + COMPLETION_OPCODE],
            length: get32(bytes, at + COMPLETION_LENGTH),
            immediate: get32(bytes, at + COMPLETION_IMMEDIATE),
            owner: get32(bytes, at + COMPLETION_OWNER),
        }
    }

    pub fn write(&self, bytes: &mut [u8], at: usize) {
        put64(bytes, at, self.wr_id);
        bytes[at + COMPLETION_STATUS] = self.status;
        bytes[at + COMPLETION_OPCODE] = self.opcode;
        bytes[at + COMPLETION_ZERO..][..2].fill(0);
        put32(bytes, at + COMPLETION_LENGTH, self.length);
        put32(bytes, at + COMPLETION_IMMEDIATE, self.immediate);
        put32(bytes, at + COMPLETION_OWNER, self.owner);
    }
}

/// What a registration asks for.
#[derive(Clone, Copy, Debug, PartialEq, Eq)]
pub struct Registration {
    pub domain: u32,
    pub access: u32,
    pub start: u64,
    pub length: u64,
    pub virt: u64,
}

/// A control command with its data.
#[derive(Clone, Copy, Debug, PartialEq, Eq)]
pub enum Command {
    QueryDevice,
    QueryPort,
    CreateQueue { places: u32 },
    DestroyQueue { number: u32 },
    CreateDomain,
    DestroyDomain { number: u32 },
    Register(Registration),
    Deregister { number: u32 },
    CreatePair { domain: u32, kind: u8, signal: u8, send_queue: u32, receive_queue: u32 },
    ModifyPair { number: u32, mask: u32, state: u8, padding: [u8; 3], destination: u32, access: u32 },
    DestroyPair { number: u32 },
}

impl Command {
    pub fn read(record: &[u8]) -> Result<Command, Refusal> {
        let (class, command, data) = match record {
            [class, command, data @ ..] => (*class, *command, data),
            _ => return Err(Refusal::RecordLength),
        };
        if class != CONTROL_CLASS {
            return Err(Refusal::Unknown);
        }
        let size = match command {
            0 | 1 | 4 => 0,
            2 | 3 | 5 | 8 | 12 => 4,
            7 => 32,
            9 => 16,
            10 => 20,
            _ => return Err(Refusal::Unknown),
        };
        if data.len() != size {
            return Err(Refusal::RecordLength);
        }
        Ok(match command {
            0 => Command::QueryDevice,
            1 => Command::QueryPort,
            2 => Command::CreateQueue { places: get32(data, 0) },
            3 => Command::DestroyQueue { number: get32(data, 0) },
            4 => Command::CreateDomain,
            5 => Command::DestroyDomain { number: get32(data, 0) },
            7 => Command::Register(Registration::read(data)),
            8 => Command::Deregister { number: get32(data, 0) },
            9 => read_create_pair(data),
            10 => read_modify_pair(data),
            _ => Command::DestroyPair { number: get32(data, 0) },
        })
    }
}

impl Registration {
    /// The data has 32 bytes.
    fn read(data: &[u8]) -> Registration {
        Registration {
            domain: get32(data, 0),
            access: get32(data, 4),
            start: get64(data, 8),
            length: get64(data, 16),
            virt: get64(data, 24),
        }
    }

    /// A command that registers, and no other.
    pub fn of_command(record: &[u8]) -> Result<Registration, Refusal> {
        match record {
            [CONTROL_CLASS, REGISTER, data @ ..] if data.len() == 32 => Ok(Registration::read(data)),
            [CONTROL_CLASS, REGISTER, ..] | [_] | [] => Err(Refusal::RecordLength),
            _ => Err(Refusal::Unknown),
        }
    }
}

fn read_create_pair(data: &[u8]) -> Command {
    Command::CreatePair {
        domain: get32(data, 0),
        kind: data[4],
        signal: data[5],
        send_queue: get32(data, 8),
        receive_queue: get32(data, 12),
    }
}

fn read_modify_pair(data: &[u8]) -> Command {
    Command::ModifyPair {
        number: get32(data, 0),
        mask: get32(data, 4),
        state: data[8],
        padding: [data[9], data[10], data[11]],
        destination: get32(data, 12),
        access: get32(data, 16),
    }
}
