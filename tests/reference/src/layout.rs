//! Where each table stands in the lent state (docs/STATE.md), and the limits of documents 01 and 02.

pub const DOMAINS: usize = 8;
pub const QUEUES: usize = 8;
pub const REGIONS: usize = 256;
pub const PAIRS: usize = 8;
/// The last variant of a slot's keys.
pub const LAST_VARIANT: u8 = 255;
pub const MOST_PLACES: usize = 16;
pub const MOST_WAITING: usize = 4;
/// Send records in the queue of one pair.
pub const MOST_QUEUED: usize = 8;
pub const MOST_PIECES: usize = 4;
pub const MOST_RECEIVE_PIECES: usize = 2;
pub const MOST_INLINE: usize = 512;
pub const MOST_MESSAGE: usize = 4096;
pub const MOST_MEMORY: u64 = 1 << 24;
pub const PAGE_BYTES: u64 = 4096;
/// Pages of one region.
pub const MOST_PAGES: usize = 16;

// ---- where each table begins: one block for each kind of object, a column of live flags and then its rows

pub const MEMORY_LENGTH: usize = 0;
/// The next pair that a turn visits.
pub const TURN: usize = 8;
/// Seven bytes behind it that nothing uses.
pub const HEADER_UNUSED: usize = 9;
pub const DOMAIN_FLAGS: usize = 16;
pub const QUEUE_FLAGS: usize = DOMAIN_FLAGS + DOMAINS;
pub const QUEUE_ROWS: usize = QUEUE_FLAGS + QUEUES;
pub const COMPLETION_ROWS: usize = QUEUE_ROWS + QUEUES * QUEUE_ROW;
pub const REGION_FLAGS: usize = COMPLETION_ROWS + QUEUES * MOST_PLACES * COMPLETION_BYTES;
pub const REGION_ROWS: usize = REGION_FLAGS + REGIONS;
pub const PAGE_ROWS: usize = REGION_ROWS + REGIONS * REGION_ROW;
pub const PAIR_FLAGS: usize = PAGE_ROWS + REGIONS * MOST_PAGES * PAGE_ROW;
pub const PAIR_ROWS: usize = PAIR_FLAGS + PAIRS;
pub const WAITING_ROWS: usize = PAIR_ROWS + PAIRS * PAIR_ROW;
pub const RECEIVE_ROWS: usize = WAITING_ROWS + PAIRS * WAITING_ROW;
pub const SENDS_ROWS: usize = RECEIVE_ROWS + PAIRS * MOST_WAITING * RECEIVE_ROW;
pub const KIND_ROWS: usize = SENDS_ROWS + PAIRS * SENDS_ROW;
pub const RECORD_ROWS: usize = KIND_ROWS + PAIRS * MOST_QUEUED * KIND_ROW;
/// The length of the lent state. Tests, timing and tools know it by this name alone.
pub const STATE_BYTES: usize = RECORD_ROWS + PAIRS * MOST_QUEUED * RECORD_ROW;

// ---- the length of each row, and its fields

const QUEUE_ROW: usize = 4;
pub const QUEUE_PLACES: usize = 0;
pub const QUEUE_FIRST: usize = 1;
pub const QUEUE_COUNT: usize = 2;
pub const QUEUE_ZERO: usize = 3;

pub const COMPLETION_BYTES: usize = 24;
pub const COMPLETION_STATUS: usize = 8;
pub const COMPLETION_OPCODE: usize = 9;
pub const COMPLETION_ZERO: usize = 10;
pub const COMPLETION_LENGTH: usize = 12;
pub const COMPLETION_IMMEDIATE: usize = 16;
pub const COMPLETION_OWNER: usize = 20;

pub const REGION_ROW: usize = 32;
pub const REGION_ACCESS: usize = 0;
pub const REGION_VARIANT: usize = 1;
pub const REGION_DOMAIN: usize = 2;
pub const REGION_KIND: usize = 3;
pub const REGION_UNUSED: usize = 4;
pub const REGION_START: usize = 8;
pub const REGION_LENGTH: usize = 16;
pub const REGION_VIRT: usize = 24;

/// A page's number: that of its first byte, in pages.
pub const PAGE_ROW: usize = 2;

pub const PAIR_ROW: usize = 8;
pub const PAIR_DOMAIN: usize = 0;
pub const PAIR_SIGNAL: usize = 1;
pub const PAIR_SEND_QUEUE: usize = 2;
pub const PAIR_RECEIVE_QUEUE: usize = 3;
pub const PAIR_STATE: usize = 4;
pub const PAIR_DESTINATION: usize = 5;
pub const PAIR_ACCESS: usize = 6;
pub const PAIR_ZERO: usize = 7;

const WAITING_ROW: usize = 2;
pub const WAITING_FIRST: usize = 0;
pub const WAITING_COUNT: usize = 1;

pub const RECEIVE_ROW: usize = 56;
pub const RECEIVE_COUNT: usize = 8;
pub const RECEIVE_UNUSED: usize = 12;
pub const RECEIVE_PIECES: [usize; MOST_RECEIVE_PIECES] = [24, 40];

const SENDS_ROW: usize = 2;
pub const SENDS_FIRST: usize = 0;
pub const SENDS_COUNT: usize = 1;

/// What the state test asks of a queued record: its opcode, its flags, and how many pieces or inline bytes it has.
pub const KIND_ROW: usize = 4;
pub const KIND_OPCODE: usize = 0;
pub const KIND_FLAGS: usize = 1;
pub const KIND_COUNT: usize = 2;

/// A queued record as it was lent, from its first byte on; what its kind says is not looked at here.
pub const RECORD_ROW: usize = 640;

pub const fn queue_row(number: usize) -> usize {
    QUEUE_ROWS + number * QUEUE_ROW
}

/// Place `place` of a queue's ring, counted on past its end.
pub const fn completion_row(number: usize, place: usize) -> usize {
    COMPLETION_ROWS + (number * MOST_PLACES + place % MOST_PLACES) * COMPLETION_BYTES
}

pub const fn region_row(number: usize) -> usize {
    REGION_ROWS + number * REGION_ROW
}

/// Place `place` of a region's pages; past the last it is where the next region's begin.
pub const fn page_row(number: usize, place: usize) -> usize {
    PAGE_ROWS + (number * MOST_PAGES + place) * PAGE_ROW
}

pub const fn pair_row(number: usize) -> usize {
    PAIR_ROWS + number * PAIR_ROW
}

pub const fn waiting_row(number: usize) -> usize {
    WAITING_ROWS + number * WAITING_ROW
}

/// Place `place` of a queue pair's receives, counted on past its end.
pub const fn receive_row(number: usize, place: usize) -> usize {
    RECEIVE_ROWS + (number * MOST_WAITING + place % MOST_WAITING) * RECEIVE_ROW
}

pub const fn sends_row(number: usize) -> usize {
    SENDS_ROWS + number * SENDS_ROW
}

/// The kind of the record at place `place` of a queue pair's sends, counted on past its end.
pub const fn kind_row(number: usize, place: usize) -> usize {
    KIND_ROWS + (number * MOST_QUEUED + place % MOST_QUEUED) * KIND_ROW
}

/// The record there.
pub const fn record_row(number: usize, place: usize) -> usize {
    RECORD_ROWS + (number * MOST_QUEUED + place % MOST_QUEUED) * RECORD_ROW
}

/// First byte and length of each column of live flags.
pub const FLAGS: [(usize, usize); 4] =
    [(DOMAIN_FLAGS, DOMAINS), (QUEUE_FLAGS, QUEUES), (REGION_FLAGS, REGIONS), (PAIR_FLAGS, PAIRS)];

/// First byte and length of each part that says what is live, what it names and where its rows stand.
pub const HEADS: [(usize, usize); 4] = [
    (0, COMPLETION_ROWS),
    (REGION_FLAGS, PAGE_ROWS - REGION_FLAGS),
    (PAIR_FLAGS, RECEIVE_ROWS - PAIR_FLAGS),
    (SENDS_ROWS, RECORD_ROWS - SENDS_ROWS),
];

/// Kinds of region: of adjacent bytes of the memory, and over pages.
pub const ADJACENT: u8 = 0;
pub const PAGED: u8 = 1;

/// A queue pair's destination that names nobody.
pub const NO_DESTINATION: u8 = 8;

pub const LOCAL_WRITE: u8 = 1;
pub const REMOTE_WRITE: u8 = 2;
pub const REMOTE_READ: u8 = 4;

pub const RESET: u8 = 0;
pub const INIT: u8 = 1;
pub const READY_TO_RECEIVE: u8 = 2;
pub const READY_TO_SEND: u8 = 3;
pub const ERROR: u8 = 6;

pub fn get16(bytes: &[u8], at: usize) -> u16 {
    u16::from_le_bytes(bytes[at..at + 2].try_into().unwrap())
}

pub fn get32(bytes: &[u8], at: usize) -> u32 {
    u32::from_le_bytes(bytes[at..at + 4].try_into().unwrap())
}

pub fn get64(bytes: &[u8], at: usize) -> u64 {
    u64::from_le_bytes(bytes[at..at + 8].try_into().unwrap())
}

pub fn put16(bytes: &mut [u8], at: usize, value: u16) {
    bytes[at..at + 2].copy_from_slice(&value.to_le_bytes());
}

pub fn put32(bytes: &mut [u8], at: usize, value: u32) {
    bytes[at..at + 4].copy_from_slice(&value.to_le_bytes());
}

pub fn put64(bytes: &mut [u8], at: usize, value: u64) {
    bytes[at..at + 8].copy_from_slice(&value.to_le_bytes());
}
