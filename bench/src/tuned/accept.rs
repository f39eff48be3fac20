//! The test of answer 15. Flags and rows are read as words; eight live regions of one kind pass by a test that is enough for them, and where it
//! fails each is tested by itself. Sixteen page numbers of a region are tested together, and where that fails those that it needs; so are the
//! eight places of a queue.

use super::{byte, get32, get64, part, State};
use reference::layout::*;
use reference::record::{INLINE, READ};

/// Eight flags that are all 1.
const ONES: u64 = 0x0101_0101_0101_0101;

type Ring = [u8; MOST_PLACES * COMPLETION_BYTES];

const PAGE_NUMBERS: usize = MOST_PAGES * PAGE_ROW;

/// The bits that access, domain and kind of a region can't have.
const REGION_OUTSIDE: u32 = 0xf8 << (8 * REGION_ACCESS) | 0xf8 << (8 * REGION_DOMAIN) | 0xfe << (8 * REGION_KIND);

/// The bits that a queue pair's row can't have: numbers up to 7, signal up to 1, state up to 7, destination up to 15, access
/// flags up to 7.
const PAIR_OUTSIDE: u64 = 0xf8 << (8 * PAIR_DOMAIN)
    | 0xfe << (8 * PAIR_SIGNAL)
    | 0xf8 << (8 * PAIR_SEND_QUEUE)
    | 0xf8 << (8 * PAIR_RECEIVE_QUEUE)
    | 0xf8 << (8 * PAIR_STATE)
    | 0xf0 << (8 * PAIR_DESTINATION)
    | 0xf8 << (8 * PAIR_ACCESS);

/// Statuses and states as sets of bits.
const STATUSES: u32 = 1 << 0 | 1 << 1 | 1 << 3 | 1 << 4 | 1 << 7 | 1 << 8;
const STATES: u64 = 1 << RESET | 1 << INIT | 1 << READY_TO_RECEIVE | 1 << READY_TO_SEND | 1 << ERROR;

/// Whether a call other than reset takes this state.
#[inline(always)]
pub fn accepts(state: &State) -> bool {
    let memory = get64(state, MEMORY_LENGTH);
    let domains = get64(state, DOMAIN_FLAGS);
    let queues = get64(state, QUEUE_FLAGS);
    let pairs = get64(state, PAIR_FLAGS);
    if memory.wrapping_sub(1) >= MOST_MEMORY || state[TURN] >= PAIRS as u8 || (domains | queues | pairs) & !ONES != 0 {
        return false;
    }
    queues_ok(state, queues) && regions_ok(state, memory, domains == ONES) && pairs_ok(state, pairs, domains & queues == ONES)
}

// ---- completion queues

#[inline(always)]
fn queues_ok(state: &State, live: u64) -> bool {
    for number in 0..QUEUES {
        if live >> (8 * number) & 1 == 1 && !queue_ok(state, number) {
            return false;
        }
    }
    true
}

#[inline(always)]
fn queue_ok(state: &State, number: usize) -> bool {
    let head = get32(state, queue_row(number));
    let (places, first, count) = (byte(head, QUEUE_PLACES), byte(head, QUEUE_FIRST), byte(head, QUEUE_COUNT));
    let most = MOST_PLACES as u32;
    if places.wrapping_sub(1) >= most || first >= most || count > places {
        return false;
    }
    count == 0 || entries_ok(part(state, completion_row(number, 0)), first as usize, count as usize)
}

/// The unread completions in a queue's ring: all of it, or up to its end and from its beginning on.
#[inline(never)]
fn entries_ok(ring: &Ring, first: usize, count: usize) -> bool {
    if count == MOST_PLACES {
        return run_ok(ring, 0, MOST_PLACES);
    }
    let to_end = count.min(MOST_PLACES - first);
    run_ok(ring, first, first + to_end) && run_ok(ring, 0, count - to_end)
}

#[inline(always)]
fn run_ok(ring: &Ring, from: usize, end: usize) -> bool {
    let (mut at, end) = (from * COMPLETION_BYTES, end * COMPLETION_BYTES);
    while at < end {
        if !entry_ok(part(ring, at)) {
            return false;
        }
        at += COMPLETION_BYTES;
    }
    true
}

/// Status, opcode, two bytes and the length are one word.
#[inline(always)]
fn entry_ok(entry: &[u8; COMPLETION_BYTES]) -> bool {
    let word = get64(entry, COMPLETION_STATUS);
    let status = word as u8;
    word < (MOST_MESSAGE as u64 + 1) << 32
        && (word as u16) < 5 << 8
        && status <= 8
        && STATUSES >> status & 1 == 1
        && get32(entry, COMPLETION_OWNER) < PAIRS as u32
}

const _: () = assert!(COMPLETION_OPCODE == COMPLETION_STATUS + 1 && COMPLETION_LENGTH == COMPLETION_STATUS + 4);

// ---- regions

#[inline(always)]
fn regions_ok(state: &State, memory: u64, all_domains: bool) -> bool {
    let flags: &[u8; REGIONS] = part(state, REGION_FLAGS);
    let rows: &[u8; REGIONS * REGION_ROW] = part(state, REGION_ROWS);
    let numbers: &[u8; REGIONS * PAGE_NUMBERS] = part(state, PAGE_ROWS);
    for eight in 0..REGIONS / 8 {
        let live = get64(flags, 8 * eight);
        if live == 0 {
            continue;
        }
        let rows: &[u8; 8 * REGION_ROW] = part(rows, 8 * REGION_ROW * eight);
        let numbers: &[u8; 8 * PAGE_NUMBERS] = part(numbers, 8 * PAGE_NUMBERS * eight);
        if live == ONES && all_domains && eight_ok(rows, numbers, memory) {
            continue;
        }
        if live & !ONES != 0 || !each_ok(state, rows, numbers, live, memory) {
            return false;
        }
    }
    true
}

/// Enough for eight live regions of one kind while every domain is live.
#[inline(always)]
fn eight_ok(rows: &[u8; 8 * REGION_ROW], numbers: &[u8; 8 * PAGE_NUMBERS], memory: u64) -> bool {
    if rows[REGION_KIND] == ADJACENT {
        eight_alike(rows, ADJACENT, |_, row| range_ok(row, memory))
    } else {
        eight_paged(rows, numbers, memory / PAGE_BYTES)
    }
}

#[inline(never)]
fn eight_paged(rows: &[u8; 8 * REGION_ROW], numbers: &[u8; 8 * PAGE_NUMBERS], whole: u64) -> bool {
    eight_alike(rows, PAGED, |n, row| pages_ok(row, part(numbers, n * PAGE_NUMBERS), whole))
}

#[inline(always)]
fn eight_alike(rows: &[u8; 8 * REGION_ROW], kind: u8, lies: impl Fn(usize, &[u8; REGION_ROW]) -> bool) -> bool {
    let (mut any, mut all) = (0, !0);
    for n in 0..8 {
        let row: &[u8; REGION_ROW] = part(rows, n * REGION_ROW);
        any |= get32(row, 0);
        all &= get32(row, 0);
        if row[REGION_VARIANT] == 0 || !lies(n, row) {
            return false;
        }
    }
    let alike = byte(any, REGION_KIND) == kind.into() && byte(all, REGION_KIND) == kind.into();
    alike && any & REGION_OUTSIDE == 0 && (byte(any, REGION_ACCESS) & 2 == 0 || byte(all, REGION_ACCESS) & 1 == 1)
}

#[inline(never)]
fn each_ok(state: &State, rows: &[u8; 8 * REGION_ROW], numbers: &[u8; 8 * PAGE_NUMBERS], live: u64, memory: u64) -> bool {
    for n in 0..8 {
        if live >> (8 * n) & 1 == 1 && !region_ok(state, part(rows, n * REGION_ROW), part(numbers, n * PAGE_NUMBERS), memory) {
            return false;
        }
    }
    true
}

#[inline(always)]
fn region_ok(state: &State, row: &[u8; REGION_ROW], numbers: &[u8; PAGE_NUMBERS], memory: u64) -> bool {
    let head = get32(row, 0);
    let lies = |kind| if kind == u32::from(PAGED) { pages_ok(row, numbers, memory / PAGE_BYTES) } else { range_ok(row, memory) };
    head & REGION_OUTSIDE == 0
        && byte(head, REGION_ACCESS) & 3 != 2
        && byte(head, REGION_VARIANT) != 0
        && state[DOMAIN_FLAGS + byte(head, REGION_DOMAIN) as usize % DOMAINS] == 1
        && lies(byte(head, REGION_KIND))
}

/// Of adjacent bytes.
#[inline(always)]
fn range_ok(row: &[u8; REGION_ROW], memory: u64) -> bool {
    let (start, length, virt) = (get64(row, REGION_START), get64(row, REGION_LENGTH), get64(row, REGION_VIRT));
    start <= memory && length.wrapping_sub(1) < memory - start && virt.checked_add(length).is_some()
}

/// Over pages of a memory with so many whole ones.
#[inline(always)]
fn pages_ok(row: &[u8; REGION_ROW], numbers: &[u8; PAGE_NUMBERS], whole: u64) -> bool {
    let (start, length, virt) = (get64(row, REGION_START), get64(row, REGION_LENGTH), get64(row, REGION_VIRT));
    let most = PAGE_BYTES * MOST_PAGES as u64;
    start < PAGE_BYTES
        && length.wrapping_sub(1) < most - start
        && virt.checked_add(length).is_some()
        && (largest(numbers) < whole || needed_ok(numbers, start + length, whole))
}

/// The largest of all sixteen numbers.
#[inline(always)]
fn largest(numbers: &[u8; PAGE_NUMBERS]) -> u64 {
    let mut most = 0;
    for k in 0..MOST_PAGES {
        most = most.max(u16::from_le_bytes(*part(numbers, k * PAGE_ROW)));
    }
    most.into()
}

/// The numbers of the pages up to `end`.
#[cold]
#[inline(never)]
fn needed_ok(numbers: &[u8; PAGE_NUMBERS], end: u64, whole: u64) -> bool {
    let need = ((end + PAGE_BYTES - 1) / PAGE_BYTES) as usize;
    (0..need).all(|k| u64::from(u16::from_le_bytes(*part(numbers, k * PAGE_ROW))) < whole)
}

// ---- queue pairs

#[inline(always)]
fn pairs_ok(state: &State, live: u64, all_named: bool) -> bool {
    for number in 0..PAIRS {
        if live >> (8 * number) & 1 == 1 && !pair_ok(state, number, all_named) {
            return false;
        }
    }
    true
}

#[inline(always)]
fn pair_ok(state: &State, number: usize, all_named: bool) -> bool {
    let pair = get64(state, pair_row(number));
    let destination = pair >> (8 * PAIR_DESTINATION) & 15;
    pair & PAIR_OUTSIDE == 0
        && (all_named || names_ok(state, pair))
        && STATES >> (pair >> (8 * PAIR_STATE) & 7) & 1 == 1
        && destination <= NO_DESTINATION.into()
        && destination != number as u64
        && receives_ok(state, number)
        && sends_ok(state, number, pair >> (8 * PAIR_STATE) & 7)
}

/// The domain and the queues of a pair whose numbers are in their tables.
#[inline(always)]
fn names_ok(state: &State, pair: u64) -> bool {
    let live = |flags: usize, at: usize| state[flags + (pair >> (8 * at) & 7) as usize] == 1;
    live(DOMAIN_FLAGS, PAIR_DOMAIN) && live(QUEUE_FLAGS, PAIR_SEND_QUEUE) && live(QUEUE_FLAGS, PAIR_RECEIVE_QUEUE)
}

#[inline(always)]
fn receives_ok(state: &State, number: usize) -> bool {
    let row = waiting_row(number);
    let (first, count) = (state[row + WAITING_FIRST], state[row + WAITING_COUNT]);
    if first >= MOST_WAITING as u8 || count > MOST_WAITING as u8 {
        return false;
    }
    let receives: &[u8; MOST_WAITING * RECEIVE_ROW] = part(state, receive_row(number, 0));
    let few = |place: usize| get32(receives, place * RECEIVE_ROW + RECEIVE_COUNT) <= MOST_RECEIVE_PIECES as u32;
    if count == MOST_WAITING as u8 {
        return few(0) && few(1) && few(2) && few(3);
    }
    for n in 0..count {
        if !few(usize::from(first + n) % MOST_WAITING) {
            return false;
        }
    }
    true
}

// ---- queued sends

/// States with a queue as a set of bits.
const QUEUING: u64 = 1 << READY_TO_SEND | 1 << ERROR;

#[inline(always)]
fn sends_ok(state: &State, number: usize, phase: u64) -> bool {
    let row = sends_row(number);
    let (first, count) = (state[row + SENDS_FIRST], state[row + SENDS_COUNT]);
    if count == 0 {
        return first < MOST_QUEUED as u8;
    }
    first < MOST_QUEUED as u8
        && count <= MOST_QUEUED as u8
        && QUEUING >> phase & 1 == 1
        && (all_places_ok(state, number) || held_ok(state, number, first, count))
}

/// Enough for all eight places: requests without inline bytes.
#[inline(always)]
fn all_places_ok(state: &State, number: usize) -> bool {
    let kinds: &[u8; MOST_QUEUED * KIND_ROW] = part(state, kind_row(number, 0));
    let mut outside = 0;
    for place in 0..MOST_QUEUED {
        let kind = get32(kinds, place * KIND_ROW);
        // opcode up to 3 and no inline flag; a count up to 3, of pieces
        outside |= kind & 0xfffc_f8fc;
    }
    outside == 0
}

#[inline(never)]
fn held_ok(state: &State, number: usize, first: u8, count: u8) -> bool {
    (0..count).all(|n| kind_ok(get32(state, kind_row(number, usize::from(first + n)))))
}

/// Opcode, flags and count of a request that post send takes.
#[inline(always)]
pub(super) fn kind_ok(kind: u32) -> bool {
    let (opcode, flags, count) = (byte(kind, KIND_OPCODE), byte(kind, KIND_FLAGS), kind >> (8 * KIND_COUNT));
    let inline = flags & u32::from(INLINE) != 0;
    let most = if inline { MOST_INLINE } else { MOST_PIECES };
    opcode <= READ.into() && flags < 2 * u32::from(INLINE) && !(inline && opcode == READ.into()) && count <= most as u32
}
