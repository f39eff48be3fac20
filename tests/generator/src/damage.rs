//! Lent states pushed to and past the limits of their fields.

use cards::Rng;
use reference::accept::pages_needed;
use reference::layout::*;
use reference::record::{COUNT_AT, OPCODE_AT};

/// Of how many region slots the fields are tried at a time.
const MOST_SLOTS: usize = 32;

/// A stored number and the values to try in it.
#[derive(Clone, Copy)]
pub struct Field<'v> {
    pub at: usize,
    pub width: usize,
    pub values: &'v [u64],
    /// Whether it is a field of a live object, or says what is live.
    pub live: bool,
}

impl Field<'_> {
    pub fn set(&self, state: &mut [u8], value: u64) {
        state[self.at..self.at + self.width].copy_from_slice(&value.to_le_bytes()[..self.width]);
    }
}

/// The region slots to try.
pub fn region_slots(rng: &mut Rng, state: &[u8]) -> Vec<usize> {
    let live: Vec<usize> = (0..REGIONS).filter(|&n| state[REGION_FLAGS + n] == 1).collect();
    sample(rng, REGIONS, &live)
}

/// All numbers of a table, or of a large one both ends and a choice, every second one live.
fn sample(rng: &mut Rng, count: usize, live: &[usize]) -> Vec<usize> {
    if count <= MOST_SLOTS {
        return (0..count).collect();
    }
    let mut slots = vec![0, count - 1];
    while slots.len() < MOST_SLOTS {
        let any = rng.index(count);
        slots.push(if slots.len() % 2 == 0 { rng.choose(live).unwrap_or(any) } else { any });
    }
    slots
}

/// Visits every field of the layout, of regions those of the given slots, and the bytes that are written as 0 or not used; values for a
/// region's range are taken against its other fields.
pub fn fields(state: &[u8], slots: &[usize], visit: &mut dyn FnMut(Field)) {
    put(visit, true, MEMORY_LENGTH, 8, &[0, 1, MOST_MEMORY, MOST_MEMORY + 1, u64::MAX]);
    put(visit, true, TURN, 1, &[0, 1, 7, 8, 9, 128, 255]);
    put(visit, true, HEADER_UNUSED, 7, &[0, u64::MAX]);
    for n in 0..DOMAINS {
        put(visit, true, DOMAIN_FLAGS + n, 1, &[0, 1, 2, 255]);
    }
    for n in 0..QUEUES {
        queue_fields(visit, state, n);
    }
    for &n in slots {
        region_fields(visit, state, n);
    }
    for n in 0..PAIRS {
        pair_fields(visit, state, n);
        send_fields(visit, state, n);
    }
}

/// Whether a place of a ring of `places` holds something.
fn holds(place: usize, places: usize, first: u8, count: u8) -> bool {
    (place + places - usize::from(first) % places) % places < count.into()
}

fn queue_fields(visit: &mut dyn FnMut(Field), state: &[u8], number: usize) {
    let live = state[QUEUE_FLAGS + number] == 1;
    let row = queue_row(number);
    let (first, count) = (state[row + QUEUE_FIRST], state[row + QUEUE_COUNT]);
    put(visit, true, QUEUE_FLAGS + number, 1, &[0, 1, 2, 255]);
    put(visit, live, row + QUEUE_PLACES, 1, &[0, 1, 2, 15, 16, 17, 255]);
    put(visit, live, row + QUEUE_FIRST, 1, &[0, 15, 16, 255]);
    put(visit, live, row + QUEUE_COUNT, 1, &[0, 1, 2, 3, 8, 15, 16, 17, 255]);
    put(visit, live, row + QUEUE_ZERO, 1, &[0, 255]);
    for place in 0..MOST_PLACES {
        let live = live && holds(place, MOST_PLACES, first, count);
        let row = completion_row(number, place);
        put(visit, live, row + COMPLETION_STATUS, 1, &[0, 1, 2, 3, 4, 5, 6, 7, 8, 9, 255]);
        put(visit, live, row + COMPLETION_OPCODE, 1, &[0, 4, 5, 255]);
        put(visit, live, row + COMPLETION_ZERO, 2, &[0, 1, 0xffff]);
        put(visit, live, row + COMPLETION_LENGTH, 4, &[0, 4096, 4097, 1 << 31]);
        put(visit, live, row + COMPLETION_OWNER, 4, &[0, 7, 8, 256, 1 << 31]);
    }
}

fn region_fields(visit: &mut dyn FnMut(Field), state: &[u8], number: usize) {
    let memory = get64(state, MEMORY_LENGTH);
    let live = state[REGION_FLAGS + number] == 1;
    let row = region_row(number);
    let start = get64(state, row + REGION_START);
    let length = get64(state, row + REGION_LENGTH);
    let virt = get64(state, row + REGION_VIRT);
    put(visit, true, REGION_FLAGS + number, 1, &[0, 1, 2, 255]);
    put(visit, live, row + REGION_ACCESS, 1, &[0, 1, 2, 3, 4, 5, 6, 7, 8, 255]);
    put(visit, true, row + REGION_VARIANT, 1, &[0, 1, 255]);
    put(visit, live, row + REGION_DOMAIN, 1, &[0, 1, 2, 3, 4, 5, 6, 7, 8, 255]);
    put(visit, live, row + REGION_KIND, 1, &[ADJACENT.into(), PAGED.into(), 2, 128, 255]);
    put(visit, live, row + REGION_UNUSED, 4, &[0, u32::MAX.into()]);
    let last_start = memory.wrapping_sub(length);
    let starts =
        [0, last_start, last_start.wrapping_add(1), memory, 0u64.wrapping_sub(length), u64::MAX, PAGE_BYTES - 1, PAGE_BYTES];
    put(visit, live, row + REGION_START, 8, &starts);
    let last_length = memory.wrapping_sub(start);
    let to_top = u64::MAX - virt;
    let last_paged = (PAGE_BYTES * MOST_PAGES as u64).wrapping_sub(start);
    let lengths = [
        0,
        1,
        last_length,
        last_length.wrapping_add(1),
        to_top,
        0u64.wrapping_sub(start),
        u64::MAX,
        last_paged,
        last_paged.wrapping_add(1),
    ];
    put(visit, live, row + REGION_LENGTH, 8, &lengths);
    let last_virt = u64::MAX.wrapping_sub(length);
    put(visit, live, row + REGION_VIRT, 8, &[0, last_virt, last_virt.wrapping_add(1), u64::MAX]);
    let need = if live && state[row + REGION_KIND] == PAGED { pages_needed(start, length).unwrap_or(MOST_PAGES) } else { 0 };
    let whole = memory / PAGE_BYTES;
    for place in [0, need.saturating_sub(1), need.min(MOST_PAGES - 1), MOST_PAGES - 1] {
        let pages = [0, whole.wrapping_sub(1), whole, whole + 1, 4095, 4096, 0xffff];
        put(visit, place < need, page_row(number, place), PAGE_ROW, &pages);
    }
}

fn pair_fields(visit: &mut dyn FnMut(Field), state: &[u8], number: usize) {
    let live = state[PAIR_FLAGS + number] == 1;
    let row = pair_row(number);
    put(visit, true, PAIR_FLAGS + number, 1, &[0, 1, 2, 255]);
    for at in [PAIR_DOMAIN, PAIR_SEND_QUEUE, PAIR_RECEIVE_QUEUE] {
        put(visit, live, row + at, 1, &[0, 1, 2, 3, 4, 5, 6, 7, 8, 255]);
    }
    put(visit, live, row + PAIR_SIGNAL, 1, &[0, 1, 2, 255]);
    put(visit, live, row + PAIR_STATE, 1, &[0, 1, 2, 3, 4, 5, 6, 7, 255]);
    put(visit, live, row + PAIR_DESTINATION, 1, &[0, 1, 2, 3, 4, 5, 6, 7, 8, 9, 255]);
    put(visit, live, row + PAIR_ACCESS, 1, &[0, 1, 2, 3, 4, 5, 6, 7, 8, 9, 16, 128, 255]);
    put(visit, live, row + PAIR_ZERO, 1, &[0, 255]);
    let waiting = waiting_row(number);
    let (first, count) = (state[waiting + WAITING_FIRST], state[waiting + WAITING_COUNT]);
    put(visit, live, waiting + WAITING_FIRST, 1, &[0, 1, 2, 3, 4, 255]);
    put(visit, live, waiting + WAITING_COUNT, 1, &[0, 1, 2, 3, 4, 5, 255]);
    for place in 0..MOST_WAITING {
        let live = live && holds(place, MOST_WAITING, first, count);
        let row = receive_row(number, place);
        put(visit, live, row + RECEIVE_COUNT, 4, &[0, 1, 2, 3, 256, u32::MAX.into()]);
        put(visit, live, row + RECEIVE_UNUSED, 8, &[0, u64::MAX]);
    }
}

/// The queue of a pair: its head, the kinds of its places, and of the oldest record both ends and what its kind says.
fn send_fields(visit: &mut dyn FnMut(Field), state: &[u8], number: usize) {
    let live = state[PAIR_FLAGS + number] == 1;
    let row = sends_row(number);
    let (first, count) = (state[row + SENDS_FIRST], state[row + SENDS_COUNT]);
    put(visit, live, row + SENDS_FIRST, 1, &[0, 1, 4, 7, 8, 15, 255]);
    put(visit, live, row + SENDS_COUNT, 1, &[0, 1, 2, 4, 7, 8, 9, 16, 255]);
    for place in 0..MOST_QUEUED {
        let live = live && holds(place, MOST_QUEUED, first, count);
        let row = kind_row(number, place);
        put(visit, live, row + KIND_OPCODE, 1, &[0, 3, 4, 5, 6, 128, 255]);
        put(visit, live, row + KIND_FLAGS, 1, &[0, 7, 8, 15, 16, 24, 32, 128, 255]);
        put(visit, live, row + KIND_COUNT, 2, &[0, 4, 5, 255, 256, 260, 512, 513, 0xffff]);
    }
    let row = record_row(number, first.into());
    put(visit, live && count > 0, row, 8, &[0, u64::MAX]);
    put(visit, live && count > 0, row + OPCODE_AT, 2, &[0, 0x1005, 0xffff]);
    put(visit, live && count > 0, row + COUNT_AT, 4, &[0, 5, u32::MAX.into()]);
    put(visit, live && count > 0, row + RECORD_ROW - 8, 8, &[0, u64::MAX]);
}

fn put(visit: &mut dyn FnMut(Field), live: bool, at: usize, width: usize, values: &[u64]) {
    visit(Field { at, width, values, live });
}

/// A copy of the state with a field at a limit, some bits changed, or another length.
pub fn damage(rng: &mut Rng, state: &[u8]) -> Vec<u8> {
    let mut copy = state.to_vec();
    match rng.below(10) {
        0..=5 => {
            let slots = region_slots(rng, state);
            let live = rng.percent(80);
            for _ in 0..1 + rng.below(2) {
                set_some_field(rng, state, &slots, live, &mut copy);
            }
        }
        6 | 7 => {
            for _ in 0..1 + rng.below(4) {
                let at = if rng.percent(50) { head_byte(rng) } else { rng.index(copy.len()) };
                copy[at] ^= 1 << rng.below(8);
            }
        }
        8 => copy.truncate(rng.pick(&[0, 1, STATE_BYTES / 2, STATE_BYTES - 1])),
        _ => copy.resize(STATE_BYTES + 1 + rng.index(8), 0),
    }
    copy
}

/// A byte of the tables that say what is live.
fn head_byte(rng: &mut Rng) -> usize {
    let mut n = rng.index(HEADS.iter().map(|(_, length)| length).sum());
    for (at, length) in HEADS {
        if n < length {
            return at + n;
        }
        n -= length;
    }
    unreachable!("a number below the sum of the lengths")
}

/// Sets one of the fields, of live objects alone if told so, to one of its values.
fn set_some_field(rng: &mut Rng, state: &[u8], slots: &[usize], live: bool, copy: &mut [u8]) {
    let mut count = 0;
    fields(state, slots, &mut |field| count += usize::from(field.live || !live));
    let mut before = rng.index(count);
    fields(state, slots, &mut |field| {
        if !field.live && live {
            return;
        }
        if before == 0 {
            let value = rng.pick(field.values);
            field.set(copy, value);
        }
        before = before.wrapping_sub(1);
    });
}

/// The state with a pair that names nobody, in whatever state it is: acceptable, but left by no call.
pub fn forget_destination(state: &[u8], qpn: u32) -> Vec<u8> {
    let mut copy = state.to_vec();
    copy[pair_row(qpn as usize % PAIRS) + PAIR_DESTINATION] = NO_DESTINATION;
    copy
}

#[cfg(test)]
mod tests {
    use super::*;

    #[test]
    fn a_small_table_is_tried_whole() {
        assert_eq!(sample(&mut Rng::new(1), 32, &[3]), (0..32).collect::<Vec<_>>());
    }

    #[test]
    fn a_large_table_is_sampled() {
        let mut rng = Rng::new(1);
        let slots = sample(&mut rng, 256, &[77, 99]);
        assert_eq!((slots.len(), slots[0], slots[1]), (MOST_SLOTS, 0, 255));
        assert!(slots.iter().all(|&n| n < 256));
        assert!(slots[2..].iter().step_by(2).all(|n| [77, 99].contains(n)));
        assert!(slots[3..].iter().step_by(2).any(|n| ![77, 99].contains(n)));
        assert_eq!(sample(&mut rng, 256, &[]).len(), MOST_SLOTS);
    }
}
