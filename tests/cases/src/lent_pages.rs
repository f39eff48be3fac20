//! Lent states with regions over pages.

use crate::lent::{answer, refuses, sample, LEFT};
use cards::build::*;
use cards::Card;
use reference::layout::*;
use reference::{fault, Fault};

/// The sample with region 2 over pages: a byte of one and a byte of another, which are both page 0.
fn paged_sample(card: &dyn Card) -> Vec<u8> {
    let mut state = sample(card);
    let outcome = card.register_pages(&mut state, &register(0, 7, 4095, 2, 1 << 32), &[0, 0], &mut [0; 13]);
    assert_eq!(outcome, answer(0));
    state
}

/// A fault of region 2, and the bytes of that sample that make it: a kind that is none, a start past the first page, too many
/// pages, pages past the memory, and what is a fault of any region.
pub(crate) const PAGED_FAULTS: [(Fault, usize, &[u8]); 18] = [
    (Fault::RegionKind, region_row(2) + REGION_KIND, &[2]),
    (Fault::RegionKind, region_row(2) + REGION_KIND, &[255]),
    (Fault::RegionKind, region_row(0) + REGION_KIND, &[2]),
    (Fault::RegionKind, region_row(1) + REGION_KIND, &[129]),
    (Fault::RegionStart, region_row(2) + REGION_START, &[0, 16]),
    (Fault::RegionStart, region_row(2) + REGION_START, &[0, 0, 0, 0, 1]),
    (Fault::RegionStart, region_row(2) + REGION_START, &[255, 255, 255, 255, 255, 255, 255, 255]),
    (Fault::RegionPages, region_row(2) + REGION_LENGTH, &[2, 240]),
    (Fault::RegionPages, region_row(2) + REGION_LENGTH, &[0, 0, 1]),
    (Fault::RegionPages, region_row(2) + REGION_LENGTH, &[1, 0, 0, 0, 1]),
    (Fault::RegionPages, region_row(2) + REGION_LENGTH, &[255, 239, 255, 255, 254, 255, 255, 255]),
    (Fault::RegionPage, page_row(2, 0), &[1]),
    (Fault::RegionPage, page_row(2, 1), &[1]),
    (Fault::RegionPage, page_row(2, 0), &[0, 1]),
    (Fault::RegionPage, page_row(2, 1), &[255, 255]),
    (Fault::RegionPage, page_row(2, 1), &[0, 16]),
    (Fault::RegionEmpty, region_row(2) + REGION_LENGTH, &[0]),
    (Fault::RegionAddress, region_row(2) + REGION_VIRT, &[254, 255, 255, 255, 255, 255, 255, 255]),
];

/// 15 for each of them, for a sum of start and length that passes 2^64, and for a last page that the memory has a part of; a region of adjacent bytes goes by the memory's length as before.
pub fn each_fault_of_a_paged_region_is_found(card: &dyn Card) {
    let good = paged_sample(card);
    for (why, at, bytes) in PAGED_FAULTS {
        let mut state = good.clone();
        state[at..at + bytes.len()].copy_from_slice(bytes);
        refuses(card, &state, why);
    }
    for length in [u64::MAX - 4094, u64::MAX] {
        let mut wrapped = good.clone();
        put64(&mut wrapped, region_row(2) + REGION_VIRT, 0);
        put64(&mut wrapped, region_row(2) + REGION_LENGTH, length);
        refuses(card, &wrapped, Fault::RegionPages);
    }
    let mut longer = good.clone();
    put64(&mut longer, MEMORY_LENGTH, 5000);
    longer[page_row(2, 1)] = 1;
    refuses(card, &longer, Fault::RegionPage);
    put64(&mut longer, MEMORY_LENGTH, 8191);
    refuses(card, &longer, Fault::RegionPage);
    put64(&mut longer, MEMORY_LENGTH, 8192);
    accepted(card, &longer);
    // by kind: the old range of a region that was over pages, and a start past a page's end in one that was not
    let mut flat = good.clone();
    flat[region_row(2) + REGION_KIND] = ADJACENT;
    refuses(card, &flat, Fault::RegionMemory);
    let mut paged = good;
    paged[region_row(0) + REGION_KIND] = PAGED;
    accepted(card, &paged);
    put64(&mut paged, region_row(0) + REGION_START, 1);
    accepted(card, &paged);
    put64(&mut paged, region_row(0) + REGION_LENGTH, 1);
    put64(&mut paged, region_row(0) + REGION_START, 4095);
    accepted(card, &paged);
    put64(&mut paged, region_row(0) + REGION_START, 4096);
    refuses(card, &paged, Fault::RegionStart);
}

/// Every call takes this state; a poll without a buffer shows it.
fn accepted(card: &dyn Card, state: &[u8]) {
    assert_eq!(fault(state), None);
    assert_eq!(card.poll(&mut state.to_vec(), 0, &mut []), answer(12), "{}", card.name());
}

/// Page numbers behind those that a region needs, those of a region of adjacent bytes and of a free slot, and a free slot's kind may be anything.
pub fn pages_past_the_need_are_not_looked_at(card: &dyn Card) {
    let good = paged_sample(card);
    let mut any = good.clone();
    any[page_row(2, 2)..page_row(3, 0)].fill(0xff);
    accepted(card, &any);
    for slot in [0, 1, 3, 255] {
        any[page_row(slot, 0)..page_row(slot + 1, 0)].fill(0xff);
        accepted(card, &any);
    }
    for slot in [3, 9, 255] {
        any[region_row(slot) + REGION_KIND] = 0xff;
        put64(&mut any, region_row(slot) + REGION_START, u64::MAX);
        accepted(card, &any);
    }
    // the need grows by a byte, and the next number counts
    put64(&mut any, region_row(2) + REGION_LENGTH, 4097);
    accepted(card, &any);
    put64(&mut any, region_row(2) + REGION_LENGTH, 4098);
    refuses(card, &any, Fault::RegionPage);
    any[page_row(2, 2)..page_row(2, 3)].fill(0);
    accepted(card, &any);
    // all sixteen
    put64(&mut any, region_row(2) + REGION_LENGTH, 61441);
    any[page_row(2, 0)..page_row(2, 15)].fill(0);
    refuses(card, &any, Fault::RegionPage);
    any[page_row(2, 15)..page_row(3, 0)].fill(0);
    accepted(card, &any);
}

/// What a registration over pages writes: the slot's flag and row, with kind 1, and the numbers of its pages; all other bytes stay, those of
/// the slot's other places too. One of adjacent bytes writes kind 0 and no page.
pub fn a_page_list_is_stored_by_numbers(card: &dyn Card) {
    let mut state = vec![LEFT; STATE_BYTES];
    assert_eq!(card.reset(&mut state, 16_777_216), answer(0));
    assert_eq!(card.control(&mut state, &create_domain(), &mut [LEFT; 13]), answer(0));
    for slot in [0, 1] {
        state[region_row(slot) + REGION_UNUSED..][..4].fill(LEFT);
        state[region_row(slot) + REGION_KIND] = LEFT;
        state[page_row(slot, 0)..page_row(slot + 1, 0)].fill(LEFT);
    }
    let pages = [16_773_120, 0, 0x12_3000, 4096];
    let mut wanted = state.clone();
    let outcome = card.register_pages(&mut state, &register(0, 5, 0x123, 0x3000, 0x1122_3344_5566_7788), &pages, &mut [LEFT; 13]);
    assert_eq!(outcome, answer(0));
    wanted[REGION_FLAGS] = 1;
    wanted[region_row(0)..][..4].copy_from_slice(&[5, 1, 0, 1]);
    put64(&mut wanted, region_row(0) + REGION_START, 0x123);
    put64(&mut wanted, region_row(0) + REGION_LENGTH, 0x3000);
    put64(&mut wanted, region_row(0) + REGION_VIRT, 0x1122_3344_5566_7788);
    wanted[page_row(0, 0)..page_row(0, 4)].copy_from_slice(&[0xff, 0x0f, 0, 0, 0x23, 1, 1, 0]);
    assert!(state == wanted, "{}", card.name());
    assert_eq!(card.control(&mut state, &register(0, 5, 7, 9, 11), &mut [LEFT; 13]), answer(0));
    wanted[REGION_FLAGS + 1] = 1;
    wanted[region_row(1)..][..4].copy_from_slice(&[5, 1, 0, 0]);
    for (at, value) in [(REGION_START, 7), (REGION_LENGTH, 9), (REGION_VIRT, 11)] {
        put64(&mut wanted, region_row(1) + at, value);
    }
    assert!(state == wanted, "{}", card.name());
    // dropping clears the flag alone
    assert_eq!(card.control(&mut state, &deregister(0), &mut [LEFT; 13]), answer(0));
    wanted[REGION_FLAGS] = 0;
    assert!(state == wanted, "{}", card.name());
}
