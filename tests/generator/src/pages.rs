//! Registrations over page lists, and ranges at the ends of pages.

use crate::Generator;
use cards::build::{create_domain, deregister, query_device, query_port, register};
use cards::Call;
use reference::layout::*;
use reference::listing::Listing;
use reference::record::Piece;
use reference::{Region, ACK_BYTES};

/// Where start, length and address stand in a registration.
const START: usize = 10;
const LENGTH: usize = 18;
const VIRT: usize = 26;

impl Generator {
    /// One that can be done, if the memory has a page.
    pub(crate) fn page_registration(&mut self, card: &Listing) -> Call {
        let count = match self.rng.below(8) {
            0 => MOST_PAGES as u64,
            1 => 1 + self.rng.below(MOST_PAGES as u64),
            _ => 1 + self.rng.below(4),
        };
        let any = self.rng.below(PAGE_BYTES);
        let start = self.rng.pick(&[0, 0, 1, PAGE_BYTES - 1, any, any]);
        let (least, most) = ((PAGE_BYTES * (count - 1)).max(start) + 1, PAGE_BYTES * count);
        let end = match self.rng.below(4) {
            0 => least,
            1 => most,
            _ => least + self.rng.below(most - least + 1),
        };
        let length = end - start;
        let virt = self.virt(start, length);
        let access = if self.rng.percent(70) { 7 } else { self.rng.pick(&[0, 1, 3, 4, 5, 7]) };
        let command = register(self.live_domain(card), access, start, length, virt);
        Call::Pages { command, pages: self.page_list(card, count), ack: ACK_BYTES + 3 }
    }

    /// Pages of the memory: one again and again, one after the other either way, or any.
    fn page_list(&mut self, card: &Listing, count: u64) -> Vec<u64> {
        let whole = (card.memory_length / PAGE_BYTES).max(1);
        let first = self.rng.below(whole);
        let way = self.rng.below(6);
        let page = |n: u64, any: u64| match way {
            0 => first,
            1 => (first + n) % whole,
            2 => (first + n * (whole - 1)) % whole,
            _ => any,
        };
        (0..count).map(|n| PAGE_BYTES * page(n, self.rng.below(whole))).collect()
    }

    /// Any call with a page list, sensible or not.
    pub(crate) fn any_pages(&mut self, card: &Listing) -> Call {
        let (mut command, mut pages, mut ack) = match self.page_registration(card) {
            Call::Pages { command, pages, ack } => (command, pages, ack),
            other => return other,
        };
        match self.rng.below(10) {
            0..=3 => {}
            4..=6 => self.change_pages(&mut command, &mut pages, card),
            7 => self.change_range(&mut command, &mut pages, card),
            8 => command = self.change_command(command, card),
            _ => {
                let others = [query_device(), query_port(), create_domain(), deregister(self.rng.below(4) as u32), vec![6, 0, 0]];
                command = others[self.rng.index(others.len())].clone();
                if self.rng.percent(30) {
                    command = self.change_command(command, card);
                }
            }
        }
        if self.rng.percent(8) {
            pages.resize(self.rng.index(21), 0);
        }
        if self.rng.percent(15) {
            ack = self.ack_length(ACK_BYTES);
        }
        Call::Pages { command, pages, ack }
    }

    /// A wrong count, or an entry that is no whole page of the memory.
    fn change_pages(&mut self, command: &mut [u8], pages: &mut Vec<u64>, card: &Listing) {
        let place = self.rng.index(pages.len());
        let past = card.memory_length / PAGE_BYTES * PAGE_BYTES;
        match self.rng.below(10) {
            0 => pages.truncate(pages.len() - 1),
            1 => pages.push(pages[place]),
            2 => pages.resize(self.rng.index(21), 0),
            3 => pages[place] = pages[place].wrapping_add(self.rng.pick(&[1, 8, 2048, 4095, u64::MAX])),
            4 | 5 => pages[place] = past,
            6 if self.rng.percent(50) => pages[place] += 1 << (24 + self.rng.below(40)),
            6 => pages[place] = past + PAGE_BYTES * (1 + self.rng.below(1 << 20)),
            7 => pages[place] = 0u64.wrapping_sub(PAGE_BYTES * (1 + self.rng.below(2))),
            8 => pages[place] = self.rng.word(),
            _ => {
                let count = MOST_PAGES as u64 + self.rng.below(4);
                *pages = self.page_list(card, count);
                let start = get64(command, START);
                put64(command, LENGTH, (PAGE_BYTES * count).saturating_sub(start));
                if self.rng.percent(30) {
                    pages.truncate(MOST_PAGES);
                }
            }
        }
    }

    /// Start, length and address at both sides of their limits; the list mostly follows the need, or what is left of it past 2^64.
    fn change_range(&mut self, command: &mut [u8], pages: &mut Vec<u64>, card: &Listing) {
        match self.rng.below(9) {
            0 => put64(command, START, self.rng.pick(&[PAGE_BYTES, PAGE_BYTES + 1, 1 << 32, u64::MAX])),
            1 => put64(command, LENGTH, 0),
            2 => {
                put64(command, VIRT, 0);
                put64(command, LENGTH, 0u64.wrapping_sub(1 + self.rng.below(2 * PAGE_BYTES)));
            }
            3 => put64(command, LENGTH, (PAGE_BYTES << 4) + 1 - get64(command, START)),
            4 => put64(command, VIRT, u64::MAX - get64(command, LENGTH) + 1),
            5 => put64(command, VIRT, u64::MAX - self.rng.below(2)),
            6 => put64(command, LENGTH, get64(command, LENGTH) + PAGE_BYTES),
            7 => put32(command, 2, self.number(DOMAINS)),
            _ => put32(command, 6, self.rng.pick(&[2, 6, 8, 1 << 31])),
        }
        if self.rng.percent(80) {
            let end = get64(command, START).wrapping_add(get64(command, LENGTH));
            let need = end.wrapping_add(PAGE_BYTES - 1) / PAGE_BYTES;
            *pages = self.page_list(card, need.min(20));
        }
    }

    /// An offset at which a range of this length lies at or over the end of one of the region's pages.
    pub(crate) fn offset_at_page_end(&mut self, region: &Region, length: u64) -> Option<u64> {
        let ends = (region.start + region.length) / PAGE_BYTES;
        if !region.paged || ends == 0 || self.rng.percent(40) {
            return None;
        }
        let end = PAGE_BYTES * (1 + self.rng.below(ends));
        let before = match self.rng.below(4) {
            0 => 0,
            1 => length,
            2 => 1,
            _ => self.rng.below(length + 1),
        };
        let offset = end.checked_sub(region.start + before)?;
        (offset <= region.length && length <= region.length - offset).then_some(offset)
    }

    /// The same bytes a page further on or back in a region over pages, if it has them.
    pub(crate) fn a_page_away(&mut self, last: Option<&Piece>, card: &Listing, length: u64) -> Option<Piece> {
        let last = *last.filter(|_| self.pages)?;
        let region = card.regions.get((last.key >> 8) as usize).copied().flatten().filter(|region| region.paged)?;
        if self.rng.percent(60) {
            return None;
        }
        let at = (last.address - region.virt).wrapping_add(self.rng.below(64)).wrapping_sub(32);
        let at = if self.rng.percent(50) { at.checked_add(PAGE_BYTES)? } else { at.checked_sub(PAGE_BYTES)? };
        let room = region.length.checked_sub(at).filter(|room| *room >= length)?;
        (room > 0).then_some(Piece { address: region.virt + at, length: length as u32, key: last.key })
    }
}
