//! What calls with page lists, and requests over such regions, a run has seen.

use reference::layout::*;
use reference::listing::{Listing, PairListing};
use reference::record::*;
use std::collections::HashSet;

/// Registrations that are done, those that one thing alone refuses with 11, other refusals, and requests by what they touch.
pub const CELLS: [&str; 53] = [
    "done, a list of 1",
    "done, a list of 2",
    "done, a list of 3 to 15",
    "done, a list of 16",
    "done, a page repeated",
    "done, longer than the memory",
    "done, start 0",
    "done, start 4095",
    "done, the last page to its end",
    "done, one byte of the last page",
    "11 alone for length 0",
    "11 alone for virt + length",
    "11 alone for the start",
    "11 alone for 17 or more pages, all listed",
    "11 alone for 17 or more pages, 16 listed",
    "11 alone for a sum past 2^64, what is left of it listed",
    "11 alone for no entry",
    "11 alone for an entry too few",
    "11 alone for an entry too many",
    "11 alone for no multiple",
    "11 alone for a page past the memory",
    "11 alone for the last part page",
    "11 alone for an end that wraps",
    "1, one byte",
    "1, another length",
    "2",
    "4, access 2 or 6",
    "4, another bit",
    "8",
    "12, a registration with 12 ack bytes",
    "12, a query with 12 ack bytes",
    "13, a query with 13 to 32 ack bytes",
    "13, another command",
    "13, another class",
    "write out of pages, over an end",
    "write into pages, over an end",
    "read out of pages, over an end",
    "read into pages, over an end",
    "send out of pages, over an end",
    "send into pages, over an end",
    "inline into pages, over an end",
    "over the end of a page to itself",
    "up to an end",
    "from a first byte on",
    "one run to one run",
    "both kinds in one message",
    "source and target share a byte",
    "read fills a byte twice",
    "receive fills a byte twice",
    "status 3 by a region over pages",
    "status 7 by a region over pages",
    "status 8 by a region over pages",
    "in a region longer than the memory",
];

// ---- registrations

pub fn of_registration(card: &Listing, command: &[u8], pages: &[u64], ack: usize, answer: u8) -> Vec<&'static str> {
    let asked = Registration::of_command(command);
    match (answer, command, asked) {
        (0, _, Ok(asked)) => done(card, &asked, pages),
        (11, _, Ok(asked)) => match range_faults(card, &asked, pages)[..] {
            [fault] => vec![fault],
            _ => vec![],
        },
        (1, [_], _) => vec!["1, one byte"],
        (1, [_, _, ..], _) => vec!["1, another length"],
        (2, ..) => vec!["2"],
        (4, _, Ok(asked)) => vec![if asked.access < 8 { "4, access 2 or 6" } else { "4, another bit" }],
        (8, ..) => vec!["8"],
        (12, [CONTROL_CLASS, 0 | 1, ..], _) if ack == 12 => vec!["12, a query with 12 ack bytes"],
        (12, _, Ok(_)) if ack == 12 => vec!["12, a registration with 12 ack bytes"],
        (13, [CONTROL_CLASS, 0 | 1, ..], _) if ack <= 32 => vec!["13, a query with 13 to 32 ack bytes"],
        (13, [CONTROL_CLASS, ..], _) => vec!["13, another command"],
        (13, ..) => vec!["13, another class"],
        _ => vec![],
    }
}

fn done(card: &Listing, asked: &Registration, pages: &[u64]) -> Vec<&'static str> {
    let count = match pages.len() {
        1 => "done, a list of 1",
        2 => "done, a list of 2",
        16 => "done, a list of 16",
        _ => "done, a list of 3 to 15",
    };
    let end = (asked.start + asked.length) % PAGE_BYTES;
    let repeated = pages.iter().collect::<HashSet<_>>().len() < pages.len();
    let seen = [
        (count, true),
        ("done, a page repeated", repeated),
        ("done, longer than the memory", asked.length > card.memory_length),
        ("done, start 0", asked.start == 0),
        ("done, start 4095", asked.start == PAGE_BYTES - 1),
        ("done, the last page to its end", end == 0),
        ("done, one byte of the last page", end == 1),
    ];
    those(&seen)
}

fn those(seen: &[(&'static str, bool)]) -> Vec<&'static str> {
    seen.iter().filter(|(_, seen)| *seen).map(|(name, _)| *name).collect()
}

/// What is wrong with start, length, address and list, each by itself.
fn range_faults(card: &Listing, asked: &Registration, pages: &[u64]) -> Vec<&'static str> {
    let entry = |bad: fn(u64, u64) -> bool| pages.iter().any(|&entry| bad(entry, card.memory_length));
    let faults = those(&[
        ("11 alone for length 0", asked.length == 0),
        ("11 alone for virt + length", asked.virt.checked_add(asked.length).is_none()),
        ("11 alone for the start", asked.start >= PAGE_BYTES),
        ("11 alone for no multiple", entry(|entry, memory| entry % PAGE_BYTES != 0 && entry < memory)),
        ("11 alone for a page past the memory", entry(|entry, memory| entry >= memory && entry <= u64::MAX - PAGE_BYTES)),
        ("11 alone for the last part page", entry(|entry, memory| entry < memory && entry + PAGE_BYTES > memory)),
        ("11 alone for an end that wraps", entry(|entry, _| entry > u64::MAX - PAGE_BYTES)),
    ]);
    faults.into_iter().chain(count_fault(asked, pages.len() as u128)).collect()
}

/// How the list has not the pages that are needed, at most 16. Sums are of more than 64 bits.
fn count_fault(asked: &Registration, listed: u128) -> Option<&'static str> {
    let need = (u128::from(asked.start) + u128::from(asked.length) + u128::from(PAGE_BYTES - 1)) / u128::from(PAGE_BYTES);
    let left = asked.start.wrapping_add(asked.length).wrapping_add(PAGE_BYTES - 1) / PAGE_BYTES;
    match need {
        0..=16 if listed == need => None,
        0..=16 if listed == 0 => Some("11 alone for no entry"),
        0..=16 if listed + 1 == need => Some("11 alone for an entry too few"),
        0..=16 if listed == need + 1 => Some("11 alone for an entry too many"),
        17.. if listed == need => Some("11 alone for 17 or more pages, all listed"),
        17.. if listed == 16 => Some("11 alone for 17 or more pages, 16 listed"),
        17.. if listed == u128::from(left) => Some("11 alone for a sum past 2^64, what is left of it listed"),
        _ => Some("another count"),
    }
}

// ---- requests

/// A range of a message's bytes under a key.
#[derive(Clone, Copy)]
struct Range {
    address: u64,
    length: u64,
    key: u32,
}

/// The region of a key that stands, and the pages that it lies over.
fn region_of(card: &Listing, key: u32) -> Option<(&reference::Region, &[u64])> {
    let slot = (key >> 8) as usize;
    let region = card.regions.get(slot)?.as_ref()?;
    (u32::from(region.variant) == key & 0xff).then_some((region, &card.pages[slot][..]))
}

impl Range {
    fn is_paged(&self, card: &Listing) -> bool {
        self.length > 0 && region_of(card, self.key).map_or(false, |(region, _)| region.paged)
    }

    /// How far into its region's pages it begins.
    fn offset(&self, card: &Listing) -> Option<u64> {
        region_of(card, self.key).map(|(region, _)| region.start + (self.address - region.virt))
    }

    /// Whether a page ends between two of its bytes.
    fn is_over_an_end(&self, card: &Listing) -> bool {
        self.is_paged(card) && self.offset(card).map_or(false, |offset| offset % PAGE_BYTES + self.length > PAGE_BYTES)
    }

    /// Where its bytes stand in memory.
    fn places(&self, card: &Listing) -> Vec<u64> {
        let (region, pages) = match region_of(card, self.key) {
            Some(found) if self.length > 0 => found,
            _ => return vec![],
        };
        let first = region.start + (self.address - region.virt);
        let place = |at: u64| match pages.get((at / PAGE_BYTES) as usize) {
            Some(page) if region.paged => page + at % PAGE_BYTES,
            _ => at,
        };
        (first..first + self.length).map(place).collect()
    }
}

/// The sender's ranges, and those of its peer that the message meets.
fn sides(send: &SendRecord, peer: &PairListing) -> (Vec<Range>, Vec<Range>) {
    let range = |piece: &Piece| Range { address: piece.address, length: piece.length.into(), key: piece.key };
    let own = match &send.local {
        Local::Pieces { pieces, count } => pieces[..*count].iter().map(range).collect(),
        Local::Inline(_) => vec![],
    };
    if !matches!(send.opcode, SEND | SEND_IMMEDIATE) {
        return (own, vec![Range { address: send.address, length: send.total(), key: send.key }]);
    }
    let mut left = send.total();
    let list = peer.waiting.first().map_or(&[][..], |receive| &receive.pieces);
    let far = list.iter().map(|piece| {
        let length = left.min(piece.length.into());
        left -= length;
        Range { length, ..range(piece) }
    });
    (own, far.collect())
}

pub fn of_send(card: &Listing, send: &SendRecord, peer: &PairListing, status: u8) -> Vec<&'static str> {
    if send.total() > MOST_MESSAGE as u64 {
        return vec![];
    }
    let (own, far) = sides(send, peer);
    let is_paged = |range: &Range| range.is_paged(card);
    match status {
        0 if own.iter().chain(&far).any(is_paged) => of_success(card, send, &own, &far),
        3 if !own.is_empty() && own.iter().all(is_paged) => vec!["status 3 by a region over pages"],
        7 if far.iter().any(is_paged) && far.iter().all(|range| range.is_paged(card) || range.length == 0) => {
            vec!["status 7 by a region over pages"]
        }
        8 if far.iter().any(is_paged) => vec!["status 8 by a region over pages"],
        _ => vec![],
    }
}

fn of_success(card: &Listing, send: &SendRecord, own: &[Range], far: &[Range]) -> Vec<&'static str> {
    let (source, target) = if send.opcode == READ { (far, own) } else { (own, far) };
    let is_send = matches!(send.opcode, SEND | SEND_IMMEDIATE);
    let (out, into) = match send.opcode {
        READ => ("read out of pages, over an end", "read into pages, over an end"),
        _ if is_send => ("send out of pages, over an end", "send into pages, over an end"),
        _ => ("write out of pages, over an end", "write into pages, over an end"),
    };
    let over = |side: &[Range]| side.iter().any(|range| range.is_over_an_end(card));
    let places = |side: &[Range]| side.iter().flat_map(|range| range.places(card)).collect::<Vec<u64>>();
    let (from, to) = (places(source), places(target));
    let written: HashSet<u64> = to.iter().copied().collect();
    let twice = written.len() < to.len() && target.iter().any(|range| range.is_paged(card));
    let mut seen = those(&[
        (out, over(source)),
        (into, over(target)),
        ("inline into pages, over an end", matches!(send.local, Local::Inline(_)) && over(target)),
        ("one run to one run", source.len() == 1 && target.len() == 1 && !over(source) && !over(target)),
        ("source and target share a byte", from.iter().any(|place| written.contains(place))),
        ("read fills a byte twice", twice && send.opcode == READ),
        ("receive fills a byte twice", twice && is_send),
    ]);
    let all: Vec<Range> = source.iter().chain(target).copied().filter(|range| range.length > 0).collect();
    seen.extend(of_ranges(card, &all));
    seen
}

/// Of all ranges of a message, source and target.
fn of_ranges(card: &Listing, all: &[Range]) -> Vec<&'static str> {
    let paged: Vec<Range> = all.iter().copied().filter(|range| range.is_paged(card)).collect();
    let offset = |range: &Range| range.offset(card).unwrap_or(0);
    let to_itself = |range: &Range| {
        let (at, pages) = ((offset(range) / PAGE_BYTES) as usize, region_of(card, range.key).map_or(&[][..], |(_, pages)| pages));
        range.is_over_an_end(card) && pages.get(at) == pages.get(at + 1)
    };
    let longer = |range: &Range| region_of(card, range.key).map_or(false, |(region, _)| region.length > card.memory_length);
    those(&[
        ("over the end of a page to itself", paged.iter().any(to_itself)),
        ("up to an end", paged.iter().any(|range| (offset(range) + range.length) % PAGE_BYTES == 0)),
        ("from a first byte on", paged.iter().any(|range| offset(range) % PAGE_BYTES == 0)),
        ("both kinds in one message", !paged.is_empty() && paged.len() < all.len()),
        ("in a region longer than the memory", paged.iter().any(longer)),
    ])
}
