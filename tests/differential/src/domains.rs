//! What a domain's answer may depend on (document 02, M-111): a card, and a copy of it in which everything outside one domain is changed, get the same
//! direct send on a pair of that domain. Answer, status, new completions and written bytes must be the same.

use cards::{Call, Card, Outcome, Rng};
use generator::{play, Generator};
use reference::accept::pages_needed;
use reference::layout::*;
use reference::listing::{Listing, PairListing};
use reference::record::{Completion, Kind, ADDRESS_AT, KEY_AT, PIECE_BYTES, SEND_BYTES};
use std::collections::BTreeMap;

/// Sends that were compared, by answer and status; and how much of the copies was changed.
#[derive(Debug, Default)]
pub struct Seen {
    pub sends: u64,
    pub outcomes: BTreeMap<(u8, u8), u64>,
    /// Sends with a region, a pair, a completion and a memory byte of others changed, whose peer is live, and that wrote a byte.
    pub regions: u64,
    pub pairs: u64,
    pub completions: u64,
    pub bytes: u64,
    pub joined: u64,
    pub wrote: u64,
}

/// Every answer of a direct send on a live pair, with each status.
const OUTCOMES: [(u8, u8); 13] =
    [(0, 0), (0, 1), (0, 3), (0, 4), (0, 7), (0, 8), (1, 0), (3, 0), (4, 0), (5, 0), (6, 0), (7, 0), (10, 0)];

impl Seen {
    /// What was never seen.
    pub fn missing(&self) -> Vec<String> {
        let outcomes = OUTCOMES.iter().filter(|outcome| !self.outcomes.contains_key(outcome));
        let counts = [self.regions, self.pairs, self.completions, self.bytes, self.joined, self.wrote];
        let names = ["regions", "pairs", "completions", "bytes", "joined", "wrote"];
        let others = names.into_iter().zip(counts).filter(|(_, count)| *count == 0).map(|(name, _)| name.to_string());
        outcomes.map(|(answer, status)| format!("answer {answer}, status {status}")).chain(others).collect()
    }
}

/// What is lent to one of the two cards.
#[derive(Clone)]
struct Lent {
    state: Vec<u8>,
    memory: Vec<u8>,
}

/// Compares so many sends on the card; the error says what differs.
pub fn run(card: &dyn Card, sends: u64, seed: u64) -> Result<Seen, String> {
    let mut seen = Seen::default();
    let mut generator = Generator::new(seed);
    let mut rng = Rng::new(!seed);
    while seen.sends < sends {
        let length = generator.begin();
        if length > 1 << 16 {
            continue;
        }
        let mut lent = Lent { state: vec![0; STATE_BYTES], memory: vec![0; length as usize] };
        rng.fill(&mut lent.memory);
        reference::reset(&mut lent.state, length);
        for _ in 0..300 {
            let listing = Listing::of(&lent.state).expect("calls leave an accepted state");
            compare_one(card, &mut generator, &mut rng, &lent, &listing, &mut seen)?;
            let call = generator.next(&listing);
            let (outcome, written) = play(&call, &mut lent.state, &mut lent.memory);
            generator.observe(&call, outcome, &written);
        }
    }
    Ok(seen)
}

fn compare_one(
    card: &dyn Card,
    generator: &mut Generator,
    rng: &mut Rng,
    lent: &Lent,
    listing: &Listing,
    seen: &mut Seen,
) -> Result<(), String> {
    let claimed: Vec<usize> = (0..PAIRS).filter(|&n| peer_within(listing, n)).collect();
    let number = match rng.choose(&claimed) {
        Some(number) => number,
        None => return Ok(()),
    };
    let pair = listing.pairs[number].as_ref().expect("a live pair");
    let call = match generator.send_from(listing, number) {
        Some(Call::Send { qpn, record, memory }) if rng.percent(25) => {
            Call::Send { qpn, record: foreign(rng, listing, pair.pair.domain, record), memory }
        }
        Some(call) => call,
        None => return Ok(()),
    };
    let covered = covered_bytes(listing, pair.pair.domain, lent.memory.len());
    let other = others_changed(rng, lent, listing, number, &covered);
    let changed = Listing::of(&other.state).ok_or_else(|| format!("{:?}", reference::fault(&other.state)))?;
    let (first, second) = (sent(card, &call, lent), sent(card, &call, &other));
    let what = |what: &str| format!("{what} on {}, pair {number} of domain {}: {call}", card.name(), pair.pair.domain);
    if first.0 != second.0 {
        return Err(what(&format!("{:?} and {:?}", first.0, second.0)));
    }
    match (new_completions(listing, &first.1.state), new_completions(&changed, &second.1.state)) {
        (Some(first), Some(second)) if first == second => {}
        (Some(_), Some(_)) => return Err(what("other completions")),
        _ => return Err(what("a state that is not acceptable")),
    }
    for at in 0..covered.len() {
        let same = match covered[at] {
            true => first.1.memory[at] == second.1.memory[at],
            false => first.1.memory[at] == lent.memory[at] && second.1.memory[at] == other.memory[at],
        };
        if !same {
            return Err(what(&format!("memory byte {at}")));
        }
    }
    seen.sends += 1;
    *seen.outcomes.entry((first.0.answer, first.0.status)).or_default() += 1;
    seen.regions += u64::from(listing.regions != changed.regions);
    seen.pairs += u64::from(listing.pairs != changed.pairs);
    seen.completions += u64::from(listing.queues != changed.queues);
    seen.bytes += u64::from(lent.memory != other.memory);
    seen.joined += u64::from(peer(listing, pair).is_some());
    seen.wrote += u64::from(first.1.memory != lent.memory);
    Ok(())
}

/// The record with its first piece, or its remote range, in a region of another domain, if there is one.
fn foreign(rng: &mut Rng, listing: &Listing, domain: u8, mut record: Vec<u8>) -> Vec<u8> {
    let others = (0..REGIONS).filter(|&n| listing.regions[n].map_or(false, |region| region.domain != domain));
    let slot = rng.choose(&others.collect::<Vec<_>>());
    let at = if rng.percent(50) { SEND_BYTES } else { ADDRESS_AT };
    if let (Some(slot), true) = (slot, record.len() >= at + PIECE_BYTES) {
        if let Some(region) = listing.regions[slot] {
            put64(&mut record, at, region.virt);
            let key = 256 * slot as u32 + u32::from(region.variant);
            put32(&mut record, if at == SEND_BYTES { at + 12 } else { KEY_AT }, key);
        }
    }
    record
}

/// The pair that the named destination is, if it is live.
fn peer<'l>(listing: &'l Listing, pair: &PairListing) -> Option<&'l PairListing> {
    listing.pairs.get(usize::from(pair.pair.destination))?.as_ref()
}

/// Whether the number is live, and the named peer is not live outside its domain.
fn peer_within(listing: &Listing, number: usize) -> bool {
    let within = |pair: &PairListing| peer(listing, pair).map_or(true, |peer| peer.pair.domain == pair.pair.domain);
    listing.pairs[number].as_ref().map_or(false, within)
}

/// Makes the call on a copy; a memory of another length is another memory.
fn sent(card: &dyn Card, call: &Call, lent: &Lent) -> (Outcome, Lent) {
    let mut left = lent.clone();
    let length = call.memory().unwrap_or(0);
    let mut other = vec![0; length];
    let memory = if length == left.memory.len() { &mut left.memory } else { &mut other };
    let outcome = call.make(card, &mut left.state, memory, &mut []);
    (outcome, left)
}

/// The completions of each queue that were not there before; None if the state is not accepted.
fn new_completions(before: &Listing, state: &[u8]) -> Option<Vec<Vec<Completion>>> {
    let after = Listing::of(state)?;
    let new = |n: usize| match (&before.queues[n], &after.queues[n]) {
        (Some(before), Some(after)) => after.unread.get(before.unread.len()..).unwrap_or_default().to_vec(),
        _ => vec![],
    };
    Some((0..QUEUES).map(new).collect())
}

/// Which memory bytes an address of a region of the domain means.
fn covered_bytes(listing: &Listing, domain: u8, length: usize) -> Vec<bool> {
    let mut covered = vec![false; length];
    for (slot, region) in listing.regions.iter().enumerate() {
        let region = match region {
            Some(region) if region.domain == domain => region,
            _ => continue,
        };
        if !region.paged {
            covered[region.start as usize..(region.start + region.length) as usize].fill(true);
            continue;
        }
        for at in region.start..region.start + region.length {
            let page = listing.pages[slot][(at / PAGE_BYTES) as usize];
            covered[(page + at % PAGE_BYTES) as usize] = true;
        }
    }
    covered
}

// ---- everything outside the domain, changed

struct Change<'c> {
    rng: &'c mut Rng,
    listing: &'c Listing,
    state: Vec<u8>,
    /// The domain that stays, the pair that sends, and the domains and queues that are live in the copy.
    domain: u8,
    number: usize,
    domains: Vec<u8>,
    queues: Vec<u8>,
}

/// A card that agrees with this one on all that the claim names, and on as little else as can be.
fn others_changed(rng: &mut Rng, lent: &Lent, listing: &Listing, number: usize, covered: &[bool]) -> Lent {
    let domain = listing.pairs[number].as_ref().map_or(0, |pair| pair.pair.domain);
    let mut memory = lent.memory.clone();
    for (byte, _) in memory.iter_mut().zip(covered).filter(|(_, covered)| !**covered) {
        *byte = rng.word() as u8;
    }
    let mut change = Change { rng, listing, state: lent.state.clone(), domain, number, domains: vec![], queues: vec![] };
    change.header();
    change.queues();
    (0..REGIONS).for_each(|slot| change.region(slot));
    (0..PAIRS).for_each(|pair| change.pair(pair));
    Lent { state: change.state, memory }
}

impl Change<'_> {
    fn own(&self, number: usize) -> Option<&PairListing> {
        self.listing.pairs[number].as_ref().filter(|pair| pair.pair.domain == self.domain)
    }

    fn header(&mut self) {
        self.state[TURN] = self.rng.below(8) as u8;
        self.rng.fill(&mut self.state[HEADER_UNUSED..DOMAIN_FLAGS]);
        for n in (0..DOMAINS as u8).filter(|&n| n != self.domain) {
            let live = self.rng.percent(60);
            self.state[DOMAIN_FLAGS + usize::from(n)] = live.into();
            if live {
                self.domains.push(n);
            }
        }
    }

    /// Queues that the domain's pairs name stay live; of the two that the claim names, the free places stay.
    fn queues(&mut self) {
        let own: Vec<&PairListing> = (0..PAIRS).filter_map(|n| self.own(n)).collect();
        let named: Vec<u8> = own.iter().flat_map(|pair| [pair.pair.send_queue, pair.pair.receive_queue]).collect();
        let sender = self.listing.pairs[self.number].as_ref().expect("a live pair");
        let receiver = peer(self.listing, sender).map(|peer| peer.pair.receive_queue);
        let kept = [Some(sender.pair.send_queue), receiver];
        for n in 0..QUEUES as u8 {
            let live = named.contains(&n) || self.rng.percent(60);
            self.state[QUEUE_FLAGS + usize::from(n)] = live.into();
            let row = queue_row(n.into());
            self.rng.fill(&mut self.state[row..row + 4]);
            for place in 0..MOST_PLACES {
                self.completion(completion_row(n.into(), place));
            }
            if !live {
                continue;
            }
            self.queues.push(n);
            let free = match &self.listing.queues[usize::from(n)] {
                Some(queue) if kept.contains(&Some(n)) => queue.places - queue.unread.len(),
                _ => self.rng.index(MOST_PLACES + 1),
            };
            let least = free.max(1);
            let places = least + self.rng.index(MOST_PLACES + 1 - least);
            self.state[row + QUEUE_PLACES] = places as u8;
            self.state[row + QUEUE_COUNT] = (places - free) as u8;
            self.state[row + QUEUE_FIRST] = self.rng.index(MOST_PLACES) as u8;
        }
    }

    fn completion(&mut self, row: usize) {
        let wr_id = self.rng.word();
        let (status, opcode) = (self.rng.pick(&[0, 1, 3, 4, 7, 8]), self.rng.below(5) as u8);
        let (length, owner) = (self.rng.below(4097) as u32, self.rng.below(8) as u32);
        let immediate = self.rng.word() as u32;
        Completion { wr_id, status, opcode, length, immediate, owner }.write(&mut self.state, row);
    }

    /// Another's slot holds another region, or none; a free one any variant.
    fn region(&mut self, slot: usize) {
        let row = region_row(slot);
        if let Some(region) = self.listing.regions[slot].filter(|region| region.domain == self.domain) {
            let need = if region.paged { pages_needed(region.start, region.length).unwrap_or(MOST_PAGES) } else { 0 };
            self.rng.fill(&mut self.state[page_row(slot, need)..page_row(slot, MOST_PAGES)]);
            self.rng.fill(&mut self.state[row + REGION_UNUSED..row + REGION_START]);
            return;
        }
        let part = if self.listing.regions[slot].is_some() { 70 } else { 10 };
        let domain = self.rng.choose(&self.domains).filter(|_| self.rng.percent(part));
        let kept = self.rng.percent(30);
        self.state[REGION_FLAGS + slot] = domain.is_some().into();
        if domain.is_none() || !kept {
            // every key may find it: the variant often stays
            let variant = if self.rng.percent(50) { self.state[row + REGION_VARIANT] } else { self.rng.word() as u8 };
            self.rng.fill(&mut self.state[row..row + REGION_ROW]);
            self.rng.fill(&mut self.state[page_row(slot, 0)..page_row(slot, MOST_PAGES)]);
            self.state[row + REGION_VARIANT] = variant;
        }
        if let Some(domain) = domain {
            self.live_region(slot, domain);
        }
    }

    /// Over any bytes of the memory, at any address.
    fn live_region(&mut self, slot: usize, domain: u8) {
        let row = region_row(slot);
        let memory = self.listing.memory_length;
        let length = 1 + self.rng.below(memory);
        let start = self.rng.below(memory - length + 1);
        self.state[row + REGION_ACCESS] = self.rng.pick(&[0, 1, 3, 4, 5, 7, 7, 7]);
        self.state[row + REGION_VARIANT] = self.state[row + REGION_VARIANT].max(1);
        self.state[row + REGION_DOMAIN] = domain;
        self.state[row + REGION_KIND] = ADJACENT;
        put64(&mut self.state, row + REGION_START, start);
        put64(&mut self.state, row + REGION_LENGTH, length);
        let virt = get64(&self.state, row + REGION_VIRT).min(u64::MAX - length);
        put64(&mut self.state, row + REGION_VIRT, virt);
    }

    /// The domain's own pairs keep all but the places where their rings begin; the named peer that is not live stays so.
    fn pair(&mut self, number: usize) {
        if self.own(number).is_some() {
            self.turn_rings(number);
            self.state[pair_row(number) + PAIR_ZERO] = self.rng.word() as u8;
            return;
        }
        let named = self.listing.pairs[self.number].as_ref().map(|pair| usize::from(pair.pair.destination));
        let domain = self.rng.choose(&self.domains).filter(|_| self.rng.percent(70) && named != Some(number));
        self.state[PAIR_FLAGS + number] = domain.is_some().into();
        self.rng.fill(&mut self.state[pair_row(number)..pair_row(number) + PAIR_ROW]);
        self.rng.fill(&mut self.state[receive_row(number, 0)..receive_row(number, 0) + MOST_WAITING * RECEIVE_ROW]);
        self.rng.fill(&mut self.state[waiting_row(number)..waiting_row(number) + 2]);
        self.rng.fill(&mut self.state[sends_row(number)..sends_row(number) + 2]);
        for place in 0..MOST_QUEUED {
            self.rng.fill(&mut self.state[kind_row(number, place)..kind_row(number, place) + KIND_ROW]);
            self.rng.fill(&mut self.state[record_row(number, place)..record_row(number, place) + RECORD_ROW]);
        }
        if let Some(domain) = domain {
            self.live_pair(number, domain);
        }
    }

    fn live_pair(&mut self, number: usize, domain: u8) {
        let row = pair_row(number);
        let phase = self.rng.pick(&[RESET, INIT, READY_TO_RECEIVE, READY_TO_SEND, READY_TO_SEND, ERROR]);
        // often the sender's number, as if it were the peer
        let any = self.rng.pick(&[0, 1, 2, 3, 4, 5, 6, 7, NO_DESTINATION, self.number as u8, self.number as u8]);
        self.state[row + PAIR_DOMAIN] = domain;
        self.state[row + PAIR_SIGNAL] = self.rng.below(2) as u8;
        self.state[row + PAIR_SEND_QUEUE] = self.rng.pick(&self.queues);
        self.state[row + PAIR_RECEIVE_QUEUE] = self.rng.pick(&self.queues);
        self.state[row + PAIR_STATE] = phase;
        self.state[row + PAIR_DESTINATION] = if usize::from(any) == number { NO_DESTINATION } else { any };
        self.state[row + PAIR_ACCESS] = self.rng.below(8) as u8;
        let waiting = [self.rng.below(4) as u8, self.rng.below(5) as u8];
        self.state[waiting_row(number)..][..2].copy_from_slice(&waiting);
        for place in 0..MOST_WAITING {
            let count = self.rng.below(3) as u32;
            put32(&mut self.state, receive_row(number, place) + RECEIVE_COUNT, count);
        }
        let queued = if matches!(phase, READY_TO_SEND | ERROR) { self.rng.below(9) as u8 } else { 0 };
        let sends = [self.rng.below(8) as u8, queued];
        self.state[sends_row(number)..][..2].copy_from_slice(&sends);
        for place in 0..MOST_QUEUED {
            let kind = Kind { opcode: self.rng.below(5) as u8, flags: self.rng.below(8) as u8, count: self.rng.index(5) };
            kind.write(&mut self.state, kind_row(number, place));
        }
    }

    /// Both rings begin elsewhere and hold the same.
    fn turn_rings(&mut self, number: usize) {
        let old = self.state.clone();
        let by = self.rng.index(MOST_WAITING);
        let head = waiting_row(number) + WAITING_FIRST;
        self.state[head] = (old[head] + by as u8) % MOST_WAITING as u8;
        for place in 0..MOST_WAITING {
            let (from, to) = (receive_row(number, place), receive_row(number, place + by));
            self.state[to..to + RECEIVE_ROW].copy_from_slice(&old[from..from + RECEIVE_ROW]);
        }
        let by = self.rng.index(MOST_QUEUED);
        let head = sends_row(number) + SENDS_FIRST;
        self.state[head] = (old[head] + by as u8) % MOST_QUEUED as u8;
        for place in 0..MOST_QUEUED {
            let (from, to) = (kind_row(number, place), kind_row(number, place + by));
            self.state[to..to + KIND_ROW].copy_from_slice(&old[from..from + KIND_ROW]);
            let (from, to) = (record_row(number, place), record_row(number, place + by));
            self.state[to..to + RECORD_ROW].copy_from_slice(&old[from..from + RECORD_ROW]);
        }
    }
}

/// The claim on 4,000 sends, with every answer and status among them.
pub fn a_domain_decides_alone(card: &dyn Card) {
    let seen = run(card, 4000, 1).unwrap_or_else(|difference| panic!("{difference}"));
    assert!(seen.missing().is_empty(), "{:?}", seen.missing());
}
