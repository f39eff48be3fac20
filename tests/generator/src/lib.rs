//! Makes long lists of calls that mirror the card, most of them successful, with changes at each boundary; and damages lent states.

mod control;
mod damage;
mod mutate;
mod pages;
mod turns;
mod work;

pub use damage::{damage, fields, forget_destination, region_slots, Field};
pub use turns::head_held;

use cards::{build, Call, Reference, Rng};
use reference::layout::*;
use reference::listing::{Listing, PairListing, QueueListing};
use reference::record::REGISTER;
use reference::{ack_need, Outcome, ACK_BYTES};

pub struct Generator {
    rng: Rng,
    wr_id: u64,
    /// Keys handed out since the last reset, standing or not.
    keys: Vec<u32>,
    /// How many pairs, regions and so on the card should have.
    goal: Goal,
    /// How many calls in a hundred are changed at a boundary.
    changed: u64,
    /// Whether page lists are among the calls.
    pages: bool,
    /// How many sends in a hundred go into a queue, where a list may have queues.
    queued: Option<u64>,
}

struct Goal {
    domains: usize,
    queues: usize,
    regions: usize,
    pairs: usize,
}

impl Generator {
    pub fn new(seed: u64) -> Generator {
        let goal = Goal { domains: 2, queues: 3, regions: 6, pairs: 4 };
        Generator { rng: Rng::new(seed), wr_id: 0, keys: Vec::new(), goal, changed: 25, pages: true, queued: Some(0) }
    }

    /// Makes no page lists, enqueues and turns, which no tape can hold.
    pub fn for_tapes(seed: u64) -> Generator {
        Generator { pages: false, queued: None, ..Generator::new(seed) }
    }

    pub fn rng(&mut self) -> &mut Rng {
        &mut self.rng
    }

    /// Begins a new list of calls: the memory length for its reset.
    pub fn begin(&mut self) -> u64 {
        self.keys.clear();
        self.goal = match self.rng.below(12) {
            0 => Goal { domains: DOMAINS, queues: QUEUES, regions: self.rng.pick(&[32, REGIONS]), pairs: PAIRS },
            _ => Goal {
                domains: 1 + self.rng.index(3),
                queues: 1 + self.rng.index(4),
                regions: 3 + self.rng.index(8),
                pairs: self.rng.pick(&[2, 4, 6, 8]),
            },
        };
        self.changed = self.rng.pick(&[5, 20, 30, 40]);
        self.queued = self.queued.map(|_| self.rng.pick(&[0, 10, 50, 50, 90, 100]));
        match self.rng.below(20) {
            0 => 1 + self.rng.below(64),
            1 if self.rng.percent(10) => MOST_MEMORY - self.rng.below(2),
            1 => (1 << 20) - self.rng.below(2) + self.more_pages(),
            2..=7 => 4096,
            _ => 4096 + self.rng.below(12288),
        }
    }

    /// Where page lists are made, some pages behind the 256th, in bytes.
    fn more_pages(&mut self) -> u64 {
        if self.pages {
            PAGE_BYTES * self.rng.below(256)
        } else {
            0
        }
    }

    /// Calls that register and deregister the lowest slot up to its last variant, and then the next; over a page in turn, if the memory
    /// has one.
    pub fn many_variants(&mut self, memory_length: u64) -> Vec<Call> {
        let mut calls = vec![control(build::create_domain())];
        for n in 0..260 {
            let command = build::register(0, 7, 0, 1, self.rng.word() >> 1);
            let over_page = memory_length >= PAGE_BYTES && n % 3 == 0;
            calls.push(if over_page { Call::Pages { command, pages: vec![0], ack: ACK_BYTES } } else { control(command) });
            calls.push(control(build::deregister(n / 255)));
        }
        calls
    }

    /// The next call, in view of what the card holds.
    pub fn next(&mut self, card: &Listing) -> Call {
        let call = self.plain(card);
        if self.rng.percent(self.changed) {
            self.change_lengths(call, card)
        } else {
            call
        }
    }

    fn plain(&mut self, card: &Listing) -> Call {
        if self.rng.percent(60) {
            if let Some(call) = self.set_up(card) {
                return call;
            }
        }
        if let Some(call) = self.turn_or_enqueue(card) {
            return call;
        }
        if self.rng.percent(10) {
            if let Some(call) = self.held_in_error(card) {
                return call;
            }
        }
        if self.rng.percent(45) {
            if let Some(call) = self.poll_full(card) {
                return call;
            }
        }
        match self.rng.below(100) {
            0..=44 => self.send_or_receive(card),
            45..=54 => self.receive(card, None),
            55..=79 => self.poll(card),
            80..=87 => self.flush(card),
            88..=98 if self.pages && self.rng.percent(30) => self.any_pages(card),
            88..=98 => control(self.any_command(card)),
            _ => Call::Reset { memory_length: self.rng.pick(&[0, MOST_MEMORY + 1, 1 << 32, u64::MAX]) },
        }
    }

    fn poll(&mut self, card: &Listing) -> Call {
        let unread = queues_where(card, |queue| !queue.unread.is_empty());
        let cqn = match self.rng.choose(&unread) {
            Some(cqn) if self.rng.percent(92) => cqn as u32,
            None if self.rng.percent(80) => return self.receive(card, None),
            _ => self.number(QUEUES),
        };
        Call::Poll { cqn, buffer: self.rng.pick(&[24, 24, 25, 40]) }
    }

    /// Makes room where a queue is full.
    fn poll_full(&mut self, card: &Listing) -> Option<Call> {
        let full = queues_where(card, |queue| queue.unread.len() + 1 >= queue.places && !queue.unread.is_empty());
        self.rng.choose(&full).map(|cqn| Call::Poll { cqn: cqn as u32, buffer: 24 })
    }

    fn flush(&mut self, card: &Listing) -> Call {
        let failed = pairs_where(card, |pair| pair.pair.state == ERROR);
        let qpn = match self.rng.choose(&failed) {
            Some(qpn) if self.rng.percent(80) => qpn as u32,
            None if self.rng.percent(75) => return self.send_or_receive(card),
            _ => self.number(PAIRS),
        };
        Call::Flush { qpn }
    }

    /// A number that is mostly in its table.
    fn number(&mut self, count: usize) -> u32 {
        if self.rng.percent(92) {
            return self.rng.index(count) as u32;
        }
        self.rng.pick(&[count as u32, count as u32 + 1, 255, 256, 1 << 16, 1 << 31, u32::MAX])
    }

    fn next_wr_id(&mut self) -> u64 {
        self.wr_id += 1;
        if self.rng.percent(95) {
            self.wr_id
        } else {
            self.rng.word()
        }
    }

    /// Takes notice of a registration.
    pub fn observe(&mut self, call: &Call, outcome: Outcome, ack: &[u8]) {
        if let (Call::Control { command, .. } | Call::Pages { command, .. }, 0) = (call, outcome.answer) {
            if command[1] == REGISTER {
                self.keys.push(get32(ack, 5));
            }
        }
    }
}

/// A command with some ack bytes more than it needs.
fn control(command: Vec<u8>) -> Call {
    let ack = ack_need(&command) + 3;
    Call::Control { command, ack }
}

/// The numbers of the live queues that fit.
fn queues_where(card: &Listing, fits: impl Fn(&QueueListing) -> bool) -> Vec<usize> {
    (0..QUEUES).filter(|&n| card.queues[n].as_ref().map_or(false, &fits)).collect()
}

/// The numbers of the live pairs that fit.
fn pairs_where(card: &Listing, fits: impl Fn(&PairListing) -> bool) -> Vec<usize> {
    (0..PAIRS).filter(|&n| card.pairs[n].as_ref().map_or(false, &fits)).collect()
}

/// The slots of the live regions in a domain with these rights.
fn regions_of(card: &Listing, domain: u8, right: u8) -> Vec<usize> {
    let fits = |n: &usize| card.regions[*n].map_or(false, |region| region.domain == domain && region.access & right == right);
    (0..REGIONS).filter(fits).collect()
}

/// Makes a call on the reference card; gives back what it wrote to the ack or the completion buffer.
pub fn play(call: &Call, state: &mut [u8], memory: &mut [u8]) -> (Outcome, Vec<u8>) {
    let mut written = vec![0; call.buffer()];
    let outcome = match call.memory() {
        Some(length) if length != memory.len() => call.make(&Reference, state, &mut vec![0; length], &mut written),
        _ => call.make(&Reference, state, memory, &mut written),
    };
    (outcome, written)
}

/// A state that a list of `calls` calls leaves, played on the reference card.
pub fn reached_state(seed: u64, calls: usize) -> Vec<u8> {
    let mut generator = Generator::new(seed);
    let mut state = vec![0; STATE_BYTES];
    let length = generator.begin();
    let mut memory = vec![0; length as usize];
    reference::reset(&mut state, length);
    for _ in 0..calls {
        let card = Listing::of(&state).expect("calls leave an accepted state");
        let call = generator.next(&card);
        let (outcome, written) = play(&call, &mut state, &mut memory);
        generator.observe(&call, outcome, &written);
    }
    state
}
