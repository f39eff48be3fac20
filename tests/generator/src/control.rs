//! Control commands that build a card up, use it and take it down.

use crate::{control, pairs_where, Generator};
use cards::build::*;
use cards::Call;
use reference::layout::*;
use reference::listing::Listing;

impl Generator {
    /// What the card still needs: objects up to the goal, then pairs joined and ready.
    pub(crate) fn set_up(&mut self, card: &Listing) -> Option<Call> {
        let domains = card.domains.iter().filter(|&&live| live).count();
        if domains < self.goal.domains {
            return Some(control(create_domain()));
        }
        if card.queues.iter().flatten().count() < self.goal.queues {
            let places = if self.rng.percent(40) { 1 + self.rng.below(3) } else { 1 + self.rng.below(16) };
            return Some(control(create_queue(places as u32)));
        }
        if card.regions.iter().flatten().count() < self.goal.regions {
            let over_pages = self.pages && card.memory_length >= PAGE_BYTES && self.rng.percent(45);
            return Some(if over_pages { self.page_registration(card) } else { control(self.registration(card)) });
        }
        if card.pairs.iter().flatten().count() < self.goal.pairs {
            return Some(control(self.pair_creation(card)));
        }
        self.join_step(card).map(control)
    }

    /// The next move of some pair towards ready to send with its neighbour.
    fn join_step(&mut self, card: &Listing) -> Option<Vec<u8>> {
        let unready = pairs_where(card, |pair| pair.pair.state != READY_TO_SEND);
        let number = self.rng.choose(&unready)?;
        let pair = card.pairs[number].as_ref()?;
        let neighbour = number ^ 1;
        card.pairs[neighbour].as_ref()?;
        let number = number as u32;
        match pair.pair.state {
            RESET => Some(self.with_access(to_state(number, INIT), 10)),
            INIT => {
                let peer = if self.rng.percent(95) { neighbour as u32 } else { self.other_pair(number) };
                Some(if self.rng.percent(80) { join(number, peer) } else { self.with_access(to_peer(number, peer), 80) })
            }
            READY_TO_RECEIVE => Some(self.with_access(to_state(number, READY_TO_SEND), 10)),
            _ => self.rng.percent(if pair.waiting.is_empty() { 60 } else { 15 }).then(|| move_to(number, RESET)),
        }
    }

    /// The record, `part` times in a hundred with access flags.
    fn with_access(&mut self, modify: Modify, part: u64) -> Vec<u8> {
        let access = self.rng.pick(&[0, 1, 2, 4, 6, 7, 7, 7]);
        if self.rng.percent(part) {
            modify.access(access).bytes()
        } else {
            modify.bytes()
        }
    }

    fn other_pair(&mut self, number: u32) -> u32 {
        (number + 1 + self.rng.below(7) as u32) % 8
    }

    pub(crate) fn live_domain(&mut self, card: &Listing) -> u32 {
        let live: Vec<usize> = (0..DOMAINS).filter(|&n| card.domains[n]).collect();
        self.rng.choose(&live).unwrap_or(0) as u32
    }

    fn live_queue(&mut self, card: &Listing) -> u32 {
        let live: Vec<usize> = (0..QUEUES).filter(|&n| card.queues[n].is_some()).collect();
        self.rng.choose(&live).unwrap_or(0) as u32
    }

    fn registration(&mut self, card: &Listing) -> Vec<u8> {
        let memory = card.memory_length;
        let most = match self.rng.below(5) {
            0 => 16,
            1 => memory,
            _ => 4096,
        };
        let length = (1 + self.rng.below(most)).min(memory);
        let start = match self.rng.below(4) {
            0 => 0,
            1 => memory - length,
            _ => self.rng.below(memory - length + 1),
        };
        let virt = self.virt(start, length);
        // 2 and 6 are refused
        let access = if self.rng.percent(60) { 7 } else { self.rng.below(8) as u32 };
        register(self.live_domain(card), access, start, length, virt)
    }

    /// An address for a region's first byte.
    pub(crate) fn virt(&mut self, start: u64, length: u64) -> u64 {
        match self.rng.below(6) {
            0 => start,
            1 => 0,
            2 => u64::MAX - length,
            3 => u64::MAX - length - self.rng.below(5000),
            _ => self.rng.word() >> 1,
        }
    }

    fn pair_creation(&mut self, card: &Listing) -> Vec<u8> {
        let (domain, signal) = (self.live_domain(card), self.rng.below(2) as u8);
        let send_queue = self.live_queue(card);
        let receive_queue = if self.rng.percent(40) { send_queue } else { self.live_queue(card) };
        let mut record = create_pair(domain, 2, signal, send_queue, receive_queue);
        self.rng.fill(&mut record[8..10]);
        record
    }

    /// Any command, sensible or not.
    pub(crate) fn any_command(&mut self, card: &Listing) -> Vec<u8> {
        let command = match self.rng.below(24) {
            0 | 1 => query_device(),
            2 | 3 => query_port(),
            4 => create_domain(),
            5 => create_queue(1 + self.rng.below(16) as u32),
            6 => destroy_domain(self.number(DOMAINS)),
            7 => destroy_queue(self.number(QUEUES)),
            8..=10 => deregister(self.number(REGIONS)),
            11..=13 => self.registration(card),
            14 => self.pair_creation(card),
            15 => destroy_pair(self.number(PAIRS)),
            16..=20 => self.any_move(card),
            _ => self.removal(card),
        };
        if self.rng.percent(self.changed + 10) {
            self.change_command(command, card)
        } else {
            command
        }
    }

    fn any_move(&mut self, card: &Listing) -> Vec<u8> {
        let number = match self.rng.choose(&pairs_where(card, |_| true)) {
            Some(number) if self.rng.percent(80) => number as u32,
            _ => self.number(PAIRS),
        };
        match self.rng.pick(&[0, 1, 2, 3, 6, 6]) {
            2 if self.rng.percent(10) => join(number, number),
            2 => join(number, self.other_pair(number % 8)),
            state => {
                let (destination, access) = (self.rng.word() as u32, self.rng.word() as u32);
                self.with_access(Modify { destination, access, ..to_state(number, state) }, 40)
            }
        }
    }

    /// Removes an object that nobody uses, if there is one.
    fn removal(&mut self, card: &Listing) -> Vec<u8> {
        let pairs: Vec<_> = card.pairs.iter().flatten().collect();
        let used = |n: usize| pairs.iter().any(|p| usize::from(p.pair.send_queue) == n || usize::from(p.pair.receive_queue) == n);
        let free: Vec<usize> = (0..QUEUES).filter(|&n| card.queues[n].is_some() && !used(n)).collect();
        if let Some(number) = self.rng.choose(&free) {
            return destroy_queue(number as u32);
        }
        let in_pair = |n: usize| pairs.iter().any(|p| usize::from(p.pair.domain) == n);
        let in_region = |n: usize| card.regions.iter().flatten().any(|r| usize::from(r.domain) == n);
        let free: Vec<usize> = (0..DOMAINS).filter(|&n| card.domains[n] && !in_pair(n) && !in_region(n)).collect();
        match self.rng.choose(&free) {
            Some(number) => destroy_domain(number as u32),
            None => deregister(self.number(REGIONS)),
        }
    }
}
