//! Fairness, and that a turn is the post send of what it runs: along lists of calls the queues are kept by the log alone, and before each turn every
//! queue's oldest record is posted on a copy of the card without that queue. The turn must then do the same to the card as one of these, and none that
//! could run may wait while another is served twice, or while seven others were served.

use cards::build::*;
use cards::{Call, Card, Outcome, Rng};
use reference::layout::*;
use reference::record::{Piece, READ, SEND, SIGNALED, WRITE};
use std::collections::VecDeque;

const MEMORY: usize = 4096;
const VIRT: u64 = 1 << 32;
const KEY: u32 = 1;

/// What was seen: turns answered 0 and 9, how many of those that were served had waited for so many others, and how the requests ended.
#[derive(Debug, Default)]
pub struct Seen {
    pub served: u64,
    pub nothing: u64,
    pub waited: [u64; PAIRS],
    pub flushed: u64,
    pub failed: u64,
}

/// What a post send of a queue's oldest record would do.
struct Posted {
    outcome: Outcome,
    state: Vec<u8>,
    memory: Vec<u8>,
}

struct List<'a> {
    card: &'a dyn Card,
    rng: Rng,
    state: Vec<u8>,
    memory: Vec<u8>,
    /// The records enqueued on each pair since its creation and last move to 0, less those that turns took.
    queues: [VecDeque<Vec<u8>>; PAIRS],
    /// Which pairs were served since this one could run, at each turn from then on.
    waits: [Vec<u8>; PAIRS],
    /// Pairs whose queues are always filled up.
    streams: u8,
    /// Few requests complete or fail, so that most queues can run.
    calm: bool,
    wr_id: u64,
}

/// Plays lists of calls with so many turns in all; panics where a turn is unfair, or is not the post send of its record.
pub fn run(card: &dyn Card, turns: u64, seed: u64) -> Seen {
    let mut seen = Seen::default();
    let mut rng = Rng::new(seed);
    while seen.served + seen.nothing < turns {
        let mut list = List::begin(card, Rng::new(rng.word()));
        for _ in 0..600 {
            list.step(&mut seen);
        }
    }
    seen
}

impl<'a> List<'a> {
    /// Eight pairs, joined in twos, over a few completion queues.
    fn begin(card: &'a dyn Card, mut rng: Rng) -> List<'a> {
        let (calm, all) = (rng.percent(60), rng.percent(30));
        let streams = if all { 255 } else { rng.word() as u8 & rng.word() as u8 };
        let mut memory = vec![0; MEMORY];
        rng.fill(&mut memory);
        let mut list = List {
            card,
            rng,
            state: vec![0; STATE_BYTES],
            memory,
            queues: Default::default(),
            waits: Default::default(),
            streams,
            calm,
            wr_id: 0,
        };
        assert_eq!(card.reset(&mut list.state, MEMORY as u64), Outcome::DONE);
        list.control(create_domain());
        list.control(register(0, 7, 0, MEMORY as u64, VIRT));
        for _ in 0..4 {
            let places = 1 + list.rng.below(16) as u32;
            list.control(create_queue(places));
        }
        for n in 0..PAIRS {
            list.create(n);
        }
        for n in 0..PAIRS as u32 {
            ready(n, n ^ 1).into_iter().for_each(|command| list.control(command));
        }
        list
    }

    fn control(&mut self, command: Vec<u8>) {
        assert_eq!(self.card.control(&mut self.state, &command, &mut [0; 13]), Outcome::DONE, "{command:?}");
    }

    /// Numbers below it are live.
    fn create(&mut self, number: usize) {
        let signal = if self.calm { 1 } else { self.rng.below(2) as u8 };
        let (send, receive) = (self.rng.below(4) as u32, self.rng.below(4) as u32);
        self.control(create_pair(0, 2, signal, send, receive));
        self.queues[number].clear();
    }

    fn step(&mut self, seen: &mut Seen) {
        for number in 0..PAIRS {
            while self.streams >> number & 1 == 1 && self.queues[number].len() < MOST_QUEUED && self.rng.percent(80) {
                self.enqueue(number);
            }
        }
        let number = self.rng.index(PAIRS);
        match self.rng.below(100) {
            0..=54 => self.turn(seen),
            55..=66 => self.enqueue(number),
            67..=76 => self.receive(number),
            77..=91 => self.poll(number as u32 % 4),
            92 | 93 => self.direct(number),
            94 if !self.calm || self.rng.percent(10) => self.control(move_to(number as u32, ERROR)),
            94 | 95 => {
                let failed: Vec<usize> = (0..PAIRS).filter(|&n| self.state[pair_row(n) + PAIR_STATE] == ERROR).collect();
                let number = self.rng.choose(&failed).unwrap_or(number);
                self.again(number, false);
            }
            96 if !self.calm => self.again(number, false),
            97 if !self.calm || self.rng.percent(20) => self.again(number, true),
            96..=98 => self.refused(number),
            _ => {
                let at = self.rng.index(MEMORY - 64);
                self.rng.fill(&mut self.memory[at..at + 64]);
            }
        }
    }

    /// A write, a read or a send; few of them fail.
    fn record(&mut self) -> Vec<u8> {
        self.wr_id += 1;
        let length = self.rng.below(40) as u32;
        let piece = Piece { address: VIRT + self.rng.below(2000), length, key: KEY };
        let opcode = if self.calm && self.rng.percent(95) { WRITE } else { self.rng.pick(&[WRITE, WRITE, WRITE, READ, SEND]) };
        let key = if !self.calm && self.rng.percent(2) { 9 } else { KEY };
        let mut send = Send::new(self.wr_id, opcode).remote(VIRT + 2000 + self.rng.below(2000), key);
        send.flags = if self.rng.percent(if self.calm { 3 } else { 20 }) { SIGNALED } else { 0 };
        send.pieces.push(piece);
        send.bytes()
    }

    fn enqueue(&mut self, number: usize) {
        let record = self.record();
        let outcome = self.card.enqueue(&mut self.state, &self.memory, number as u32, &record);
        let phase = self.state[pair_row(number) + PAIR_STATE];
        let wanted = match self.queues[number].len() {
            _ if !matches!(phase, READY_TO_SEND | ERROR) => 3,
            MOST_QUEUED => 8,
            _ => 0,
        };
        assert_eq!(outcome, Outcome { answer: wanted, ..Outcome::DONE });
        if wanted == 0 {
            self.queues[number].push_back(record);
        }
    }

    /// One completion or all.
    fn poll(&mut self, cqn: u32) {
        let most = if self.rng.percent(60) { MOST_PLACES } else { 1 };
        for _ in 0..most {
            self.card.poll(&mut self.state, cqn, &mut [0; COMPLETION_BYTES]);
        }
    }

    fn receive(&mut self, number: usize) {
        self.wr_id += 1;
        let record = receive(self.wr_id, &[piece(VIRT + 3000, 64, KEY)]);
        self.card.post_receive(&mut self.state, number as u32, &record);
    }

    fn direct(&mut self, number: usize) {
        let record = self.record();
        let outcome = self.card.post_send(&mut self.state, &mut self.memory, number as u32, &record);
        assert_eq!(outcome.answer == 10, !self.queues[number].is_empty());
    }

    /// A move to 0, or a destruction and creation, and back to ready.
    fn again(&mut self, number: usize, destroyed: bool) {
        if destroyed {
            self.control(destroy_pair(number as u32));
            self.create(number);
        } else {
            self.control(move_to(number as u32, RESET));
            self.queues[number].clear();
        }
        ready(number as u32, number as u32 ^ 1).into_iter().for_each(|command| self.control(command));
    }

    fn refused(&mut self, number: usize) {
        let before = self.state.clone();
        for call in [
            Call::Turn { memory: MEMORY + 1 },
            Call::Enqueue { qpn: 8 + number as u32, record: self.record(), memory: MEMORY },
            Call::Reset { memory_length: 0 },
        ] {
            let outcome = call.make(self.card, &mut self.state, &mut vec![0; call.memory().unwrap_or(0)], &mut []);
            assert!(outcome.answer != 0 && self.state == before, "{call}");
        }
    }

    /// What the post send of each queue's oldest record does to a copy of the card without that queue, if it is not held.
    fn posted(&self) -> Vec<Option<Posted>> {
        let post = |number: usize| {
            let record = self.queues[number].front()?;
            let (mut state, mut memory) = (self.state.clone(), self.memory.clone());
            state[sends_row(number) + SENDS_COUNT] = 0;
            let outcome = self.card.post_send(&mut state, &mut memory, number as u32, record);
            assert!(matches!(outcome.answer, 0 | 5 | 6), "{outcome:?}");
            (outcome.answer == 0).then_some(Posted { outcome, state, memory })
        };
        (0..PAIRS).map(post).collect()
    }

    fn turn(&mut self, seen: &mut Seen) {
        let posted = self.posted();
        let before = self.state.clone();
        let outcome = self.card.turn(&mut self.state, &mut self.memory);
        if posted.iter().all(Option::is_none) {
            assert_eq!(outcome, Outcome { answer: 9, ..Outcome::DONE });
            assert!(self.state == before, "9 changes the card");
            seen.nothing += 1;
            return;
        }
        let served = usize::from(outcome.served);
        let wanted = posted.get(served).and_then(Option::as_ref).unwrap_or_else(|| panic!("{served} can't run, {outcome:?}"));
        assert_eq!(outcome, Outcome { served: outcome.served, ..wanted.outcome });
        self.same_as(wanted, &before, served);
        self.queues[served].pop_front();
        self.wait(&posted, served, seen);
        seen.served += 1;
        seen.flushed += u64::from(outcome.status == 4);
        seen.failed += u64::from(!matches!(outcome.status, 0 | 4));
    }

    /// The card is that of the post send, but for the queue, which has one fewer, and the place.
    fn same_as(&self, posted: &Posted, before: &[u8], served: usize) {
        let mut wanted = posted.state.clone();
        let head = sends_row(served);
        wanted[head + SENDS_FIRST] = (before[head + SENDS_FIRST] + 1) % MOST_QUEUED as u8;
        wanted[head + SENDS_COUNT] = before[head + SENDS_COUNT] - 1;
        wanted[TURN] = ((served + 1) % PAIRS) as u8;
        assert!(self.state == wanted, "a turn of {served} leaves another card than a post send");
        assert!(self.memory == posted.memory, "a turn of {served} leaves another memory than a post send");
    }

    /// "a QP whose head is runnable at each turn is served within 8 turns answered 0, and none gets two turns while such a QP waits"
    fn wait(&mut self, posted: &[Option<Posted>], served: usize, seen: &mut Seen) {
        for (number, wait) in self.waits.iter_mut().enumerate() {
            if number == served {
                seen.waited[wait.len()] += 1;
            }
            if number == served || posted[number].is_none() {
                wait.clear();
                continue;
            }
            assert!(!wait.contains(&(served as u8)), "{served} is served twice while {number} waits: {wait:?}");
            wait.push(served as u8);
            assert!(wait.len() < PAIRS, "{number} is not among eight: {wait:?}");
        }
    }
}

/// Fair along lists of calls with 1,500 turns; each wait of up to seven others is among them.
pub fn turns_are_fair(card: &dyn Card) {
    let seen = run(card, 1500, 1);
    assert!(seen.waited.iter().all(|&count| count > 0) && seen.nothing > 0 && seen.flushed > 0 && seen.failed > 0, "{seen:?}");
}
