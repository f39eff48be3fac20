//! Plays long lists of calls on the reference and on another card and compares answer, status, ack, completion, every memory byte
//! and every byte of the state after each call; and that a refused call changed nothing.

mod coverage;
pub mod domains;
mod guarded;
mod pages;
mod side;
mod turns;

use cards::{Call, Card, Reference};
pub use coverage::Coverage;
use generator::{damage, forget_destination, Generator};
use reference::layout::{PAIRS, STATE_BYTES};
use reference::listing::Listing;
use side::Side;

struct Run {
    generator: Generator,
    first: Side,
    second: Side,
    /// The objects of the first side's state, if it is accepted.
    card: Option<Listing>,
    report: Report,
}

/// What a run has seen.
pub struct Report {
    pub calls: u64,
    pub coverage: Coverage,
    pub differences: Vec<String>,
}

/// Plays at least `calls` calls, or fewer if there are `most` differences before.
pub fn run(other: &'static dyn Card, calls: u64, seed: u64, most: usize) -> Report {
    let mut run = Run {
        generator: Generator::new(seed),
        report: Report { calls: 0, coverage: Coverage::default(), differences: Vec::new() },
        first: Side::new(&Reference),
        second: Side::new(other),
        card: None,
    };
    while run.report.calls < calls && run.report.differences.len() < most {
        run.list();
    }
    run.report
}

impl Run {
    /// One reset and the calls after it, up to the first difference.
    fn list(&mut self) {
        let known = self.report.differences.len();
        let memory_length = self.generator.begin();
        let mut held = vec![0; STATE_BYTES];
        let mut memory = vec![0; memory_length as usize];
        self.generator.rng().fill(&mut held);
        self.generator.rng().fill(&mut memory);
        self.first.begin(&held, &memory);
        self.second.begin(&held, &memory);
        self.card = Listing::of(&held);
        self.step(&Call::Reset { memory_length });
        if self.generator.rng().percent(2) {
            for call in self.generator.many_variants(memory_length) {
                self.step(&call);
            }
        }
        let most = match memory_length {
            0..=65_536 => 600,
            65_537..=2_097_152 => 60,
            _ => 20,
        };
        for _ in 0..most {
            if self.generator.rng().percent(5) {
                self.rewrite_memory();
            }
            let call = match &self.card {
                Some(card) if self.report.differences.len() == known => self.generator.next(card),
                _ => return,
            };
            let part = if matches!(call, Call::Turn { .. }) { 40 } else { 10 };
            if self.generator.rng().percent(part) {
                self.damaged(&call);
            }
            self.step(&call);
        }
    }

    /// The guest writes to its memory between two calls.
    fn rewrite_memory(&mut self) {
        let rng = self.generator.rng();
        let length = self.first.memory.len();
        let start = rng.index(length);
        let end = (start + 1 + rng.index(256)).min(length);
        rng.fill(&mut self.first.memory[start..end]);
        self.second.memory[start..end].copy_from_slice(&self.first.memory[start..end]);
    }

    fn step(&mut self, call: &Call) {
        self.report.calls += 1;
        match side::compare(&mut self.first, &mut self.second, call) {
            Ok(done) => {
                self.generator.observe(call, done.outcome, &done.written);
                self.report.coverage.count(self.card.as_ref(), self.first.before(), call, &done);
                if done.outcome.answer == 0 {
                    self.card = Listing::of(&self.first.state);
                }
            }
            Err(difference) => self.differ(call, difference),
        }
    }

    /// The same call on a damaged copy of the state, the same bytes for both.
    fn damaged(&mut self, call: &Call) {
        let state = match call {
            Call::Send { qpn, .. } if self.generator.rng().percent(20) => forget_destination(&self.first.state, *qpn),
            Call::Turn { .. } if self.generator.rng().percent(60) => {
                let qpn = self.generator.rng().below(PAIRS as u64) as u32;
                forget_destination(&self.first.state, qpn)
            }
            _ => damage(self.generator.rng(), &self.first.state),
        };
        let mut first = self.first.on(&state, call);
        let mut second = self.second.on(&state, call);
        match side::compare(&mut first, &mut second, call) {
            Ok(done) => self.report.coverage.count(Listing::of(&state).as_ref(), &state, call, &done),
            Err(difference) => self.differ(call, format!("on a damaged state, {difference}")),
        }
    }

    fn differ(&mut self, call: &Call, difference: String) {
        self.report.differences.push(format!("call {}: {difference}\n  {call}", self.report.calls));
    }
}
