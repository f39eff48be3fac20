//! One card with what is lent to it, and the comparison of two. Unless something differs, the cost that grows with state and memory is
//! that of copying and comparing their bytes, beside the test that each call makes.

use crate::guarded::Guarded;
use cards::{Call, Card};
use reference::listing::Listing;
use reference::{fault, Outcome};

/// Filler of ack and completion buffers.
const LEFT: u8 = 0xa5;

pub struct Side {
    card: &'static dyn Card,
    pub state: Guarded,
    pub memory: Guarded,
    /// State and, if the call is lent it, memory before the call.
    before: (Vec<u8>, Vec<u8>),
}

/// What a call gave back, and its ack or completion buffer.
pub struct Done {
    pub outcome: Outcome,
    pub written: Guarded,
}

impl Side {
    pub fn new(card: &'static dyn Card) -> Side {
        Side { card, state: Guarded::new(&[]), memory: Guarded::new(&[]), before: Default::default() }
    }

    pub fn begin(&mut self, state: &[u8], memory: &[u8]) {
        self.state = Guarded::new(state);
        self.memory = Guarded::new(memory);
    }

    /// The same card with another state for this call, and the same memory if the call is lent it.
    pub fn on(&self, state: &[u8], call: &Call) -> Side {
        let memory = if self.is_lent(call) { self.memory.clone() } else { Guarded::new(&[]) };
        Side { state: Guarded::new(state), memory, ..Side::new(self.card) }
    }

    /// Whether the call is lent the side's memory: another length is another memory.
    fn is_lent(&self, call: &Call) -> bool {
        call.memory() == Some(self.memory.len())
    }

    /// Makes the call; nothing beside the lent buffers may change, and with a refusal nothing but the ack byte that document 01 names.
    fn play(&mut self, call: &Call) -> Result<Done, String> {
        self.keep(call);
        let (done, other) = self.call(call);
        let (name, answer) = (self.card.name(), done.outcome.answer);
        if !(self.state.intact() && self.memory.intact() && done.written.intact() && other.intact()) {
            return Err(format!("{name} answers {answer} and writes beside a lent buffer"));
        }
        if !other.holds_only(LEFT) {
            return Err(format!("{name} writes to a memory of another length"));
        }
        if answer == 0 {
            return Ok(done);
        }
        if self.state[..] != self.before.0 || self.is_lent(call) && self.memory[..] != self.before.1 {
            return Err(format!("{name} answers {answer} and changes state or memory"));
        }
        let mut wanted = Guarded::filled(LEFT, done.written.len());
        if call.has_ack() && !matches!(answer, 12 | 15) {
            wanted[0] = 1;
        }
        if done.written[..] != wanted[..] {
            return Err(format!("{name} answers {answer} and writes {:?}", &done.written[..]));
        }
        Ok(done)
    }

    /// The state before the last call.
    pub fn before(&self) -> &[u8] {
        &self.before.0
    }

    fn keep(&mut self, call: &Call) {
        self.before.0.clear();
        self.before.0.extend_from_slice(&self.state);
        self.before.1.clear();
        if self.is_lent(call) {
            self.before.1.extend_from_slice(&self.memory);
        }
    }

    /// What the call gave back, and the memory of another length if it was lent one.
    fn call(&mut self, call: &Call) -> (Done, Guarded) {
        let mut written = Guarded::filled(LEFT, call.buffer());
        let mut other = Guarded::new(&[]);
        let memory = match call.memory() {
            Some(length) if length != self.memory.len() => {
                other = Guarded::filled(LEFT, length);
                &mut other
            }
            _ => &mut self.memory,
        };
        let outcome = call.make(self.card, &mut self.state, memory, &mut written);
        (Done { outcome, written }, other)
    }
}

/// Makes the call on both; the error says what differs.
pub fn compare(first: &mut Side, second: &mut Side, call: &Call) -> Result<Done, String> {
    let wanted = first.play(call)?;
    let found = second.play(call)?;
    if found.outcome != wanted.outcome {
        return Err(format!("{:?}, reference {:?} ({:?})", found.outcome, wanted.outcome, fault(&first.state)));
    }
    if found.written[..] != wanted.written[..] {
        return Err(format!("writes {:?}, reference {:?}", &found.written[..], &wanted.written[..]));
    }
    if wanted.outcome.answer != 0 {
        return Ok(wanted);
    }
    if first.memory[..] != second.memory[..] {
        return Err(differing_byte("memory", &first.memory, &second.memory));
    }
    if let Some(fault) = fault(&first.state) {
        return Err(format!("the reference leaves a state with {fault:?}"));
    }
    if first.state[..] != second.state[..] {
        return Err(differing_state(&first.state, &second.state));
    }
    Ok(wanted)
}

fn differing_byte(what: &str, wanted: &[u8], found: &[u8]) -> String {
    let at = wanted.iter().zip(found).position(|(a, b)| a != b).unwrap_or(0);
    format!("{what} byte {at} is {}, reference {}", found[at], wanted[at])
}

/// The first byte that differs, and the object, unless the byte has no meaning.
fn differing_state(wanted: &[u8], found: &[u8]) -> String {
    let object = match (Listing::of(wanted), Listing::of(found)) {
        (Some(wanted), Some(found)) => wanted.difference(&found).unwrap_or("the same objects".into()),
        _ => format!("{:?}, other {:?}", fault(wanted), fault(found)),
    };
    format!("{}; reference {object}", differing_byte("state", wanted, found))
}
