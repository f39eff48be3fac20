//! Runs a case through the calls of a card.

use crate::script::{Case, Step, Wanted};
use cards::{Call, Card};
use reference::layout::STATE_BYTES;

/// Filler of the bytes that a call must leave.
const LEFT: u8 = 0xa5;

/// What is lent to a card: its memory is zero at first.
struct Lent {
    state: Vec<u8>,
    memory: Vec<u8>,
}

/// Compares every answer, ack, completion and memory claim; the error says which step differs.
pub fn run(case: &Case, card: &dyn Card) -> Result<(), String> {
    let mut lent = Lent { state: vec![LEFT; STATE_BYTES], memory: vec![0; case.memory] };
    card.reset(&mut lent.state, case.memory as u64);
    for (n, step) in case.steps.iter().enumerate() {
        let result = match step {
            Step::Call { call, wanted } => lent.call(call, wanted, card),
            Step::Memory { at, bytes } => same_bytes("memory", &lent.memory[*at..*at + bytes.len()], bytes),
            Step::Guest { at, bytes } => {
                lent.memory[*at..*at + bytes.len()].copy_from_slice(bytes);
                Ok(())
            }
            Step::Raw(_) => Ok(()),
        };
        result.map_err(|message| format!("{}, step {n}: {message}", case.name))?;
    }
    Ok(())
}

impl Lent {
    /// A refused call changes neither state nor memory, and no call more of its buffer than it should.
    fn call(&mut self, call: &Call, wanted: &Wanted, card: &dyn Card) -> Result<(), String> {
        let refused = wanted.outcome.answer != 0;
        let lent_memory = call.memory().map_or(0, |length| length.min(self.memory.len()));
        let before = refused.then(|| (self.state.clone(), self.memory[..lent_memory].to_vec()));
        let mut buffer = vec![LEFT; call.buffer()];
        let mut other = vec![LEFT; call.memory().unwrap_or(0)];
        let is_other = call.memory().map_or(false, |length| length != self.memory.len());
        let memory = if is_other { &mut other } else { &mut self.memory };
        let outcome = call.make(card, &mut self.state, memory, &mut buffer);
        if outcome != wanted.outcome {
            return Err(format!("{outcome:?}, wanted {:?}", wanted.outcome));
        }
        let mut left = vec![LEFT; call.buffer()];
        left[..wanted.written.len()].copy_from_slice(&wanted.written);
        same_bytes("buffer", &buffer, &left)?;
        if is_other && other.iter().any(|&byte| byte != LEFT) {
            return Err("a memory of another length was written".into());
        }
        match before {
            Some((state, memory)) if state != self.state || memory != self.memory[..lent_memory] => {
                Err("a refused call changed the state or the memory".into())
            }
            _ => Ok(()),
        }
    }
}

fn same_bytes(what: &str, found: &[u8], wanted: &[u8]) -> Result<(), String> {
    match found.iter().zip(wanted).position(|(a, b)| a != b) {
        None => Ok(()),
        Some(at) => Err(format!("{what} byte {at} is {}, wanted {}", found[at], wanted[at])),
    }
}
