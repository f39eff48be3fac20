//! One call on the reference and on another card, with the same bytes lent to both.

use crate::tally::Tally;
use cards::{Call, Card, Outcome, Reference};

/// Filler of ack and completion buffers.
const LEFT: u8 = 0xa5;

/// What a call gave back and left.
#[derive(PartialEq)]
pub struct Left {
    pub outcome: Outcome,
    pub state: Vec<u8>,
    pub memory: Vec<u8>,
    pub buffer: Vec<u8>,
}

impl Left {
    fn by(card: &dyn Card, call: &Call, state: &[u8], memory: &[u8]) -> Left {
        let (mut state, mut memory, mut buffer) = (state.to_vec(), memory.to_vec(), vec![LEFT; call.buffer()]);
        let outcome = call.make(card, &mut state, &mut memory, &mut buffer);
        Left { outcome, state, memory, buffer }
    }

    /// The first thing that the other left otherwise.
    fn difference(&self, other: &Left) -> Option<String> {
        if self.outcome != other.outcome {
            return Some(format!("{:?}, reference {:?}", other.outcome, self.outcome));
        }
        differing("state", &self.state, &other.state)
            .or_else(|| differing("memory", &self.memory, &other.memory))
            .or_else(|| differing("buffer", &self.buffer, &other.buffer))
    }
}

fn differing(what: &str, wanted: &[u8], found: &[u8]) -> Option<String> {
    let at = wanted.iter().zip(found).position(|(a, b)| a != b)?;
    Some(format!("{what} byte {at} is {}, reference {}", found[at], wanted[at]))
}

pub struct Both<'a> {
    other: &'a dyn Card,
    pub tally: Tally,
}

impl<'a> Both<'a> {
    pub fn new(other: &'a dyn Card) -> Both<'a> {
        Both { other, tally: Tally::default() }
    }

    /// Makes the call on both; gives back what it left on the reference.
    pub fn make(&mut self, check: &'static str, call: &Call, state: &[u8], memory: &[u8]) -> Left {
        let wanted = Left::by(&Reference, call, state, memory);
        let found = Left::by(self.other, call, state, memory);
        if let Some(difference) = wanted.difference(&found) {
            self.tally.differ(check, format!("{difference}, on {call}"));
        }
        wanted
    }

    /// Makes a call that needs no memory and no buffer on both, in the lent state itself, which must stay as it is: that is for the caller to see.
    pub fn refused(&mut self, check: &'static str, call: &Call, state: &mut [u8]) -> Outcome {
        let wanted = call.make(&Reference, state, &mut [], &mut []);
        let found = call.make(self.other, state, &mut [], &mut []);
        if found != wanted {
            self.tally.differ(check, format!("{found:?}, reference {wanted:?}, on {call}"));
        }
        wanted
    }

    /// The same as `make`, counted by answer and status.
    pub fn count(&mut self, check: &'static str, call: &Call, state: &[u8], memory: &[u8]) -> Left {
        let left = self.make(check, call, state, memory);
        let Outcome { answer, status, .. } = left.outcome;
        let status = if status == 0 { String::new() } else { format!(" status {status}") };
        self.tally.count(check, format!("answer {answer}{status}"));
        left
    }
}

#[cfg(test)]
mod tests {
    use super::*;
    use cards::build::create_queue;
    use reference::layout::*;

    /// Leaves a byte of a new queue as it was, where 0 is written.
    struct Careless;

    impl Card for Careless {
        fn name(&self) -> &'static str {
            "careless card"
        }

        fn control(&self, state: &mut [u8], command: &[u8], ack: &mut [u8]) -> Outcome {
            let kept = state[queue_row(0) + QUEUE_ZERO];
            let outcome = Reference.control(state, command, ack);
            state[queue_row(0) + QUEUE_ZERO] = kept;
            outcome
        }
    }

    #[test]
    fn a_byte_without_meaning_is_compared() {
        let mut state = vec![0; STATE_BYTES];
        reference::reset(&mut state, 1);
        for (byte, alike) in [(0, true), (1, false)] {
            state[queue_row(0) + QUEUE_ZERO] = byte;
            let call = Call::Control { command: create_queue(1), ack: 13 };
            let (wanted, found) = (Left::by(&Reference, &call, &state, &[]), Left::by(&Careless, &call, &state, &[]));
            assert_eq!(wanted.outcome.answer, 0);
            assert_eq!(wanted.difference(&found).is_none(), alike);
        }
    }
}
