//! Lent buffers between bytes that no call may touch.

use std::ops::{Deref, DerefMut};

/// Guard bytes on either side; an odd number, so that buffers begin at odd places.
const GUARD: [u8; 61] = [0x5a; 61];

#[derive(Clone)]
pub struct Guarded {
    bytes: Vec<u8>,
}

impl Guarded {
    pub fn new(content: &[u8]) -> Guarded {
        Guarded { bytes: [&GUARD, content, &GUARD].concat() }
    }

    pub fn filled(byte: u8, length: usize) -> Guarded {
        let mut guarded = Guarded { bytes: vec![byte; length + 2 * GUARD.len()] };
        guarded.bytes[..GUARD.len()].copy_from_slice(&GUARD);
        guarded.bytes[GUARD.len() + length..].copy_from_slice(&GUARD);
        guarded
    }

    /// Whether the bytes around the buffer are as they were.
    pub fn intact(&self) -> bool {
        self.bytes.starts_with(&GUARD) && self.bytes.ends_with(&GUARD)
    }

    /// Whether every byte of the buffer is this one: the first is, and each is like the one before it.
    pub fn holds_only(&self, byte: u8) -> bool {
        match self.split_first() {
            Some((first, rest)) => *first == byte && *rest == self[..rest.len()],
            None => true,
        }
    }
}

impl Deref for Guarded {
    type Target = [u8];

    fn deref(&self) -> &[u8] {
        &self.bytes[GUARD.len()..self.bytes.len() - GUARD.len()]
    }
}

impl DerefMut for Guarded {
    fn deref_mut(&mut self) -> &mut [u8] {
        let end = self.bytes.len() - GUARD.len();
        &mut self.bytes[GUARD.len()..end]
    }
}

#[cfg(test)]
mod tests {
    use super::*;

    #[test]
    fn a_touched_guard_is_noticed() {
        for at in [0, GUARD.len() - 1, GUARD.len() + 7, 2 * GUARD.len() + 6] {
            let mut guarded = Guarded::filled(0, 7);
            assert!(guarded.intact());
            guarded.bytes[at] ^= 1;
            assert!(!guarded.intact(), "byte {at}");
        }
    }

    #[test]
    fn a_changed_byte_is_noticed() {
        assert!(Guarded::new(&[]).holds_only(9) && Guarded::filled(9, 5).holds_only(9));
        for at in 0..5 {
            let mut guarded = Guarded::filled(9, 5);
            guarded[at] = 8;
            assert!(guarded.intact() && !guarded.holds_only(9), "byte {at}");
        }
        assert!(!Guarded::filled(8, 5).holds_only(9));
    }
}
