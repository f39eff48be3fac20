//! The calls behind one trait.

use reference::Outcome;

/// A card. It may lack a call: making it then ends the test with a line that says so.
pub trait Card {
    fn name(&self) -> &'static str;

    fn reset(&self, _state: &mut [u8], _memory_length: u64) -> Outcome {
        lacks(self.name(), "reset")
    }

    fn control(&self, _state: &mut [u8], _command: &[u8], _ack: &mut [u8]) -> Outcome {
        lacks(self.name(), "control")
    }

    fn register_pages(&self, _state: &mut [u8], _command: &[u8], _pages: &[u64], _ack: &mut [u8]) -> Outcome {
        lacks(self.name(), "register pages")
    }

    fn post_send(&self, _state: &mut [u8], _memory: &mut [u8], _qpn: u32, _record: &[u8]) -> Outcome {
        lacks(self.name(), "post send")
    }

    /// Of the memory only the length is looked at.
    fn enqueue(&self, _state: &mut [u8], _memory: &[u8], _qpn: u32, _record: &[u8]) -> Outcome {
        lacks(self.name(), "enqueue")
    }

    fn turn(&self, _state: &mut [u8], _memory: &mut [u8]) -> Outcome {
        lacks(self.name(), "turn")
    }

    fn post_receive(&self, _state: &mut [u8], _qpn: u32, _record: &[u8]) -> Outcome {
        lacks(self.name(), "post receive")
    }

    fn flush(&self, _state: &mut [u8], _qpn: u32) -> Outcome {
        lacks(self.name(), "flush")
    }

    fn poll(&self, _state: &mut [u8], _cqn: u32, _buffer: &mut [u8]) -> Outcome {
        lacks(self.name(), "poll")
    }
}

fn lacks(card: &str, call: &str) -> Outcome {
    panic!("{card} has no {call}")
}

/// Makes a type a card by the functions of a module: the reference, or a copy of it with results of its own type.
#[macro_export]
macro_rules! card_of {
    ($type:ident, $name:expr, $module:ident) => {
        impl $crate::Card for $type {
            fn name(&self) -> &'static str {
                $name
            }
            fn reset(&self, state: &mut [u8], memory_length: u64) -> $crate::Outcome {
                $crate::Outcome::from_bits($module::reset(state, memory_length).to_bits())
            }
            fn control(&self, state: &mut [u8], command: &[u8], ack: &mut [u8]) -> $crate::Outcome {
                $crate::Outcome::from_bits($module::control(state, command, ack).to_bits())
            }
            fn register_pages(&self, state: &mut [u8], command: &[u8], pages: &[u64], ack: &mut [u8]) -> $crate::Outcome {
                $crate::Outcome::from_bits($module::register_pages(state, command, pages, ack).to_bits())
            }
            fn post_send(&self, state: &mut [u8], memory: &mut [u8], qpn: u32, record: &[u8]) -> $crate::Outcome {
                $crate::Outcome::from_bits($module::post_send(state, memory, qpn, record).to_bits())
            }
            fn enqueue(&self, state: &mut [u8], memory: &[u8], qpn: u32, record: &[u8]) -> $crate::Outcome {
                $crate::Outcome::from_bits($module::enqueue(state, memory, qpn, record).to_bits())
            }
            fn turn(&self, state: &mut [u8], memory: &mut [u8]) -> $crate::Outcome {
                $crate::Outcome::from_bits($module::turn(state, memory).to_bits())
            }
            fn post_receive(&self, state: &mut [u8], qpn: u32, record: &[u8]) -> $crate::Outcome {
                $crate::Outcome::from_bits($module::post_receive(state, qpn, record).to_bits())
            }
            fn flush(&self, state: &mut [u8], qpn: u32) -> $crate::Outcome {
                $crate::Outcome::from_bits($module::flush(state, qpn).to_bits())
            }
            fn poll(&self, state: &mut [u8], cqn: u32, buffer: &mut [u8]) -> $crate::Outcome {
                $crate::Outcome::from_bits($module::poll(state, cqn, buffer).to_bits())
            }
        }
    };
}

pub struct Reference;

card_of!(Reference, "reference", reference);

/// The proved library, if it is linked.
#[cfg(not(has_engine))]
pub fn proved() -> Option<&'static dyn Card> {
    None
}

/// The proved library, if it is linked.
#[cfg(has_engine)]
pub fn proved() -> Option<&'static dyn Card> {
    Some(&linked::Proved)
}

#[cfg(has_engine)]
mod linked {
    use super::Card;
    use crate::c::engine::*;
    use reference::Outcome;

    pub struct Proved;

    fn outcome(bits: u32) -> Outcome {
        assert_eq!(bits >> 24, 0, "bits 24 to 31 of a result are 0");
        Outcome::from_bits(bits)
    }

    // SAFETY of each call: pointer and length are those of one slice, and the slices of a call do not overlap.
    impl Card for Proved {
        fn name(&self) -> &'static str {
            "proved library"
        }

        fn reset(&self, state: &mut [u8], memory_length: u64) -> Outcome {
            outcome(unsafe { lesungkap_reset(state.as_mut_ptr(), state.len(), memory_length) })
        }

        fn control(&self, state: &mut [u8], command: &[u8], ack: &mut [u8]) -> Outcome {
            outcome(unsafe {
                lesungkap_control(state.as_mut_ptr(), state.len(), command.as_ptr(), command.len(), ack.as_mut_ptr(), ack.len())
            })
        }

        fn register_pages(&self, state: &mut [u8], command: &[u8], pages: &[u64], ack: &mut [u8]) -> Outcome {
            outcome(unsafe {
                lesungkap_register_pages(
                    state.as_mut_ptr(),
                    state.len(),
                    command.as_ptr(),
                    command.len(),
                    pages.as_ptr(),
                    pages.len(),
                    ack.as_mut_ptr(),
                    ack.len(),
                )
            })
        }

        fn post_send(&self, state: &mut [u8], memory: &mut [u8], qpn: u32, record: &[u8]) -> Outcome {
            outcome(unsafe {
                lesungkap_post_send(
                    state.as_mut_ptr(),
                    state.len(),
                    memory.as_mut_ptr(),
                    memory.len(),
                    qpn,
                    record.as_ptr(),
                    record.len(),
                )
            })
        }

        fn enqueue(&self, state: &mut [u8], memory: &[u8], qpn: u32, record: &[u8]) -> Outcome {
            outcome(unsafe {
                lesungkap_enqueue(
                    state.as_mut_ptr(),
                    state.len(),
                    memory.as_ptr(),
                    memory.len(),
                    qpn,
                    record.as_ptr(),
                    record.len(),
                )
            })
        }

        fn turn(&self, state: &mut [u8], memory: &mut [u8]) -> Outcome {
            outcome(unsafe { lesungkap_turn(state.as_mut_ptr(), state.len(), memory.as_mut_ptr(), memory.len()) })
        }

        fn post_receive(&self, state: &mut [u8], qpn: u32, record: &[u8]) -> Outcome {
            outcome(unsafe { lesungkap_post_receive(state.as_mut_ptr(), state.len(), qpn, record.as_ptr(), record.len()) })
        }

        fn flush(&self, state: &mut [u8], qpn: u32) -> Outcome {
            outcome(unsafe { lesungkap_flush(state.as_mut_ptr(), state.len(), qpn) })
        }

        fn poll(&self, state: &mut [u8], cqn: u32, buffer: &mut [u8]) -> Outcome {
            outcome(unsafe { lesungkap_poll(state.as_mut_ptr(), state.len(), cqn, buffer.as_mut_ptr(), buffer.len()) })
        }
    }
}
