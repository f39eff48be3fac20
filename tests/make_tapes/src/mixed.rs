//! Long tapes of all kinds of calls, made by the generator.

use generator::{play, Generator};
use reference::layout::STATE_BYTES;
use reference::listing::Listing;
use reference::replay::MEMORY;

const TAPES: u64 = 8;
const CALLS: usize = 400;

pub fn tapes() -> impl Iterator<Item = (String, Vec<u8>)> {
    (1..=TAPES).map(|seed| (format!("mixed-{seed}"), tape(seed)))
}

fn tape(seed: u64) -> Vec<u8> {
    let mut generator = Generator::for_tapes(seed);
    let mut state = vec![0; STATE_BYTES];
    let mut memory = vec![0; MEMORY];
    reference::reset(&mut state, MEMORY as u64);
    generator.begin();
    let mut tape = Vec::new();
    let mut calls = 0;
    while calls < CALLS {
        let card = Listing::of(&state).expect("calls leave an accepted state");
        let call = generator.next(&card);
        if let Some(record) = call.tape_record() {
            tape.extend(record);
            let (outcome, written) = play(&call, &mut state, &mut memory);
            generator.observe(&call, outcome, &written);
            calls += 1;
        }
    }
    tape
}
