//! Compares every number of the headers with the specification's (numbers.txt), and tries whether a change of any of them would be seen.

use crate::c;
use crate::specs::Specs;
use reference::layout::{INIT, STATE_BYTES};
use reference::record::{FENCE, SOLICITED, WRITE};
use reference::replay::Kind;
use reference::{Outcome, Refusal};
use std::collections::BTreeMap;
use std::fs;
use std::path::Path;

type Numbers = BTreeMap<String, u64>;

/// Compares, and gives back how many numbers agree; else the differences.
pub fn compare(root: &Path) -> Result<usize, Vec<String>> {
    let specs = sources(root).map_err(|error| vec![error])?;
    let pins = pins(root).map_err(|error| vec![error])?;
    let numbers = c::numbers();
    let differing = differences(&numbers, &pins, &specs);
    if differing.is_empty() {
        unnoticed(&numbers, &pins, &specs)
    } else {
        Err(differing)
    }
}

/// Every name that numbers.txt can use, with its number.
pub fn names(root: &Path) -> Result<Vec<String>, String> {
    let specs = sources(root)?;
    let mut lines: Vec<String> = specs.names().filter_map(|name| Some(format!("{name} = {}", specs.get(name)?))).collect();
    lines.sort();
    Ok(lines)
}

/// The specification's numbers, and the reference's for what has no name there.
fn sources(root: &Path) -> Result<Specs, String> {
    let mut specs = Specs::read(&root.join("crates"))?;
    let answers = [
        ("RecordLength", Refusal::RecordLength),
        ("NotLive", Refusal::NotLive),
        ("WrongState", Refusal::WrongState),
        ("BadField", Refusal::BadField),
        ("PeerNotReady", Refusal::PeerNotReady),
        ("NoPlace", Refusal::NoPlace),
        ("MemoryLength", Refusal::MemoryLength),
        ("Full", Refusal::Full),
        ("Nothing", Refusal::Nothing),
        ("InUse", Refusal::InUse),
        ("Range", Refusal::Range),
        ("BufferTooShort", Refusal::BufferTooShort),
        ("Unknown", Refusal::Unknown),
        ("BadState", Refusal::BadState),
    ];
    for (name, refusal) in answers {
        specs.set(&format!("reference.{name}"), refusal as u64);
    }
    let others = [
        ("Done", Outcome::DONE.answer),
        ("ReliableConnection", accepted_type()),
        ("Init", INIT),
        ("Write", WRITE),
        ("Fence", FENCE),
        ("Solicited", SOLICITED),
        ("KindFlush", Kind::Flush.byte()),
    ];
    for (name, number) in others {
        specs.set(&format!("reference.{name}"), number.into());
    }
    Ok(specs)
}

/// The first type of queue pair that the reference does not call a bad field.
fn accepted_type() -> u8 {
    let mut state = vec![0; STATE_BYTES];
    reference::reset(&mut state, 1);
    let mut answer = |kind| reference::control(&mut state, &cards::build::create_pair(0, kind, 0, 0, 0), &mut [0; 13]).answer;
    (0..=255).find(|&kind| answer(kind) != Refusal::BadField as u8).unwrap_or(0)
}

/// Lines `NAME = EXPRESSION`.
fn pins(root: &Path) -> Result<BTreeMap<String, String>, String> {
    let file = root.join("tests/header/numbers.txt");
    let text = fs::read_to_string(&file).map_err(|error| format!("{}: {error}", file.display()))?;
    let lines = text.lines().filter(|line| !line.is_empty() && !line.starts_with('#'));
    lines.map(|line| Ok(line.split_once(" = ").map(|(name, pin)| (name.into(), pin.into())).ok_or(line)?)).collect()
}

/// A line for each number that is not where numbers.txt says, or stands on one side only.
fn differences(numbers: &Numbers, pins: &BTreeMap<String, String>, specs: &Specs) -> Vec<String> {
    let mut lines = Vec::new();
    for (name, &value) in numbers {
        match pins.get(name).map(|pin| (pin, specs.value(pin))) {
            None => lines.push(format!("{name} = {value}: not in numbers.txt")),
            Some((pin, None)) => lines.push(format!("{name} = {value}: the specification has no {pin}")),
            Some((pin, Some(other))) if other != value => lines.push(format!("{name} = {value}: {pin} is {other}")),
            Some(_) => {}
        }
    }
    let gone = pins.keys().filter(|name| !numbers.contains_key(*name));
    lines.extend(gone.map(|name| format!("{name}: in numbers.txt, and not in the headers")));
    lines
}

/// Adds one to each number of the headers, and to each of the specification that numbers.txt names: one difference at least, each time.
fn unnoticed(numbers: &Numbers, pins: &BTreeMap<String, String>, specs: &Specs) -> Result<usize, Vec<String>> {
    let mut missed = Vec::new();
    for name in numbers.keys() {
        let mut changed = numbers.clone();
        changed.entry(name.clone()).and_modify(|value| *value += 1);
        if differences(&changed, pins, specs).len() != 1 {
            missed.push(format!("{name} changed in the header: not noticed"));
        }
    }
    let named: Vec<&str> =
        specs.names().filter(|name| pins.values().any(|pin| pin.split([' ', '(', ')']).any(|word| word == *name))).collect();
    for name in named {
        let mut changed = specs.clone();
        changed.set(name, specs.get(name).unwrap_or(0) + 1);
        if differences(numbers, pins, &changed).is_empty() {
            missed.push(format!("{name} changed in the specification: not noticed"));
        }
    }
    if missed.is_empty() {
        Ok(numbers.len())
    } else {
        Err(missed)
    }
}
