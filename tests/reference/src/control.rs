//! Control commands.

use crate::accept::{access_flags_ok, access_ok};
use crate::answer::{Outcome, Refusal};
use crate::card::{Card, Pair, Region};
use crate::layout::*;
use crate::pages::pages_fit;
use crate::query::{Device, Port, DEVICE_ACK_BYTES, PORT_ACK_BYTES};
use crate::record::{Command, Registration, CONTROL_CLASS};

/// The shortest ack buffer of every record that is no query.
pub const ACK_BYTES: usize = 13;

const MASK_STATE: u32 = 1 << 0;
const MASK_ACCESS: u32 = 1 << 2;
const MASK_DESTINATION: u32 = 1 << 15;
const RELIABLE_CONNECTION: u8 = 2;

/// What follows the ack byte.
pub enum Ack {
    Empty,
    Number(usize),
    Keys { number: usize, key: u32 },
    Device(Device),
    Port(Port),
}

/// The shortest ack buffer that a record may have: its first two bytes tell.
pub fn ack_need(command: &[u8]) -> usize {
    match command {
        [CONTROL_CLASS, 0, ..] => DEVICE_ACK_BYTES,
        [CONTROL_CLASS, 1, ..] => PORT_ACK_BYTES,
        _ => ACK_BYTES,
    }
}

/// Runs a control command and writes its ack.
pub fn control(state: &mut [u8], command: &[u8], ack: &mut [u8]) -> Outcome {
    let mut card = match Card::open(state) {
        Ok(card) => card,
        Err(refusal) => return refusal.into(),
    };
    if ack.len() < ack_need(command) {
        return Refusal::BufferTooShort.into();
    }
    acknowledge(ack, Command::read(command).and_then(|command| run(&mut card, command)))
}

/// Writes the ack of a command that was done or refused.
pub fn acknowledge(ack: &mut [u8], result: Result<Ack, Refusal>) -> Outcome {
    match result {
        Ok(data) => {
            write_ack(ack, &data);
            Outcome::DONE
        }
        Err(refusal) => {
            ack[0] = 1;
            refusal.into()
        }
    }
}

fn write_ack(ack: &mut [u8], data: &Ack) {
    ack[0] = 0;
    match *data {
        Ack::Empty => {}
        Ack::Number(number) => put32(ack, 1, number as u32),
        Ack::Keys { number, key } => {
            put32(ack, 1, number as u32);
            put32(ack, 5, key);
            put32(ack, 9, key);
        }
        Ack::Device(device) => device.write(ack),
        Ack::Port(port) => port.write(ack),
    }
}

fn run(card: &mut Card, command: Command) -> Result<Ack, Refusal> {
    match command {
        Command::QueryDevice => Ok(Ack::Device(Device::of(card.memory_length()))),
        Command::QueryPort => Ok(Ack::Port(Port::CARD)),
        Command::CreateQueue { places } => create_queue(card, places),
        Command::DestroyQueue { number } => destroy_queue(card, number),
        Command::CreateDomain => create_domain(card),
        Command::DestroyDomain { number } => destroy_domain(card, number),
        Command::Register(asked) => register(card, asked, None),
        Command::Deregister { number } => deregister(card, number),
        Command::CreatePair { domain, kind, signal, send_queue, receive_queue } => {
            create_pair(card, domain, kind, signal, send_queue, receive_queue)
        }
        Command::ModifyPair { number, mask, state, padding, destination, access } => {
            modify_pair(card, number, mask, state, padding, destination, access)
        }
        Command::DestroyPair { number } => destroy_pair(card, number),
    }
}

fn create_queue(card: &mut Card, places: u32) -> Result<Ack, Refusal> {
    if places == 0 || places as usize > MOST_PLACES {
        return Err(Refusal::BadField);
    }
    let number = card.free_queue().ok_or(Refusal::Full)?;
    card.create_queue(number, places as u8);
    Ok(Ack::Number(number))
}

fn destroy_queue(card: &mut Card, number: u32) -> Result<Ack, Refusal> {
    let number = card.queue(number)?;
    let names_it = |pair: Pair| usize::from(pair.send_queue) == number || usize::from(pair.receive_queue) == number;
    if live_pairs(card).any(names_it) {
        return Err(Refusal::InUse);
    }
    card.drop_queue(number);
    Ok(Ack::Empty)
}

fn create_domain(card: &mut Card) -> Result<Ack, Refusal> {
    let number = card.free_domain().ok_or(Refusal::Full)?;
    card.set_domain(number, true);
    Ok(Ack::Number(number))
}

fn destroy_domain(card: &mut Card, number: u32) -> Result<Ack, Refusal> {
    let number = card.domain(number)?;
    let in_region = |n: usize| card.live_region(n) && usize::from(card.region(n).domain) == number;
    if (0..REGIONS).any(in_region) || live_pairs(card).any(|pair| usize::from(pair.domain) == number) {
        return Err(Refusal::InUse);
    }
    card.set_domain(number, false);
    Ok(Ack::Empty)
}

/// Makes a region of adjacent bytes of the memory, or over the pages that are listed by their first bytes.
pub fn register(card: &mut Card, asked: Registration, pages: Option<&[u64]>) -> Result<Ack, Refusal> {
    let Registration { domain, access, start, length, virt } = asked;
    if !access_ok(access) {
        return Err(Refusal::BadField);
    }
    let domain = card.domain(domain)?;
    let memory = card.memory_length();
    let in_memory = match pages {
        None => start.checked_add(length).map_or(false, |end| end <= memory),
        Some(pages) => pages_fit(pages, start, length, memory),
    };
    if length == 0 || !in_memory || virt.checked_add(length).is_none() {
        return Err(Refusal::Range);
    }
    let number = card.free_region().ok_or(Refusal::Full)?;
    let variant = card.next_variant(number);
    let paged = pages.is_some();
    card.put_pages(number, pages.unwrap_or(&[]));
    card.create_region(number, &Region { access: access as u8, variant, domain: domain as u8, paged, start, length, virt });
    Ok(Ack::Keys { number, key: 256 * number as u32 + u32::from(variant) })
}

fn deregister(card: &mut Card, number: u32) -> Result<Ack, Refusal> {
    let number = card.region_number(number)?;
    card.drop_region(number);
    Ok(Ack::Empty)
}

fn create_pair(card: &mut Card, domain: u32, kind: u8, signal: u8, send_queue: u32, receive_queue: u32) -> Result<Ack, Refusal> {
    if kind != RELIABLE_CONNECTION || signal > 1 {
        return Err(Refusal::BadField);
    }
    let pair = Pair {
        domain: card.domain(domain)? as u8,
        signal,
        send_queue: card.queue(send_queue)? as u8,
        receive_queue: card.queue(receive_queue)? as u8,
        state: RESET,
        destination: NO_DESTINATION,
        access: 0,
    };
    let number = card.free_pair().ok_or(Refusal::Full)?;
    card.create_pair(number, &pair);
    Ok(Ack::Number(number))
}

fn modify_pair(
    card: &mut Card,
    number: u32,
    mask: u32,
    state: u8,
    padding: [u8; 3],
    destination: u32,
    access: u32,
) -> Result<Ack, Refusal> {
    let names_peer = mask & MASK_DESTINATION != 0;
    let has_access = mask & MASK_ACCESS != 0;
    let bad_mask = mask & !(MASK_STATE | MASK_ACCESS | MASK_DESTINATION) != 0 || mask & MASK_STATE == 0;
    let bad_state = !matches!(state, RESET | INIT | READY_TO_RECEIVE | READY_TO_SEND | ERROR);
    let bad_peer = names_peer && (destination as usize >= PAIRS || destination == number);
    let bad_access = has_access && !access_flags_ok(access);
    if bad_mask || bad_state || padding != [0; 3] || names_peer != (state == READY_TO_RECEIVE) || bad_peer || bad_access {
        return Err(Refusal::BadField);
    }
    let number = card.pair_number(number)?;
    match (card.pair(number).state, state) {
        (_, RESET) => {
            card.set_destination(number, NO_DESTINATION);
            card.drop_receives(number);
            card.drop_sends(number);
        }
        (INIT, READY_TO_RECEIVE) => card.set_destination(number, destination as u8),
        (_, ERROR) | (RESET, INIT) | (READY_TO_RECEIVE, READY_TO_SEND) => {}
        _ => return Err(Refusal::WrongState),
    }
    card.set_pair_state(number, state);
    if state == RESET {
        card.set_access(number, 0);
    } else if has_access {
        card.set_access(number, access as u8);
    }
    Ok(Ack::Empty)
}

fn destroy_pair(card: &mut Card, number: u32) -> Result<Ack, Refusal> {
    let number = card.pair_number(number)?;
    card.drop_pair(number);
    Ok(Ack::Empty)
}

fn live_pairs<'c>(card: &'c Card) -> impl Iterator<Item = Pair> + 'c {
    (0..PAIRS).filter(|&n| card.live_pair(n)).map(|n| card.pair(n))
}
