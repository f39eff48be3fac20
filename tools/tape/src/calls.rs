//! Calls as text.

use crate::tape::{bits, hex, number, Header, Record};

pub const CONTROL: u8 = 1;
pub const SEND: u8 = 2;
pub const RECEIVE: u8 = 3;
pub const POLL: u8 = 4;

pub const HEADER: Header = Header { mark: [0x52, 0x4b], fault };

/// The bits of a region's access and of a queue pair's access flags.
const RIGHTS: [&str; 3] = ["local write", "remote write", "remote read"];

fn fault(kind: u8, length: usize) -> Option<&'static str> {
    match kind {
        1..=3 if length > 640 => Some("length over 640"),
        4 | 5 if length != 0 => Some("length not 0"),
        1..=5 => None,
        _ => Some("bad kind"),
    }
}

pub fn describe(call: &Record) -> String {
    match call.first {
        CONTROL => format!("control  {}", command(&call.body)),
        SEND => format!("send     QP {}: {}", call.second, send(&call.body)),
        RECEIVE => format!("receive  QP {}: {}", call.second, receive(&call.body)),
        POLL => format!("poll     CQ {}", call.second),
        _ => format!("flush    QP {}", call.second),
    }
}

/// How many ack bytes a command writes that is done.
pub fn ack_bytes(body: &[u8]) -> usize {
    match body.get(1) {
        Some(0) => 129,
        Some(1) => 33,
        Some(2 | 4 | 9) => 5,
        Some(7) => 13,
        _ => 1,
    }
}

fn command(body: &[u8]) -> String {
    let (command, data) = match body {
        [6, command, data @ ..] => (command, data),
        _ => return format!("record of {}", hex(body)),
    };
    let single = |name: &str, what: &str| format!("{name} {what} {}", number(data, 0, 4));
    match (command, data.len()) {
        (0, 0) => "query device".into(),
        (1, 0) => "query port".into(),
        (2, 4) => single("create CQ", "places"),
        (3, 4) => single("destroy CQ", "cqn"),
        (4, 0) => "create PD".into(),
        (5, 4) => single("destroy PD", "pdn"),
        (7, 32) => register(data),
        (8, 4) => single("deregister MR", "mrn"),
        (9, 16) => create_pair(data),
        (10, 20) => modify(data),
        (12, 4) => single("destroy QP", "qpn"),
        _ => format!("command {command}, data of {}", hex(data)),
    }
}

fn register(data: &[u8]) -> String {
    let access = number(data, 4, 4);
    let rights = bits(access, &RIGHTS);
    let (start, length, virt) = (number(data, 8, 8), number(data, 16, 8), number(data, 24, 8));
    format!("register MR pdn {} access {access} ({rights}) start {start} length {length} virt {virt:#x}", number(data, 0, 4))
}

fn create_pair(data: &[u8]) -> String {
    let (send, receive) = (number(data, 8, 4), number(data, 12, 4));
    format!("create QP pdn {} type {} signal {} send cqn {send} receive cqn {receive}", number(data, 0, 4), data[4], data[5])
}

fn modify(data: &[u8]) -> String {
    let mask = number(data, 4, 4);
    let state = match data[8] {
        0 => "reset",
        1 => "init",
        2 => "ready to receive",
        3 => "ready to send",
        6 => "error",
        _ => "no state",
    };
    let padding = if data[9..12] == [0; 3] { String::new() } else { format!(" padding {}", hex(&data[9..12])) };
    let peer = if mask >> 15 & 1 == 1 { format!(" destination {}", number(data, 12, 4)) } else { String::new() };
    let flags = number(data, 16, 4);
    let access = if mask >> 2 & 1 == 1 { format!(" access flags {flags} ({})", bits(flags, &RIGHTS)) } else { String::new() };
    format!("modify QP qpn {} mask {mask:#x} state {} ({state}){padding}{peer}{access}", number(data, 0, 4), data[8])
}

fn send(body: &[u8]) -> String {
    if body.len() < 576 {
        return format!("record of {}", hex(body));
    }
    let opcode = match body[8] {
        0 => "write",
        1 => "write with immediate",
        2 => "send",
        3 => "send with immediate",
        4 => "read",
        _ => "no opcode",
    };
    let flags = bits(body[9].into(), &["fence", "signaled", "solicited", "inline", "bit 4", "bit 5", "bit 6", "bit 7"]);
    let immediate = if matches!(body[8], 1 | 3) { format!(" immediate {:#x}", number(body, 12, 4)) } else { String::new() };
    let remote = if matches!(body[8], 2 | 3) {
        String::new()
    } else {
        format!(" remote {:#x} key {}", number(body, 16, 8), number(body, 24, 4))
    };
    let local = if body[9] & 8 != 0 {
        format!("inline {} bytes", number(body, 560, 2))
    } else {
        entries(number(body, 560, 4), &body[576..])
    };
    format!("{} {opcode} wr_id {} flags {flags}{immediate}{remote} {local}", body[8], number(body, 0, 8))
}

fn receive(body: &[u8]) -> String {
    if body.len() < 24 {
        return format!("record of {}", hex(body));
    }
    format!("wr_id {} {}", number(body, 0, 8), entries(number(body, 8, 4), &body[24..]))
}

/// The count as written, and the scatter/gather entries that the record has.
fn entries(count: u64, bytes: &[u8]) -> String {
    let list: Vec<String> = bytes
        .chunks(16)
        .map(|entry| match entry.len() {
            16 => format!("{:#x}+{} key {}", number(entry, 0, 8), number(entry, 8, 4), number(entry, 12, 4)),
            _ => hex(entry),
        })
        .collect();
    format!("entries {count} [{}]", list.join(", "))
}
