//! Answers as text.

use crate::calls::{ack_bytes, CONTROL, POLL, RECEIVE, SEND};
use crate::tape::{hex, number, Header, Record};

pub const HEADER: Header =
    Header { mark: [0x72, 0x6b], fault: |answer, _| if answer > 15 { Some("no answer of the table") } else { None } };

const ANSWERS: [&str; 16] = [
    "done",
    "record length wrong",
    "number not live",
    "wrong QP state or move",
    "bad field",
    "held: peer not ready or no receive waiting",
    "held: no completion place",
    "lent memory's length isn't the reset length",
    "table or receive queue full",
    "nothing there",
    "in use",
    "range",
    "answer buffer too short",
    "unknown class or command",
    "bad tape record",
    "lent card state not acceptable",
];

/// Whether the answer has a status only where a call can have one, and as many bytes as its call writes.
pub fn fits(call: &Record, answer: &Record) -> bool {
    let done = answer.first == 0;
    let written = match call.first {
        CONTROL if done => ack_bytes(&call.body),
        CONTROL => 1,
        POLL if done => 24,
        _ => 0,
    };
    let status = match call.first {
        SEND if done => true,
        // 4: posted in error, it was flushed at once
        RECEIVE if done => matches!(answer.second, 0 | 4),
        _ => answer.second == 0,
    };
    answer.body.len() == written && status
}

pub fn describe(call: &Record, answer: &Record) -> String {
    let name = ANSWERS[usize::from(answer.first)];
    let status = match (call.first, answer.first, answer.second) {
        (SEND, 0, number) | (RECEIVE, 0, number @ 1..) => format!(", status {number} {}", status(number)),
        (_, _, 0) => String::new(),
        (_, _, number) => format!(", status {number}"),
    };
    format!("{} {name}{status}{}", answer.first, written(call, answer))
}

fn status(status: u8) -> &'static str {
    match status {
        0 => "success",
        1 => "local length",
        3 => "local protection",
        4 => "flushed",
        7 => "remote invalid request",
        8 => "remote access",
        _ => "no status of the table",
    }
}

/// The ack's numbers, a query's report or the completion.
fn written(call: &Record, answer: &Record) -> String {
    let bytes = &answer.body[..];
    match (call.first, bytes.len()) {
        (_, 0) => String::new(),
        (CONTROL, 1) => format!(", ack {}", bytes[0]),
        (CONTROL, 5) => format!(", ack {} number {}", bytes[0], number(bytes, 1, 4)),
        (CONTROL, 13) => {
            format!(", ack {} mrn {} lkey {} rkey {}", bytes[0], number(bytes, 1, 4), number(bytes, 5, 4), number(bytes, 9, 4))
        }
        (CONTROL, 129) => device(bytes),
        (CONTROL, 33) => port(bytes),
        (POLL, 24) => completion(bytes),
        _ => format!(", {}", hex(bytes)),
    }
}

/// What query device reports, by the draft's names.
fn device(bytes: &[u8]) -> String {
    const LIMITS: [&str; 10] = [
        "max_qp_wr",
        "max_send_sge",
        "max_recv_sge",
        "max_sge_rd",
        "max_cqe",
        "max_mr",
        "max_pd",
        "max_qp_rd_atom",
        "max_qp_init_rd_atom",
        "max_ah",
    ];
    let limits: Vec<String> =
        LIMITS.iter().enumerate().map(|(n, name)| format!("{name} {}", number(bytes, 29 + 4 * n, 4))).collect();
    format!(
        ", ack {} device_cap_flags {:#x} max_mr_size {} page_size_cap {} hw_ver {} {} local_ca_ack_delay {}{}",
        bytes[0],
        number(bytes, 1, 8),
        number(bytes, 9, 8),
        number(bytes, 17, 8),
        number(bytes, 25, 4),
        limits.join(" "),
        bytes[69],
        reserved(&bytes[70..]),
    )
}

fn port(bytes: &[u8]) -> String {
    let (gids, message) = (number(bytes, 1, 4), number(bytes, 5, 4));
    format!(", ack {} gid_tbl_len {gids} max_msg_sz {message}{}", bytes[0], reserved(&bytes[9..]))
}

/// Reserved bytes, where they are not the zeros that the card writes.
fn reserved(bytes: &[u8]) -> String {
    if bytes.iter().all(|&byte| byte == 0) {
        String::new()
    } else {
        format!(" reserved {}", hex(bytes))
    }
}

fn completion(bytes: &[u8]) -> String {
    let opcode = match bytes[9] {
        0 => "send",
        1 => "write",
        2 => "read",
        3 => "receive",
        4 => "receive of a write",
        _ => "no opcode",
    };
    let zero = if bytes[10..12] == [0, 0] { String::new() } else { format!(" padding {}", hex(&bytes[10..12])) };
    format!(
        ", wr_id {} status {} {} opcode {} {opcode}{zero} length {} immediate {:#x} owner QP {}",
        number(bytes, 0, 8),
        bytes[8],
        status(bytes[8]),
        bytes[9],
        number(bytes, 12, 4),
        number(bytes, 16, 4),
        number(bytes, 20, 4),
    )
}
