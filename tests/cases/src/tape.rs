//! What only a tape has: bad records and a clean end.

use crate::script::*;
use cards::build::create_domain;

pub fn cases() -> Vec<Case> {
    let mut cases = Vec::new();
    for (name, bytes) in tapes() {
        let mut script = Script::new();
        script.raw(&bytes);
        cases.push(script.named(format!("tape-{name}")));
        if !bytes.is_empty() {
            let mut script = Script::new();
            script.create(create_domain(), 0).raw(&bytes).create(create_domain(), 1);
            cases.push(script.named(format!("tape-{name}-between-good-records")));
        }
    }
    cases
}

/// The bytes of each tape by name.
fn tapes() -> Vec<(&'static str, Vec<u8>)> {
    let good: &[u8] = &[0x52, 0x4b, 1, 0, 2, 0, 6, 4];
    let header = |kind: u8, length: u16| {
        let [low, high] = length.to_le_bytes();
        vec![0x52, 0x4b, kind, 0, low, high]
    };
    let body = |kind: u8, length: u16| [header(kind, length), vec![0; length.into()]].concat();
    vec![
        ("empty", vec![]),
        ("first-mark-byte", vec![0x53, 0x4b, 1, 0, 2, 0, 6, 4]),
        ("second-mark-byte", vec![0x52, 0x4c, 1, 0, 2, 0, 6, 4]),
        ("answer-mark", vec![0x72, 0x6b, 1, 0, 2, 0, 6, 4]),
        ("kind-0", header(0, 0)),
        ("kind-6", header(6, 0)),
        ("kind-255", header(255, 0)),
        ("length-640-control", body(1, 640)),
        ("length-641-control", body(1, 641)),
        ("length-640-send", body(2, 640)),
        ("length-641-send", body(2, 641)),
        ("length-640-receive", body(3, 640)),
        ("length-641-receive", body(3, 641)),
        ("length-65535", body(2, 65535)),
        ("length-1-poll", body(4, 1)),
        ("length-1-flush", body(5, 1)),
        ("length-0-control", body(1, 0)),
        ("length-0-send", body(2, 0)),
        ("length-0-receive", body(3, 0)),
        ("cut-after-one-byte", vec![0x52]),
        ("cut-header", header(1, 2)[..5].to_vec()),
        ("cut-body", good[..7].to_vec()),
        ("cut-body-whole", header(1, 2)),
        ("numbers-8-and-255", [[0x52, 0x4b, 4, 8, 0, 0], [0x52, 0x4b, 5, 255, 0, 0]].concat()),
    ]
}
