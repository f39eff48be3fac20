//! Control commands, each rule on both sides of its boundary.

use crate::script::*;
use cards::build::*;

pub fn cases() -> Vec<Case> {
    let mut cases = Vec::new();
    cases.extend(records());
    cases.extend(queues_and_domains());
    cases.extend(registrations());
    cases.extend(keys());
    cases.extend(pairs());
    cases.extend(modifications());
    cases.extend(moves());
    cases.extend(removals());
    cases.push(freed_numbers());
    cases
}

/// One refused or accepted command on the card of the two operators.
fn one(name: &str, command: Vec<u8>, answer: u8) -> Case {
    let mut script = Script::joined();
    if answer == 0 {
        script.done(command);
    } else {
        script.refused(command, answer);
    }
    script.named(name)
}

fn records() -> Vec<Case> {
    let mut whole = Script::new();
    whole.create(create_domain(), 0);
    let mut cases = vec![
        whole.named("paper-whole-case"),
        one("command-empty", vec![], 1),
        one("command-one-byte", vec![6], 1),
        one("command-one-byte-other-class", vec![5], 1),
        one("command-class-5", vec![5, 4], 13),
        one("command-class-7", vec![7, 4], 13),
        one("query-of-class-5", vec![5, 0], 13),
        one("query-of-class-0", vec![0, 1], 13),
        queries(),
    ];
    let mut unknown = Script::joined();
    for number in (0..=255).filter(|number| !matches!(number, 0..=5 | 7..=10 | 12)) {
        unknown.refused(vec![6, number], 13).refused(vec![6, number, 0, 0, 0, 0], 13);
    }
    cases.push(unknown.named("command-unknown"));
    let known = [
        ("query-device", query_device()),
        ("query-port", query_port()),
        ("create-cq", create_queue(1)),
        ("destroy-cq", destroy_queue(0)),
        ("create-pd", create_domain()),
        ("destroy-pd", destroy_domain(0)),
        ("register", register(0, 7, 0, 1, 0)),
        ("deregister", deregister(0)),
        ("create-qp", create_pair(0, 2, 0, 0, 0)),
        ("modify-qp", move_to(0, 6)),
        ("destroy-qp", destroy_pair(0)),
    ];
    for (name, command) in known {
        let mut script = Script::joined();
        for length in (2..64).filter(|&length| length != command.len()) {
            let mut changed = command.clone();
            changed.resize(length, 0);
            script.refused(changed, 1);
        }
        cases.push(script.named(format!("{name}-other-lengths")));
    }
    cases
}

/// The queries report the same before anything is created, between other calls and with full tables; a refused one changes nothing.
fn queries() -> Case {
    let mut script = Script::new();
    script.queries().create(create_domain(), 0).queries();
    for n in 0..256 {
        script.register(0, 7, 0, 1, 0, 256 * n + 1);
    }
    script.queries().refused(vec![6, 0, 0], 1).refused(vec![6, 1, 0], 1).queries();
    script.done(deregister(0)).queries().register(0, 7, 0, 1, 0, 2);
    script.named("queries")
}

fn queues_and_domains() -> Vec<Case> {
    let mut places = Script::new();
    for (n, count) in [1, 16].into_iter().enumerate() {
        places.create(create_queue(count), n as u32);
    }
    for count in [0, 17, 256, 257, 1 << 16, u32::MAX] {
        places.refused(create_queue(count), 4);
    }
    let mut domains = Script::new();
    for n in 0..8 {
        domains.create(create_domain(), n);
    }
    domains.refused(create_domain(), 8).done(destroy_domain(5)).done(destroy_domain(2));
    domains.create(create_domain(), 2).create(create_domain(), 5).refused(create_domain(), 8);
    let mut queues = Script::new();
    for n in 0..8 {
        queues.create(create_queue(4), n);
    }
    queues.refused(create_queue(4), 8).refused(create_queue(17), 4).done(destroy_queue(7)).done(destroy_queue(0));
    queues.create(create_queue(4), 0).create(create_queue(4), 7).refused(create_queue(4), 8);
    let mut again = Script::new();
    again.create(create_domain(), 0).done(destroy_domain(0)).refused(destroy_domain(0), 2);
    again.create(create_queue(1), 0).done(destroy_queue(0)).refused(destroy_queue(0), 2);
    vec![
        places.named("places-1-to-16"),
        domains.named("domains-ninth-is-8-lowest-free"),
        queues.named("queues-ninth-is-8-lowest-free"),
        again.named("destroyed-twice"),
    ]
}

/// Name, start, length, virt and answer of registrations over a memory of 4,096 bytes.
const RANGES: [(&str, u64, u64, u64, u8); 16] = [
    ("p10-start-3996", 3996, 100, 0, 0),
    ("p10-start-3997", 3997, 100, 0, 11),
    ("p11-virt-2^64-101", 0, 100, u64::MAX - 100, 0),
    ("p11-virt-2^64-100", 0, 100, u64::MAX - 99, 11),
    ("length-0", 0, 0, 0, 11),
    ("length-0-at-end", 4096, 0, 0, 11),
    ("whole-memory", 0, 4096, 0, 0),
    ("memory-plus-one", 0, 4097, 0, 11),
    ("last-byte", 4095, 1, 0, 0),
    ("past-last-byte", 4096, 1, 0, 11),
    ("start-wraps", u64::MAX, 2, 0, 11),
    ("start-wraps-into-memory", u64::MAX - 99, 200, 0, 11),
    ("length-2^64-1", 1, u64::MAX, 0, 11),
    ("length-2^32", 0, 1 << 32, 0, 11),
    ("virt-last", 0, 1, u64::MAX - 1, 0),
    ("virt-2^64-1", 0, 1, u64::MAX, 11),
];

fn registrations() -> Vec<Case> {
    let mut access = Script::joined();
    for (slot, bits) in (2..).zip(ACCESSES) {
        access.register(0, bits, 0, 1, 0, 256 * slot + 1);
    }
    for bits in [2, 6, 8, 9, 10, 11, 15, 16, 128, 256, 258, 1 << 31, u32::MAX] {
        access.refused(register(0, bits, 0, 1, 0), 4);
    }
    let mut cases = vec![access.named("access-0-to-7")];
    for (name, start, length, virt, answer) in RANGES {
        let mut script = Script::joined();
        if answer == 0 {
            script.register(0, 7, start, length, virt, 513);
        } else {
            script.refused(register(0, 7, start, length, virt), answer);
        }
        cases.push(script.named(format!("register-{name}").replace('^', "-")));
    }
    let mut domains = Script::joined();
    for pdn in [2, 7, 8, 255, 256, 1 << 31, u32::MAX] {
        domains.refused(register(pdn, 7, 0, 1, 0), 2);
    }
    cases.push(domains.named("register-domain-not-live"));
    cases
}

/// Every slot is taken, and the named one dropped and taken again up to its variant 255; then it is retired.
fn last_variant(slot: u32, last: u32) -> Script {
    let mut script = Script::new();
    script.create(create_domain(), 0);
    for n in 0..256 {
        script.register(0, 7, 0, 1, 0, 256 * n + 1);
    }
    script.refused(register(0, 7, 0, 1, 0), 8);
    for variant in 2..=254 {
        script.done(deregister(slot)).register(0, 7, 0, 1, 0, 256 * slot + variant);
    }
    script.done(deregister(slot)).register(0, 7, 0, 1, 0, last);
    script.done(deregister(slot)).refused(register(0, 7, 0, 1, 0), 8).refused(register(0, 2, 0, 1, 0), 4);
    script
}

/// A byte of operator A at 4,096 is read and written under the key, by A itself and by B.
fn used(script: &mut Script, key: u32) {
    script.send(0, Send::new(1, 4).piece(4096, 1, key).remote(B_VIRT, B_KEY), 0, 0);
    script.send(1, Send::new(1, 0).inline(&[7]).remote(4096, key), 0, 0);
}

fn keys() -> Vec<Case> {
    let mut again = Script::joined();
    again.done(deregister(0)).refused(deregister(0), 2).register(0, 7, 256, 100, 4096, 2);
    let key = |key| Send::new(1, 4).remote(0, 0).piece(4096, 1, key);
    again.send(0, key(2).remote(B_VIRT, B_KEY), 0, 0).send(0, key(1).remote(B_VIRT, B_KEY), 0, 3);
    let mut wrap = Script::new();
    wrap.create(create_domain(), 0);
    for n in 0..260u32 {
        wrap.register(0, 7, 0, 1, 0, 256 * (n / 255) + n % 255 + 1).done(deregister(n / 255));
    }
    let mut unused = Script::joined();
    unused.done(deregister(0)).refused(register(0, 8, 0, 1, 0), 4).refused(register(0, 7, 0, 0, 0), 11);
    unused.refused(register(0, 2, 0, 1, 0), 4).refused(register(9, 7, 0, 1, 0), 2).register(0, 7, 0, 1, 0, 2);
    let mut lowest = Script::joined();
    for n in 2..256 {
        lowest.register(0, 7, 0, 1, 0, 256 * n + 1);
    }
    lowest.refused(register(0, 7, 0, 1, 0), 8).done(deregister(255)).done(deregister(4));
    lowest.register(0, 7, 0, 1, 0, 256 * 4 + 2).register(0, 7, 0, 1, 0, 256 * 255 + 2).refused(register(0, 7, 0, 1, 0), 8);
    // slot 0 is joined's first region: its last key works while it is live, and then the slot is passed over
    let mut retired = Script::joined();
    for variant in 2..=255 {
        retired.done(deregister(0)).register(0, 7, 256, 100, 4096, variant);
    }
    retired.send(0, key(255).remote(B_VIRT, B_KEY), 0, 0).done(deregister(0)).register(0, 7, 256, 100, 4096, 513);
    retired.done(deregister(2)).register(0, 7, 256, 100, 4096, 514).register(0, 7, 256, 100, 4096, 769);
    retired.send(0, key(514).remote(B_VIRT, B_KEY), 0, 0).send(0, key(255).remote(B_VIRT, B_KEY), 0, 3);
    let mut found = Script::joined();
    for n in 2..256 {
        found.register(0, 7, 0, 1, 4096, 256 * n + 1);
    }
    used(&mut found, 31 * 256 + 1);
    used(&mut found, 32 * 256 + 1);
    for variant in 2..=255 {
        found.done(deregister(255)).register(0, 7, 0, 1, 4096, 255 * 256 + variant);
    }
    used(&mut found, 65535);
    found.send(0, key(65534).remote(B_VIRT, B_KEY), 0, 3);
    vec![
        found.named("keys-up-to-65535-are-found"),
        retired.named("retired-slot-is-passed-over"),
        again.named("p8-dropped-and-registered-again"),
        wrap.named("variants-past-255"),
        last_variant(31, 8191).named("p9-slot-31-variant-255"),
        last_variant(255, 65535).named("p9-slot-255-variant-255"),
        unused.named("refused-registration-takes-no-variant"),
        lowest.named("regions-257th-is-8-lowest-free"),
    ]
}

fn pairs() -> Vec<Case> {
    let mut cases = Vec::new();
    let fields: [(&str, Vec<u8>, u8); 12] = [
        ("type-0", create_pair(0, 0, 0, 0, 0), 4),
        ("type-3", create_pair(0, 3, 0, 0, 0), 4),
        ("type-4", create_pair(0, 4, 0, 0, 0), 4),
        ("signal-2", create_pair(0, 2, 2, 0, 0), 4),
        ("signal-255", create_pair(0, 2, 255, 0, 0), 4),
        ("pd-dead", create_pair(2, 2, 0, 0, 0), 2),
        ("pd-256", create_pair(256, 2, 0, 0, 0), 2),
        ("send-cq-dead", create_pair(0, 2, 0, 2, 0), 2),
        ("send-cq-256", create_pair(0, 2, 0, 256, 0), 2),
        ("receive-cq-dead", create_pair(0, 2, 0, 0, 2), 2),
        ("receive-cq-8", create_pair(0, 2, 0, 0, 8), 2),
        ("all-dead-type-3", create_pair(9, 3, 2, 9, 9), 4),
    ];
    for (name, command, answer) in fields {
        cases.push(one(&format!("create-qp-{name}"), command, answer));
    }
    let mut many = Script::joined();
    let mut padded = create_pair(0, 2, 1, 0, 1);
    padded[8..10].fill(0xff);
    many.create(padded, 2);
    for n in 3..8 {
        many.create(create_pair(0, 2, 1, 0, 1), n);
    }
    many.refused(create_pair(0, 2, 1, 0, 1), 8).refused(create_pair(0, 3, 1, 0, 1), 4).refused(create_pair(7, 2, 1, 0, 1), 2);
    many.done(destroy_pair(6)).done(destroy_pair(3)).create(create_pair(1, 2, 0, 1, 1), 3);
    many.create(create_pair(1, 2, 0, 1, 1), 6).refused(create_pair(1, 2, 0, 1, 1), 8);
    cases.push(many.named("pairs-ninth-is-8-lowest-free"));
    cases
}

/// Name, command and answer of modifications of pair 0, which is ready to send.
fn modify_fields() -> Vec<(&'static str, Vec<u8>, u8)> {
    let fails = Modify { mask: MASK_STATE, state: 6, ..Modify::default() };
    let joins = Modify { mask: MASK_STATE | MASK_DESTINATION, state: 2, destination: 1, ..Modify::default() };
    vec![
        ("mask-0", Modify { mask: 0, ..fails }.bytes(), 4),
        ("mask-bit-15-alone", Modify { mask: MASK_DESTINATION, ..joins }.bytes(), 4),
        ("mask-bit-1", Modify { mask: 1 << 1 | 1, ..fails }.bytes(), 4),
        ("mask-bit-2", Modify { mask: 1 << 2 | 1, ..fails }.bytes(), 0),
        ("mask-bit-3", Modify { mask: 1 << 3 | 1, ..fails }.bytes(), 4),
        ("mask-bit-14", Modify { mask: 1 << 14 | 1, ..fails }.bytes(), 4),
        ("mask-bit-16", Modify { mask: 1 << 16 | 1, ..fails }.bytes(), 4),
        ("mask-bit-31", Modify { mask: 1 << 31 | 1, ..fails }.bytes(), 4),
        ("state-4", move_to(0, 4), 4),
        ("state-5", move_to(0, 5), 4),
        ("state-7", move_to(0, 7), 4),
        ("state-255", move_to(0, 255), 4),
        ("padding-0", Modify { padding: [1, 0, 0], ..fails }.bytes(), 4),
        ("padding-1", Modify { padding: [0, 1, 0], ..fails }.bytes(), 4),
        ("padding-2", Modify { padding: [0, 0, 128], ..fails }.bytes(), 4),
        ("bit-15-to-0", Modify { state: 0, ..joins }.bytes(), 4),
        ("bit-15-to-1", Modify { state: 1, ..joins }.bytes(), 4),
        ("bit-15-to-3", Modify { state: 3, ..joins }.bytes(), 4),
        ("bit-15-to-6", Modify { state: 6, ..joins }.bytes(), 4),
        ("to-2-without-bit-15", move_to(0, 2), 4),
        ("destination-8", join(0, 8), 4),
        ("destination-256", join(0, 256), 4),
        ("destination-itself", join(0, 0), 4),
        ("qp-9-destination-9", join(9, 9), 4),
        ("qp-9-destination-7", join(9, 7), 2),
        ("qp-5-dead-destination-5", join(5, 5), 4),
        ("qp-dead", move_to(2, 6), 2),
        ("qp-2^32-1", move_to(u32::MAX, 6), 2),
        ("destination-ignored", Modify { destination: 0, ..fails }.bytes(), 0),
    ]
}

fn modifications() -> Vec<Case> {
    let mut cases: Vec<Case> = Vec::new();
    for (name, command, answer) in modify_fields() {
        cases.push(one(&format!("modify-{name}").replace('^', "-"), command, answer));
    }
    let mut order = Script::joined();
    order.create(create_pair(0, 2, 0, 0, 0), 2).done(move_to(2, 1));
    let named = Modify { qpn: 2, mask: MASK_STATE | MASK_DESTINATION, state: 3, destination: 1, ..Modify::default() };
    order.refused(named.bytes(), 4).refused(move_to(2, 3), 3);
    cases.push(order.named("modify-4-before-3"));
    cases
}

/// Every move between the five states.
fn moves() -> Vec<Case> {
    let path: [(u8, &[u8]); 5] = [(0, &[]), (1, &[1]), (2, &[1, 2]), (3, &[1, 2, 3]), (6, &[6])];
    let command = |state| if state == 2 { join(2, 0) } else { move_to(2, state) };
    let mut cases = Vec::new();
    for (from, way) in path {
        let mut script = Script::joined();
        script.create(create_pair(0, 2, 0, 0, 0), 2);
        for to in [0, 1, 2, 3, 6] {
            script.done(move_to(2, 0));
            for &state in way {
                script.done(command(state));
            }
            if to == 0 || to == 6 || to == from + 1 && from < 3 {
                script.done(command(to));
            } else {
                script.refused(command(to), 3);
            }
        }
        cases.push(script.named(format!("moves-from-{from}")));
    }
    cases
}

fn removals() -> Vec<Case> {
    let mut domain = Script::joined();
    domain.refused(destroy_domain(0), 10).done(deregister(0)).refused(destroy_domain(0), 10);
    domain.done(destroy_pair(0)).done(destroy_domain(0)).refused(destroy_domain(0), 2);
    domain.done(destroy_pair(1)).refused(destroy_domain(1), 10).done(deregister(1)).done(destroy_domain(1));
    let mut queue = Script::joined();
    queue.create(create_queue(1), 2).create(create_queue(1), 3).create(create_pair(0, 2, 0, 2, 3), 2);
    queue.refused(destroy_queue(2), 10).refused(destroy_queue(3), 10).done(move_to(2, 6)).refused(destroy_queue(3), 10);
    queue.done(destroy_pair(2)).done(destroy_queue(2)).done(destroy_queue(3)).refused(destroy_queue(3), 2);
    let mut numbers = Script::joined();
    for number in [8, 255, 256, 1 << 16, u32::MAX] {
        numbers.refused(destroy_queue(number), 2).refused(destroy_domain(number), 2).refused(destroy_pair(number), 2);
    }
    for number in [2, 32, 256, 257, u32::MAX] {
        numbers.refused(deregister(number), 2);
    }
    vec![
        domain.named("domain-in-use-by-region-or-pair"),
        queue.named("queue-in-use-as-send-or-receive-queue"),
        numbers.named("removals-of-numbers-past-the-tables"),
    ]
}

/// Every number of each full table is freed but domain 0 and queue 0, which are in use, and of regions some together: the lowest is taken, up
/// to a full table.
fn freed_numbers() -> Case {
    let mut script = Script::new();
    for n in 0..8 {
        script.create(create_domain(), n).create(create_queue(1), n);
    }
    for n in 0..256 {
        script.register(0, 7, 0, 1, 0, 256 * n + 1);
    }
    for n in 0..8 {
        script.create(create_pair(0, 2, 0, 0, 0), n);
    }
    let mut variants = [1; 256];
    let together = [vec![0, 255], vec![31, 32], vec![6, 7], vec![7, 8], vec![15, 24], vec![8, 16, 23], vec![127, 128, 254]];
    for freed in (0..256).map(|slot| vec![slot]).chain(together) {
        for &slot in freed.iter().rev() {
            script.done(deregister(slot));
        }
        for slot in freed {
            variants[slot as usize] += 1;
            script.register(0, 7, 0, 1, 0, 256 * slot + variants[slot as usize]);
        }
        script.refused(register(0, 7, 0, 1, 0), 8);
    }
    for n in 0..8 {
        script.done(destroy_pair(n)).create(create_pair(0, 2, 0, 0, 0), n).refused(create_pair(0, 2, 0, 0, 0), 8);
    }
    for n in 1..8 {
        script.done(destroy_domain(n)).create(create_domain(), n).refused(create_domain(), 8);
        script.done(destroy_queue(n)).create(create_queue(1), n).refused(create_queue(1), 8);
    }
    script.named("each-freed-number-is-taken-again")
}
