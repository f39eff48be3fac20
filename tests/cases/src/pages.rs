//! Registrations over page lists: what a list may be, and what they share with those of adjacent bytes. No tape holds a page list, so these
//! run through the calls alone.

use crate::script::*;
use cards::build::*;
use cards::Call;
use reference::record::*;

pub fn cases() -> Vec<Case> {
    [records(), acks(), starts(), counts(), entries(), memories(), ranges(), orders(), fields(), slots(), dropped()]
        .into_iter()
        .flatten()
        .collect()
}

/// Five pages and a part of a sixth.
pub(crate) const BYTES: usize = 5 * 4096 + 904;
pub(crate) const VIRT: u64 = 0x1_0000_0000;

/// Two operators without regions, joined; only flagged successes complete.
pub(crate) fn joined(memory: usize) -> Script {
    let mut script = Script::over(memory);
    for n in 0..2 {
        script.create(create_domain(), n).create(create_queue(16), n).create(create_pair(n, 2, 1, n, n), n);
    }
    script.join_pairs(0, 1);
    script
}

/// A registration in domain 0 with all rights.
fn region(start: u64, length: u64) -> Vec<u8> {
    register(0, 7, start, length, VIRT)
}

/// The first pages of a scattered list.
fn scattered(count: usize) -> Vec<u64> {
    [3, 0, 4, 1, 2].into_iter().cycle().take(count).map(|page| 4096 * page).collect()
}

/// Start, length, list and answer of registrations, one after the other; each that is done takes the next slot.
fn tried(memory: usize, rows: &[(u64, u64, &[u64], u8)]) -> Script {
    let mut script = Script::over(memory);
    script.create(create_domain(), 0);
    let mut slot = 0;
    for &(start, length, pages, answer) in rows {
        if answer == 0 {
            script.register_pages(region(start, length), pages, 256 * slot + 1);
            slot += 1;
        } else {
            script.pages_refused(region(start, length), pages, answer);
        }
    }
    script.register_pages(region(0, 1), &[0], 256 * slot + 1);
    script
}

// ---- the record and the ack

fn records() -> Vec<Case> {
    let mut commands = Script::over(BYTES);
    commands.create(create_domain(), 0);
    for number in (0..=255).filter(|&number| number != 7) {
        let mut long = region(0, 1);
        long[1] = number;
        commands.pages_refused(vec![6, number], &[0], 13).pages_refused(long, &[0], 13);
    }
    for command in
        [create_domain(), create_queue(1), destroy_domain(0), deregister(0), create_pair(0, 2, 0, 0, 0), destroy_pair(0)]
    {
        commands.pages_refused(command.clone(), &[0], 13).pages_refused(command, &[], 13);
    }
    for command in [query_device(), query_port(), vec![6, 0, 0], vec![6, 1, 1, 1, 1, 1], move_to(0, 6)] {
        commands.pages_refused(command, &[0], 13);
    }
    commands.create(create_domain(), 1).create(create_queue(1), 0).queries();
    let mut classes = Script::over(BYTES);
    classes.create(create_domain(), 0);
    for class in [0, 1, 5, 7, 8, 134, 255] {
        let mut command = region(0, 1);
        command[0] = class;
        classes.pages_refused(command, &[0], 13).pages_refused(vec![class, 7], &[0], 13).pages_refused(vec![class, 0], &[0], 13);
    }
    classes.register_pages(region(0, 1), &[0], 1);
    let mut lengths = Script::over(BYTES);
    lengths.create(create_domain(), 0);
    for command in [vec![], vec![6], vec![7], vec![5], vec![0]] {
        lengths.pages_refused(command.clone(), &[0], 1).pages_refused(command, &[], 1);
    }
    for length in (2..80).filter(|&length| length != 34) {
        let mut command = region(0, 1);
        command.resize(length, 0);
        lengths.pages_refused(command, &[0], 1);
    }
    lengths.register_pages(region(0, 1), &[0], 1);
    vec![
        commands.named("pages-other-commands-are-13"),
        classes.named("pages-other-classes-are-13"),
        lengths.named("pages-record-lengths"),
    ]
}

/// 13 ack bytes are asked for first, whatever the record is.
fn acks() -> Vec<Case> {
    let mut bad_access = region(0, 1);
    bad_access[6] = 8;
    let refused: [(Vec<u8>, u8); 11] = [
        (vec![], 1),
        (vec![6], 1),
        (query_device(), 13),
        (query_port(), 13),
        (vec![6, 0, 0], 13),
        (vec![6, 1, 0, 0, 0, 0], 13),
        (create_domain(), 13),
        (vec![5, 7], 13),
        (vec![6, 7], 1),
        (bad_access, 4),
        (region(4096, 1), 11),
    ];
    let mut script = Script::over(BYTES);
    script.create(create_domain(), 0);
    let lengths = (0..=16).chain([32, 33, 34, 128, 129, 130]);
    for (slot, ack) in (0..).zip(lengths.clone().filter(|&ack| ack >= 13)) {
        script.call(Call::Pages { command: region(0, 1), pages: vec![0], ack }, 0, 0, keys_ack(256 * slot + 1));
    }
    for ack in lengths {
        let call = |command: &[u8]| Call::Pages { command: command.to_vec(), pages: vec![0], ack };
        let short = ack < 13;
        for (command, answer) in &refused {
            script.call(call(command), if short { 12 } else { *answer }, 0, if short { vec![] } else { vec![1] });
        }
        if short {
            script.call(call(&region(0, 1)), 12, 0, vec![]);
        }
    }
    vec![script.named("pages-ack-of-13-bytes")]
}

// ---- the list

fn starts() -> Vec<Case> {
    let one = tried(
        BYTES,
        &[
            (0, 1, &[0], 0),
            (0, 4096, &[4096], 0),
            (4095, 1, &[8192], 0),
            (1, 4095, &[16384], 0),
            (100, 50, &[12288], 0),
            (0, 0, &[0], 11),
            (0, 1, &[], 11),
        ],
    );
    let start = tried(
        BYTES,
        &[
            (4095, 1, &[0], 0),
            (4095, 2, &[0, 4096], 0),
            (4096, 1, &[0], 11),
            (4096, 1, &[0, 4096], 11),
            (4096, 4096, &[0, 4096], 11),
            (4097, 1, &[0, 4096], 11),
            (8191, 1, &[0, 4096], 11),
            (1 << 32, 1, &[0], 11),
            (1 << 63, 1, &[0], 11),
            (u64::MAX, 1, &[0], 11),
            (u64::MAX, 1, &[], 11),
            (u64::MAX, 2, &[0], 11),
        ],
    );
    let need = tried(
        BYTES,
        &[
            (4095, 2, &[0], 11),
            (4095, 2, &[0, 4096], 0),
            (1, 4096, &[0], 11),
            (1, 4096, &[8192, 0], 0),
            (0, 4097, &[0], 11),
            (0, 4097, &[0, 8192], 0),
            (4095, 4097, &[0, 8192], 0),
            (4095, 4098, &[0, 8192], 11),
            (4095, 4098, &[0, 8192, 4096], 0),
            (1, 8191, &[0, 8192, 4096], 11),
            (1, 8191, &[0, 8192], 0),
        ],
    );
    vec![one.named("pages-one-page"), start.named("pages-start-4095-and-4096"), need.named("pages-start-counts-in-the-need")]
}

fn counts() -> Vec<Case> {
    let mut exact = Script::over(BYTES);
    exact.create(create_domain(), 0);
    let mut slot = 0;
    for need in [1, 2, 3, 7, 15, 16] {
        for length in [4096 * (need as u64 - 1) + 1, 4096 * need as u64] {
            for count in (0..=20).filter(|&count| count != need).chain([256 + need]) {
                exact.pages_refused(region(0, length), &scattered(count), 11);
            }
            exact.register_pages(region(0, length), &scattered(need), 256 * slot + 1);
            slot += 1;
        }
    }
    exact.pages_refused(region(0, 65536), &scattered(65536 + 16), 11);
    let sixteen = scattered(16);
    let (fifteen, seventeen) = (scattered(15), scattered(17));
    let most = tried(
        BYTES,
        &[
            (0, 65536, &sixteen, 0),
            (0, 61441, &sixteen, 0),
            (1, 65535, &sixteen, 0),
            (4095, 61441, &sixteen, 0),
            (0, 65536, &fifteen, 11),
            (0, 65536, &seventeen, 11),
            (0, 65537, &sixteen, 11),
            (0, 65537, &seventeen, 11),
            (1, 65536, &sixteen, 11),
            (1, 65536, &seventeen, 11),
            (4095, 61442, &sixteen, 11),
            (4095, 61442, &seventeen, 11),
            (0, 17 * 4096, &seventeen, 11),
            (0, 20 * 4096, &scattered(20), 11),
        ],
    );
    vec![exact.named("pages-count-is-exact"), most.named("pages-16-and-17")]
}

/// A bad entry at each place of a list.
fn bad_entries(bad: &[u64]) -> Script {
    let mut script = Script::over(BYTES);
    script.create(create_domain(), 0);
    for &entry in bad {
        script.pages_refused(region(0, 1), &[entry], 11);
        for count in [2, 5, 16] {
            for place in 0..count {
                let mut pages = scattered(count);
                pages[place] = entry;
                script.pages_refused(region(0, 4096 * count as u64), &pages, 11);
            }
        }
    }
    script.register_pages(region(0, 65536), &scattered(16), 1);
    script
}

fn entries() -> Vec<Case> {
    let multiple = bad_entries(&[1, 2, 8, 255, 512, 2048, 4095, 4097, 6144, 8191, 12289, 16383]);
    let inside = bad_entries(&[20480, 24576, 1 << 16, 1 << 24, 1 << 28, 1 << 32, 4096 << 16, (4096 << 16) + 4096, 1 << 63]);
    let wrapped = bad_entries(&[u64::MAX - 4095, u64::MAX - 8191, u64::MAX - 4094, u64::MAX, u64::MAX - 65535]);
    vec![
        multiple.named("pages-entry-is-a-multiple"),
        inside.named("pages-entry-in-the-memory"),
        wrapped.named("pages-entry-does-not-wrap"),
    ]
}

/// The last page that fits, and the first that does not, of memories with a part page and without.
fn memories() -> Vec<Case> {
    let rows: [(&str, usize, &[u64], &[u64]); 8] = [
        ("pages-memory-of-4096", 4096, &[0], &[4096]),
        ("pages-memory-of-5000", 5000, &[0], &[4096, 5000]),
        ("pages-memory-of-8191", 8191, &[0], &[4096, 8192]),
        ("pages-memory-of-8192", 8192, &[0, 4096], &[8192]),
        ("pages-memory-of-8193", 8193, &[0, 4096], &[8192]),
        ("pages-memory-of-1048576", 1 << 20, &[0, 1_044_480], &[1 << 20]),
        ("pages-memory-of-16777215", 16_777_215, &[0, 16_769_024], &[16_773_120, 1 << 24]),
        ("pages-memory-of-16777216", 16_777_216, &[0, 16_769_024, 16_773_120], &[1 << 24, (1 << 24) + 4096]),
    ];
    let mut cases = Vec::new();
    for (name, memory, inside, outside) in rows {
        let mut script = Script::over(memory);
        script.create(create_domain(), 0);
        for &page in outside {
            script.pages_refused(region(0, 1), &[page], 11).pages_refused(region(0, 4097), &[0, page], 11);
            script.pages_refused(region(0, 4097), &[page, 0], 11);
        }
        for (slot, &page) in (0..).zip(inside) {
            script.register_pages(region(0, 1), &[page], 512 * slot + 1);
            script.register_pages(region(1, 4096), &[page, 0], 512 * slot + 257);
        }
        cases.push(script.named(name));
    }
    let mut none = Script::over(4095);
    none.create(create_domain(), 0).pages_refused(region(0, 1), &[0], 11).pages_refused(region(0, 1), &[], 11);
    none.register(0, 7, 0, 4095, VIRT, 1);
    cases.push(none.named("pages-memory-without-one"));
    cases
}

/// Length, start and address whose sums pass 2^64; a registration that is done stands at address 0.
fn ranges() -> Vec<Case> {
    let mut sums = Script::over(BYTES);
    sums.create(create_domain(), 0);
    for (start, length) in [
        (0, u64::MAX),
        (1, u64::MAX),
        (4095, u64::MAX),
        (4095, u64::MAX - 4094),
        (4095, u64::MAX - 4095),
        (0, u64::MAX - 4094),
        (0, u64::MAX - 4095),
        (0, 1 << 63),
        (0, 1 << 32),
        (0, 65536 + (1 << 32)),
        (2, 1 << 16),
    ] {
        for count in 0..=17 {
            sums.pages_refused(register(0, 7, start, length, 0), &scattered(count), 11);
        }
    }
    let mut empty = Script::over(BYTES);
    empty.create(create_domain(), 0);
    for start in [0, 1, 4095, 4096] {
        for count in 0..=2 {
            empty.pages_refused(region(start, 0), &scattered(count), 11);
        }
    }
    let mut virt = Script::over(BYTES);
    virt.create(create_domain(), 0);
    for length in [1, 100, 4096, 65536] {
        let pages = scattered((length as usize + 4095) / 4096);
        virt.pages_refused(register(0, 7, 0, length, u64::MAX - length + 1), &pages, 11);
        virt.pages_refused(register(0, 7, 0, length, u64::MAX), &pages, 11);
    }
    for (slot, length) in (0..).zip([1, 100, 4096, 65536]) {
        let pages = scattered((length as usize + 4095) / 4096);
        virt.register_pages(register(0, 7, 0, length, u64::MAX - length), &pages, 256 * slot + 1);
    }
    let sixteen = [0; 16];
    let longer = tried(
        4096,
        &[(4095, 2, &[0, 0], 0), (0, 4097, &[0, 0], 0), (0, 65536, &sixteen, 0), (4095, 61441, &sixteen, 0), (0, 4097, &[0], 11)],
    );
    vec![
        sums.named("pages-sums-do-not-wrap"),
        empty.named("pages-length-0"),
        virt.named("pages-virt-plus-length"),
        longer.named("pages-old-start-test-is-gone"),
    ]
}

/// 4, then 2, then 11, then 8, in a full table.
fn orders() -> Vec<Case> {
    let mut script = Script::over(BYTES);
    script.create(create_domain(), 0);
    for slot in 0..256 {
        script.register_pages(region(0, 1), &[0], 256 * slot + 1);
    }
    let bad: [(u64, u64, u64, &[u64]); 6] =
        [(0, 0, 0, &[0]), (0, 1, u64::MAX, &[0]), (4096, 1, 0, &[0]), (0, 1, 0, &[]), (0, 1, 0, &[1]), (0, 1, 0, &[20480])];
    for access in [2, 6, 8] {
        script.pages_refused(register(9, access, 0, 1, 0), &[0], 4).pages_refused(register(0, access, 0, 1, 0), &[0], 4);
    }
    for (start, length, virt, pages) in bad {
        script.pages_refused(register(9, 2, start, length, virt), pages, 4);
        script.pages_refused(register(0, 6, start, length, virt), pages, 4);
        script.pages_refused(register(9, 7, start, length, virt), pages, 2);
        script.pages_refused(register(0, 7, start, length, virt), pages, 11);
    }
    script.pages_refused(register(9, 7, 0, 1, 0), &[0], 2).pages_refused(register(0, 7, 0, 1, 0), &[0], 8);
    script.refused(register(0, 7, 0, 1, 0), 8);
    vec![script.named("pages-4-then-2-then-11-then-8")]
}

fn fields() -> Vec<Case> {
    let mut access = Script::over(BYTES);
    access.create(create_domain(), 0);
    for bits in [2, 6, 8, 9, 10, 11, 15, 16, 128, 256, 258, 1 << 31, u32::MAX] {
        access.pages_refused(register(0, bits, 0, 1, 0), &[0], 4);
    }
    for (slot, bits) in (0..).zip(ACCESSES) {
        access.register_pages(register(0, bits, 0, 1, 0), &[0], 256 * slot + 1);
    }
    let mut domains = Script::over(BYTES);
    domains.create(create_domain(), 0).create(create_domain(), 1).done(destroy_domain(1));
    for pdn in [1, 7, 8, 255, 256, 1 << 31, u32::MAX] {
        domains.pages_refused(register(pdn, 7, 0, 1, 0), &[0], 2);
    }
    domains.register_pages(region(0, 1), &[0], 1).refused(destroy_domain(0), 10).register_pages(region(0, 1), &[0], 257);
    domains.done(deregister(0)).refused(destroy_domain(0), 10).done(deregister(1)).done(destroy_domain(0));
    domains.pages_refused(region(0, 1), &[0], 2);
    vec![access.named("pages-access-0-to-7"), domains.named("pages-domain-live-and-in-use")]
}

// ---- slots, keys and what is dropped

/// A registration of the slot's turn: of adjacent bytes, or over a page.
fn either(script: &mut Script, turn: u32, key: u32) {
    if turn % 2 == 0 {
        script.register(0, 7, 0, 1, VIRT, key);
    } else {
        script.register_pages(region(0, 1), &[0], key);
    }
}

fn neither(script: &mut Script, answer: u8) {
    script.refused(region(0, 1), answer).pages_refused(region(0, 1), &[0], answer);
}

fn slots() -> Vec<Case> {
    let mut full = Script::over(BYTES);
    full.create(create_domain(), 0);
    for slot in 0..256 {
        either(&mut full, slot, 256 * slot + 1);
    }
    neither(&mut full, 8);
    for (turn, slot) in [(0, 255), (1, 255), (1, 4), (0, 4), (1, 0), (0, 0)] {
        full.done(deregister(slot));
        either(&mut full, turn, 256 * slot + 2 + u32::from(turn == if slot == 255 { 1 } else { 0 }));
        neither(&mut full, 8);
    }
    full.done(deregister(200)).done(deregister(100)).register_pages(region(0, 1), &[0], 25602);
    full.register(0, 7, 0, 1, VIRT, 51202);
    neither(&mut full, 8);
    let mut retired = joined(BYTES);
    for variant in 1..=255 {
        either(&mut retired, variant, variant);
        if variant == 255 {
            let read = Send::new(1, READ).piece(VIRT, 1, 255).remote(0, 0);
            retired.register_pages(register(1, 7, 0, 1, 0), &[4096], 257).send(0, read.remote(0, 257), 0, 0);
        }
        retired.done(deregister(0));
    }
    retired.register_pages(region(0, 1), &[0], 513).register(0, 7, 0, 1, VIRT, 769);
    for slot in 4..256 {
        either(&mut retired, slot, 256 * slot + 1);
    }
    neither(&mut retired, 8);
    retired.done(deregister(2)).done(deregister(3)).register(0, 7, 0, 1, VIRT, 514).register_pages(region(0, 1), &[0], 770);
    neither(&mut retired, 8);
    let mut refused = Script::over(BYTES);
    refused.create(create_domain(), 0).register_pages(region(0, 1), &[0], 1).done(deregister(0));
    for (start, pages) in [(0, vec![1]), (0, vec![]), (4096, vec![0])] {
        refused.pages_refused(region(start, 1), &pages, 11);
    }
    refused.pages_refused(register(0, 2, 0, 1, 0), &[0], 4).pages_refused(vec![6, 7], &[0], 1).register(0, 7, 0, 1, VIRT, 2);
    vec![
        full.named("pages-full-table"),
        retired.named("pages-255-registrations-of-a-slot"),
        refused.named("pages-refused-takes-no-variant"),
    ]
}

fn dropped() -> Vec<Case> {
    let write = |key: u32, virt: u64, byte: u8| Send::new(1, WRITE).inline(&[byte; 3]).remote(virt, key);
    let mut again = joined(BYTES);
    // the slot's old pages mean nothing to a region of adjacent bytes, nor to one over fewer pages
    again.register_pages(register(1, 7, 4094, 4098, VIRT), &[8192, 16384], 1).send(0, write(1, VIRT, 1), 0, 0);
    again.memory(8192 + 4094, &[1, 1]).memory(16384, &[1, 0]).memory(12288, &[0; 8]).done(deregister(0));
    again.register(1, 7, 4094, 4098, VIRT, 2).send(0, write(2, VIRT, 2), 0, 0).memory(4094, &[2, 2, 2, 0]);
    again.memory(8192 + 4094, &[1, 1]).memory(16384, &[1, 0]).done(deregister(0));
    again.register_pages(register(1, 7, 0, 4096, VIRT), &[4096], 3).send(0, write(3, VIRT + 4093, 3), 0, 0);
    again.memory(8189, &[3, 3, 3, 0]).done(deregister(0)).register_pages(register(1, 7, 4095, 2, VIRT), &[0, 0], 4);
    again.send(0, write(4, VIRT, 4).inline(&[4, 5]), 0, 0).memory(4095, &[4, 2]).memory(0, &[5, 0]).send(
        0,
        write(4, VIRT, 6),
        0,
        8,
    );
    let mut stale = joined(BYTES);
    stale.register_pages(register(1, 7, 0, 100, VIRT), &[4096], 1).send(0, write(1, VIRT, 1), 0, 0).done(deregister(0));
    stale.refused(deregister(0), 2).send(0, write(1, VIRT, 2), 0, 8).memory(4096, &[1, 1, 1, 0]).done(move_to(0, 0)).ready(0, 1);
    stale
        .register_pages(register(1, 7, 0, 100, VIRT), &[4096], 2)
        .send(0, write(1, VIRT, 2), 0, 8)
        .done(move_to(0, 0))
        .ready(0, 1);
    stale.send(0, write(2, VIRT, 2), 0, 0).memory(4096, &[2, 2, 2, 0]);
    let mut under = joined(BYTES);
    under.register_pages(register(1, 7, 4095, 2, VIRT), &[8192, 0], 1).receive(1, 5, &[piece(VIRT, 2, 1)], 0);
    under.receive(1, 6, &[piece(VIRT, 2, 2)], 0).send(0, Send::new(1, SEND).inline(&[7, 8]), 0, 0).poll(1, 5, 0, 3, 2, 1);
    under.memory(12287, &[7]).memory(0, &[8, 0]).done(deregister(0)).register_pages(register(1, 7, 4095, 2, VIRT), &[0, 8192], 2);
    under.send(0, Send::new(1, SEND).inline(&[9, 3]), 0, 0).poll(1, 6, 0, 3, 2, 1).memory(4095, &[9, 0]).memory(8192, &[3, 0]);
    under.receive(1, 7, &[piece(VIRT, 2, 2)], 0).done(deregister(0)).send(0, Send::new(1, SEND).inline(&[1, 1]), 0, 7);
    under.poll(1, 7, 3, 3, 0, 1).memory(4095, &[9, 0]);
    vec![
        again.named("pages-registered-again-of-another-kind"),
        stale.named("pages-dropped-key-stands-no-more"),
        under.named("pages-dropped-under-a-waiting-receive"),
    ]
}
