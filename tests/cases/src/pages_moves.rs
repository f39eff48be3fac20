//! Which memory byte an address of a region over pages is, and who may touch it.

use crate::pages::{joined, BYTES, VIRT};
use crate::script::*;
use cards::build::*;
use reference::record::*;

pub fn cases() -> Vec<Case> {
    [borders(), repeats(), overlaps(), permissions(), mixed()].into_iter().flatten().collect()
}

/// The regions of operators A and B, in domains 0 and 1.
const OWN_VIRT: u64 = 0x20_0000;
const FAR_VIRT: u64 = 0x70_0000;
const OWN_KEY: u32 = 1;
const FAR_KEY: u32 = 257;

/// What a region lies in: memory bytes from a first one on, or pages from an offset into the first on.
#[derive(Clone, Copy)]
enum Over<'a> {
    Bytes(u64),
    Pages(&'a [u64], u64),
}

impl Over<'_> {
    /// The memory byte at an offset into the region.
    fn place(&self, offset: u64) -> usize {
        let place = match self {
            Over::Bytes(start) => start + offset,
            Over::Pages(pages, start) => pages[((start + offset) / 4096) as usize] + (start + offset) % 4096,
        };
        place as usize
    }

    fn length(&self) -> u64 {
        match self {
            Over::Bytes(_) => 8192,
            Over::Pages(pages, start) => 4096 * pages.len() as u64 - start,
        }
    }

    fn register(&self, script: &mut Script, pdn: u32, virt: u64, key: u32) {
        match self {
            Over::Bytes(start) => script.register(pdn, 7, *start, self.length(), virt, key),
            Over::Pages(pages, start) => script.register_pages(register(pdn, 7, *start, self.length(), virt), pages, key),
        };
    }

    /// Where the bytes of some ranges of offsets stand.
    fn places(&self, ranges: &[(u64, u32)]) -> Vec<usize> {
        ranges.iter().flat_map(|&(at, length)| (0..u64::from(length)).map(move |n| self.place(at + n))).collect()
    }
}

/// What the guest's memory holds: no two pages alike.
fn text() -> Vec<u8> {
    (0..BYTES as u32).map(|n| (n.wrapping_mul(2_654_435_761) >> 13) as u8).collect()
}

/// Operator A's region and B's, for messages between them.
struct Sides<'a> {
    script: Script,
    own: Over<'a>,
    far: Over<'a>,
}

impl<'a> Sides<'a> {
    fn new(own: Over<'a>, far: Over<'a>) -> Sides<'a> {
        let mut script = joined(BYTES);
        own.register(&mut script, 0, OWN_VIRT, OWN_KEY);
        far.register(&mut script, 1, FAR_VIRT, FAR_KEY);
        Sides { script, own, far }
    }

    /// A request of A over ranges of its own region and of B's: a write or a read of one remote range, or a send to a receive's list. The
    /// message's bytes are written in turn, with the values before the request, and no other byte changes.
    fn moves(&mut self, opcode: u8, own: &[(u64, u32)], far: &[(u64, u32)]) -> &mut Sides<'a> {
        let total = own.iter().map(|(_, length)| length).sum();
        let (mut ours, mut theirs) = (self.own.places(own), self.far.places(far));
        let before = text();
        let mut after = before.clone();
        if opcode == READ {
            std::mem::swap(&mut ours, &mut theirs);
        }
        for (from, to) in ours.into_iter().zip(theirs) {
            after[to] = before[from];
        }
        self.script.guest(0, &before);
        if opcode == SEND {
            let list: Vec<Piece> = far.iter().map(|&(at, length)| piece(FAR_VIRT + at, length, FAR_KEY)).collect();
            self.script.receive(1, 5, &list, 0);
        }
        let mut send = Send::new(1, opcode).remote(FAR_VIRT + far[0].0, FAR_KEY);
        for &(at, length) in own {
            send = send.piece(OWN_VIRT + at, length, OWN_KEY);
        }
        self.script.send(0, send, 0, 0);
        if opcode == SEND {
            self.script.poll(1, 5, 0, 3, total, 1);
        }
        self.script.memory(0, &after);
        self
    }

    /// Each range of the given ones as a piece of A, and as a range of B.
    fn moves_each(&mut self, opcode: u8, own: &[(u64, u32)], far: &[(u64, u32)]) -> &mut Sides<'a> {
        for &(at, length) in own {
            for &(far_at, most) in far {
                if length <= most {
                    self.moves(opcode, &[(at, length)], &[(far_at, length)]);
                }
            }
        }
        self
    }

    fn named(self, name: &str) -> Case {
        self.script.named(name)
    }
}

/// Ranges at a page's end: up to it, from it on, and over it, by a byte and by much.
const EDGES: [(u64, u32); 12] = [
    (0, 1),
    (0, 4096),
    (1, 4095),
    (1, 4096),
    (4094, 2),
    (4095, 1),
    (4095, 2),
    (4095, 4096),
    (4096, 1),
    (4096, 4096),
    (2048, 4096),
    (4000, 200),
];

fn borders() -> Vec<Case> {
    let (far_bytes, own_pages) = (Over::Bytes(12288), Over::Pages(&[8192, 0, 4096], 0));
    let whole: &[(u64, u32)] = &[(0, 4096)];
    let mut source = Sides::new(own_pages, far_bytes);
    source.moves_each(WRITE, &EDGES, whole).moves_each(SEND, &EDGES, whole);
    let mut target = Sides::new(far_bytes, own_pages);
    for &(at, length) in &EDGES {
        target.moves(WRITE, &[(0, length)], &[(at, length)]).moves(SEND, &[(0, length)], &[(at, length)]);
    }
    let mut read_into = Sides::new(own_pages, far_bytes);
    read_into.moves_each(READ, &EDGES, whole);
    let mut read_from = Sides::new(far_bytes, own_pages);
    for &(at, length) in &EDGES {
        read_from.moves(READ, &[(0, length)], &[(at, length)]);
    }
    let mut both = Sides::new(Over::Pages(&[16384, 0, 8192], 100), Over::Pages(&[4096, 12288, 4096], 3000));
    let spots = [(0, 4096), (1096, 2), (3995, 2), (3996, 1), (3996, 4096), (2000, 4096), (1095, 1), (1000, 3500)];
    for opcode in [WRITE, READ, SEND] {
        for &(at, length) in &spots {
            for far_at in [0, 1095, 1096, 1097, 3996] {
                both.moves(opcode, &[(at, length)], &[(far_at, length)]);
            }
        }
    }
    let mut cases = vec![
        source.named("pages-end-inside-a-source"),
        target.named("pages-end-inside-a-target"),
        read_into.named("pages-end-inside-what-a-read-fills"),
        read_from.named("pages-end-inside-what-is-read"),
        both.named("pages-end-inside-both-sides"),
        inline_borders(),
    ];
    for (name, start) in [("pages-start-1", 1), ("pages-start-100", 100), ("pages-start-4095", 4095)] {
        let mut sides = Sides::new(Over::Pages(&[8192, 0, 4096], start), far_bytes);
        let first = 4096 - start;
        let near = [(0, 1), (0, 4096), (first - 1, 1), (first - 1, 2), (first, 1), (first, 4096), (first + 1, 4000)];
        sides.moves_each(WRITE, &near, whole).moves_each(READ, &near, whole);
        cases.push(sides.named(name));
    }
    for (name, pages) in [
        ("pages-in-rising-order", [0, 4096, 8192]),
        ("pages-in-falling-order", [8192, 4096, 0]),
        ("pages-far-apart", [4096, 16384, 0]),
    ] {
        let mut sides = Sides::new(Over::Bytes(12288), Over::Pages(&pages, 0));
        let ranges = [(0, 4096), (2048, 4096), (4095, 2), (8191, 2), (6000, 4096), (8192, 4096)];
        for (at, length) in ranges {
            sides.moves(WRITE, &[(0, length)], &[(at, length)]).moves(READ, &[(0, length)], &[(at, length)]);
        }
        cases.push(sides.named(name));
    }
    cases
}

/// Inline bytes of a write and of a send, to ranges at and over a page's end.
fn inline_borders() -> Case {
    let far = Over::Pages(&[8192, 0, 8192], 10);
    let mut script = joined(BYTES);
    far.register(&mut script, 1, FAR_VIRT, 1);
    for (at, length) in [(0, 512), (4085, 1), (4085, 2), (4086, 1), (4086, 512), (3900, 512), (4084, 2), (8181, 2), (8180, 512)] {
        let bytes: Vec<u8> = (0..length).map(|n| (n % 251 + 1) as u8).collect();
        let mut after = text();
        for (n, place) in far.places(&[(at, length)]).into_iter().enumerate() {
            after[place] = bytes[n];
        }
        let write = Send::new(1, WRITE).inline(&bytes).remote(FAR_VIRT + at, 1);
        script.guest(0, &text()).send(0, write, 0, 0).memory(0, &after).guest(0, &text());
        script.receive(1, 5, &[piece(FAR_VIRT + at, length, 1)], 0).send(0, Send::new(1, SEND).inline(&bytes), 0, 0);
        script.poll(1, 5, 0, 3, length, 1).memory(0, &after);
    }
    script.named("pages-end-inside-inline-bytes")
}

// ---- pages that repeat

fn repeats() -> Vec<Case> {
    let twice = Over::Pages(&[4096, 4096], 0);
    let thrice = Over::Pages(&[4096, 4096, 4096], 10);
    let bytes = Over::Bytes(8192);
    let mut source = Sides::new(thrice, bytes);
    source.moves_each(WRITE, &EDGES, &[(0, 4096)]).moves_each(SEND, &EDGES, &[(0, 4096)]);
    source.moves(WRITE, &[(0, 100), (4096, 100), (8192, 50), (50, 300)], &[(7, 550)]);
    let mut target = Sides::new(bytes, twice);
    for &(at, length) in &EDGES {
        target.moves(WRITE, &[(0, length)], &[(at.min(4096), length)]);
    }
    let mut one = Sides::new(bytes, Over::Pages(&[4096, 4096, 0], 0));
    // every byte of the page is written once, its second half first
    one.moves(WRITE, &[(0, 4096)], &[(2048, 4096)]).moves(SEND, &[(0, 4096)], &[(2048, 4096)]);
    one.moves(WRITE, &[(0, 4096)], &[(4095, 4096)]).moves(WRITE, &[(0, 4096)], &[(1, 4096)]);
    let mut pieces = Sides::new(Over::Pages(&[4096, 4096, 4096], 0), bytes);
    for own in [
        &[(0, 100), (4096, 100)][..],
        &[(4096, 100), (0, 100)],
        &[(0, 100), (4146, 100)],
        &[(4146, 100), (0, 100)],
        &[(4090, 20), (4090, 10), (8190, 4)],
        &[(10, 20), (4106, 20), (8202, 20), (15, 3)],
        &[(2048, 2048), (6144, 2048)],
        &[(2048, 4000), (4096, 96)],
        &[(0, 1), (4096, 1), (8192, 1), (0, 1)],
    ] {
        let total = own.iter().map(|(_, length)| length).sum();
        pieces.moves(READ, own, &[(33, total)]);
    }
    let mut list = Sides::new(bytes, twice);
    for far in [
        &[(0, 300), (4096, 300)][..],
        &[(4096, 300), (0, 300)],
        &[(0, 300), (4196, 300)],
        &[(4000, 200), (0, 150)],
        &[(4000, 200), (4090, 150)],
        &[(100, 4096), (0, 0)],
        &[(2048, 3000), (2000, 1096)],
    ] {
        let total = far.iter().map(|(_, length)| length).sum();
        list.moves(SEND, &[(3, total)], far);
    }
    vec![
        source.named("pages-repeated-in-a-source"),
        target.named("pages-repeated-in-a-target"),
        one.named("pages-repeated-under-one-piece"),
        pieces.named("pages-later-piece-of-a-read-wins"),
        list.named("pages-later-piece-of-a-receive-wins"),
    ]
}

/// Source and target in one page: all bytes are read before any is written.
fn overlaps() -> Vec<Case> {
    let page = Over::Pages(&[4096, 4096], 0);
    let ranges = [
        ((0, 100), 50),
        ((50, 100), 0),
        ((0, 4096), 1),
        ((1, 4096), 0),
        ((4000, 200), 4050),
        ((4050, 200), 4000),
        ((2048, 4096), 0),
        ((0, 4096), 2048),
        ((4095, 2), 0),
    ];
    let mut cases = Vec::new();
    for (name, own, far) in [
        ("pages-source-and-target-in-one-page", page, page),
        ("pages-over-the-bytes-of-another-region", Over::Bytes(4096), page),
        ("pages-under-the-bytes-of-another-region", page, Over::Bytes(4096)),
        ("pages-crossed-by-the-other-side", Over::Pages(&[4096, 8192], 0), Over::Pages(&[8192, 4096], 0)),
    ] {
        let mut sides = Sides::new(own, far);
        for opcode in [WRITE, READ, SEND] {
            for ((at, length), far_at) in ranges {
                sides.moves(opcode, &[(at, length)], &[(far_at, length)]);
            }
        }
        sides.moves(WRITE, &[(10, 20), (4096, 20), (15, 20)], &[(4101, 60)]);
        sides.moves(READ, &[(10, 20), (4096, 20), (15, 20)], &[(4101, 60)]);
        cases.push(sides.named(name));
    }
    cases
}

// ---- who may touch it

/// A request of A, and its pair brought back if it failed; one that a receive could not take has put that receive's completion too.
fn ends_with(script: &mut Script, send: Send, status: u8) {
    let completed = match send.opcode {
        READ => 2,
        SEND => 0,
        _ => 1,
    };
    script.send(0, Send { wr_id: 1, ..send }, 0, status);
    match status {
        0 => {}
        7 => {
            script.poll(0, 1, 7, 0, 0, 0).poll(1, 5, 3, 3, 0, 1);
            script.done(move_to(0, 0)).done(move_to(1, 0)).join_pairs(0, 1);
        }
        _ => {
            script.poll(0, 1, status, completed, 0, 0).done(move_to(0, 0)).ready(0, 1);
        }
    }
}

/// Each use of a range under a key of each side, with the status where it is not permitted.
fn each_use(
    script: &mut Script,
    address: u64,
    length: u32,
    [own, far]: [u32; 2],
    [own_bytes, far_bytes]: [u32; 2],
    inside: bool,
) {
    let status = |refused: u8| if inside { 0 } else { refused };
    for opcode in [WRITE, READ] {
        let send = Send::new(1, opcode);
        ends_with(script, send.clone().piece(OWN_VIRT, length, own_bytes).remote(address, far), status(8));
        ends_with(script, send.piece(address, length, own).remote(FAR_VIRT, far_bytes), status(3));
    }
    script.receive(1, 5, &[piece(address, length, far)], 0);
    ends_with(script, Send::new(1, SEND).piece(OWN_VIRT, length, own_bytes), status(7));
    if inside {
        script.poll(1, 5, 0, 3, length, 1);
    }
}

/// Ranges at the ends of a region that begins and ends inside a page; pages that go on behind it do not count.
fn permissions() -> Vec<Case> {
    let mut ends = joined(BYTES);
    ends.register_pages(register(0, 7, 4090, 10, VIRT), &[4096, 0], 1).register_pages(
        register(1, 7, 4090, 10, VIRT),
        &[8192, 0],
        257,
    );
    ends.register(0, 7, 12288, 5000, OWN_VIRT, 513).register(1, 7, 12288, 5000, FAR_VIRT, 769);
    for (at, length, inside) in [
        (0, 10, true),
        (0, 11, false),
        (0, 4096, false),
        (9, 1, true),
        (9, 2, false),
        (10, 1, false),
        (5, 5, true),
        (5, 6, false),
        (6, 4, true),
        (6, 5, false),
        (u64::MAX, 1, false),
        (u64::MAX, 2, false),
        (4086, 1, false),
        (4096, 1, false),
    ] {
        each_use(&mut ends, VIRT.wrapping_add(at), length, [1, 257], [513, 769], inside);
    }
    let mut top = joined(BYTES);
    let virt = u64::MAX - 4098;
    top.register_pages(register(0, 7, 4095, 4098, virt), &[4096, 0, 8192], 1);
    top.register_pages(register(1, 7, 4095, 4098, virt), &[8192, 0, 4096], 257);
    top.register(0, 7, 12288, 5000, OWN_VIRT, 513).register(1, 7, 12288, 5000, FAR_VIRT, 769);
    for (address, length, inside) in [
        (virt, 4096, true),
        (virt + 2, 4096, true),
        (virt + 3, 4096, false),
        (u64::MAX - 1, 1, true),
        (u64::MAX - 1, 2, false),
        (u64::MAX, 1, false),
    ] {
        each_use(&mut top, address, length, [1, 257], [513, 769], inside);
    }
    let mut domains = joined(BYTES);
    domains.register_pages(register(0, 7, 0, 8, VIRT), &[4096], 1).register_pages(register(1, 7, 0, 8, VIRT), &[4096], 257);
    for (own, far, status) in [(1, 257, 0), (257, 257, 3), (1, 1, 8), (1, 2, 8), (2, 257, 3), (513, 257, 3)] {
        ends_with(&mut domains, Send::new(1, WRITE).piece(VIRT, 8, own).remote(VIRT, far), status);
    }
    vec![
        ends.named("pages-only-the-regions-own-bytes"),
        top.named("pages-under-the-last-addresses"),
        domains.named("pages-of-another-domain"),
        longer_than_the_memory(),
        rights(),
    ]
}

/// 16 times page 0 over a memory of 4,096 bytes.
fn longer_than_the_memory() -> Case {
    let mut script = joined(4096);
    script.register_pages(register(1, 7, 0, 65536, VIRT), &[0; 16], 1).queries();
    let mut memory = vec![0; 4096];
    for (n, (at, length, status)) in (1..).zip([
        (65535, 1, 0),
        (65535, 2, 8),
        (65536, 1, 8),
        (65024, 512, 0),
        (65025, 512, 8),
        (4096, 512, 0),
        (u64::MAX, 1, 8),
    ]) {
        ends_with(&mut script, Send::new(1, WRITE).inline(&vec![n; length]).remote(VIRT.wrapping_add(at), 1), status);
        if status == 0 {
            let first = (at % 4096) as usize;
            memory[first..first + length].fill(n);
        }
        script.memory(0, &memory);
    }
    script.named("pages-longer-than-the-memory")
}

/// Each right of a region, and the peer's flags.
fn rights() -> Case {
    let mut script = joined(BYTES);
    for (slot, access) in (0..).zip(ACCESSES) {
        let (own, far) = (512 * slot + 1, 512 * slot + 257);
        script.register_pages(register(0, access, 4095, 2, VIRT), &[4096, 0], own);
        script.register_pages(register(1, access, 4095, 2, VIRT), &[8192, 0], far);
        for (opcode, bit) in [(WRITE, 2), (READ, 4)] {
            let local = opcode == READ && access & 1 == 0;
            let status = if local { 3 } else { u8::from(access & bit == 0) * 8 };
            ends_with(&mut script, Send::new(1, opcode).piece(VIRT, 2, own).remote(VIRT, far), status);
        }
        script.receive(1, 5, &[piece(VIRT, 2, far)], 0);
        let takes = access & 1 == 1;
        ends_with(&mut script, Send::new(1, SEND).inline(&[1, 2]), if takes { 0 } else { 7 });
        if takes {
            script.poll(1, 5, 0, 3, 2, 1);
        }
    }
    script.done(move_to(1, 0)).done(move_to(1, 1)).done(to_peer(1, 0).access(4).bytes()).done(move_to(1, 3));
    ends_with(&mut script, Send::new(1, WRITE).inline(&[9]).remote(VIRT, 512 * 5 + 257), 8);
    ends_with(&mut script, Send::new(1, READ).piece(VIRT, 2, 512 * 5 + 1).remote(VIRT, 512 * 5 + 257), 0);
    script.named("pages-rights-of-region-and-pair")
}

/// Regions of both kinds in one message.
fn mixed() -> Vec<Case> {
    let (bytes, pages, other) = (Over::Bytes(12288), Over::Pages(&[4096, 0], 100), Over::Pages(&[8192, 8192], 7));
    let mut script = joined(BYTES);
    for (key, pdn, over) in [(1, 0, bytes), (257, 0, pages), (513, 1, bytes), (769, 1, other)] {
        over.register(&mut script, pdn, VIRT, key);
    }
    type Ranges<'a> = &'a [(Over<'a>, u32, u64, u32)];
    let own: Ranges = &[(bytes, 1, 5, 40), (pages, 257, 3990, 30), (bytes, 1, 20, 40), (pages, 257, 3990, 30)];
    let far: Ranges = &[(other, 769, 4080, 60), (bytes, 513, 100, 80)];
    let one: [Ranges; 2] = [&[(other, 769, 4000, 140)], &[(bytes, 513, 8000, 140)]];
    let places =
        |ranges: Ranges| ranges.iter().flat_map(|(over, _, at, length)| over.places(&[(*at, *length)])).collect::<Vec<_>>();
    let sge = |&(_, key, at, length): &(Over, u32, u64, u32)| piece(VIRT + at, length, key);
    let mut moves = |opcode: u8, far: Ranges| {
        let before = text();
        let mut after = before.clone();
        let (mut from, mut to) = (places(own), places(far));
        if opcode == READ {
            std::mem::swap(&mut from, &mut to);
        }
        for (from, to) in from.into_iter().zip(to) {
            after[to] = before[from];
        }
        script.guest(0, &before);
        let mut send = Send { pieces: own.iter().map(sge).collect(), ..Send::new(1, opcode) };
        if opcode == SEND {
            script.receive(1, 5, &far.iter().map(sge).collect::<Vec<_>>(), 0);
        } else {
            send = send.remote(VIRT + far[0].2, far[0].1);
        }
        script.send(0, send, 0, 0);
        if opcode == SEND {
            script.poll(1, 5, 0, 3, 140, 1);
        }
        script.memory(0, &after);
    };
    for far in one {
        moves(WRITE, far);
        moves(READ, far);
    }
    moves(SEND, far);
    vec![script.named("pages-and-adjacent-bytes-in-one-message")]
}
