//! How a case is written down.

use cards::build::{self, Send};
use cards::{Call, Outcome};
use reference::layout::COMPLETION_BYTES;
use reference::record::{Completion, Piece};
use reference::replay::MEMORY;
use reference::{ack_need, ACK_BYTES};

pub struct Case {
    pub name: String,
    /// The length of the lent memory.
    pub memory: usize,
    pub steps: Vec<Step>,
}

pub enum Step {
    Call {
        call: Call,
        wanted: Wanted,
    },
    /// What memory holds from here on; not on a tape.
    Memory {
        at: usize,
        bytes: Vec<u8>,
    },
    /// The guest writes its memory; not on a tape.
    Guest {
        at: usize,
        bytes: Vec<u8>,
    },
    /// Bytes that are no record; on a tape only.
    Raw(Vec<u8>),
}

/// What a call must give back, and the bytes that it writes to its ack or completion buffer.
pub struct Wanted {
    pub outcome: Outcome,
    pub written: Vec<u8>,
}

impl Case {
    /// The calls as a replay tape, if each has a kind there and the memory is a tape's.
    pub fn tape(&self) -> Option<Vec<u8>> {
        let has_no_kind = |step: &Step| matches!(step, Step::Call { call, .. } if !call.has_tape_kind());
        if self.steps.iter().any(has_no_kind) || self.memory != MEMORY {
            return None;
        }
        let mut tape = Vec::new();
        for step in &self.steps {
            match step {
                Step::Call { call, .. } => tape.extend(call.tape_record().expect("a tape can hold it")),
                Step::Memory { .. } | Step::Guest { .. } => {}
                Step::Raw(bytes) => tape.extend(bytes),
            }
        }
        Some(tape)
    }
}

/// Writes a case, step by step.
pub struct Script {
    memory: usize,
    steps: Vec<Step>,
}

/// Operator A: domain 0, queue 0, region 0 over memory 0 to 1,023, queue pair 0.
pub const A_VIRT: u64 = 0x1_0000;
pub const A_KEY: u32 = 1;
/// Operator B: domain 1, queue 1, region 1 over memory 2,048 to 3,071, queue pair 1.
pub const B_VIRT: u64 = 0x2_0000;
pub const B_KEY: u32 = 257;
pub const B_START: usize = 2048;
pub const REGION: u32 = 1024;
/// What a region's access may be: remote write (2) beside local write (1) only.
pub const ACCESSES: [u32; 6] = [0, 1, 3, 4, 5, 7];

impl Default for Script {
    fn default() -> Script {
        Script::new()
    }
}

impl Script {
    /// A fresh card over a tape's memory.
    pub fn new() -> Script {
        Script::over(MEMORY)
    }

    /// A fresh card over a memory of this length.
    pub fn over(memory: usize) -> Script {
        Script { memory, steps: Vec::new() }
    }

    /// Two operators, each with a domain, a queue of `places`, a region with all rights and a queue pair; the pairs are joined and
    /// ready to send.
    pub fn joined_with(places: u32, signal: u8) -> Script {
        let mut script = Script::new();
        for n in 0..2 {
            script.create(build::create_domain(), n);
            script.create(build::create_queue(places), n);
        }
        script.register(0, 7, 0, REGION.into(), A_VIRT, A_KEY);
        script.register(1, 7, B_START as u64, REGION.into(), B_VIRT, B_KEY);
        for n in 0..2 {
            script.create(build::create_pair(n, 2, signal, n, n), n);
        }
        script.join_pairs(0, 1);
        script
    }

    pub fn joined() -> Script {
        Script::joined_with(16, 0)
    }

    pub fn named(self, name: impl Into<String>) -> Case {
        Case { name: name.into(), memory: self.memory, steps: self.steps }
    }

    /// The case so far, as one more of the list.
    pub fn named_into(&mut self, cases: &mut Vec<Case>, name: impl Into<String>) {
        cases.push(std::mem::replace(self, Script::new()).named(name));
    }

    pub fn step(&mut self, step: Step) -> &mut Script {
        self.steps.push(step);
        self
    }

    /// A call with its answer, its status and what it writes to its buffer.
    pub fn call(&mut self, call: Call, answer: u8, status: u8, written: Vec<u8>) -> &mut Script {
        self.step(Step::Call { call, wanted: Wanted { outcome: Outcome { answer, status, served: 0 }, written } })
    }

    // ---- control

    /// A command with one ack byte more than it needs, which stays.
    fn control(&mut self, command: Vec<u8>, answer: u8, ack: Vec<u8>) -> &mut Script {
        let lent = ack_need(&command) + 1;
        self.call(Call::Control { command, ack: lent }, answer, 0, ack)
    }

    /// Both queries.
    pub fn queries(&mut self) -> &mut Script {
        self.control(build::query_device(), 0, device_ack(self.memory as u64)).control(build::query_port(), 0, port_ack())
    }

    /// A command answered 0 whose ack has no data.
    pub fn done(&mut self, command: Vec<u8>) -> &mut Script {
        self.control(command, 0, vec![0])
    }

    /// A command answered 0 that gives this number.
    pub fn create(&mut self, command: Vec<u8>, number: u32) -> &mut Script {
        let ack = [&[0][..], &number.to_le_bytes()].concat();
        self.control(command, 0, ack)
    }

    /// A registration answered 0 that gives this key.
    pub fn register(&mut self, pdn: u32, access: u32, start: u64, length: u64, virt: u64, key: u32) -> &mut Script {
        self.control(build::register(pdn, access, start, length, virt), 0, keys_ack(key))
    }

    /// A registration over pages answered 0 that gives this key.
    pub fn register_pages(&mut self, command: Vec<u8>, pages: &[u64], key: u32) -> &mut Script {
        self.pages_call(command, pages, 0, keys_ack(key))
    }

    pub fn pages_refused(&mut self, command: Vec<u8>, pages: &[u64], answer: u8) -> &mut Script {
        self.pages_call(command, pages, answer, vec![1])
    }

    /// With one ack byte more than it needs, which stays.
    fn pages_call(&mut self, command: Vec<u8>, pages: &[u64], answer: u8, ack: Vec<u8>) -> &mut Script {
        self.call(Call::Pages { command, pages: pages.to_vec(), ack: ACK_BYTES + 1 }, answer, 0, ack)
    }

    pub fn refused(&mut self, command: Vec<u8>, answer: u8) -> &mut Script {
        self.control(command, answer, vec![1])
    }

    /// Brings a pair from reset to ready to send.
    pub fn ready(&mut self, qpn: u32, destination: u32) -> &mut Script {
        for command in build::ready(qpn, destination) {
            self.done(command);
        }
        self
    }

    pub fn join_pairs(&mut self, a: u32, b: u32) -> &mut Script {
        self.ready(a, b).ready(b, a)
    }

    /// Fills a completion queue that nobody else fills, by writes of no bytes on a pair that completes there.
    pub fn fill_queue(&mut self, qpn: u8, writes: usize) -> &mut Script {
        for n in 0..writes {
            self.send(qpn, Send::new(900 + n as u64, 0).flags(2), 0, 0);
        }
        self
    }

    // ---- posting

    pub fn send(&mut self, qpn: u8, send: Send, answer: u8, status: u8) -> &mut Script {
        self.send_bytes(qpn, send.bytes(), answer, status)
    }

    pub fn send_bytes(&mut self, qpn: u8, record: Vec<u8>, answer: u8, status: u8) -> &mut Script {
        self.call(Call::Send { qpn: qpn.into(), record, memory: self.memory }, answer, status, vec![])
    }

    /// A send for the queue of its pair.
    pub fn enqueue(&mut self, qpn: u8, send: Send, answer: u8) -> &mut Script {
        self.enqueue_bytes(qpn, send.bytes(), answer)
    }

    pub fn enqueue_bytes(&mut self, qpn: u8, record: Vec<u8>, answer: u8) -> &mut Script {
        self.enqueue_lent(qpn, record, self.memory, answer)
    }

    /// With a memory of this length lent.
    pub fn enqueue_lent(&mut self, qpn: u8, record: Vec<u8>, memory: usize, answer: u8) -> &mut Script {
        self.call(Call::Enqueue { qpn: qpn.into(), record, memory }, answer, 0, vec![])
    }

    /// A turn that serves this pair.
    pub fn turn(&mut self, served: u8, status: u8) -> &mut Script {
        let outcome = Outcome { served, ..Outcome::ended(status) };
        self.step(Step::Call { call: Call::Turn { memory: self.memory }, wanted: Wanted { outcome, written: vec![] } })
    }

    pub fn turn_refused(&mut self, answer: u8) -> &mut Script {
        self.turn_lent(self.memory, answer)
    }

    pub fn turn_lent(&mut self, memory: usize, answer: u8) -> &mut Script {
        self.call(Call::Turn { memory }, answer, 0, vec![])
    }

    /// A fresh card over the same memory.
    pub fn reset(&mut self) -> &mut Script {
        self.call(Call::Reset { memory_length: self.memory as u64 }, 0, 0, vec![])
    }

    pub fn receive(&mut self, qpn: u8, wr_id: u64, pieces: &[Piece], answer: u8) -> &mut Script {
        self.receive_bytes(qpn, build::receive(wr_id, pieces), answer)
    }

    pub fn receive_bytes(&mut self, qpn: u8, record: Vec<u8>, answer: u8) -> &mut Script {
        self.call(Call::Receive { qpn: qpn.into(), record }, answer, 0, vec![])
    }

    /// A receive of a pair in error that is flushed at once.
    pub fn receive_flushed(&mut self, qpn: u8, wr_id: u64, pieces: &[Piece]) -> &mut Script {
        self.call(Call::Receive { qpn: qpn.into(), record: build::receive(wr_id, pieces) }, 0, 4, vec![])
    }

    pub fn flush(&mut self, qpn: u8, answer: u8) -> &mut Script {
        self.call(Call::Flush { qpn: qpn.into() }, answer, 0, vec![])
    }

    // ---- polling

    fn poll_call(&mut self, cqn: u8, answer: u8, completion: Vec<u8>) -> &mut Script {
        self.call(Call::Poll { cqn: cqn.into(), buffer: COMPLETION_BYTES + 1 }, answer, 0, completion)
    }

    pub fn poll_refused(&mut self, cqn: u8, answer: u8) -> &mut Script {
        self.poll_call(cqn, answer, vec![])
    }

    pub fn poll_empty(&mut self, cqn: u8) -> &mut Script {
        self.poll_refused(cqn, 9)
    }

    /// A completion without immediate.
    pub fn poll(&mut self, cqn: u8, wr_id: u64, status: u8, opcode: u8, length: u32, owner: u32) -> &mut Script {
        self.poll_immediate(cqn, wr_id, [status, opcode], length, 0, owner)
    }

    pub fn poll_immediate(
        &mut self,
        cqn: u8,
        wr_id: u64,
        [status, opcode]: [u8; 2],
        length: u32,
        immediate: u32,
        owner: u32,
    ) -> &mut Script {
        let mut bytes = vec![0; COMPLETION_BYTES];
        Completion { wr_id, status, opcode, length, immediate, owner }.write(&mut bytes, 0);
        self.poll_call(cqn, 0, bytes)
    }

    // ---- memory

    /// Puts bytes at an offset of operator A's or B's own region, by inline writes of the other one.
    pub fn put(&mut self, writer: u8, offset: u64, bytes: &[u8]) -> &mut Script {
        let (virt, key) = if writer == 0 { (B_VIRT, B_KEY) } else { (A_VIRT, A_KEY) };
        self.send(writer, Send::new(800, 0).inline(bytes).remote(virt + offset, key), 0, 0);
        self.poll(writer, 800, 0, 1, bytes.len() as u32, writer.into())
    }

    pub fn memory(&mut self, at: usize, bytes: &[u8]) -> &mut Script {
        self.step(Step::Memory { at, bytes: bytes.to_vec() })
    }

    /// The guest writes these bytes.
    pub fn guest(&mut self, at: usize, bytes: &[u8]) -> &mut Script {
        self.step(Step::Guest { at, bytes: bytes.to_vec() })
    }

    pub fn raw(&mut self, bytes: &[u8]) -> &mut Script {
        self.step(Step::Raw(bytes.to_vec()))
    }
}

/// The ack of a registration.
pub fn keys_ack(key: u32) -> Vec<u8> {
    let number = key >> 8;
    [&[0][..], &number.to_le_bytes(), &key.to_le_bytes(), &key.to_le_bytes()].concat()
}

/// The ack of query device: 0, then 8 + 8 + 8 + 4 bytes, ten numbers of 4 bytes, and zeros, 128 bytes in all.
pub fn device_ack(memory_length: u64) -> Vec<u8> {
    let mut ack = vec![0];
    for number in [0, memory_length, 4096] {
        ack.extend(number.to_le_bytes());
    }
    for number in [1u32, 4, 4, 2, 4, 16, 256, 8, 1, 1, 0] {
        ack.extend(number.to_le_bytes());
    }
    ack.resize(129, 0);
    ack
}

/// The ack of query port: 0, then two numbers of 4 bytes and zeros, 32 bytes in all.
pub fn port_ack() -> Vec<u8> {
    let mut ack = vec![0];
    for number in [0u32, 4096] {
        ack.extend(number.to_le_bytes());
    }
    ack.resize(33, 0);
    ack
}
