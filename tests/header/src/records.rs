//! Every put and get against the reference's readers and the tests' own writers, both ways.

use crate::c::{self, Record};
use cards::{build, Rng};
use reference::layout::{MOST_INLINE, MOST_PIECES, MOST_RECEIVE_PIECES};
use reference::query::{Device, Port, DEVICE_ACK_BYTES, PORT_ACK_BYTES};
use reference::record::{self, Command, Local, Piece, ReceiveRecord, Registration, SendRecord, INLINE, PIECE_BYTES};

const LEFT: u8 = 0xa5;

/// A record as the independent side writes and reads it.
struct Other<'a, T> {
    /// The bytes of the value.
    bytes: Vec<u8>,
    read: &'a dyn Fn(&[u8]) -> Result<T, u32>,
}

/// Compares put and get of one value; then get on bytes near it.
fn compare<T: Record>(rng: &mut Rng, value: T, other: Other<T>) {
    let whole = other.bytes.len();
    let mut buffer = vec![LEFT; whole + 5];
    assert_eq!(value.put(&mut buffer), whole, "put {}: {value:?}", T::NAME);
    assert_eq!(&buffer[..whole], &other.bytes[..], "put {}: {value:?}", T::NAME);
    assert_eq!(&buffer[whole..], [LEFT; 5], "put {} leaves later bytes", T::NAME);
    let read = T::get(&other.bytes);
    assert_eq!(read, (other.read)(&other.bytes), "get {}: {value:?}", T::NAME);
    assert!(read.map_or(true, |read| read.values() == value.values()), "get {} gives back {value:?}", T::NAME);
    let mut short = vec![LEFT; rng.index(whole)];
    assert_eq!(value.put(&mut short), 0, "put {} into {} bytes", T::NAME, short.len());
    assert!(short.iter().all(|&byte| byte == LEFT), "put {} that does not fit", T::NAME);
    let near = changed(rng, other.bytes);
    assert_eq!(T::get(&near), (other.read)(&near), "get {} of {near:x?}", T::NAME);
}

/// The bytes with some of them changed, or with more or fewer of them.
fn changed(rng: &mut Rng, mut bytes: Vec<u8>) -> Vec<u8> {
    for _ in 0..rng.index(4) {
        if !bytes.is_empty() {
            let at = rng.index(bytes.len());
            bytes[at] = rng.pick(&[0, 1, 2, 3, 4, 5, 8, 16, 0x80, 0xff]);
        }
    }
    match rng.below(4) {
        0 => bytes.truncate(rng.index(bytes.len() + 1)),
        1 => bytes.extend((0..rng.index(40)).map(|n| n as u8)),
        _ => {}
    }
    bytes
}

fn word32(rng: &mut Rng) -> u32 {
    match rng.below(4) {
        0 => rng.pick(&[0, 1, 7, 8, 255, 256, u32::MAX]),
        _ => rng.word() as u32,
    }
}

fn word64(rng: &mut Rng) -> u64 {
    match rng.below(4) {
        0 => rng.pick(&[0, 1, 4096, 1 << 32, u64::MAX]),
        _ => rng.word(),
    }
}

fn sge(rng: &mut Rng) -> c::Sge {
    c::Sge { address: word64(rng), length: word32(rng), key: word32(rng) }
}

const NO_SGE: c::Sge = c::Sge { address: 0, length: 0, key: 0 };

fn piece(sge: &c::Sge) -> Piece {
    build::piece(sge.address, sge.length, sge.key)
}

fn sge_of(piece: &Piece) -> c::Sge {
    c::Sge { address: piece.address, length: piece.length, key: piece.key }
}

pub fn sges(rng: &mut Rng) {
    let value = sge(rng);
    let mut bytes = vec![0; PIECE_BYTES];
    piece(&value).write(&mut bytes, 0);
    let read = |bytes: &[u8]| if bytes.len() < PIECE_BYTES { Err(1) } else { Ok(sge_of(&Piece::read(bytes, 0))) };
    compare(rng, value, Other { bytes, read: &read });
}

/// A send record; the inline bytes are compared apart, since get points to those of its own record.
pub fn sends(rng: &mut Rng) {
    let opcode = if rng.percent(90) { rng.below(5) as u8 } else { rng.word() as u8 };
    let flags = if rng.percent(90) { rng.below(16) as u8 } else { rng.word() as u8 };
    let mut inline = vec![0; rng.pick(&[0, 1, 4, 5, 511, MOST_INLINE])];
    rng.fill(&mut inline);
    let list: Vec<c::Sge> = (0..rng.index(MOST_PIECES + 1)).map(|_| sge(rng)).collect();
    let is_inline = flags & INLINE != 0;
    let mut sges = [NO_SGE; MOST_PIECES];
    if !is_inline {
        sges[..list.len()].copy_from_slice(&list);
    }
    let value = c::Send {
        wr_id: word64(rng),
        opcode,
        flags,
        immediate: word32(rng),
        remote_address: word64(rng),
        remote_key: word32(rng),
        count: if is_inline { inline.len() as u32 } else { list.len() as u32 },
        sges,
        inline_bytes: if is_inline { inline.as_ptr() } else { std::ptr::null() },
    };
    let written = build::Send {
        wr_id: value.wr_id,
        opcode,
        flags,
        immediate: value.immediate,
        address: value.remote_address,
        key: value.remote_key,
        pieces: list.iter().map(piece).collect(),
        inline,
    };
    compare(rng, value, Other { bytes: written.bytes(), read: &read_send });
}

/// The reference's reading as the header's struct.
fn read_send(bytes: &[u8]) -> Result<c::Send, u32> {
    let send = SendRecord::read(bytes).map_err(|refusal| refusal as u32)?;
    let (count, list, inline_bytes) = match send.local {
        Local::Inline(inline) => (inline.len(), vec![], inline.as_ptr()),
        Local::Pieces { pieces, count } => (count, pieces[..count].to_vec(), std::ptr::null()),
    };
    let mut sges = [NO_SGE; MOST_PIECES];
    for (sge, piece) in sges.iter_mut().zip(&list) {
        *sge = sge_of(piece);
    }
    Ok(c::Send {
        wr_id: send.wr_id,
        opcode: send.opcode,
        flags: send.flags,
        immediate: send.immediate,
        remote_address: send.address,
        remote_key: send.key,
        count: count as u32,
        sges,
        inline_bytes,
    })
}

/// More entries or inline bytes than a record holds, and inline bytes at NULL, are not written.
pub fn too_many(rng: &mut Rng) {
    let mut send = c::Send {
        wr_id: 1,
        opcode: 0,
        flags: 0,
        immediate: 0,
        remote_address: 0,
        remote_key: 0,
        count: rng.pick(&[MOST_PIECES as u32 + 1, 1 << 28, u32::MAX]),
        sges: [NO_SGE; MOST_PIECES],
        inline_bytes: std::ptr::null(),
    };
    let mut bytes = [LEFT; 4096];
    assert_eq!(send.put(&mut bytes), 0);
    send.flags = INLINE;
    send.count = rng.pick(&[MOST_INLINE as u32 + 1, 1 << 16, u32::MAX]);
    assert_eq!(send.put(&mut bytes), 0);
    send.count = 1 + rng.index(MOST_INLINE) as u32;
    assert_eq!(send.put(&mut bytes), 0, "inline bytes at NULL");
    let receive = c::Receive { wr_id: 1, count: rng.pick(&[3, 1 << 28, u32::MAX]), sges: [NO_SGE; MOST_RECEIVE_PIECES] };
    assert_eq!(receive.put(&mut bytes), 0);
    assert!(bytes.iter().all(|&byte| byte == LEFT));
}

pub fn receives(rng: &mut Rng) {
    let list: Vec<c::Sge> = (0..rng.index(MOST_RECEIVE_PIECES + 1)).map(|_| sge(rng)).collect();
    let mut sges = [NO_SGE; MOST_RECEIVE_PIECES];
    sges[..list.len()].copy_from_slice(&list);
    let value = c::Receive { wr_id: word64(rng), count: list.len() as u32, sges };
    let bytes = build::receive(value.wr_id, &list.iter().map(piece).collect::<Vec<_>>());
    compare(rng, value, Other { bytes, read: &read_receive });
}

fn read_receive(bytes: &[u8]) -> Result<c::Receive, u32> {
    let receive = ReceiveRecord::read(bytes).map_err(|refusal| refusal as u32)?;
    let sges = [sge_of(&receive.pieces[0]), sge_of(&receive.pieces[1])];
    Ok(c::Receive { wr_id: receive.wr_id, count: receive.count as u32, sges })
}

pub fn completions(rng: &mut Rng) {
    let value = c::Completion {
        wr_id: word64(rng),
        status: rng.word() as u8,
        opcode: rng.word() as u8,
        byte_length: word32(rng),
        immediate: word32(rng),
        qpn: word32(rng),
    };
    let mut bytes = vec![LEFT; 24];
    let other = record::Completion {
        wr_id: value.wr_id,
        status: value.status,
        opcode: value.opcode,
        length: value.byte_length,
        immediate: value.immediate,
        owner: value.qpn,
    };
    other.write(&mut bytes, 0);
    let read = |bytes: &[u8]| if bytes.len() < 24 { Err(1) } else { Ok(completion_of(&record::Completion::read(bytes, 0))) };
    compare(rng, value, Other { bytes, read: &read });
}

pub fn completion_of(other: &record::Completion) -> c::Completion {
    c::Completion {
        wr_id: other.wr_id,
        status: other.status,
        opcode: other.opcode,
        byte_length: other.length,
        immediate: other.immediate,
        qpn: other.owner,
    }
}

// ---- commands

/// A command: the reference reads it, where it is the one of this number.
fn command<T: Record>(rng: &mut Rng, value: T, bytes: Vec<u8>, of: &dyn Fn(Command) -> Option<T>) {
    let number = bytes[1];
    let read = |bytes: &[u8]| {
        if bytes.len() >= 2 && (bytes[0] != record::CONTROL_CLASS || bytes[1] != number) {
            return Err(13);
        }
        let command = Command::read(bytes).map_err(|refusal| refusal as u32)?;
        Ok(of(command).expect("the command of this number"))
    };
    compare(rng, value, Other { bytes, read: &read });
}

pub fn number_commands(rng: &mut Rng) {
    let n = word32(rng);
    command(rng, c::CreateCq { places: n }, build::create_queue(n), &|read| match read {
        Command::CreateQueue { places } => Some(c::CreateCq { places }),
        _ => None,
    });
    command(rng, c::DestroyCq { cqn: n }, build::destroy_queue(n), &|read| match read {
        Command::DestroyQueue { number } => Some(c::DestroyCq { cqn: number }),
        _ => None,
    });
    command(rng, c::QueryDevice, build::query_device(), &|read| match read {
        Command::QueryDevice => Some(c::QueryDevice),
        _ => None,
    });
    command(rng, c::QueryPort, build::query_port(), &|read| match read {
        Command::QueryPort => Some(c::QueryPort),
        _ => None,
    });
    command(rng, c::CreatePd, build::create_domain(), &|read| match read {
        Command::CreateDomain => Some(c::CreatePd),
        _ => None,
    });
    command(rng, c::DestroyPd { pdn: n }, build::destroy_domain(n), &|read| match read {
        Command::DestroyDomain { number } => Some(c::DestroyPd { pdn: number }),
        _ => None,
    });
    command(rng, c::DeregisterMr { mrn: n }, build::deregister(n), &|read| match read {
        Command::Deregister { number } => Some(c::DeregisterMr { mrn: number }),
        _ => None,
    });
    command(rng, c::DestroyQp { qpn: n }, build::destroy_pair(n), &|read| match read {
        Command::DestroyPair { number } => Some(c::DestroyQp { qpn: number }),
        _ => None,
    });
}

pub fn register(rng: &mut Rng) {
    let value =
        c::RegisterMr { pdn: word32(rng), access: word32(rng), start: word64(rng), length: word64(rng), virt: word64(rng) };
    let bytes = build::register(value.pdn, value.access, value.start, value.length, value.virt);
    command(rng, value, bytes, &|read| match read {
        Command::Register(Registration { domain, access, start, length, virt }) => {
            Some(c::RegisterMr { pdn: domain, access, start, length, virt })
        }
        _ => None,
    });
}

pub fn create_qp(rng: &mut Rng) {
    let (kind, signal) = (rng.word() as u8, rng.word() as u8);
    let value = c::CreateQp { pdn: word32(rng), kind, signal, send_cqn: word32(rng), receive_cqn: word32(rng) };
    let bytes = build::create_pair(value.pdn, kind, signal, value.send_cqn, value.receive_cqn);
    command(rng, value, bytes, &|read| match read {
        Command::CreatePair { domain, kind, signal, send_queue, receive_queue } => {
            Some(c::CreateQp { pdn: domain, kind, signal, send_cqn: send_queue, receive_cqn: receive_queue })
        }
        _ => None,
    });
}

pub fn modify_qp(rng: &mut Rng) {
    let zero = if rng.percent(50) { [0; 3] } else { [rng.word() as u8, rng.word() as u8, rng.word() as u8] };
    let (mask, state) = (word32(rng), rng.word() as u8);
    let value = c::ModifyQp { qpn: word32(rng), mask, state, zero, destination: word32(rng), access_flags: word32(rng) };
    let mut bytes = build::number_command(10, value.qpn);
    bytes.extend(value.mask.to_le_bytes());
    bytes.push(value.state);
    bytes.extend(zero);
    bytes.extend(value.destination.to_le_bytes());
    bytes.extend(value.access_flags.to_le_bytes());
    command(rng, value, bytes, &|read| match read {
        Command::ModifyPair { number, mask, state, padding, destination, access } => {
            Some(c::ModifyQp { qpn: number, mask, state, zero: padding, destination, access_flags: access })
        }
        _ => None,
    });
}

// ---- acks: "ack 0 is OK", then numbers of 32 bits

fn ack<T: Record>(rng: &mut Rng, value: T, numbers: &[u32], of: &dyn Fn(&[u32]) -> T) {
    let bytes: Vec<u8> = [0].into_iter().chain(numbers.iter().flat_map(|number| number.to_le_bytes())).collect();
    let whole = bytes.len();
    let read = |bytes: &[u8]| match bytes {
        _ if bytes.len() < whole => Err(1),
        [0, ..] => {
            let words = bytes[1..whole].chunks(4).map(|word| u32::from_le_bytes([word[0], word[1], word[2], word[3]]));
            Ok(of(&words.collect::<Vec<_>>()))
        }
        _ => Err(4),
    };
    compare(rng, value, Other { bytes, read: &read });
}

pub fn acks(rng: &mut Rng) {
    let [a, b, d] = [word32(rng), word32(rng), word32(rng)];
    ack(rng, c::EmptyAck, &[], &|_| c::EmptyAck);
    ack(rng, c::CreateCqAck { cqn: a }, &[a], &|read| c::CreateCqAck { cqn: read[0] });
    ack(rng, c::CreatePdAck { pdn: a }, &[a], &|read| c::CreatePdAck { pdn: read[0] });
    ack(rng, c::CreateQpAck { qpn: a }, &[a], &|read| c::CreateQpAck { qpn: read[0] });
    let keys = c::RegisterMrAck { mrn: a, lkey: b, rkey: d };
    ack(rng, keys, &[a, b, d], &|read| c::RegisterMrAck { mrn: read[0], lkey: read[1], rkey: read[2] });
}

/// The acks of the queries, on any values of their fields; a longer one is read, whatever its reserved bytes hold.
pub fn query_acks(rng: &mut Rng) {
    let device = Device {
        device_cap_flags: word64(rng),
        max_mr_size: word64(rng),
        page_size_cap: word64(rng),
        hw_ver: word32(rng),
        limits: [(); 10].map(|()| word32(rng)),
        local_ca_ack_delay: rng.word() as u8,
    };
    let mut bytes = vec![LEFT; DEVICE_ACK_BYTES];
    bytes[0] = 0;
    device.write(&mut bytes);
    let read = |bytes: &[u8]| Device::read(bytes).map(|read| device_of(&read)).map_err(|refusal| refusal as u32);
    compare(rng, device_of(&device), Other { bytes, read: &read });
    let port = Port { gid_tbl_len: word32(rng), max_msg_sz: word32(rng) };
    let mut bytes = vec![LEFT; PORT_ACK_BYTES];
    bytes[0] = 0;
    port.write(&mut bytes);
    let read = |bytes: &[u8]| Port::read(bytes).map(|read| port_of(&read)).map_err(|refusal| refusal as u32);
    compare(rng, port_of(&port), Other { bytes, read: &read });
}

fn device_of(device: &Device) -> c::QueryDeviceAck {
    c::QueryDeviceAck {
        device_cap_flags: device.device_cap_flags,
        max_mr_size: device.max_mr_size,
        page_size_cap: device.page_size_cap,
        hw_ver: device.hw_ver,
        limits: device.limits,
        local_ca_ack_delay: device.local_ca_ack_delay,
    }
}

fn port_of(port: &Port) -> c::QueryPortAck {
    c::QueryPortAck { gid_tbl_len: port.gid_tbl_len, max_msg_sz: port.max_msg_sz }
}

/// What an ack buffer needs, of any bytes.
pub fn ack_needs(rng: &mut Rng) {
    let mut command = vec![0; rng.index(4)];
    command.iter_mut().for_each(|byte| *byte = rng.pick(&[0, 1, 2, 5, 6, 6, 6, 7, 255]));
    assert_eq!(c::ack_need(&command), reference::ack_need(&command), "ack need of {command:?}");
}

/// The mirrored structs have C's sizes.
pub fn sizes() {
    fn one<T: Record>() {
        assert_eq!(T::size_in_c(), std::mem::size_of::<T>(), "size of {}", T::NAME);
    }
    one::<c::Sge>();
    one::<c::Send>();
    one::<c::Receive>();
    one::<c::Completion>();
    one::<c::CreateCq>();
    one::<c::DestroyCq>();
    one::<c::DestroyPd>();
    one::<c::RegisterMr>();
    one::<c::DeregisterMr>();
    one::<c::CreateQp>();
    one::<c::ModifyQp>();
    one::<c::DestroyQp>();
    one::<c::CreateCqAck>();
    one::<c::CreatePdAck>();
    one::<c::CreateQpAck>();
    one::<c::RegisterMrAck>();
    one::<c::QueryDeviceAck>();
    one::<c::QueryPortAck>();
    for (name, there, here) in c::peeked_sizes() {
        assert_eq!(there, here, "size of {name}");
    }
}
