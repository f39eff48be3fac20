//! The header's structs as C lays them out, and its functions (wrap.c).

use reference::layout::{MOST_PIECES, MOST_RECEIVE_PIECES};
use std::collections::BTreeMap;
use std::ffi::CStr;
use std::fmt::Debug;
use std::mem::{size_of, MaybeUninit};
use std::os::raw::{c_char, c_uint, c_ulonglong};

/// A struct with its put and its get.
pub trait Record: Copy + Debug + PartialEq {
    const NAME: &'static str;
    /// How many bytes it took; 0 if it was not written.
    fn put(&self, bytes: &mut [u8]) -> usize;
    /// The struct, or the answer why not.
    fn get(bytes: &[u8]) -> Result<Self, u32>;
    fn size_in_c() -> usize;
    /// The fields that do not depend on where the record stands.
    fn values(self) -> Self {
        self
    }
}

macro_rules! structs {
    ($($type:ident { $($field:ident: $width:ty),* } $name:literal $size:ident $put:ident $get:ident $($pointer:ident)?;)*) => {
        $(
            #[repr(C)]
            #[derive(Clone, Copy, Debug, PartialEq, Eq)]
            pub struct $type { $(pub $field: $width),* }

            impl Record for $type {
                const NAME: &'static str = $name;

                fn put(&self, bytes: &mut [u8]) -> usize {
                    // SAFETY: pointer and length are those of one slice; `self` has C's layout.
                    unsafe { $put(bytes.as_mut_ptr(), bytes.len(), self) }
                }

                fn get(bytes: &[u8]) -> Result<$type, u32> {
                    // SAFETY: pointer and length are those of one slice.
                    got(|read| unsafe { $get(bytes.as_ptr(), bytes.len(), read) })
                }

                fn size_in_c() -> usize {
                    unsafe { $size() }
                }

                $(
                    fn values(mut self) -> $type {
                        self.$pointer = std::ptr::null();
                        self
                    }
                )?
            }
        )*

        extern "C" {
            $(
                fn $size() -> usize;
                fn $put(bytes: *mut u8, length: usize, x: *const $type) -> usize;
                fn $get(bytes: *const u8, length: usize, x: *mut $type) -> c_uint;
            )*
        }
    };
}

structs! {
    Sge { address: u64, length: u32, key: u32 } "sge" wrap_size_sge wrap_put_sge wrap_get_sge;
    Send { wr_id: u64, opcode: u8, flags: u8, immediate: u32, remote_address: u64, remote_key: u32, count: u32, sges: [Sge; MOST_PIECES],
        inline_bytes: *const u8 } "send" wrap_size_send wrap_put_send wrap_get_send inline_bytes;
    Receive { wr_id: u64, count: u32, sges: [Sge; MOST_RECEIVE_PIECES] } "receive" wrap_size_receive wrap_put_receive wrap_get_receive;
    Completion { wr_id: u64, status: u8, opcode: u8, byte_length: u32, immediate: u32, qpn: u32 }
        "completion" wrap_size_completion wrap_put_completion wrap_get_completion;
    CreateCq { places: u32 } "create CQ" wrap_size_create_cq wrap_put_create_cq wrap_get_create_cq;
    DestroyCq { cqn: u32 } "destroy CQ" wrap_size_destroy_cq wrap_put_destroy_cq wrap_get_destroy_cq;
    DestroyPd { pdn: u32 } "destroy PD" wrap_size_destroy_pd wrap_put_destroy_pd wrap_get_destroy_pd;
    RegisterMr { pdn: u32, access: u32, start: u64, length: u64, virt: u64 }
        "register MR" wrap_size_register_mr wrap_put_register_mr wrap_get_register_mr;
    DeregisterMr { mrn: u32 } "deregister MR" wrap_size_deregister_mr wrap_put_deregister_mr wrap_get_deregister_mr;
    CreateQp { pdn: u32, kind: u8, signal: u8, send_cqn: u32, receive_cqn: u32 }
        "create QP" wrap_size_create_qp wrap_put_create_qp wrap_get_create_qp;
    ModifyQp { qpn: u32, mask: u32, state: u8, zero: [u8; 3], destination: u32, access_flags: u32 }
        "modify QP" wrap_size_modify_qp wrap_put_modify_qp wrap_get_modify_qp;
    DestroyQp { qpn: u32 } "destroy QP" wrap_size_destroy_qp wrap_put_destroy_qp wrap_get_destroy_qp;
    CreateCqAck { cqn: u32 } "ack of create CQ" wrap_size_create_cq_ack wrap_put_create_cq_ack wrap_get_create_cq_ack;
    CreatePdAck { pdn: u32 } "ack of create PD" wrap_size_create_pd_ack wrap_put_create_pd_ack wrap_get_create_pd_ack;
    CreateQpAck { qpn: u32 } "ack of create QP" wrap_size_create_qp_ack wrap_put_create_qp_ack wrap_get_create_qp_ack;
    RegisterMrAck { mrn: u32, lkey: u32, rkey: u32 }
        "ack of register MR" wrap_size_register_mr_ack wrap_put_register_mr_ack wrap_get_register_mr_ack;
    QueryDeviceAck { device_cap_flags: u64, max_mr_size: u64, page_size_cap: u64, hw_ver: u32, limits: [u32; 10], local_ca_ack_delay: u8 }
        "ack of query device" wrap_size_query_device_ack wrap_put_query_device_ack wrap_get_query_device_ack;
    QueryPortAck { gid_tbl_len: u32, max_msg_sz: u32 }
        "ack of query port" wrap_size_query_port_ack wrap_put_query_port_ack wrap_get_query_port_ack;
}

/// Commands without data.
macro_rules! bare {
    ($($type:ident $name:literal $put:ident $get:ident;)*) => {
        $(
            #[derive(Clone, Copy, Debug, PartialEq, Eq)]
            pub struct $type;

            impl Record for $type {
                const NAME: &'static str = $name;

                fn put(&self, bytes: &mut [u8]) -> usize {
                    // SAFETY: pointer and length are those of one slice.
                    unsafe { $put(bytes.as_mut_ptr(), bytes.len()) }
                }

                fn get(bytes: &[u8]) -> Result<$type, u32> {
                    // SAFETY: pointer and length are those of one slice.
                    match unsafe { $get(bytes.as_ptr(), bytes.len()) } {
                        0 => Ok($type),
                        answer => Err(answer),
                    }
                }

                fn size_in_c() -> usize {
                    0
                }
            }
        )*

        extern "C" {
            $(
                fn $put(bytes: *mut u8, length: usize) -> usize;
                fn $get(bytes: *const u8, length: usize) -> c_uint;
            )*
        }
    };
}

bare! {
    QueryDevice "query device" wrap_put_query_device wrap_get_query_device;
    QueryPort "query port" wrap_put_query_port wrap_get_query_port;
    CreatePd "create PD" wrap_put_create_pd wrap_get_create_pd;
}

/// An ack that carries nothing: put writes OK.
#[derive(Clone, Copy, Debug, PartialEq, Eq)]
pub struct EmptyAck;

impl Record for EmptyAck {
    const NAME: &'static str = "empty ack";

    fn put(&self, bytes: &mut [u8]) -> usize {
        unsafe { wrap_put_ack(bytes.as_mut_ptr(), bytes.len(), 0) }
    }

    fn get(bytes: &[u8]) -> Result<EmptyAck, u32> {
        match unsafe { wrap_get_ack(bytes.as_ptr(), bytes.len()) } {
            0 => Ok(EmptyAck),
            answer => Err(answer),
        }
    }

    fn size_in_c() -> usize {
        0
    }
}

// ---- peeks

#[repr(C)]
#[derive(Clone, Copy, Debug, Default, PartialEq, Eq)]
pub struct Cq {
    pub places: u8,
    pub unread: u8,
}

#[repr(C)]
#[derive(Clone, Copy, Debug, Default, PartialEq, Eq)]
pub struct Mr {
    pub pdn: u32,
    pub access: u32,
    pub key: u32,
    pub kind: u8,
    pub pages: u8,
    pub start: u64,
    pub length: u64,
    pub virt: u64,
}

#[repr(C)]
#[derive(Clone, Copy, Debug, Default, PartialEq, Eq)]
pub struct Qp {
    pub pdn: u32,
    pub signal: u8,
    pub send_cqn: u32,
    pub receive_cqn: u32,
    pub state: u8,
    pub destination: u32,
    pub access_flags: u8,
    pub waiting: u8,
    pub queued: u8,
}

#[repr(C)]
struct Number {
    name: *const c_char,
    value: c_ulonglong,
}

extern "C" {
    fn wrap_ack_need(command: *const u8, length: usize) -> usize;
    fn wrap_put_ack(bytes: *mut u8, length: usize, ack: u8) -> usize;
    fn wrap_get_ack(bytes: *const u8, length: usize) -> c_uint;
    fn wrap_size_cq() -> usize;
    fn wrap_size_mr() -> usize;
    fn wrap_size_qp() -> usize;
    fn wrap_peek_memory(state: *const u8, length: usize, memory: *mut u64) -> c_uint;
    fn wrap_peek_turn(state: *const u8, length: usize, qpn: *mut u32) -> c_uint;
    fn wrap_peek_pd(state: *const u8, length: usize, pdn: u32) -> c_uint;
    fn wrap_peek_cq(state: *const u8, length: usize, cqn: u32, cq: *mut Cq) -> c_uint;
    fn wrap_peek_mr(state: *const u8, length: usize, mrn: u32, mr: *mut Mr) -> c_uint;
    fn wrap_peek_page(state: *const u8, length: usize, mrn: u32, index: u32, page: *mut u64) -> c_uint;
    fn wrap_peek_qp(state: *const u8, length: usize, qpn: u32, qp: *mut Qp) -> c_uint;
    fn wrap_peek_completion(state: *const u8, length: usize, cqn: u32, index: u32, completion: *mut Completion) -> c_uint;
    fn wrap_peek_receive(state: *const u8, length: usize, qpn: u32, index: u32, receive: *mut Receive) -> c_uint;
    fn wrap_peek_send(state: *const u8, length: usize, qpn: u32, index: u32, send: *mut Send) -> c_uint;
    static wrap_numbers: [Number; 0];
    static wrap_number_count: usize;
}

/// The sizes of the peeked structs in C and here.
pub fn peeked_sizes() -> [(&'static str, usize, usize); 3] {
    unsafe {
        [
            ("cq", wrap_size_cq(), size_of::<Cq>()),
            ("mr", wrap_size_mr(), size_of::<Mr>()),
            ("qp", wrap_size_qp(), size_of::<Qp>()),
        ]
    }
}

/// What a get or a peek wrote into a struct that held something else; on another answer than 0 that must still be there.
fn got<T>(get: impl Fn(*mut T) -> c_uint) -> Result<T, u32> {
    const LEFT: u8 = 0xa5;
    let mut read = MaybeUninit::<T>::uninit();
    // SAFETY: any bytes are a value of every struct here.
    unsafe { read.as_mut_ptr().write_bytes(LEFT, 1) };
    match get(read.as_mut_ptr()) {
        0 => Ok(unsafe { read.assume_init() }),
        answer => {
            let left = unsafe { std::slice::from_raw_parts(read.as_ptr().cast::<u8>(), size_of::<T>()) };
            assert!(left.iter().all(|&byte| byte == LEFT), "answer {answer} leaves the struct as it was");
            Err(answer)
        }
    }
}

// SAFETY of each peek: pointer and length are those of one slice.

pub fn peek_memory(state: &[u8]) -> Result<u64, u32> {
    got(|memory| unsafe { wrap_peek_memory(state.as_ptr(), state.len(), memory) })
}

pub fn peek_turn(state: &[u8]) -> Result<u32, u32> {
    got(|qpn| unsafe { wrap_peek_turn(state.as_ptr(), state.len(), qpn) })
}

pub fn peek_pd(state: &[u8], pdn: u32) -> Result<(), u32> {
    got(|_: *mut ()| unsafe { wrap_peek_pd(state.as_ptr(), state.len(), pdn) })
}

pub fn peek_cq(state: &[u8], cqn: u32) -> Result<Cq, u32> {
    got(|cq| unsafe { wrap_peek_cq(state.as_ptr(), state.len(), cqn, cq) })
}

pub fn peek_mr(state: &[u8], mrn: u32) -> Result<Mr, u32> {
    got(|mr| unsafe { wrap_peek_mr(state.as_ptr(), state.len(), mrn, mr) })
}

pub fn peek_page(state: &[u8], mrn: u32, index: u32) -> Result<u64, u32> {
    got(|page| unsafe { wrap_peek_page(state.as_ptr(), state.len(), mrn, index, page) })
}

pub fn peek_qp(state: &[u8], qpn: u32) -> Result<Qp, u32> {
    got(|qp| unsafe { wrap_peek_qp(state.as_ptr(), state.len(), qpn, qp) })
}

pub fn peek_completion(state: &[u8], cqn: u32, index: u32) -> Result<Completion, u32> {
    got(|completion| unsafe { wrap_peek_completion(state.as_ptr(), state.len(), cqn, index, completion) })
}

pub fn peek_receive(state: &[u8], qpn: u32, index: u32) -> Result<Receive, u32> {
    got(|receive| unsafe { wrap_peek_receive(state.as_ptr(), state.len(), qpn, index, receive) })
}

/// The queued send, and its inline bytes if it has the flag.
pub fn peek_send(state: &[u8], qpn: u32, index: u32) -> Result<(Send, Option<Vec<u8>>), u32> {
    let send: Send = got(|send| unsafe { wrap_peek_send(state.as_ptr(), state.len(), qpn, index, send) })?;
    // SAFETY: the bytes are part of the state, which lives on.
    let inline = |at: *const u8| unsafe { std::slice::from_raw_parts(at, send.count as usize) }.to_vec();
    Ok((send, (!send.inline_bytes.is_null()).then(|| inline(send.inline_bytes))))
}

pub fn ack_need(command: &[u8]) -> usize {
    // SAFETY: pointer and length are those of one slice.
    unsafe { wrap_ack_need(command.as_ptr(), command.len()) }
}

/// Every number of the headers by name.
pub fn numbers() -> BTreeMap<String, u64> {
    // SAFETY: numbers.c has an array of this many rows, with text that ends in 0.
    let rows = unsafe { std::slice::from_raw_parts(wrap_numbers.as_ptr(), wrap_number_count) };
    rows.iter().map(|row| (unsafe { CStr::from_ptr(row.name) }.to_string_lossy().into_owned(), row.value)).collect()
}
