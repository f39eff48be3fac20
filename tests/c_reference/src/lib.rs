//! The reference under the names of the C header, so that C programs can run on it.

#![warn(unsafe_op_in_unsafe_fn)]

use std::slice;

/// # Safety
/// The pointer and length are those of a buffer that nothing else uses during the call.
unsafe fn lent<'a>(bytes: *mut u8, length: usize) -> &'a mut [u8] {
    if length == 0 {
        &mut []
    } else {
        unsafe { slice::from_raw_parts_mut(bytes, length) }
    }
}

/// # Safety
/// The pointer and length are those of a buffer that nothing else writes during the call.
unsafe fn read<'a, T>(bytes: *const T, length: usize) -> &'a [T] {
    if length == 0 {
        &[]
    } else {
        unsafe { slice::from_raw_parts(bytes, length) }
    }
}

/// # Safety
/// As include/lesungkap.h says.
#[no_mangle]
pub unsafe extern "C" fn lesungkap_reset(state: *mut u8, state_len: usize, memory_len: u64) -> u32 {
    reference::reset(unsafe { lent(state, state_len) }, memory_len).to_bits()
}

/// # Safety
/// As include/lesungkap.h says.
#[no_mangle]
pub unsafe extern "C" fn lesungkap_control(
    state: *mut u8,
    state_len: usize,
    command: *const u8,
    command_len: usize,
    ack: *mut u8,
    ack_len: usize,
) -> u32 {
    let (state, command, ack) = unsafe { (lent(state, state_len), read(command, command_len), lent(ack, ack_len)) };
    reference::control(state, command, ack).to_bits()
}

/// # Safety
/// As include/lesungkap.h says.
#[no_mangle]
pub unsafe extern "C" fn lesungkap_register_pages(
    state: *mut u8,
    state_len: usize,
    command: *const u8,
    command_len: usize,
    pages: *const u64,
    pages_len: usize,
    ack: *mut u8,
    ack_len: usize,
) -> u32 {
    let (state, ack) = unsafe { (lent(state, state_len), lent(ack, ack_len)) };
    let (command, pages) = unsafe { (read(command, command_len), read(pages, pages_len)) };
    reference::register_pages(state, command, pages, ack).to_bits()
}

/// # Safety
/// As include/lesungkap.h says.
#[no_mangle]
pub unsafe extern "C" fn lesungkap_post_send(
    state: *mut u8,
    state_len: usize,
    memory: *mut u8,
    memory_len: usize,
    qpn: u32,
    record: *const u8,
    record_len: usize,
) -> u32 {
    let (state, memory, record) = unsafe { (lent(state, state_len), lent(memory, memory_len), read(record, record_len)) };
    reference::post_send(state, memory, qpn, record).to_bits()
}

/// # Safety
/// As include/lesungkap.h says.
#[no_mangle]
pub unsafe extern "C" fn lesungkap_enqueue(
    state: *mut u8,
    state_len: usize,
    memory: *const u8,
    memory_len: usize,
    qpn: u32,
    record: *const u8,
    record_len: usize,
) -> u32 {
    let (state, memory, record) = unsafe { (lent(state, state_len), read(memory, memory_len), read(record, record_len)) };
    reference::enqueue(state, memory, qpn, record).to_bits()
}

/// # Safety
/// As include/lesungkap.h says.
#[no_mangle]
pub unsafe extern "C" fn lesungkap_turn(state: *mut u8, state_len: usize, memory: *mut u8, memory_len: usize) -> u32 {
    let (state, memory) = unsafe { (lent(state, state_len), lent(memory, memory_len)) };
    reference::turn(state, memory).to_bits()
}

/// # Safety
/// As include/lesungkap.h says.
#[no_mangle]
pub unsafe extern "C" fn lesungkap_post_receive(
    state: *mut u8,
    state_len: usize,
    qpn: u32,
    record: *const u8,
    record_len: usize,
) -> u32 {
    let (state, record) = unsafe { (lent(state, state_len), read(record, record_len)) };
    reference::post_receive(state, qpn, record).to_bits()
}

/// # Safety
/// As include/lesungkap.h says.
#[no_mangle]
pub unsafe extern "C" fn lesungkap_flush(state: *mut u8, state_len: usize, qpn: u32) -> u32 {
    reference::flush(unsafe { lent(state, state_len) }, qpn).to_bits()
}

/// # Safety
/// As include/lesungkap.h says.
#[no_mangle]
pub unsafe extern "C" fn lesungkap_poll(state: *mut u8, state_len: usize, cqn: u32, buffer: *mut u8, buffer_len: usize) -> u32 {
    let (state, buffer) = unsafe { (lent(state, state_len), lent(buffer, buffer_len)) };
    reference::poll(state, cqn, buffer).to_bits()
}
