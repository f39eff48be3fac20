//! The C functions of the proved library. Everything that a change of their names or arguments touches is in this file.

/// The library's nine calls (libengine.a, include/lesungkap.h).
#[cfg(has_engine)]
pub mod engine {
    extern "C" {
        pub fn lesungkap_reset(state: *mut u8, state_len: usize, memory_len: u64) -> u32;
        pub fn lesungkap_control(
            state: *mut u8,
            state_len: usize,
            command: *const u8,
            command_len: usize,
            ack: *mut u8,
            ack_len: usize,
        ) -> u32;
        pub fn lesungkap_register_pages(
            state: *mut u8,
            state_len: usize,
            command: *const u8,
            command_len: usize,
            pages: *const u64,
            pages_len: usize,
            ack: *mut u8,
            ack_len: usize,
        ) -> u32;
        pub fn lesungkap_post_send(
            state: *mut u8,
            state_len: usize,
            memory: *mut u8,
            memory_len: usize,
            qpn: u32,
            record: *const u8,
            record_len: usize,
        ) -> u32;
        pub fn lesungkap_enqueue(
            state: *mut u8,
            state_len: usize,
            memory: *const u8,
            memory_len: usize,
            qpn: u32,
            record: *const u8,
            record_len: usize,
        ) -> u32;
        pub fn lesungkap_turn(state: *mut u8, state_len: usize, memory: *mut u8, memory_len: usize) -> u32;
        pub fn lesungkap_post_receive(state: *mut u8, state_len: usize, qpn: u32, record: *const u8, record_len: usize) -> u32;
        pub fn lesungkap_flush(state: *mut u8, state_len: usize, qpn: u32) -> u32;
        pub fn lesungkap_poll(state: *mut u8, state_len: usize, cqn: u32, buffer: *mut u8, buffer_len: usize) -> u32;
    }
}
