//! Reads that fail. A filter of the kernel's (seccomp), which the program inherits, answers EIO to reads of one descriptor that ask for some
//! number of bytes: the first read of a tape asks for 65,536, a later one, with bytes still held, for fewer.

use std::io;
use std::ops::RangeInclusive;
use std::os::raw::{c_int, c_ulong};
use std::os::unix::process::CommandExt;
use std::process::Command;

pub const AT_ONCE: RangeInclusive<u32> = 65536..=65536;
pub const IN_THE_MIDDLE: RangeInclusive<u32> = 4097..=65535;
pub const NEVER: RangeInclusive<u32> = 65537..=65537;

/// The descriptors that the program gets, where none but the first three is open.
pub const CALLS: u32 = 3;
pub const ANSWERS: u32 = 4;

#[cfg(target_arch = "x86_64")]
const READ: u32 = 0;
#[cfg(not(target_arch = "x86_64"))]
const READ: u32 = 63;

const EIO: u32 = 5;
const PR_SET_SECCOMP: c_int = 22;
const PR_SET_NO_NEW_PRIVS: c_int = 38;
const SECCOMP_MODE_FILTER: c_ulong = 2;
const ALLOW: u32 = 0x7fff_0000;
const ERRNO: u32 = 0x0005_0000;

// Classic BPF: load a word of the call's number and arguments, jump by a comparison, return.
const LOAD: u16 = 0x20;
const EQUAL: u16 = 0x15;
const ABOVE: u16 = 0x25;
const AT_LEAST: u16 = 0x35;
const RETURN: u16 = 0x06;
const NUMBER: u32 = 0;
const FIRST_ARGUMENT: u32 = 16;
const THIRD_ARGUMENT: u32 = 32;

#[repr(C)]
struct Instruction {
    code: u16,
    yes: u8,
    no: u8,
    value: u32,
}

#[repr(C)]
struct Program {
    length: u16,
    instructions: *const Instruction,
}

extern "C" {
    fn prctl(option: c_int, ...) -> c_int;
    fn close(fd: c_int) -> c_int;
}

/// Closes what a caller left open, so that the program's descriptors are known.
pub fn close_others() {
    for fd in 3..1024 {
        // SAFETY: this process has opened none of them.
        unsafe { close(fd) };
    }
}

/// What the program prints where the reads of that descriptor fail that ask for so many bytes.
pub fn audit(program: &str, files: [&str; 2], fd: u32, lengths: RangeInclusive<u32>) -> io::Result<String> {
    let (least, most) = lengths.into_inner();
    let step = |code, yes, no, value| Instruction { code, yes, no, value };
    let filter = [
        step(LOAD, 0, 0, NUMBER),
        step(EQUAL, 0, 6, READ),
        step(LOAD, 0, 0, FIRST_ARGUMENT),
        step(EQUAL, 0, 4, fd),
        step(LOAD, 0, 0, THIRD_ARGUMENT),
        step(AT_LEAST, 0, 2, least),
        step(ABOVE, 1, 0, most),
        step(RETURN, 0, 0, ERRNO | EIO),
        step(RETURN, 0, 0, ALLOW),
    ];
    let mut command = Command::new(program);
    command.args(files);
    // SAFETY: the child makes two system calls with memory of its own.
    unsafe {
        command.pre_exec(move || {
            let filter = Program { length: filter.len() as u16, instructions: filter.as_ptr() };
            let (one, none): (c_ulong, c_ulong) = (1, 0);
            if prctl(PR_SET_NO_NEW_PRIVS, one, none, none, none) != 0
                || prctl(PR_SET_SECCOMP, SECCOMP_MODE_FILTER, &filter, none, none) != 0
            {
                return Err(io::Error::last_os_error());
            }
            Ok(())
        });
    }
    Ok(String::from_utf8_lossy(&command.output()?.stdout).into_owned())
}
