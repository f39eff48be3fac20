//! Two tapes through named pipes, in pieces. A piece is written when the program has read all before it, so that its reads end inside
//! headers, inside bodies and between records.

use std::fs::{self, File, OpenOptions};
use std::io::{self, Read, Write};
use std::os::raw::{c_int, c_ulong};
use std::os::unix::fs::OpenOptionsExt;
use std::os::unix::io::AsRawFd;
use std::path::{Path, PathBuf};
use std::process::{Command, Stdio};
use std::sync::atomic::{AtomicBool, Ordering};
use std::sync::Arc;
use std::thread;

const O_NONBLOCK: i32 = 0o4000;

/// Lengths of the pieces in turn, for a tape of so many bytes.
pub fn ways(length: usize) -> Vec<&'static [usize]> {
    let mut ways: Vec<&[usize]> = vec![&[5, 1, 7, 2, 641, 3, 64]];
    if length <= 200 {
        ways.push(&[1]);
    }
    ways
}

/// What the program prints of the tapes.
pub fn audit(program: &str, work: &Path, tapes: (&[u8], &[u8]), lengths: &'static [usize]) -> io::Result<String> {
    let pipes = [pipe(work, "calls.pipe")?, pipe(work, "answers.pipe")?];
    let mut child = Command::new(program).args(&pipes).stdout(Stdio::piped()).spawn()?;
    let ended = Arc::new(AtomicBool::new(false));
    let writers: Vec<_> = [tapes.0, tapes.1]
        .into_iter()
        .zip(&pipes)
        .map(|(tape, pipe)| {
            let (tape, pipe, ended) = (tape.to_vec(), pipe.clone(), ended.clone());
            thread::spawn(move || feed(&pipe, &tape, lengths, &ended))
        })
        .collect();
    let status = child.wait();
    ended.store(true, Ordering::Relaxed);
    // A writer that still waits for a reader is let go.
    for pipe in &pipes {
        OpenOptions::new().read(true).custom_flags(O_NONBLOCK).open(pipe)?;
    }
    for writer in writers {
        writer.join().expect("no panic")?;
    }
    status?;
    let mut said = String::new();
    child.stdout.take().expect("a pipe").read_to_string(&mut said)?;
    Ok(said)
}

fn pipe(work: &Path, name: &str) -> io::Result<PathBuf> {
    let path = work.join(name);
    let _ = fs::remove_file(&path);
    let made = Command::new("mkfifo").arg(&path).status()?;
    if made.success() {
        Ok(path)
    } else {
        Err(io::Error::new(io::ErrorKind::Other, "mkfifo failed"))
    }
}

/// Writes the tape piece by piece. A program that has its verdict reads no more.
fn feed(pipe: &Path, tape: &[u8], lengths: &[usize], ended: &AtomicBool) -> io::Result<()> {
    let mut file = OpenOptions::new().write(true).open(pipe)?;
    let mut rest = tape;
    for length in lengths.iter().cycle() {
        if rest.is_empty() || !wait_until_read(&file, ended)? {
            break;
        }
        let (piece, later) = rest.split_at((*length).min(rest.len()));
        if file.write_all(piece).is_err() {
            break;
        }
        rest = later;
    }
    Ok(())
}

/// Waits until the pipe is empty; false if the program ended before.
fn wait_until_read(file: &File, ended: &AtomicBool) -> io::Result<bool> {
    while unread(file)? > 0 {
        if ended.load(Ordering::Relaxed) {
            return Ok(false);
        }
        thread::yield_now();
    }
    Ok(true)
}

/// How many bytes stand in the pipe.
fn unread(file: &File) -> io::Result<c_int> {
    extern "C" {
        fn ioctl(fd: c_int, request: c_ulong, ...) -> c_int;
    }
    const FIONREAD: c_ulong = 0x541b;
    let mut count: c_int = 0;
    // SAFETY: FIONREAD writes one int to where its argument points.
    match unsafe { ioctl(file.as_raw_fd(), FIONREAD, &mut count as *mut c_int) } {
        0 => Ok(count),
        _ => Err(io::Error::last_os_error()),
    }
}
