//! Feeds every tape of a folder to a replay program in odd pieces. A piece is written when the program has read all before it, so that
//! its reads end inside headers, inside bodies and between records. What it writes must be the tape's answers.
//!
//! usage: pieces PROGRAM FOLDER

use std::fs;
use std::io::{self, Read, Write};
use std::os::raw::{c_int, c_ulong};
use std::os::unix::io::AsRawFd;
use std::path::{Path, PathBuf};
use std::process::{Child, ChildStdin, Command, ExitCode, Stdio};
use std::thread;

/// Lengths of the pieces in turn, and the longest tape that is fed so.
const WAYS: [(&[usize], usize); 3] = [(&[1], 700), (&[3], 1000), (&[5, 1, 7, 2, 641, 3, 64], usize::MAX)];

fn main() -> ExitCode {
    let words: Vec<String> = std::env::args().skip(1).collect();
    if words.len() != 2 {
        eprintln!("usage: pieces PROGRAM FOLDER");
        return ExitCode::from(2);
    }
    match feed_all(&words[0], Path::new(&words[1])) {
        Ok(0) => ExitCode::SUCCESS,
        Ok(_) => ExitCode::FAILURE,
        Err(error) => {
            eprintln!("pieces: {} on {}: {error}", words[0], words[1]);
            ExitCode::FAILURE
        }
    }
}

/// How many tapes get other answers.
fn feed_all(program: &str, folder: &Path) -> io::Result<usize> {
    let mut tapes: Vec<PathBuf> = fs::read_dir(folder)?.map(|entry| entry.map(|entry| entry.path())).collect::<Result<_, _>>()?;
    tapes.retain(|path| path.extension().map_or(false, |extension| extension == "tape"));
    tapes.sort();
    let (mut fed, mut pieces, mut differing) = (0, 0, 0);
    for path in &tapes {
        let (tape, wanted) = (fs::read(path)?, fs::read(path.with_extension("out"))?);
        for (lengths, _) in WAYS.iter().filter(|(_, most)| tape.len() <= *most) {
            let (written, count) = replay(program, &tape, lengths)?;
            fed += 1;
            pieces += count;
            if written != wanted {
                println!("DIFFERS {} in pieces of {lengths:?}", path.display());
                differing += 1;
            }
        }
    }
    println!("{} tapes fed {fed} times in {pieces} pieces, {differing} with other answers", tapes.len());
    // No tape is no test.
    Ok(if tapes.is_empty() { 1 } else { differing })
}

/// What the program writes, and how many pieces it took.
fn replay(program: &str, tape: &[u8], lengths: &[usize]) -> io::Result<(Vec<u8>, usize)> {
    let mut child = Command::new(program).stdin(Stdio::piped()).stdout(Stdio::piped()).spawn()?;
    let mut input = child.stdin.take().expect("a pipe");
    let mut output = child.stdout.take().expect("a pipe");
    let reader = thread::spawn(move || {
        let mut bytes = Vec::new();
        output.read_to_end(&mut bytes).map(|_| bytes)
    });
    let (mut rest, mut pieces) = (tape, 0);
    while !rest.is_empty() && wait_until_read(&mut child, &input)? {
        let (piece, later) = rest.split_at(lengths[pieces % lengths.len()].min(rest.len()));
        // A program that ended at a bad record reads no more.
        if input.write_all(piece).is_err() {
            break;
        }
        rest = later;
        pieces += 1;
    }
    drop(input);
    let bytes = reader.join().expect("no panic")?;
    child.wait()?;
    Ok((bytes, pieces))
}

/// Waits until the pipe is empty; false if the program ended before.
fn wait_until_read(child: &mut Child, input: &ChildStdin) -> io::Result<bool> {
    let mut turns = 0u32;
    while unread(input)? > 0 {
        turns += 1;
        if turns % 64 == 0 && child.try_wait()?.is_some() {
            return Ok(false);
        }
        thread::yield_now();
    }
    Ok(true)
}

/// How many bytes stand in the pipe.
fn unread(input: &ChildStdin) -> io::Result<c_int> {
    extern "C" {
        fn ioctl(fd: c_int, request: c_ulong, ...) -> c_int;
    }
    const FIONREAD: c_ulong = 0x541b;
    let mut count: c_int = 0;
    // SAFETY: FIONREAD writes one int to where its argument points.
    match unsafe { ioctl(input.as_raw_fd(), FIONREAD, &mut count as *mut c_int) } {
        0 => Ok(count),
        _ => Err(io::Error::last_os_error()),
    }
}
