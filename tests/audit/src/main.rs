//! Holds an audit program to what it must print over every tape of a folder. The number is counted here, by the place of the first byte
//! that differs from the reference's replay.
//!
//! usage: audits files PROGRAM FOLDER WORK     answers as they are due, changed, cut, extended, without a record; tapes swapped
//!        audits pieces PROGRAM FOLDER WORK    both tapes through named pipes in odd pieces
//!        audits failing PROGRAM CALLS ANSWERS reads that fail, of tapes that agree and are both longer than 65,536 bytes
//!
//! WORK is a folder to write to.

mod changes;
mod failing;
mod pipes;

use reference::replay::replay;
use std::fs;
use std::io;
use std::path::{Path, PathBuf};
use std::process::{Command, ExitCode};

fn main() -> ExitCode {
    let words: Vec<String> = std::env::args().skip(1).collect();
    let words: Vec<&str> = words.iter().map(String::as_str).collect();
    let result = match words[..] {
        ["files", program, folder, work] => over_files(program, Path::new(folder), Path::new(work)),
        ["pieces", program, folder, work] => over_pipes(program, Path::new(folder), Path::new(work)),
        ["failing", program, calls, answers] => over_failures(program, calls, answers),
        _ => {
            eprintln!("usage: audits files|pieces PROGRAM FOLDER WORK, audits failing PROGRAM CALLS ANSWERS");
            return ExitCode::from(2);
        }
    };
    match result {
        // No tape is no test.
        Ok((runs, 0)) if runs > 0 => ExitCode::SUCCESS,
        Ok(_) => ExitCode::FAILURE,
        Err(error) => {
            eprintln!("audits: {error}");
            ExitCode::FAILURE
        }
    }
}

/// What must be printed of two tapes.
fn verdict(calls: &[u8], answers: &[u8]) -> String {
    let due = replay(calls);
    if due == answers {
        return "agrees\n".to_string();
    }
    let place = due.iter().zip(answers).position(|(a, b)| a != b).unwrap_or(due.len().min(answers.len()));
    format!("{}\n", ends(&due).iter().filter(|&&end| end <= place).count())
}

/// Where each answer record ends.
fn ends(answers: &[u8]) -> Vec<usize> {
    let mut ends = Vec::new();
    let mut at = 0;
    while at < answers.len() {
        at += 6 + usize::from(answers[at + 4]) + 256 * usize::from(answers[at + 5]);
        ends.push(at);
    }
    ends
}

/// The tapes of calls in a folder, by name.
fn tapes(folder: &Path) -> io::Result<Vec<PathBuf>> {
    let mut tapes = Vec::new();
    for entry in fs::read_dir(folder)? {
        let path = entry?.path();
        if path.extension().map_or(false, |extension| extension == "tape") {
            tapes.push(path);
        }
    }
    tapes.sort();
    Ok(tapes)
}

/// Counts the runs, and those that print something else than they must.
fn over_files(program: &str, folder: &Path, work: &Path) -> io::Result<(usize, usize)> {
    let (calls_file, answers_file) = (work.join("calls"), work.join("answers"));
    let (mut runs, mut wrong) = (0, 0);
    for path in tapes(folder)? {
        let calls = fs::read(&path)?;
        let due = fs::read(path.with_extension("out"))?;
        for (what, calls, answers) in changes::all(&calls, &due, &ends(&due)) {
            fs::write(&calls_file, &calls)?;
            fs::write(&answers_file, &answers)?;
            let output = Command::new(program).arg(&calls_file).arg(&answers_file).output()?;
            let (said, wanted) = (String::from_utf8_lossy(&output.stdout).into_owned(), verdict(&calls, &answers));
            runs += 1;
            if said != wanted {
                println!("DIFFERS {}, {what}: {said:?} for {wanted:?}", path.display());
                wrong += 1;
            }
        }
    }
    println!("{runs} audits, {wrong} wrong");
    Ok((runs, wrong))
}

fn over_pipes(program: &str, folder: &Path, work: &Path) -> io::Result<(usize, usize)> {
    let (mut runs, mut wrong) = (0, 0);
    for path in tapes(folder)? {
        let calls = fs::read(&path)?;
        let due = fs::read(path.with_extension("out"))?;
        for answers in [due.clone(), changes::cut(&due)] {
            for lengths in pipes::ways(calls.len()) {
                let said = pipes::audit(program, work, (&calls, &answers), lengths)?;
                let wanted = verdict(&calls, &answers);
                runs += 1;
                if said != wanted {
                    println!("DIFFERS {} in pieces of {lengths:?}: {said:?} for {wanted:?}", path.display());
                    wrong += 1;
                }
            }
        }
    }
    println!("{runs} audits, {wrong} wrong");
    Ok((runs, wrong))
}

/// Nothing is printed where a read fails before the verdict; a read that is not made can't fail.
fn over_failures(program: &str, calls: &str, answers: &str) -> io::Result<(usize, usize)> {
    use failing::{ANSWERS, AT_ONCE, CALLS, IN_THE_MIDDLE, NEVER};
    failing::close_others();
    let runs = [
        ("calls, never", [calls, answers], CALLS, NEVER, "agrees\n"),
        ("answers, never", [calls, answers], ANSWERS, NEVER, "agrees\n"),
        ("calls, at once", [calls, answers], CALLS, AT_ONCE, ""),
        ("answers, at once", [calls, answers], ANSWERS, AT_ONCE, ""),
        ("calls, in the middle", [calls, answers], CALLS, IN_THE_MIDDLE, ""),
        ("answers, in the middle", [calls, answers], ANSWERS, IN_THE_MIDDLE, ""),
        ("calls, behind the verdict", [calls, calls], CALLS, IN_THE_MIDDLE, "0\n"),
        ("answers, behind the verdict", [calls, calls], ANSWERS, IN_THE_MIDDLE, "0\n"),
    ];
    let mut wrong = 0;
    for (what, files, fd, lengths, wanted) in &runs {
        let said = failing::audit(program, *files, *fd, lengths.clone())?;
        if said != *wanted {
            println!("DIFFERS {what}: {said:?} for {wanted:?}");
            wrong += 1;
        }
    }
    println!("{} audits, {wrong} wrong", runs.len());
    Ok((runs.len(), wrong))
}
