//! Writes the replay tapes with the answers that the reference gives, or checks that the folder holds exactly these. AUDIT is the folder of
//! the audit program, which the gate runs over one of the tapes.
//!
//! usage: make_tapes FOLDER AUDIT
//!        make_tapes --check FOLDER AUDIT

mod coverage;
mod mixed;

use coverage::Coverage;
use reference::replay::replay;
use std::collections::BTreeMap;
use std::fs;
use std::io;
use std::path::{Path, PathBuf};
use std::process::ExitCode;

fn main() -> ExitCode {
    let words: Vec<String> = std::env::args().skip(1).collect();
    let words: Vec<&str> = words.iter().map(String::as_str).collect();
    let (check, folder, audit) = match words[..] {
        ["--check", folder, audit] => (true, Path::new(folder), Path::new(audit)),
        [folder, audit] => (false, Path::new(folder), Path::new(audit)),
        _ => {
            eprintln!("usage: make_tapes [--check] FOLDER AUDIT");
            return ExitCode::from(2);
        }
    };
    let tapes = tapes();
    let mut coverage = Coverage::default();
    for (tape, output) in tapes.values() {
        coverage.count(tape, output);
    }
    let missing = coverage.report();
    let differing = if check { differing_files(folder, audit, &tapes) } else { write_files(folder, audit, &tapes) };
    match differing {
        Ok(0) if missing == 0 => {
            println!("{} tapes {}", tapes.len(), if check { "as generated" } else { "written" });
            ExitCode::SUCCESS
        }
        Ok(count) => {
            println!("{count} files differ, {missing} answers or statuses never seen");
            ExitCode::FAILURE
        }
        Err(error) => {
            println!("{}: {error}", folder.display());
            ExitCode::FAILURE
        }
    }
}

/// Every tape by name, with its answers.
fn tapes() -> BTreeMap<String, (Vec<u8>, Vec<u8>)> {
    let named = cases::all().into_iter().filter_map(|case| Some((case.name.clone(), case.tape()?)));
    named.chain(mixed::tapes()).map(|(name, tape)| (name, (tape.clone(), replay(&tape)))).collect()
}

type Tapes = BTreeMap<String, (Vec<u8>, Vec<u8>)>;

/// What the gate runs the audit program on, and what it must print: a tape that is longer than what the program holds of one, with its answers, of
/// which a bit of the last but one is another.
fn audit_files(audit: &Path, tapes: &Tapes) -> [(PathBuf, Vec<u8>); 3] {
    let (calls, answers) = &tapes["mixed-1"];
    let starts = starts(answers);
    let changed = starts.len() - 2;
    let mut answers = answers.clone();
    answers[starts[changed] + 2] ^= 1;
    let data = audit.join("data");
    [
        (data.join("calls.tape"), calls.clone()),
        (data.join("answers.tape"), answers),
        (audit.join("stdout"), format!("{changed}\n").into_bytes()),
    ]
}

/// Where each answer record starts.
fn starts(answers: &[u8]) -> Vec<usize> {
    let mut starts = Vec::new();
    let mut at = 0;
    while at < answers.len() {
        starts.push(at);
        at += 6 + usize::from(answers[at + 4]) + 256 * usize::from(answers[at + 5]);
    }
    starts
}

fn write_files(folder: &Path, audit: &Path, tapes: &Tapes) -> io::Result<usize> {
    fs::create_dir_all(folder)?;
    fs::create_dir_all(audit.join("data"))?;
    for (file, bytes) in audit_files(audit, tapes) {
        fs::write(file, bytes)?;
    }
    for (name, (tape, output)) in tapes {
        fs::write(folder.join(format!("{name}.tape")), tape)?;
        fs::write(folder.join(format!("{name}.out")), output)?;
    }
    Ok(0)
}

/// How many files are missing, differ or are too many.
fn differing_files(folder: &Path, audit: &Path, tapes: &Tapes) -> io::Result<usize> {
    let mut differing = 0;
    let mut say = |name: &str| {
        println!("DIFFERS {name}");
        differing += 1;
    };
    for (name, (tape, output)) in tapes {
        for (file, bytes) in [(format!("{name}.tape"), tape), (format!("{name}.out"), output)] {
            if fs::read(folder.join(&file)).ok().as_ref() != Some(bytes) {
                say(&file);
            }
        }
    }
    for (file, bytes) in audit_files(audit, tapes) {
        if fs::read(&file).ok() != Some(bytes) {
            say(&file.display().to_string());
        }
    }
    for entry in fs::read_dir(folder)? {
        let file = entry?.file_name().to_string_lossy().into_owned();
        let name = file.strip_suffix(".tape").or(file.strip_suffix(".out"));
        if !name.map_or(false, |name| tapes.contains_key(name)) {
            say(&file);
        }
    }
    Ok(differing)
}
