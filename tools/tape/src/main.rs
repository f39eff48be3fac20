//! Shows a replay tape as text, a line per record, and says in its last line whether its calls and answers agree. Tapes are read as they
//! are shown, and never held whole.
//!
//! A file that cannot be read or is no good tape is told in one line on standard error, and the exit status is 1; so it is where the
//! tapes do not agree.

mod answers;
mod calls;
mod tape;

use std::io::{self, BufWriter, ErrorKind, Write};
use std::process::ExitCode;
use tape::{Record, Tape};

const NUMBERS: &str = include_str!("../../../include/lesungkap_numbers.h");

const HELP: &str = "\
usage: lesungkap-tape [CALLS [ANSWERS [REPLAYED]]]

Shows the calls of a replay tape, a line for each, with their answers where that tape is given too. A name - is standard input, and so is
no name. With ANSWERS the last line says whether there is one answer of the right form for each call; with REPLAYED, the answers that
lesungkap-replay gives to the same calls, whether they are the same, and if not where they first differ.

Exit status: 0; or 1 where the tapes do not agree, a file cannot be read or is no good tape.
";

/// Why the showing ends before the tapes do.
enum End {
    /// The tapes do not agree.
    Differ(String),
    /// A tape cannot be read.
    Fault(String),
    /// Nobody reads what is shown.
    Closed,
}

impl From<String> for End {
    fn from(message: String) -> End {
        End::Fault(message)
    }
}

impl From<io::Error> for End {
    fn from(error: io::Error) -> End {
        match error.kind() {
            ErrorKind::BrokenPipe => End::Closed,
            _ => End::Fault(format!("standard output: {error}")),
        }
    }
}

fn main() -> ExitCode {
    let words: Vec<String> = std::env::args().skip(1).collect();
    let mut out = BufWriter::new(io::stdout());
    match run(&words, &mut out).and_then(|()| Ok(out.flush()?)) {
        Ok(()) | Err(End::Closed) => ExitCode::SUCCESS,
        Err(End::Differ(message)) => {
            // The pipe may be closed; the status tells it too.
            let _ = writeln!(out, "Calls and answers do not agree: {message}").and_then(|()| out.flush());
            ExitCode::FAILURE
        }
        Err(End::Fault(message)) => {
            let _ = out.flush();
            eprintln!("lesungkap-tape: {message}");
            ExitCode::FAILURE
        }
    }
}

/// The version of the header, to which a tape belongs.
fn version() -> &'static str {
    let after = NUMBERS.split("#define LESUNGKAP_VERSION \"").nth(1);
    after.and_then(|rest| rest.split('"').next()).unwrap_or("")
}

fn run(words: &[String], out: &mut impl Write) -> Result<(), End> {
    if words.iter().any(|word| word == "--help") {
        return Ok(out.write_all(HELP.as_bytes())?);
    }
    if words.iter().any(|word| word == "--version") {
        return Ok(writeln!(out, "lesungkap-tape {}", version())?);
    }
    let is_option = |word: &String| word.starts_with('-') && word != "-";
    if words.len() > 3 || words.iter().any(is_option) || words.iter().filter(|word| *word == "-").count() > 1 {
        return Err(End::Fault("usage: lesungkap-tape [CALLS [ANSWERS [REPLAYED]]]; at most one of them is -".into()));
    }
    let open_answers = |n: usize| words.get(n).map(|name| Tape::open(name, answers::HEADER)).transpose();
    let tapes = Tapes {
        calls: Tape::open(words.first().map_or("-", String::as_str), calls::HEADER)?,
        answers: open_answers(1)?,
        replayed: open_answers(2)?,
    };
    tapes.show(out)
}

struct Tapes {
    calls: Tape,
    answers: Option<Tape>,
    replayed: Option<Tape>,
}

impl Tapes {
    fn show(mut self, out: &mut impl Write) -> Result<(), End> {
        while let Some(call) = self.calls.next()? {
            let number = self.calls.records() - 1;
            let answer = next_answer(&mut self.answers)?;
            let said = answer.as_ref().map_or(String::new(), |answer| format!("  ->  {}", answers::describe(&call, answer)));
            writeln!(out, "{number:>5}  {}{said}", calls::describe(&call))?;
            if self.answers.is_some() {
                fits(number, &call, answer.as_ref())?;
            }
            if self.replayed.is_some() && next_answer(&mut self.replayed)? != answer {
                return Err(End::Differ(format!("record {number} is answered otherwise by the replay")));
            }
        }
        let count = self.calls.records();
        for tape in [&mut self.answers, &mut self.replayed] {
            if next_answer(tape)?.is_some() {
                return Err(End::Differ(format!("there is an answer {count}, and no call for it")));
            }
        }
        match (self.answers, self.replayed) {
            (None, _) => writeln!(out, "{count} calls.")?,
            (Some(_), None) => writeln!(out, "{count} calls, {count} answers: they agree in number and form.")?,
            (Some(_), Some(_)) => writeln!(out, "{count} calls, {count} answers: they agree with the replay.")?,
        }
        Ok(())
    }
}

fn next_answer(tape: &mut Option<Tape>) -> Result<Option<Record>, String> {
    tape.as_mut().map_or(Ok(None), Tape::next)
}

/// Whether a call has an answer, of the form that its kind asks for.
fn fits(number: u64, call: &Record, answer: Option<&Record>) -> Result<(), End> {
    match answer {
        None => Err(End::Differ(format!("record {number} has no answer"))),
        Some(answer) if !answers::fits(call, answer) => {
            Err(End::Differ(format!("record {number} has an answer of another form")))
        }
        Some(_) => Ok(()),
    }
}
