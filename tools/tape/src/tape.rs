//! Records of a tape, read one after another, with the place of each for messages.

use std::fs::File;
use std::io::{self, BufReader, Read};

/// What a tape's header looks like: two mark bytes, two bytes of its own, a length of 16 bits.
pub struct Header {
    pub mark: [u8; 2],
    /// Why a header is bad, if it is.
    pub fault: fn(first: u8, length: usize) -> Option<&'static str>,
}

/// One record: the two bytes after the mark, and the body.
#[derive(PartialEq, Eq)]
pub struct Record {
    pub first: u8,
    pub second: u8,
    pub body: Vec<u8>,
}

pub struct Tape {
    name: String,
    input: Box<dyn Read>,
    header: Header,
    at: u64,
    records: u64,
}

const HEADER_BYTES: usize = 6;

impl Tape {
    /// A tape by its file's name; `-` is standard input.
    pub fn open(name: &str, header: Header) -> Result<Tape, String> {
        let (name, input): (&str, Box<dyn Read>) = match name {
            "-" => ("standard input", Box::new(io::stdin())),
            _ => (name, Box::new(File::open(name).map_err(|error| format!("{name}: {error}"))?)),
        };
        Ok(Tape { name: name.into(), input: Box::new(BufReader::new(input)), header, at: 0, records: 0 })
    }

    /// How many records were taken.
    pub fn records(&self) -> u64 {
        self.records
    }

    /// A message about the record that comes next.
    fn fault(&self, reason: &str) -> String {
        format!("{}: record {} at byte {}: {reason}", self.name, self.records, self.at)
    }

    /// The next record; None at the tape's end.
    pub fn next(&mut self) -> Result<Option<Record>, String> {
        let header = self.read(HEADER_BYTES)?;
        match header.len() {
            0 => return Ok(None),
            HEADER_BYTES => {}
            _ => return Err(self.fault("cut header")),
        }
        if header[..2] != self.header.mark {
            return Err(self.fault("bad mark"));
        }
        let length = usize::from(u16::from_le_bytes([header[4], header[5]]));
        if let Some(reason) = (self.header.fault)(header[2], length) {
            return Err(self.fault(reason));
        }
        let body = self.read(length)?;
        if body.len() < length {
            return Err(self.fault("cut body"));
        }
        self.at += (HEADER_BYTES + length) as u64;
        self.records += 1;
        Ok(Some(Record { first: header[2], second: header[3], body }))
    }

    /// That many bytes, or those before the end.
    fn read(&mut self, length: usize) -> Result<Vec<u8>, String> {
        let mut bytes = Vec::with_capacity(length);
        let read = self.input.by_ref().take(length as u64).read_to_end(&mut bytes);
        read.map_err(|error| format!("{}: {error}", self.name))?;
        Ok(bytes)
    }
}

pub fn number(bytes: &[u8], at: usize, width: usize) -> u64 {
    bytes[at..at + width].iter().rev().fold(0, |number, &byte| number << 8 | u64::from(byte))
}

pub fn hex(bytes: &[u8]) -> String {
    const SHOWN: usize = 16;
    let text: Vec<String> = bytes.iter().take(SHOWN).map(|byte| format!("{byte:02x}")).collect();
    let more = if bytes.len() > SHOWN { " .." } else { "" };
    format!("{} bytes {}{more}", bytes.len(), text.join(" "))
}

/// The names of the bits that are set.
pub fn bits(value: u64, names: &[&str]) -> String {
    let set: Vec<&str> = names.iter().enumerate().filter(|(n, _)| value >> n & 1 == 1).map(|(_, name)| *name).collect();
    if set.is_empty() {
        "none".into()
    } else {
        set.join("+")
    }
}
