//! The numbers that the specification and the proved code give names to, read out of their text.
//!
//! `Limits.pd_count` is a number of a `.antt` file (its name without the ending, then the definition's), `limits.RTS` a constant of a `.rt`
//! file. Of a layout, `Records.send_codec.size` is its length and `Records.send_codec.opcode` the offset of a field. A definition by cases
//! over a number, `cond (eqb k 2) Kind.Send ..`, gives `Tape.kind_of.Kind.Send` = 2; a row, `row_of (register g) = record { number = 7; .. }`,
//! `Commands.row_of.register.number` = 7. `Tape.is_mark[2]` is the third literal in the text of a definition, counted from 0.

use std::collections::HashMap;
use std::fs;
use std::path::Path;

#[derive(Clone, Default)]
pub struct Specs {
    /// None where two definitions of one name differ.
    numbers: HashMap<String, Option<u64>>,
    /// Expressions that are not evaluated yet, with the file that they stand in.
    pending: Vec<(String, String, Vec<String>)>,
}

impl Specs {
    /// Every `.antt` file of specs/ and `.rt` file of src/ below `crates`.
    pub fn read(crates: &Path) -> Result<Specs, String> {
        let mut specs = Specs::default();
        for folder in entries(crates)? {
            for (part, ending) in [("specs", "antt"), ("src", "rt")] {
                let part = folder.join(part);
                let files = if part.is_dir() { entries(&part)? } else { vec![] };
                for file in files.iter().filter(|file| file.extension().map_or(false, |found| found == ending)) {
                    let stem = file.file_stem().unwrap_or_default().to_string_lossy().into_owned();
                    let text = fs::read_to_string(file).map_err(|error| format!("{}: {error}", file.display()))?;
                    specs.file(&stem, &text, ending);
                }
            }
        }
        specs.settle();
        Ok(specs)
    }

    pub fn get(&self, name: &str) -> Option<u64> {
        self.numbers.get(name).copied().flatten()
    }

    pub fn names(&self) -> impl Iterator<Item = &str> {
        self.numbers.keys().map(String::as_str)
    }

    pub fn set(&mut self, name: &str, value: u64) {
        self.numbers.insert(name.into(), Some(value));
    }

    fn add(&mut self, name: String, value: u64) {
        let known = self.numbers.entry(name).or_insert(Some(value));
        if *known != Some(value) {
            *known = None;
        }
    }

    fn file(&mut self, stem: &str, text: &str, ending: &str) {
        let text: Vec<&str> = text.lines().filter(|line| !line.trim().starts_with("--") && !line.starts_with("//")).collect();
        for block in text.split(|line| line.trim().is_empty()) {
            match ending {
                "rt" => self.constants(stem, block),
                _ => self.definition(stem, block),
            }
        }
    }

    /// `const NAME: TYPE = EXPRESSION;`, also `pub`.
    fn constants(&mut self, stem: &str, block: &[&str]) {
        for line in block {
            let line = line.strip_prefix("pub ").unwrap_or(line);
            if let Some((name, rest)) = line.strip_prefix("const ").and_then(|line| line.split_once(": ")) {
                if let Some((_, value)) = rest.split_once(" = ") {
                    self.pending.push((stem.into(), name.into(), tokens(value.trim_end_matches(';'))));
                }
            }
        }
    }

    /// A signature and the clauses below it, which begin with the name.
    fn definition(&mut self, stem: &str, block: &[&str]) {
        let signature = block.iter().position(|line| line.contains(" : ") && line.contains("pub "));
        let name = signature.and_then(|at| block[at].split(" : ").next()?.split(' ').next_back());
        if let (Some(at), Some(name)) = (signature, name) {
            let body = tokens(&block[at + 1..].join(" "));
            self.literals(&format!("{stem}.{name}"), &body);
            self.cases(&format!("{stem}.{name}"), &body);
            self.rows(&format!("{stem}.{name}"), name, &body);
            self.layout(stem, name, &body);
            if body.len() > 2 && body[0] == name && body[1] == "=" {
                self.pending.push((stem.into(), name.into(), body[2..].to_vec()));
            }
        }
    }

    fn literals(&mut self, name: &str, body: &[String]) {
        for (n, value) in body.iter().filter_map(|token| literal(token)).enumerate() {
            self.add(format!("{name}[{n}]"), value);
        }
    }

    /// `cond ( eqb n NUMBER ) NAME ..`, where the name may stand behind `some`, with a parenthesis or without.
    fn cases(&mut self, name: &str, body: &[String]) {
        for at in (0..body.len()).filter(|&at| body[at] == "eqb" && at + 4 < body.len()) {
            let case = body[at + 4..].iter().find(|token| !["some", "("].contains(&token.as_str()));
            if let (Some(number), ")", Some(case)) = (literal(&body[at + 2]), &*body[at + 3], case) {
                self.add(format!("{name}.{case}"), number);
            }
        }
    }

    /// Clauses `NAME CASE = record { FIELD = NUMBER; .. }`, where the case may have arguments and stand in parentheses.
    fn rows(&mut self, full: &str, name: &str, body: &[String]) {
        for at in (0..body.len()).filter(|&at| body[at] == name) {
            let case = body[at + 1..].iter().find(|token| *token != "(");
            let row = body[at + 1..].iter().take_while(|token| *token != name && *token != "}").collect::<Vec<_>>();
            let is_record = row.windows(2).any(|pair| pair[0] == "=" && pair[1] == "record");
            for part in row.windows(3).filter(|part| is_record && part[1] == "=") {
                if let (Some(case), Some(value)) = (case, literal(part[2])) {
                    self.add(format!("{full}.{case}.{}", part[0]), value);
                }
            }
        }
    }

    /// `record { size = SIZE; lines = line OFFSET WIDTH (λ r. r.NAME) ..`, also `(λ d. (of d).NAME)`; the field's name stands last in its parentheses.
    fn layout(&mut self, stem: &str, name: &str, body: &[String]) {
        for part in body.windows(3).filter(|part| part[0] == "size" && part[1] == "=") {
            if let Some(size) = literal(&part[2]) {
                self.add(format!("{stem}.{name}.size"), size);
            }
        }
        for at in (0..body.len()).filter(|&at| body[at] == "line" && body.get(at + 3).map_or(false, |next| next == "(")) {
            let last = inside(&body[at + 3..]).last().and_then(|token| token.rsplit_once('.'));
            if let (Some(offset), Some((_, field))) = (literal(&body[at + 1]), last) {
                self.add(format!("{stem}.{name}.{field}"), offset);
            }
        }
    }

    /// Evaluates what was read, as often as something new is known.
    fn settle(&mut self) {
        let mut before = usize::MAX;
        while self.pending.len() < before {
            before = self.pending.len();
            for (stem, name, expression) in std::mem::take(&mut self.pending) {
                match self.sum(&stem, &expression) {
                    Some(value) => self.add(format!("{stem}.{name}"), value),
                    None => self.pending.push((stem, name, expression)),
                }
            }
        }
    }

    /// The value of an expression of numbers and names with + - * ^ and parentheses.
    pub fn value(&self, expression: &str) -> Option<u64> {
        self.sum("", &tokens(expression))
    }

    fn sum(&self, stem: &str, expression: &[String]) -> Option<u64> {
        for signs in [&["+", "-"][..], &["*"], &["^"]] {
            let mut depth = 0;
            for at in (0..expression.len()).rev() {
                match expression[at].as_str() {
                    ")" => depth += 1,
                    "(" => depth -= 1,
                    sign if depth == 0 && signs.contains(&sign) => {
                        let (left, right) = (self.sum(stem, &expression[..at])?, self.sum(stem, &expression[at + 1..])?);
                        return match sign {
                            "+" => left.checked_add(right),
                            "-" => left.checked_sub(right),
                            "*" => left.checked_mul(right),
                            _ => left.checked_pow(u32::try_from(right).ok()?),
                        };
                    }
                    _ => {}
                }
            }
        }
        match expression {
            [open, inner @ .., close] if open == "(" && close == ")" => self.sum(stem, inner),
            [one] => literal(one)
                .or_else(|| self.get(&format!("{stem}.{one}")))
                .or_else(|| self.get(one))
                .or_else(|| self.anywhere(one)),
            _ => None,
        }
    }

    /// A name that another file defines, where all that define it agree.
    fn anywhere(&self, name: &str) -> Option<u64> {
        let ending = format!(".{name}");
        let mut found = self.numbers.iter().filter(|(known, _)| known.ends_with(&ending) && known.matches('.').count() == 1);
        let (_, &value) = found.next()?;
        found.all(|(_, &other)| other == value).then_some(())?;
        value
    }
}

fn entries(folder: &Path) -> Result<Vec<std::path::PathBuf>, String> {
    let read = fs::read_dir(folder).map_err(|error| format!("{}: {error}", folder.display()))?;
    let mut paths: Vec<_> = read.filter_map(|entry| Some(entry.ok()?.path())).collect();
    paths.sort();
    Ok(paths)
}

/// Words, and each sign and bracket by itself.
fn tokens(text: &str) -> Vec<String> {
    let mut spaced = String::new();
    for sign in text.chars() {
        match sign {
            '(' | ')' | ';' | '{' | '}' | ',' => spaced.extend([' ', sign, ' ']),
            _ => spaced.push(sign),
        }
    }
    spaced.split_whitespace().map(String::from).collect()
}

/// What stands in the parentheses that the first word opens.
fn inside(body: &[String]) -> &[String] {
    let mut depth = 0;
    for (at, token) in body.iter().enumerate() {
        match token.as_str() {
            "(" => depth += 1,
            ")" if depth == 1 => return &body[1..at],
            ")" => depth -= 1,
            _ => {}
        }
    }
    &[]
}

fn literal(token: &str) -> Option<u64> {
    let plain = token.replace('_', "");
    match plain.strip_prefix("0x") {
        Some(digits) => u64::from_str_radix(digits, 16).ok(),
        None if plain.starts_with(|first: char| first.is_ascii_digit()) => plain.parse().ok(),
        None => None,
    }
}
