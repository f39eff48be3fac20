//! The tapes, cases and tests that a line of the trace names, on the wrong cards that break the line.

use crate::{compared, Named, ALL};
use cards::Card;

/// A line of the trace: its ID, and what it names under what notices it.
struct Line<'a> {
    id: &'a str,
    named: Vec<&'a str>,
    comparison: bool,
}

/// How many lines name something that notices none of their cards, or have a card that nothing they name notices.
pub(crate) fn check(file: &str, named: &[Named]) -> usize {
    let text = match std::fs::read_to_string(file) {
        Ok(text) => text,
        Err(error) => {
            println!("{file}: {error}");
            return 1;
        }
    };
    let lines: Vec<Line> = text.lines().filter_map(read).collect();
    let mut faults = Vec::new();
    let mut checked = 0;
    for line in &lines {
        let breaks = |list: &str| list.split(' ').any(|id| id == line.id);
        let cards: Vec<&'static dyn Card> = ALL.iter().filter(|(_, list)| breaks(list)).map(|(card, _)| *card).collect();
        checked += usize::from(!cards.is_empty());
        faults.extend(line.faults(&cards, named));
    }
    for id in ALL.iter().flat_map(|(_, list)| list.split(' ')).filter(|id| !id.is_empty()) {
        if !lines.iter().any(|line| line.id == id) {
            faults.push(format!("a wrong card breaks {id}, which is no line"));
        }
    }
    faults.iter().for_each(|fault| println!("{fault}"));
    println!("{} lines, {checked} of them with wrong cards, {} faults", lines.len(), faults.len());
    faults.len()
}

/// The words `tape`, `case` and `test` with their names, and whether the comparison is named; None if it is no line of the trace.
fn read(text: &str) -> Option<Line<'_>> {
    let cells: Vec<&str> = text.strip_prefix("| ")?.strip_suffix(" |")?.split(" | ").collect();
    let (id, noticed) = match cells[..] {
        [id, _, _, _, noticed] if id.contains('-') => (id, noticed),
        _ => return None,
    };
    let mut line = Line { id, named: Vec::new(), comparison: false };
    for item in noticed.split("; ") {
        line.comparison |= item == "the comparison";
        if ["tape ", "case ", "test "].iter().any(|word| item.starts_with(word)) {
            line.named.extend(item.split('`').skip(1).step_by(2));
        }
    }
    Some(line)
}

impl Line<'_> {
    fn faults(&self, cards: &[&'static dyn Card], named: &[Named]) -> Vec<String> {
        let mut faults = Vec::new();
        if cards.is_empty() {
            return faults;
        }
        let ours: Vec<&Named> = named.iter().filter(|named| self.named.contains(&&*named.name)).collect();
        for card in cards {
            let noticed = ours.iter().any(|named| named.fails(*card)) || self.comparison && compared(*card).is_some();
            if !noticed {
                faults.push(format!("{}: nothing that it names notices '{}'", self.id, card.name()));
            }
        }
        for name in &self.named {
            let notices = ours.iter().any(|named| named.name == *name && cards.iter().any(|card| named.fails(*card)));
            if !notices {
                faults.push(format!("{}: {name} notices none of its wrong cards", self.id));
            }
        }
        faults
    }
}
