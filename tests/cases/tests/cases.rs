//! The named cases, on the reference and, where it is linked, on the proved library.

use cards::Card;
use std::collections::HashSet;

fn run_all(card: &dyn Card) {
    let failures: Vec<String> = cases::all().iter().filter_map(|case| cases::run(case, card).err()).collect();
    assert!(failures.is_empty(), "{} on {}:\n{}", failures.len(), card.name(), failures.join("\n"));
}

#[test]
fn every_linked_card_gives_the_answers_of_the_paper() {
    run_all(&cards::Reference);
    if let Some(card) = cards::proved() {
        run_all(card);
    }
}

#[test]
fn names_are_unique() {
    let mut seen = HashSet::new();
    for case in cases::all() {
        assert!(seen.insert(case.name.clone()), "{} twice", case.name);
    }
    assert!(seen.len() >= 100);
}
