//! A card that lacks a call says so.

use cards::Card;
use std::panic::catch_unwind;

struct Bare;

impl Card for Bare {
    fn name(&self) -> &'static str {
        "bare card"
    }
}

#[test]
fn a_missing_call_is_named() {
    let panic = catch_unwind(|| Bare.flush(&mut [], 0)).expect_err("a card without a flush");
    assert_eq!(panic.downcast_ref::<String>().map(String::as_str), Some("bare card has no flush"));
}
