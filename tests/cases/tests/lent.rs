//! The checks of lent lengths and lent states, each on the reference and, where it is linked, on the proved library.

use cards::{Card, Reference};
use cases::lent;

fn cards() -> Vec<&'static dyn Card> {
    [Some(&Reference as &dyn Card), cards::proved()].into_iter().flatten().collect()
}

macro_rules! on_every_card {
    ($($name:ident),* $(,)?) => {
        $(
            #[test]
            fn $name() {
                cards().into_iter().for_each(lent::$name);
            }
        )*

        #[test]
        fn every_check_is_a_test() {
            assert_eq!(lent::CHECKS.map(|(name, _)| name), [$(stringify!($name)),*]);
        }
    };
}

on_every_card! {
    reset_takes_1_to_16777216,
    ack_needs_13_bytes,
    queries_need_129_or_33_bytes,
    queries_report_the_card,
    poll_needs_24_bytes,
    memory_has_the_reset_length,
    flushed_work_writes_its_completion_alone,
    a_pair_keeps_its_access_flags,
    numbers_past_the_tables_are_not_live,
    a_bad_state_comes_before_all_else,
    a_reset_mends_a_damaged_state,
    forged_but_acceptable_states,
    each_fault_is_found,
    retired_slots_are_passed_over,
    a_state_without_a_fault_is_taken,
    each_fault_of_a_paged_region_is_found,
    pages_past_the_need_are_not_looked_at,
    a_page_list_is_stored_by_numbers,
    a_queue_is_written_byte_for_byte,
    what_drops_a_queue_writes_its_head,
    each_fault_of_a_queue_is_found,
    empty_places_are_not_looked_at,
    a_queued_record_is_read_by_its_kind,
    forged_queues_are_served,
    queues_need_the_reset_length,
    a_refused_reset_leaves_the_card,
    each_slot_hands_out_255_keys,
    turns_are_fair,
}
