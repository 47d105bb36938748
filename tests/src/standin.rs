//! The C interface and the programs `attach` and `trials` made from the reference solver, to try the tests on.
//!
//! They are under test where the variable STANDIN_FAULT is set. Its value plants one of the faults below, or none if it is empty.
//! With a fault planted, a good test run fails.

use std::collections::{BTreeMap, BTreeSet};
use std::io::{Read, Write};
use std::process::Command;
use std::sync::{Mutex, OnceLock};
use std::time::Duration;

use crate::answer::*;
use crate::area::{self, held_pairs, NOT_REACHED_MARK, REACHED_MARK, WAITING_MARK};
use crate::attach;
use crate::body::{combine, divided, End, Pair};
use crate::book::Book;
use crate::fast::{Index, Run};
use crate::followers;
use crate::layers;
use crate::list::{self, Tried, LIST_LINES_MAX, LIST_MAX};
use crate::page::{self, Line, Op, Page, LINES_MAX};
use crate::picks;
use crate::plain::{self, check_queries};
use crate::reach;
use crate::season;
use crate::small;
use crate::stalls::{half, shared_length, Stall, STALLS};
use crate::workspace;

/// The faults that can be planted, each with the words of the run that notices it and the case that does.
pub const FAULTS: &[(&str, &str, &str)] = &[
    // Read a page and show a line.
    (
        "line_number_from_zero",
        "quick only CASE",
        "row_09_condition_511_is_read_and_512_refused",
    ),
    (
        "line_not_set_to_zero_on_success",
        "quick only CASE",
        "row_01_two_rivals_plain_and_closed",
    ),
    (
        "place_not_set_to_zero_on_success",
        "quick only CASE",
        "row_01_two_rivals_plain_and_closed",
    ),
    (
        "place_left_for_other_refusals",
        "quick only CASE",
        "texts_have_their_stated_outcome",
    ),
    (
        "place_from_zero",
        "quick only CASE",
        "row_09_condition_511_is_read_and_512_refused",
    ),
    (
        "place_told_with_a_wrong_form",
        "quick only CASE",
        "texts_have_their_stated_outcome",
    ),
    (
        "low_above_high_at_the_low_field",
        "quick only CASE",
        "row_12_leading_zero_is_form_and_low_above_high_has_a_number_of_its_own",
    ),
    (
        "low_above_high_as_a_range",
        "quick only CASE",
        "row_12_leading_zero_is_form_and_low_above_high_has_a_number_of_its_own",
    ),
    (
        "weight_as_a_range",
        "quick only CASE",
        "texts_have_their_stated_outcome",
    ),
    ("rightmost_bad_field", "quick only CASE", "reader_limits"),
    (
        "grade_before_a_bad_condition",
        "quick only CASE",
        "texts_have_their_stated_outcome",
    ),
    (
        "area_written_past_used_length",
        "quick only CASE",
        "row_01_two_rivals_plain_and_closed",
    ),
    (
        "refused_read_writes_area",
        "quick only CASE",
        "row_09_condition_511_is_read_and_512_refused",
    ),
    (
        "leading_zero_accepted",
        "quick only CASE",
        "row_12_leading_zero_is_form_and_low_above_high_has_a_number_of_its_own",
    ),
    (
        "carriage_return_accepted",
        "quick only CASE",
        "texts_have_their_stated_outcome",
    ),
    (
        "unended_page_accepted",
        "quick only CASE",
        "texts_have_their_stated_outcome",
    ),
    (
        "second_head_line_accepted",
        "quick only CASE",
        "row_11_line_1025_is_read_and_1026_refused_however_it_looks",
    ),
    (
        "range_before_form",
        "quick only CASE",
        "texts_have_their_stated_outcome",
    ),
    (
        "line_1026_judged_by_its_form",
        "quick only CASE",
        "row_11_line_1025_is_read_and_1026_refused_however_it_looks",
    ),
    (
        "short_area_before_bad_line",
        "quick only CASE",
        "reader_agrees_on_spoilt_pages",
    ),
    (
        "text_of_65535_bytes_too_long",
        "quick only CASE",
        "long_texts_have_their_stated_outcome",
    ),
    (
        "last_unended_line_not_shown",
        "quick only CASE",
        "lines_are_shown_as_stated",
    ),
    (
        "show_number_cut_to_32_bits",
        "quick only CASE",
        "show_line_agrees_on_any_bytes",
    ),
    (
        "condition_300_refused_at_301_conditions",
        "only CASE",
        "both_sides_of_every_range_of_a_text_at_every_top_and_count",
    ),
    // Soundness.
    (
        "literal_range_unchecked",
        "quick only CASE",
        "every_wrong_page_area_is_refused_10_by_each_operation",
    ),
    (
        "query_tail_unchecked",
        "quick only CASE",
        "every_wrong_page_area_is_refused_10_by_each_operation",
    ),
    (
        "kind_cut_to_a_byte",
        "quick only CASE",
        "every_wrong_page_area_is_refused_10_by_each_operation",
    ),
    (
        "lines_may_fall_short_of_used_length",
        "quick only CASE",
        "every_wrong_page_area_is_refused_10_by_each_operation",
    ),
    (
        "used_length_trusted_past_the_slice",
        "quick only CASE",
        "refusal_order_of_closed",
    ),
    (
        "mark_0_interval_unchecked",
        "quick only CASE",
        "every_wrong_run_area_is_refused_14_by_each_operation",
    ),
    (
        "mark_3_accepted",
        "quick only CASE",
        "every_wrong_run_area_is_refused_14_by_each_operation",
    ),
    (
        "high_above_top_accepted",
        "quick only CASE",
        "every_wrong_run_area_is_refused_14_by_each_operation",
    ),
    (
        "full_fact_unsound_at_top_57",
        "only CASE",
        "both_sides_of_every_range_of_a_page_area_at_every_top_and_count",
    ),
    // Open a run.
    (
        "edges_counted_per_literal",
        "quick only CASE",
        "open_agrees_on_random_pages",
    ),
    (
        "reach_only_direct",
        "quick only CASE",
        "open_agrees_on_random_pages",
    ),
    (
        "reach_ignores_negated_literals",
        "quick only CASE",
        "row_01_two_rivals_plain_and_closed",
    ),
    (
        "refused_open_writes",
        "quick only CASE",
        "open_agrees_on_random_pages",
    ),
    (
        "query_range_before_count",
        "quick only CASE",
        "refusal_order_of_open",
    ),
    (
        "list_of_17_accepted",
        "quick only CASE",
        "refusal_order_of_open",
    ),
    (
        "open_clears_past_3c",
        "quick only CASE",
        "open_agrees_on_random_pages",
    ),
    (
        "open_solves_at_once",
        "quick only CASE",
        "row_01_two_rivals_plain_and_closed",
    ),
    (
        "a_pass_follows_what_it_has_just_added",
        "quick only CASE",
        "openings_count_their_passes_as_stated",
    ),
    (
        "a_pass_follows_what_it_has_just_added",
        "quick only CASE",
        "open_agrees_on_random_pages",
    ),
    (
        "last_pass_not_counted",
        "quick only CASE",
        "openings_count_their_passes_as_stated",
    ),
    (
        "passes_told_as_reached",
        "quick only CASE",
        "openings_count_their_passes_as_stated",
    ),
    (
        "passes_told_as_reached",
        "quick only CASE",
        "open_agrees_on_random_pages",
    ),
    // Evaluate.
    (
        "wake_only_when_low_rises",
        "quick only CASE",
        "row_07_self_rule_of_weight_9_rests_after_2_evaluations",
    ),
    (
        "wake_nobody",
        "quick only CASE",
        "row_01_two_rivals_plain_and_closed",
    ),
    (
        "wake_unreached",
        "quick only CASE",
        "row_08_ops_product_lukasiewicz_bounded_and_weight",
    ),
    (
        "wake_self_always",
        "quick only CASE",
        "row_01_two_rivals_plain_and_closed",
    ),
    (
        "wake_unless_unchanged_ignored",
        "quick only CASE",
        "row_01_two_rivals_plain_and_closed",
    ),
    (
        "mark_kept_waiting",
        "quick only CASE",
        "row_01_two_rivals_plain_and_closed",
    ),
    (
        "refused_evaluate_writes",
        "quick only CASE",
        "evaluate_agrees_on_arbitrary_sound_areas",
    ),
    (
        "evaluate_changes_nothing",
        "quick only CASE",
        "row_01_two_rivals_plain_and_closed",
    ),
    (
        "condition_cut_to_16_bits",
        "quick only CASE",
        "value_agrees_on_arbitrary_sound_areas",
    ),
    (
        "queries_wake_too",
        "quick only CASE",
        "attach_example_figures",
    ),
    (
        "wake_misses_condition_448",
        "only CASE",
        "a_waiting_condition_is_found_and_woken_wherever_it_is",
    ),
    // Body values.
    (
        "negate_without_exchange",
        "quick only CASE",
        "row_01_two_rivals_plain_and_closed",
    ),
    (
        "high_end_rounds_down",
        "quick only CASE",
        "row_07_self_rule_of_weight_9_rests_after_2_evaluations",
    ),
    (
        "high_end_rounds_down",
        "quick only CASE",
        "plain_answers_cover_exact_fractions",
    ),
    (
        "low_end_rounds_up",
        "quick only CASE",
        "row_08_ops_product_lukasiewicz_bounded_and_weight",
    ),
    (
        "low_end_rounds_up",
        "quick only CASE",
        "plain_answers_cover_exact_fractions",
    ),
    (
        "weight_rounds_down_at_both_ends",
        "quick only CASE",
        "rules_have_their_stated_value",
    ),
    (
        "product_rounds_down_at_both_ends",
        "quick only CASE",
        "rules_have_their_stated_value",
    ),
    (
        "product_divided_once",
        "quick only CASE",
        "rules_have_their_stated_value",
    ),
    (
        "product_wrong_at_top_173",
        "item 172 only CASE",
        "evaluate_every_pair_of_grades_at_every_top_under_every_op",
    ),
    (
        "product_wrong_at_top_173",
        "item 172 only CASE",
        "closed_every_product_at_every_top",
    ),
    (
        "product_wrong_at_top_173",
        "item 172 only CASE",
        "drive_every_product_at_every_top",
    ),
    (
        "product_wrong_at_top_173",
        "quick only CASE",
        "rules_have_their_stated_value",
    ),
    (
        "product_wrong_under_one_weight",
        "item 172 only CASE",
        "drive_every_product_under_every_weight_at_every_top",
    ),
    (
        "fold_right_to_left",
        "quick only CASE",
        "rules_have_their_stated_value",
    ),
    (
        "no_lines_unknown",
        "quick only CASE",
        "row_04_condition_without_lines_is_zero_after_one_evaluation",
    ),
    (
        "smallest_over_lines",
        "quick only CASE",
        "row_01_two_rivals_plain_and_closed",
    ),
    (
        "facts_hide_rules",
        "quick only CASE",
        "row_01_two_rivals_plain_and_closed",
    ),
    // Drive and value.
    (
        "drive_highest_first",
        "quick only CASE",
        "row_02_bound_22_spent_after_3_rest_after_4",
    ),
    (
        "drive_in_rounds",
        "quick only CASE",
        "rules_have_their_stated_value",
    ),
    (
        "drive_misses_condition_64",
        "quick only CASE",
        "a_waiting_condition_is_found_and_woken_wherever_it_is",
    ),
    (
        "drive_count_one_more",
        "quick only CASE",
        "row_01_two_rivals_plain_and_closed",
    ),
    (
        "drive_count_is_allowance",
        "quick only CASE",
        "row_01_two_rivals_plain_and_closed",
    ),
    (
        "drive_spent_when_just_enough",
        "quick only CASE",
        "row_02_bound_22_spent_after_3_rest_after_4",
    ),
    (
        "drive_allowance_cut_to_16_bits",
        "quick only CASE",
        "drive_agrees_on_arbitrary_sound_areas",
    ),
    (
        "drive_sets_taken_on_refusal",
        "quick only CASE",
        "every_wrong_page_area_is_refused_10_by_each_operation",
    ),
    (
        "value_rest_of_one_condition",
        "quick only CASE",
        "row_02_goes_on_after_it_is_spent",
    ),
    (
        "line_of_the_last_holder",
        "quick only CASE",
        "the_line_that_holds_the_low_end_is_told",
    ),
    (
        "line_counted_without_the_head",
        "quick only CASE",
        "the_line_that_holds_the_low_end_is_told",
    ),
    (
        "line_of_the_intervals_after",
        "quick only CASE",
        "the_line_that_holds_the_low_end_is_told",
    ),
    (
        "line_of_a_query",
        "quick only CASE",
        "the_line_that_holds_the_low_end_is_told",
    ),
    (
        "line_of_the_first_evaluation",
        "quick only CASE",
        "the_line_that_holds_the_low_end_is_told",
    ),
    (
        "drive_line_left_where_none_was_taken",
        "quick only CASE",
        "the_line_that_holds_the_low_end_is_told",
    ),
    (
        "line_of_the_high_end",
        "quick only CASE",
        "drive_agrees_on_arbitrary_sound_areas",
    ),
    (
        "drive_sets_line_on_refusal",
        "quick only CASE",
        "refusal_order_of_evaluate_drive_and_value",
    ),
    (
        "line_of_unreached",
        "quick only CASE",
        "refusal_order_of_evaluate_drive_and_value",
    ),
    (
        "value_of_unreached",
        "quick only CASE",
        "value_agrees_on_arbitrary_sound_areas",
    ),
    // Closed reading.
    (
        "closed_is_plain",
        "quick only CASE",
        "row_03_closed_cuts_an_unsupported_rule",
    ),
    (
        "support_from_top",
        "quick only CASE",
        "row_03_closed_cuts_an_unsupported_rule",
    ),
    (
        "loops_read_zero",
        "quick only CASE",
        "row_05_self_denial_stays_unknown_in_both_readings",
    ),
    (
        "closed_stops_after_two_rounds",
        "quick only CASE",
        "closed_running_example_of_source_000",
    ),
    (
        "closed_wrong_at_129_lines",
        "only CASE",
        "drive_and_closed_agree_on_every_count_of_lines",
    ),
    (
        "closed_wrong_at_129_conditions",
        "only CASE",
        "drive_and_closed_agree_on_every_count_of_conditions",
    ),
    (
        "answers_in_sorted_order",
        "quick only CASE",
        "closed_running_example_of_source_000",
    ),
    (
        "scratch_half_zeroed",
        "quick only CASE",
        "row_01_two_rivals_plain_and_closed",
    ),
    (
        "scratch_number_left",
        "quick only CASE",
        "closed_reading_takes_4c_of_the_scratch_and_leaves_the_rest",
    ),
    (
        "scratch_fifth_part_zeroed",
        "quick only CASE",
        "closed_reading_takes_4c_of_the_scratch_and_leaves_the_rest",
    ),
    (
        "scratch_fifth_part_read",
        "quick only CASE",
        "closed_reading_takes_4c_of_the_scratch_and_leaves_the_rest",
    ),
    (
        "scratch_refused_under_6c",
        "quick only CASE",
        "closed_reading_takes_4c_of_the_scratch_and_leaves_the_rest",
    ),
    (
        "rounds_of_all_conditions",
        "quick only CASE",
        "rounds_of_worked_pages",
    ),
    (
        "equal_round_counted",
        "quick only CASE",
        "rounds_of_worked_pages",
    ),
    (
        "rounds_of_the_alternation",
        "quick only CASE",
        "rounds_of_worked_pages",
    ),
    (
        "rounds_without_support",
        "quick only CASE",
        "rounds_of_worked_pages",
    ),
    (
        "rounds_written_on_refusal",
        "quick only CASE",
        "refusal_order_of_closed",
    ),
    (
        "short_answers_written",
        "quick only CASE",
        "refusal_order_of_closed",
    ),
    (
        "scratch_one_short_accepted_at_129_conditions",
        "only CASE",
        "both_sides_of_every_length",
    ),
    // Workspaces.
    (
        "workspace_left_filled",
        "quick only CASE",
        "row_01_two_rivals_plain_and_closed",
    ),
    (
        "workspace_half_zeroed",
        "quick only CASE",
        "row_01_two_rivals_plain_and_closed",
    ),
    (
        "workspace_zeroed_past_the_index",
        "quick only CASE",
        "row_01_two_rivals_plain_and_closed",
    ),
    (
        "workspace_index_one_short",
        "quick only CASE",
        "row_01_two_rivals_plain_and_closed",
    ),
    (
        "workspace_index_one_longer",
        "quick only CASE",
        "row_01_two_rivals_plain_and_closed",
    ),
    (
        "workspace_index_without_literals",
        "quick only CASE",
        "row_01_two_rivals_plain_and_closed",
    ),
    (
        "workspace_touched_when_too_short",
        "quick only CASE",
        "row_01_two_rivals_plain_and_closed",
    ),
    (
        "workspace_too_short_is_refused",
        "quick only CASE",
        "row_01_two_rivals_plain_and_closed",
    ),
    (
        "workspace_touched_on_refusal",
        "quick only CASE",
        "closed_refuses_as_stated",
    ),
    (
        "workspace_content_trusted",
        "quick only CASE",
        "row_02_bound_22_spent_after_3_rest_after_4",
    ),
    (
        "workspace_written_past_the_end",
        "quick only CASE",
        "row_01_two_rivals_plain_and_closed",
    ),
    (
        "indexed_drive_ignores_negated_literals",
        "quick only CASE",
        "row_01_two_rivals_plain_and_closed",
    ),
    (
        "indexed_closed_is_plain",
        "quick only CASE",
        "row_03_closed_cuts_an_unsupported_rule",
    ),
    // Stack.
    (
        "drive_takes_much_stack",
        "quick only CASE",
        "no_call_takes_more_stack_than_the_header_says",
    ),
    (
        "closed_takes_1_5_mb_of_stack",
        "quick only CASE",
        "no_call_takes_more_stack_than_the_header_says",
    ),
    // Time.
    (
        "closed_is_slow_at_512_conditions",
        "item 0 only CASE",
        "drive_and_closed_agree_on_slow_pages_of_129_to_512_conditions",
    ),
    // Memory.
    (
        "page_read_past_the_end",
        "quick only CASE",
        "open_agrees_on_random_pages",
    ),
    (
        "page_read_before_the_start",
        "quick only CASE",
        "open_agrees_on_random_pages",
    ),
    (
        "run_written_past_the_end",
        "quick only CASE",
        "open_agrees_on_random_pages",
    ),
    (
        "run_read_past_3c",
        "quick only CASE",
        "numbers_past_the_stated_parts_are_not_touched",
    ),
    (
        "page_written",
        "quick only CASE",
        "open_agrees_on_random_pages",
    ),
    (
        "page_written_and_put_back",
        "quick only CASE",
        "open_agrees_on_random_pages",
    ),
    (
        "queries_written_and_put_back",
        "quick only CASE",
        "queries_may_lie_inside_the_page_area",
    ),
    (
        "last_page_remembered",
        "quick only CASE",
        "rules_have_their_stated_value",
    ),
    // The program `attach`.
    (
        "attach_writes_to_standard_error",
        "attach standin only CASE",
        "attach_prints_the_example",
    ),
    (
        "attach_ends_with_1_for_a_refused_page",
        "attach standin only CASE",
        "attach_prints_the_example",
    ),
    (
        "attach_takes_1_5_mb_of_stack",
        "attach standin only CASE",
        "attach_takes_little_stack",
    ),
    (
        "attach_skips_the_last_query",
        "attach standin only CASE",
        "attach_prints_the_example",
    ),
    // The program `trials`.
    (
        "trials_first_line_of_a_condition_wins",
        "trials standin only CASE",
        "trials_answers_as_stated",
    ),
    (
        "trials_first_line_of_a_condition_wins",
        "trials standin only CASE",
        "trials_takes_the_last_of_600_lines",
    ),
    (
        "trials_facts_carried_over",
        "trials standin only CASE",
        "trials_answers_as_stated",
    ),
    (
        "trials_facts_carried_over",
        "trials standin only CASE",
        "trials_agrees_on_good_lists",
    ),
    (
        "trials_rules_dropped",
        "trials standin only CASE",
        "trials_answers_as_stated",
    ),
    (
        "trials_rules_dropped",
        "trials standin only CASE",
        "trials_changes_a_page_of_1024_lines",
    ),
    (
        "trials_default_dropped",
        "trials standin only CASE",
        "trials_answers_as_stated",
    ),
    (
        "trials_only_the_first_fact_replaced",
        "trials standin only CASE",
        "trials_answers_as_stated",
    ),
    (
        "trials_fact_added_to_the_others",
        "trials standin only CASE",
        "trials_answers_as_stated",
    ),
    (
        "trials_facts_of_all_conditions_dropped",
        "trials standin only CASE",
        "trials_answers_as_stated",
    ),
    (
        "trials_only_facts_replaced",
        "trials standin only CASE",
        "trials_answers_as_stated",
    ),
    (
        "trials_only_the_last_line_counts",
        "trials standin only CASE",
        "trials_answers_as_stated",
    ),
    (
        "trials_limit_on_the_changed_page",
        "trials standin only CASE",
        "trials_changes_a_page_of_1024_lines",
    ),
    (
        "trials_facts_past_line_1024_dropped",
        "trials standin only CASE",
        "trials_changes_a_page_of_1024_lines",
    ),
    (
        "trials_answered_after_every_line",
        "trials standin only CASE",
        "trials_answers_as_stated",
    ),
    (
        "trials_queries_by_reading",
        "trials standin only CASE",
        "trials_answers_as_stated",
    ),
    (
        "trials_repeated_query_answered_once",
        "trials standin only CASE",
        "trials_answers_as_stated",
    ),
    (
        "trials_number_missing",
        "trials standin only CASE",
        "trials_prints_the_example",
    ),
    (
        "trials_number_cut_to_a_byte",
        "trials standin only CASE",
        "trials_takes_every_trial_number",
    ),
    (
        "trials_last_trial_not_printed",
        "trials standin only CASE",
        "trials_prints_the_example",
    ),
    (
        "trials_count_of_one_trial",
        "trials standin only CASE",
        "trials_prints_the_example",
    ),
    (
        "trials_count_of_trials",
        "trials standin only CASE",
        "trials_prints_the_example",
    ),
    (
        "trials_count_cut_to_16_bits",
        "trials standin only CASE",
        "trials_answers_1024_queries_a_thousand_times",
    ),
    (
        "trials_empty_list_answered_once",
        "trials standin only CASE",
        "trials_takes_a_missing_file_as_empty",
    ),
    (
        "trials_missing_page_as_a_bad_list",
        "trials standin only CASE",
        "trials_takes_a_missing_file_as_empty",
    ),
    (
        "trials_missing_list_refused",
        "trials standin only CASE",
        "trials_takes_a_missing_file_as_empty",
    ),
    (
        "trials_page_from_standard_input",
        "trials standin only CASE",
        "trials_takes_a_missing_file_as_empty",
    ),
    (
        "trials_42_before_41",
        "trials standin only CASE",
        "trials_refuses_lists_as_stated",
    ),
    (
        "trials_last_bad_line_decides",
        "trials standin only CASE",
        "trials_refuses_lists_as_stated",
    ),
    (
        "trials_line_from_zero",
        "trials standin only CASE",
        "trials_refuses_lists_as_stated",
    ),
    (
        "trials_unended_line_taken",
        "trials standin only CASE",
        "trials_refuses_lists_as_stated",
    ),
    (
        "trials_carriage_return_taken",
        "trials standin only CASE",
        "trials_refuses_lists_as_stated",
    ),
    (
        "trials_leading_zero_taken",
        "trials standin only CASE",
        "trials_refuses_lists_as_stated",
    ),
    (
        "trials_equal_number_refused",
        "trials standin only CASE",
        "trials_refuses_lists_as_stated",
    ),
    (
        "trials_falling_number_taken",
        "trials standin only CASE",
        "trials_refuses_lists_as_stated",
    ),
    (
        "trials_ends_exchanged",
        "trials standin only CASE",
        "trials_refuses_lists_as_stated",
    ),
    (
        "trials_condition_c_taken",
        "trials standin only CASE",
        "trials_knows_the_ranges_of_its_page",
    ),
    (
        "trials_grade_over_top_taken",
        "trials standin only CASE",
        "trials_knows_the_ranges_of_its_page",
    ),
    (
        "trials_list_before_the_page",
        "trials standin only CASE",
        "trials_refuses_the_page_first",
    ),
    (
        "trials_1025_lines_taken",
        "trials standin only CASE",
        "trials_takes_1024_lines",
    ),
    (
        "trials_1024_lines_refused",
        "trials standin only CASE",
        "trials_takes_1024_lines",
    ),
    (
        "trials_rest_of_a_long_list_dropped",
        "trials standin only CASE",
        "trials_takes_1024_lines",
    ),
    (
        "trials_long_list_refused_at_line_0",
        "trials standin only CASE",
        "trials_reads_long_lists",
    ),
    (
        "trials_long_page_cut",
        "trials standin only CASE",
        "trials_reads_long_pages",
    ),
    (
        "trials_writes_a_file",
        "trials standin only CASE",
        "trials_prints_the_example",
    ),
    (
        "trials_writes_to_standard_error",
        "trials standin only CASE",
        "trials_prints_the_example",
    ),
    (
        "trials_ends_with_1_for_a_refused_list",
        "trials standin only CASE",
        "trials_refuses_lists_as_stated",
    ),
    (
        "trials_takes_2_seconds",
        "trials standin only CASE",
        "trials_takes_2_seconds_for_a_typical_page",
    ),
    // Loops through an absence.
    (
        "layer_one_too_high",
        "quick only CASE",
        "layers_have_their_stated_figures",
    ),
    (
        "layer_stops_at_255",
        "only CASE",
        "layers_agree_on_pages_at_the_limits",
    ),
    (
        "named_plainly_counts_as_negated",
        "quick only CASE",
        "layers_have_their_stated_figures",
    ),
    (
        "self_negation_passes",
        "quick only CASE",
        "layers_have_their_stated_figures",
    ),
    (
        "last_negation_of_a_rule_overlooked",
        "quick only CASE",
        "layers_have_their_stated_figures",
    ),
    (
        "highest_condition_on_a_loop_told",
        "quick only CASE",
        "layers_have_their_stated_figures",
    ),
    (
        "condition_that_reaches_a_loop_told",
        "quick only CASE",
        "layers_have_their_stated_figures",
    ),
    (
        "chain_may_not_repeat_a_condition",
        "quick only CASE",
        "layers_have_their_stated_figures",
    ),
    (
        "loop_told_before_the_short_slice",
        "quick only CASE",
        "layers_have_their_stated_figures",
    ),
    (
        "layers_cleared_past_c",
        "quick only CASE",
        "layers_have_their_stated_figures",
    ),
    (
        "refused_layers_written",
        "quick only CASE",
        "layers_have_their_stated_figures",
    ),
    (
        "condition_not_set_to_zero",
        "quick only CASE",
        "layers_have_their_stated_figures",
    ),
    // The check of picks and figures.
    (
        "pick_of_a_reached_condition_accepted",
        "quick only CASE",
        "picks_have_their_stated_answers",
    ),
    (
        "pick_judged_at_the_opening",
        "quick only CASE",
        "picks_have_their_stated_answers",
    ),
    (
        "pick_cut_to_a_byte",
        "quick only CASE",
        "picks_have_their_stated_answers",
    ),
    (
        "pick_place_from_zero",
        "quick only CASE",
        "picks_have_their_stated_answers",
    ),
    (
        "last_bad_pick_told",
        "quick only CASE",
        "picks_have_their_stated_answers",
    ),
    (
        "rest_not_asked_after_the_last_pick",
        "quick only CASE",
        "picks_have_their_stated_answers",
    ),
    (
        "figures_in_another_order",
        "quick only CASE",
        "picks_have_their_stated_answers",
    ),
    (
        "low_ends_of_figures_only",
        "quick only CASE",
        "picks_have_their_stated_answers",
    ),
    (
        "more_figures_than_queries_accepted",
        "quick only CASE",
        "picks_have_their_stated_answers",
    ),
    (
        "picks_before_queries",
        "quick only CASE",
        "picks_have_their_stated_answers",
    ),
    (
        "place_of_picks_not_set_to_zero",
        "quick only CASE",
        "picks_have_their_stated_answers",
    ),
    (
        "picks_in_another_order_than_a_drive_refused",
        "quick only CASE",
        "any_order_of_picks_to_rest_is_accepted",
    ),
    // Two stalls.
    (
        "the_smaller_half_to_the_first",
        "quick only CASE",
        "stalls_have_their_stated_figures",
    ),
    (
        "leftover_of_the_first_lost",
        "quick only CASE",
        "stalls_have_their_stated_figures",
    ),
    (
        "leftover_of_the_second_lost",
        "quick only CASE",
        "stalls_have_their_stated_figures",
    ),
    (
        "second_part_one_number_on",
        "quick only CASE",
        "stalls_have_their_stated_figures",
    ),
    (
        "second_refused_after_the_first_is_driven",
        "quick only CASE",
        "stalls_have_their_stated_figures",
    ),
    (
        "unsound_part_told_with_the_other_stall",
        "quick only CASE",
        "stalls_have_their_stated_figures",
    ),
    (
        "the_second_stall_told_before_the_first",
        "quick only CASE",
        "stalls_have_their_stated_figures",
    ),
    (
        "need_beyond_the_turn_counted",
        "quick only CASE",
        "stalls_have_their_stated_figures",
    ),
    (
        "shared_area_short_after_the_queries",
        "quick only CASE",
        "stalls_have_their_stated_figures",
    ),
    (
        "shared_length_of_one_run",
        "quick only CASE",
        "stalls_have_their_stated_figures",
    ),
    (
        "turn_allowance_cut_to_16_bits",
        "quick only CASE",
        "stalls_have_their_stated_figures",
    ),
    (
        "stall_not_set_to_zero",
        "quick only CASE",
        "stalls_have_their_stated_figures",
    ),
    (
        "refused_turn_sets_the_rest",
        "quick only CASE",
        "stalls_have_their_stated_figures",
    ),
    (
        "second_evaluated_in_the_first_part",
        "quick only CASE",
        "stalls_have_their_stated_figures",
    ),
    (
        "turn_writes_past_the_shared_area",
        "quick only CASE",
        "stalls_have_their_stated_figures",
    ),
    // How far a condition reaches.
    (
        "condition_always_counted_itself",
        "quick only CASE",
        "followers_have_their_stated_figures",
    ),
    (
        "condition_never_counted_itself",
        "quick only CASE",
        "followers_have_their_stated_figures",
    ),
    (
        "only_direct_followers_counted",
        "quick only CASE",
        "followers_have_their_stated_figures",
    ),
    (
        "last_word_of_followers_left_out",
        "only CASE",
        "followers_agree_on_pages_at_the_limits",
    ),
    (
        "followers_the_other_way_round",
        "quick only CASE",
        "followers_have_their_stated_figures",
    ),
    (
        "followers_found_in_one_pass",
        "quick only CASE",
        "followers_have_their_stated_figures",
    ),
    (
        "negations_do_not_follow",
        "quick only CASE",
        "followers_have_their_stated_figures",
    ),
    (
        "condition_range_before_the_page",
        "quick only CASE",
        "followers_have_their_stated_figures",
    ),
    (
        "condition_taken_at_16_bits",
        "quick only CASE",
        "followers_have_their_stated_figures",
    ),
    // All small pages.
    (
        "small_pages_exchanged",
        "quick only CASE",
        "small_pages_have_their_stated_texts",
    ),
    (
        "facts_of_two_ends_left_out",
        "quick only CASE",
        "small_pages_have_their_stated_texts",
    ),
    (
        "digits_before_negations",
        "quick only CASE",
        "small_pages_have_their_stated_texts",
    ),
    (
        "equal_lines_left_out",
        "quick only CASE",
        "small_pages_have_their_stated_texts",
    ),
    (
        "small_pages_by_lines_first",
        "quick only CASE",
        "small_pages_have_their_stated_texts",
    ),
    (
        "small_pages_by_text_alone",
        "quick only CASE",
        "small_pages_have_their_stated_texts",
    ),
    (
        "buffer_short_before_number",
        "quick only CASE",
        "small_pages_have_their_stated_texts",
    ),
    (
        "byte_after_the_text",
        "quick only CASE",
        "small_pages_have_their_stated_texts",
    ),
    (
        "refused_small_page_written",
        "quick only CASE",
        "small_pages_have_their_stated_texts",
    ),
    (
        "small_page_242_taken",
        "quick only CASE",
        "small_pages_have_their_stated_texts",
    ),
    (
        "buffer_of_the_texts_length_refused",
        "quick only CASE",
        "small_pages_have_their_stated_texts",
    ),
    // A season's figures.
    (
        "latest_of_equal_changes",
        "quick only CASE",
        "seasons_have_their_stated_figures",
    ),
    (
        "change_without_its_sign",
        "quick only CASE",
        "seasons_have_their_stated_figures",
    ),
    (
        "change_of_high_ends",
        "quick only CASE",
        "seasons_have_their_stated_figures",
    ),
    (
        "remainder_of_widths",
        "quick only CASE",
        "seasons_have_their_stated_figures",
    ),
    (
        "mean_rounded_up",
        "quick only CASE",
        "seasons_have_their_stated_figures",
    ),
    (
        "season_place_from_zero",
        "quick only CASE",
        "seasons_have_their_stated_figures",
    ),
    (
        "last_bad_pair_told",
        "quick only CASE",
        "seasons_have_their_stated_figures",
    ),
    (
        "bad_pair_before_wrong_length",
        "quick only CASE",
        "seasons_have_their_stated_figures",
    ),
    (
        "season_of_4097",
        "quick only CASE",
        "seasons_have_their_stated_figures",
    ),
    (
        "high_of_201_taken",
        "quick only CASE",
        "seasons_have_their_stated_figures",
    ),
    (
        "smallest_high",
        "quick only CASE",
        "seasons_have_their_stated_figures",
    ),
    (
        "refused_season_written",
        "quick only CASE",
        "seasons_have_their_stated_figures",
    ),
    (
        "season_place_left",
        "quick only CASE",
        "seasons_have_their_stated_figures",
    ),
    // Conditions that are unknown by default.
    (
        "default_read_as_false",
        "quick only CASE",
        "unknown_by_default_has_its_stated_readings",
    ),
    (
        "default_as_a_fact",
        "quick only CASE",
        "unknown_by_default_has_its_stated_readings",
    ),
    (
        "default_hides_rules",
        "quick only CASE",
        "unknown_by_default_has_its_stated_readings",
    ),
    (
        "default_with_rules_supported",
        "quick only CASE",
        "unknown_by_default_has_its_stated_readings",
    ),
    (
        "rounds_with_a_supported_default",
        "quick only CASE",
        "unknown_by_default_has_its_stated_rounds",
    ),
    (
        "two_default_entries_accepted",
        "quick only CASE",
        "d_numbers_and_d_lines_are_sound_as_stated",
    ),
    (
        "default_number_without_entry_accepted",
        "quick only CASE",
        "d_numbers_and_d_lines_are_sound_as_stated",
    ),
    (
        "default_entry_without_number_accepted",
        "quick only CASE",
        "d_numbers_and_d_lines_are_sound_as_stated",
    ),
    (
        "default_number_of_2_accepted",
        "quick only CASE",
        "d_numbers_and_d_lines_are_sound_as_stated",
    ),
    (
        "default_tail_unchecked",
        "quick only CASE",
        "d_numbers_and_d_lines_are_sound_as_stated",
    ),
    (
        "used_length_without_the_d_numbers",
        "quick only CASE",
        "texts_have_their_stated_outcome",
    ),
    (
        "second_default_accepted",
        "quick only CASE",
        "texts_have_their_stated_outcome",
    ),
    (
        "second_default_before_a_range",
        "quick only CASE",
        "texts_have_their_stated_outcome",
    ),
    (
        "second_default_at_its_condition",
        "quick only CASE",
        "texts_have_their_stated_outcome",
    ),
    (
        "default_raises_a_layer",
        "quick only CASE",
        "d_lines_change_no_layers_followers_or_openings",
    ),
];

fn planted() -> &'static str {
    static NAME: OnceLock<String> = OnceLock::new();
    NAME.get_or_init(|| std::env::var("STANDIN_FAULT").unwrap_or_default())
}

fn fault(name: &str) -> bool {
    debug_assert!(
        FAULTS.iter().any(|(listed, _, _)| *listed == name),
        "{name} is not listed"
    );
    planted() == name
}

/// The program `attach`; its exit status.
pub fn attach() -> i32 {
    let mut text = Vec::new();
    let read = std::io::stdin().read_to_end(&mut text);
    let mut output = attach::expected_fast(&text);
    if fault("attach_skips_the_last_query") && output.contains("\nend,2\n") {
        let lines: Vec<&str> = output.lines().collect();
        output = [&lines[..lines.len() - 2], &["end,1", ""]]
            .concat()
            .join("\n");
    }
    if fault("attach_takes_1_5_mb_of_stack") {
        take_stack::<1_500_000>();
    }
    if fault("attach_writes_to_standard_error") {
        eprintln!("page read");
    }
    if read.is_err() || std::io::stdout().write_all(output.as_bytes()).is_err() {
        return 2;
    }
    i32::from(fault("attach_ends_with_1_for_a_refused_page") && output.starts_with("refused"))
}

/// The program `trials`; its exit status.
pub fn trials() -> i32 {
    let (page, list) = (std::fs::read("page"), std::fs::read("trials"));
    let no_list = list.is_err();
    let (mut text, list) = (page.unwrap_or_default(), list.unwrap_or_default());
    if fault("trials_page_from_standard_input") && text.is_empty() {
        let _ = std::io::stdin().read_to_end(&mut text);
    }
    if fault("trials_long_page_cut") && text.len() > page::TEXT_MAX {
        text.truncate(page::TEXT_MAX);
    }
    let mut output = trials_output(&text, &list);
    if fault("trials_missing_list_refused") && no_list && output.starts_with("top") {
        output = format!("refused,{LIST_FORM},1\n");
    }
    if fault("trials_writes_a_file") && std::fs::write("answers", &output).is_err() {
        return 2;
    }
    if fault("trials_writes_to_standard_error") {
        eprintln!("list read");
    }
    if fault("trials_takes_2_seconds") {
        std::thread::sleep(Duration::from_millis(2010));
    }
    if std::io::stdout().write_all(output.as_bytes()).is_err() {
        return 2;
    }
    i32::from(fault("trials_ends_with_1_for_a_refused_list") && output.starts_with("refused"))
}

fn trials_output(text: &[u8], list: &[u8]) -> String {
    let refused = |number: Refusal, line: usize| format!("refused,{number},{line}\n");
    let page = match page::read(text) {
        Ok(page) => page,
        Err(_) if fault("trials_missing_page_as_a_bad_list") && text.is_empty() => {
            return refused(LIST_FORM, 1);
        }
        Err(refusal) => {
            let any = Page {
                top: 999,
                count: 999,
                lines: Vec::new(),
            };
            return match list::read(&any, list) {
                Err((number, line)) if fault("trials_list_before_the_page") => {
                    refused(number, line)
                }
                _ => refused(refusal.number, refusal.line as usize),
            };
        }
    };
    let lines = match trials_lines(&page, list) {
        Ok(lines) => lines,
        Err((number, line)) => return refused(number, line),
    };
    let mut out = format!("top,{}\n", page.top);
    let (mut count, trials) = (0, trials_of(&lines));
    for (place, (number, named)) in trials.iter().enumerate() {
        let changed = trials_changed(&page, named);
        if fault("trials_limit_on_the_changed_page") && changed.lines.len() > LINES_MAX {
            return refused(LINE_COUNT, LINES_MAX + 2);
        }
        if fault("trials_last_trial_not_printed") && place + 1 == trials.len() {
            continue;
        }
        count += trials_answers(&mut out, *number, &changed);
    }
    if fault("trials_count_of_one_trial") {
        count /= trials.len().max(1);
    }
    if fault("trials_count_of_trials") {
        count = trials.len();
    }
    if fault("trials_count_cut_to_16_bits") {
        count %= 65_536;
    }
    out.push_str(&format!("end,{count}\n"));
    out
}

/// The lines of a list, each as its fields.
fn trials_fields(list: &[u8], change: impl Fn(&mut Vec<String>)) -> Vec<u8> {
    let text = String::from_utf8_lossy(list).into_owned();
    let one = |line: &str| {
        let mut fields: Vec<String> = line.split(',').map(str::to_string).collect();
        change(&mut fields);
        fields.join(",")
    };
    let lines: Vec<String> = text.split('\n').map(one).collect();
    lines.join("\n").into_bytes()
}

/// The bytes of a list with what a fault overlooks put right.
fn trials_overlooked(list: &[u8]) -> Vec<u8> {
    let mut list = list.to_vec();
    if fault("trials_unended_line_taken") && !list.is_empty() && !list.ends_with(b"\n") {
        list.push(10);
    }
    if fault("trials_carriage_return_taken") {
        list.retain(|byte| *byte != 13);
    }
    if fault("trials_leading_zero_taken") {
        list = trials_fields(&list, |fields| {
            for field in fields {
                while field.len() > 1 && field.starts_with('0') {
                    field.remove(0);
                }
            }
        });
    }
    if fault("trials_ends_exchanged") {
        list = trials_fields(&list, |fields| {
            let number = |field: &String| field.parse::<u32>().unwrap_or(0);
            if fields.len() == 5 && number(&fields[3]) > number(&fields[4]) {
                fields.swap(3, 4);
            }
        });
    }
    if fault("trials_rest_of_a_long_list_dropped") {
        let kept = list
            .split_inclusive(|byte| *byte == 10)
            .take(LIST_LINES_MAX);
        list = kept.flatten().copied().collect();
    }
    list
}

fn trials_lines(page: &Page, list: &[u8]) -> Result<Vec<Tried>, (Refusal, usize)> {
    if fault("trials_long_list_refused_at_line_0") && list.len() > LIST_MAX {
        return Err((LIST_FORM, 0));
    }
    let list = trials_overlooked(list);
    let ranges = Page {
        top: page.top + u16::from(fault("trials_grade_over_top_taken")),
        count: page.count + u16::from(fault("trials_condition_c_taken")),
        lines: Vec::new(),
    };
    let whole: Vec<&[u8]> = list.split_inclusive(|byte| *byte == 10).collect();
    let read = list::read(&ranges, &list);
    let mut lines = read.or_else(|refusal| trials_refused(&ranges, &whole, refusal))?;
    if fault("trials_1024_lines_refused") && lines.len() == LIST_LINES_MAX {
        return Err((LIST_FORM, LIST_LINES_MAX));
    }
    if fault("trials_equal_number_refused") {
        let mut pairs = lines.windows(2);
        if let Some(at) = pairs.position(|pair| pair[0].trial == pair[1].trial) {
            return Err((TRIAL_FALLS, at + 2));
        }
    }
    // What a fault lets in has no place in the page.
    lines.retain(|line| line.cond < page.count);
    for line in &mut lines {
        line.low = line.low.min(page.top);
        line.high = line.high.min(page.top);
    }
    Ok(lines)
}

/// What becomes of a list that is refused.
fn trials_refused(
    ranges: &Page,
    lines: &[&[u8]],
    (number, line): (Refusal, usize),
) -> Result<Vec<Tried>, (Refusal, usize)> {
    let alone = |at: usize| list::read(ranges, lines[at - 1]);
    let trial = |at: usize| {
        let line = String::from_utf8_lossy(lines[at - 1]).into_owned();
        let field = line.split(',').nth(1).map(str::parse::<u32>);
        field.and_then(Result::ok).unwrap_or(0)
    };
    if fault("trials_1025_lines_taken") && lines.len() == LIST_LINES_MAX + 1 {
        let mut most = list::read(ranges, &lines[..LIST_LINES_MAX].concat())?;
        most.extend(alone(lines.len())?);
        return Ok(most);
    }
    if fault("trials_falling_number_taken") && number == TRIAL_FALLS {
        let all: Result<Vec<_>, _> = (1..=lines.len()).map(alone).collect();
        return all.map(|all| all.concat());
    }
    if fault("trials_42_before_41") && number == LIST_RANGE && line > 1 {
        let falls = trial(line) < trial(line - 1);
        return Err((if falls { TRIAL_FALLS } else { number }, line));
    }
    if fault("trials_last_bad_line_decides") {
        let later = (line + 1..=lines.len()).filter_map(|at| Some((alone(at).err()?.0, at)));
        return Err(later.last().unwrap_or((number, line)));
    }
    Err((number, line - usize::from(fault("trials_line_from_zero"))))
}

/// The trials of a list.
fn trials_of(lines: &[Tried]) -> Vec<(u16, BTreeMap<u16, Pair>)> {
    if fault("trials_answered_after_every_line") {
        let one = |line: &Tried| list::trials(&[*line]);
        return lines.iter().flat_map(one).collect();
    }
    let mut trials = list::trials(lines);
    if fault("trials_empty_list_answered_once") && trials.is_empty() {
        trials.push((0, BTreeMap::new()));
    }
    let mut before = BTreeMap::new();
    for (number, named) in &mut trials {
        let own = || lines.iter().filter(|line| line.trial == *number);
        if fault("trials_first_line_of_a_condition_wins") {
            for line in own().rev() {
                named.insert(line.cond, Pair::new(line.low, line.high));
            }
        }
        if fault("trials_only_the_last_line_counts") {
            let last = own().last().map(|line| line.cond);
            named.retain(|cond, _| Some(*cond) == last);
        }
        if fault("trials_facts_carried_over") {
            before.extend(named.clone());
            *named = before.clone();
        }
        if fault("trials_number_cut_to_a_byte") {
            *number &= 255;
        }
    }
    trials
}

/// The page that a trial changes.
fn trials_changed(page: &Page, named: &BTreeMap<u16, Pair>) -> Page {
    let has_facts = |named: &u16| {
        let is_its = |line: &Line| matches!(line, Line::Fact { cond, .. } if cond == named);
        page.lines.iter().any(is_its)
    };
    let mut named = named.clone();
    if fault("trials_only_facts_replaced") {
        named.retain(|cond, _| has_facts(cond));
    }
    let mut changed = list::changed(page, &named);
    let (all, later) = (
        fault("trials_fact_added_to_the_others"),
        fault("trials_only_the_first_fact_replaced"),
    );
    let mut replaced = BTreeSet::new();
    let kept = page.lines.iter().filter(|line| match line {
        Line::Fact { cond, .. } if named.contains_key(cond) => {
            let first = replaced.insert(*cond);
            all || (later && !first)
        }
        _ => false,
    });
    changed.lines.extend(kept.cloned());
    let own = |cond: &u16| named.contains_key(cond);
    let (rules, defaults, facts) = (
        fault("trials_rules_dropped"),
        fault("trials_default_dropped"),
        fault("trials_facts_of_all_conditions_dropped"),
    );
    changed.lines.retain(|line| match line {
        Line::Rule { head, .. } => !(rules && own(head)),
        Line::Default { cond } => !(defaults && own(cond)),
        Line::Fact { cond, .. } => !(facts && !own(cond)),
        Line::Query { .. } => true,
    });
    if fault("trials_facts_past_line_1024_dropped") {
        changed.lines.truncate(LINES_MAX);
    }
    changed
}

/// Prints the answers of a trial; how many.
fn trials_answers(out: &mut String, number: u16, changed: &Page) -> usize {
    let (plain, closed) = list::by_index(changed);
    let query = |line: &Line| match line {
        Line::Query { closed, cond } => Some((*closed, *cond)),
        _ => None,
    };
    let mut queries: Vec<(bool, u16)> = changed.lines.iter().filter_map(query).collect();
    if fault("trials_queries_by_reading") {
        queries.sort_by_key(|(closed, _)| *closed);
    }
    if fault("trials_repeated_query_answered_once") {
        let mut seen = BTreeSet::new();
        queries.retain(|query| seen.insert(*query));
    }
    let first = match fault("trials_number_missing") {
        true => String::new(),
        false => format!("{number},"),
    };
    for (by, cond) in &queries {
        let (letter, reading) = if *by { ('W', &closed) } else { ('K', &plain) };
        let pair = reading[usize::from(*cond)];
        let (low, high) = (pair.low, pair.high);
        out.push_str(&format!("{first}{letter},{cond},{low},{high}\n"));
    }
    queries.len()
}

unsafe fn lent<'a, T>(start: *const T, length: usize) -> &'a [T] {
    if length == 0 {
        return &[];
    }
    std::slice::from_raw_parts(start, length)
}

unsafe fn lent_mut<'a, T>(start: *mut T, length: usize) -> &'a mut [T] {
    if length == 0 {
        return &mut [];
    }
    std::slice::from_raw_parts_mut(start, length)
}

/// The numbers of a page area with what a fault overlooks put right.
fn overlooked(area: &[u16]) -> Vec<u16> {
    let mut copy = area[..area.len().min(usize::from(area[3]))].to_vec();
    let mut at = area::first_line(area);
    overlook_defaults(&mut copy);
    for _ in 0..copy[2] {
        if at + 4 > copy.len() {
            return copy;
        }
        if fault("kind_cut_to_a_byte") {
            copy[at + 1] &= 255;
        }
        match copy[at + 1] {
            1..=5 => {
                let end = at + 4 + usize::from(copy[at + 3]);
                if end > copy.len() {
                    return copy;
                }
                for literal in &mut copy[at + 4..end] {
                    if fault("literal_range_unchecked") && *literal / 2 >= area[1] {
                        *literal = 0;
                    }
                }
                at = end;
            }
            kind => {
                if kind == 6 && fault("query_tail_unchecked") {
                    copy[at + 3] = 0;
                }
                if kind == 7 && fault("default_tail_unchecked") {
                    copy[at + 2] = 0;
                    copy[at + 3] = 0;
                }
                at += 4;
            }
        }
    }
    if fault("lines_may_fall_short_of_used_length") {
        copy[3] = at as u16;
        copy.truncate(at);
    }
    copy
}

/// Puts right what a fault overlooks of the D numbers and the D lines.
fn overlook_defaults(area: &mut Vec<u16>) {
    let (count, first) = (area[1], area::first_line(area));
    if area.len() < first {
        return;
    }
    let (defaults, lines) = area.split_at(first);
    // The entries are looked at four numbers at a time, which is right on pages without R lines.
    let entries = |cond: u16| {
        lines
            .chunks_exact(4)
            .filter(move |entry| entry[..2] == [cond, 7])
    };
    let mut out = area.clone();
    for cond in 0..count {
        let at = area::HEAD + usize::from(cond);
        let number = defaults[at];
        let found = entries(cond).count();
        if fault("default_number_without_entry_accepted") && number == 1 && found == 0 {
            out[at] = 0;
        }
        if fault("default_entry_without_number_accepted") && number == 0 && found == 1 {
            out[at] = 1;
        }
        if fault("default_number_of_2_accepted") && number == 2 && found == 1 {
            out[at] = 1;
        }
        if fault("two_default_entries_accepted") && number == 1 && found == 2 {
            let last = lines
                .chunks_exact(4)
                .rposition(|entry| entry[..2] == [cond, 7]);
            let start = first + 4 * last.unwrap_or(0);
            out.drain(start..start + 4);
            out[2] -= 1;
            out[3] -= 4;
        }
    }
    *area = out;
}

/// The page of a sound area, with the planted fault.
fn sound_page(area: &[u16]) -> Option<Page> {
    if fault("used_length_trusted_past_the_slice") && area.len() >= 4 {
        // SAFETY: none; this is the planted fault.
        unsafe {
            let last = area.as_ptr().add(usize::from(area[3].max(1)) - 1);
            std::ptr::read_volatile(last);
        }
    }
    if fault("page_read_past_the_end") && !area.is_empty() {
        // SAFETY: none; this is the planted fault.
        unsafe { std::ptr::read_volatile(area.as_ptr().add(area.len())) };
    }
    if fault("page_read_before_the_start") && !area.is_empty() {
        // SAFETY: none; this is the planted fault.
        unsafe { std::ptr::read_volatile(area.as_ptr().sub(1)) };
    }
    if fault("page_written") && area.len() > 4 {
        // SAFETY: none; this is the planted fault.
        unsafe { std::ptr::write_volatile(area.as_ptr().add(4) as *mut u16, area[4] ^ 1) };
    }
    if fault("page_written_and_put_back") && area.len() > 4 {
        // SAFETY: none; this is the planted fault.
        unsafe {
            let start = area.as_ptr() as *mut u16;
            let number = std::ptr::read_volatile(start);
            std::ptr::write_volatile(start, !number);
            std::ptr::write_volatile(start, number);
        }
    }
    if fault("last_page_remembered") {
        static LAST: Mutex<Option<(usize, usize, Page)>> = Mutex::new(None);
        let mut last = LAST.lock().ok()?;
        let key = (area.as_ptr() as usize, area.len());
        if let Some((start, length, page)) = last.as_ref() {
            if (*start, *length) == key {
                return Some(page.clone());
            }
        }
        let page = area::decode(area)?;
        *last = Some((key.0, key.1, page.clone()));
        return Some(page);
    }
    let overlooks = [
        "literal_range_unchecked",
        "query_tail_unchecked",
        "kind_cut_to_a_byte",
        "lines_may_fall_short_of_used_length",
        "default_tail_unchecked",
        "default_number_without_entry_accepted",
        "default_entry_without_number_accepted",
        "default_number_of_2_accepted",
        "two_default_entries_accepted",
    ];
    if overlooks.contains(&planted()) && area.len() >= 4 && area[3] >= 4 {
        return area::decode(&overlooked(area));
    }
    let page = area::decode(area)?;
    let is_full = |line: &Line| matches!(line, Line::Fact { high, .. } if *high == page.top);
    if fault("full_fact_unsound_at_top_57") && page.top == 57 && page.lines.iter().any(is_full) {
        return None;
    }
    Some(page)
}

fn run_is_sound(page: &Page, run: &[u16]) -> bool {
    let length = 3 * usize::from(page.count);
    if run.len() < length {
        return false;
    }
    if fault("run_read_past_3c") && run.len() > length {
        // SAFETY: inside the announced length.
        unsafe { std::ptr::read_volatile(run.as_ptr().add(length)) };
    }
    let mut copy = run[..length].to_vec();
    for entry in copy.chunks_exact_mut(3) {
        if fault("mark_0_interval_unchecked") && entry[2] == NOT_REACHED_MARK {
            entry[0] = 0;
            entry[1] = page.top;
        }
        if fault("mark_3_accepted") && entry[2] == 3 {
            entry[2] = REACHED_MARK;
        }
        if fault("high_above_top_accepted") && entry[0] <= entry[1] && entry[0] <= page.top {
            entry[1] = entry[1].min(page.top);
        }
    }
    area::run_is_sound(page, &copy)
}

fn check_areas(page_area: &[u16], run: &[u16]) -> Result<Page, Refusal> {
    let page = sound_page(page_area).ok_or(PAGE_UNSOUND)?;
    if run_is_sound(&page, run) {
        Ok(page)
    } else {
        Err(RUN_UNSOUND)
    }
}

fn rule_end(op: Op, end: End, top: u16, weight: u16, mut ends: Vec<u16>) -> u16 {
    // How the op and the weight round.
    let mut of_op = end;
    let mut of_weight = end;
    if fault("high_end_rounds_down") {
        (of_op, of_weight) = (End::Low, End::Low);
    }
    if fault("low_end_rounds_up") {
        (of_op, of_weight) = (End::High, End::High);
    }
    if fault("weight_rounds_down_at_both_ends") {
        of_weight = End::Low;
    }
    if fault("product_rounds_down_at_both_ends") {
        of_op = End::Low;
    }
    if fault("fold_right_to_left") {
        ends.reverse();
    }
    let weight = u32::from(weight);
    let mut result = u32::from(ends[0]);
    if fault("product_divided_once") && op == Op::P {
        let whole: u64 = ends.iter().map(|end| u64::from(*end)).product();
        let divisor = u64::from(top).pow(ends.len() as u32 - 1);
        result = match of_op {
            End::Low => whole / divisor,
            End::High => whole.div_ceil(divisor),
        } as u32;
    } else {
        for other in &ends[1..] {
            let hit = op == Op::P && top == 173 && (result, *other) == (121, 97);
            result = u32::from(combine(op, of_op, top, result as u16, *other));
            if hit && fault("product_wrong_at_top_173")
                || hit && fault("product_wrong_under_one_weight") && weight == 50
            {
                result += 4;
            }
        }
    }
    divided(of_weight, result * weight, top.into()) as u16
}

/// T of one condition, with the planted fault.
fn body_value(page: &Page, held: &[Pair], cond: u16) -> Pair {
    let mut total: Option<Pair> = None;
    let mut fact_seen = false;
    for line in &page.lines {
        let value = match line {
            Line::Fact {
                cond: head,
                low,
                high,
            } if *head == cond => {
                fact_seen = true;
                Pair::new(*low, *high)
            }
            Line::Rule {
                head,
                weight,
                op,
                body,
            } if *head == cond => {
                if fault("facts_hide_rules") && fact_seen {
                    continue;
                }
                let values: Vec<Pair> = body
                    .iter()
                    .map(|literal| {
                        let pair = held[usize::from(literal.cond)];
                        if !literal.negated {
                            pair
                        } else if fault("negate_without_exchange") {
                            Pair::new(page.top - pair.low, page.top - pair.high)
                        } else {
                            pair.negation(page.top)
                        }
                    })
                    .collect();
                let lows = values.iter().map(|pair| pair.low).collect();
                let highs = values.iter().map(|pair| pair.high).collect();
                Pair::new(
                    rule_end(*op, End::Low, page.top, *weight, lows),
                    rule_end(*op, End::High, page.top, *weight, highs),
                )
            }
            _ => continue,
        };
        total = Some(match total {
            None => value,
            Some(so_far) if fault("smallest_over_lines") => {
                Pair::new(so_far.low.min(value.low), so_far.high.min(value.high))
            }
            Some(so_far) => Pair::new(so_far.low.max(value.low), so_far.high.max(value.high)),
        });
    }
    if fault("default_as_a_fact") && page.unknown_by_default(cond) {
        let whole = Pair::unknown(page.top);
        return total.map_or(whole, |pair| pair.largest(whole));
    }
    if fault("default_hides_rules") && page.unknown_by_default(cond) {
        return Pair::unknown(page.top);
    }
    let unknown = page.unknown_by_default(cond) && !fault("default_read_as_false");
    total.unwrap_or(if unknown || fault("no_lines_unknown") {
        Pair::unknown(page.top)
    } else {
        Pair::new(0, 0)
    })
}

fn body_values(page: &Page, held: &[Pair]) -> Vec<Pair> {
    (0..page.count)
        .map(|cond| body_value(page, held, cond))
        .collect()
}

/// Evaluates a waiting condition, with the planted fault.
fn step(page: &Page, run: &mut [u16], cond: u16) -> bool {
    let at = 3 * usize::from(cond);
    let old = Pair::new(run[at], run[at + 1]);
    let new = if fault("evaluate_changes_nothing") {
        old
    } else {
        body_value(page, &held_pairs(page, run), cond)
    };
    run[at] = new.low;
    run[at + 1] = new.high;
    run[at + 2] = REACHED_MARK;
    let mut wakes = new != old && !fault("wake_nobody");
    if fault("wake_only_when_low_rises") {
        wakes = new.low > old.low;
    }
    if fault("wake_unless_unchanged_ignored") {
        wakes = true;
    }
    if wakes {
        for line in &page.lines {
            let (head, names_it) = match line {
                Line::Rule { head, body, .. } => {
                    (*head, body.iter().any(|literal| literal.cond == cond))
                }
                Line::Query { cond: head, .. } => (*head, fault("queries_wake_too")),
                Line::Fact { .. } | Line::Default { .. } => continue,
            };
            if head == 448 && fault("wake_misses_condition_448") {
                continue;
            }
            let mark = &mut run[3 * usize::from(head) + 2];
            if names_it && (*mark != NOT_REACHED_MARK || fault("wake_unreached")) {
                *mark = WAITING_MARK;
            }
        }
        if fault("wake_self_always") {
            run[at + 2] = WAITING_MARK;
        }
    }
    if fault("mark_kept_waiting") && new != old {
        run[at + 2] = WAITING_MARK;
    }
    new != old
}

fn next_waiting(page: &Page, run: &[u16], from: u16) -> Option<u16> {
    let mut waiting = (0..page.count)
        .filter(|cond| run[3 * usize::from(*cond) + 2] == WAITING_MARK)
        .filter(|cond| *cond != 64 || !fault("drive_misses_condition_64"));
    if fault("drive_highest_first") {
        return waiting.next_back();
    }
    if fault("drive_in_rounds") {
        let all: Vec<u16> = waiting.collect();
        let later = all.iter().copied().find(|cond| *cond >= from);
        return later.or(all.first().copied());
    }
    waiting.next()
}

/// The faults in an evaluation or in a body value; without them the fast reference does the work.
const STEPWISE: &[&str] = &[
    "wake_only_when_low_rises",
    "wake_nobody",
    "wake_misses_condition_448",
    "wake_unreached",
    "wake_self_always",
    "wake_unless_unchanged_ignored",
    "mark_kept_waiting",
    "evaluate_changes_nothing",
    "queries_wake_too",
    "negate_without_exchange",
    "high_end_rounds_down",
    "low_end_rounds_up",
    "weight_rounds_down_at_both_ends",
    "product_rounds_down_at_both_ends",
    "product_divided_once",
    "product_wrong_at_top_173",
    "product_wrong_under_one_weight",
    "fold_right_to_left",
    "no_lines_unknown",
    "default_as_a_fact",
    "default_hides_rules",
    "default_read_as_false",
    "default_with_rules_supported",
    "smallest_over_lines",
    "facts_hide_rules",
    "drive_highest_first",
    "drive_in_rounds",
    "drive_misses_condition_64",
    "support_from_top",
    "closed_stops_after_two_rounds",
    "line_of_the_last_holder",
    "line_counted_without_the_head",
    "line_of_the_intervals_after",
    "line_of_a_query",
    "line_of_the_high_end",
    "line_of_the_first_evaluation",
];

/// Which line holds the low end at the pairs held, with the planted fault.
fn holding_line(page: &Page, held: &[Pair], cond: u16) -> u32 {
    let new = body_value(page, held, cond);
    let mut found = 0;
    for (line, number) in page.lines.iter().zip(2..) {
        let one = |line: &Line| Page {
            lines: vec![line.clone()],
            ..page.clone()
        };
        let holds = match line {
            Line::Fact { cond: head, .. } | Line::Rule { head, .. } if *head == cond => {
                let value = body_value(&one(line), held, cond);
                match fault("line_of_the_high_end") {
                    true => value.high == new.high,
                    false => value.low == new.low,
                }
            }
            Line::Query { cond: asked, .. } => {
                *asked == cond && new.low == 0 && fault("line_of_a_query")
            }
            _ => false,
        };
        if holds && (found == 0 || fault("line_of_the_last_holder")) {
            found = number;
        }
    }
    if found > 0 && fault("line_counted_without_the_head") {
        found -= 1;
    }
    found
}

fn drive(page: &Page, run: &mut [u16], allowance: u32) -> Driven {
    if !STEPWISE.contains(&planted()) {
        let index = Index::new(page);
        let mut fast = Run::of_area(&index, run);
        let driven = fast.drive(allowance);
        let after = fast.area();
        run[..after.len()].copy_from_slice(&after);
        return driven;
    }
    let mut taken = 0;
    let mut line = 0;
    let mut from = 0;
    loop {
        let waiting = next_waiting(page, run, from);
        let rest = waiting.is_none();
        let (Some(cond), false) = (waiting, taken == allowance) else {
            return Driven { taken, line, rest };
        };
        let before = held_pairs(page, run);
        step(page, run, cond);
        let told = match fault("line_of_the_intervals_after") {
            true => held_pairs(page, run),
            false => before,
        };
        if taken == 0 || !fault("line_of_the_first_evaluation") {
            line = holding_line(page, &told, cond);
        }
        from = cond + 1;
        taken += 1;
    }
}

/// The closed reading, with the planted fault.
fn closed_reading(page: &Page) -> Vec<Pair> {
    let count = usize::from(page.count);
    if fault("closed_is_plain") {
        return plain::reading(page);
    }
    if fault("closed_is_slow_at_512_conditions") && count == 512 {
        std::thread::sleep(Duration::from_secs(4));
    }
    if !STEPWISE.contains(&planted()) {
        let mut reading = Index::new(page).closed();
        let wrong = (fault("closed_wrong_at_129_lines") && page.lines.len() == 129)
            || (fault("closed_wrong_at_129_conditions") && count == 129);
        for pair in &mut reading {
            if wrong {
                pair.high = (pair.high + 1) % (page.top + 1);
            }
            if fault("loops_read_zero") && pair.low == 0 {
                pair.high = 0;
            }
        }
        return reading;
    }
    let join = |left: &[Pair], right: &[Pair]| -> Vec<Pair> {
        left.iter().zip(right).map(|(a, b)| a.join(*b)).collect()
    };
    let mut assignment = vec![Pair::unknown(page.top); count];
    for round in 0..1000 {
        let start = if fault("support_from_top") {
            page.top
        } else {
            0
        };
        let mut safe = vec![Pair::new(0, start); count];
        for _ in 0..1000 {
            let mut next: Vec<Pair> = body_values(page, &join(&assignment, &safe))
                .iter()
                .map(|pair| Pair::new(0, pair.high))
                .collect();
            for (pair, unknown) in next.iter_mut().zip(page.unknown()) {
                if unknown && !fault("default_with_rules_supported") {
                    *pair = Pair::unknown(page.top);
                }
            }
            if next == safe {
                break;
            }
            safe = next;
        }
        let next = body_values(page, &join(&assignment, &safe));
        if next == assignment || (fault("closed_stops_after_two_rounds") && round == 2) {
            break;
        }
        assignment = next;
    }
    assignment
}

/// The text with what a fault overlooks put right.
fn overlooked_text(text: &[u8]) -> Vec<u8> {
    let mut out = text.to_vec();
    if fault("carriage_return_accepted") {
        out = String::from_utf8_lossy(&out)
            .replace("\r\n", "\n")
            .into_bytes();
    }
    if fault("unended_page_accepted") && out.last().is_some_and(|byte| *byte != 10) {
        out.push(10);
    }
    if fault("leading_zero_accepted") {
        out = String::from_utf8_lossy(&out)
            .replace(",00", ",0")
            .replace(",01", ",1")
            .replace(",02", ",2")
            .replace(",03", ",3")
            .into_bytes();
    }
    if fault("second_default_accepted") {
        let all = String::from_utf8_lossy(&out).into_owned();
        let mut kept: Vec<&str> = Vec::new();
        for line in all.split('\n') {
            if !(line.starts_with("D,") && kept.contains(&line)) {
                kept.push(line);
            }
        }
        out = kept.join("\n").into_bytes();
    }
    if fault("second_head_line_accepted") {
        let all = String::from_utf8_lossy(&out).into_owned();
        let head = all.lines().next().unwrap_or_default().to_string();
        let kept: Vec<&str> = all
            .split('\n')
            .enumerate()
            .filter(|(number, line)| *number == 0 || *line != head)
            .map(|(_, line)| line)
            .collect();
        out = kept.join("\n").into_bytes();
    }
    out
}

/// A refusal with the planted fault in its number or its place.
fn misplaced(text: &[u8], mut refusal: ReadRefusal) -> ReadRefusal {
    let number = refusal.number;
    if fault("place_from_zero") && refusal.place > 0 {
        refusal.place -= 1;
    }
    if fault("place_told_with_a_wrong_form") && number == LINE_FORM {
        refusal.place = 1;
    }
    if fault("low_above_high_at_the_low_field") && number == LOW_ABOVE_HIGH {
        refusal.place = 3;
    }
    if fault("low_above_high_as_a_range") && number == LOW_ABOVE_HIGH {
        refusal.number = LINE_RANGE;
    }
    if fault("weight_as_a_range") && number == WEIGHT_RANGE {
        refusal.number = LINE_RANGE;
    }
    // A line with a bad condition is read once more with a good one: what is found then stands to its right.
    let right = ["rightmost_bad_field", "grade_before_a_bad_condition"];
    if right.contains(&planted()) && number == LINE_RANGE && refusal.place == 2 && refusal.line > 1
    {
        let all = String::from_utf8_lossy(text).into_owned();
        let lines: Vec<&str> = all.split('\n').collect();
        let mut fields: Vec<&str> = lines[refusal.line as usize - 1].split(',').collect();
        fields[1] = "0";
        let alone = format!("{}\n{}\n", lines[0], fields.join(","));
        if let Err(other) = page::read(alone.as_bytes()) {
            if fault("rightmost_bad_field") || other.number == GRADE_RANGE {
                refusal = ReadRefusal::new(other.number, refusal.line, other.place);
            }
        }
    }
    refusal
}

/// Whether the refused line is a D line out of range whose condition, taken modulo 512, has a D line before it.
fn repeats_modulo_512(text: &[u8], refusal: ReadRefusal) -> bool {
    let all = String::from_utf8_lossy(text).into_owned();
    let condition = |line: &str| {
        let number = line.strip_prefix("D,")?.strip_suffix(",U")?.parse::<u16>();
        number.ok().map(|cond| cond % 512)
    };
    let lines: Vec<&str> = all.split('\n').collect();
    let at = refusal.line as usize;
    if refusal.number != LINE_RANGE || at < 2 {
        return false;
    }
    let own = condition(lines[at - 1]);
    own.is_some() && lines[1..at - 1].iter().any(|line| condition(line) == own)
}

fn read_text(text: &[u8], area: &mut [u16]) -> Result<usize, ReadRefusal> {
    if fault("text_of_65535_bytes_too_long") && text.len() == 65_535 {
        return Err(ReadRefusal::new(TEXT_TOO_LONG, 0, 0));
    }
    if fault("short_area_before_bad_line") && area.len() < 4 && page::read(text).is_err() {
        return Err(ReadRefusal::new(AREA_SHORT, 0, 0));
    }
    if fault("condition_300_refused_at_301_conditions") && text.starts_with(b"G,101,301\nQ,K,300") {
        return Err(ReadRefusal::new(LINE_RANGE, 2, 3));
    }
    let changes = [
        "carriage_return_accepted",
        "unended_page_accepted",
        "leading_zero_accepted",
        "second_head_line_accepted",
        "second_default_accepted",
    ];
    let result = if changes.contains(&planted()) {
        area::read_into(&overlooked_text(text), area)
    } else {
        area::read_into(text, area)
    };
    let mut refusal = match result {
        Ok(used) if fault("used_length_without_the_d_numbers") => {
            area[3] -= area[1];
            return Ok(used - usize::from(area[1]));
        }
        Ok(used) => {
            if fault("area_written_past_used_length") && area.len() > used {
                area[used] = 0;
            }
            return Ok(used);
        }
        Err(refusal) => refusal,
    };
    if fault("refused_read_writes_area") && refusal.number == LINE_RANGE && area.len() > 4 {
        area[4] ^= 1;
    }
    if fault("line_number_from_zero") && refusal.line > 0 {
        refusal.line -= 1;
    }
    if fault("second_default_before_a_range") && repeats_modulo_512(text, refusal) {
        refusal = ReadRefusal::new(SECOND_DEFAULT, refusal.line, 0);
    }
    if fault("second_default_at_its_condition") && refusal.number == SECOND_DEFAULT {
        refusal.place = 2;
    }
    refusal = misplaced(text, refusal);
    if let Some((start, length)) = page::show_line(text, refusal.line as usize) {
        let line = &text[start..start + length];
        if fault("range_before_form") && refusal.number == LINE_FORM {
            let large = line.split(|byte| *byte == b',').any(|field| {
                let number = std::str::from_utf8(field).ok();
                number.and_then(|number| number.parse::<u16>().ok()) > Some(512)
            });
            if large {
                refusal.number = LINE_RANGE;
            }
        }
        if fault("line_1026_judged_by_its_form") && refusal.number == LINE_COUNT {
            let alone = [b"G,200,512\n".as_slice(), line, b"\n"].concat();
            if let Err(other) = page::read(&alone) {
                refusal.number = other.number;
            }
        }
    }
    Err(refusal)
}

pub unsafe extern "C" fn simjorad_read(
    text: *const u8,
    text_length: usize,
    area: *mut u16,
    area_length: usize,
    line: *mut u32,
    place: *mut u32,
) -> i32 {
    match read_text(lent(text, text_length), lent_mut(area, area_length)) {
        Ok(used) => {
            if !fault("line_not_set_to_zero_on_success") {
                *line = 0;
            }
            if !fault("place_not_set_to_zero_on_success") {
                *place = 0;
            }
            used as i32
        }
        Err(refusal) => {
            *line = refusal.line;
            if !(fault("place_left_for_other_refusals") && refusal.place == 0) {
                *place = refusal.place;
            }
            -refusal.number
        }
    }
}

pub unsafe extern "C" fn simjorad_show_line(
    text: *const u8,
    text_length: usize,
    number: usize,
    start: *mut usize,
) -> usize {
    let text = lent(text, text_length);
    let number = if fault("show_number_cut_to_32_bits") {
        number as u32 as usize
    } else {
        number
    };
    let (at, length) = page::show_line(text, number).unwrap_or((0, 0));
    *start = at;
    if fault("last_unended_line_not_shown") && at + length == text.len() {
        return 0;
    }
    length
}

/// The count of passes, with the planted fault.
fn passes(page: &Page, queries: &[u16], opened: Opened) -> u32 {
    if fault("a_pass_follows_what_it_has_just_added") {
        return passes_in_place(page, queries);
    }
    if fault("last_pass_not_counted") {
        return opened.passes - 1;
    }
    if fault("passes_told_as_reached") {
        return opened.reached;
    }
    opened.passes
}

/// How many passes over the lines find the reached conditions if a pass also follows what it has just added.
fn passes_in_place(page: &Page, queries: &[u16]) -> u32 {
    let mut reached: Vec<u16> = queries.to_vec();
    let mut passes = 0;
    loop {
        passes += 1;
        let before = reached.len();
        for line in &page.lines {
            if let Line::Rule { head, body, .. } = line {
                for literal in body {
                    if reached.contains(head) && !reached.contains(&literal.cond) {
                        reached.push(literal.cond);
                    }
                }
            }
        }
        if reached.len() == before {
            return passes;
        }
    }
}

fn open(page_area: &[u16], queries: &[u16], run: &mut [u16]) -> Result<Opened, Refusal> {
    let page = sound_page(page_area).ok_or(PAGE_UNSOUND)?;
    let length = 3 * usize::from(page.count);
    let out_of_range = queries.iter().any(|query| *query >= page.count);
    if fault("query_range_before_count") && out_of_range {
        return Err(QUERY_RANGE);
    }
    if !(fault("list_of_17_accepted") && queries.len() == 17 && !out_of_range) {
        check_queries(&page, queries)?;
    }
    if run.len() < length {
        if fault("refused_open_writes") && !run.is_empty() {
            run[0] ^= 1;
        }
        return Err(RUN_SHORT);
    }
    let mut reached = reach::reached(&page, queries);
    let mut opened = reach::measure(&page, queries);
    if fault("reach_only_direct") {
        reached = queries.iter().copied().collect();
        for (a, b) in reach::names(&page) {
            if queries.contains(&a) {
                reached.insert(b);
            }
        }
    }
    if fault("reach_ignores_negated_literals") {
        let mut plain = page.clone();
        for line in &mut plain.lines {
            if let Line::Rule { head, body, .. } = line {
                body.retain(|literal| !literal.negated || literal.cond == *head);
            }
        }
        reached = reach::reached(&plain, queries);
    }
    if fault("edges_counted_per_literal") {
        opened.edges = 0;
        for line in &page.lines {
            if let Line::Rule { head, body, .. } = line {
                if reached.contains(head) {
                    opened.edges += body.len() as u32;
                }
            }
        }
        opened.bound = opened.reached + u32::from(page.top) * opened.edges;
    }
    opened.passes = passes(&page, queries, opened);
    for (cond, entry) in (0..page.count).zip(run[..length].chunks_exact_mut(3)) {
        let mark = if reached.contains(&cond) {
            WAITING_MARK
        } else {
            NOT_REACHED_MARK
        };
        entry.copy_from_slice(&[0, page.top, mark]);
    }
    if fault("open_clears_past_3c") && run.len() > length {
        run[length] = 0;
    }
    if fault("run_written_past_the_end") {
        // SAFETY: none; this is the planted fault.
        unsafe { std::ptr::write_volatile(run.as_mut_ptr().add(run.len()), 0) };
    }
    if fault("open_solves_at_once") {
        drive(&page, run, u32::MAX);
    }
    Ok(opened)
}

pub unsafe extern "C" fn simjorad_open(
    page: *const u16,
    page_length: usize,
    queries: *const u16,
    queries_length: usize,
    run: *mut u16,
    run_length: usize,
    reached: *mut u32,
    edges: *mut u32,
    bound: *mut u32,
    passes: *mut u32,
) -> i32 {
    let result = open(
        lent(page, page_length),
        lent(queries, queries_length),
        lent_mut(run, run_length),
    );
    match result {
        Ok(opened) => {
            *reached = opened.reached;
            *edges = opened.edges;
            *bound = opened.bound;
            *passes = opened.passes;
            0
        }
        Err(number) => -number,
    }
}

fn condition(page: &Page, cond: u32) -> Result<u16, Refusal> {
    let cond = if fault("condition_cut_to_16_bits") {
        cond & 65_535
    } else {
        cond
    };
    if cond < u32::from(page.count) {
        Ok(cond as u16)
    } else {
        Err(CONDITION_RANGE)
    }
}

fn evaluate(page_area: &[u16], run: &mut [u16], cond: u32) -> Result<bool, Refusal> {
    let page = check_areas(page_area, run)?;
    let cond = condition(&page, cond)?;
    if run[3 * usize::from(cond) + 2] != WAITING_MARK {
        if fault("refused_evaluate_writes") {
            run[3 * usize::from(cond) + 2] = REACHED_MARK;
        }
        return Err(NOT_WAITING);
    }
    Ok(step(&page, run, cond))
}

pub unsafe extern "C" fn simjorad_evaluate(
    page: *const u16,
    page_length: usize,
    run: *mut u16,
    run_length: usize,
    condition: u32,
) -> i32 {
    let run = lent_mut(run, run_length);
    match evaluate(lent(page, page_length), run, condition) {
        Ok(changed) => i32::from(changed),
        Err(number) => -number,
    }
}

fn drive_call(page_area: &[u16], run: &mut [u16], allowance: u32) -> Result<Driven, Refusal> {
    let page = check_areas(page_area, run)?;
    let allowance = if fault("drive_allowance_cut_to_16_bits") {
        allowance & 65_535
    } else {
        allowance
    };
    // No fault that never rests may hang the run.
    let capped = if planted().is_empty() {
        allowance
    } else {
        allowance.min(2_000_000)
    };
    let mut driven = drive(&page, run, capped);
    if fault("drive_count_one_more") {
        driven.taken += 1;
    }
    if fault("drive_count_is_allowance") {
        driven.taken = allowance;
    }
    if fault("drive_spent_when_just_enough") && driven.taken == allowance {
        driven.rest = false;
    }
    Ok(driven)
}

/// What a drive in either form hands back.
unsafe fn drive_code(result: Result<Driven, Refusal>, taken: *mut u32, line: *mut u32) -> i32 {
    match result {
        Ok(driven) => {
            *taken = driven.taken;
            if driven.taken > 0 || !fault("drive_line_left_where_none_was_taken") {
                *line = driven.line;
            }
            i32::from(driven.rest)
        }
        Err(number) => {
            if fault("drive_sets_taken_on_refusal") {
                *taken = 0;
            }
            if fault("drive_sets_line_on_refusal") {
                *line = 0;
            }
            -number
        }
    }
}

/// Writes over this much stack.
#[inline(never)]
fn take_stack<const BYTES: usize>() {
    let mut area = [0u8; BYTES];
    for byte in &mut area {
        // SAFETY: inside the array.
        unsafe { std::ptr::write_volatile(byte, 1) };
    }
}

pub unsafe extern "C" fn simjorad_drive(
    page: *const u16,
    page_length: usize,
    run: *mut u16,
    run_length: usize,
    allowance: u32,
    taken: *mut u32,
    line: *mut u32,
) -> i32 {
    if fault("drive_takes_much_stack") {
        take_stack::<131_072>();
    }
    let run = lent_mut(run, run_length);
    let result = drive_call(lent(page, page_length), run, allowance);
    drive_code(result, taken, line)
}

/// The numbers that the index takes, with the planted fault.
fn index_length(page_area: &[u16]) -> usize {
    let needed = workspace::needed(page_area);
    if fault("workspace_index_one_short") {
        return needed - 1;
    }
    if fault("workspace_index_one_longer") {
        return needed + 1;
    }
    if fault("workspace_index_without_literals") {
        return 3 * usize::from(page_area[1]) + 2 + usize::from(page_area[2]);
    }
    needed
}

/// A workspace that is too short, with the planted fault; true if the call is refused for it.
fn too_short(workspace: &mut [u16]) -> bool {
    if fault("workspace_touched_when_too_short") {
        workspace.fill(0);
    }
    fault("workspace_too_short_is_refused")
}

/// Leaves the workspace of a call as its answer says, with the planted fault.
fn leave_workspace<T>(page_area: &[u16], workspace: &mut [u16], result: &Result<T, Refusal>) {
    if result.is_err() {
        if fault("workspace_touched_on_refusal") {
            workspace.fill(0);
        }
        return;
    }
    let mut end = index_length(page_area);
    if workspace.len() < end || fault("workspace_left_filled") {
        return;
    }
    if fault("workspace_half_zeroed") {
        end /= 2;
    }
    if fault("workspace_zeroed_past_the_index") {
        end = workspace.len();
    }
    workspace[..end].fill(0);
    if fault("workspace_written_past_the_end") {
        // SAFETY: none; this is the planted fault.
        unsafe { std::ptr::write_volatile(workspace.as_mut_ptr().add(workspace.len()), 0) };
    }
}

/// Whether a sound page's index has room in the workspace.
fn has_room(page_area: &[u16], workspace: &[u16]) -> Option<bool> {
    area::decode(page_area)?;
    Some(index_length(page_area) <= workspace.len())
}

/// The page area without its negated literals.
fn without_negations(page_area: &[u16]) -> Vec<u16> {
    let mut page = area::decode(page_area).expect("the area is sound");
    for line in &mut page.lines {
        if let Line::Rule { body, .. } = line {
            for literal in body.iter_mut() {
                literal.negated = false;
            }
        }
    }
    area::encode(&page)
}

pub unsafe extern "C" fn simjorad_drive_indexed(
    page: *const u16,
    page_length: usize,
    run: *mut u16,
    run_length: usize,
    workspace: *mut u16,
    workspace_length: usize,
    allowance: u32,
    taken: *mut u32,
    line: *mut u32,
) -> i32 {
    let (page, run) = (lent(page, page_length), lent_mut(run, run_length));
    let workspace = lent_mut(workspace, workspace_length);
    let room = has_room(page, workspace);
    if room == Some(false) && too_short(workspace) {
        return -RUN_UNSOUND;
    }
    let trusted = fault("workspace_content_trusted") && workspace.first().is_some_and(|n| *n > 3);
    let result = if room == Some(true) && trusted {
        drive_call(page, run, allowance / 2)
    } else if room == Some(true) && fault("indexed_drive_ignores_negated_literals") {
        drive_call(&without_negations(page), run, allowance)
    } else {
        drive_call(page, run, allowance)
    };
    leave_workspace(page, workspace, &result);
    drive_code(result, taken, line)
}

fn value(page_area: &[u16], run: &[u16], cond: u32) -> Result<Valued, Refusal> {
    let page = check_areas(page_area, run)?;
    let cond = usize::from(condition(&page, cond)?);
    if run[3 * cond + 2] == NOT_REACHED_MARK && !fault("value_of_unreached") {
        return Err(NOT_REACHED);
    }
    let rest = if fault("value_rest_of_one_condition") {
        run[3 * cond + 2] != WAITING_MARK
    } else {
        run[..3 * usize::from(page.count)]
            .chunks_exact(3)
            .all(|entry| entry[2] != WAITING_MARK)
    };
    Ok(Valued {
        low: run[3 * cond],
        high: run[3 * cond + 1],
        rest,
    })
}

pub unsafe extern "C" fn simjorad_value(
    page: *const u16,
    page_length: usize,
    run: *const u16,
    run_length: usize,
    condition: u32,
    low: *mut u16,
    high: *mut u16,
) -> i32 {
    match value(lent(page, page_length), lent(run, run_length), condition) {
        Ok(valued) => {
            *low = valued.low;
            *high = valued.high;
            i32::from(valued.rest)
        }
        Err(number) => -number,
    }
}

fn line(page_area: &[u16], run: &[u16], cond: u32) -> Result<u32, Refusal> {
    let page = check_areas(page_area, run)?;
    let cond = condition(&page, cond)?;
    if run[3 * usize::from(cond) + 2] == NOT_REACHED_MARK && !fault("line_of_unreached") {
        return Err(NOT_REACHED);
    }
    Ok(holding_line(&page, &held_pairs(&page, run), cond))
}

pub unsafe extern "C" fn simjorad_line(
    page: *const u16,
    page_length: usize,
    run: *const u16,
    run_length: usize,
    condition: u32,
) -> i32 {
    match line(lent(page, page_length), lent(run, run_length), condition) {
        Ok(line) => line as i32,
        Err(number) => -number,
    }
}

fn closed_call(
    page_area: &[u16],
    queries: &[u16],
    scratch: &mut [u16],
    answers: &mut [u16],
) -> Result<u32, Refusal> {
    let page = sound_page(page_area).ok_or(PAGE_UNSOUND)?;
    check_queries(&page, queries)?;
    if fault("closed_takes_1_5_mb_of_stack") {
        take_stack::<1_500_000>();
    }
    if fault("queries_written_and_put_back") {
        // SAFETY: none; this is the planted fault.
        unsafe { std::ptr::write_volatile(queries.as_ptr() as *mut u16, queries[0]) };
    }
    let mut needed = 4 * usize::from(page.count);
    if fault("scratch_one_short_accepted_at_129_conditions") && page.count == 129 {
        needed -= 1;
    }
    let short = fault("scratch_refused_under_6c") && scratch.len() < needed / 2 * 3;
    if short || scratch.len() < needed {
        return Err(SCRATCH_SHORT);
    }
    if answers.len() < 2 * queries.len() {
        if fault("short_answers_written") && !answers.is_empty() {
            answers[0] ^= 1;
        }
        return Err(ANSWERS_SHORT);
    }
    let reading = closed_reading(&page);
    if fault("scratch_fifth_part_read") && scratch.len() > needed {
        // SAFETY: inside the announced length.
        unsafe { std::ptr::read_volatile(scratch.as_ptr().add(needed)) };
    }
    let end = match planted() {
        "scratch_half_zeroed" => needed / 2,
        "scratch_number_left" => needed - 1,
        "scratch_fifth_part_zeroed" => scratch.len().min(needed / 4 * 5),
        _ => needed,
    };
    scratch[..end].fill(0);
    let mut queries = queries.to_vec();
    if fault("answers_in_sorted_order") {
        queries.sort_unstable();
    }
    for (at, query) in queries.iter().enumerate() {
        answers[2 * at] = reading[usize::from(*query)].low;
        answers[2 * at + 1] = reading[usize::from(*query)].high;
    }
    Ok(rounds(&page, &queries))
}

/// The count of rounds, with the planted fault.
fn rounds(page: &Page, queries: &[u16]) -> u32 {
    let all: Vec<u16> = (0..page.count).collect();
    let index = Index::new(page);
    match planted() {
        "rounds_of_all_conditions" => index.rounds(&all),
        "equal_round_counted" => index.rounds(queries) + 1,
        "rounds_of_the_alternation" => index.alternations(),
        "rounds_with_a_supported_default" => without_ruled_defaults(page).rounds(queries),
        "rounds_without_support" => rounds_without_support(page, &reach::reached(page, queries)),
        _ => index.rounds(queries),
    }
}

/// The index of the page without the D lines of conditions that have other lines.
fn without_ruled_defaults(page: &Page) -> Index {
    let mut other = page.clone();
    other.lines.retain(|line| match line {
        Line::Default { cond } => !page.lines.iter().any(|line| match line {
            Line::Fact { cond: head, .. } | Line::Rule { head, .. } => head == cond,
            _ => false,
        }),
        _ => true,
    });
    Index::new(&other)
}

/// The count where each next assignment is T at the last.
fn rounds_without_support(page: &Page, reached: &BTreeSet<u16>) -> u32 {
    let mut assignment = vec![Pair::unknown(page.top); usize::from(page.count)];
    let mut number = 0;
    loop {
        let next = body_values(page, &assignment);
        let equal = |cond: &u16| next[usize::from(*cond)] == assignment[usize::from(*cond)];
        if reached.iter().all(equal) {
            return number;
        }
        assignment = next;
        number += 1;
    }
}

/// What either form returns; the count is written where the call did its work.
unsafe fn closed_code(result: Result<u32, Refusal>, rounds: *mut u32) -> i32 {
    match result {
        Ok(number) => {
            *rounds = number;
            0
        }
        Err(number) => {
            if fault("rounds_written_on_refusal") {
                *rounds = 0;
            }
            -number
        }
    }
}

pub unsafe extern "C" fn simjorad_closed(
    page: *const u16,
    page_length: usize,
    queries: *const u16,
    queries_length: usize,
    scratch: *mut u16,
    scratch_length: usize,
    answers: *mut u16,
    answers_length: usize,
    rounds: *mut u32,
) -> i32 {
    let result = closed_call(
        lent(page, page_length),
        lent(queries, queries_length),
        lent_mut(scratch, scratch_length),
        lent_mut(answers, answers_length),
    );
    closed_code(result, rounds)
}

pub unsafe extern "C" fn simjorad_closed_indexed(
    page: *const u16,
    page_length: usize,
    queries: *const u16,
    queries_length: usize,
    scratch: *mut u16,
    scratch_length: usize,
    answers: *mut u16,
    answers_length: usize,
    workspace: *mut u16,
    workspace_length: usize,
    rounds: *mut u32,
) -> i32 {
    let (page, queries) = (lent(page, page_length), lent(queries, queries_length));
    let answers = lent_mut(answers, answers_length);
    let workspace = lent_mut(workspace, workspace_length);
    let room = has_room(page, workspace);
    if room == Some(false) && too_short(workspace) {
        return -SCRATCH_SHORT;
    }
    let result = closed_call(page, queries, lent_mut(scratch, scratch_length), answers);
    if result.is_ok() && room == Some(true) && fault("indexed_closed_is_plain") {
        let reading = plain::reading(&area::decode(page).expect("the area is sound"));
        for (at, query) in queries.iter().enumerate() {
            answers[2 * at] = reading[usize::from(*query)].low;
            answers[2 * at + 1] = reading[usize::from(*query)].high;
        }
    }
    leave_workspace(page, workspace, &result);
    closed_code(result, rounds)
}

/// The layers of a page or the condition told, with the planted fault.
fn layers_of(page: &Page) -> Result<Vec<u16>, u16> {
    let mut copy = page.clone();
    for line in &mut copy.lines {
        if let Line::Rule { head, body, .. } = line {
            if fault("self_negation_passes") {
                body.retain(|literal| !literal.negated || literal.cond != *head);
            }
            if fault("named_plainly_counts_as_negated") {
                for literal in body.iter_mut() {
                    literal.negated |= literal.cond != *head;
                }
            }
            if fault("last_negation_of_a_rule_overlooked") && body.len() > 1 {
                if let Some(literal) = body.last_mut() {
                    literal.negated = false;
                }
            }
        }
    }
    match layers::layers(&copy) {
        Ok(mut layers) => {
            if fault("layer_one_too_high") {
                for layer in &mut layers {
                    *layer += 1;
                }
            }
            if fault("default_raises_a_layer") {
                for (layer, unknown) in layers.iter_mut().zip(page.unknown()) {
                    *layer += u16::from(unknown);
                }
            }
            if fault("layer_stops_at_255") {
                for layer in &mut layers {
                    *layer = (*layer).min(255);
                }
            }
            Ok(layers)
        }
        Err(lowest) => {
            let loops = |cond: u16| {
                let mut alone = copy.clone();
                // On a loop exactly if a condition that names it and is named like it is: its own number made the lowest.
                swap_conditions(&mut alone, 0, cond);
                layers::layers(&alone) == Err(0)
            };
            if fault("highest_condition_on_a_loop_told") {
                return Err((0..page.count)
                    .rev()
                    .find(|cond| loops(*cond))
                    .unwrap_or(lowest));
            }
            if fault("condition_that_reaches_a_loop_told") {
                let reaches = |cond: &u16| {
                    let reached = reach::reached(page, &[*cond]);
                    reached.iter().any(|other| loops(*other))
                };
                return Err((0..page.count).find(reaches).unwrap_or(lowest));
            }
            if fault("chain_may_not_repeat_a_condition") && page.lines.len() == 3 && page.count == 3
            {
                return Err(lowest + 1);
            }
            Err(lowest)
        }
    }
}

/// Two conditions change their numbers.
fn swap_conditions(page: &mut Page, a: u16, b: u16) {
    let swap = |cond: &mut u16| {
        if *cond == a {
            *cond = b;
        } else if *cond == b {
            *cond = a;
        }
    };
    for line in &mut page.lines {
        match line {
            Line::Fact { cond, .. } | Line::Query { cond, .. } | Line::Default { cond } => {
                swap(cond)
            }
            Line::Rule { head, body, .. } => {
                swap(head);
                for literal in body {
                    swap(&mut literal.cond);
                }
            }
        }
    }
}

fn layers_call(page_area: &[u16], slice: &mut [u16]) -> Result<(), LayersRefusal> {
    let refuse = |number, condition| Err(LayersRefusal { number, condition });
    let Some(page) = sound_page(page_area) else {
        return refuse(PAGE_UNSOUND, 0);
    };
    let count = usize::from(page.count);
    let outcome = layers_of(&page);
    if fault("loop_told_before_the_short_slice") {
        if let Err(lowest) = outcome {
            return refuse(NEGATED_LOOP, u32::from(lowest));
        }
    }
    if slice.len() < count {
        return refuse(LAYERS_SHORT, 0);
    }
    match outcome {
        Ok(layers) => {
            slice[..count].copy_from_slice(&layers);
            if fault("layers_cleared_past_c") {
                slice[count..].fill(0);
            }
            Ok(())
        }
        Err(lowest) => {
            if fault("refused_layers_written") {
                slice[..count].fill(0);
            }
            refuse(NEGATED_LOOP, u32::from(lowest))
        }
    }
}

pub unsafe extern "C" fn simjorad_layers(
    page: *const u16,
    page_length: usize,
    layers: *mut u16,
    layers_length: usize,
    condition: *mut u32,
) -> i32 {
    match layers_call(lent(page, page_length), lent_mut(layers, layers_length)) {
        Ok(()) => {
            if !fault("condition_not_set_to_zero") {
                *condition = 0;
            }
            0
        }
        Err(refusal) => {
            *condition = refusal.condition;
            -refusal.number
        }
    }
}

/// Whether the pick is refused; a pick that is not is evaluated.
fn bad_pick(book: &mut Book, opened: &Book, pick: u16) -> bool {
    let pick = match fault("pick_cut_to_a_byte") {
        true => pick % 256,
        false => pick,
    };
    if fault("picks_in_another_order_than_a_drive_refused") {
        return book.waiting().first() != Some(&pick) || book.evaluate(u32::from(pick)).is_err();
    }
    let bad = book.evaluate(u32::from(pick)).is_err();
    let excused = fault("pick_of_a_reached_condition_accepted") && book.reached().contains(&pick);
    let early = fault("pick_judged_at_the_opening") && opened.waiting().contains(&pick);
    bad && !excused && !early
}

/// The number of the refusal, or 0; and the place.
fn picks_call(
    page_area: &[u16],
    queries: &[u16],
    picks: &[u16],
    figures: &[u16],
) -> (Refusal, u32) {
    let Some(page) = sound_page(page_area) else {
        return (PAGE_UNSOUND, 0);
    };
    if fault("picks_before_queries") && picks.iter().any(|pick| *pick >= page.count) {
        return (PICK_NOT_WAITING, 1);
    }
    if let Err(number) = check_queries(&page, queries) {
        return (number, 0);
    }
    let opened = Book::new(&page, queries);
    let mut book = opened.clone();
    let mut told = 0;
    for (pick, place) in picks.iter().zip(1..) {
        if bad_pick(&mut book, &opened, *pick) {
            told = place;
            if !fault("last_bad_pick_told") {
                break;
            }
        }
    }
    if told > 0 {
        return (
            PICK_NOT_WAITING,
            told - u32::from(fault("pick_place_from_zero")),
        );
    }
    if !book.at_rest() && !fault("rest_not_asked_after_the_last_pick") {
        return (PICKS_NOT_AT_REST, 0);
    }
    let mut wanted = picks::plain_figures(&page, queries);
    let mut sent = figures.to_vec();
    if fault("more_figures_than_queries_accepted") {
        sent.truncate(wanted.len());
    }
    if fault("figures_in_another_order") {
        wanted = wanted.chunks(2).rev().flatten().copied().collect();
    }
    if fault("low_ends_of_figures_only") && sent.len() == wanted.len() {
        for at in (1..sent.len()).step_by(2) {
            sent[at] = wanted[at];
        }
    }
    match sent == wanted {
        true => (0, 0),
        false => (FIGURES_WRONG, 0),
    }
}

#[allow(clippy::too_many_arguments)]
pub unsafe extern "C" fn simjorad_check_picks(
    page: *const u16,
    page_length: usize,
    queries: *const u16,
    queries_length: usize,
    picks: *const u16,
    picks_length: usize,
    figures: *const u16,
    figures_length: usize,
    place: *mut u32,
) -> i32 {
    let (number, told) = picks_call(
        lent(page, page_length),
        lent(queries, queries_length),
        lent(picks, picks_length),
        lent(figures, figures_length),
    );
    if told > 0 || !fault("place_of_picks_not_set_to_zero") {
        *place = told;
    }
    -number
}

/// Where the part of a stall lies in the shared area.
fn part_of(stall: Stall, count: u16) -> std::ops::Range<usize> {
    let part = stall.part(count);
    if stall == Stall::Second && fault("second_part_one_number_on") {
        return part.start + 1..part.end + 1;
    }
    part
}

/// The refusals 10 and 60, and the page if neither comes.
fn check_shared(page_area: &[u16], area: &[u16]) -> Result<Page, Refusal> {
    let page = sound_page(page_area).ok_or(PAGE_UNSOUND)?;
    let needed = if fault("shared_length_of_one_run") {
        shared_length(page.count) / 2
    } else {
        shared_length(page.count)
    };
    if area.len() < needed {
        return Err(SHARED_SHORT);
    }
    Ok(page)
}

fn open_stall(
    page_area: &[u16],
    stall: Stall,
    area: &mut [u16],
    queries: &[u16],
) -> Result<Opened, Refusal> {
    if fault("shared_area_short_after_the_queries") {
        let page = sound_page(page_area).ok_or(PAGE_UNSOUND)?;
        check_queries(&page, queries)?;
    }
    let page = check_shared(page_area, area)?;
    let part = part_of(stall, page.count);
    let end = part.end.min(area.len());
    open(page_area, queries, &mut area[part.start.min(end)..end])
}

/// What an opening of either stall hands back.
#[allow(clippy::too_many_arguments)]
unsafe fn open_stall_code(
    stall: Stall,
    page: *const u16,
    page_length: usize,
    area: *mut u16,
    area_length: usize,
    queries: &[u16],
    outs: [*mut u32; 4],
) -> i32 {
    let page = lent(page, page_length);
    match open_stall(page, stall, lent_mut(area, area_length), queries) {
        Ok(opened) => {
            let numbers = [opened.reached, opened.edges, opened.bound, opened.passes];
            for (out, number) in outs.into_iter().zip(numbers) {
                *out = number;
            }
            0
        }
        Err(number) => -number,
    }
}

pub unsafe extern "C" fn simjorad_open_first(
    page: *const u16,
    page_length: usize,
    area: *mut u16,
    area_length: usize,
    queries: *const u16,
    queries_length: usize,
    reached: *mut u32,
    edges: *mut u32,
    bound: *mut u32,
    passes: *mut u32,
) -> i32 {
    let queries = lent(queries, queries_length);
    let outs = [reached, edges, bound, passes];
    open_stall_code(
        Stall::First,
        page,
        page_length,
        area,
        area_length,
        queries,
        outs,
    )
}

pub unsafe extern "C" fn simjorad_open_second(
    page: *const u16,
    page_length: usize,
    area: *mut u16,
    area_length: usize,
    queries: *const u16,
    queries_length: usize,
    reached: *mut u32,
    edges: *mut u32,
    bound: *mut u32,
    passes: *mut u32,
) -> i32 {
    let queries = lent(queries, queries_length);
    let outs = [reached, edges, bound, passes];
    open_stall_code(
        Stall::Second,
        page,
        page_length,
        area,
        area_length,
        queries,
        outs,
    )
}

/// What an evaluation of either stall hands back.
fn evaluate_stall(page_area: &[u16], stall: Stall, area: &mut [u16], cond: u32) -> i32 {
    let stall = if fault("second_evaluated_in_the_first_part") {
        Stall::First
    } else {
        stall
    };
    let result = check_shared(page_area, area).and_then(|page| {
        let part = part_of(stall, page.count);
        let end = part.end.min(area.len());
        evaluate(page_area, &mut area[part.start.min(end)..end], cond)
    });
    result.map_or_else(|number| -number, i32::from)
}

pub unsafe extern "C" fn simjorad_evaluate_first(
    page: *const u16,
    page_length: usize,
    area: *mut u16,
    area_length: usize,
    condition: u32,
) -> i32 {
    let area = lent_mut(area, area_length);
    evaluate_stall(lent(page, page_length), Stall::First, area, condition)
}

pub unsafe extern "C" fn simjorad_evaluate_second(
    page: *const u16,
    page_length: usize,
    area: *mut u16,
    area_length: usize,
    condition: u32,
) -> i32 {
    let area = lent_mut(area, area_length);
    evaluate_stall(lent(page, page_length), Stall::Second, area, condition)
}

/// The stall whose part is not sound, if there is one, as it is told.
fn unsound_stall(page: &Page, area: &[u16]) -> Option<u32> {
    let mut numbered: Vec<(Stall, u32)> = STALLS.into_iter().zip(1..).collect();
    if fault("the_second_stall_told_before_the_first") {
        numbered.reverse();
    }
    let unsound = |(stall, _): &(Stall, u32)| {
        let part = part_of(*stall, page.count);
        let end = part.end.min(area.len());
        !run_is_sound(page, &area[part.start.min(end)..end])
    };
    let (_, number) = numbered.into_iter().find(unsound)?;
    Some(if fault("unsound_part_told_with_the_other_stall") {
        3 - number
    } else {
        number
    })
}

/// What the split gives a stall.
fn given(allowance: u32, stall: Stall, needs: [u32; 2]) -> u32 {
    let half = |stall: Stall| {
        if fault("the_smaller_half_to_the_first") {
            half(allowance, stall.other())
        } else {
            half(allowance, stall)
        }
    };
    let lost = match stall {
        Stall::First => fault("leftover_of_the_second_lost"),
        Stall::Second => fault("leftover_of_the_first_lost"),
    };
    let leftover = half(stall.other()).saturating_sub(needs[stall.other() as usize]);
    half(stall).min(needs[stall as usize]) + if lost { 0 } else { leftover }
}

fn turn(
    page_area: &[u16],
    area: &mut [u16],
    allowance: u32,
) -> Result<[StallTurn; 2], TurnRefusal> {
    let refuse = |number, stall| TurnRefusal { number, stall };
    let page = check_shared(page_area, area).map_err(|number| refuse(number, 0))?;
    let count = page.count;
    if let Some(stall) = unsound_stall(&page, area) {
        if fault("second_refused_after_the_first_is_driven") && stall == 2 {
            drive(
                &page,
                &mut area[Stall::First.part(count)],
                half(allowance, Stall::First),
            );
        }
        return Err(refuse(RUN_UNSOUND, stall));
    }
    // No fault that never rests may hang the run.
    let capped = if planted().is_empty() {
        allowance
    } else {
        allowance.min(2_000_000)
    };
    let capped = if fault("turn_allowance_cut_to_16_bits") {
        capped & 65_535
    } else {
        capped
    };
    let needs = STALLS.map(|stall| {
        let driven = drive(&page, &mut area[part_of(stall, count)].to_vec(), capped);
        match driven.rest {
            true => driven.taken,
            false if fault("need_beyond_the_turn_counted") => 0,
            false => capped,
        }
    });
    let told = STALLS.map(|stall| {
        let given = given(capped, stall, needs);
        let driven = drive(&page, &mut area[part_of(stall, count)], given);
        StallTurn {
            taken: driven.taken,
            rest: driven.rest,
        }
    });
    if fault("turn_writes_past_the_shared_area") {
        area[shared_length(count)..].fill(0);
    }
    Ok(told)
}

#[allow(clippy::too_many_arguments)]
pub unsafe extern "C" fn simjorad_turn(
    page: *const u16,
    page_length: usize,
    area: *mut u16,
    area_length: usize,
    allowance: u32,
    taken_first: *mut u32,
    rest_first: *mut u32,
    taken_second: *mut u32,
    rest_second: *mut u32,
    stall: *mut u32,
) -> i32 {
    let area = lent_mut(area, area_length);
    match turn(lent(page, page_length), area, allowance) {
        Ok([first, second]) => {
            *taken_first = first.taken;
            *rest_first = u32::from(first.rest);
            *taken_second = second.taken;
            *rest_second = u32::from(second.rest);
            if !fault("stall_not_set_to_zero") {
                *stall = 0;
            }
            0
        }
        Err(refusal) => {
            if fault("refused_turn_sets_the_rest") {
                *rest_second = 0;
            }
            *stall = refusal.stall;
            -refusal.number
        }
    }
}

/// The followers of a condition, with the planted fault.
fn followers_of(page: &Page, cond: u16) -> Vec<u16> {
    let mut copy = page.clone();
    if fault("negations_do_not_follow") {
        for line in &mut copy.lines {
            if let Line::Rule { body, .. } = line {
                body.retain(|literal| !literal.negated);
            }
        }
    }
    let mut out = followers::followers(&copy, cond);
    let names = reach::names(page);
    if fault("only_direct_followers_counted") {
        out.retain(|head| names.contains(&(*head, cond)));
    }
    if fault("followers_the_other_way_round") {
        out = (0..page.count)
            .filter(|other| followers::followers(page, *other).contains(&cond))
            .collect();
    }
    if fault("followers_found_in_one_pass") {
        out.clear();
        for line in &page.lines {
            if let Line::Rule { head, body, .. } = line {
                let seen = |named: u16| named == cond || out.contains(&named);
                if !out.contains(head) && body.iter().any(|literal| seen(literal.cond)) {
                    out.push(*head);
                }
            }
        }
    }
    if fault("condition_always_counted_itself") && !out.contains(&cond) {
        out.push(cond);
    }
    if fault("condition_never_counted_itself") {
        out.retain(|other| *other != cond);
    }
    if fault("last_word_of_followers_left_out") {
        out.retain(|other| *other < 448);
    }
    out
}

pub unsafe extern "C" fn simjorad_followers(
    page: *const u16,
    page_length: usize,
    condition: u32,
) -> i32 {
    let area = lent(page, page_length);
    if fault("condition_range_before_the_page") && condition == 1 && area.len() < 5 {
        return -CONDITION_RANGE;
    }
    let Some(page) = sound_page(area) else {
        return -PAGE_UNSOUND;
    };
    let cond = match fault("condition_taken_at_16_bits") {
        true => u32::from(condition as u16),
        false => condition,
    };
    if cond >= u32::from(page.count) {
        return -CONDITION_RANGE;
    }
    followers_of(&page, cond as u16).len() as i32
}

/// The texts of the small pages, with the planted fault.
fn small_texts() -> Vec<Vec<u8>> {
    let mut pages = small::pages().to_vec();
    let two_ends = |line: &Line| {
        matches!(
            line,
            Line::Fact {
                low: 0,
                high: 1,
                ..
            }
        )
    };
    if fault("facts_of_two_ends_left_out") {
        pages.retain(|page| !page.lines.iter().any(two_ends));
    }
    if fault("equal_lines_left_out") {
        pages.retain(|page| page.lines.len() < 2 || page.lines[0] != page.lines[1]);
    }
    if fault("small_pages_by_lines_first") {
        pages.sort_by_key(|page| (page.lines.len(), page.count, page.text()));
    }
    if fault("small_pages_by_text_alone") {
        pages.sort_by_key(Page::text);
    }
    if fault("digits_before_negations") {
        let turned = |page: &Page| -> Vec<u8> {
            let last = |byte: u8| if byte == b'!' { b'~' } else { byte };
            page.text().into_iter().map(last).collect()
        };
        pages.sort_by_key(|page| (page.count, page.lines.len(), turned(page)));
    }
    if fault("small_pages_exchanged") {
        pages.swap(4, 5);
    }
    pages.iter().map(Page::text).collect()
}

pub unsafe extern "C" fn simjorad_small_page(
    number: u32,
    buffer: *mut u8,
    buffer_length: usize,
) -> i32 {
    let buffer = lent_mut(buffer, buffer_length);
    let texts = small_texts();
    let mut number = number as usize;
    if fault("small_page_242_taken") && number == 242 {
        number = 241;
    }
    if fault("buffer_short_before_number") && buffer_length < 6 {
        return -BUFFER_SHORT;
    }
    let Some(text) = texts.get(number) else {
        return -SMALL_NUMBER;
    };
    if fault("buffer_of_the_texts_length_refused") && buffer_length == text.len() {
        return -BUFFER_SHORT;
    }
    if buffer_length < text.len() {
        if fault("refused_small_page_written") {
            buffer.copy_from_slice(&text[..buffer_length]);
        }
        return -BUFFER_SHORT;
    }
    buffer[..text.len()].copy_from_slice(text);
    if fault("byte_after_the_text") && text.len() < buffer_length {
        buffer[text.len()] = 0;
    }
    text.len() as i32
}

/// The figures or the refusal, with the planted fault.
fn season_of(pairs: &[u16]) -> Result<Season, SeasonRefusal> {
    let mut given = pairs.to_vec();
    if fault("high_of_201_taken") {
        for high in given
            .iter_mut()
            .skip(1)
            .step_by(2)
            .filter(|high| **high == 201)
        {
            *high = 200;
        }
    }
    if fault("season_of_4097") && given.len() == 8194 {
        given.truncate(8192);
    }
    if fault("bad_pair_before_wrong_length") && given.len() % 2 == 1 && given.len() > 1 {
        given.pop();
        if let Err(refusal) = season::season(&given) {
            return Err(refusal);
        }
    }
    match season::season(&given) {
        Ok(mut figures) => {
            season_fault(pairs, &mut figures);
            Ok(figures)
        }
        Err(mut refusal) => {
            if fault("season_place_from_zero") && refusal.number == SEASON_PAIR {
                refusal.place -= 1;
            }
            if fault("last_bad_pair_told") && refusal.number == SEASON_PAIR {
                let bad = |pair: &[u16]| pair[0] > pair[1] || pair[1] > 200;
                let last = pairs.chunks(2).rposition(bad).unwrap_or(0);
                refusal.place = last as u32 + 1;
            }
            Err(refusal)
        }
    }
}

/// Plants a fault in the figures.
fn season_fault(pairs: &[u16], figures: &mut Season) {
    let ends = |at: usize| pairs.iter().skip(at).step_by(2).map(|end| i32::from(*end));
    let changes = |at| ends(at).zip(ends(at).skip(1)).map(|(one, next)| next - one);
    if fault("latest_of_equal_changes") {
        figures.change = changes(0).max_by_key(|change| change.abs()).unwrap_or(0);
    }
    if fault("change_without_its_sign") {
        figures.change = figures.change.abs();
    }
    if fault("change_of_high_ends") {
        figures.change = changes(1).max_by_key(|change| change.abs()).unwrap_or(0);
    }
    if fault("remainder_of_widths") {
        figures.remainder = figures.sum_width % figures.count;
    }
    if fault("mean_rounded_up") {
        figures.mean = figures.sum_low.div_ceil(figures.count);
    }
    if fault("smallest_high") {
        figures.smallest = ends(1).min().unwrap_or(0) as u32;
    }
}

pub unsafe extern "C" fn simjorad_season(
    pairs: *const u16,
    pairs_length: usize,
    count: *mut u32,
    sum_low: *mut u32,
    sum_width: *mut u32,
    smallest: *mut u32,
    largest: *mut u32,
    mean: *mut u32,
    remainder: *mut u32,
    change: *mut i32,
    place: *mut u32,
) -> i32 {
    match season_of(lent(pairs, pairs_length)) {
        Ok(figures) => {
            *count = figures.count;
            *sum_low = figures.sum_low;
            *sum_width = figures.sum_width;
            *smallest = figures.smallest;
            *largest = figures.largest;
            *mean = figures.mean;
            *remainder = figures.remainder;
            *change = figures.change;
            if !fault("season_place_left") {
                *place = 0;
            }
            0
        }
        Err(refusal) => {
            if fault("refused_season_written") {
                *count = 0;
            }
            *place = refusal.place;
            -refusal.number
        }
    }
}

/// Plants one fault after another and runs the case that is named beside it, or all cases; true if every fault is noticed. `only` keeps the
/// faults whose name contains it.
pub fn mutants(every_case: bool, only: &str) -> bool {
    let (mut noticed, mut missed) = (0, 0);
    for (name, words, case) in FAULTS.iter().filter(|(name, ..)| name.contains(only)) {
        let words = match every_case && !words.contains("standin") {
            true => "quick",
            false => words,
        };
        let failing = failing_cases(name, &words.replace("CASE", case));
        if failing.iter().any(|failed| failed == case || every_case) {
            noticed += 1;
            println!("ok {name} ({})", failing.join(", "));
        } else {
            missed += 1;
            println!("FAILED {name}: not noticed by {case}, only by {failing:?}");
        }
    }
    for words in [
        "quick",
        "attach standin only attach",
        "trials standin only trials",
    ] {
        let clean = failing_cases("", words);
        if clean.is_empty() {
            noticed += 1;
            println!("ok without a fault ({words})");
        } else {
            missed += 1;
            println!("FAILED without a fault: {clean:?}");
        }
    }
    println!("{noticed} passed, {missed} failed");
    missed == 0
}

/// The cases that fail with a fault planted.
fn failing_cases(fault: &str, words: &str) -> Vec<String> {
    let program = std::env::current_exe().expect("the program knows its own place");
    let output = Command::new(&program)
        .args(words.split(' '))
        .env("STANDIN_FAULT", fault)
        .output()
        .expect("the program starts");
    let text = String::from_utf8_lossy(&output.stdout).into_owned();
    let failing: Vec<String> = text
        .lines()
        .filter_map(|line| line.strip_prefix("FAILED "))
        .filter_map(|line| line.split(':').next())
        .map(str::to_string)
        .collect();
    if failing.is_empty() && !output.status.success() {
        return vec!["it ends without a report".to_string()];
    }
    failing
}
