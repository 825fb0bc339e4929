//! Where document 01 leaves room, one reading is taken. These files tell it from the others;
//! each test has the number of its open point.

mod common;

use common::*;
use twin::answer::trace_answer;
use twin::limits::Edition;

#[test]
fn op_1_every_byte_is_a_token_and_the_dot_too() {
    let over = format!("program {}.\n", "a".repeat(96));
    refused_by_both(over.as_bytes(), 9, 104);
    let most = format!("program {}.\n", "a".repeat(95));
    accepted(most.as_bytes(), Edition::Basic, 96);
}

#[test]
fn op_2_brackets_and_braces_share_one_count() {
    let bytes = b"fugitive E\nprogram [[[[[[[[[[[[[[[a/{E|{E|E}}]]]]]]]]]]]]]]].\n";
    refused_by_both(bytes, 9, 39);
}

#[test]
fn op_3_stars_count_through_treatments_inside_and_not_beside() {
    refused_by_both(b"fugitive E\nprogram [[a/E:[b*]*]*]*.\n", 9, 33);
    accepted(
        b"fugitive E\nprogram [[a*]*]*/E:[b*]*.\n",
        Edition::Adaptive,
        2,
    );
    // both stars of `]*]*` at the end lie over three; the first in the text is the place
    refused_by_both(b"fugitive E\nprogram [[[a/E:[b*]*]*]*]*.\n", 9, 34);
}

#[test]
fn op_4_the_first_wrong_byte_goes_by_bytes() {
    refused_by_both(b"program [a|b].\n", 8, 11);
    refused_by_both(b"program 1/{E||F|G}.\n", 8, 16);
    refused_by_both(b"program 1/{E|F||G}.\n", 8, 15);
    let brackets = format!("program {}\n", "[".repeat(17));
    refused_by_both(brackets.as_bytes(), 8, 25);
}

#[test]
fn op_5_line_by_line_and_within_a_line_in_turn() {
    refused_by_both(b"standard e\nprogram\n", 6, 9);
    refused_by_both(b"foo \n", 3, 0);
    refused_by_both(b"standard E\nstandard e\n", 5, 11);
    refused_by_both(b"foo x\nprogram\n", 4, 0);
}

#[test]
fn op_6_both_kinds_of_join_have_sides_grouped_to_the_right() {
    refused_by_both(b"standard EF\nprogram 1/{E:a||F:a}.\n", 13, 26);
    refused_by_both(b"standard E\nprogram 1/{E||E}.\n", 14, 23);
    refused_by_both(b"program [a||b||a].\n", 13, 10);
    accepted(b"program [1||1].\n", Edition::Basic, 1);
    // 13 is looked for everywhere before 14
    let both = b"standard E\nprogram [1/E||1/E][a||a].\n";
    refused_by_both(both, 13, 31);
}

#[test]
fn op_7_the_value_is_everything_after_the_first_space() {
    refused_by_both(b"program  a.\n", 8, 8);
    refused_by_both(b"program a.\r\n", 8, 10);
    refused_by_both(b"\n", 3, 0);
    refused_by_both(b"program a.\n\n", 3, 11);
    refused_by_both(b"  \n", 4, 0);
    refused_by_both(b" \n", 3, 0);
}

#[test]
fn op_8_places_go_by_the_text_and_not_by_the_alphabet() {
    let bytes = b"program a/E.\nstandard FE\nfugitive B\n";
    refused_by_both(bytes, 11, 22);
    refused_by_both(b"program a/{F|E}.\n", 10, 11);
}

#[test]
fn op_9_an_event_may_stand_twice_in_braces() {
    let either = file("a/{E:b|E:c}.", "");
    assert_eq!(term_after(&either, "E"), Some(term("b")));
    let both = file("a/{E:b||E:c}.", "E");
    assert_eq!(term_after(&both, "E"), Some(term("[b||c]")));
    refused_by_both(&file("a/{E:b||E:c}.", ""), 14, 11 + 8 + 6);
}

#[test]
fn op_10_too_many_states_are_17_and_no_term_of_a_case_comes_near_8192_parts() {
    let mut most = 0;
    for case in all_cases() {
        if !case.adaptive.starts_with(b"ok ") {
            continue;
        }
        let found = twin::discover::discover(&config(&case.file)).expect("an accepted file");
        let terms = found.states.iter().filter_map(|s| s.term.as_ref());
        most = most.max(terms.map(|t| twin::rules::parts(t)).max().unwrap_or(0));
    }
    assert!(most > 100, "the cases have terms of some size: {most}");
    assert!(most <= 693, "{most} parts");
}

#[test]
fn op_11_each_line_ends_in_byte_10_and_nothing_follows() {
    assert_eq!(printed(b"program 1.\n", Edition::Basic), "ok 1 3\n100000\n");
    assert_eq!(printed(b"x", Edition::Basic), "refused 3 at 0\n");
}

#[test]
fn op_12_sides_between_interruptions_are_two() {
    let bytes = b"fugitive EFGH\nprogram 1/{E:1/{F||G}|H:1/{E||F||G}}.\n";
    accepted(bytes, Edition::Adaptive, 9);
    let three = file("1/{E||F||G}.", "");
    assert_eq!(term_after(&three, "E"), Some(term("1/{F||G}")));
    assert_eq!(term_after(&three, "F"), Some(term("[1/E||1/G]")));
}

#[test]
fn op_13_a_hit_join_with_a_side_gone_becomes_the_other() {
    assert_eq!(
        term_after(&file("1/{E||F:a}.", ""), "E"),
        Some(term("1/F:a"))
    );
    assert_eq!(
        term_after(&file("1/{F:a||E}.", ""), "E"),
        Some(term("1/F:a"))
    );
    assert_eq!(term_after(&file("1/{E||E}.", "E"), "E"), None);
    assert_eq!(term_after(&file("1/{E||E:a}.", "E"), "E"), Some(term("a")));
}

#[test]
fn op_14_t_followed_by_its_star_is_not_the_star() {
    for edition in EDITIONS {
        accepted(b"program [[ab]*]*.\n", edition, 3);
        accepted(b"program bc[abc]*.\n", edition, 4);
    }
    let twice = file("[[ab]*]*.", "");
    assert_eq!(term_after(&twice, "ab"), Some(term("[ab]*[[ab]*]*")));
    assert_eq!(
        term_after(&file("[abc]*.", ""), "a"),
        Some(term("[bc][abc]*"))
    );
}

#[test]
fn op_15_brackets_and_braces_leave_no_trace() {
    assert_eq!(term("a[bc]"), term("abc"));
    assert_eq!(term("1/{E|{F|G}}"), term("1/{E|F|G}"));
    assert_eq!(term("1/{E||{F||G}}"), term("1/{E||F||G}"));
    assert_eq!(term("[[[a]]]"), term("a"));
    assert_eq!(term("[a||[b||c]]"), term("[a||b||c]"));
    assert_ne!(term("[ab]c"), term("abc"));
    assert_ne!(term("1/{{E|F}|G}"), term("1/{E|F|G}"));
    assert_ne!(term("[[a||b]||c]"), term("[a||b||c]"));
    assert_ne!(term("1/{E|F}"), term("1/{E||F}"));
}

#[test]
fn op_16_all_ends_are_one_state() {
    let bytes = file("[a||b]/{E|F:c}.", "");
    let by_e = live_after(&bytes, "E");
    let by_f = live_after(&bytes, "FFEc");
    assert_eq!(by_e.state().term, None);
    assert_eq!(by_e.state(), by_f.state());
    assert!(by_f.state().memory.is_empty() && by_f.state().stopped.is_empty());
    let traced = trace_answer(&bytes, b"FEcEFa");
    let wanted = b"start a b\nF -a -b +c\nE\nc\nE\nF\na refused 22\n";
    assert_eq!(traced, wanted);
    assert_eq!(trace_answer(&bytes, b"E"), b"start a b\nE -a -b\n");
}

#[test]
fn op_17_the_completed_module_gets_start_or_none() {
    // a completes, runs again and is preempted by the stored E within one reaction
    let again = live_after(&file("aa/E:b.", ""), "Ea");
    assert_eq!(again.state().term, Some(term("b")));
    assert!(again.state().stopped.is_empty());
    let traced = trace_answer(&file("aa/E:b.", ""), b"Ea");
    assert_eq!(traced, b"start a\nE\na +b\n");
    // so a later run of a is a start
    let traced = trace_answer(&file("aa/E:ba.", ""), b"Eab");
    assert_eq!(traced, b"start a\nE\na +b\nb +a\n");
    // preempted and back within one reaction: no order
    let traced = trace_answer(&file("a/E:a.", ""), b"E");
    assert_eq!(traced, b"start a\nE\n");
    assert!(live_after(&file("a/E:a.", ""), "E")
        .state()
        .stopped
        .is_empty());
}

#[test]
fn op_18_nothing_changes_is_possible_and_leads_to_itself() {
    let bytes = file("ab/E:c.", "");
    let stored = live_after(&bytes, "E");
    assert_eq!(stored.state(), live_after(&bytes, "EE").state());
    assert_eq!(stored.state().memory, b"E");
    let config = config(&bytes);
    let found = twin::discover::discover(&config).expect("an accepted file");
    let here = found.number_of(stored.state()).expect("discovered");
    let entry = found.entries[here].last().expect("E").as_ref();
    assert_eq!(entry.map(|e| e.next), Some(here));
}

#[test]
fn op_19_a_fugitive_event_is_taken_wherever_it_is_armed() {
    let bytes = file("[a/G:b||c/G:d||e].", "G");
    assert_eq!(term_after(&bytes, "G"), Some(term("[b||d||e]")));
    assert_eq!(trace_answer(&bytes, b"G"), b"start a c e\nG -a +b -c +d\n");
}

#[test]
fn op_20_live_runs_have_no_limit_of_states() {
    let eight = file("a1/A1/B1/C1/D1/E1/F1/G1/H.", "");
    refused_by_both(&eight, 17, 0);
    let stored = live_after(&eight, "HGFEDCBA");
    assert_eq!(stored.state().memory, b"HGFEDCBA");
    // one reaction takes all eight
    assert_eq!(term_after(&eight, "HGFEDCBAa"), None);
    let joined = file("1/{E||F}.", "");
    refused(&joined, Edition::Basic, 16, 24);
    assert_eq!(trace_answer(&joined, b"EF"), b"start\nE\nF\n");
}

#[test]
fn a_live_run_is_refused_by_2_to_14_alone() {
    assert_eq!(trace_answer(b"", b"a"), b"refused 7 at 0\n");
    let shared = b"program [a||a].\n";
    assert_eq!(trace_answer(shared, b"a"), b"refused 13 at 10\n");
    let fugitive = b"fugitive E\nprogram a/E.\n";
    assert_eq!(trace_answer(fugitive, b"E"), b"start a\nE -a\n");
}

#[test]
fn a_refused_step_leaves_the_state_as_it_was() {
    let traced = trace_answer(&file("ab/E:c.", ""), b"bXEeba1.");
    let wanted = b"start a\nb refused 22\nX refused 21\nE\ne refused 21\n\
        b refused 22\na +c\n1 refused 21\n. refused 21\n";
    assert_eq!(traced, wanted);
}
