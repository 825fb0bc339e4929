//! The runs of document 01 under "Runs to check", each by its letters: the orders of every
//! letter, then the state. A term is compared as a tree.

mod common;

use common::*;
use std::collections::HashSet;
use twin::answer::trace_answer;
use twin::discover::letters;
use twin::limits::Edition;
use twin::live::Live;

/// One run: each letter with its orders, then the term (empty at the end), memory and stopped.
struct Run {
    program: &'static str,
    fugitive: &'static str,
    steps: &'static [(&'static str, &'static str)],
    term: &'static str,
    memory: &'static str,
    stopped: &'static str,
}

/// Runs it live; answers the live state, so that a test may go on from it.
fn check(run: &Run) -> Live {
    let mut live = Live::start(&file(run.program, run.fugitive)).expect(run.program);
    for (letter, wanted) in run.steps {
        let orders = live.step(letter.as_bytes()[0]).expect(letter);
        let shown = orders_text(&live.config().modules, &orders);
        assert_eq!(&shown, wanted, "{} at {letter}", run.program);
    }
    let state = live.state();
    let left = if run.term.is_empty() {
        None
    } else {
        Some(term(run.term))
    };
    assert_eq!(state.term, left, "{}: term", run.program);
    assert_eq!(state.memory, run.memory.as_bytes(), "{}", run.program);
    let stopped: Vec<u8> = state.stopped.iter().copied().collect();
    assert_eq!(stopped, run.stopped.as_bytes(), "{}", run.program);
    live
}

#[test]
fn p_run_1_a_interrupted_by_e_has_this_table() {
    let two_lines = b"standard E\nprogram a/E.\n";
    for edition in EDITIONS {
        let wanted = "ok 2 11\n1110010118048070008040\n";
        assert_eq!(printed(two_lines, edition), wanted);
    }
}

#[test]
fn p_run_2_a_sequence_goes_on() {
    check(&Run {
        program: "ab.",
        fugitive: "",
        steps: &[("a", "+b")],
        term: "b",
        memory: "",
        stopped: "",
    });
}

#[test]
fn p_run_3_a_starred_pair_comes_back() {
    let a = Run {
        program: "[a||b]*.",
        fugitive: "",
        steps: &[("a", "")],
        term: "b[a||b]*",
        memory: "",
        stopped: "",
    };
    check(&a);
    let back = check(&Run {
        steps: &[("a", ""), ("b", "+a +b")],
        term: "[a||b]*",
        ..a
    });
    assert_eq!(back.state(), &back.config().start());
}

#[test]
fn p_run_4_a_starred_side_stays() {
    let live = check(&Run {
        program: "[a*||b].",
        fugitive: "",
        steps: &[("a", "+a")],
        term: "[a*||b]",
        memory: "",
        stopped: "",
    });
    assert_eq!(live.state(), &live.config().start());
}

#[test]
fn p_run_5_the_oldest_stored_event_is_served() {
    check(&Run {
        program: "ab/{E:c|F:d}.",
        fugitive: "",
        steps: &[("F", ""), ("E", ""), ("a", "+d")],
        term: "d",
        memory: "E",
        stopped: "",
    });
}

#[test]
fn p_run_6_a_fugitive_event_is_not_stored() {
    let before = Run {
        program: "ab/E:c.",
        fugitive: "E",
        steps: &[("E", "")],
        term: "ab/E:c",
        memory: "",
        stopped: "",
    };
    check(&before);
    check(&Run {
        steps: &[("E", ""), ("a", "+b"), ("E", "-b +c")],
        term: "c",
        stopped: "b",
        ..before
    });
}

#[test]
fn p_run_7_settling_takes_the_stored_event_after() {
    check(&Run {
        program: "a/E:b/F:c.",
        fugitive: "",
        steps: &[("F", ""), ("E", "-a +c")],
        term: "c",
        memory: "",
        stopped: "a",
    });
}

#[test]
fn p_run_8_a_starred_treatment_resumes() {
    let live = check(&Run {
        program: "[a/E:b]*.",
        fugitive: "",
        steps: &[("E", "-a +b"), ("b", "~a")],
        term: "[a/E:b]*",
        memory: "",
        stopped: "",
    });
    assert_eq!(live.state(), &live.config().start());
    for edition in EDITIONS {
        accepted(&file("[a/E:b]*.", ""), edition, 3);
    }
}

#[test]
fn p_run_9_a_starred_part_that_is_gone_is_the_same_state() {
    let live = check(&Run {
        program: "[a/E]*.",
        fugitive: "",
        steps: &[("E", "")],
        term: "[a/E]*",
        memory: "",
        stopped: "",
    });
    assert_eq!(live.state(), &live.config().start());
    accepted(&file("[a/E]*.", ""), Edition::Basic, 1);
}

#[test]
fn p_run_10_a_side_not_hit_waits() {
    check(&Run {
        program: "1/{E||F}.",
        fugitive: "",
        steps: &[("E", "")],
        term: "1/F",
        memory: "",
        stopped: "",
    });
    let bytes = b"standard EF\nprogram 1/{E||F}.\n";
    refused(bytes, Edition::Basic, 16, 24);
    accepted(bytes, Edition::Adaptive, 6);
}

#[test]
fn p_run_11_the_outer_interruption_wins() {
    check(&Run {
        program: "[a/E:b]/E:c.",
        fugitive: "",
        steps: &[("E", "-a +c")],
        term: "c",
        memory: "",
        stopped: "a",
    });
}

#[test]
fn p_run_12_a_fugitive_event_is_taken_on_both_sides() {
    check(&Run {
        program: "[a/G||b/G].",
        fugitive: "G",
        steps: &[("G", "-a -b")],
        term: "",
        memory: "",
        stopped: "",
    });
    refused_by_both(b"standard G\nprogram [a/G||b/G].\n", 14, 23);
}

#[test]
fn run_13_eight_modules_and_one_event_have_512_states() {
    let bytes = file("[a||b||c||d||e||f||g||h||1/E].", "E");
    accepted(&bytes, Edition::Adaptive, 512);
    refused(&bytes, Edition::Basic, 15, 0);
}

#[test]
fn run_14_with_two_events_in_turn_they_are_768() {
    let bytes = file("[a||b||c||d||e||f||g||h||1/E1/E].", "E");
    refused(&bytes, Edition::Adaptive, 17, 0);
    let config = config(&bytes);
    let mut seen = HashSet::from([config.start()]);
    let mut open = vec![config.start()];
    while let Some(state) = open.pop() {
        for letter in letters(&config) {
            if let Ok(reaction) = config.step(&state, letter) {
                if seen.insert(reaction.state.clone()) {
                    open.push(reaction.state);
                }
            }
        }
    }
    assert_eq!(seen.len(), 768);
}

#[test]
fn run_15_the_three_refusals() {
    refused_by_both(b"standard E\nfugitve F\n", 4, 11);
    refused_by_both(b"program a/.\n", 8, 10);
    refused_by_both(b"", 7, 0);
}

// Slips that people make here.

#[test]
fn slip_the_leftmost_stored_event_is_not_served() {
    let first_e = file("ab/{E:c|F:d}.", "");
    assert_eq!(term_after(&first_e, "EFa"), Some(term("c")));
    assert_eq!(live_after(&first_e, "EFa").state().memory, b"F");
}

#[test]
fn slip_a_module_that_never_runs_gets_no_order() {
    let traced = trace_answer(&file("ab/{E:c|F:d}.", ""), b"FEa");
    assert_eq!(traced, b"start a\nF\nE\na +d\n");
}

#[test]
fn slip_a_module_that_completed_starts_again() {
    let traced = trace_answer(&file("[ab]*.", ""), b"abab");
    assert_eq!(traced, b"start a\na +b\nb +a\na +b\nb +a\n");
    // stopped by E, resumed, then completed: it starts
    let traced = trace_answer(&file("[[ac]/E:b]*.", "E"), b"EbacEbE");
    let wanted = b"start a\nE -a +b\nb ~a\na +c\nc +a\nE -a +b\nb ~a\nE -a +b\n";
    assert_eq!(traced, wanted);
}

#[test]
fn slip_basic_does_not_read_fugitive_as_standard() {
    refused(b"program a/E.\nfugitive E\n", Edition::Basic, 15, 13);
    accepted(b"program a/E.\nfugitive E\n", Edition::Adaptive, 2);
}
