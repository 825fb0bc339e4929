//! The worked examples of the source papers, as document 01 reads them: the number of states of
//! each, and the steps that the text shows. Events are standard unless said.

mod common;

use common::*;
use twin::answer::trace_answer;
use twin::limits::Edition;

/// Number of the example, program, fugitive events, states.
const STATES: &[(&str, &str, &str, usize)] = &[
    ("1", "ab.", "", 3),
    ("2", "[a||b].", "", 4),
    ("3", "[[ab]||[cd]].", "", 9),
    ("4", "[a*||b].", "", 2),
    ("5", "[a||b]*.", "", 3),
    ("5, the other start", "[a||b][a||b]*.", "", 4),
    ("6", "[a*||b*].", "", 1),
    ("7", "1/{E||F}.", "", 6),
    ("8", "1/{E|F}.", "", 2),
    ("9", "1/E:b.", "", 4),
    ("10", "[a/E:b]*.", "", 3),
    ("10'", "[[a1]/E:b]*.", "", 6),
    ("11", "a/{E|F}.", "", 2),
    ("12", "1/{E:a||F:b}.", "", 25),
    ("13", "a/E.", "", 2),
    ("13'", "[a1]/E.", "", 3),
    ("14", "[1/{E:a||F:b}]*.", "", 24),
    ("17", "abc.", "", 4),
    ("17, starred", "[abc]*.", "", 3),
    ("18", "a/E:b.", "", 4),
    ("19", "[ab]/E:c.", "", 7),
    ("20", "ab/E:c.", "", 8),
    ("20, bracketed", "a[b/E:c].", "", 8),
    ("21", "a/E:[b||c].", "", 8),
    ("22", "a/{E:b|F:c}.", "", 12),
    ("23", "a/{E:b||F:c}.", "", 25),
    ("24", "ab/{E:c|F:d}.", "", 27),
    ("25", "ab/E:c.", "E", 4),
    ("26", "ab/E.", "", 4),
    ("27", "a/E:b/F:ca/E:b.", "F", 10),
    ("28", "a/E:[bc]d.", "", 10),
    ("29", "a/E:bcd/F.", "", 22),
    ("30", "ab/E:c.", "", 8),
    ("32", "[[a/F:b]*||[c/F:d]*].", "F", 4),
    ("35", "a/E:b/F:c.", "", 15),
    ("36", "[a||b]/{E:c|F:d}.", "", 34),
    ("body back after two steps", "[[a/E:b]*||c*]*.", "E", 3),
];

#[test]
fn the_number_of_states_of_every_example() {
    for (name, program, fugitive, wanted) in STATES {
        let found = states(&file(program, fugitive));
        assert_eq!(found, Ok(*wanted), "example {name}: {program}");
    }
    assert_eq!(STATES.len(), 37);
}

/// Number of the example, program, fugitive events, letters, what `twin trace` prints.
const TRACES: &[(&str, &str, &str, &str, &str)] = &[
    ("1", "ab.", "", "ab", "start a|a +b|b"),
    ("2", "[a||b].", "", "ba", "start a b|b|a"),
    ("4", "[a*||b].", "", "aba", "start a b|a +a|b|a +a"),
    ("6", "[a*||b*].", "", "b", "start a b|b +b"),
    ("10", "[a/E:b]*.", "", "aEb", "start a|a +a|E -a +b|b ~a"),
    ("10'", "[[a1]/E:b]*.", "", "aEb", "start a|a|E +b|b +a"),
    ("12", "1/{E:a||F:b}.", "", "EF", "start|E +a|F +b"),
    ("19", "[ab]/E:c.", "", "E", "start a|E -a +c"),
    ("20", "ab/E:c.", "", "Ea", "start a|E|a +c"),
    ("21", "a/E:[b||c].", "", "E", "start a|E -a +b +c"),
    ("25", "ab/E:c.", "E", "EaE", "start a|E|a +b|E -b +c"),
    (
        "27",
        "a/E:b/F:ca/E:b.",
        "F",
        "EFc",
        "start a|E -a +b|F -b +c|c ~a",
    ),
    ("30", "ab/E:c.", "", "EEac", "start a|E|E|a +c|c"),
    (
        "32",
        "[[a/F:b]*||[c/F:d]*].",
        "F",
        "F",
        "start a c|F -a +b -c +d",
    ),
];

#[test]
fn the_steps_of_the_examples() {
    for (name, program, fugitive, letters, wanted) in TRACES {
        let traced = trace_answer(&file(program, fugitive), letters.as_bytes());
        let wanted = wanted.replace('|', "\n") + "\n";
        assert_eq!(traced, wanted.as_bytes(), "example {name}: {program}");
    }
}

/// Number of the example, program, fugitive events, letters, term (empty at the end), memory.
const TERMS: &[(&str, &str, &str, &str, &str, &str)] = &[
    ("2", "[a||b].", "", "a", "b", ""),
    ("2", "[a||b].", "", "b", "a", ""),
    ("4", "[a*||b].", "", "b", "a*", ""),
    ("5", "[a||b]*.", "", "a", "b[a||b]*", ""),
    ("7", "1/{E||F}.", "", "E", "1/F", ""),
    ("8", "1/{E|F}.", "", "E", "", ""),
    ("9", "1/E:b.", "", "E", "b", ""),
    ("9, E again", "1/E:b.", "", "EE", "b", "E"),
    ("10'", "[[a1]/E:b]*.", "", "a", "1/E:b[[a1]/E:b]*", ""),
    ("12", "1/{E:a||F:b}.", "", "E", "[a||1/F:b]", ""),
    ("12", "1/{E:a||F:b}.", "", "EF", "[a||b]", ""),
    ("13'", "[a1]/E.", "", "a", "1/E", ""),
    ("17", "[abc]*.", "", "a", "[bc][abc]*", ""),
    ("18", "a/E:b.", "", "a", "", ""),
    ("20", "ab/E:c.", "", "Ea", "c", ""),
    ("22", "a/{E:b|F:c}.", "", "EF", "b", "F"),
    ("23", "a/{E:b||F:c}.", "", "F", "[1/E:b||c]", ""),
    ("23", "a/{E:b||F:c}.", "", "FE", "[b||c]", ""),
    ("24", "ab/{E:c|F:d}.", "", "FEa", "d", "E"),
    ("26", "ab/E.", "", "Ea", "", ""),
    ("28", "a/E:[bc]d.", "", "E", "[bc]d", ""),
    ("28", "a/E:[bc]d.", "", "Eb", "cd", ""),
    ("28", "a/E:[bc]d.", "", "Ebc", "d", ""),
    ("35", "a/E:b/F:c.", "", "FE", "c", ""),
    ("36", "[a||b]/{E:c|F:d}.", "", "E", "c", ""),
    ("36", "[a||b]/{E:c|F:d}.", "", "ab", "", ""),
    (
        "oldest first",
        "a[[b/E]/F:d]c/E:f.",
        "",
        "EFa",
        "c/E:f",
        "F",
    ),
    ("own event", "a/E:b/E:c.", "", "E", "b/E:c", ""),
    (
        "body back",
        "[[a/E:b]*||c*]*.",
        "E",
        "Eb",
        "[[a/E:b]*||c*][[a/E:b]*||c*]*",
        "",
    ),
    (
        "nested to the left",
        "[1/{E:a||F:b}||c].",
        "",
        "E",
        "[[a||1/F:b]||c]",
        "",
    ),
];

#[test]
fn the_terms_of_the_examples() {
    for (name, program, fugitive, letters, wanted, memory) in TERMS {
        let live = live_after(&file(program, fugitive), letters);
        let left = if wanted.is_empty() {
            None
        } else {
            Some(term(wanted))
        };
        let state = live.state();
        assert_eq!(state.term, left, "example {name}: {program} {letters}");
        assert_eq!(state.memory, memory.as_bytes(), "example {name}");
    }
}

#[test]
fn the_examples_that_document_01_refuses() {
    // 2, bare
    refused_by_both(b"program a||b.\n", 8, 9);
    // 15: no `!`
    refused_by_both(b"program !a/E:b.\n", 8, 8);
    // 16: a treatment of braces
    refused_by_both(b"standard EF\nprogram 1/{E||F}:b.\n", 8, 28);
    // 31
    let bytes = b"standard EF\nprogram [[a/E:b]*||[c/E:d/F:g]*].\n";
    refused_by_both(bytes, 14, 29);
    // 33
    refused_by_both(b"fugitive F\nprogram [a/F:b||a].\n", 13, 25);
    // 7, 12, 14, 23 for Basic
    for program in ["1/{E||F}.", "1/{E:a||F:b}.", "[1/{E:a||F:b}]*."] {
        let bytes = file(program, "");
        let text = String::from_utf8_lossy(&bytes);
        let brace = text.find("||").expect("a join");
        refused(&bytes, Edition::Basic, 16, brace);
    }
}
