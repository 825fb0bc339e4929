//! Every file of `tests/cases`: both answers, byte for byte.

mod common;

use common::{all_cases, heavy_cases, light_cases, Case};
use std::io::Write;
use twin::answer::compile_answer;
use twin::limits::Edition;

/// Both answers of each case; how many files were compared.
fn compare(cases: &[Case]) -> usize {
    for case in cases {
        let basic = compile_answer(&case.file, Edition::Basic);
        let adaptive = compile_answer(&case.file, Edition::Adaptive);
        assert!(basic == case.basic, "{}: basic", case.name);
        assert!(adaptive == case.adaptive, "{}: adaptive", case.name);
    }
    cases.len()
}

/// Says it past the capture of the test runner.
fn say(text: &str) {
    writeln!(std::io::stdout(), "{text}").expect("standard output");
}

#[test]
fn every_case_is_answered_byte_for_byte() {
    let compared = compare(&light_cases());
    say(&format!("cases: {compared} files compared, both editions"));
    assert!(compared >= 400, "only {compared} files");
}

#[test]
fn every_heavy_case_is_answered_byte_for_byte() {
    let compared = compare(&heavy_cases());
    say(&format!("heavy: {compared} files compared, both editions"));
    assert!(compared >= 10, "only {compared} files");
}

#[test]
fn the_cases_meet_every_refusal_that_a_file_can_meet() {
    let cases = all_cases();
    let answers = cases.iter().flat_map(|c| [&c.basic, &c.adaptive]);
    let starts: Vec<&[u8]> = answers.map(|a| &a[..a.len().min(11)]).collect();
    for number in 2..=17 {
        let wanted = format!("refused {number} ");
        let met = starts.iter().any(|s| s.starts_with(wanted.as_bytes()));
        assert!(met, "no case is refused by {number}");
    }
    assert!(starts.iter().any(|s| s.starts_with(b"ok ")));
}
