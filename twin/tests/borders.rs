//! The borders of the refusals 2 to 16: the last file that passes, the first that does not, its
//! place, and which number wins where two apply.

mod common;

use common::*;
use twin::limits::Edition;

/// Each file is refused by both editions by this number at its place.
fn all_refused(number: u8, files: &[(&[u8], usize)]) {
    for (bytes, place) in files {
        refused_by_both(bytes, number, *place);
    }
}

/// A file of one program line, and the offset of its value.
fn program(value: &str) -> Vec<u8> {
    format!("program {value}\n").into_bytes()
}

/// The value of `program` is refused by 8, at this byte of the value.
fn not_a_program(value: &str, at: usize) {
    refused_by_both(&program(value), 8, 8 + at);
}

#[test]
fn no_2_a_file_has_at_most_1024_bytes() {
    let long = |bytes: usize| program(&("a".repeat(bytes - 10) + "."));
    assert_eq!(long(1024).len(), 1024);
    refused_by_both(&long(1024), 9, 104);
    refused_by_both(&long(1025), 2, 0);
    // 2 before 3
    refused_by_both(&[b'x'; 1025], 2, 0);
    refused_by_both(&[b'x'; 1024], 3, 0);
    refused_by_both(&vec![b'\n'; 100_000], 2, 0);
}

#[test]
fn no_3_a_line_has_an_end_a_space_and_a_value() {
    all_refused(
        3,
        &[
            (b"program a.", 0),
            (b"program", 0),
            (b"program\n", 0),
            (b"program \n", 0),
            (b"program\ta.\n", 0),
            (b"\n", 0),
            (b" \n", 0),
            (b"standard E\n\nprogram a/E.\n", 11),
            (b"standard \nprogram a.\n", 0),
            (b"standard E\nprogram a/E.", 11),
            (b"program a.\nx", 11),
            // 3 before 4 and 5 in the same line
            (b"foo \n", 0),
            (b"foo", 0),
            (b"program a.\nprogram \n", 11),
            (b"program a.\nprogram a.", 11),
        ],
    );
    accepted(b"program a.\n", Edition::Basic, 2);
}

#[test]
fn no_4_a_key_is_one_of_three() {
    all_refused(
        4,
        &[
            (b"programs a.\n", 0),
            (b"progra a.\n", 0),
            (b"Program a.\n", 0),
            (b" program a.\n", 0),
            (b"  \n", 0),
            (b" x\n", 0),
            (b"standard E\nfugitve F\n", 11),
            (b"program a.\nfoo x\n", 11),
            (b"program a.\n\xff x\n", 11),
            // 4 of an earlier line before 3 of a later
            (b"foo x\nprogram", 0),
        ],
    );
}

#[test]
fn no_5_a_key_stands_once() {
    all_refused(
        5,
        &[
            (b"program a.\nprogram a.\n", 11),
            (b"standard E\nprogram a/E.\nstandard F\n", 24),
            (b"fugitive E\nfugitive F\nprogram a/E.\n", 11),
            // 5 before 6
            (b"standard E\nstandard E\n", 11),
            (b"standard E\nstandard e\n", 11),
            // 5 before 8
            (b"program .\nprogram a.\n", 10),
        ],
    );
    // in any order
    accepted(
        b"program a/{E|F}.\nfugitive F\nstandard E\n",
        Edition::Adaptive,
        2,
    );
    accepted(b"program a/{E|F}.\nstandard FE\n", Edition::Basic, 2);
}

#[test]
fn no_6_a_list_has_letters_a_to_z_each_once_in_the_file() {
    all_refused(
        6,
        &[
            (b"standard EE\n", 10),
            (b"standard EFGE\n", 12),
            (b"standard EF\nfugitive GF\n", 22),
            (b"fugitive EF\nprogram a/E.\nstandard GE\n", 35),
            (b"standard e\n", 9),
            (b"standard E F\n", 10),
            (b"standard E\r\n", 10),
            (b"standard  E\n", 9),
            (b"standard @\n", 9),
            (b"standard [\n", 9),
            (b"standard E\xff\n", 10),
            (b"standard E\0\n", 10),
            (b"standard 1\n", 9),
            // the first of several
            (b"standard EEe\n", 10),
            (b"standard EeE\n", 10),
            // 6 of an earlier line before 3, 4, 5 of a later
            (b"standard e\nprogram\n", 9),
            (b"standard e\nfoo x\n", 9),
            (b"standard e\nstandard E\n", 9),
        ],
    );
    let alphabet = b"standard ABCDEFGHIJKLMNOPQRSTUVWXYZ\n";
    refused_by_both(alphabet, 7, 36);
}

#[test]
fn no_7_a_file_has_a_program_line() {
    all_refused(
        7,
        &[
            (b"", 0),
            (b"standard E\n", 11),
            (b"standard E\nfugitive F\n", 22),
        ],
    );
}

/// Values that are no programs, each with the first byte that no program continues with.
const WRONG_AT: &[(&str, usize)] = &[
    ("{E|F||G}.", 0),
    ("a/{E|F||G}.", 7),
    ("a/{E||F|G}.", 8),
    ("a/{E|}.", 5),
    ("a/{E||}.", 6),
    ("a/{E|||F}.", 6),
    ("a/{E}.", 4),
    ("a/{}.", 3),
    ("a/{E|F.", 6),
    ("a/{E:b|F:c}d*/{G}.", 16),
    ("a/{E:bc|F}.", 6),
    ("a/{E]|F}.", 4),
    ("[a|b].", 3),
    ("[a||b|c].", 6),
    ("[a|||b].", 4),
    ("[a||].", 4),
    ("[a||b.", 5),
    ("[].", 1),
    ("[a.", 2),
    ("[a}.", 2),
    ("a].", 1),
    ("a||b.", 1),
    ("a|b.", 1),
    ("a**.", 2),
    ("[a*]**.", 5),
    ("*a.", 0),
    ("a/E*.", 3),
    ("a/E/F.", 3),
    ("a/E:.", 4),
    ("a/E:F.", 4),
    ("a/E:b:c.", 5),
    ("a/E::b.", 4),
    ("a/b.", 2),
    ("a/.", 2),
    ("a/1.", 2),
    ("/E.", 0),
    ("E.", 0),
    ("a:b.", 1),
    (".", 0),
    ("2.", 0),
    ("aE.", 1),
    ("a b.", 1),
    (" a.", 0),
    ("a!", 1),
];

#[test]
fn no_8_the_first_byte_that_no_program_continues_with() {
    for (value, at) in WRONG_AT {
        not_a_program(value, *at);
    }
    assert!(WRONG_AT.len() > 40);
}

#[test]
fn no_8_nothing_follows_the_dot() {
    for (value, at) in [("a..", 2), ("a.a", 2), ("a. ", 2), ("a.\r", 2), ("1.1.", 2)] {
        not_a_program(value, at);
    }
}

#[test]
fn no_8_at_the_line_end_if_the_value_stops_short() {
    for value in [
        "a",
        "a*",
        "a/",
        "a/E",
        "a/E:",
        "a/{",
        "a/{E",
        "a/{E|",
        "a/{E||",
        "a/{E|F",
        "[",
        "[a",
        "[a|",
        "[a||",
        "[a]",
        "ab",
        "1",
        "a/{E|{F|G}",
    ] {
        not_a_program(value, value.len());
    }
}

#[test]
fn no_8_bytes_that_are_no_marks() {
    for byte in [
        0u8, 9, 13, 32, b'!', b'0', b'2', b'(', b'@', b'`', b'~', 127, 128, 255,
    ] {
        let bytes = [b"program a".as_slice(), &[byte], b".\n"].concat();
        refused_by_both(&bytes, 8, 9);
    }
    // the place counts from the start of the file
    refused_by_both(b"standard E\nprogram a/E!\n", 8, 22);
    refused_by_both(b"program a/E!\nstandard E\n", 8, 11);
    // 8 before all that follow
    refused_by_both(b"fugitive F\nprogram [a||a]/E!\n", 8, 27);
}

#[test]
fn no_8_deep_files_do_not_overflow() {
    for (open, value_length) in [("[", 1014), ("a/{", 1014), ("a/E:", 1015), ("a/{E|{", 1014)] {
        let value: String = open.chars().cycle().take(value_length).collect();
        let bytes = program(&value);
        assert!(bytes.len() <= 1024);
        let answer = twin::table::compile(&bytes, Edition::Adaptive).map(|c| c.states);
        let refusal = answer.expect_err("not a program");
        assert_eq!(refusal.number, 8, "{open}");
    }
    let deep = "[".repeat(506) + "a" + &"]".repeat(506) + ".";
    refused_by_both(&program(&deep), 9, 104);
    let braces = "a/".to_string() + &"{".repeat(250) + "E" + &"|E}".repeat(250) + ".";
    refused_by_both(&program(&braces), 9, 104);
    let treatments = "a/E:".repeat(252) + "a.";
    refused_by_both(&program(&treatments), 9, 104);
    let joined = "[a".to_string() + &"||a".repeat(335) + "].";
    refused_by_both(&program(&joined), 9, 8 + 2 + 47 * 3);
}

#[test]
fn no_9_tokens_at_most_96() {
    let letters = |count: usize| program(&("a".repeat(count) + "."));
    accepted(&letters(95), Edition::Basic, 96);
    refused_by_both(&letters(96), 9, 104);
    refused_by_both(&letters(97), 9, 104);
    // `||` is one token: 1 + 3 * 30 + 1 + 4 = 96, over 120 bytes
    let joined = |tail: &str| format!("[{}1]{tail}", "1||1".repeat(30));
    accepted(&program(&joined("11.")), Edition::Basic, 1);
    refused_by_both(&program(&joined("111.")), 9, 8 + joined("111").len());
    // the 97th token is a `||`: its first bar is the place
    let value = format!("{}[b||c].", "a".repeat(94));
    refused_by_both(&program(&value), 9, 8 + 96);
}

#[test]
fn no_9_brackets_and_braces_at_most_16_deep() {
    let deep = |count: usize| program(&("[".repeat(count) + "a" + &"]".repeat(count) + "."));
    accepted(&deep(16), Edition::Basic, 2);
    refused_by_both(&deep(17), 9, 8 + 16);
    refused_by_both(&deep(20), 9, 8 + 16);
    let mixed = |braces: usize| {
        let open = "{".repeat(braces) + "E" + &"|E}".repeat(braces);
        let value = "[".repeat(10) + "a/" + &open + &"]".repeat(10) + ".";
        file(&value, "")
    };
    accepted(&mixed(6), Edition::Basic, 2);
    refused_by_both(&mixed(7), 9, 11 + 8 + 10 + 2 + 6);
    // many brackets side by side are not deep
    accepted(&program(&("[a]".repeat(31) + ".")), Edition::Basic, 32);
}

#[test]
fn no_9_stars_at_most_3_deep() {
    accepted(&program("[[a*]*]*."), Edition::Basic, 1);
    refused_by_both(&program("[[[a*]*]*]*."), 9, 8 + 10);
    refused_by_both(&program("[[[[a*]*]*]*]*."), 9, 8 + 11);
    // beside each other they are not deep
    accepted(&program("a*b*c*d*."), Edition::Basic, 1);
    accepted(&program("[[a*]*]*[[b*]*]*."), Edition::Basic, 1);
    // one level through a treatment, in braces too
    refused_by_both(&file("[[a/E:[b*]*]*]*.", ""), 9, 19 + 14);
    accepted(&file("[a/E:[b*]*]*.", ""), Edition::Basic, 3);
    refused_by_both(&file("[[a/{E|F:[b*]*}]*]*.", ""), 9, 20 + 18);
    refused_by_both(&file("[[[1/{E||F:b*}]*]*]*.", ""), 9, 20 + 19);
    // the first of two, in the text
    refused_by_both(&program("[[[a*]*]*]*[[[b*]*]*]*."), 9, 8 + 10);
}

#[test]
fn no_9_tokens_then_brackets_then_stars() {
    // stars first in the text, brackets deeper later, tokens last
    let stars = "[[[a*]*]*]*";
    let brackets = "[".repeat(17) + "a" + &"]".repeat(17);
    let tokens = "a".repeat(60);
    let bytes = program(&format!("{stars}{brackets}{tokens}."));
    refused_by_both(&bytes, 9, 8 + 96);
    let bytes = program(&format!("{stars}{brackets}."));
    refused_by_both(&bytes, 9, 8 + 11 + 16);
    refused_by_both(&program(&format!("{stars}.")), 9, 8 + 10);
}

#[test]
fn no_10_every_event_is_listed() {
    refused_by_both(b"program a/E.\n", 10, 10);
    refused_by_both(b"standard E\nprogram a/{E|F:b/G}.\n", 10, 24);
    refused_by_both(b"program a/{E|F:b/G}.\nfugitive E\n", 10, 13);
    // 9 before 10, 10 before 11
    refused_by_both(b"program [[[a*]*]*]*/E.\n", 9, 18);
    refused_by_both(b"standard F\nprogram a/E.\n", 10, 21);
}

#[test]
fn no_11_every_listed_event_is_used() {
    refused_by_both(b"standard E\nprogram a.\n", 11, 9);
    refused_by_both(b"standard EFG\nprogram a/E.\n", 11, 10);
    refused_by_both(b"program a/E.\nfugitive Z\nstandard AE\n", 11, 22);
    // 11 before 12 and 13
    refused_by_both(b"standard E\nprogram abcdefghi.\n", 11, 9);
    refused_by_both(b"standard E\nprogram [a||a].\n", 11, 9);
}

#[test]
fn no_12_at_most_8_modules_then_8_events() {
    accepted(b"program abcdefgh.\n", Edition::Basic, 9);
    accepted(b"program hgfedcbaabcdefgh.\n", Edition::Basic, 17);
    refused_by_both(b"program abcdefghi.\n", 12, 16);
    refused_by_both(b"program ihgfedcba.\n", 12, 16);
    refused_by_both(b"program aabbccddeeffgghhiij.\n", 12, 24);
    let events = |value: &str| file(&format!("1/{{{value}}}."), "");
    accepted(&events("A|B|C|D|E|F|G|H"), Edition::Basic, 2);
    refused_by_both(&events("A|B|C|D|E|F|G|H|I"), 12, 19 + 8 + 3 + 16);
    // modules over the whole program before events
    let both = file("1/{A|B|C|D|E|F|G|H|I}abcdefghi.", "");
    refused_by_both(&both, 12, 19 + 8 + 21 + 8);
    // 12 before 13
    refused_by_both(b"program [a||a]bcdefghi.\n", 12, 21);
}

#[test]
fn no_13_two_sides_share_no_module() {
    refused_by_both(&program("[a||a]."), 13, 8 + 2);
    refused_by_both(&program("[ab||ca]."), 13, 8 + 3);
    refused_by_both(&program("[a||b||b]."), 13, 8 + 5);
    refused_by_both(&program("[a||b||a]."), 13, 8 + 2);
    // in the left side the inner `||` comes first in the text
    refused_by_both(&program("[[a||a]||a]."), 13, 8 + 3);
    refused_by_both(&program("[[a||b]||[c||a]]."), 13, 8 + 7);
    refused_by_both(&program("[b||[a||a]]."), 13, 8 + 6);
    // through treatments, stars and braces
    refused_by_both(&file("[a/E:b*||b].", ""), 13, 19 + 7);
    refused_by_both(&file("1/{E:a||F:[a]*}.", ""), 13, 20 + 6);
    refused_by_both(&file("1/{E:a||F:b||G:1/H:a}.", ""), 13, 22 + 6);
    // the module that is interrupted stands on no side of the braces
    accepted(&file("a/{E:a||F:b}.", ""), Edition::Adaptive, 25);
    // alternatives of `|` are no sides
    // the start, a with the memories of E and F in either order, the end
    accepted(&file("1/{E:a|F:a}.", ""), Edition::Basic, 7);
    accepted(&program("[a||b][a||b]."), Edition::Basic, 7);
    accepted(&program("[1||1||1]."), Edition::Basic, 1);
}

#[test]
fn no_14_two_sides_share_no_standard_event() {
    refused_by_both(&file("[a/E||b/E].", ""), 14, 19 + 4);
    refused_by_both(&file("[a/E||b||c/E].", ""), 14, 19 + 4);
    refused_by_both(&file("[b||a/E||c/{F|E}].", ""), 14, 20 + 7);
    refused_by_both(&file("1/{E||E}.", ""), 14, 19 + 4);
    refused_by_both(&file("1/{E:1/F||F}.", ""), 14, 20 + 8);
    refused_by_both(&file("1/{E||F||E}.", ""), 14, 20 + 4);
    refused_by_both(&file("1/{{E||F}||{G||E}}.", ""), 14, 21 + 9);
    // in sequence and in `|` it may stand twice
    // b runs with a stopped or not
    accepted(&file("a/Eb/E.", ""), Edition::Basic, 4);
    accepted(&file("1/{E|E}.", ""), Edition::Basic, 2);
}

#[test]
fn no_14_a_fugitive_event_may_stand_on_both_sides() {
    accepted(&file("[a/E||b/E].", "E"), Edition::Adaptive, 4);
    accepted(&file("1/{E||E}.", "E"), Edition::Adaptive, 2);
    refused(&file("[a/E||b/E].", "E"), Edition::Basic, 15, 0);
    // one fugitive and shared, one standard and shared
    let bytes = b"fugitive F\nstandard E\nprogram [[a/F||b/F]/E||c/E].\n";
    refused_by_both(bytes, 14, 22 + 8 + 13);
    // 13 over the whole program before 14
    let both = file("[a/E||b/E][c||c].", "");
    refused_by_both(&both, 13, 19 + 12);
}

#[test]
fn no_15_basic_has_no_fugitive_line() {
    refused(b"fugitive E\nprogram a/E.\n", Edition::Basic, 15, 0);
    let last = b"standard F\nprogram a/{E|F}.\nfugitive E\n";
    refused(last, Edition::Basic, 15, 28);
    accepted(last, Edition::Adaptive, 2);
    // 14 before 15, 15 before 16
    let shared = b"fugitive F\nstandard E\nprogram [a/E||b/E]/F.\n";
    refused_by_both(shared, 14, 22 + 8 + 4);
    let joined = b"program 1/{E||F}.\nstandard E\nfugitive F\n";
    refused(joined, Edition::Basic, 15, 29);
}

#[test]
fn no_16_basic_has_no_joined_interruptions() {
    let bytes = file("[a||b]/{E|{F||G}}c/{H||I}.", "");
    refused(&bytes, Edition::Basic, 16, 23 + 12);
    // the first in the text, inside a treatment of the left side
    let bytes = file("1/{E:1/{F||G}||H}.", "");
    refused(&bytes, Edition::Basic, 16, 22 + 9);
    // 16 before 17
    let many = file("[a||b||c||d||e||f||g||h||1/{E||F}].", "");
    refused(&many, Edition::Basic, 16, 20 + 29);
    refused(&many, Edition::Adaptive, 17, 0);
    // `||` between sequences is no such join
    accepted(&program("[a||b]."), Edition::Basic, 4);
}

#[test]
fn no_17_at_most_512_states() {
    let all = "[a||b||c||d||e||f||g||h||1/E]";
    accepted(&file(&format!("{all}."), "E"), Edition::Adaptive, 512);
    // one state before them
    refused(&file(&format!("1/F{all}."), "EF"), Edition::Adaptive, 17, 0);
    // 255 rests of the body, h, and the end
    let seven = file("[a||b||c||d||e||f||g||1/E]h.", "E");
    accepted(&seven, Edition::Adaptive, 257);
}
