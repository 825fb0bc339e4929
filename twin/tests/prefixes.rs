//! No. 8 against a second reader: the grammar of document 01 as data, and a recogniser for any
//! grammar (Earley's) that says of every prefix whether some program continues it.

mod common;

use common::Random;
use std::collections::BTreeSet;
use twin::file::read_file;
use twin::grammar::read_program;

/// The grammar by bytes: a capital is a part of speech, `m` a module, `e` an event, every other
/// byte stands for itself.
const GRAMMAR: &[(u8, &str)] = &[
    (b'P', "S."),
    (b'S', "I"),
    (b'S', "IS"),
    (b'I', "T"),
    (b'I', "T/N"),
    (b'T', "A"),
    (b'T', "A*"),
    (b'A', "m"),
    (b'A', "1"),
    (b'A', "[B]"),
    (b'B', "S"),
    (b'B', "S||B"),
    (b'N', "e"),
    (b'N', "e:I"),
    (b'N', "{X}"),
    (b'N', "{Y}"),
    (b'X', "N|N"),
    (b'X', "N|X"),
    (b'Y', "N||N"),
    (b'Y', "N||Y"),
];

/// A rule read up to a dot, and where its reading began.
type Item = (usize, usize, usize);

/// The class of an input byte in the grammar.
fn class(byte: u8) -> u8 {
    match byte {
        b'a'..=b'z' => b'm',
        b'A'..=b'Z' => b'e',
        _ => byte,
    }
}

/// What stands after the dot of an item.
fn after_dot(item: &Item) -> Option<u8> {
    GRAMMAR[item.0].1.as_bytes().get(item.1).copied()
}

/// All items that follow from these at the end of `sets`.
fn close(mut items: BTreeSet<Item>, sets: &[BTreeSet<Item>]) -> BTreeSet<Item> {
    let here = sets.len();
    let mut open: Vec<Item> = items.iter().copied().collect();
    while let Some(item) = open.pop() {
        let mut new = Vec::new();
        match after_dot(&item) {
            Some(part) => {
                for (rule, (left, _)) in GRAMMAR.iter().enumerate() {
                    if *left == part {
                        new.push((rule, 0, here));
                    }
                }
            }
            None if item.2 < here => {
                let done = GRAMMAR[item.0].0;
                let waiting = sets[item.2].iter();
                let moved = waiting.filter(|w| after_dot(w) == Some(done));
                new.extend(moved.map(|w| (w.0, w.1 + 1, w.2)));
            }
            None => {}
        }
        for one in new {
            if items.insert(one) {
                open.push(one);
            }
        }
    }
    items
}

/// The sets before any byte.
fn begin() -> Vec<BTreeSet<Item>> {
    vec![close(BTreeSet::from([(0, 0, 0)]), &[])]
}

/// The set after one more byte; it is empty if no program continues with it.
fn scan(sets: &[BTreeSet<Item>], byte: u8) -> BTreeSet<Item> {
    let wanted = Some(class(byte));
    let last = sets.last().expect("a set").iter();
    let moved = last.filter(|i| after_dot(i) == wanted);
    close(moved.map(|i| (i.0, i.1 + 1, i.2)).collect(), sets)
}

/// The whole input is a program.
fn whole(sets: &[BTreeSet<Item>]) -> bool {
    sets.last().expect("a set").contains(&(0, 2, 0))
}

/// What the recogniser says: a program, or the first wrong byte of the value.
fn second_opinion(value: &[u8]) -> Result<(), usize> {
    let mut sets = begin();
    for (i, byte) in value.iter().enumerate() {
        let next = scan(&sets, *byte);
        if next.is_empty() {
            return Err(i);
        }
        sets.push(next);
    }
    if whole(&sets) {
        Ok(())
    } else {
        Err(value.len())
    }
}

/// What the reader says.
fn opinion(value: &[u8]) -> Result<(), usize> {
    let bytes = [b"program ".as_slice(), value, b"\n"].concat();
    let file = read_file(&bytes).expect("one line");
    match read_program(&file.program) {
        Ok(_) => Ok(()),
        Err(refusal) => {
            assert_eq!(refusal.number, 8);
            Err(refusal.place - 8)
        }
    }
}

/// Follows every prefix that a program continues, and tries each kind of byte behind it.
fn follow(prefix: &mut Vec<u8>, sets: &mut Vec<BTreeSet<Item>>, depth: usize) -> usize {
    let mut tried = 0;
    for byte in *b"aE1[]{}*/:|. " {
        let next = scan(sets, byte);
        prefix.push(byte);
        let viable = !next.is_empty();
        sets.push(next);
        let wanted = match (viable, whole(sets)) {
            (false, _) => Err(prefix.len() - 1),
            (true, true) => Ok(()),
            (true, false) => Err(prefix.len()),
        };
        let shown = String::from_utf8_lossy(prefix).into_owned();
        assert_eq!(opinion(prefix), wanted, "{shown:?}");
        tried += 1;
        if viable && depth > 1 {
            tried += follow(prefix, sets, depth - 1);
        }
        sets.pop();
        prefix.pop();
    }
    tried
}

#[test]
fn every_value_of_up_to_8_bytes_is_refused_at_the_byte_that_no_program_continues_with() {
    let tried = follow(&mut Vec::new(), &mut begin(), 8);
    assert!(tried > 100_000, "only {tried} values");
}

#[test]
fn long_values_with_one_byte_changed_are_refused_at_the_same_byte() {
    let long: &[&[u8]] = &[
        b"[[a/E:[b||1/F:c]*]*||d/{E|F:[a||b]|{G||H:c/I}}]*ef/{E||F||{G|H|I}}.",
        b"a/E:b/F:c/{G:[a||b||c]*|H|I:1}d*e[f]*/{A|B}.",
        b"[[[[a||b]||c]||d]||e]/{{{E|F}||G}|H}.",
    ];
    let mut random = Random(0x1995_0146_0109_0143);
    let (mut same, mut wrong) = (0, 0);
    for _ in 0..6_000 {
        let mut value = long[random.below(long.len())].to_vec();
        let at = random.below(value.len());
        let byte = b"aE1[]{}*/:|. !"[random.below(14)];
        match random.below(3) {
            0 => value[at] = byte,
            1 => value.insert(at, byte),
            _ => {
                value.remove(at);
            }
        }
        let shown = String::from_utf8_lossy(&value).into_owned();
        let wanted = second_opinion(&value);
        assert_eq!(opinion(&value), wanted, "{shown:?}");
        match wanted {
            Ok(()) => same += 1,
            Err(_) => wrong += 1,
        }
    }
    assert!(same > 100 && wrong > 1_000, "{same} {wrong}");
}
