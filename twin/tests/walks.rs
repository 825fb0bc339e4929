//! Live runs against tables, on random walks from a fixed seed, refused letters among them; and
//! random bytes, which must be answered and never break anything.

mod common;

use common::*;
use twin::config::read_config;
use twin::discover::{discover, letters, Discovery};
use twin::limits::Edition;
use twin::live::Live;
use twin::table::{compile, table_start, table_step, Table};

/// How the steps of a walk went.
#[derive(Default)]
struct Tally {
    taken: usize,
    refused: usize,
}

/// One walk, live and by the table; the live state's number is the table's state.
fn walk(bytes: &[u8], table: &Table, found: &Discovery, random: &mut Random, tally: &mut Tally) {
    let mut live = Live::start(bytes).expect("an accepted file");
    assert_eq!(live.running(), table.running());
    let mut choice = letters(live.config());
    choice.extend([b'z', b'Z', b'1']);
    let mut state = 0;
    for _ in 0..60 {
        let letter = choice[random.below(choice.len())];
        match (live.step(letter), table.step(state, letter)) {
            (Ok(orders), Ok(entry)) => {
                assert_eq!(orders, entry.orders);
                state = entry.next;
                tally.taken += 1;
            }
            (by_live, by_table) => {
                assert_eq!(by_live.err(), by_table.err());
                tally.refused += 1;
            }
        }
        assert_eq!(found.number_of(live.state()), Some(state));
    }
}

#[test]
fn live_and_table_agree_on_random_walks() {
    let mut random = Random(0x0001_9950_2932_4315);
    let mut tally = Tally::default();
    let mut files = 0;
    for case in all_cases() {
        let compiled = match compile(&case.file, Edition::Adaptive) {
            Ok(compiled) => compiled,
            Err(_) => continue,
        };
        let table = Table::read(&compiled.table).expect("a table");
        let found = discover(&config(&case.file)).expect("accepted");
        for _ in 0..8 {
            walk(&case.file, &table, &found, &mut random, &mut tally);
        }
        files += 1;
    }
    assert!(files > 150, "only {files} files");
    assert!(tally.taken > 20_000, "only {} steps", tally.taken);
    assert!(tally.refused > 5_000, "only {} refusals", tally.refused);
}

/// A file with some of its bytes changed, taken out or put in.
fn damaged(bytes: &[u8], random: &mut Random) -> Vec<u8> {
    let mut bytes = bytes.to_vec();
    for _ in 0..1 + random.below(3) {
        let at = random.below(bytes.len().max(1));
        let byte = match random.below(4) {
            0 => random.below(256) as u8,
            1 => b"\n standardfugitiveprogram"[random.below(25)],
            _ => b"abcEFG1[]{}*/:|.|*"[random.below(18)],
        };
        match random.below(3) {
            0 if at < bytes.len() => bytes[at] = byte,
            1 if at < bytes.len() => {
                bytes.remove(at);
            }
            _ => bytes.insert(at.min(bytes.len()), byte),
        }
    }
    bytes
}

#[test]
fn damaged_files_are_answered_and_basic_agrees_with_adaptive() {
    let mut random = Random(0x0123_4567_89ab_cdef);
    let mut met = [0usize; 24];
    for case in light_cases() {
        for _ in 0..12 {
            let bytes = damaged(&case.file, &mut random);
            let adaptive = compile(&bytes, Edition::Adaptive);
            let basic = compile(&bytes, Edition::Basic);
            match (basic, adaptive) {
                (Err(basic), adaptive) if basic.number == 15 || basic.number == 16 => {
                    // the edition alone refuses it: the rest is in order
                    let number = adaptive.map_or_else(|r| r.number, |_| 17);
                    assert_eq!(number, 17);
                    met[usize::from(basic.number)] += 1;
                }
                (basic, adaptive) => {
                    let number = basic.as_ref().map_or_else(|r| r.number, |_| 0);
                    assert_eq!(basic, adaptive);
                    let place = basic.map_or_else(|r| r.place, |_| 0);
                    assert!(number <= 17 && place <= bytes.len());
                    met[usize::from(number)] += 1;
                }
            }
        }
    }
    for number in [0, 3, 4, 5, 6, 7, 8, 10, 11, 13, 14, 15, 16] {
        assert!(met[number] > 0, "no damaged file met {number}: {met:?}");
    }
}

#[test]
fn a_live_run_starts_exactly_where_adaptive_finds_nothing_up_to_14() {
    let mut random = Random(0xfeed_0000_1234_0001);
    let (mut started, mut refused) = (0, 0);
    for case in light_cases() {
        for turn in 0..6 {
            let bytes = match turn {
                0 => case.file.clone(),
                _ => damaged(&case.file, &mut random),
            };
            let live = Live::start(&bytes).map(|_| ());
            let read = read_config(&bytes, Edition::Adaptive).map(|_| ());
            let compiled = compile(&bytes, Edition::Adaptive).map(|_| ());
            assert_eq!(live, read);
            match live {
                Ok(()) => {
                    assert!(compiled.map_or_else(|r| r.number == 17, |_| true));
                    started += 1;
                }
                Err(refusal) => {
                    assert!(refusal.number <= 14);
                    assert_eq!(compiled, Err(refusal));
                    refused += 1;
                }
            }
        }
    }
    assert!(started > 100 && refused > 1_000, "{started} {refused}");
}

/// A table or not: start and step agree, and a step goes to a state of the table. Is it one?
fn answered(bytes: &[u8], state: usize, letter: u8) -> bool {
    let step = table_step(bytes, state, letter).map(|e| e.next);
    let table = match Table::read(bytes) {
        Ok(table) => table,
        Err(refusal) => {
            assert_eq!((refusal.number, refusal.place), (19, 0));
            assert_eq!(step, Err(refusal));
            assert_eq!(table_start(bytes), Err(refusal));
            return false;
        }
    };
    assert_eq!(table_start(bytes), Ok(table.running()));
    match step {
        Ok(next) => assert!(next < table.states() && state < table.states()),
        Err(refusal) => {
            assert!((20..=22).contains(&refusal.number));
            assert_eq!(refusal.number == 20, state >= table.states());
        }
    }
    true
}

#[test]
fn damaged_tables_are_answered() {
    let mut random = Random(0x0bad_cafe_0bad_cafe);
    let (mut taken, mut refused) = (0, 0);
    for case in light_cases() {
        let table = match compile(&case.file, Edition::Adaptive) {
            Ok(compiled) if compiled.states < 40 => compiled.table,
            _ => continue,
        };
        for _ in 0..20 {
            let mut bytes = table.clone();
            let bit = random.below(8 * bytes.len());
            bytes[bit / 8] ^= 0x80 >> (bit % 8);
            let letter = b"abcdefghABCDEFGH1."[random.below(18)];
            if answered(&bytes, random.below(50), letter) {
                taken += 1;
            } else {
                refused += 1;
            }
        }
    }
    assert!(taken > 100 && refused > 1_000, "{taken} {refused}");
}

#[test]
fn random_bytes_are_answered() {
    let mut random = Random(0x5eed_5eed_5eed_5eed);
    for _ in 0..3_000 {
        let length = random.below(40);
        let bytes: Vec<u8> = (0..length).map(|_| random.below(256) as u8).collect();
        let refusal = compile(&bytes, Edition::Adaptive).expect_err("no file");
        assert!((3..=7).contains(&refusal.number), "{bytes:?}");
        assert!(refusal.place <= bytes.len(), "{bytes:?}");
        assert_eq!(Live::start(&bytes).map(|_| ()), Err(refusal));
        if bytes.first().map_or(true, |first| first >> 4 != 1) {
            let refusal = table_start(&bytes).expect_err("no table");
            assert_eq!(refusal.number, 19, "{bytes:?}");
        }
    }
}
