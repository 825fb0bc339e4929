//! The table side: start and step, each condition of No. 19 broken alone, the order of 19 to 22,
//! and the tables of all cases against the rules.

mod common;

use common::*;
use std::collections::HashMap;
use twin::config::{read_config, Config};
use twin::discover::{discover, letters, Entry};
use twin::limits::Edition;
use twin::refusal::Refusal;
use twin::rules::{Order, State};
use twin::table::{compile, table_start, table_step, Table};

/// The table of `a/E.`, E standard.
const TABLE: [u8; 11] = [
    0x11, 0x10, 0x01, 0x01, 0x18, 0x04, 0x80, 0x70, 0x00, 0x80, 0x40,
];

/// A refusal of a table, which has no place.
fn no(number: u8) -> Refusal {
    Refusal::at(number, 0)
}

/// An entry that a step answers.
fn to(next: usize, orders: &[Order]) -> Result<Entry, Refusal> {
    Ok(Entry {
        next,
        orders: orders.to_vec(),
    })
}

#[test]
fn the_table_of_a_e_is_what_the_compiler_writes() {
    let compiled = compile(b"standard E\nprogram a/E.\n", Edition::Basic).expect("accepted");
    assert_eq!(compiled.states, 2);
    assert_eq!(compiled.table, TABLE);
}

#[test]
fn the_table_of_a_e_starts_and_steps() {
    assert_eq!(table_start(&TABLE), Ok(b"a".to_vec()));
    assert_eq!(table_step(&TABLE, 0, b'a'), to(1, &[Order::None]));
    assert_eq!(table_step(&TABLE, 0, b'E'), to(1, &[Order::Stop]));
    assert_eq!(table_step(&TABLE, 1, b'a'), Err(no(22)));
    assert_eq!(table_step(&TABLE, 1, b'E'), to(1, &[Order::None]));
    for letter in 0..=255u8 {
        if letter != b'a' && letter != b'E' {
            assert_eq!(table_step(&TABLE, 0, letter), Err(no(21)));
            assert_eq!(table_step(&TABLE, 1, letter), Err(no(21)));
        }
        assert_eq!(table_step(&TABLE, 2, letter), Err(no(20)));
        assert_eq!(table_step(&TABLE, 511, letter), Err(no(20)));
        assert_eq!(table_step(&TABLE, usize::MAX, letter), Err(no(20)));
    }
}

#[test]
fn the_refusals_of_a_step_come_in_their_order() {
    // all four apply, then one less each time
    let mut broken = TABLE;
    broken[10] |= 1;
    assert_eq!(table_step(&broken, 2, b'x'), Err(no(19)));
    assert_eq!(table_step(&broken, 1, b'a'), Err(no(19)));
    assert_eq!(table_start(&broken), Err(no(19)));
    assert_eq!(table_step(&TABLE, 2, b'x'), Err(no(20)));
    assert_eq!(table_step(&TABLE, 2, b'a'), Err(no(20)));
    assert_eq!(table_step(&TABLE, 1, b'x'), Err(no(21)));
    assert_eq!(table_step(&TABLE, 1, b'a'), Err(no(22)));
}

/// A table field by field, so that one field can be broken and the others stay right.
#[derive(Clone)]
struct Fields {
    layout: usize,
    modules: Vec<usize>,
    events: Vec<usize>,
    fugitive: Vec<usize>,
    start: Vec<usize>,
    rows: Vec<Vec<(usize, usize, Vec<usize>)>>,
    padding: char,
    more: Vec<u8>,
}

impl Fields {
    /// Every module runs and loops, every event loops, in every state.
    fn loops(modules: usize, events: usize, states: usize) -> Fields {
        let row = |state: usize| vec![(1, state % 512, vec![0; modules]); modules + events];
        Fields {
            layout: 1,
            modules: (0..modules).collect(),
            events: (0..events).collect(),
            fugitive: vec![0; events],
            start: vec![1; modules],
            rows: (0..states).map(row).collect(),
            padding: '0',
            more: Vec::new(),
        }
    }

    /// The bits as text, then eight of them a byte.
    fn bytes(&self) -> Vec<u8> {
        let mut text = format!("{:04b}", self.layout);
        text += &format!("{:04b}{:04b}", self.modules.len(), self.events.len());
        text += &format!("{:012b}", self.rows.len() - 1);
        for name in self.modules.iter().chain(&self.events) {
            text += &format!("{name:05b}");
        }
        for bit in self.fugitive.iter().chain(&self.start) {
            text += &format!("{bit:b}");
        }
        for (possible, next, orders) in self.rows.iter().flatten() {
            text += &format!("{possible:b}{next:09b}");
            for order in orders {
                text += &format!("{order:02b}");
            }
        }
        while text.len() % 8 != 0 {
            text.push(self.padding);
        }
        let byte = |i: usize| u8::from_str_radix(&text[i..i + 8], 2).expect("eight bits");
        let mut bytes: Vec<u8> = (0..text.len()).step_by(8).map(byte).collect();
        bytes.extend(&self.more);
        bytes
    }
}

/// Is it a table?
fn taken(fields: &Fields) -> bool {
    match table_start(&fields.bytes()) {
        Ok(_) => true,
        Err(refusal) => {
            assert_eq!(refusal, no(19));
            false
        }
    }
}

/// A sound table of three states to break: modules b, d; events C, E; d does not run at first.
fn sound() -> Fields {
    let mut fields = Fields::loops(2, 2, 3);
    fields.modules = vec![1, 3];
    fields.events = vec![2, 4];
    fields.start = vec![1, 0];
    fields.rows[0][1] = (0, 0, vec![0, 0]);
    fields
}

/// The sound table with one change.
fn with(change: impl Fn(&mut Fields)) -> Fields {
    let mut fields = sound();
    change(&mut fields);
    fields
}

#[test]
fn the_sound_table_is_taken() {
    let bytes = sound().bytes();
    assert_eq!(table_start(&bytes), Ok(b"b".to_vec()));
    let none = [Order::None, Order::None];
    assert_eq!(table_step(&bytes, 2, b'd'), to(2, &none));
    assert_eq!(table_step(&bytes, 1, b'E'), to(1, &none));
    assert_eq!(table_step(&bytes, 0, b'd'), Err(no(22)));
    assert_eq!(table_step(&bytes, 0, b'a'), Err(no(21)));
}

#[test]
fn no_19_layout() {
    for layout in (0..16).filter(|l| *l != 1) {
        assert!(!taken(&with(|f| f.layout = layout)), "layout {layout}");
    }
}

#[test]
fn no_19_count_of_modules_and_events() {
    for count in 0..=8 {
        assert!(taken(&Fields::loops(count, 1, 2)), "{count} modules");
        assert!(taken(&Fields::loops(1, count, 2)), "{count} events");
    }
    for count in 9..=15 {
        assert!(!taken(&Fields::loops(count, 1, 2)), "{count} modules");
        assert!(!taken(&Fields::loops(1, count, 2)), "{count} events");
    }
}

#[test]
fn no_19_count_of_states() {
    for states in [1, 2, 511, 512] {
        assert!(taken(&Fields::loops(1, 1, states)), "{states} states");
        assert!(taken(&Fields::loops(0, 0, states)), "{states} states");
    }
    for states in [513, 514, 1024, 4096] {
        assert!(!taken(&Fields::loops(1, 1, states)), "{states} states");
        assert!(!taken(&Fields::loops(0, 0, states)), "{states} states");
    }
    // the largest table
    let largest = Fields::loops(8, 8, 512);
    assert_eq!(largest.bytes().len(), 26_639);
    assert!(taken(&largest));
    // no letters: `1.`, and 512 states
    assert_eq!(table_start(&[0x10, 0, 0]), Ok(Vec::new()));
    assert_eq!(table_start(&[0x10, 0x01, 0xff]), Ok(Vec::new()));
    assert_eq!(table_start(&[0x10, 0x02, 0x00]), Err(no(19)));
}

#[test]
fn no_19_name_over_25() {
    assert!(taken(&with(|f| f.modules[1] = 25)));
    assert!(taken(&with(|f| f.events[1] = 25)));
    for name in 26..32 {
        assert!(!taken(&with(|f| f.modules[1] = name)), "module {name}");
        assert!(!taken(&with(|f| f.events[1] = name)), "event {name}");
    }
}

#[test]
fn no_19_names_out_of_order() {
    assert!(!taken(&with(|f| f.modules = vec![3, 1])));
    assert!(!taken(&with(|f| f.modules = vec![3, 3])));
    assert!(!taken(&with(|f| f.events = vec![4, 2])));
    assert!(!taken(&with(|f| f.events = vec![4, 4])));
    // modules and events are apart
    assert!(taken(&with(|f| f.events = vec![0, 1])));
    assert!(taken(&with(|f| f.events = vec![1, 3])));
}

#[test]
fn no_19_next_state() {
    for (row, column) in [(0, 0), (2, 1), (1, 2), (2, 3)] {
        assert!(taken(&with(|f| f.rows[row][column].1 = 2)));
        for next in [3, 4, 256, 511] {
            assert!(!taken(&with(|f| f.rows[row][column].1 = next)));
        }
    }
}

#[test]
fn no_19_padding() {
    // the sound table ends with a whole byte
    assert_eq!((24 + 6 * 4 + 3 * 4 * 14) % 8, 0);
    assert!(taken(&with(|f| f.padding = '1')));
    // with one module more, two bits of the last byte are padding
    let padded = Fields::loops(3, 2, 3);
    assert_eq!((24 + 6 * 5 + 3 * 5 * 16) % 8, 6);
    assert!(taken(&padded));
    for bits in [1, 2, 3] {
        let mut bytes = padded.bytes();
        *bytes.last_mut().expect("a byte") |= bits;
        assert_eq!(table_start(&bytes), Err(no(19)), "bits {bits:02b}");
    }
    // the last bit before them is an order
    let mut bytes = padded.bytes();
    *bytes.last_mut().expect("a byte") |= 4;
    assert!(table_start(&bytes).is_ok());
}

#[test]
fn no_19_length() {
    assert!(!taken(&with(|f| f.more = vec![0])));
    assert!(!taken(&with(|f| f.more = vec![0, 0, 0])));
    for bytes in [sound().bytes(), TABLE.to_vec(), vec![0x10, 0, 0]] {
        assert!(table_start(&bytes).is_ok());
        for length in 0..bytes.len() {
            assert_eq!(table_start(&bytes[..length]), Err(no(19)), "{length} bytes");
        }
        let longer = [&bytes[..], &[0]].concat();
        assert_eq!(table_start(&longer), Err(no(19)));
    }
}

#[test]
fn no_19_zeros() {
    // an impossible entry in another state than 0, so that the start bits do not matter
    let impossible = with(|f| f.rows[2][0] = (0, 0, vec![0, 0]));
    assert!(taken(&impossible));
    assert!(!taken(&with(|f| f.rows[2][0] = (0, 1, vec![0, 0]))));
    assert!(!taken(&with(|f| f.rows[2][0] = (0, 2, vec![0, 0]))));
    for order in 1..4 {
        assert!(!taken(&with(|f| f.rows[2][0] = (0, 0, vec![order, 0]))));
        assert!(!taken(&with(|f| f.rows[2][0] = (0, 0, vec![0, order]))));
        assert!(!taken(&with(|f| f.rows[0][1] = (0, 0, vec![0, order]))));
    }
}

#[test]
fn no_19_event_bit() {
    for (row, column) in [(0, 2), (0, 3), (1, 2), (2, 3)] {
        assert!(!taken(&with(|f| f.rows[row][column] = (0, 0, vec![0, 0]))));
    }
}

#[test]
fn no_19_start_bit() {
    assert!(!taken(&with(|f| f.start = vec![0, 0])));
    assert!(!taken(&with(|f| f.start = vec![1, 1])));
    assert!(!taken(&with(|f| f.start = vec![0, 1])));
    assert!(!taken(&with(|f| f.rows[0][1] = (1, 0, vec![0, 0]))));
    assert!(!taken(&with(|f| f.rows[0][0] = (0, 0, vec![0, 0]))));
    assert!(taken(&with(|f| {
        f.start = vec![0, 1];
        f.rows[0][0] = (0, 0, vec![0, 0]);
        f.rows[0][1] = (1, 0, vec![0, 0]);
    })));
}

#[test]
fn no_19_does_not_look_at_fugitive_bits_orders_or_reach() {
    assert!(taken(&with(|f| f.fugitive = vec![1, 0])));
    assert!(taken(&with(|f| f.fugitive = vec![1, 1])));
    for order in 0..4 {
        let fields = with(|f| f.rows[1][2] = (1, 0, vec![order, 3 - order]));
        let orders = [Order::None, Order::Start, Order::Resume, Order::Stop];
        let step = table_step(&fields.bytes(), 1, b'C');
        assert_eq!(step, to(0, &[orders[order], orders[3 - order]]));
    }
}

#[test]
fn no_19_each_bit_of_the_table_of_a_e_turned() {
    // what may change: names, fugitive bit, orders of possible entries, next states 0 and 1, and
    // the possible bit of a in state 1
    let mut free: Vec<usize> = (24..=34).collect();
    free.extend([45, 46, 47, 57, 58, 59, 60, 81, 82, 83]);
    for bit in 0..88 {
        let mut bytes = TABLE;
        bytes[bit / 8] ^= 0x80 >> (bit % 8);
        let answer = table_start(&bytes);
        assert_eq!(answer.is_ok(), free.contains(&bit), "bit {bit}");
    }
}

/// Walks a table from state 0 by every letter, beside the rules.
fn walk(name: &str, config: &Config, table: &Table) {
    let events: Vec<(u8, bool)> = config
        .events
        .iter()
        .map(|e| (e.letter, e.fugitive))
        .collect();
    assert_eq!(table.modules(), config.modules, "{name}");
    assert_eq!(table.events(), events, "{name}");
    assert_eq!(table.running(), config.running(&config.start()), "{name}");
    let mut states: Vec<State> = vec![config.start()];
    let mut numbers: HashMap<State, usize> = HashMap::from([(config.start(), 0)]);
    let mut number = 0;
    while let Some(state) = states.get(number).cloned() {
        for letter in letters(config) {
            let by_rules = config.step(&state, letter);
            let by_table = table.step(number, letter);
            let (reaction, entry) = match (by_rules, by_table) {
                (Ok(reaction), Ok(entry)) => (reaction, entry),
                (by_rules, by_table) => {
                    let both = (by_rules.err(), by_table.err());
                    assert_eq!(both, (Some(no(22)), Some(no(22))), "{name}");
                    continue;
                }
            };
            assert_eq!(entry.orders, reaction.orders, "{name} {number} {letter}");
            let new = states.len();
            let wanted = *numbers.entry(reaction.state.clone()).or_insert(new);
            if wanted == new {
                states.push(reaction.state);
            }
            assert_eq!(entry.next, wanted, "{name} {number} {letter}");
        }
        for letter in [b'1', b'.', b'|', 0, 255] {
            assert_eq!(table.step(number, letter), Err(no(21)));
        }
        number += 1;
    }
    assert_eq!(table.states(), number, "{name}");
}

#[test]
fn the_table_of_every_case_walks_as_the_rules_do() {
    let mut walked = 0;
    for case in all_cases() {
        for edition in EDITIONS {
            let compiled = match compile(&case.file, edition) {
                Ok(compiled) => compiled,
                Err(_) => continue,
            };
            let config = read_config(&case.file, edition).expect("an accepted file");
            let table = Table::read(&compiled.table).expect("a table");
            assert_eq!(table.states(), compiled.states);
            assert_eq!(table.step(compiled.states, b'a'), Err(no(20)));
            walk(&case.name, &config, &table);
            walked += 1;
        }
    }
    assert!(walked > 200, "only {walked} tables");
}

#[test]
fn the_tables_of_both_editions_are_the_same() {
    let mut both = 0;
    for case in light_cases() {
        if let Ok(basic) = compile(&case.file, Edition::Basic) {
            assert_eq!(compile(&case.file, Edition::Adaptive), Ok(basic));
            both += 1;
        }
    }
    assert!(both > 40, "only {both} files");
}

#[test]
fn states_are_numbered_in_the_order_of_discovery() {
    // a and b run; a leads to 1, b to 2, E to 3; then from 1 on
    let bytes = file("[a||b]/E:c.", "E");
    let found = discover(&config(&bytes)).expect("accepted");
    let of = |letters: &str| found.number_of(live_after(&bytes, letters).state());
    let numbers: Vec<_> = ["", "a", "b", "E", "ab"].iter().map(|l| of(l)).collect();
    assert_eq!(numbers, [Some(0), Some(1), Some(2), Some(3), Some(4)]);
    assert_eq!(of("aE"), Some(5));
    assert_eq!(of("bE"), Some(6));
    assert_eq!(found.states.len(), 7);
}
