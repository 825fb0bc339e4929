//! The table: how it is packed, check 19, table start and table step.

use crate::config::{read_config, Config};
use crate::discover::{discover, Discovery, Entry, MOST_STATES};
use crate::limits::{Edition, MOST_NAMES};
use crate::refusal::Refusal;
use crate::rules::Order;

/// "layout 4 bits (1)".
const LAYOUT: usize = 1;
/// The bytes of layout, modules, events and states.
const HEADER_BYTES: usize = 3;

/// What the compiler answers: the number of states, and the table.
#[derive(Clone, Debug, PartialEq, Eq)]
pub struct Compiled {
    /// The number of states.
    pub states: usize,
    /// The bytes of the table.
    pub table: Vec<u8>,
}

/// The compiler of either edition: refusals 2 to 18, or the table.
pub fn compile(bytes: &[u8], edition: Edition) -> Result<Compiled, Refusal> {
    let config = read_config(bytes, edition)?;
    let found = discover(&config)?;
    Ok(Compiled {
        states: found.states.len(),
        table: pack(&config, &found),
    })
}

/// "Fields are packed most significant bit first".
#[derive(Default)]
struct BitWriter {
    bits: Vec<bool>,
}

impl BitWriter {
    /// Appends the lowest `width` bits of a value, the most significant of them first.
    fn put(&mut self, value: usize, width: u32) {
        for shift in (0..width).rev() {
            self.bits.push(value >> shift & 1 == 1);
        }
    }

    /// "zero bits to a whole byte", and all bits as bytes.
    fn into_bytes(mut self) -> Vec<u8> {
        while self.bits.len() % 8 != 0 {
            self.bits.push(false);
        }
        let byte = |bits: &[bool]| bits.iter().fold(0, |byte, bit| byte << 1 | u8::from(*bit));
        self.bits.chunks(8).map(byte).collect()
    }
}

/// The fields of a table in their order, under "The table".
fn pack(config: &Config, found: &Discovery) -> Vec<u8> {
    let mut out = BitWriter::default();
    out.put(LAYOUT, 4);
    out.put(config.modules.len(), 4);
    out.put(config.events.len(), 4);
    out.put(found.states.len() - 1, 12);
    for module in &config.modules {
        out.put(usize::from(*module - b'a'), 5);
    }
    for event in &config.events {
        out.put(usize::from(event.letter - b'A'), 5);
    }
    for event in &config.events {
        out.put(usize::from(event.fugitive), 1);
    }
    for module in &config.modules {
        out.put(usize::from(config.start().runs(*module)), 1);
    }
    for row in &found.entries {
        for entry in row {
            pack_entry(&mut out, entry.as_ref(), config.modules.len());
        }
    }
    out.into_bytes()
}

/// "an entry: 1 bit possible, 9 bits next state, 2 bits for each module". "A module not running
/// has an entry of zeros".
fn pack_entry(out: &mut BitWriter, entry: Option<&Entry>, modules: usize) {
    match entry {
        Some(entry) => {
            out.put(1, 1);
            out.put(entry.next, 9);
            for order in &entry.orders {
                out.put(*order as usize, 2);
            }
        }
        None => {
            out.put(0, 10);
            for _ in 0..modules {
                out.put(0, 2);
            }
        }
    }
}

/// Reads packed fields; `None` where the bytes end before the field does.
struct BitReader<'a> {
    bytes: &'a [u8],
    at: usize,
}

impl BitReader<'_> {
    /// The next bit.
    fn bit(&mut self) -> Option<usize> {
        let byte = *self.bytes.get(self.at / 8)?;
        let bit = byte >> (7 - self.at % 8) & 1;
        self.at += 1;
        Some(usize::from(bit))
    }

    /// The next field of `width` bits, the most significant first.
    fn field(&mut self, width: usize) -> Option<usize> {
        let mut value = 0;
        for _ in 0..width {
            value = value << 1 | self.bit()?;
        }
        Some(value)
    }

    /// As many fields of one width as asked for.
    fn fields(&mut self, width: usize, count: usize) -> Option<Vec<usize>> {
        (0..count).map(|_| self.field(width)).collect()
    }
}

/// An entry as it stands in a table.
#[derive(Clone, Debug, PartialEq, Eq)]
struct Cell {
    possible: usize,
    next: usize,
    orders: Vec<usize>,
}

/// A table that has passed check 19.
#[derive(Clone, Debug, PartialEq, Eq)]
pub struct Table {
    states: usize,
    modules: Vec<usize>,
    events: Vec<usize>,
    fugitive: Vec<usize>,
    start: Vec<usize>,
    rows: Vec<Vec<Cell>>,
}

/// Layout, modules, events and states; `None` for a wrong layout or count.
fn read_header(bits: &mut BitReader<'_>) -> Option<(usize, usize, usize)> {
    let layout = bits.field(4)?;
    let modules = bits.field(4)?;
    let events = bits.field(4)?;
    let states = bits.field(12)? + 1;
    let counts = modules <= MOST_NAMES && events <= MOST_NAMES && states <= MOST_STATES;
    if layout == LAYOUT && counts {
        Some((modules, events, states))
    } else {
        None
    }
}

/// The exact number of bytes of a table, padding included.
fn length(modules: usize, events: usize, states: usize) -> usize {
    let letters = modules + events;
    let names_and_bits = 6 * letters;
    let entries = states * letters * (10 + 2 * modules);
    HEADER_BYTES + (names_and_bits + entries + 7) / 8
}

/// The entry of one letter in one state.
fn read_cell(bits: &mut BitReader<'_>, modules: usize) -> Option<Cell> {
    Some(Cell {
        possible: bits.field(1)?,
        next: bits.field(9)?,
        orders: bits.fields(2, modules)?,
    })
}

/// The entries of one state, letter by letter.
fn read_row(bits: &mut BitReader<'_>, modules: usize, letters: usize) -> Option<Vec<Cell>> {
    (0..letters).map(|_| read_cell(bits, modules)).collect()
}

/// All fields of a table in their order; `None` for a wrong layout, count, length or padding.
fn read_table(bytes: &[u8]) -> Option<Table> {
    let mut bits = BitReader { bytes, at: 0 };
    let (modules, events, states) = read_header(&mut bits)?;
    if bytes.len() != length(modules, events, states) {
        return None;
    }
    let table = Table {
        states,
        modules: bits.fields(5, modules)?,
        events: bits.fields(5, events)?,
        fugitive: bits.fields(1, events)?,
        start: bits.fields(1, modules)?,
        rows: (0..states)
            .map(|_| read_row(&mut bits, modules, modules + events))
            .collect::<Option<Vec<_>>>()?,
    };
    while let Some(padding) = bits.bit() {
        if padding != 0 {
            return None;
        }
    }
    Some(table)
}

/// Names: none "over 25 or out of order"; they strictly ascend.
fn names_in_order(names: &[usize]) -> bool {
    let ascend = names.windows(2).all(|pair| pair[0] < pair[1]);
    ascend && names.iter().all(|name| *name <= 25)
}

impl Table {
    /// No. 19: "not a table".
    pub fn read(bytes: &[u8]) -> Result<Table, Refusal> {
        match read_table(bytes) {
            Some(table) if table.in_order() => Ok(table),
            _ => Err(Refusal::without_place(19)),
        }
    }

    /// The conditions of No. 19 that look at names and entries.
    fn in_order(&self) -> bool {
        names_in_order(&self.modules)
            && names_in_order(&self.events)
            && self.rows.iter().all(|row| self.row_in_order(row))
            && self.start_as_in_state_0()
    }

    /// Next state, zeros and event bit of the entries of one state: "A module not running has an
    /// entry of zeros; events are always possible".
    fn row_in_order(&self, row: &[Cell]) -> bool {
        let next = row.iter().all(|cell| cell.next < self.states);
        let zeros = |cell: &Cell| cell.next == 0 && cell.orders.iter().all(|o| *o == 0);
        let impossible = |cell: &&Cell| cell.possible == 0;
        let mut events = row.iter().skip(self.modules.len());
        next && row.iter().filter(impossible).all(zeros) && events.all(|e| e.possible == 1)
    }

    /// No "start bit unlike state 0's possible bit".
    fn start_as_in_state_0(&self) -> bool {
        let row_0 = self.rows.first().into_iter().flatten();
        let mut pairs = self.start.iter().zip(row_0);
        pairs.all(|(bit, cell)| *bit == cell.possible)
    }

    /// The number of states.
    pub fn states(&self) -> usize {
        self.states
    }

    /// The letters of the modules, ascending.
    pub fn modules(&self) -> Vec<u8> {
        self.modules.iter().map(|n| letter(b'a', *n)).collect()
    }

    /// The letters of the events, ascending, each with its fugitive bit.
    pub fn events(&self) -> Vec<(u8, bool)> {
        let event = |(n, bit): (&usize, &usize)| (letter(b'A', *n), *bit == 1);
        self.events.iter().zip(&self.fugitive).map(event).collect()
    }

    /// Table start "answers state 0 and the modules that run".
    pub fn running(&self) -> Vec<u8> {
        let modules = self.modules.iter().zip(&self.start);
        let running = modules.filter(|(_, bit)| **bit == 1);
        running.map(|(n, _)| letter(b'a', *n)).collect()
    }

    /// Refusals 20 to 22, or the entry of a letter in a state.
    pub fn step(&self, state: usize, letter: u8) -> Result<Entry, Refusal> {
        let row = self.rows.get(state);
        let row = row.ok_or_else(|| Refusal::without_place(20))?;
        let events = self.events().into_iter().map(|e| e.0);
        let mut letters = self.modules().into_iter().chain(events);
        let column = letters.position(|l| l == letter);
        let cell = column.and_then(|column| row.get(column));
        let cell = cell.ok_or_else(|| Refusal::without_place(21))?;
        if cell.possible == 0 {
            return Err(Refusal::without_place(22));
        }
        Ok(Entry {
            next: cell.next,
            orders: cell.orders.iter().map(|bits| order(*bits)).collect(),
        })
    }
}

/// The letter of a name: "A or a is 0". A name of a checked table is at most 25.
fn letter(first: u8, name: usize) -> u8 {
    (first..=first + 25).nth(name).unwrap_or(first)
}

/// "2 bits for each module (0 none, 1 start, 2 resume, 3 stop)".
fn order(bits: usize) -> Order {
    match bits {
        0 => Order::None,
        1 => Order::Start,
        2 => Order::Resume,
        _ => Order::Stop,
    }
}

/// "Table start: 19; it answers state 0 and the modules that run."
pub fn table_start(bytes: &[u8]) -> Result<Vec<u8>, Refusal> {
    Ok(Table::read(bytes)?.running())
}

/// "Table step: 19 to 22."
pub fn table_step(bytes: &[u8], state: usize, letter: u8) -> Result<Entry, Refusal> {
    Table::read(bytes)?.step(state, letter)
}
