//! Cart dispatch from Rust: safe functions over libcart.a.
//!
//! A configuration file is its bytes. Either it is compiled to a [`Table`], which is stepped by state number, or it runs [`Live`]. The two
//! give the same orders for the same letters. A letter is a byte: `a` to `z` says that a module has completed, `A` to `Z` that an event
//! occurred. What each number of a [`Refusal`] means at a site: docs/INTEGRATING.md.
//!
//! ```
//! use cart::{compile, Edition, Order, Table};
//!
//! let table: Table = compile(b"standard E\nprogram a/E.\n", Edition::Basic).unwrap();
//! let start = table.start();
//! assert_eq!(start.orders[0], Order::Start); // module a
//! let step = table.step(start.state, b'E').unwrap();
//! assert_eq!(step.orders[0], Order::Stop);
//! assert_eq!(table.step(step.state, b'a').unwrap_err().number, 22); // a does not run any more
//! ```
#![deny(missing_docs)]

pub mod raw;

use std::fmt;

/// `compile` needs so many bytes for a table, or more.
pub const OUTPUT: usize = 26_640;
/// `compile` needs so many bytes to work in, or more.
pub const WORK: usize = 65_536;
/// The live state has exactly so many bytes.
pub const LIVE: usize = 128;
/// A program has at most so many modules.
pub const NAMES: usize = 8;

/// The two editions.
#[derive(Clone, Copy, Debug, PartialEq, Eq)]
pub enum Edition {
    /// No fugitive events, and no interruptions joined by `||`.
    Basic,
    /// The whole language.
    Adaptive,
}

/// A refusal: its number, 1 to 23, and the byte of the file that it is about, counted from 0.
#[derive(Clone, Copy, Debug, PartialEq, Eq)]
pub struct Refusal {
    /// The number.
    pub number: usize,
    /// The place; 0 for a number that has none.
    pub place: usize,
}

impl fmt::Display for Refusal {
    fn fmt(&self, f: &mut fmt::Formatter<'_>) -> fmt::Result {
        write!(f, "refused {} at {}", self.number, self.place)
    }
}

impl std::error::Error for Refusal {}

/// What a module is to do.
#[derive(Clone, Copy, Debug, PartialEq, Eq)]
pub enum Order {
    /// Go on as before.
    None,
    /// Start from the beginning.
    Start,
    /// Go on from where it was stopped.
    Resume,
    /// Stop.
    Stop,
}

impl Order {
    /// The order of a number of the library; it answers 0 to 3.
    fn of(number: u8) -> Order {
        match number {
            1 => Order::Start,
            2 => Order::Resume,
            3 => Order::Stop,
            _ => Order::None,
        }
    }
}

/// One order for each module in the order of their letters; `None` beyond them. A start orders `Start` to each module that runs.
pub type Orders = [Order; NAMES];

/// The answer of a table: the next state, and the orders.
#[derive(Clone, Copy, Debug, PartialEq, Eq)]
pub struct Step {
    /// The next state, to step from.
    pub state: usize,
    /// The orders.
    pub orders: Orders,
}

/// `Ok` for number 0, else the refusal.
fn taken(number: usize, place: usize) -> Result<(), Refusal> {
    match number {
        0 => Ok(()),
        number => Err(Refusal { number, place }),
    }
}

/// Compiles a file for an edition: refusals 2 to 18, or its table.
pub fn compile(file: &[u8], edition: Edition) -> Result<Table, Refusal> {
    let call: raw::Compile = match edition {
        Edition::Basic => raw::cart_compile_basic,
        Edition::Adaptive => raw::cart_compile_adaptive,
    };
    let mut bytes = vec![0; OUTPUT];
    let mut work = vec![0; WORK];
    // SAFETY: each pointer is that of a slice, with its length, and no two of them overlap.
    let made = unsafe {
        call(
            file.as_ptr(),
            file.len(),
            bytes.as_mut_ptr(),
            bytes.len(),
            work.as_mut_ptr(),
            work.len(),
        )
    };
    taken(made.number, made.place)?;
    bytes.truncate(made.size);
    Ok(Table { bytes })
}

/// The table of a program: bytes that are right (refusal 19 does not occur).
#[derive(Clone, Debug, PartialEq, Eq)]
pub struct Table {
    bytes: Vec<u8>,
}

impl Table {
    /// A table from its bytes, as from a file: refusal 19 where they are none.
    pub fn from_bytes(bytes: Vec<u8>) -> Result<Table, Refusal> {
        let start = started(&bytes);
        taken(start.number, start.place)?;
        Ok(Table { bytes })
    }

    /// The bytes, to be put on a board.
    pub fn as_bytes(&self) -> &[u8] {
        &self.bytes
    }

    /// How many states it has: 12 bits of its head, and one more.
    pub fn states(&self) -> usize {
        usize::from(self.bytes[1] & 15) * 256 + usize::from(self.bytes[2]) + 1
    }

    /// State 0, and `Start` for each module that runs.
    pub fn start(&self) -> Step {
        let start = started(&self.bytes);
        Step {
            state: start.state,
            orders: start.orders.map(Order::of),
        }
    }

    /// The step from a state by a letter: refusals 20 to 22, after which the run is still in the state before, or the next state and the orders.
    pub fn step(&self, state: usize, letter: u8) -> Result<Step, Refusal> {
        // SAFETY: the pointer is that of a slice, with its length.
        let step =
            unsafe { raw::cart_table_step(self.bytes.as_ptr(), self.bytes.len(), state, letter) };
        taken(step.number, step.place)?;
        Ok(Step {
            state: step.state,
            orders: step.orders.map(Order::of),
        })
    }
}

/// The start of bytes that may be a table.
fn started(bytes: &[u8]) -> raw::Stepped {
    // SAFETY: the pointer is that of a slice, with its length.
    unsafe { raw::cart_table_start(bytes.as_ptr(), bytes.len()) }
}

/// A file in live run, and the state that it is in.
#[derive(Clone, Debug, PartialEq, Eq)]
pub struct Live<'a> {
    file: &'a [u8],
    bytes: [u8; LIVE],
}

impl<'a> Live<'a> {
    /// The start of a file: refusals 2 to 14, or the run at its start and `Start` for each module that runs.
    pub fn start(file: &'a [u8]) -> Result<(Live<'a>, Orders), Refusal> {
        let mut bytes = [0; LIVE];
        // SAFETY: each pointer is that of a slice, with its length, and the two do not overlap.
        let start = unsafe {
            raw::cart_live_start(file.as_ptr(), file.len(), bytes.as_mut_ptr(), bytes.len())
        };
        taken(start.number, start.place)?;
        Ok((Live { file, bytes }, start.orders.map(Order::of)))
    }

    /// A run from the bytes that it was kept in, over the same file; a step refuses bytes that code no state, by 23.
    pub fn from_bytes(file: &'a [u8], bytes: [u8; LIVE]) -> Live<'a> {
        Live { file, bytes }
    }

    /// The state as bytes, to be kept.
    pub fn as_bytes(&self) -> &[u8; LIVE] {
        &self.bytes
    }

    /// The step by a letter: refusals 2 to 14, 23, 21 and 22, which leave the run where it is, or the orders.
    pub fn step(&mut self, letter: u8) -> Result<Orders, Refusal> {
        // SAFETY: each pointer is that of a slice, with its length, and the two do not overlap.
        let step = unsafe {
            raw::cart_live_step(
                self.file.as_ptr(),
                self.file.len(),
                self.bytes.as_mut_ptr(),
                self.bytes.len(),
                letter,
            )
        };
        taken(step.number, step.place)?;
        Ok(step.orders.map(Order::of))
    }
}

#[cfg(test)]
mod tests {
    use super::*;

    const FIRST: &[u8] = b"standard E\nprogram a/E.\n";

    /// Orders to the first modules, none to the rest.
    fn orders(said: &[Order]) -> Orders {
        let mut orders = [Order::None; NAMES];
        orders[..said.len()].copy_from_slice(said);
        orders
    }

    /// The orders of a live run, letter by letter.
    fn lived(file: &[u8], letters: &[u8]) -> Vec<Result<Orders, Refusal>> {
        let (mut live, start) = Live::start(file).expect("an accepted file");
        let mut answers = vec![Ok(start)];
        answers.extend(letters.iter().map(|letter| live.step(*letter)));
        answers
    }

    /// The orders of a table, letter by letter.
    fn stepped(file: &[u8], letters: &[u8]) -> Vec<Result<Orders, Refusal>> {
        let table = compile(file, Edition::Adaptive).expect("an accepted file");
        let start = table.start();
        let mut state = start.state;
        let mut answers = vec![Ok(start.orders)];
        for letter in letters {
            let step = table.step(state, *letter);
            state = step.map_or(state, |step| step.state);
            answers.push(step.map(|step| step.orders));
        }
        answers
    }

    #[test]
    fn the_first_run_of_document_01() {
        for edition in [Edition::Basic, Edition::Adaptive] {
            let table = compile(FIRST, edition).expect("an accepted file");
            let bytes = [
                0x11, 0x10, 0x01, 0x01, 0x18, 0x04, 0x80, 0x70, 0, 0x80, 0x40,
            ];
            assert_eq!(table.as_bytes(), bytes);
            assert_eq!(table.states(), 2);
        }
    }

    #[test]
    fn refusals_have_number_and_place() {
        let refused = |file: &[u8], edition| compile(file, edition).map_err(|r| r.to_string());
        for (file, line) in [
            (&b"standard E\nfugitve F\n"[..], "refused 4 at 11"),
            (b"program a/.\n", "refused 8 at 10"),
            (b"", "refused 7 at 0"),
            (&[b'a'; 1025], "refused 2 at 0"),
        ] {
            for edition in [Edition::Basic, Edition::Adaptive] {
                assert_eq!(refused(file, edition), Err(line.to_string()));
            }
            assert_eq!(Live::start(file).unwrap_err().to_string(), line);
        }
        let joined = b"standard EF\nprogram 1/{E||F}.\n";
        assert_eq!(
            refused(joined, Edition::Basic),
            Err("refused 16 at 24".to_string())
        );
        assert_eq!(
            compile(joined, Edition::Adaptive).map(|t| t.states()),
            Ok(6)
        );
    }

    #[test]
    fn a_step_stops_starts_and_resumes() {
        let file = b"standard E\nprogram [a/E:b]*.\n";
        let run = [
            Ok(orders(&[Order::Start])),
            Ok(orders(&[Order::Stop, Order::Start])),
            Ok(orders(&[Order::Resume])),
        ];
        assert_eq!(lived(file, b"Eb"), run);
        assert_eq!(stepped(file, b"Eb"), run);
        assert_eq!(compile(file, Edition::Basic).map(|t| t.states()), Ok(3));
    }

    #[test]
    fn a_refused_step_leaves_the_run_where_it_is() {
        let refused = |number| Err(Refusal { number, place: 0 });
        let run = [
            Ok(orders(&[Order::Start])),
            refused(21),
            Ok(orders(&[Order::Stop])),
            refused(22),
            Ok(orders(&[])),
        ];
        assert_eq!(lived(FIRST, b"zEaE"), run);
        assert_eq!(stepped(FIRST, b"zEaE"), run);
    }

    #[test]
    fn table_and_live_run_side_by_side() {
        let file = b"standard EP\nfugitive S\nprogram [[a/P:b]*||c/E:[d||e]*]/S:f.\n";
        let letters = b"abcdefEPSz";
        let mut seed = 1u32;
        for _ in 0..50 {
            let mut walk = Vec::new();
            for _ in 0..100 {
                seed = seed.wrapping_mul(1_664_525).wrapping_add(1_013_904_223);
                walk.push(letters[(seed >> 16) as usize % letters.len()]);
            }
            assert_eq!(lived(file, &walk), stepped(file, &walk));
        }
    }

    #[test]
    fn a_file_of_too_many_states_runs_live() {
        let file = b"fugitive E\nprogram [a||b||c||d||e||f||g||h||1/E1/E].\n";
        assert_eq!(
            compile(file, Edition::Adaptive).map_err(|r| r.number),
            Err(17)
        );
        assert_eq!(
            lived(file, b"a"),
            [Ok([Order::Start; NAMES]), Ok(orders(&[]))]
        );
    }

    #[test]
    fn bytes_that_are_no_table_and_no_live_state() {
        assert_eq!(
            Table::from_bytes(Vec::new()),
            Err(Refusal {
                number: 19,
                place: 0
            })
        );
        let table = compile(FIRST, Edition::Basic).expect("an accepted file");
        assert_eq!(
            Table::from_bytes(table.as_bytes().to_vec()).as_ref(),
            Ok(&table)
        );
        assert_eq!(table.step(2, b'a').map_err(|r| r.number), Err(20));
        let mut live = Live::from_bytes(FIRST, [255; LIVE]);
        assert_eq!(live.step(b'a').map_err(|r| r.number), Err(23));
        assert_eq!(live.as_bytes(), &[255; LIVE]);
        let (started, _) = Live::start(FIRST).expect("an accepted file");
        assert_eq!(Live::from_bytes(FIRST, *started.as_bytes()), started);
    }
}
