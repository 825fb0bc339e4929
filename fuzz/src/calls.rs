//! One call of the library and of the second program on the same bytes: the answers must be the same, and every byte that was lent must be what
//! document 01 says, on refusal as on success. An `Err` is the description of a difference.

use cart::raw;
use twin::limits::Edition;
use twin::live_bytes;
use twin::refusal::Refusal;
use twin::table::{self, Table};

use crate::random::Random;
use crate::room::Room;

/// Longer than any file, table or slice that is tried.
const LONGEST: usize = 80_000;
/// The calls, as they are counted.
pub const CALLS: [&str; 6] = [
    "compile basic",
    "compile adaptive",
    "table start",
    "table step",
    "live start",
    "live step",
];
/// Refusals by number, and 0 for success.
pub const NUMBERS: usize = 24;
/// A table of more states is heavy work for the second program.
const LIGHT: usize = 64;

/// The memory that is lent, and what was tried.
pub struct Tried {
    file: Room,
    output: Room,
    work: Room,
    noise: Vec<u8>,
    zeros: Vec<u8>,
    pub inputs: [usize; CALLS.len()],
    pub taken: [usize; CALLS.len()],
    pub answers: [usize; NUMBERS],
}

/// What a call answered where it did not refuse.
pub type Taken<T> = Result<Option<T>, String>;

/// Bytes in hex.
fn hex(bytes: &[u8]) -> String {
    bytes.iter().map(|byte| format!("{byte:02x}")).collect()
}

/// Orders up to eight.
fn eight(orders: &[u8]) -> [u8; 8] {
    let mut all = [0; 8];
    all[..orders.len()].copy_from_slice(orders);
    all
}

/// The second program's answer of compile, where the slices are long enough, and its table.
fn twin_compile(file: &[u8], basic: bool, short: bool) -> (raw::Compiled, Vec<u8>) {
    let edition = if basic {
        Edition::Basic
    } else {
        Edition::Adaptive
    };
    let wanted = if short {
        Err(Refusal::without_place(1))
    } else {
        table::compile(file, edition)
    };
    let (number, place, states, table) = match wanted {
        Ok(made) => (0, 0, made.states, made.table),
        Err(refusal) => (usize::from(refusal.number), refusal.place, 0, Vec::new()),
    };
    let answer = raw::Compiled {
        number,
        place,
        states,
        size: table.len(),
    };
    (answer, table)
}

/// The second program's table start: state 0, and 1 for each module that runs.
fn twin_start(bytes: &[u8]) -> Result<(usize, [u8; 8]), Refusal> {
    let table = Table::read(bytes)?;
    let running = table.running();
    let order = |module: &u8| u8::from(running.contains(module));
    let orders: Vec<u8> = table.modules().iter().map(order).collect();
    Ok((0, eight(&orders)))
}

/// The second program's table step.
fn twin_step(bytes: &[u8], state: usize, letter: u8) -> Result<(usize, [u8; 8]), Refusal> {
    let step = table::table_step(bytes, state, letter)?;
    let orders: Vec<u8> = step.orders.iter().map(|order| *order as u8).collect();
    Ok((step.next, eight(&orders)))
}

/// The answer of a table call.
fn stepped(answer: Result<(usize, [u8; 8]), Refusal>) -> raw::Stepped {
    let (number, place, (state, orders)) = match answer {
        Ok(taken) => (0, 0, taken),
        Err(refusal) => (usize::from(refusal.number), refusal.place, (0, [0; 8])),
    };
    raw::Stepped {
        number,
        place,
        state,
        orders,
    }
}

impl Tried {
    pub fn new(random: &mut Random) -> Tried {
        Tried {
            file: Room::new(LONGEST),
            output: Room::new(LONGEST),
            work: Room::new(LONGEST),
            noise: random.bytes(2 * LONGEST),
            zeros: vec![0; LONGEST],
            inputs: [0; CALLS.len()],
            taken: [0; CALLS.len()],
            answers: [0; NUMBERS],
        }
    }

    /// Counts an input and its answer, if there is no fault.
    fn count(&mut self, call: usize, number: usize, fault: Option<String>) -> Result<(), String> {
        if let Some(fault) = fault {
            return Err(format!(
                "{}: {fault}\nfile or table {}",
                CALLS[call],
                hex(self.file.lent())
            ));
        }
        self.inputs[call] += 1;
        self.taken[call] += usize::from(number == 0);
        self.answers[number] += 1;
        Ok(())
    }

    /// The file or table, which no call may change.
    fn input_kept(&mut self, input: &[u8]) -> bool {
        self.file.lent() == input && self.file.margin_kept()
    }

    /// A compile call with slices of these lengths: the table where it is taken. Most heavy files are not compared: the second program takes long.
    pub fn compile(
        &mut self,
        random: &mut Random,
        basic: bool,
        file: &[u8],
        sizes: (usize, usize),
    ) -> Taken<Vec<u8>> {
        let from = random.below(LONGEST);
        let before = self.noise[from..from + sizes.0].to_vec();
        let before_work = self.noise[from / 2..from / 2 + sizes.1].to_vec();
        self.file.put(file, random.once_in(2));
        self.output.put(&before, random.once_in(2));
        self.work.put(&before_work, random.once_in(2));
        let null = random.once_in(2);
        let call = if basic {
            raw::cart_compile_basic
        } else {
            raw::cart_compile_adaptive as raw::Compile
        };
        // SAFETY: each pointer is that of a slice of this length in a room of its own, or null for no bytes.
        let given = unsafe {
            call(
                self.file.pointer(null),
                file.len(),
                self.output.pointer(null),
                sizes.0,
                self.work.pointer(null),
                sizes.1,
            )
        };
        if (given.number == 17 || given.states > LIGHT) && !random.once_in(4) {
            return Ok(None);
        }
        self.compiled(basic, file, (&before, &before_work), given)
    }

    /// Compares what compile gave and left with what it should.
    fn compiled(
        &mut self,
        basic: bool,
        file: &[u8],
        before: (&[u8], &[u8]),
        given: raw::Compiled,
    ) -> Taken<Vec<u8>> {
        let short = before.0.len() < cart::OUTPUT || before.1.len() < cart::WORK;
        let (wanted, table) = twin_compile(file, basic, short);
        let output = [&table, &before.0[table.len()..]].concat();
        let work = if short {
            before.1
        } else {
            &self.zeros[..before.1.len()]
        };
        let fault = if given != wanted {
            Some(format!("{given:?}, and the second program {wanted:?}"))
        } else if self.output.lent() != output || !self.output.margin_kept() {
            Some(format!("{given:?}, and wrong bytes of the output"))
        } else if self.work.lent() != work || !self.work.margin_kept() {
            Some(format!("{given:?}, and wrong bytes of the working slice"))
        } else if !self.input_kept(file) {
            Some(format!("{given:?}, and the file changed"))
        } else {
            None
        };
        self.count(usize::from(!basic), wanted.number, fault)?;
        Ok(if wanted.number == 0 {
            Some(table)
        } else {
            None
        })
    }

    /// A table start, or a step from a state by a letter: the state and the orders where it is taken.
    pub fn table(
        &mut self,
        random: &mut Random,
        table: &[u8],
        step: Option<(usize, u8)>,
    ) -> Result<raw::Stepped, String> {
        self.file.put(table, random.once_in(2));
        let pointer = self.file.pointer(random.once_in(2));
        // SAFETY: the pointer is that of a slice of this length, or null for no bytes.
        let given = unsafe {
            match step {
                None => raw::cart_table_start(pointer, table.len()),
                Some((state, letter)) => raw::cart_table_step(pointer, table.len(), state, letter),
            }
        };
        let wanted = stepped(match step {
            None => twin_start(table),
            Some((state, letter)) => twin_step(table, state, letter),
        });
        let fault = if given != wanted {
            Some(format!(
                "{step:?} {given:?}, and the second program {wanted:?}"
            ))
        } else if !self.input_kept(table) {
            Some(format!("{step:?} {given:?}, and the table changed"))
        } else {
            None
        };
        self.count(if step.is_none() { 2 } else { 3 }, wanted.number, fault)?;
        Ok(given)
    }

    /// A live start, or a step by a letter: the answer, and the live state after it.
    pub fn live(
        &mut self,
        random: &mut Random,
        file: &[u8],
        live: &[u8],
        letter: Option<u8>,
    ) -> Result<(raw::Lived, Vec<u8>), String> {
        self.file.put(file, random.once_in(2));
        self.output.put(live, random.once_in(2));
        let null = random.once_in(2);
        let (from, to) = (self.file.pointer(null), self.output.pointer(null));
        // SAFETY: each pointer is that of a slice of this length in a room of its own, or null for no bytes.
        let given = unsafe {
            match letter {
                None => raw::cart_live_start(from, file.len(), to, live.len()),
                Some(letter) => raw::cart_live_step(from, file.len(), to, live.len(), letter),
            }
        };
        let (wanted, after) = lived(file, live, letter);
        let fault = if given != wanted {
            Some(format!("{given:?}, and the second program {wanted:?}"))
        } else if self.output.lent() != after || !self.output.margin_kept() {
            Some(format!(
                "{given:?}, and wrong live bytes, {}",
                hex(self.output.lent())
            ))
        } else if !self.input_kept(file) {
            Some(format!("{given:?}, and the file changed"))
        } else {
            None
        };
        let fault = fault.map(|fault| format!("{letter:?} {fault}\nlive bytes {}", hex(live)));
        self.count(if letter.is_none() { 4 } else { 5 }, wanted.number, fault)?;
        Ok((given, after))
    }
}

/// The second program's answer of a live call, and the live bytes after it: on refusal those before.
fn lived(file: &[u8], live: &[u8], letter: Option<u8>) -> (raw::Lived, Vec<u8>) {
    let answer = match letter {
        None => live_bytes::start(file, live),
        Some(letter) => live_bytes::step(file, live, letter),
    };
    let (number, place, orders, after) = match answer {
        Ok((orders, after)) => (0, 0, eight(&orders), after.to_vec()),
        Err(refusal) => (
            usize::from(refusal.number),
            refusal.place,
            [0; 8],
            live.to_vec(),
        ),
    };
    let answer = raw::Lived {
        number,
        place,
        orders,
    };
    (answer, after)
}
