//! The library's six calls on random and damaged bytes, each compared with the second program, in one process.
//!
//!     fuzz [COUNT [SEED]]      COUNT inputs (1000000), from this SEED (1)
//!
//! An input is one call: a file, table or live state, a state number, a letter and the lengths of the slices. Its answer and every lent byte after it
//! are compared, and along a walk the table's states with the live ones. Prints how many inputs each call had and how often each number was
//! answered. Ends with 1 at the first difference, which it prints with the bytes that show it.

mod calls;
mod inputs;
mod random;
mod room;

use std::collections::HashMap;
use std::process::ExitCode;

use calls::{Tried, CALLS};
use random::Random;

const COUNT: usize = 1_000_000;
const SEED: u64 = 1;
/// Tables and live states that are kept, to be damaged.
const KEPT: usize = 64;
/// A longer table is rarely tried: the second program reads all of it at each call.
const SHORT: usize = 1500;

/// The inputs so far, and what they are made from.
struct Fuzz {
    random: Random,
    tried: Tried,
    cases: Vec<Vec<u8>>,
    tables: Vec<Vec<u8>>,
    lives: Vec<Vec<u8>>,
}

/// Keeps a value in the place of another, or beside them while there are few.
fn keep(random: &mut Random, kept: &mut Vec<Vec<u8>>, value: Vec<u8>) {
    if kept.len() < KEPT {
        kept.push(value);
    } else {
        kept[random.below(KEPT)] = value;
    }
}

impl Fuzz {
    fn new(seed: u64) -> Fuzz {
        let mut random = Random::new(seed);
        Fuzz {
            tried: Tried::new(&mut random),
            cases: inputs::cases(),
            tables: vec![Vec::new()],
            lives: vec![vec![0; cart::LIVE]],
            random,
        }
    }

    /// A file in the calls that take one, then walks from it and damaged states; then some calls of tables.
    fn round(&mut self) -> Result<(), String> {
        let file = inputs::file(&mut self.random, &self.cases);
        let sizes = self.sizes();
        let basic = self.tried.compile(&mut self.random, true, &file, sizes)?;
        let sizes = self.sizes();
        let adaptive = self.tried.compile(&mut self.random, false, &file, sizes)?;
        let table = adaptive.or(basic);
        let before = self.random.one_of(&self.lives).clone();
        let before = if self.random.once_in(16) {
            inputs::damaged_live(&mut self.random, &before, &self.lives)
        } else {
            before
        };
        let (answer, live) = self.tried.live(&mut self.random, &file, &before, None)?;
        if answer.number == 0 {
            self.walk(&file, &live, table.as_deref())?;
        } else {
            let letter = self.random.byte();
            self.tried
                .live(&mut self.random, &file, &before, Some(letter))?;
        }
        if let Some(table) = table.filter(|table| table.len() < SHORT || self.random.once_in(8)) {
            keep(&mut self.random, &mut self.tables, table);
        }
        self.some_tables()
    }

    /// Lengths of output and working slice: mostly the least that will do, at times more or fewer.
    fn sizes(&mut self) -> (usize, usize) {
        let mut size = |least: usize| match self.random.below(40) {
            0 => self.random.below(least),
            1 => least - 1,
            2..=9 => least + self.random.below(1000),
            _ => least,
        };
        (size(cart::OUTPUT), size(cart::WORK))
    }

    /// Letters from the start, live and by the table, if there is one: the same answers, and the same state exactly where the live bytes are the
    /// same. Beside them steps from damaged live bytes.
    fn walk(&mut self, file: &[u8], start: &[u8], table: Option<&[u8]>) -> Result<(), String> {
        let letters = inputs::letters(file);
        let table = table.filter(|table| table.len() < SHORT);
        let mut numbers = HashMap::from([(start.to_vec(), 0)]);
        let mut live = start.to_vec();
        let mut state = 0;
        for _ in 0..self.random.below(12) {
            let letter = inputs::letter(&mut self.random, &letters);
            let (answer, after) = self
                .tried
                .live(&mut self.random, file, &live, Some(letter))?;
            if let Some(table) = table {
                let step = self
                    .tried
                    .table(&mut self.random, table, Some((state, letter)))?;
                if step.number == 0 {
                    state = step.state;
                }
                let same = numbers
                    .insert(after.clone(), state)
                    .map_or(true, |number| number == state);
                if !same || (step.number, step.orders) != (answer.number, answer.orders) {
                    return Err(format!(
                        "table and live engine differ: {step:?}, {answer:?}"
                    ));
                }
            }
            live = after;
            let damaged = inputs::damaged_live(&mut self.random, &live, &self.lives);
            self.tried
                .live(&mut self.random, file, &damaged, Some(letter))?;
        }
        one_to_one(&numbers, table)?;
        keep(&mut self.random, &mut self.lives, live);
        Ok(())
    }

    /// Starts and steps of tables, right and damaged, and of random bytes.
    fn some_tables(&mut self) -> Result<(), String> {
        for _ in 0..3 {
            let right = match self.random.below(12) {
                0..=2 => inputs::made_table(&mut self.random),
                3 => {
                    let length = self.random.below(40);
                    self.random.bytes(length)
                }
                _ => self.random.one_of(&self.tables).clone(),
            };
            let damaged = inputs::damaged_table(&mut self.random, &right);
            let table = if self.random.once_in(2) {
                &right
            } else {
                &damaged
            };
            let letters = inputs::table_letters(&right);
            let letter = inputs::letter(&mut self.random, &letters);
            let state = match self.random.below(16) {
                0 => self.random.next() as usize,
                1 => self.random.below(600),
                _ => self
                    .random
                    .below(usize::from(right.get(2).copied().unwrap_or(0)) + 1),
            };
            self.tried.table(&mut self.random, table, None)?;
            self.tried
                .table(&mut self.random, table, Some((state, letter)))?;
        }
        Ok(())
    }

    /// How many inputs each call had, and how often each number was answered.
    fn print(&self) {
        for (k, call) in CALLS.iter().enumerate() {
            let (inputs, taken) = (self.tried.inputs[k], self.tried.taken[k]);
            println!("{call:16} {inputs:>8} inputs, {taken:>7} of them taken");
        }
        let numbered = self
            .tried
            .answers
            .iter()
            .enumerate()
            .filter(|(_, times)| **times > 0);
        let times: Vec<String> = numbered
            .map(|(number, times)| format!("{number}: {times}"))
            .collect();
        println!("answers by number, 0 for success: {}", times.join(", "));
    }
}

/// Different live bytes along a walk are different states of the table.
fn one_to_one(numbers: &HashMap<Vec<u8>, usize>, table: Option<&[u8]>) -> Result<(), String> {
    let mut states: Vec<usize> = numbers.values().copied().collect();
    states.sort_unstable();
    states.dedup();
    if table.is_some() && states.len() != numbers.len() {
        return Err("one state of the table for two live states".to_string());
    }
    Ok(())
}

fn main() -> ExitCode {
    let words: Vec<u64> = std::env::args()
        .skip(1)
        .map_while(|word| word.parse().ok())
        .collect();
    if words.len() != std::env::args().count() - 1 || words.len() > 2 {
        eprintln!("usage: fuzz [COUNT [SEED]]");
        return ExitCode::from(2);
    }
    let count = words.first().map_or(COUNT, |count| *count as usize);
    let seed = words.get(1).copied().unwrap_or(SEED);
    let mut fuzz = Fuzz::new(seed);
    while fuzz.tried.inputs.iter().sum::<usize>() < count {
        if let Err(difference) = fuzz.round() {
            println!("DIFFERENT: {difference}");
            return ExitCode::FAILURE;
        }
    }
    fuzz.print();
    println!(
        "{} inputs, seed {seed}, no difference",
        fuzz.tried.inputs.iter().sum::<usize>()
    );
    ExitCode::SUCCESS
}
