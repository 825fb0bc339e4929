//! All states that can be reached, in the order of discovery. Refusals 17 and 18.

use std::collections::HashMap;

use crate::config::Config;
use crate::refusal::Refusal;
use crate::rules::{parts, Order, Reaction, State};

/// "At most 512 states."
pub const MOST_STATES: usize = 512;
/// No. 18: "a reachable term of more than 8,192 parts".
pub const MOST_PARTS: usize = 8192;

/// A step that is possible: the number of the next state, and one order for each module.
#[derive(Clone, Debug, PartialEq, Eq)]
pub struct Entry {
    /// The number of the next state.
    pub next: usize,
    /// The orders, for the modules in their order.
    pub orders: Vec<Order>,
}

/// The states by their numbers, and the numbers of the states.
#[derive(Clone, Debug, Default)]
pub struct Discovery {
    /// The states; the number of a state is its index.
    pub states: Vec<State>,
    /// For each state, for each letter (modules, then events): the step, if it is possible.
    pub entries: Vec<Vec<Option<Entry>>>,
    numbers: HashMap<State, usize>,
}

/// "States are numbered in order of discovery from 0, the start: each state in turn, module
/// letters alphabetically, then event letters."
pub fn discover(config: &Config) -> Result<Discovery, Refusal> {
    let mut found = Discovery::default();
    found.number(config.start());
    let mut turn = 0;
    while let Some(state) = found.states.get(turn).cloned() {
        let mut row = Vec::new();
        for letter in letters(config) {
            let step = config.step(&state, letter).ok();
            row.push(step.map(|reaction| found.entry(reaction)));
            if found.states.len() > MOST_STATES {
                return Err(Refusal::without_place(17));
            }
        }
        found.entries.push(row);
        turn += 1;
    }
    let terms = found.states.iter().filter_map(|s| s.term.as_ref());
    if terms.map(|t| parts(t)).any(|n| n > MOST_PARTS) {
        return Err(Refusal::without_place(18));
    }
    Ok(found)
}

/// The letters of a program: modules alphabetically, then events.
pub fn letters(config: &Config) -> Vec<u8> {
    let modules = config.modules.iter().copied();
    modules
        .chain(config.events.iter().map(|e| e.letter))
        .collect()
}

impl Discovery {
    /// The number of a state, if it was discovered.
    pub fn number_of(&self, state: &State) -> Option<usize> {
        self.numbers.get(state).copied()
    }

    /// The number of a state, the next free one if it is new.
    fn number(&mut self, state: State) -> usize {
        if let Some(number) = self.numbers.get(&state) {
            return *number;
        }
        let number = self.states.len();
        self.states.push(state.clone());
        self.numbers.insert(state, number);
        number
    }

    /// The entry of a reaction.
    fn entry(&mut self, reaction: Reaction) -> Entry {
        Entry {
            next: self.number(reaction.state),
            orders: reaction.orders,
        }
    }
}
