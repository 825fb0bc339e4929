//! A configuration file read to its end: refusals 2 to 14, and for Basic 15 and 16.

use std::collections::BTreeSet;
use std::rc::Rc;

use crate::file::read_file;
use crate::grammar::read_program;
use crate::limits::{check_limits, Edition};
use crate::refusal::Refusal;
use crate::rules::{completion, occurrence, term_of, Reaction, State, Term};

/// An event of a program.
#[derive(Clone, Copy, Debug, PartialEq, Eq, PartialOrd, Ord)]
pub struct Event {
    /// Its letter, A to Z.
    pub letter: u8,
    /// Fugitive, not standard.
    pub fugitive: bool,
}

/// What an accepted file says.
#[derive(Clone, Debug, PartialEq, Eq)]
pub struct Config {
    /// The modules of the program, ascending.
    pub modules: Vec<u8>,
    /// The events of the program, ascending. By refusals 10 and 11 they are the listed ones.
    pub events: Vec<Event>,
    /// The term of the program.
    pub program: Rc<Term>,
}

/// "Order: .. 2, then line by line 3 to 6, then 7 to 18 in turn", here up to 16.
pub fn read_config(bytes: &[u8], edition: Edition) -> Result<Config, Refusal> {
    let file = read_file(bytes)?;
    let tree = read_program(&file.program)?;
    check_limits(&file, &tree, edition)?;
    let letters: BTreeSet<u8> = file.program.bytes.iter().copied().collect();
    let modules = letters.into_iter().filter(u8::is_ascii_lowercase).collect();
    let listed = file.listed.iter().map(|l| Event {
        letter: l.letter,
        fugitive: l.fugitive,
    });
    let events: BTreeSet<Event> = listed.collect();
    Ok(Config {
        modules,
        events: events.into_iter().collect(),
        program: term_of(&tree),
    })
}

impl Config {
    /// The start of the program.
    pub fn start(&self) -> State {
        State::start(&self.program)
    }

    /// The modules that run in a state.
    pub fn running(&self, state: &State) -> Vec<u8> {
        let runs = |module: &&u8| state.runs(**module);
        self.modules.iter().filter(runs).copied().collect()
    }

    /// One step by a letter. No. 21: "letter not in the program"; No. 22: "completion of a module
    /// not running".
    pub fn step(&self, state: &State, letter: u8) -> Result<Reaction, Refusal> {
        if self.modules.contains(&letter) {
            let reaction = completion(&self.modules, state, letter);
            return reaction.ok_or_else(|| Refusal::without_place(22));
        }
        match self.events.iter().find(|e| e.letter == letter) {
            None => Err(Refusal::without_place(21)),
            Some(e) => Ok(occurrence(&self.modules, state, letter, e.fugitive)),
        }
    }
}
