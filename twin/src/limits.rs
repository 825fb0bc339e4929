//! The limits of a program, and the names that two sides may not share. Refusals 9 to 16.

use crate::bytes::{kind, Kind};
use crate::file::{File, Value};
use crate::grammar::{Interruption, Tree};
use crate::refusal::Refusal;

/// "A program has at most 96 tokens".
pub const MOST_TOKENS: usize = 96;
/// "brackets and braces 16 deep".
pub const MOST_BRACKETS: usize = 16;
/// "stars 3 deep".
pub const MOST_STARS: usize = 3;
/// "8 different modules and 8 different events".
pub const MOST_NAMES: usize = 8;

/// The two editions.
#[derive(Clone, Copy, Debug, PartialEq, Eq)]
pub enum Edition {
    /// Basic: no fugitive events, no interruptions joined by `||`.
    Basic,
    /// Adaptive: the whole language.
    Adaptive,
}

/// "7 to 18 in turn, each over the whole file": here 9 to 14, and for Basic 15 and 16.
pub fn check_limits(file: &File<'_>, tree: &Tree, edition: Edition) -> Result<(), Refusal> {
    refuse(9, token_over(&file.program))?;
    refuse(9, bracket_over(&file.program))?;
    refuse(9, star_over(tree))?;
    refuse(10, event_not_listed(file))?;
    refuse(11, listed_not_used(file))?;
    refuse(12, ninth(&modules_in_text(&file.program)))?;
    refuse(12, ninth(&events_in_text(&file.program)))?;
    let joins = joins_of_tree(tree);
    refuse(13, shared_module(&joins))?;
    refuse(14, shared_standard_event(&joins, file))?;
    if edition == Edition::Basic {
        refuse(15, file.fugitive_line)?;
        refuse(16, joined_interruptions(&joins))?;
    }
    Ok(())
}

/// The refusal of this number, if a place was found for it.
fn refuse(number: u8, place: Option<usize>) -> Result<(), Refusal> {
    match place {
        Some(place) => Err(Refusal::at(number, place)),
        None => Ok(()),
    }
}

/// The places of the tokens: "Each byte is a token, but `||` is one."
fn tokens(value: &Value<'_>) -> Vec<usize> {
    let mut places = Vec::new();
    let mut second_bar = false;
    for (i, byte) in value.bytes.iter().enumerate() {
        let bar = kind(*byte) == Kind::Bar;
        if bar && second_bar {
            second_bar = false;
            continue;
        }
        second_bar = bar;
        places.push(value.place + i);
    }
    places
}

/// No. 9, tokens: the "first token over".
fn token_over(value: &Value<'_>) -> Option<usize> {
    tokens(value).get(MOST_TOKENS).copied()
}

/// No. 9, depth of brackets: the first opener over; brackets and braces share one count.
fn bracket_over(value: &Value<'_>) -> Option<usize> {
    let mut depth = 0usize;
    for (i, byte) in value.bytes.iter().enumerate() {
        match kind(*byte) {
            Kind::BracketOpen | Kind::BraceOpen => depth += 1,
            Kind::BracketClose | Kind::BraceClose => depth = depth.saturating_sub(1),
            _ => {}
        }
        if depth > MOST_BRACKETS {
            return Some(value.place + i);
        }
    }
    None
}

/// No. 9, depth of stars: the "first star over a part with three nested".
fn star_over(tree: &Tree) -> Option<usize> {
    let mut over = Vec::new();
    stars_of_tree(tree, &mut over);
    over.into_iter().min()
}

/// How deep the stars of a part are; `over` gathers each star over a part with three nested.
fn stars_of_tree(tree: &Tree, over: &mut Vec<usize>) -> usize {
    match tree {
        Tree::Module(_) | Tree::One => 0,
        Tree::Seq(x, y) | Tree::Par(x, y, _) => {
            let left = stars_of_tree(x, over);
            left.max(stars_of_tree(y, over))
        }
        Tree::Star(x, place) => {
            let nested = stars_of_tree(x, over);
            if nested >= MOST_STARS {
                over.push(*place);
            }
            nested + 1
        }
        Tree::Act(x, i) => {
            let first = stars_of_tree(x, over);
            first.max(stars_of_interruption(i, over))
        }
    }
}

/// "treatments inside a starred part count".
fn stars_of_interruption(interruption: &Interruption, over: &mut Vec<usize>) -> usize {
    match interruption {
        Interruption::Plain(_) => 0,
        Interruption::Treated(_, treatment) => stars_of_tree(treatment, over),
        Interruption::Either(i, j) | Interruption::Both(i, j, _) => {
            let left = stars_of_interruption(i, over);
            left.max(stars_of_interruption(j, over))
        }
    }
}

/// Every module of the program with its place, in the order of the text.
fn modules_in_text(value: &Value<'_>) -> Vec<(u8, usize)> {
    let letter = |(i, byte): (usize, &u8)| match kind(*byte) {
        Kind::Module(letter) => Some((letter, value.place + i)),
        _ => None,
    };
    value.bytes.iter().enumerate().filter_map(letter).collect()
}

/// Every event of the program with its place, in the order of the text.
fn events_in_text(value: &Value<'_>) -> Vec<(u8, usize)> {
    let letter = |(i, byte): (usize, &u8)| match kind(*byte) {
        Kind::Event(letter) => Some((letter, value.place + i)),
        _ => None,
    };
    value.bytes.iter().enumerate().filter_map(letter).collect()
}

/// No. 10: "event not listed", at "its first use".
fn event_not_listed(file: &File<'_>) -> Option<usize> {
    let uses = events_in_text(&file.program);
    let listed = |letter: u8| file.listed.iter().any(|l| l.letter == letter);
    uses.iter().find(|u| !listed(u.0)).map(|u| u.1)
}

/// No. 11: "listed event not used", at "its letter, earliest".
fn listed_not_used(file: &File<'_>) -> Option<usize> {
    let uses = events_in_text(&file.program);
    let used = |letter: u8| uses.iter().any(|u| u.0 == letter);
    let unused = file.listed.iter().filter(|l| !used(l.letter));
    unused.map(|l| l.place).min()
}

/// No. 12: "ninth module, then ninth event", at "its first use".
fn ninth(uses: &[(u8, usize)]) -> Option<usize> {
    let mut different: Vec<u8> = Vec::new();
    for (letter, place) in uses {
        if different.contains(letter) {
            continue;
        }
        different.push(*letter);
        if different.len() > MOST_NAMES {
            return Some(*place);
        }
    }
    None
}

/// The modules and events that stand in a part.
#[derive(Clone, Debug, Default)]
struct Names {
    modules: Vec<u8>,
    events: Vec<u8>,
}

/// One `||`: its place, the names on its two sides, and whether it joins interruptions.
struct Join {
    place: usize,
    left: Names,
    right: Names,
    in_braces: bool,
}

/// Every `||` of a program, between sequences and between interruptions.
fn joins_of_tree(tree: &Tree) -> Vec<Join> {
    let mut joins = Vec::new();
    names_of_tree(tree, &mut joins);
    joins
}

/// The names of two parts together.
fn together(left: Names, right: Names) -> Names {
    let mut both = left;
    both.modules.extend(right.modules);
    both.events.extend(right.events);
    both
}

/// The names of a part; `joins` gathers each `||` in it.
fn names_of_tree(tree: &Tree, joins: &mut Vec<Join>) -> Names {
    match tree {
        Tree::Module(letter) => Names {
            modules: vec![*letter],
            events: Vec::new(),
        },
        Tree::One => Names::default(),
        Tree::Seq(x, y) => {
            let first = names_of_tree(x, joins);
            together(first, names_of_tree(y, joins))
        }
        Tree::Par(x, y, place) => {
            let left = names_of_tree(x, joins);
            let right = names_of_tree(y, joins);
            join(*place, left, right, false, joins)
        }
        Tree::Star(x, _) => names_of_tree(x, joins),
        Tree::Act(x, i) => {
            let first = names_of_tree(x, joins);
            together(first, names_of_interruption(i, joins))
        }
    }
}

/// The names of an interruption, its events and treatments; `joins` gathers each `||` in it.
fn names_of_interruption(interruption: &Interruption, joins: &mut Vec<Join>) -> Names {
    match interruption {
        Interruption::Plain(letter) => Names {
            modules: Vec::new(),
            events: vec![*letter],
        },
        Interruption::Treated(letter, treatment) => {
            let mut names = names_of_tree(treatment, joins);
            names.events.push(*letter);
            names
        }
        Interruption::Either(i, j) => {
            let left = names_of_interruption(i, joins);
            together(left, names_of_interruption(j, joins))
        }
        Interruption::Both(i, j, place) => {
            let left = names_of_interruption(i, joins);
            let right = names_of_interruption(j, joins);
            join(*place, left, right, true, joins)
        }
    }
}

/// Notes a `||` and answers the names of both its sides.
fn join(place: usize, left: Names, right: Names, in_braces: bool, joins: &mut Vec<Join>) -> Names {
    joins.push(Join {
        place,
        left: left.clone(),
        right: right.clone(),
        in_braces,
    });
    together(left, right)
}

/// No. 13: "The two sides of a `||` may not share a module", at the "first such `||`".
fn shared_module(joins: &[Join]) -> Option<usize> {
    let shared = |j: &&Join| j.left.modules.iter().any(|m| j.right.modules.contains(m));
    joins.iter().filter(shared).map(|j| j.place).min()
}

/// No. 14: "nor a standard event; a fugitive event may stand in both", at the first such `||`.
fn shared_standard_event(joins: &[Join], file: &File<'_>) -> Option<usize> {
    let standard = |e: u8| file.listed.iter().any(|l| l.letter == e && !l.fugitive);
    let shared = |j: &&Join| {
        let mut left = j.left.events.iter();
        left.any(|e| standard(*e) && j.right.events.contains(e))
    };
    joins.iter().filter(shared).map(|j| j.place).min()
}

/// No. 16: "Basic: interruptions joined by `||`", at the "first such `||`".
fn joined_interruptions(joins: &[Join]) -> Option<usize> {
    let braces = joins.iter().filter(|j| j.in_braces);
    braces.map(|j| j.place).min()
}
