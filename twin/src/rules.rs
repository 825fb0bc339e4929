//! What a state is, and one reaction: terms are explicit trees, rewritten part by part.
//!
//! `None` in place of a term means that nothing is left of it: it is gone.

use std::collections::BTreeSet;
use std::rc::Rc;

use crate::grammar;

/// A term. "Terms are equal when their trees are: brackets and braces only group".
#[derive(Clone, Debug, PartialEq, Eq, Hash)]
pub enum Term {
    /// A module.
    Module(u8),
    /// "`1` never completes."
    One,
    /// A first part, then a second.
    Seq(Rc<Term>, Rc<Term>),
    /// Two sides of `||`.
    Par(Rc<Term>, Rc<Term>),
    /// A starred part.
    Star(Rc<Term>),
    /// A first part, `/`, and its interruption.
    Act(Rc<Term>, Rc<Interruption>),
}

/// An interruption.
#[derive(Clone, Debug, PartialEq, Eq, Hash)]
pub enum Interruption {
    /// A plain event.
    Plain(u8),
    /// An event, `:`, and its treatment.
    Treated(u8, Rc<Term>),
    /// Two alternatives joined by `|`.
    Either(Rc<Interruption>, Rc<Interruption>),
    /// Two sides joined by `||`.
    Both(Rc<Interruption>, Rc<Interruption>),
}

/// "A term, a memory and a set of stopped modules." `None` is the end: "A state is at its end
/// when nothing is left of the term; then memory and stopped set are empty."
#[derive(Clone, Debug, PartialEq, Eq, Hash)]
pub struct State {
    /// What is left of the term.
    pub term: Option<Rc<Term>>,
    /// "The memory lists different standard events, oldest first."
    pub memory: Vec<u8>,
    /// The stopped modules.
    pub stopped: BTreeSet<u8>,
}

/// An order for one module: "0 none, 1 start, 2 resume, 3 stop".
#[derive(Clone, Copy, Debug, PartialEq, Eq)]
pub enum Order {
    /// No order.
    None = 0,
    /// Start from the beginning.
    Start = 1,
    /// Go on where it was stopped.
    Resume = 2,
    /// Stop.
    Stop = 3,
}

/// What a reaction gives: the next state, and one order for each module.
#[derive(Clone, Debug, PartialEq, Eq)]
pub struct Reaction {
    /// The next state.
    pub state: State,
    /// The orders, for the modules in their order.
    pub orders: Vec<Order>,
}

/// The term of a program: the same tree without its places.
pub fn term_of(tree: &grammar::Tree) -> Rc<Term> {
    Rc::new(match tree {
        grammar::Tree::Module(letter) => Term::Module(*letter),
        grammar::Tree::One => Term::One,
        grammar::Tree::Seq(x, y) => Term::Seq(term_of(x), term_of(y)),
        grammar::Tree::Par(x, y, _) => Term::Par(term_of(x), term_of(y)),
        grammar::Tree::Star(x, _) => Term::Star(term_of(x)),
        grammar::Tree::Act(x, i) => Term::Act(term_of(x), interruption_of(i)),
    })
}

/// The interruption of a program: the same tree without its places.
fn interruption_of(tree: &grammar::Interruption) -> Rc<Interruption> {
    use grammar::Interruption::{Both, Either, Plain, Treated};
    Rc::new(match tree {
        Plain(letter) => Interruption::Plain(*letter),
        Treated(letter, x) => Interruption::Treated(*letter, term_of(x)),
        Either(i, j) => Interruption::Either(interruption_of(i), interruption_of(j)),
        Both(i, j, _) => Interruption::Both(interruption_of(i), interruption_of(j)),
    })
}

/// "Parts of a term: each name or `1`, each join (sequence too), `/`, `:` and star."
pub fn parts(term: &Term) -> usize {
    match term {
        Term::Module(_) | Term::One => 1,
        Term::Seq(x, y) | Term::Par(x, y) => 1 + parts(x) + parts(y),
        Term::Star(x) => 1 + parts(x),
        Term::Act(x, i) => 1 + parts(x) + parts_of_interruption(i),
    }
}

/// The parts of an interruption, counted the same way.
fn parts_of_interruption(interruption: &Interruption) -> usize {
    match interruption {
        Interruption::Plain(_) => 1,
        Interruption::Treated(_, treatment) => 2 + parts(treatment),
        Interruption::Either(i, j) | Interruption::Both(i, j) => {
            1 + parts_of_interruption(i) + parts_of_interruption(j)
        }
    }
}

/// A term in postorder, one byte for each part: letters and marks as they are written, `;` for a
/// sequence, `|` for `||`, and between interruptions `!` for `|` and `&` for `||`.
pub fn postorder(term: &Term, out: &mut Vec<u8>) {
    match term {
        Term::Module(letter) => out.push(*letter),
        Term::One => out.push(b'1'),
        Term::Seq(x, y) | Term::Par(x, y) => {
            postorder(x, out);
            postorder(y, out);
            out.push(if matches!(term, Term::Seq(..)) {
                b';'
            } else {
                b'|'
            });
        }
        Term::Star(x) => {
            postorder(x, out);
            out.push(b'*');
        }
        Term::Act(x, i) => {
            postorder(x, out);
            postorder_of_interruption(i, out);
            out.push(b'/');
        }
    }
}

/// An interruption in postorder, written the same way.
fn postorder_of_interruption(interruption: &Interruption, out: &mut Vec<u8>) {
    match interruption {
        Interruption::Plain(letter) => out.push(*letter),
        Interruption::Treated(letter, treatment) => {
            out.push(*letter);
            postorder(treatment, out);
            out.push(b':');
        }
        Interruption::Either(i, j) | Interruption::Both(i, j) => {
            postorder_of_interruption(i, out);
            postorder_of_interruption(j, out);
            let either = matches!(interruption, Interruption::Either(..));
            out.push(if either { b'!' } else { b'&' });
        }
    }
}

/// "A module runs itself; a sequence, a star and a `/` run their first part; `||` runs both
/// sides."
pub fn running(module: u8, term: &Term) -> bool {
    match term {
        Term::Module(letter) => *letter == module,
        Term::One => false,
        Term::Seq(x, _) | Term::Star(x) | Term::Act(x, _) => running(module, x),
        Term::Par(x, y) => running(module, x) || running(module, y),
    }
}

/// "Armed: the same walk, and at a `/` also every event at the head of its interruption".
pub fn armed(event: u8, term: &Term) -> bool {
    match term {
        Term::Module(_) | Term::One => false,
        Term::Seq(x, _) | Term::Star(x) => armed(event, x),
        Term::Act(x, i) => armed(event, x) || heads(event, i),
        Term::Par(x, y) => armed(event, x) || armed(event, y),
    }
}

/// The event is "at the head of its interruption, inside braces too".
pub fn heads(event: u8, interruption: &Interruption) -> bool {
    match interruption {
        Interruption::Plain(letter) | Interruption::Treated(letter, _) => *letter == event,
        Interruption::Either(i, j) | Interruption::Both(i, j) => heads(event, i) || heads(event, j),
    }
}

/// "The a that runs vanishes", and what that makes of the parts around it.
pub fn complete(module: u8, term: &Rc<Term>) -> Option<Rc<Term>> {
    if !running(module, term) {
        return Some(term.clone());
    }
    match &**term {
        Term::Module(_) | Term::One => None,
        Term::Seq(x, y) => Some(sequence(complete(module, x), y)),
        Term::Par(x, y) => parallel(complete(module, x), complete(module, y)),
        Term::Star(x) => Some(starred(complete(module, x), x, term)),
        Term::Act(x, i) => interrupted(complete(module, x), i),
    }
}

/// "Taking E. A part in which E is not armed stays." "At a `/`: if E heads its interruption, the
/// first part is dropped and the interruption is hit ..; otherwise E is taken in the first part".
pub fn take(event: u8, term: &Rc<Term>) -> Option<Rc<Term>> {
    if !armed(event, term) {
        return Some(term.clone());
    }
    match &**term {
        Term::Module(_) | Term::One => Some(term.clone()),
        Term::Seq(x, y) => Some(sequence(take(event, x), y)),
        Term::Par(x, y) => parallel(take(event, x), take(event, y)),
        Term::Star(x) => Some(starred(take(event, x), x, term)),
        Term::Act(_, i) if heads(event, i) => hit(event, i),
        Term::Act(x, i) => interrupted(take(event, x), i),
    }
}

/// "A sequence whose first part vanishes becomes its second".
fn sequence(first: Option<Rc<Term>>, second: &Rc<Term>) -> Rc<Term> {
    match first {
        None => second.clone(),
        Some(first) => Rc::new(Term::Seq(first, second.clone())),
    }
}

/// "a `||` with one side gone becomes the other, with both gone it is gone".
fn parallel(left: Option<Rc<Term>>, right: Option<Rc<Term>>) -> Option<Rc<Term>> {
    match (left, right) {
        (None, None) => None,
        (Some(left), None) => Some(left),
        (None, Some(right)) => Some(right),
        (Some(left), Some(right)) => Some(Rc::new(Term::Par(left, right))),
    }
}

/// "A starred T: if T becomes T', different and not gone, the result is T' followed by the
/// starred T; if T is gone or equal to before, the starred T."
fn starred(after: Option<Rc<Term>>, before: &Rc<Term>, star: &Rc<Term>) -> Rc<Term> {
    match after {
        Some(after) if after != *before => Rc::new(Term::Seq(after, star.clone())),
        _ => star.clone(),
    }
}

/// "a `/` whose first part vanishes is gone with its interruption".
fn interrupted(first: Option<Rc<Term>>, interruption: &Rc<Interruption>) -> Option<Rc<Term>> {
    first.map(|first| Rc::new(Term::Act(first, interruption.clone())))
}

/// "Hit: plain E is gone; `E:T` becomes T; in `|` the leftmost alternative that E heads is hit
/// and the rest dropped; in `||` each side that E heads is hit", any other waits.
fn hit(event: u8, interruption: &Interruption) -> Option<Rc<Term>> {
    match interruption {
        Interruption::Plain(_) => None,
        Interruption::Treated(_, treatment) => Some(treatment.clone()),
        Interruption::Either(i, _) if heads(event, i) => hit(event, i),
        Interruption::Either(_, j) => hit(event, j),
        Interruption::Both(i, j) => parallel(hit_or_wait(event, i), hit_or_wait(event, j)),
    }
}

/// "a side I that it does not head becomes `1/I`".
fn hit_or_wait(event: u8, side: &Rc<Interruption>) -> Option<Rc<Term>> {
    if heads(event, side) {
        hit(event, side)
    } else {
        Some(Rc::new(Term::Act(Rc::new(Term::One), side.clone())))
    }
}

/// "While a stored event is armed, the oldest such is taken and leaves the memory at once."
pub fn settle(mut term: Option<Rc<Term>>, mut memory: Vec<u8>) -> (Option<Rc<Term>>, Vec<u8>) {
    while let Some(present) = &term {
        match memory.iter().position(|e| armed(*e, present)) {
            None => break,
            Some(oldest) => {
                let event = memory.remove(oldest);
                term = take(event, present);
            }
        }
    }
    (term, memory)
}

impl State {
    /// The start: the whole program, nothing stored, nothing stopped.
    pub fn start(program: &Rc<Term>) -> State {
        State {
            term: Some(program.clone()),
            memory: Vec::new(),
            stopped: BTreeSet::new(),
        }
    }

    /// The module runs in this state; at the end none does.
    pub fn runs(&self, module: u8) -> bool {
        match &self.term {
            Some(term) => running(module, term),
            None => false,
        }
    }
}

/// The reaction to the completion of a module: "only if it runs", else no reaction.
pub fn completion(modules: &[u8], state: &State, module: u8) -> Option<Reaction> {
    let term = state.term.as_ref()?;
    if !running(module, term) {
        return None;
    }
    let (term, memory) = settle(complete(module, term), state.memory.clone());
    Some(reaction(modules, state, Some(module), term, memory))
}

/// The reaction to an occurrence of an event. "At the end: nothing changes. Fugitive: taken if
/// armed, else nothing; never stored. Standard: if already stored, nothing changes; else it is
/// taken if armed, or appended to the memory. Settling follows each taking".
pub fn occurrence(modules: &[u8], state: &State, event: u8, fugitive: bool) -> Reaction {
    let mut memory = state.memory.clone();
    let term = match &state.term {
        None => None,
        Some(term) if memory.contains(&event) => Some(term.clone()),
        Some(term) if armed(event, term) => {
            let settled = settle(take(event, term), memory);
            memory = settled.1;
            settled.0
        }
        Some(term) => {
            if !fugitive {
                memory.push(event);
            }
            Some(term.clone())
        }
    };
    reaction(modules, state, None, term, memory)
}

/// "Orders compare before and after the whole reaction." "On reaching the end the set is emptied
/// after the orders are worked out", and the memory is empty there.
fn reaction(
    modules: &[u8],
    before: &State,
    completed: Option<u8>,
    term: Option<Rc<Term>>,
    memory: Vec<u8>,
) -> Reaction {
    let mut state = State {
        term,
        memory,
        stopped: before.stopped.clone(),
    };
    let mut orders = Vec::new();
    for module in modules {
        let runs = (before.runs(*module), state.runs(*module));
        let order = if completed == Some(*module) {
            order_of_completed(runs.1)
        } else {
            order_of_other(*module, runs, &mut state.stopped)
        };
        orders.push(order);
    }
    if state.term.is_none() {
        state.memory.clear();
        state.stopped.clear();
    }
    Reaction { state, orders }
}

/// "The completed module: start if it runs again, else none."
fn order_of_completed(runs_after: bool) -> Order {
    if runs_after {
        Order::Start
    } else {
        Order::None
    }
}

/// "Any other: runs before and after, none; before only, stop, and it joins the stopped set;
/// after only, resume if it is in that set, which it leaves, else start."
fn order_of_other(module: u8, runs: (bool, bool), stopped: &mut BTreeSet<u8>) -> Order {
    match runs {
        (true, true) | (false, false) => Order::None,
        (true, false) => {
            stopped.insert(module);
            Order::Stop
        }
        (false, true) => {
            if stopped.remove(&module) {
                Order::Resume
            } else {
                Order::Start
            }
        }
    }
}

#[cfg(test)]
mod tests {
    use super::*;
    use crate::file::read_file;
    use crate::grammar::read_program;

    /// The term that a text stands for.
    fn term(text: &str) -> Rc<Term> {
        let bytes = format!("program {text}.\n").into_bytes();
        let file = read_file(&bytes).expect("a file");
        term_of(&read_program(&file.program).expect("a program"))
    }

    #[test]
    fn parts_are_names_ones_joins_slashes_colons_and_stars() {
        for (text, wanted) in [
            ("a", 1),
            ("1", 1),
            ("ab", 3),
            ("[a||b]", 3),
            ("a*", 2),
            ("a/E", 3),
            ("a/E:b*", 6),
            ("1/{E|F}", 5),
            ("1/{E||F:b}", 7),
            ("[[[a]]]", 1),
        ] {
            assert_eq!(parts(&term(text)), wanted, "{text}");
        }
        // 95 names and 94 joins
        assert_eq!(parts(&term(&"a".repeat(95))), 189);
    }

    #[test]
    fn running_and_armed_walk_the_first_parts() {
        let term = term("[[ab]*/{E:c|{F||G}}||[d/H:e]f]g/I");
        let letters = |set: &str, test: &dyn Fn(u8) -> bool| -> String {
            set.chars().filter(|c| test(*c as u8)).collect()
        };
        assert_eq!(letters("abcdefg", &|m| running(m, &term)), "ad");
        assert_eq!(letters("EFGHI", &|e| armed(e, &term)), "EFGH");
    }
}
