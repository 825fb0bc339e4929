//! The program: from the value of the `program` line to a tree. Refusal 8.
//!
//! One function for each line of the grammar. Each takes a byte only if some program continues
//! with it, and answers `None` as soon as none does; the reader then stands before the first byte
//! that no program continues with. The functions call each other in a cycle; each turn of it
//! takes a byte, and a value has at most 1,015 of them.

use crate::bytes::{kind, Kind};
use crate::file::Value;
use crate::refusal::Refusal;

/// A part of a program, with the places that refusals need. Brackets only group.
#[derive(Clone, Debug, PartialEq, Eq)]
pub enum Tree {
    /// A module.
    Module(u8),
    /// `1`.
    One,
    /// A first part, then the rest.
    Seq(Box<Tree>, Box<Tree>),
    /// Two sides joined by `||`, and its place.
    Par(Box<Tree>, Box<Tree>, usize),
    /// A starred part, and the place of its star.
    Star(Box<Tree>, usize),
    /// A first part, `/`, and its interruption.
    Act(Box<Tree>, Box<Interruption>),
}

/// An interruption, with the places that refusals need. Braces only group.
#[derive(Clone, Debug, PartialEq, Eq)]
pub enum Interruption {
    /// A plain event.
    Plain(u8),
    /// An event, `:`, and its treatment.
    Treated(u8, Box<Tree>),
    /// Two alternatives joined by `|`.
    Either(Box<Interruption>, Box<Interruption>),
    /// Two sides joined by `||`, and its place.
    Both(Box<Interruption>, Box<Interruption>, usize),
}

/// "Program: a sequence, then `.`." After it the value ends. No. 8: "first byte that no program
/// continues with; the line end if the value stops short".
pub fn read_program(value: &Value<'_>) -> Result<Tree, Refusal> {
    let mut reader = Reader { value, at: 0 };
    match reader.program() {
        Some(tree) => Ok(*tree),
        None => Err(Refusal::at(8, reader.place())),
    }
}

/// A value, and how many of its bytes are taken.
struct Reader<'a> {
    value: &'a Value<'a>,
    at: usize,
}

impl Reader<'_> {
    /// The place of the next byte in the file.
    fn place(&self) -> usize {
        self.value.place + self.at
    }

    /// The kind of the next byte; where the value stops short, the line end.
    fn next(&self) -> Kind {
        match self.value.bytes.get(self.at) {
            Some(byte) => kind(*byte),
            None => Kind::LineEnd,
        }
    }

    /// Takes the next byte if it is of this kind, and says whether it did.
    fn takes(&mut self, wanted: Kind) -> bool {
        let taken = self.next() == wanted;
        if taken {
            self.at += 1;
        }
        taken
    }

    /// Takes a byte of this kind; no program continues with another.
    fn expect(&mut self, wanted: Kind) -> Option<()> {
        if self.takes(wanted) {
            Some(())
        } else {
            None
        }
    }

    /// Takes `||`, one token of two bytes.
    fn double_bar(&mut self) -> Option<()> {
        self.expect(Kind::Bar)?;
        self.expect(Kind::Bar)
    }

    /// "Program: a sequence, then `.`."
    fn program(&mut self) -> Option<Box<Tree>> {
        let sequence = self.sequence()?;
        self.expect(Kind::Dot)?;
        if self.at < self.value.bytes.len() {
            return None;
        }
        Some(sequence)
    }

    /// "Sequence: one or more items side by side." "Sequences .. group to the right."
    fn sequence(&mut self) -> Option<Box<Tree>> {
        let first = self.item()?;
        match self.next() {
            Kind::Module(_) | Kind::One | Kind::BracketOpen => {
                let rest = self.sequence()?;
                Some(Box::new(Tree::Seq(first, rest)))
            }
            _ => Some(first),
        }
    }

    /// "Item: a starred part, then optionally `/` and an interruption."
    fn item(&mut self) -> Option<Box<Tree>> {
        let first = self.starred_part()?;
        if !self.takes(Kind::Slash) {
            return Some(first);
        }
        let interruption = self.interruption()?;
        Some(Box::new(Tree::Act(first, interruption)))
    }

    /// "Starred part: an atom, optionally one `*`."
    fn starred_part(&mut self) -> Option<Box<Tree>> {
        let atom = self.atom()?;
        let place = self.place();
        if !self.takes(Kind::Star) {
            return Some(atom);
        }
        Some(Box::new(Tree::Star(atom, place)))
    }

    /// "Atom: a module a to z, or `1`, or `[` body `]`."
    fn atom(&mut self) -> Option<Box<Tree>> {
        match self.next() {
            Kind::Module(letter) => {
                self.at += 1;
                Some(Box::new(Tree::Module(letter)))
            }
            Kind::One => {
                self.at += 1;
                Some(Box::new(Tree::One))
            }
            Kind::BracketOpen => {
                self.at += 1;
                let body = self.body()?;
                self.expect(Kind::BracketClose)?;
                Some(body)
            }
            _ => None,
        }
    }

    /// "Body: one or more sequences joined by `||`." "Joins group to the right."
    fn body(&mut self) -> Option<Box<Tree>> {
        let first = self.sequence()?;
        if self.next() != Kind::Bar {
            return Some(first);
        }
        let place = self.place();
        self.double_bar()?;
        let rest = self.body()?;
        Some(Box::new(Tree::Par(first, rest, place)))
    }

    /// "Interruption: an event A to Z, optionally `:` and an item (its treatment); or `{` .."
    fn interruption(&mut self) -> Option<Box<Interruption>> {
        match self.next() {
            Kind::Event(letter) => {
                self.at += 1;
                if !self.takes(Kind::Colon) {
                    return Some(Box::new(Interruption::Plain(letter)));
                }
                let treatment = self.item()?;
                Some(Box::new(Interruption::Treated(letter, treatment)))
            }
            Kind::BraceOpen => {
                self.at += 1;
                self.braces()
            }
            _ => None,
        }
    }

    /// "`{` two or more interruptions `}`, all joined by `|` or all by `||`"; `{` is taken.
    fn braces(&mut self) -> Option<Box<Interruption>> {
        let first = self.interruption()?;
        let place = self.place();
        self.expect(Kind::Bar)?;
        if self.takes(Kind::Bar) {
            let rest = self.rest_of_both()?;
            Some(Box::new(Interruption::Both(first, rest, place)))
        } else {
            let rest = self.rest_of_either()?;
            Some(Box::new(Interruption::Either(first, rest)))
        }
    }

    /// What follows a `|` in braces: interruptions, "all joined by `|`", then `}`.
    fn rest_of_either(&mut self) -> Option<Box<Interruption>> {
        let first = self.interruption()?;
        if self.takes(Kind::BraceClose) {
            return Some(first);
        }
        self.expect(Kind::Bar)?;
        let rest = self.rest_of_either()?;
        Some(Box::new(Interruption::Either(first, rest)))
    }

    /// What follows a `||` in braces: interruptions, "all by `||`", then `}`.
    fn rest_of_both(&mut self) -> Option<Box<Interruption>> {
        let first = self.interruption()?;
        if self.takes(Kind::BraceClose) {
            return Some(first);
        }
        let place = self.place();
        self.double_bar()?;
        let rest = self.rest_of_both()?;
        Some(Box::new(Interruption::Both(first, rest, place)))
    }
}
