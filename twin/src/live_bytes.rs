//! The live state's 128 bytes, from docs/CODING.md: a state coded, bytes decoded, and the live
//! calls on them. Refusals 1 and 23.

use std::collections::BTreeSet;
use std::rc::Rc;

use crate::config::{read_config, Config};
use crate::limits::Edition;
use crate::refusal::Refusal;
use crate::rules::{Interruption, State, Term};

/// "live state not 128 bytes" is No. 1.
pub const LIVE_BYTES: usize = 128;
/// "1 to 96" units, one for each of the first 96 bytes; the most that a term of the set weighs.
const MOST_UNITS: usize = 96;
/// Where the two high bits of the units are, where their count, the stopped set and the memory.
const HIGH: usize = 96;
const COUNT: usize = 120;
const STOPPED: usize = 121;
const MEMORY: usize = 122;
/// "two events a byte" in bytes 122 to 125.
const MOST_STORED: usize = 8;

/// The ranges of the units, by their first number: a starred node, `/` over a term and over `1`.
const STARRED: usize = 192;
const SLASH: usize = 384;
const WAITING: usize = 576;
/// `1`, `||`, and the module a.
const ONE: usize = 768;
const SIDES: usize = 769;
const MODULE: usize = 770;
/// The numbers of a range.
const RANGE: usize = 192;

/// A node of the program: a part of it, which is a term or an interruption.
#[derive(Clone, Debug, PartialEq, Eq)]
enum Node {
    Term(Rc<Term>),
    Interruption(Rc<Interruption>),
}

/// "parts before what they are parts of, left before right, a treatment's event before what is
/// done, equal parts once; node 0 is `1`".
struct Nodes(Vec<Node>);

impl Nodes {
    /// The nodes of a program.
    fn of(program: &Rc<Term>) -> Nodes {
        let mut nodes = Nodes(vec![Node::Term(Rc::new(Term::One))]);
        nodes.add_term(program);
        nodes
    }

    /// The parts of a term, and then itself.
    fn add_term(&mut self, term: &Rc<Term>) {
        match &**term {
            Term::Module(_) | Term::One => {}
            Term::Seq(x, y) | Term::Par(x, y) => {
                self.add_term(x);
                self.add_term(y);
            }
            Term::Star(x) => self.add_term(x),
            Term::Act(x, i) => {
                self.add_term(x);
                self.add_interruption(i);
            }
        }
        self.add(Node::Term(term.clone()));
    }

    /// The parts of an interruption, and then itself.
    fn add_interruption(&mut self, interruption: &Rc<Interruption>) {
        match &**interruption {
            Interruption::Plain(_) => {}
            Interruption::Treated(event, treatment) => {
                self.add(Node::Interruption(Rc::new(Interruption::Plain(*event))));
                self.add_term(treatment);
            }
            Interruption::Either(i, j) | Interruption::Both(i, j) => {
                self.add_interruption(i);
                self.add_interruption(j);
            }
        }
        self.add(Node::Interruption(interruption.clone()));
    }

    /// "equal parts once".
    fn add(&mut self, node: Node) {
        if !self.0.contains(&node) {
            self.0.push(node);
        }
    }

    /// The number of a term, if it is a node.
    fn of_term(&self, term: &Term) -> Option<usize> {
        let same = |node: &Node| matches!(node, Node::Term(t) if **t == *term);
        self.0.iter().position(same)
    }

    /// The number of an interruption, if it is a node.
    fn of_interruption(&self, interruption: &Interruption) -> Option<usize> {
        let same = |node: &Node| matches!(node, Node::Interruption(i) if **i == *interruption);
        self.0.iter().position(same)
    }

    /// The term of this number.
    fn term(&self, number: usize) -> Option<Rc<Term>> {
        match self.0.get(number)? {
            Node::Term(term) => Some(term.clone()),
            Node::Interruption(_) => None,
        }
    }

    /// The interruption of this number.
    fn interruption(&self, number: usize) -> Option<Rc<Interruption>> {
        match self.0.get(number)? {
            Node::Interruption(interruption) => Some(interruption.clone()),
            Node::Term(_) => None,
        }
    }

    /// Writes the word of a term: the walk of what runs "in prefix order, and each part right of it
    /// as the number of its node". `None` if such a part is no node.
    fn write(&self, term: &Term, word: &mut Vec<usize>) -> Option<()> {
        match term {
            Term::Module(letter) => word.push(MODULE + usize::from(letter.checked_sub(b'a')?)),
            Term::One => word.push(ONE),
            Term::Seq(x, y) => {
                word.push(self.of_term(y)?);
                self.write(x, word)?;
            }
            Term::Par(x, y) => {
                word.push(SIDES);
                self.write(x, word)?;
                self.write(y, word)?;
            }
            Term::Star(x) => {
                word.push(STARRED + self.of_term(term)?);
                self.write(x, word)?;
            }
            Term::Act(x, i) if **x == Term::One => word.push(WAITING + self.of_interruption(i)?),
            Term::Act(x, i) => {
                word.push(SLASH + self.of_interruption(i)?);
                self.write(x, word)?;
            }
        }
        Some(())
    }

    /// Reads the term that a word begins with, and answers it with the units behind it.
    fn read<'a>(&self, word: &'a [usize]) -> Option<(Rc<Term>, &'a [usize])> {
        let (unit, rest) = word.split_first()?;
        let number = unit % RANGE;
        Some(match *unit {
            0..=191 => {
                let second = self.term(number)?;
                let (first, rest) = self.read(rest)?;
                (Rc::new(Term::Seq(first, second)), rest)
            }
            192..=383 => {
                let (part, rest) = self.read(rest)?;
                let starred = Rc::new(Term::Star(part));
                (self.term(number).filter(|s| *s == starred)?, rest)
            }
            384..=575 => {
                let interruption = self.interruption(number)?;
                let (first, rest) = self.read(rest)?;
                (Rc::new(Term::Act(first, interruption)), rest)
            }
            576..=767 => {
                let interruption = self.interruption(number)?;
                (Rc::new(Term::Act(Rc::new(Term::One), interruption)), rest)
            }
            ONE => (Rc::new(Term::One), rest),
            SIDES => {
                let (left, rest) = self.read(rest)?;
                let (right, rest) = self.read(rest)?;
                (Rc::new(Term::Par(left, right)), rest)
            }
            _ => {
                let letter = u8::try_from(unit - MODULE).ok().filter(|m| *m < 26)?;
                (Rc::new(Term::Module(b'a' + letter)), rest)
            }
        })
    }
}

/// The weight of a term: no rule raises it, and the word has no more units, or one.
fn weight(term: &Term) -> usize {
    match term {
        Term::Module(_) => 1,
        Term::One => 0,
        Term::Seq(x, y) => (room(weight(x)) + 1).max(weight(y)),
        Term::Par(x, y) => room(weight(x)) + room(weight(y)) + 1,
        Term::Star(x) => room(weight(x)) + 1,
        Term::Act(x, i) => (weight(x) + 1).max(weight_of_interruption(i)),
    }
}

/// The weight of an interruption: of what can come of it.
fn weight_of_interruption(interruption: &Interruption) -> usize {
    let of = weight_of_interruption;
    match interruption {
        Interruption::Plain(_) => 0,
        Interruption::Treated(_, treatment) => weight(treatment),
        Interruption::Either(i, j) => of(i).max(of(j)),
        Interruption::Both(i, j) => room(of(i)) + room(of(j)) + 1,
    }
}

/// "at least one unit".
fn room(weight: usize) -> usize {
    weight.max(1)
}

/// The modules on the walk of a term are of the program.
fn walk_of(modules: &[u8], term: &Term) -> bool {
    match term {
        Term::Module(letter) => modules.contains(letter),
        Term::One => true,
        Term::Seq(x, _) | Term::Star(x) | Term::Act(x, _) => walk_of(modules, x),
        Term::Par(x, y) => walk_of(modules, x) && walk_of(modules, y),
    }
}

/// The coding of one file's states: what it says, and its program's nodes.
pub struct Coding<'a> {
    config: &'a Config,
    nodes: Nodes,
}

impl Coding<'_> {
    /// The coding of a file.
    pub fn of(config: &Config) -> Coding<'_> {
        let nodes = Nodes::of(&config.program);
        Coding { config, nodes }
    }

    /// The 128 bytes of a state; `None` if a part of it is none of the program's.
    pub fn code(&self, state: &State) -> Option<[u8; LIVE_BYTES]> {
        let mut bytes = [0; LIVE_BYTES];
        let mut word = Vec::new();
        if let Some(term) = &state.term {
            self.nodes.write(term, &mut word)?;
        }
        if word.len() > MOST_UNITS || state.memory.len() > MOST_STORED {
            return None;
        }
        for (i, unit) in word.iter().enumerate() {
            bytes[i] = (unit % 256) as u8;
            bytes[HIGH + i / 4] += (unit / 256 % 4 * 4usize.pow(3 - i as u32 % 4)) as u8;
        }
        bytes[COUNT] = word.len() as u8;
        for module in &state.stopped {
            bytes[STOPPED] |= 1 << self.config.modules.iter().position(|m| m == module)?;
        }
        for (i, event) in state.memory.iter().enumerate() {
            let place = self.config.events.iter().position(|e| e.letter == *event)? as u8;
            bytes[MEMORY + i / 2] |= (place + 1) << (4 - 4 * (i % 2));
        }
        Some(bytes)
    }

    /// The state that the bytes say. "taken if that state is in the set and coding it gives the same
    /// bytes again", else `None`.
    pub fn decode(&self, bytes: &[u8; LIVE_BYTES]) -> Option<State> {
        let state = State {
            term: self.term_in(bytes)?,
            memory: self.memory_in(bytes)?,
            stopped: self.stopped_in(bytes),
        };
        if self.in_set(&state) && self.code(&state)? == *bytes {
            Some(state)
        } else {
            None
        }
    }

    /// What is left of the term; no unit is the end.
    fn term_in(&self, bytes: &[u8; LIVE_BYTES]) -> Option<Option<Rc<Term>>> {
        let count = usize::from(bytes[COUNT]);
        if count == 0 {
            return Some(None);
        }
        if count > MOST_UNITS {
            return None;
        }
        let high = |i: usize| usize::from(bytes[HIGH + i / 4]) / 4usize.pow(3 - i as u32 % 4) % 4;
        let unit = |i: usize| usize::from(bytes[i]) + 256 * high(i);
        let word: Vec<usize> = (0..count).map(unit).collect();
        let (term, rest) = self.nodes.read(&word)?;
        if rest.is_empty() {
            Some(Some(term))
        } else {
            None
        }
    }

    /// The memory: events up to the first 0.
    fn memory_in(&self, bytes: &[u8; LIVE_BYTES]) -> Option<Vec<u8>> {
        let half = |i: usize| usize::from(bytes[MEMORY + i / 2] >> (4 - 4 * (i % 2)) & 15);
        let marks = (0..MOST_STORED).map(half).take_while(|mark| *mark != 0);
        let event = |mark: usize| self.config.events.get(mark - 1).map(|e| e.letter);
        marks.map(event).collect()
    }

    /// The stopped set: "the bit of value 2^i is the i-th of the program's modules".
    fn stopped_in(&self, bytes: &[u8; LIVE_BYTES]) -> BTreeSet<u8> {
        let numbered = self.config.modules.iter().enumerate();
        let stopped = numbered.filter(|(i, _)| bytes[STOPPED] >> i & 1 == 1);
        stopped.map(|(_, module)| *module).collect()
    }

    /// The written set. What stands right of the walk is a node's, since it was read as one.
    fn in_set(&self, state: &State) -> bool {
        let term = match &state.term {
            Some(term) => term,
            None => return state.memory.is_empty() && state.stopped.is_empty(),
        };
        let standard = |e: &u8| {
            self.config
                .events
                .iter()
                .any(|l| l.letter == *e && !l.fugitive)
        };
        let different: BTreeSet<&u8> = state.memory.iter().collect();
        walk_of(&self.config.modules, term)
            && weight(term) <= MOST_UNITS
            && state.memory.iter().all(standard)
            && different.len() == state.memory.len()
    }
}

/// The orders of a live call, one for each module, and the live state after it.
pub type Answer = (Vec<u8>, [u8; LIVE_BYTES]);

/// Live start: "1 to 14; it writes the start's code and answers the modules that run", each as 1.
pub fn start(file: &[u8], live: &[u8]) -> Result<Answer, Refusal> {
    sized(live)?;
    let config = read_config(file, Edition::Adaptive)?;
    let start = config.start();
    let orders = config.modules.iter().map(|m| u8::from(start.runs(*m)));
    let coded = Coding::of(&config)
        .code(&start)
        .ok_or_else(|| Refusal::without_place(23))?;
    Ok((orders.collect(), coded))
}

/// "Live step: 1 to 14, 23, 21, 22."
pub fn step(file: &[u8], live: &[u8], letter: u8) -> Result<Answer, Refusal> {
    let live = sized(live)?;
    let config = read_config(file, Edition::Adaptive)?;
    let coding = Coding::of(&config);
    let state = coding
        .decode(&live)
        .ok_or_else(|| Refusal::without_place(23))?;
    let reaction = config.step(&state, letter)?;
    let orders = reaction.orders.iter().map(|order| *order as u8);
    let coded = coding
        .code(&reaction.state)
        .ok_or_else(|| Refusal::without_place(23))?;
    Ok((orders.collect(), coded))
}

/// No. 1: "live state not 128 bytes".
fn sized(live: &[u8]) -> Result<[u8; LIVE_BYTES], Refusal> {
    live.try_into().map_err(|_| Refusal::without_place(1))
}

#[cfg(test)]
mod tests {
    use super::*;

    /// The file of the page's example.
    const EXAMPLE: &[u8] = b"standard EF\nprogram ab/{E:c|F:d}.\n";

    /// What a file says.
    fn config(file: &[u8]) -> Config {
        read_config(file, Edition::Adaptive).expect("an accepted file")
    }

    /// The state after these letters.
    fn after(config: &Config, letters: &[u8]) -> State {
        let step = |state: State, letter: &u8| config.step(&state, *letter).expect("a step").state;
        letters.iter().fold(config.start(), step)
    }

    /// 128 bytes, zero but for these.
    fn bytes(said: &[(usize, u8)]) -> [u8; LIVE_BYTES] {
        let mut bytes = [0; LIVE_BYTES];
        for (at, byte) in said {
            bytes[*at] = *byte;
        }
        bytes
    }

    #[test]
    fn the_nodes_of_the_example() {
        let config = config(EXAMPLE);
        let nodes = Nodes::of(&config.program);
        assert_eq!(nodes.0.len(), 12);
        assert_eq!(nodes.of_term(&Term::One), Some(0));
        assert_eq!(nodes.of_term(&Term::Module(b'c')), Some(4));
        assert_eq!(nodes.of_interruption(&Interruption::Plain(b'F')), Some(6));
        assert_eq!(nodes.of_term(&config.program), Some(11));
    }

    #[test]
    fn the_bytes_of_the_example() {
        let example = config(EXAMPLE);
        let stored = bytes(&[(0, 0x0a), (1, 0x02), (96, 0x30), (120, 2), (122, 0x21)]);
        assert_eq!(
            Coding::of(&example).code(&after(&example, b"FE")),
            Some(stored)
        );
        let taken = bytes(&[(0, 5), (96, 0xc0), (120, 1), (122, 0x10)]);
        assert_eq!(
            Coding::of(&example).code(&after(&example, b"FEa")),
            Some(taken)
        );
        let starred = config(b"standard E\nprogram [a/E:b]*.\n");
        let start = [(0, 0xc6), (1, 0x84), (2, 0x02), (96, 0x1c), (120, 3)];
        assert_eq!(
            Coding::of(&starred).code(&starred.start()),
            Some(bytes(&start))
        );
        let stopped = bytes(&[(0, 6), (1, 3), (96, 0x30), (120, 2), (121, 1)]);
        assert_eq!(
            Coding::of(&starred).code(&after(&starred, b"E")),
            Some(stopped)
        );
    }

    #[test]
    fn the_end_is_zeros() {
        let config = config(b"program a.\n");
        let end = after(&config, b"a");
        assert_eq!(Coding::of(&config).code(&end), Some([0; LIVE_BYTES]));
        assert_eq!(Coding::of(&config).decode(&[0; LIVE_BYTES]), Some(end));
    }

    #[test]
    fn what_was_coded_is_decoded() {
        let config = config(EXAMPLE);
        for letters in [&b""[..], b"F", b"FE", b"FEa", b"a", b"aE", b"aEc"] {
            let state = after(&config, letters);
            let bytes = Coding::of(&config)
                .code(&state)
                .expect("a state of the set");
            assert_eq!(Coding::of(&config).decode(&bytes), Some(state));
        }
    }

    #[test]
    fn bytes_that_code_no_state() {
        let config = config(b"standard E\nfugitive F\nprogram ab/{E:c|F:d}.\n");
        let start = bytes(&[(0, 0x0a), (1, 0x02), (96, 0x30), (120, 2)]);
        assert_eq!(Coding::of(&config).decode(&start), Some(config.start()));
        for (at, byte) in [
            (0, 0x0c),   // no node
            (0, 0x09),   // an interruption where a term should be
            (1, 0x06),   // no module of the program
            (2, 0x01),   // behind the word
            (96, 0x31),  // behind the word
            (120, 1),    // a word cut short
            (120, 3),    // a word that goes on
            (120, 97),   // over its place
            (121, 0x10), // no fifth module
            (122, 0x11), // stored twice
            (122, 0x20), // fugitive
            (122, 0x30), // no third event
            (122, 0x01), // no first event
            (126, 1),    // unused
        ] {
            let mut bytes = start;
            bytes[at] = byte;
            assert_eq!(
                Coding::of(&config).decode(&bytes),
                None,
                "byte {at}: {byte}"
            );
        }
        // memory and stopped set at the end
        assert_eq!(Coding::of(&config).decode(&bytes(&[(121, 1)])), None);
        assert_eq!(Coding::of(&config).decode(&bytes(&[(122, 0x10)])), None);
    }
}
