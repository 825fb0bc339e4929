//! What the tests share: files, terms, and the cases of `tests/cases`.
// each test program uses its own part of these
#![allow(dead_code)]

use std::fs;
use std::path::{Path, PathBuf};
use std::rc::Rc;

use twin::answer::compile_answer;
use twin::config::{read_config, Config};
use twin::file::read_file;
use twin::grammar::read_program;
use twin::limits::Edition;
use twin::live::Live;
use twin::refusal::Refusal;
use twin::rules::{term_of, Order, Term};
use twin::table::compile;

pub const EDITIONS: [Edition; 2] = [Edition::Basic, Edition::Adaptive];

/// A case: a file, and what the two programs print for it.
pub struct Case {
    pub name: String,
    pub file: Vec<u8>,
    pub basic: Vec<u8>,
    pub adaptive: Vec<u8>,
}

/// The folder of the cases.
fn folder() -> PathBuf {
    Path::new(env!("CARGO_MANIFEST_DIR")).join("../tests/cases")
}

/// All cases of a folder, by name.
fn cases_in(folder: &Path) -> Vec<Case> {
    let mut cases = Vec::new();
    for entry in fs::read_dir(folder).expect("the folder of the cases is there") {
        let path = entry.expect("an entry of the folder").path();
        if path.extension().map_or(true, |e| e != "cfg") {
            continue;
        }
        let read = |path: PathBuf| fs::read(&path).unwrap_or_else(|e| panic!("{path:?}: {e}"));
        cases.push(Case {
            name: path.file_stem().expect("a name").to_string_lossy().into(),
            basic: read(path.with_extension("basic")),
            adaptive: read(path.with_extension("adaptive")),
            file: read(path),
        });
    }
    cases.sort_by(|x, y| x.name.cmp(&y.name));
    cases
}

/// The cases that are not heavy.
pub fn light_cases() -> Vec<Case> {
    cases_in(&folder())
}

/// The heavy cases.
pub fn heavy_cases() -> Vec<Case> {
    cases_in(&folder().join("heavy"))
}

/// All cases.
pub fn all_cases() -> Vec<Case> {
    let mut cases = light_cases();
    cases.extend(heavy_cases());
    cases
}

/// A file of a program and its fugitive events; every other event in it is standard.
pub fn file(program: &str, fugitive: &str) -> Vec<u8> {
    let mut standard = String::new();
    for letter in program.chars().filter(|c| c.is_ascii_uppercase()) {
        if !fugitive.contains(letter) && !standard.contains(letter) {
            standard.push(letter);
        }
    }
    let mut lines = String::new();
    for (key, value) in [("standard", &*standard), ("fugitive", fugitive)] {
        if !value.is_empty() {
            lines += &format!("{key} {value}\n");
        }
    }
    (lines + "program " + program + "\n").into_bytes()
}

/// The tree of a term, as the grammar reads it.
pub fn term(text: &str) -> Rc<Term> {
    let bytes = format!("program {text}.\n").into_bytes();
    let file = read_file(&bytes).expect("a file");
    term_of(&read_program(&file.program).unwrap_or_else(|r| panic!("{text}: {r}")))
}

/// The file, read for Adaptive.
pub fn config(bytes: &[u8]) -> Config {
    read_config(bytes, Edition::Adaptive).expect("an accepted file")
}

/// The live run of a file after some letters, all of them taken.
pub fn live_after(bytes: &[u8], letters: &str) -> Live {
    let mut live = Live::start(bytes).expect("an accepted file");
    for letter in letters.bytes() {
        live.step(letter).expect("a step that is possible");
    }
    live
}

/// What is left of the term after some letters, `None` at the end.
pub fn term_after(bytes: &[u8], letters: &str) -> Option<Rc<Term>> {
    live_after(bytes, letters).state().term.clone()
}

/// Orders in the form of `twin trace`: `+a ~b -c`.
pub fn orders_text(modules: &[u8], orders: &[Order]) -> String {
    assert_eq!(modules.len(), orders.len(), "one order for each module");
    let mut words = Vec::new();
    for (module, order) in modules.iter().zip(orders) {
        let mark = match order {
            Order::None => continue,
            Order::Start => '+',
            Order::Resume => '~',
            Order::Stop => '-',
        };
        words.push(format!("{mark}{}", *module as char));
    }
    words.join(" ")
}

/// What a program of an edition prints.
pub fn printed(bytes: &[u8], edition: Edition) -> String {
    String::from_utf8(compile_answer(bytes, edition)).expect("text")
}

/// The number of states that the compiler of Adaptive finds.
pub fn states(bytes: &[u8]) -> Result<usize, Refusal> {
    compile(bytes, Edition::Adaptive).map(|c| c.states)
}

/// Both editions refuse the file by this number at this place.
pub fn refused_by_both(bytes: &[u8], number: u8, place: usize) {
    for edition in EDITIONS {
        refused(bytes, edition, number, place);
    }
}

/// An edition refuses the file by this number at this place.
pub fn refused(bytes: &[u8], edition: Edition, number: u8, place: usize) {
    let shown = String::from_utf8_lossy(bytes);
    let answer = compile(bytes, edition).map(|c| c.states);
    assert_eq!(
        answer,
        Err(Refusal::at(number, place)),
        "{edition:?} on {shown:?}"
    );
}

/// An edition accepts the file, with this number of states.
pub fn accepted(bytes: &[u8], edition: Edition, states: usize) {
    let shown = String::from_utf8_lossy(bytes);
    let answer = compile(bytes, edition).map(|c| c.states);
    assert_eq!(answer, Ok(states), "{edition:?} on {shown:?}");
}

/// Pseudo-random numbers (xorshift) from a fixed seed.
pub struct Random(pub u64);

impl Random {
    /// The next number below `bound`.
    pub fn below(&mut self, bound: usize) -> usize {
        self.0 ^= self.0 << 13;
        self.0 ^= self.0 >> 7;
        self.0 ^= self.0 << 17;
        (self.0 % bound as u64) as usize
    }
}
