//! What is tried: files, tables, live states and letters, from nothing and from right ones that are damaged.

use std::fs;
use std::path::{Path, PathBuf};

use crate::random::Random;

/// The bytes that programs are made of, and some that they are not.
const MARKS: &[u8] = b"aabbccdefghEEFFGHIJ1**..//::[[]]{{}}||||\n  zZ\0\r\xff";
const LINES: [&[u8]; 8] = [
    b"standard E\n",
    b"fugitive F\n",
    b"standard EF\n",
    b"program a/E.\n",
    b"program ab/{E:c|F:d}.\n",
    b"\n",
    b" \n",
    b"fugitve F\n",
];

/// The files of tests/cases.
pub fn cases() -> Vec<Vec<u8>> {
    let folder = Path::new(env!("CARGO_MANIFEST_DIR")).join("../tests/cases");
    let entries = fs::read_dir(folder).expect("tests/cases is there");
    let mut paths: Vec<PathBuf> = entries
        .map(|entry| entry.expect("an entry").path())
        .collect();
    paths.retain(|path| path.extension().map_or(false, |e| e == "cfg"));
    paths.sort();
    let read = |path: &PathBuf| fs::read(path).expect("a file of tests/cases");
    paths.iter().map(read).collect()
}

/// A file: random bytes, marks, lines, a program made by the grammar, or one of tests/cases; the last two often with other names or damaged.
pub fn file(random: &mut Random, cases: &[Vec<u8>]) -> Vec<u8> {
    match random.below(16) {
        0 => {
            let length = random.below(1100);
            random.bytes(length)
        }
        1 => marked(random),
        2 => lined(random),
        kind => {
            let file = if kind < 11 {
                made(random)
            } else {
                random.one_of(cases).clone()
            };
            let file = if random.once_in(3) {
                file
            } else {
                renamed(random, file)
            };
            if matches!(kind, 9..=14) {
                damaged(random, file, cases)
            } else {
                file
            }
        }
    }
}

/// The same file with other letters for its modules and events.
fn renamed(random: &mut Random, mut file: Vec<u8>) -> Vec<u8> {
    let (small, large) = (shuffled(random), shuffled(random));
    let mut in_value = false;
    for byte in &mut file {
        match *byte {
            b'\n' => in_value = false,
            b' ' => in_value = true,
            b'a'..=b'z' if in_value => *byte = b'a' + small[usize::from(*byte - b'a')],
            b'A'..=b'Z' if in_value => *byte = b'A' + large[usize::from(*byte - b'A')],
            _ => {}
        }
    }
    file
}

/// The numbers below 26 in another order.
fn shuffled(random: &mut Random) -> Vec<u8> {
    let mut numbers: Vec<u8> = (0..26).collect();
    for last in (1..26).rev() {
        numbers.swap(last, random.below(last + 1));
    }
    numbers
}

/// A program line of random marks.
fn marked(random: &mut Random) -> Vec<u8> {
    let mut file = b"standard E\nprogram ".to_vec();
    for _ in 0..random.below(24) {
        file.push(*random.one_of(MARKS));
    }
    file.extend(b".\n");
    file
}

/// A few lines in any order.
fn lined(random: &mut Random) -> Vec<u8> {
    let mut file = Vec::new();
    for _ in 0..random.below(5) {
        file.extend(*random.one_of(&LINES));
    }
    file
}

/// A program by the grammar, its names, and how many tokens it may still have.
struct Maker<'a> {
    random: &'a mut Random,
    text: Vec<u8>,
    modules: u8,
    events: u8,
    most: u8,
    left: usize,
}

/// A file with a program by the grammar. Its events are listed, nearly always; names repeat rarely, so that most files are accepted.
fn made(random: &mut Random) -> Vec<u8> {
    let most = if random.once_in(24) { 26 } else { 8 };
    let tokens = if most == 26 || random.once_in(8) {
        90
    } else {
        24
    };
    let left = 1 + random.below(tokens);
    let mut maker = Maker {
        random,
        text: Vec::new(),
        modules: 0,
        events: 0,
        most,
        left,
    };
    maker.sequence(0);
    let text = maker.text;
    let (mut standard, mut fugitive) = (Vec::new(), Vec::new());
    let share = random.below(4);
    let slip = if random.once_in(40) { 2 } else { 600 };
    for event in b'A'..=b'Z' {
        if text.contains(&event) != random.once_in(slip) {
            let list = if random.below(4) < share {
                &mut fugitive
            } else {
                &mut standard
            };
            list.push(event);
        }
    }
    let mut lines = vec![(&b"program "[..], [&text[..], b"."].concat())];
    lines.push((b"standard ", standard));
    lines.push((b"fugitive ", fugitive));
    lines.rotate_left(random.below(3));
    lines.retain(|(_, value)| !value.is_empty());
    let line = |(key, value): &(&[u8], Vec<u8>)| [key, &value[..], b"\n"].concat();
    lines.iter().map(line).collect::<Vec<_>>().concat()
}

impl Maker<'_> {
    /// Takes a token from those that are left; false where there is none.
    fn more(&mut self, once_in: usize) -> bool {
        let more = self.left > 0 && self.random.once_in(once_in);
        self.left = self.left.saturating_sub(1);
        more
    }

    /// A letter: mostly the next new one of so many, at times one that was there.
    fn letter(random: &mut Random, first: u8, used: &mut u8, most: u8) -> u8 {
        if *used == 0 || (*used < most && !random.once_in(5)) || random.once_in(300) {
            *used += 1;
            return first + (*used - 1) % 26;
        }
        first + random.below(usize::from(*used)) as u8 % 26
    }

    fn event(&mut self) {
        let letter = Maker::letter(self.random, b'A', &mut self.events, self.most);
        self.text.push(letter);
    }

    fn sequence(&mut self, depth: usize) {
        self.item(depth);
        while self.more(2) {
            self.item(depth);
        }
    }

    fn item(&mut self, depth: usize) {
        self.atom(depth);
        if self.more(5) {
            self.text.push(b'*');
        }
        if self.more(2) {
            self.text.push(b'/');
            self.interruption(depth);
        }
    }

    fn atom(&mut self, depth: usize) {
        if depth < 5 && self.more(3) {
            self.text.push(b'[');
            self.sequence(depth + 1);
            while self.more(2) {
                self.text.extend(b"||");
                self.sequence(depth + 1);
            }
            self.text.push(b']');
        } else if self.random.once_in(8) {
            self.text.push(b'1');
        } else {
            let letter = Maker::letter(self.random, b'a', &mut self.modules, self.most);
            self.text.push(letter);
        }
    }

    fn interruption(&mut self, depth: usize) {
        if depth < 5 && self.more(4) {
            let join: &[u8] = if self.random.once_in(2) { b"|" } else { b"||" };
            self.text.push(b'{');
            self.interruption(depth + 1);
            self.text.extend(join);
            self.interruption(depth + 1);
            while self.more(4) {
                self.text.extend(join);
                self.interruption(depth + 1);
            }
            self.text.push(b'}');
        } else {
            self.event();
            if self.more(2) {
                self.text.push(b':');
                self.item(depth);
            }
        }
    }
}

/// A file with one to three changes.
fn damaged(random: &mut Random, mut file: Vec<u8>, cases: &[Vec<u8>]) -> Vec<u8> {
    for _ in 0..1 + random.below(3) {
        let at = random.below(file.len() + 1);
        let end = at + random.below((file.len() - at).min(12) + 1);
        match random.below(9) {
            0 if at < file.len() => file[at] ^= 1 << random.below(8),
            1 | 2 if at < file.len() => file[at] = *random.one_of(MARKS),
            3 => drop(file.drain(at..end)),
            4 => drop(file.splice(at..at, file[at..end].to_vec())),
            5 => file.insert(at, *random.one_of(MARKS)),
            6 => file.truncate(at),
            7 => {
                let other = random.one_of(cases);
                file.truncate(at);
                file.extend(&other[random.below(other.len() + 1)..]);
            }
            _ => drop(file.splice(at..at, random.one_of(&LINES).to_vec())),
        }
    }
    if random.once_in(200) {
        file.resize(1020 + random.below(10), *random.one_of(MARKS));
    }
    file
}

/// A letter: mostly one of these, else any byte.
pub fn letter(random: &mut Random, letters: &[u8]) -> u8 {
    if letters.is_empty() || random.once_in(24) {
        return random.byte();
    }
    *random.one_of(letters)
}

/// The letters that stand in a file, keys too, without repetition.
pub fn letters(file: &[u8]) -> Vec<u8> {
    let value = |line: &[u8]| {
        line.iter()
            .skip_while(|b| **b != b' ')
            .copied()
            .collect::<Vec<u8>>()
    };
    let mut letters: Vec<u8> = file.split(|b| *b == b'\n').flat_map(value).collect();
    letters.retain(u8::is_ascii_alphabetic);
    letters.sort_unstable();
    letters.dedup();
    letters
}

/// A table with one to three changes: a bit, mostly of its head; bytes cut off, added, put in, taken out.
pub fn damaged_table(random: &mut Random, table: &[u8]) -> Vec<u8> {
    let mut table = table.to_vec();
    for _ in 0..1 + random.below(3) {
        let at = random.below(table.len() + 1);
        match random.below(8) {
            0 => table.truncate(at),
            1 => table.push(if random.once_in(2) { 0 } else { random.byte() }),
            2 => table.insert(at, random.byte()),
            3 if at < table.len() => drop(table.remove(at)),
            4 if !table.is_empty() => {
                let last = table.len() - 1;
                table[last] ^= 1 << random.below(8);
            }
            5 if !table.is_empty() => {
                let head = random.below(table.len().min(12));
                table[head] ^= 1 << random.below(8);
            }
            _ if at < table.len() => table[at] ^= 1 << random.below(8),
            _ => {}
        }
    }
    table
}

/// A table with random names and entries that is right, of a random shape.
pub fn made_table(random: &mut Random) -> Vec<u8> {
    let states = if random.once_in(100) { 512 } else { 12 };
    let shape = (random.below(9), random.below(9), 1 + random.below(states));
    let mut bits = Vec::new();
    put(&mut bits, 1, 4);
    put(&mut bits, shape.0, 4);
    put(&mut bits, shape.1, 4);
    put(&mut bits, shape.2 - 1, 12);
    for count in [shape.0, shape.1] {
        for name in names(random, count) {
            put(&mut bits, name, 5);
        }
    }
    put(&mut bits, random.below(1 << shape.1), shape.1);
    let start = random.below(1 << shape.0);
    put(&mut bits, start, shape.0);
    for state in 0..shape.2 {
        let runs = if state == 0 {
            start
        } else {
            random.below(1 << shape.0)
        };
        put_row(random, &mut bits, shape, runs);
    }
    let byte = |bits: &[bool]| {
        (0..8).fold(0, |byte, k| {
            byte << 1 | u8::from(bits.get(k) == Some(&true))
        })
    };
    bits.chunks(8).map(byte).collect()
}

/// The entries of a state in which these modules run, the first one in the highest bit.
fn put_row(random: &mut Random, bits: &mut Vec<bool>, shape: (usize, usize, usize), runs: usize) {
    for column in 0..shape.0 + shape.1 {
        if column < shape.0 && runs >> (shape.0 - 1 - column) & 1 == 0 {
            put(bits, 0, 10 + 2 * shape.0);
        } else {
            put(bits, 512 + random.below(shape.2), 10);
            put(bits, random.below(1 << (2 * shape.0)), 2 * shape.0);
        }
    }
}

/// So many different names, ascending.
fn names(random: &mut Random, count: usize) -> Vec<usize> {
    let mut names: Vec<usize> = (0..26).collect();
    while names.len() > count {
        names.remove(random.below(names.len()));
    }
    names
}

/// The lowest bits of a value, the most significant of them first.
fn put(bits: &mut Vec<bool>, value: usize, width: usize) {
    for shift in (0..width).rev() {
        bits.push(value >> shift & 1 == 1);
    }
}

/// The letters of a table, if it is right.
pub fn table_letters(table: &[u8]) -> Vec<u8> {
    let field = |at: usize| {
        let bit = |k: usize| table.get(k / 8).map_or(0, |byte| byte >> (7 - k % 8) & 1);
        (at..at + 5).fold(0, |name, k| name << 1 | bit(k))
    };
    let modules = usize::from(table.first().map_or(0, |byte| byte & 15));
    let events = usize::from(table.get(1).map_or(0, |byte| byte >> 4));
    let letter = |k: usize| field(24 + 5 * k) + if k < modules { b'a' } else { b'A' };
    (0..modules + events).map(letter).collect()
}

/// Live bytes with one to three changes, mostly among those that are not zero and those that say how many; or of another length.
pub fn damaged_live(random: &mut Random, live: &[u8], others: &[Vec<u8>]) -> Vec<u8> {
    let mut live = live.to_vec();
    if random.once_in(24) {
        live.resize(random.below(300), 0);
        return live;
    }
    for _ in 0..1 + random.below(3) {
        let used: Vec<usize> = (0..live.len())
            .filter(|at| live[*at] != 0 || *at >= 120)
            .collect();
        let at = if random.once_in(3) {
            random.below(live.len())
        } else {
            *random.one_of(&used)
        };
        match random.below(6) {
            0 | 1 => live[at] ^= 1 << random.below(8),
            2 => live[at] = random.byte(),
            3 => live[at] = live[at].wrapping_add(1),
            4 => live.swap(at, *random.one_of(&used)),
            _ => {
                let other = random.one_of(others);
                live[at] = other.get(at).copied().unwrap_or(0);
            }
        }
    }
    live
}
