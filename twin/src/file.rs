//! The configuration file: lines, keys and lists. Refusals 2 to 7.

use crate::bytes::{kind, Kind};
use crate::refusal::Refusal;

/// "At most 1,024 bytes."
pub const MOST_BYTES: usize = 1024;

/// A letter of an event list.
#[derive(Clone, Copy, Debug, PartialEq, Eq)]
pub struct Listed {
    /// The event, A to Z.
    pub letter: u8,
    /// Where in the file it is listed.
    pub place: usize,
    /// Listed by `fugitive`, not by `standard`.
    pub fugitive: bool,
}

/// The value of a line, and where in the file it starts. Only `read_file` makes one, so it is
/// never longer than a file.
#[derive(Clone, Copy, Debug, PartialEq, Eq)]
pub struct Value<'a> {
    /// Everything after the first space, up to the line end.
    pub(crate) bytes: &'a [u8],
    /// The place of its first byte.
    pub(crate) place: usize,
}

/// A file whose lines and lists are in order; its program is not read yet.
#[derive(Clone, Debug, PartialEq, Eq)]
pub struct File<'a> {
    /// All listed events, in the order of the file.
    pub listed: Vec<Listed>,
    /// Where the `fugitive` line starts, if there is one.
    pub fugitive_line: Option<usize>,
    /// The value of the `program` line.
    pub program: Value<'a>,
}

/// One line, split at its first space.
struct Line<'a> {
    start: usize,
    key: &'a [u8],
    value: Value<'a>,
    next: usize,
}

/// What the lines read so far have said.
#[derive(Default)]
struct SoFar<'a> {
    listed: Vec<Listed>,
    standard_line: Option<usize>,
    fugitive_line: Option<usize>,
    program: Option<Value<'a>>,
}

/// "Order: .. 2, then line by line 3 to 6, then 7".
pub fn read_file(bytes: &[u8]) -> Result<File<'_>, Refusal> {
    if bytes.len() > MOST_BYTES {
        return Err(Refusal::without_place(2));
    }
    let mut so_far = SoFar::default();
    let mut start = 0;
    while start < bytes.len() {
        let line = split_line(bytes, start)?;
        read_line(&line, &mut so_far)?;
        start = line.next;
    }
    match so_far.program {
        None => Err(Refusal::at(7, bytes.len())),
        Some(program) => Ok(File {
            listed: so_far.listed,
            fugitive_line: so_far.fugitive_line,
            program,
        }),
    }
}

/// "A line is a key, one space, a value; the key is what stands before the first space."
/// No. 3: "line without its end, without a space, or nothing after it", at the line's start.
fn split_line(bytes: &[u8], start: usize) -> Result<Line<'_>, Refusal> {
    let refused = Refusal::at(3, start);
    let rest = bytes.get(start..).ok_or(refused)?;
    let end = rest.iter().position(|b| *b == b'\n').ok_or(refused)?;
    let (line, _) = rest.split_at(end);
    let space = line.iter().position(|b| *b == b' ').ok_or(refused)?;
    let (key, with_space) = line.split_at(space);
    let value = with_space.get(1..).ok_or(refused)?;
    if value.is_empty() {
        return Err(refused);
    }
    Ok(Line {
        start,
        key,
        value: Value {
            bytes: value,
            place: start + space + 1,
        },
        next: start + end + 1,
    })
}

/// No. 4: "unknown key (an empty one too)", at the line's start. Then 5 and 6 for the key.
fn read_line<'a>(line: &Line<'a>, so_far: &mut SoFar<'a>) -> Result<(), Refusal> {
    match line.key {
        b"standard" => {
            once(so_far.standard_line.is_some(), line)?;
            so_far.standard_line = Some(line.start);
            read_list(&line.value, false, &mut so_far.listed)
        }
        b"fugitive" => {
            once(so_far.fugitive_line.is_some(), line)?;
            so_far.fugitive_line = Some(line.start);
            read_list(&line.value, true, &mut so_far.listed)
        }
        b"program" => {
            once(so_far.program.is_some(), line)?;
            so_far.program = Some(line.value);
            Ok(())
        }
        _ => Err(Refusal::at(4, line.start)),
    }
}

/// No. 5: "key a second time", at the line's start.
fn once(seen: bool, line: &Line<'_>) -> Result<(), Refusal> {
    if seen {
        Err(Refusal::at(5, line.start))
    } else {
        Ok(())
    }
}

/// No. 6: "event list: a byte not A to Z, or a letter listed before", at that byte.
fn read_list(value: &Value<'_>, fugitive: bool, listed: &mut Vec<Listed>) -> Result<(), Refusal> {
    for (i, byte) in value.bytes.iter().enumerate() {
        let place = value.place + i;
        let before = listed.iter().any(|l| l.letter == *byte);
        match kind(*byte) {
            Kind::Event(letter) if !before => listed.push(Listed {
                letter,
                place,
                fugitive,
            }),
            _ => return Err(Refusal::at(6, place)),
        }
    }
    Ok(())
}
