//! The command line of the second program. Everything it prints is worked out by the library.
#![forbid(unsafe_code)]

use std::io::{self, BufRead, BufReader, Read, Write};
use std::process::ExitCode;

use twin::answer::{
    call_answer, compile_answer, live_answer, reading_answer, table_start_answer,
    table_step_answer, trace_answer,
};
use twin::limits::Edition;

const USAGE: &str = "usage, the file or table on standard input:
  twin basic                          compile for the Basic edition
  twin adaptive                       compile for the Adaptive edition
  twin trace LETTERS                  live run of the file, letter by letter
  twin table-start                    start of a table
  twin table-step STATE LETTER-BYTE   one step of a table, two decimal numbers
  twin batch                          records `EDITION LENGTH`, line end, LENGTH bytes
  twin stream WHAT                    frames of two length bytes, high first, and as many bytes;
                                      WHAT is basic, adaptive, reading-basic or reading-adaptive
  twin stream tables                  calls of tables: a byte, 0 for start; two for the state, high
                                      first; the letter; two length bytes, high first; the table
  twin stream walks                   live runs: two frames each, the file and its letters
  twin stream lives                   live calls: a byte, 0 for start; the letter; a byte for the
                                      live state's length; the file as a frame; the live state";

/// The longest record line that can be right: an edition, a space, a number, a line end.
const LONGEST_RECORD_LINE: u64 = 64;

/// An answer to the bytes of a file.
type Answerer = fn(&[u8]) -> Vec<u8>;

/// What the arguments ask for.
enum Command {
    Compile(Edition),
    Trace(Vec<u8>),
    TableStart,
    TableStep(usize, u8),
    Batch,
    Stream(Frames),
}

/// What the frames of a stream are.
#[derive(Clone, Copy)]
enum Frames {
    Files(Answerer),
    Tables,
    Walks,
    Lives,
}

/// Status 0 for every answer, refusals too; 2 and a message if there is none.
fn main() -> ExitCode {
    let result = match command() {
        None => Err(String::from(USAGE)),
        Some(command) => run(command),
    };
    match result {
        Ok(()) => ExitCode::SUCCESS,
        Err(message) => {
            // nothing is left to do if standard error cannot be written
            let _ = writeln!(io::stderr(), "twin: {message}");
            ExitCode::from(2)
        }
    }
}

/// The command that the arguments name; `None` for no or a wrong argument.
fn command() -> Option<Command> {
    let args: Option<Vec<String>> = std::env::args_os()
        .skip(1)
        .map(|arg| arg.into_string().ok())
        .collect();
    let args = args?;
    let args: Vec<&str> = args.iter().map(String::as_str).collect();
    match args[..] {
        ["trace", letters] => Some(Command::Trace(letters.as_bytes().to_vec())),
        ["table-start"] => Some(Command::TableStart),
        ["table-step", state, letter] => {
            let letter = u8::try_from(decimal(letter)?).ok()?;
            Some(Command::TableStep(decimal(state)?, letter))
        }
        ["batch"] => Some(Command::Batch),
        ["stream", what] => frames(what).map(Command::Stream),
        [name] => edition(name).map(Command::Compile),
        _ => None,
    }
}

/// The edition of this name.
fn edition(name: &str) -> Option<Edition> {
    match name {
        "basic" => Some(Edition::Basic),
        "adaptive" => Some(Edition::Adaptive),
        _ => None,
    }
}

/// What the frames of the stream of this name are.
fn frames(what: &str) -> Option<Frames> {
    let files: Answerer = match what {
        "tables" => return Some(Frames::Tables),
        "walks" => return Some(Frames::Walks),
        "lives" => return Some(Frames::Lives),
        "basic" => |file| compile_answer(file, Edition::Basic),
        "adaptive" => |file| compile_answer(file, Edition::Adaptive),
        "reading-basic" => |file| reading_answer(file, Edition::Basic),
        "reading-adaptive" => |file| reading_answer(file, Edition::Adaptive),
        _ => return None,
    };
    Some(Frames::Files(files))
}

/// A number written in decimal digits only.
fn decimal(text: &str) -> Option<usize> {
    if text.bytes().all(|b| b.is_ascii_digit()) {
        text.parse().ok()
    } else {
        None
    }
}

/// Reads what the command needs and prints its answer; an `Err` is a message for people.
fn run(command: Command) -> Result<(), String> {
    let answer = match command {
        Command::Batch => return batch(),
        Command::Stream(frames) => stream(&standard_input()?, frames)?,
        Command::Compile(edition) => compile_answer(&standard_input()?, edition),
        Command::Trace(letters) => trace_answer(&standard_input()?, &letters),
        Command::TableStart => table_start_answer(&standard_input()?),
        Command::TableStep(state, letter) => table_step_answer(&standard_input()?, state, letter),
    };
    print(&answer)
}

/// The answers to all frames of the input, one after the other.
fn stream(input: &[u8], frames: Frames) -> Result<Vec<u8>, String> {
    let mut out = Vec::new();
    let mut rest = input;
    while !rest.is_empty() {
        let answer = next_answer(&mut rest, frames).ok_or("the last frame is cut short")?;
        out.extend(answer);
    }
    Ok(out)
}

/// Takes the next frame and answers it; `None` if the bytes end before it does.
fn next_answer(rest: &mut &[u8], frames: Frames) -> Option<Vec<u8>> {
    Some(match frames {
        Frames::Files(answer) => answer(next_long(rest)?),
        Frames::Tables => {
            let call = next(rest, 4)?;
            let letter = if call[0] == 0 { None } else { Some(call[3]) };
            call_answer(two_bytes(&call[1..3]), letter, next_long(rest)?)
        }
        Frames::Walks => {
            let file = next_long(rest)?;
            trace_answer(file, next_long(rest)?)
        }
        Frames::Lives => {
            let call = next(rest, 3)?;
            let letter = if call[0] == 0 { None } else { Some(call[1]) };
            let file = next_long(rest)?;
            live_answer(file, next(rest, usize::from(call[2]))?, letter)
        }
    })
}

/// Takes so many bytes.
fn next<'a>(rest: &mut &'a [u8], count: usize) -> Option<&'a [u8]> {
    let taken = rest.get(..count)?;
    *rest = &rest[count..];
    Some(taken)
}

/// Takes two length bytes, high first, and as many bytes.
fn next_long<'a>(rest: &mut &'a [u8]) -> Option<&'a [u8]> {
    let length = two_bytes(next(rest, 2)?);
    next(rest, length)
}

/// The number of two bytes, high first.
fn two_bytes(bytes: &[u8]) -> usize {
    bytes.iter().fold(0, |n, byte| n * 256 + usize::from(*byte))
}

/// All bytes of standard input.
fn standard_input() -> Result<Vec<u8>, String> {
    let mut bytes = Vec::new();
    match io::stdin().lock().read_to_end(&mut bytes) {
        Ok(_) => Ok(bytes),
        Err(error) => Err(unreadable(&error)),
    }
}

/// The message for standard input that cannot be read.
fn unreadable(error: &io::Error) -> String {
    format!("standard input cannot be read: {error}\n{USAGE}")
}

/// Writes an answer at once.
fn print(answer: &[u8]) -> Result<(), String> {
    let mut out = io::stdout().lock();
    let written = out.write_all(answer).and_then(|()| out.flush());
    written.map_err(|error| format!("standard output cannot be written: {error}"))
}

/// Record by record, prints what `twin EDITION` would print for the bytes of the record.
fn batch() -> Result<(), String> {
    let mut input = BufReader::new(io::stdin().lock());
    let mut count = 0;
    while let Some(line) = record_line(&mut input)? {
        count += 1;
        let (edition, length) = record_head(&line)
            .ok_or_else(|| format!("record {count}: the line is not `EDITION LENGTH`\n{USAGE}"))?;
        let bytes = record_bytes(&mut input, length)?
            .ok_or_else(|| format!("record {count}: fewer than {length} bytes follow"))?;
        print(&compile_answer(&bytes, edition))?;
    }
    Ok(())
}

/// The next record line with its end; `None` at the end of input.
fn record_line(input: &mut impl BufRead) -> Result<Option<Vec<u8>>, String> {
    let mut line = Vec::new();
    let read = input.take(LONGEST_RECORD_LINE).read_until(b'\n', &mut line);
    match read {
        Ok(0) => Ok(None),
        Ok(_) => Ok(Some(line)),
        Err(error) => Err(unreadable(&error)),
    }
}

/// `EDITION LENGTH` and the line end.
fn record_head(line: &[u8]) -> Option<(Edition, usize)> {
    let text = std::str::from_utf8(line).ok()?.strip_suffix('\n')?;
    let (name, length) = text.split_once(' ')?;
    Some((edition(name)?, decimal(length)?))
}

/// The bytes of a record; `None` if the input ends before them.
fn record_bytes(input: &mut impl BufRead, length: usize) -> Result<Option<Vec<u8>>, String> {
    let mut bytes = Vec::new();
    match input.take(length as u64).read_to_end(&mut bytes) {
        Ok(read) if read == length => Ok(Some(bytes)),
        Ok(_) => Ok(None),
        Err(error) => Err(unreadable(&error)),
    }
}
