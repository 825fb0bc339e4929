//! The lines that the commands print; each ends in byte 10.

use crate::config::read_config;
use crate::limits::{Edition, MOST_NAMES};
use crate::live::Live;
use crate::live_bytes;
use crate::refusal::Refusal;
use crate::rules::{postorder, Order};
use crate::table::{compile, table_start, table_step, Table};

/// "print `ok STATES BYTES` and a line of lower-case hex, or `refused NUMBER at PLACE`".
pub fn compile_answer(bytes: &[u8], edition: Edition) -> Vec<u8> {
    match compile(bytes, edition) {
        Ok(compiled) => {
            let first = format!("ok {} {}\n", compiled.states, compiled.table.len());
            (first + &hex(&compiled.table) + "\n").into_bytes()
        }
        Err(refusal) => refusal_line(refusal),
    }
}

/// What the reading of a file gives: `read`, the modules, the events, the fugitive ones among
/// them (`-` for none) and the program's term in postorder; or its refusal.
pub fn reading_answer(bytes: &[u8], edition: Edition) -> Vec<u8> {
    let config = match read_config(bytes, edition) {
        Ok(config) => config,
        Err(refusal) => return refusal_line(refusal),
    };
    let events = config.events.iter().map(|e| e.letter).collect();
    let fugitive = config.events.iter().filter(|e| e.fugitive);
    let fugitive = fugitive.map(|e| e.letter).collect();
    let mut out = b"read".to_vec();
    for letters in [config.modules, events, fugitive] {
        out.push(b' ');
        out.extend(if letters.is_empty() {
            vec![b'-']
        } else {
            letters
        });
    }
    out.push(b' ');
    postorder(&config.program, &mut out);
    out.push(b'\n');
    out
}

/// Two lower-case digits for each byte.
fn hex(bytes: &[u8]) -> String {
    bytes.iter().map(|byte| format!("{byte:02x}")).collect()
}

/// The line of a refusal.
fn refusal_line(refusal: Refusal) -> Vec<u8> {
    format!("{refusal}\n").into_bytes()
}

/// A live run: the modules that run at the start, then one line for each letter.
pub fn trace_answer(bytes: &[u8], letters: &[u8]) -> Vec<u8> {
    let mut live = match Live::start(bytes) {
        Ok(live) => live,
        Err(refusal) => return refusal_line(refusal),
    };
    let mut out = b"start".to_vec();
    for module in live.running() {
        out.extend([b' ', module]);
    }
    out.push(b'\n');
    for letter in letters {
        out.extend(trace_line(&mut live, *letter));
    }
    out
}

/// The line of one letter: its orders, or the number of its refusal.
fn trace_line(live: &mut Live, letter: u8) -> Vec<u8> {
    let mut out = vec![letter];
    match live.step(letter) {
        Ok(orders) => {
            for (order, module) in orders.iter().zip(&live.config().modules) {
                out.extend(order_mark(*order, *module));
            }
        }
        Err(refusal) => out.extend(format!(" refused {}", refusal.number).into_bytes()),
    }
    out.push(b'\n');
    out
}

/// A space, `+` start, `~` resume or `-` stop, and the module; nothing if it has no order.
fn order_mark(order: Order, module: u8) -> Vec<u8> {
    match order {
        Order::None => Vec::new(),
        Order::Start => vec![b' ', b'+', module],
        Order::Resume => vec![b' ', b'~', module],
        Order::Stop => vec![b' ', b'-', module],
    }
}

/// Table start: state 0 and the modules that run.
pub fn table_start_answer(bytes: &[u8]) -> Vec<u8> {
    match table_start(bytes) {
        Ok(running) => {
            let mut out = b"state 0".to_vec();
            for module in running {
                out.extend([b' ', module]);
            }
            out.push(b'\n');
            out
        }
        Err(refusal) => refusal_line(refusal),
    }
}

/// Table step: the next state, and one order digit for each module.
pub fn table_step_answer(bytes: &[u8], state: usize, letter: u8) -> Vec<u8> {
    match table_step(bytes, state, letter) {
        Ok(step) => {
            let mut out = format!("state {}", step.next).into_bytes();
            if !step.orders.is_empty() {
                out.push(b' ');
            }
            out.extend(step.orders.iter().map(|order| b'0' + *order as u8));
            out.push(b'\n');
            out
        }
        Err(refusal) => refusal_line(refusal),
    }
}

/// A call of a table as one line, a step by this letter or a start: `state`, the state and eight
/// orders, zeros past the last module; or `refused` and the number. A start orders 1 to each
/// module that runs.
pub fn call_answer(state: usize, letter: Option<u8>, bytes: &[u8]) -> Vec<u8> {
    let answer = match letter {
        None => started(bytes),
        Some(letter) => stepped(bytes, state, letter),
    };
    match answer {
        Ok((state, mut orders)) => {
            orders.resize(MOST_NAMES, 0);
            let orders: String = orders.iter().map(|order| format!(" {order}")).collect();
            format!("state {state}{orders}\n").into_bytes()
        }
        Err(refusal) => format!("refused {}\n", refusal.number).into_bytes(),
    }
}

/// The start of a table as a state and orders.
fn started(bytes: &[u8]) -> Result<(usize, Vec<u8>), Refusal> {
    let table = Table::read(bytes)?;
    let running = table.running();
    let order = |module: &u8| u8::from(running.contains(module));
    Ok((0, table.modules().iter().map(order).collect()))
}

/// The step of a table as a state and orders.
fn stepped(bytes: &[u8], state: usize, letter: u8) -> Result<(usize, Vec<u8>), Refusal> {
    let step = table_step(bytes, state, letter)?;
    let orders = step.orders.iter().map(|order| *order as u8);
    Ok((step.next, orders.collect()))
}

/// A live call as one line, a step by this letter or a start: eight orders, zeros past the last
/// module, or the refusal; then the bytes of the live state after it. A start orders 1 to each
/// module that runs.
pub fn live_answer(file: &[u8], live: &[u8], letter: Option<u8>) -> Vec<u8> {
    let answer = match letter {
        None => live_bytes::start(file, live),
        Some(letter) => live_bytes::step(file, live, letter),
    };
    let line = match answer {
        Ok((orders, live)) => {
            let none = std::iter::repeat(0).take(MOST_NAMES - orders.len());
            let digits = orders.iter().copied().chain(none);
            let orders: String = digits.map(|order| order.to_string()).collect();
            format!("{orders} {}\n", hex(&live))
        }
        Err(refusal) => format!("{refusal} {}\n", hex(live)),
    };
    line.into_bytes()
}
