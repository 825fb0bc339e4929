//! The second program of document 01: configuration files, their rules, and tables.
//!
//! It is written from the sentences of document 01 alone, with plain trees and plain loops, and
//! is compared by running with the program that carries the proofs. Each module says which part
//! of the document it renders:
//!
//! - `refusal`   a number and a place
//! - `bytes`     the kind of each byte
//! - `file`      lines, keys and lists: refusals 2 to 7
//! - `grammar`   the program: refusal 8
//! - `limits`    sizes and shared names: refusals 9 to 16
//! - `rules`     what a state is, and one reaction
//! - `config`    a file read to its end: refusals 2 to 16 in their order
//! - `discover`  all states in their order: refusals 17 and 18
//! - `table`     the packed bits, check 19, table start and step
//! - `live`      live start and step
//! - `live_bytes` the live state's 128 bytes, and the live calls on them: refusals 1 and 23
//! - `answer`    the lines that the programs print
//!
//! Every public function is total: it answers for any bytes, and none panics.
#![forbid(unsafe_code)]
#![deny(missing_docs)]

pub mod answer;
pub mod bytes;
pub mod config;
pub mod discover;
pub mod file;
pub mod grammar;
pub mod limits;
pub mod live;
pub mod live_bytes;
pub mod refusal;
pub mod rules;
pub mod table;
