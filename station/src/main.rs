//! The program `station`; `station --help` says what it can do.

mod closed;

use std::ffi::OsString;
use std::io::{self, Write};
use std::process::ExitCode;

fn main() -> ExitCode {
    let arguments: Vec<OsString> = std::env::args_os().skip(1).collect();
    let out: &mut dyn Write = if closed::is_closed() { &mut closed::Closed } else { &mut io::BufWriter::new(io::stdout().lock()) };
    ExitCode::from(station::run(&arguments, out, &mut io::stderr()))
}
