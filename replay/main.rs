//! The lines of the program, run by the Rust crate compact_str.
//!
//! `replay answer` reads lines from standard input and answers each as `run_lines` of this repository does. `replay
//! make SEED COUNT INPUT OUTPUT` writes COUNT random lines to one file and their answers to another.

mod lines;
mod session;

use lines::Generator;
use session::Session;
use std::env;
use std::fs::File;
use std::io::{self, BufRead, BufWriter, Write};
use std::process::ExitCode;

/// The lines before the random ones: what a new line of 24 bytes becomes, and lines that are no commands.
const FIRST: [&[u8]; 12] = [
    b"new i am 24 characters long!",
    b"pushstr x",
    b"clear",
    b"",
    b"foo",
    b"clear ",
    b"push ab",
    b"cap +5",
    b"insert x a",
    b"truncate 18446744073709551616",
    b"pushstr \xE2\x82",
    b"new Hello, world!",
];

fn answer() -> io::Result<()> {
    let mut session = Session::new();
    let mut output = BufWriter::new(io::stdout().lock());
    for line in io::stdin().lock().split(b'\n') {
        session.answer(&line?, &mut output)?;
    }
    output.flush()
}

fn make(seed: u64, count: usize, input: &str, output: &str) -> io::Result<()> {
    let mut session = Session::new();
    let mut generator = Generator::new(seed);
    let mut input = BufWriter::new(File::create(input)?);
    let mut output = BufWriter::new(File::create(output)?);
    for at in 0..count {
        let line = match FIRST.get(at) {
            Some(line) => line.to_vec(),
            None => generator.line(session.text()),
        };
        input.write_all(&line)?;
        input.write_all(b"\n")?;
        session.answer(&line, &mut output)?;
    }
    input.flush()?;
    output.flush()
}

fn main() -> ExitCode {
    let words: Vec<String> = env::args().skip(1).collect();
    let words: Vec<&str> = words.iter().map(String::as_str).collect();
    let done = match words.as_slice() {
        ["answer"] => answer(),
        ["make", seed, count, input, output] => match (seed.parse(), count.parse()) {
            (Ok(seed), Ok(count)) => make(seed, count, input, output),
            _ => Err(io::Error::other("SEED and COUNT are numbers")),
        },
        _ => Err(io::Error::other("replay answer | replay make SEED COUNT INPUT OUTPUT")),
    };
    match done {
        Ok(()) => ExitCode::SUCCESS,
        Err(error) => {
            eprintln!("{error}");
            ExitCode::FAILURE
        }
    }
}
