//! Writes cases of the carried functions, with what the original answers, for oracle/drive.c.
//!
//!     stream [--cases N] [--seed S] [--only TEXT]
//!     stream --show NUMBER [--cases N] [--seed S] --only NAME
//!
//! For each function all boundary inputs, then N random ones. `--show` prints one case that the
//! driver has named, in full.
//!
//! A record is eight bytes (the function's number, the outcome, two zeros, how many bytes follow as
//! 32 bits) and then the words of the inputs and of the outputs, as the stored sample has them;
//! everything is little-endian. The last record is of function 0 and holds the number of records
//! before it.

use std::io::{self, BufWriter, Write};
use std::process::ExitCode;

use cases::chance::Chance;
use cases::rows::{ROWS, Row};
use cases::words::Input;

const MARK: &[u8] = b"ISN2ND1\n";

struct Wish {
    cases: u64,
    seed: u64,
    only: String,
    show: Option<u64>,
}

fn main() -> ExitCode {
    let wish = match wished(std::env::args().skip(1)) {
        Ok(wish) => wish,
        Err(problem) => {
            eprintln!("{problem}");
            eprintln!("usage: stream [--cases N] [--seed S] [--only TEXT] [--show NUMBER]");
            return ExitCode::from(2);
        }
    };
    match write_all(&wish, &mut BufWriter::with_capacity(1 << 16, io::stdout().lock())) {
        Ok(()) => ExitCode::SUCCESS,
        Err(problem) => {
            eprintln!("stream: {problem}");
            ExitCode::FAILURE
        }
    }
}

fn wished(mut arguments: impl Iterator<Item = String>) -> Result<Wish, String> {
    let mut wish = Wish { cases: 20_000, seed: 1, only: String::new(), show: None };
    while let Some(argument) = arguments.next() {
        let mut value = || arguments.next().ok_or(format!("{argument} needs a value"));
        match argument.as_str() {
            "--cases" => wish.cases = number(&value()?)?,
            "--seed" => wish.seed = number(&value()?)?,
            "--only" => wish.only = value()?,
            "--show" => wish.show = Some(number(&value()?)?),
            other => return Err(format!("unknown argument {other}")),
        }
    }
    Ok(wish)
}

fn number(text: &str) -> Result<u64, String> {
    text.parse().map_err(|_| format!("not a number: {text}"))
}

fn write_all(wish: &Wish, out: &mut impl Write) -> io::Result<()> {
    let chosen = || (1..).zip(&ROWS).filter(|(_, row)| row.name.contains(&wish.only));
    if let Some(wanted) = wish.show {
        return chosen().try_for_each(|(id, row)| {
            each_case(id, row, wish, &mut |at, input| {
                if at == wanted { show(row, at, input, out) } else { Ok(()) }
            })
        });
    }
    let mut records = 0u64;
    out.write_all(MARK)?;
    for (id, row) in chosen() {
        each_case(id, row, wish, &mut |_, input| {
            records += 1;
            write_record(id, row, input, out)
        })?;
    }
    write_head(0, 0, 8, out)?;
    out.write_all(&records.to_le_bytes())?;
    out.flush()
}

/// All boundary inputs of a function, then random ones, each with its number from 0.
fn each_case(
    id: u8,
    row: &Row,
    wish: &Wish,
    meet: &mut dyn FnMut(u64, &Input) -> io::Result<()>,
) -> io::Result<()> {
    let (mut at, mut met) = (0, Ok(()));
    (row.boundaries)(&mut |input| {
        if met.is_ok() {
            met = meet(at, &input);
            at += 1;
        }
    });
    met?;
    let mut chance = Chance::new(wish.seed ^ (u64::from(id - 1) << 32));
    (at..at + wish.cases).try_for_each(|at| meet(at, &(row.random)(&mut chance)))
}

fn write_record(id: u8, row: &Row, input: &Input, out: &mut impl Write) -> io::Result<()> {
    let answer = row.answer_to(input);
    let outputs = answer.words.iter().map(|&word| row.canonical(word));
    write_head(id, answer.outcome as u8, 8 * (input.0.len() + outputs.len()), out)?;
    let mut words = input.0.iter().copied().chain(outputs);
    words.try_for_each(|word| out.write_all(&word.to_le_bytes()))
}

fn write_head(id: u8, outcome: u8, length: usize, out: &mut impl Write) -> io::Result<()> {
    out.write_all(&[id, outcome, 0, 0])?;
    out.write_all(&(length as u32).to_le_bytes())
}

/// A case with all its bits, each word with the float that it may be.
fn show(row: &Row, at: u64, input: &Input, out: &mut impl Write) -> io::Result<()> {
    let answer = row.answer_to(input);
    writeln!(out, "{} case {at}: the original answers {}", row.name, answer.outcome)?;
    for (title, words) in [("inputs", &input.0), ("outputs", &answer.words)] {
        writeln!(out, "{title}")?;
        for &word in words {
            writeln!(out, "  {word:016x} {:e}", f64::from_bits(word))?;
        }
    }
    Ok(())
}
