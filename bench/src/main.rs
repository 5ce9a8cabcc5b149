//! Times the archive beside the original, or beside plain programs for what the original lacks.
//!
//!     bench [--only TEXT] [--rounds N]
//!     bench --instructions [--only TEXT]
//!
//! Both sides run in turn on the same inputs, in short rounds. The table has the medians of the
//! rounds and their ratio; the ratio of the fastest tenth of either side's rounds, which other work
//! on the machine disturbs least; and between which ratios half of the rounds lie. With
//! `--instructions` valgrind counts instructions instead, which nothing disturbs.

mod ours;
mod plain;
mod rows;

use std::process::{Command, ExitCode};
use std::time::Instant;

use rows::{Pass, Row};

/// How long one side's part of a round takes at least.
const ROUND: f64 = 30e-6;

struct Wish {
    only: String,
    rounds: usize,
    instructions: bool,
    /// Row, side and number of passes: what valgrind is given to count.
    passes: Option<(usize, bool, usize)>,
}

fn main() -> ExitCode {
    let Some(wish) = wished() else {
        eprintln!("usage: bench [--only TEXT] [--rounds N] | --instructions");
        return ExitCode::from(2);
    };
    let rows = rows::all();
    if let Some((row, of_ours, count)) = wish.passes {
        let row = &rows[row];
        let pass = if of_ours { &row.ours } else { &row.theirs };
        (0..count).for_each(|_| pass());
        return ExitCode::SUCCESS;
    }
    let unit = if wish.instructions { "instructions" } else { "ns" };
    println!(
        "| function | against | theirs, {unit} | ours, {unit} | ratio | fastest tenth | half of the rounds |"
    );
    println!("|---|---|---:|---:|---:|---:|---|");
    for (index, row) in rows.iter().enumerate().filter(|(_, row)| row.name.contains(&wish.only)) {
        (row.agree)();
        let rounds = if wish.instructions {
            vec![(counted(index, false), counted(index, true))]
        } else {
            timed(row, wish.rounds)
        };
        print(row, rounds);
    }
    ExitCode::SUCCESS
}

fn wished() -> Option<Wish> {
    let mut wish = Wish { only: String::new(), rounds: 501, instructions: false, passes: None };
    let mut arguments = std::env::args().skip(1);
    while let Some(argument) = arguments.next() {
        match argument.as_str() {
            "--only" => wish.only = arguments.next()?,
            "--rounds" => wish.rounds = arguments.next()?.parse().ok()?,
            "--instructions" => wish.instructions = true,
            "--passes" => {
                let mut number = || arguments.next()?.parse::<usize>().ok();
                wish.passes = Some((number()?, number()? == 1, number()?));
            }
            _ => return None,
        }
    }
    Some(wish)
}

/// Seconds for each round of a pass of theirs and of ours.
fn timed(row: &Row, rounds: usize) -> Vec<(f64, f64)> {
    let repeat = [&row.theirs, &row.ours].map(|pass| {
        seconds(pass, 1);
        (ROUND / seconds(pass, 1)).ceil() as usize
    });
    (0..rounds)
        .map(|round| {
            if round % 2 == 0 {
                let theirs = seconds(&row.theirs, repeat[0]);
                (theirs, seconds(&row.ours, repeat[1]))
            } else {
                let ours = seconds(&row.ours, repeat[1]);
                (seconds(&row.theirs, repeat[0]), ours)
            }
        })
        .map(|(theirs, ours)| (theirs * 1e9, ours * 1e9))
        .collect()
}

/// Seconds a pass.
fn seconds(pass: &Pass, repeat: usize) -> f64 {
    let start = Instant::now();
    (0..repeat).for_each(|_| pass());
    start.elapsed().as_secs_f64() / repeat as f64
}

/// Instructions a pass: what two more passes add.
fn counted(row: usize, of_ours: bool) -> f64 {
    let [few, more] = [1, 3].map(|count| collected(row, of_ours, count));
    (more - few) / 2.0
}

fn collected(row: usize, of_ours: bool, count: usize) -> f64 {
    let me = std::env::current_exe().expect("the program's own path");
    let mut command = Command::new("valgrind");
    command.args(["--tool=callgrind", "--callgrind-out-file=/dev/null"]).arg(me).arg("--passes");
    command.args([row, usize::from(of_ours), count].map(|n| n.to_string()));
    let output = command.output().expect("valgrind");
    let text = String::from_utf8_lossy(&output.stderr);
    let line = text.lines().find_map(|line| line.split("Collected :").nth(1));
    line.and_then(|count| count.trim().parse().ok()).expect("callgrind tells what it collected")
}

fn print(row: &Row, rounds: Vec<(f64, f64)>) {
    let calls = row.calls as f64;
    let (theirs, ours): (Vec<f64>, Vec<f64>) =
        rounds.iter().map(|(theirs, ours)| (theirs * row.part / calls, ours / calls)).unzip();
    let ratios: Vec<f64> = ours.iter().zip(&theirs).map(|(ours, theirs)| ours / theirs).collect();
    let [median, fast] = [0.5, 0.1].map(|part| [&theirs, &ours].map(|times| quantile(times, part)));
    println!(
        "| {} | {} | {:.1} | {:.1} | {:.2} | {:.2} | {:.2} to {:.2} |",
        row.name,
        row.against,
        median[0],
        median[1],
        median[1] / median[0],
        fast[1] / fast[0],
        quantile(&ratios, 0.25),
        quantile(&ratios, 0.75),
    );
}

fn quantile(values: &[f64], part: f64) -> f64 {
    let mut values = values.to_vec();
    values.sort_by(f64::total_cmp);
    values[((values.len() - 1) as f64 * part).round() as usize]
}
