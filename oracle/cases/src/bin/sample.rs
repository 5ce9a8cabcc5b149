//! Writes stored answers of the original to a file, for a reader that needs no Rust.
//!
//!     sample FILE
//!
//! A record is four bytes (the function's number, how many input words, the outcome, how many
//! output words) and then the words, little-endian. A float is its bits, every NaN the same; a
//! number is zero-extended; a list is its length and its elements; a zero hex volume is plus zero.

use std::collections::BTreeMap;
use std::process::ExitCode;

use cases::chance::Chance;
use cases::noted;
use cases::original::Place;
use cases::rows::{ROWS, Row};
use cases::words::{self, Input};

const SEED: u64 = 20_261_021;
const MOST_INPUT_WORDS: usize = 96;
const MOST_OUTPUT_WORDS: usize = 64;
const RANDOM_RECORDS: usize = 36;

fn main() -> ExitCode {
    let Some(path) = std::env::args().nth(1) else {
        eprintln!("usage: sample FILE");
        return ExitCode::from(2);
    };
    let mut bytes = Vec::new();
    let mut total = 0;
    for (id, row) in (1..).zip(&ROWS) {
        let inputs = chosen(row, SEED ^ (u64::from(id) << 32));
        let mut outcomes = BTreeMap::new();
        for input in &inputs {
            *outcomes.entry(write_record(&mut bytes, id, row, input)).or_insert(0) += 1;
        }
        println!("{:<38} {:>4} records, by outcome {outcomes:?}", row.name, inputs.len());
        total += inputs.len();
    }
    println!("total {total} records, {} bytes", bytes.len());
    match std::fs::write(&path, bytes) {
        Ok(()) => ExitCode::SUCCESS,
        Err(problem) => {
            eprintln!("{path}: {problem}");
            ExitCode::FAILURE
        }
    }
}

/// How many boundary inputs of a function are stored: all masks, more where lists have lengths.
fn boundary_records(name: &str) -> usize {
    match name {
        "isn_hex_iso_mask" => 384,
        "isn_hex_grad_shapefunc" | "isn_hex_volume" | "isn_prism_volume" => 104,
        _ => 64,
    }
}

/// All noted cells, for the locators.
fn noted_cells(name: &str) -> Vec<Input> {
    match name {
        "isn_hex_parametric_coord_for_origin" => as_inputs(&noted::hexes()),
        "isn_prism_parametric_coord_for_origin" => as_inputs(&noted::prisms()),
        _ => Vec::new(),
    }
}

fn as_inputs<const N: usize>(cells: &[[Place; N]]) -> Vec<Input> {
    cells.iter().map(|corners| Input::default().corners(corners)).collect()
}

/// Noted cells, boundary inputs of every outcome, then random ones.
fn chosen(row: &Row, seed: u64) -> Vec<Input> {
    let mut outcomes: BTreeMap<u32, BTreeMap<usize, Vec<Input>>> = BTreeMap::new();
    (row.boundaries)(&mut |input| {
        if input.0.len() <= MOST_INPUT_WORDS {
            let input = canonical(input);
            let lengths = outcomes.entry(row.answer_to(&input).outcome).or_default();
            lengths.entry(input.0.len()).or_default().push(input);
        }
    });
    // Each refusal gets one share, success what is left: two shares.
    let wanted = boundary_records(row.name);
    let share = wanted / (outcomes.len() + 1);
    let refusals = outcomes.len() - 1;
    let mut inputs = noted_cells(row.name);
    for (outcome, lengths) in outcomes {
        let groups: Vec<Vec<Input>> = lengths.into_values().collect();
        let size = if outcome == 0 { wanted - refusals * share } else { share };
        inputs.extend(spread(&groups, size));
    }
    let mut chance = Chance::new(seed);
    let random = std::iter::repeat_with(|| canonical((row.random)(&mut chance)));
    inputs.extend(random.filter(|i| i.0.len() <= MOST_INPUT_WORDS).take(RANDOM_RECORDS));
    inputs
}

fn canonical(input: Input) -> Input {
    Input(input.0.into_iter().map(words::canonical).collect())
}

/// `wanted` inputs, or all there are: the groups get equal numbers, as far as they reach, and each
/// chooses evenly. Where there are more groups than wanted inputs, groups are chosen evenly.
fn spread(groups: &[Vec<Input>], wanted: usize) -> Vec<Input> {
    if groups.len() > wanted {
        return evenly(groups, wanted).flat_map(|group| evenly(group, 1)).cloned().collect();
    }
    let mut shares = vec![0; groups.len()];
    let mut left = wanted.min(groups.iter().map(Vec::len).sum());
    while left > 0 {
        for (share, group) in shares.iter_mut().zip(groups) {
            if left > 0 && *share < group.len() {
                *share += 1;
                left -= 1;
            }
        }
    }
    let chosen = shares.iter().zip(groups).flat_map(|(&share, group)| evenly(group, share));
    chosen.cloned().collect()
}

/// `n` of the items, at equal distances from the first to the last.
fn evenly<T>(items: &[T], n: usize) -> impl Iterator<Item = &T> {
    (0..n).map(move |i| &items[i * (items.len() - 1) / n.saturating_sub(1).max(1)])
}

/// Adds one record and tells its outcome.
fn write_record(bytes: &mut Vec<u8>, id: u8, row: &Row, input: &Input) -> u32 {
    let answer = row.answer_to(input);
    assert!(input.0.len() <= MOST_INPUT_WORDS && answer.words.len() <= MOST_OUTPUT_WORDS);
    bytes.extend([id, input.0.len() as u8, answer.outcome as u8, answer.words.len() as u8]);
    let outputs = answer.words.iter().map(|&word| row.canonical(word));
    for word in input.0.iter().copied().chain(outputs) {
        bytes.extend(word.to_le_bytes());
    }
    answer.outcome
}
