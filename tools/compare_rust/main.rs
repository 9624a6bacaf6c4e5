//! Reads and writes the values of `run_bench --time` in plain Rust, as a careful hand would write it over `Vec<u8>` and
//! `&[u8]`: what has one size is copied at once, each length is looked at before memory is asked for, and what is cut off
//! or is no value is refused. Prints a row for each measurement, named as there: the least time of 40 runs in nanoseconds. As
//! there, a run ends when what it made was looked at and its memory given back.
//!
//! `tools/compare` builds it by `rustc` alone and runs it beside the bench. Arguments are words, as the bench's: only cases
//! whose names have one are timed. Their number is what the values are made of, which no compiler knows.
mod coded;
mod look;
mod made;

use coded::{Coded, LIMIT, LONG_LIMIT, Refused};
use look::Look;
use made::{Event, Made, Pod, Record};
use std::collections::{BTreeMap, HashMap, VecDeque};
use std::hint::black_box;
use std::time::Instant;

const RUNS: u32 = 40;

/// Whether a case of this name is to be timed: where no words were given, each is.
fn is_asked(name: &str) -> bool {
    std::env::args().len() < 2 || std::env::args().skip(1).any(|word| name.contains(&word))
}

/// The least time of the runs, in nanoseconds: each makes a value, looks at it, and gives its memory back.
#[inline(never)]
fn least<T: Look>(mut run: impl FnMut() -> Result<T, Refused>) -> u128 {
    let mut least = u128::MAX;
    for _ in 0..RUNS {
        let start = Instant::now();
        let made = run();
        if let Ok(value) = black_box(&made) {
            black_box(value.lengths());
        }
        drop(made);
        least = least.min(start.elapsed().as_nanos());
    }
    least
}

fn row(name: &str, done: &str, nanoseconds: u128) {
    println!("{name} {done}: {nanoseconds} nanoseconds");
}

/// The value's encoding in a new vector.
fn serialize<T: Coded>(value: &T) -> Result<Vec<u8>, Refused> {
    let mut bytes = Vec::with_capacity(value.size().ok_or(Refused)?);
    value.write(&mut bytes);
    Ok(bytes)
}

/// Times a value's reading and writing.
fn time_value<T: Made + Coded + Look, const MAX: usize>(name: &str, first: u64, lengths: &[u64]) -> Result<(), Refused> {
    if !is_asked(name) {
        return Ok(());
    }
    let value = T::made(first, lengths);
    let text = serialize(&value)?;
    row(name, "copied", least(|| Ok(black_box(&text[..]).to_vec())));
    row(name, "read", least(|| T::read::<MAX>(&mut black_box(&text[..]))));
    row(name, "written", least(|| serialize(black_box(&value))));
    Ok(())
}

fn time_numbers(first: u64) -> Result<(), Refused> {
    time_value::<Vec<u64>, LIMIT>("numbers", first, &[500_000])?;
    for (name, count) in [("a million numbers", 1), ("2 million numbers", 2), ("4 million numbers", 4), ("8 million numbers", 8)] {
        time_value::<Vec<u64>, LONG_LIMIT>(name, first, &[count * 1_000_000])?;
    }
    time_value::<Vec<u8>, LIMIT>("bytes", first, &[4_000_000])?;
    time_value::<Vec<u8>, LONG_LIMIT>("more bytes", first, &[16_000_000])?;
    time_value::<Vec<Vec<u64>>, LIMIT>("lists of numbers", first, &[1_000, 1_000])?;
    time_value::<Vec<Vec<Vec<Vec<u32>>>>, LIMIT>("nested four deep", first, &[20, 20, 20, 20])?;
    time_value::<VecDeque<u64>, LIMIT>("queue", first, &[500_000])?;
    time_value::<Vec<f64>, LIMIT>("floats", first, &[500_000])
}

fn time_texts(first: u64) -> Result<(), Refused> {
    time_value::<String, LIMIT>("one text", first, &[4_000_000])?;
    time_value::<Vec<String>, LIMIT>("texts", first, &[100_000, 20])?;
    time_value::<Vec<String>, LIMIT>("more texts", first, &[100_000, 4])?;
    time_value::<Vec<(u64, String)>, LIMIT>("records with a text", first, &[50_000, 20])?;
    time_value::<BTreeMap<u64, u64>, LIMIT>("sorted pairs", first, &[100_000])?;
    time_value::<HashMap<u64, u64>, LIMIT>("hashed pairs", first, &[100_000])
}

fn time_parts(first: u64) -> Result<(), Refused> {
    time_value::<Vec<Record>, LIMIT>("records in a list", first, &[50_000])?;
    time_value::<Vec<Record>, LONG_LIMIT>("more records", first, &[200_000])?;
    time_value::<Vec<[u8; 32]>, LIMIT>("arrays", first, &[50_000])?;
    time_value::<Vec<Pod>, LIMIT>("arrays as forms", first, &[50_000])?;
    time_value::<Vec<(u64, u32)>, LIMIT>("pairs", first, &[100_000])?;
    time_value::<Vec<Option<u64>>, LIMIT>("options", first, &[100_000])?;
    time_value::<Vec<Result<u64, u64>>, LIMIT>("results", first, &[100_000])?;
    time_value::<Vec<Event>, LIMIT>("events", first, &[50_000])
}

/// Records that are read one after another from one slice, and written one after another to one vector.
fn time_records(first: u64) -> Result<(), Refused> {
    let name = "records one by one";
    if !is_asked(name) {
        return Ok(());
    }
    let records = Vec::<Record>::made(first, &[50_000]);
    let join = |records: &[Record]| {
        let mut bytes = Vec::with_capacity(records.len() * 41);
        records.iter().for_each(|record| record.write(&mut bytes));
        bytes
    };
    let text = join(&records);
    row(name, "copied", least(|| Ok(black_box(&text[..]).to_vec())));
    let read = || -> Result<u64, Refused> {
        let mut rest = black_box(&text[..]);
        let mut sum = 0u64;
        for place in 0..records.len() {
            let (number, is_odd, bytes) = Record::read::<LIMIT>(&mut rest)?;
            sum = sum.wrapping_add(number).wrapping_add(u64::from(is_odd)).wrapping_add(u64::from(bytes[place % 32]));
        }
        Ok(sum)
    };
    row(name, "read", least(read));
    row(name, "written", least(|| Ok(join(black_box(&records)))));
    Ok(())
}

fn main() -> Result<(), Refused> {
    let first = std::env::args().count() as u64 - 1;
    time_numbers(first)?;
    time_texts(first)?;
    time_parts(first)?;
    time_records(first)
}
