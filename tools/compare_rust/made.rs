//! The values of the bench, made of numbers as there.
use std::collections::{BTreeMap, HashMap, VecDeque};

/// A number, a boolean and bytes.
pub type Record = (u64, bool, [u8; 32]);

/// 32 bytes that are copied as they lie.
#[derive(Clone, Copy)]
#[repr(transparent)]
pub struct Pod(pub [u8; 32]);

pub enum Event {
    Named { name: String, id: u64 },
    Blob(String, Vec<u8>),
    Empty,
}

/// What is made of a number. What has a length takes the first of the lengths, and its parts those behind it.
pub trait Made: Sized {
    fn made(number: u64, lengths: &[u64]) -> Self;
}

fn outer(lengths: &[u64]) -> (u64, &[u64]) {
    match lengths {
        [first, rest @ ..] => (*first, rest),
        [] => (0, lengths),
    }
}

impl Made for u8 {
    fn made(number: u64, _lengths: &[u64]) -> u8 {
        number as u8
    }
}

impl Made for u32 {
    fn made(number: u64, _lengths: &[u64]) -> u32 {
        number as u32
    }
}

impl Made for u64 {
    fn made(number: u64, _lengths: &[u64]) -> u64 {
        number
    }
}

impl Made for f64 {
    fn made(number: u64, _lengths: &[u64]) -> f64 {
        number as f64
    }
}

impl Made for [u8; 32] {
    fn made(number: u64, _lengths: &[u64]) -> [u8; 32] {
        std::array::from_fn(|i| number.wrapping_add(i as u64) as u8)
    }
}

impl Made for Pod {
    fn made(number: u64, lengths: &[u64]) -> Pod {
        Pod(<[u8; 32]>::made(number, lengths))
    }
}

impl Made for Record {
    fn made(number: u64, lengths: &[u64]) -> Record {
        (number, number % 2 == 1, <[u8; 32]>::made(number, lengths))
    }
}

impl<A: Made, B: Made> Made for (A, B) {
    fn made(number: u64, lengths: &[u64]) -> (A, B) {
        (A::made(number, lengths), B::made(number, lengths))
    }
}

impl Made for Option<u64> {
    fn made(number: u64, _lengths: &[u64]) -> Option<u64> {
        (number % 2 == 1).then_some(number)
    }
}

impl Made for Result<u64, u64> {
    fn made(number: u64, _lengths: &[u64]) -> Result<u64, u64> {
        if number % 2 == 1 { Ok(number) } else { Err(number) }
    }
}

impl Made for String {
    fn made(number: u64, lengths: &[u64]) -> String {
        (0..outer(lengths).0).map(|i| char::from(b'a' + (number.wrapping_add(i) % 26) as u8)).collect()
    }
}

impl<T: Made> Made for Vec<T> {
    fn made(number: u64, lengths: &[u64]) -> Vec<T> {
        let (count, inner) = outer(lengths);
        (0..count).map(|i| T::made(number.wrapping_add(i), inner)).collect()
    }
}

impl Made for VecDeque<u64> {
    fn made(number: u64, lengths: &[u64]) -> VecDeque<u64> {
        (0..outer(lengths).0).map(|i| number.wrapping_add(i)).collect()
    }
}

impl Made for BTreeMap<u64, u64> {
    fn made(number: u64, lengths: &[u64]) -> BTreeMap<u64, u64> {
        (0..outer(lengths).0).map(|i| (number.wrapping_add(i), i)).collect()
    }
}

impl Made for HashMap<u64, u64> {
    fn made(number: u64, lengths: &[u64]) -> HashMap<u64, u64> {
        (0..outer(lengths).0).map(|i| (number.wrapping_add(i), i)).collect()
    }
}

impl Made for Event {
    fn made(number: u64, _lengths: &[u64]) -> Event {
        match number % 3 {
            0 => Event::Named { name: String::made(number, &[8]), id: number },
            1 => Event::Blob(String::made(number, &[8]), Vec::made(number, &[8])),
            _ => Event::Empty,
        }
    }
}
