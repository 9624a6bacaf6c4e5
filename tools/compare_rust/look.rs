//! Looking at a value, as the bench does: so that no run can leave out a part of what it makes.
use crate::made::{Event, Pod};
use std::collections::{BTreeMap, HashMap, VecDeque};

/// A value of which is seen how long its parts are.
pub trait Look {
    /// The lengths that the value and its parts have of their own, added. What is of one size has none.
    #[inline]
    fn lengths(&self) -> u64 {
        0
    }
}

impl Look for u8 {}

impl Look for u32 {}

impl Look for u64 {}

impl Look for f64 {}

impl Look for bool {}

impl Look for [u8; 32] {}

impl Look for Pod {}

impl<A: Look, B: Look> Look for (A, B) {
    #[inline]
    fn lengths(&self) -> u64 {
        self.0.lengths().wrapping_add(self.1.lengths())
    }
}

impl<A: Look, B: Look, C: Look> Look for (A, B, C) {
    #[inline]
    fn lengths(&self) -> u64 {
        self.0.lengths().wrapping_add(self.1.lengths()).wrapping_add(self.2.lengths())
    }
}

impl<T: Look> Look for Option<T> {
    #[inline]
    fn lengths(&self) -> u64 {
        self.as_ref().map_or(0, |value| value.lengths().wrapping_add(1))
    }
}

impl<T: Look, E: Look> Look for Result<T, E> {
    #[inline]
    fn lengths(&self) -> u64 {
        match self {
            Ok(value) => value.lengths(),
            Err(error) => error.lengths(),
        }
    }
}

impl Look for String {
    #[inline]
    fn lengths(&self) -> u64 {
        self.len() as u64
    }
}

impl<T: Look> Look for Vec<T> {
    #[inline]
    fn lengths(&self) -> u64 {
        self.iter().fold(self.len() as u64, |sum, item| sum.wrapping_add(item.lengths()))
    }
}

impl<T> Look for VecDeque<T> {
    #[inline]
    fn lengths(&self) -> u64 {
        self.len() as u64
    }
}

impl<K, V> Look for BTreeMap<K, V> {
    #[inline]
    fn lengths(&self) -> u64 {
        self.len() as u64
    }
}

impl<K, V> Look for HashMap<K, V> {
    #[inline]
    fn lengths(&self) -> u64 {
        self.len() as u64
    }
}

impl Look for Event {
    #[inline]
    fn lengths(&self) -> u64 {
        match self {
            Event::Named { name, .. } => name.lengths(),
            Event::Blob(name, blob) => name.lengths().wrapping_add(blob.lengths()),
            Event::Empty => 1,
        }
    }
}
