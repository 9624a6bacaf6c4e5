//! Reading and writing in bincode 1's default layout, by hand.
use crate::made::{Event, Pod};
use std::collections::{BTreeMap, HashMap, VecDeque};
use std::hash::Hash;

/// How many bytes of items in memory a list is read with, as the Rust crate's default.
pub const LIMIT: usize = 4_194_304;

pub const LONG_LIMIT: usize = 100_000_000;

/// How many numbers are put together at a time.
const BLOCK: usize = 32;

/// The bytes are no value, or memory for it isn't there.
#[derive(Debug)]
pub struct Refused;

/// A value that is read from the front of bytes and written behind others.
pub trait Coded: Sized {
    /// The size of every encoding, or 0 where they differ.
    const SIZE: usize = 0;

    fn read<const MAX: usize>(bytes: &mut &[u8]) -> Result<Self, Refused>;

    /// Appends to bytes that have room for it.
    fn write(&self, bytes: &mut Vec<u8>);

    fn size(&self) -> Option<usize>;

    /// So many items, that are at most as the limit.
    #[inline]
    fn read_items<const MAX: usize>(bytes: &mut &[u8], count: usize) -> Result<Vec<Self>, Refused> {
        let mut items = Vec::new();
        items.try_reserve_exact(count).map_err(|_| Refused)?;
        for _ in 0..count {
            items.push(Self::read::<MAX>(bytes)?);
        }
        Ok(items)
    }

    #[inline]
    fn write_items(items: &[Self], bytes: &mut Vec<u8>) {
        items.iter().for_each(|item| item.write(bytes));
    }

    #[inline]
    fn size_of_items(items: &[Self]) -> Option<usize> {
        if Self::SIZE > 0 {
            return items.len().checked_mul(Self::SIZE);
        }
        items.iter().try_fold(0usize, |sum, item| sum.checked_add(item.size()?))
    }
}

/// So many bytes from the front.
#[inline]
fn take<'a>(bytes: &mut &'a [u8], count: usize) -> Result<&'a [u8], Refused> {
    let (front, rest) = bytes.split_at_checked(count).ok_or(Refused)?;
    *bytes = rest;
    Ok(front)
}

#[inline]
fn take_array<const N: usize>(bytes: &mut &[u8]) -> Result<[u8; N], Refused> {
    let (front, rest) = bytes.split_first_chunk::<N>().ok_or(Refused)?;
    *bytes = rest;
    Ok(*front)
}

/// A length of eight bytes, of items of which each takes so many bytes of memory.
#[inline]
fn take_length<const MAX: usize>(bytes: &mut &[u8], each: usize) -> Result<usize, Refused> {
    let count = usize::try_from(u64::from_le_bytes(take_array(bytes)?)).map_err(|_| Refused)?;
    match count.checked_mul(each) {
        Some(needed) if needed <= MAX => Ok(count),
        _ => Err(Refused),
    }
}

#[inline]
fn put_length(count: usize, bytes: &mut Vec<u8>) {
    bytes.extend_from_slice(&(count as u64).to_le_bytes());
}

macro_rules! number {
    ($number:ty, $size:literal) => {
        impl Coded for $number {
            const SIZE: usize = $size;

            #[inline]
            fn read<const MAX: usize>(bytes: &mut &[u8]) -> Result<$number, Refused> {
                Ok(<$number>::from_le_bytes(take_array(bytes)?))
            }

            #[inline]
            fn write(&self, bytes: &mut Vec<u8>) {
                bytes.extend_from_slice(&self.to_le_bytes());
            }

            #[inline]
            fn size(&self) -> Option<usize> {
                Some($size)
            }

            #[inline]
            fn read_items<const MAX: usize>(bytes: &mut &[u8], count: usize) -> Result<Vec<$number>, Refused> {
                let front = take(bytes, count.checked_mul($size).ok_or(Refused)?)?;
                let mut items = Vec::new();
                items.try_reserve_exact(count).map_err(|_| Refused)?;
                items.extend(front.as_chunks::<$size>().0.iter().map(|item| <$number>::from_le_bytes(*item)));
                Ok(items)
            }

            #[inline]
            fn write_items(items: &[$number], bytes: &mut Vec<u8>) {
                let mut block = [[0; $size]; BLOCK];
                for chunk in items.chunks(BLOCK) {
                    let places = &mut block[..chunk.len()];
                    places.iter_mut().zip(chunk).for_each(|(place, item)| *place = item.to_le_bytes());
                    bytes.extend_from_slice(places.as_flattened());
                }
            }
        }
    };
}

number!(u32, 4);
number!(u64, 8);
number!(f64, 8);

impl Coded for u8 {
    const SIZE: usize = 1;

    #[inline]
    fn read<const MAX: usize>(bytes: &mut &[u8]) -> Result<u8, Refused> {
        Ok(take_array::<1>(bytes)?[0])
    }

    #[inline]
    fn write(&self, bytes: &mut Vec<u8>) {
        bytes.push(*self);
    }

    #[inline]
    fn size(&self) -> Option<usize> {
        Some(1)
    }

    #[inline]
    fn read_items<const MAX: usize>(bytes: &mut &[u8], count: usize) -> Result<Vec<u8>, Refused> {
        let front = take(bytes, count)?;
        let mut items = Vec::new();
        items.try_reserve_exact(count).map_err(|_| Refused)?;
        items.extend_from_slice(front);
        Ok(items)
    }

    #[inline]
    fn write_items(items: &[u8], bytes: &mut Vec<u8>) {
        bytes.extend_from_slice(items);
    }
}

impl Coded for bool {
    const SIZE: usize = 1;

    #[inline]
    fn read<const MAX: usize>(bytes: &mut &[u8]) -> Result<bool, Refused> {
        match take_array::<1>(bytes)?[0] {
            0 => Ok(false),
            1 => Ok(true),
            _ => Err(Refused),
        }
    }

    #[inline]
    fn write(&self, bytes: &mut Vec<u8>) {
        bytes.push(u8::from(*self));
    }

    #[inline]
    fn size(&self) -> Option<usize> {
        Some(1)
    }
}

impl Coded for [u8; 32] {
    const SIZE: usize = 32;

    #[inline]
    fn read<const MAX: usize>(bytes: &mut &[u8]) -> Result<[u8; 32], Refused> {
        take_array(bytes)
    }

    #[inline]
    fn write(&self, bytes: &mut Vec<u8>) {
        bytes.extend_from_slice(self);
    }

    #[inline]
    fn size(&self) -> Option<usize> {
        Some(32)
    }

    #[inline]
    fn read_items<const MAX: usize>(bytes: &mut &[u8], count: usize) -> Result<Vec<[u8; 32]>, Refused> {
        let front = take(bytes, count.checked_mul(32).ok_or(Refused)?)?;
        let mut items = Vec::new();
        items.try_reserve_exact(count).map_err(|_| Refused)?;
        items.extend_from_slice(front.as_chunks::<32>().0);
        Ok(items)
    }

    #[inline]
    fn write_items(items: &[[u8; 32]], bytes: &mut Vec<u8>) {
        bytes.extend_from_slice(items.as_flattened());
    }
}

impl Coded for Pod {
    const SIZE: usize = 32;

    #[inline]
    fn read<const MAX: usize>(bytes: &mut &[u8]) -> Result<Pod, Refused> {
        Ok(Pod(take_array(bytes)?))
    }

    #[inline]
    fn write(&self, bytes: &mut Vec<u8>) {
        bytes.extend_from_slice(&self.0);
    }

    #[inline]
    fn size(&self) -> Option<usize> {
        Some(32)
    }

    #[inline]
    fn read_items<const MAX: usize>(bytes: &mut &[u8], count: usize) -> Result<Vec<Pod>, Refused> {
        let front = take(bytes, count.checked_mul(32).ok_or(Refused)?)?;
        let mut items = Vec::new();
        items.try_reserve_exact(count).map_err(|_| Refused)?;
        items.extend(front.as_chunks::<32>().0.iter().map(|item| Pod(*item)));
        Ok(items)
    }
}

impl<A: Coded, B: Coded> Coded for (A, B) {
    const SIZE: usize = if A::SIZE > 0 && B::SIZE > 0 { A::SIZE + B::SIZE } else { 0 };

    #[inline]
    fn read<const MAX: usize>(bytes: &mut &[u8]) -> Result<(A, B), Refused> {
        Ok((A::read::<MAX>(bytes)?, B::read::<MAX>(bytes)?))
    }

    #[inline]
    fn write(&self, bytes: &mut Vec<u8>) {
        self.0.write(bytes);
        self.1.write(bytes);
    }

    #[inline]
    fn size(&self) -> Option<usize> {
        self.0.size()?.checked_add(self.1.size()?)
    }
}

impl<A: Coded, B: Coded, C: Coded> Coded for (A, B, C) {
    const SIZE: usize = if A::SIZE > 0 && B::SIZE > 0 && C::SIZE > 0 { A::SIZE + B::SIZE + C::SIZE } else { 0 };

    #[inline]
    fn read<const MAX: usize>(bytes: &mut &[u8]) -> Result<(A, B, C), Refused> {
        Ok((A::read::<MAX>(bytes)?, B::read::<MAX>(bytes)?, C::read::<MAX>(bytes)?))
    }

    #[inline]
    fn write(&self, bytes: &mut Vec<u8>) {
        self.0.write(bytes);
        self.1.write(bytes);
        self.2.write(bytes);
    }

    #[inline]
    fn size(&self) -> Option<usize> {
        self.0.size()?.checked_add(self.1.size()?)?.checked_add(self.2.size()?)
    }
}

impl<T: Coded> Coded for Option<T> {
    #[inline]
    fn read<const MAX: usize>(bytes: &mut &[u8]) -> Result<Option<T>, Refused> {
        match take_array::<1>(bytes)?[0] {
            0 => Ok(None),
            1 => Ok(Some(T::read::<MAX>(bytes)?)),
            _ => Err(Refused),
        }
    }

    #[inline]
    fn write(&self, bytes: &mut Vec<u8>) {
        bytes.push(u8::from(self.is_some()));
        if let Some(part) = self {
            part.write(bytes);
        }
    }

    #[inline]
    fn size(&self) -> Option<usize> {
        match self {
            Some(part) => part.size()?.checked_add(1),
            None => Some(1),
        }
    }
}

impl<T: Coded, E: Coded> Coded for Result<T, E> {
    const SIZE: usize = if T::SIZE > 0 && T::SIZE == E::SIZE { T::SIZE + 4 } else { 0 };

    #[inline]
    fn read<const MAX: usize>(bytes: &mut &[u8]) -> Result<Result<T, E>, Refused> {
        match u32::read::<MAX>(bytes)? {
            0 => Ok(Ok(T::read::<MAX>(bytes)?)),
            1 => Ok(Err(E::read::<MAX>(bytes)?)),
            _ => Err(Refused),
        }
    }

    #[inline]
    fn write(&self, bytes: &mut Vec<u8>) {
        u32::from(self.is_err()).write(bytes);
        match self {
            Ok(value) => value.write(bytes),
            Err(error) => error.write(bytes),
        }
    }

    #[inline]
    fn size(&self) -> Option<usize> {
        match self {
            Ok(value) => value.size()?.checked_add(4),
            Err(error) => error.size()?.checked_add(4),
        }
    }
}

impl Coded for String {
    #[inline]
    fn read<const MAX: usize>(bytes: &mut &[u8]) -> Result<String, Refused> {
        let count = take_length::<MAX>(bytes, 1)?;
        let text = std::str::from_utf8(take(bytes, count)?).map_err(|_| Refused)?;
        let mut made = String::new();
        made.try_reserve_exact(count).map_err(|_| Refused)?;
        made.push_str(text);
        Ok(made)
    }

    #[inline]
    fn write(&self, bytes: &mut Vec<u8>) {
        put_length(self.len(), bytes);
        bytes.extend_from_slice(self.as_bytes());
    }

    #[inline]
    fn size(&self) -> Option<usize> {
        self.len().checked_add(8)
    }
}

impl<T: Coded> Coded for Vec<T> {
    #[inline]
    fn read<const MAX: usize>(bytes: &mut &[u8]) -> Result<Vec<T>, Refused> {
        let count = take_length::<MAX>(bytes, size_of::<T>())?;
        T::read_items::<MAX>(bytes, count)
    }

    #[inline]
    fn write(&self, bytes: &mut Vec<u8>) {
        put_length(self.len(), bytes);
        T::write_items(self, bytes);
    }

    #[inline]
    fn size(&self) -> Option<usize> {
        T::size_of_items(self)?.checked_add(8)
    }
}

impl<T: Coded> Coded for VecDeque<T> {
    #[inline]
    fn read<const MAX: usize>(bytes: &mut &[u8]) -> Result<VecDeque<T>, Refused> {
        Ok(Vec::read::<MAX>(bytes)?.into())
    }

    #[inline]
    fn write(&self, bytes: &mut Vec<u8>) {
        let (front, back) = self.as_slices();
        put_length(self.len(), bytes);
        T::write_items(front, bytes);
        T::write_items(back, bytes);
    }

    #[inline]
    fn size(&self) -> Option<usize> {
        let (front, back) = self.as_slices();
        T::size_of_items(front)?.checked_add(T::size_of_items(back)?)?.checked_add(8)
    }
}

/// The length of a map, and then its pairs.
#[inline]
fn write_pairs<'a, K: Coded + 'a, V: Coded + 'a>(pairs: impl ExactSizeIterator<Item = (&'a K, &'a V)>, bytes: &mut Vec<u8>) {
    put_length(pairs.len(), bytes);
    for (key, value) in pairs {
        key.write(bytes);
        value.write(bytes);
    }
}

#[inline]
fn size_of_pairs<'a, K: Coded + 'a, V: Coded + 'a>(mut pairs: impl ExactSizeIterator<Item = (&'a K, &'a V)>) -> Option<usize> {
    if K::SIZE > 0 && V::SIZE > 0 {
        return pairs.len().checked_mul(K::SIZE + V::SIZE)?.checked_add(8);
    }
    pairs.try_fold(8usize, |sum, (key, value)| sum.checked_add(key.size()?)?.checked_add(value.size()?))
}

impl<K: Coded + Ord, V: Coded> Coded for BTreeMap<K, V> {
    #[inline]
    fn read<const MAX: usize>(bytes: &mut &[u8]) -> Result<BTreeMap<K, V>, Refused> {
        let count = take_length::<MAX>(bytes, size_of::<(K, V)>())?;
        Ok(<(K, V)>::read_items::<MAX>(bytes, count)?.into_iter().collect())
    }

    #[inline]
    fn write(&self, bytes: &mut Vec<u8>) {
        write_pairs(self.iter(), bytes);
    }

    #[inline]
    fn size(&self) -> Option<usize> {
        size_of_pairs(self.iter())
    }
}

impl<K: Coded + Eq + Hash, V: Coded> Coded for HashMap<K, V> {
    #[inline]
    fn read<const MAX: usize>(bytes: &mut &[u8]) -> Result<HashMap<K, V>, Refused> {
        let count = take_length::<MAX>(bytes, size_of::<(K, V)>())?;
        let mut pairs = HashMap::new();
        pairs.try_reserve(count).map_err(|_| Refused)?;
        for _ in 0..count {
            pairs.insert(K::read::<MAX>(bytes)?, V::read::<MAX>(bytes)?);
        }
        Ok(pairs)
    }

    #[inline]
    fn write(&self, bytes: &mut Vec<u8>) {
        write_pairs(self.iter(), bytes);
    }

    #[inline]
    fn size(&self) -> Option<usize> {
        size_of_pairs(self.iter())
    }
}

/// A tag of one byte.
impl Coded for Event {
    #[inline]
    fn read<const MAX: usize>(bytes: &mut &[u8]) -> Result<Event, Refused> {
        match take_array::<1>(bytes)?[0] {
            0 => Ok(Event::Named { name: Coded::read::<MAX>(bytes)?, id: Coded::read::<MAX>(bytes)? }),
            1 => Ok(Event::Blob(Coded::read::<MAX>(bytes)?, Coded::read::<MAX>(bytes)?)),
            2 => Ok(Event::Empty),
            _ => Err(Refused),
        }
    }

    #[inline]
    fn write(&self, bytes: &mut Vec<u8>) {
        match self {
            Event::Named { name, id } => {
                bytes.push(0);
                name.write(bytes);
                id.write(bytes);
            }
            Event::Blob(name, blob) => {
                bytes.push(1);
                name.write(bytes);
                blob.write(bytes);
            }
            Event::Empty => bytes.push(2),
        }
    }

    #[inline]
    fn size(&self) -> Option<usize> {
        match self {
            Event::Named { name, id } => name.size()?.checked_add(id.size()?)?.checked_add(1),
            Event::Blob(name, blob) => name.size()?.checked_add(blob.size()?)?.checked_add(1),
            Event::Empty => Some(1),
        }
    }
}
