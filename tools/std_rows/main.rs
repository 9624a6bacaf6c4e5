//! What bincode 1.3.3 writes and reads of std's types, by serde's own implementations, as rows of text:
//!
//!     TYPE|BYTES|ok LEFT WRITTEN    the value in front of these bytes, written again, with LEFT bytes behind it
//!     TYPE|BYTES|err                no value stands in front of them
//!
//! Of each value stand the row of its encoding with a byte behind it, and one of each front of the encoding. The bytes
//! are in base 16. `tools/std_rows/make` runs this and writes `tools/std_rows/rows`, each row once.
//!
//! serde has `Saturating`, `RangeFrom` and `RangeTo` from later versions on than Debian's, as `Wrapping` and `Range` are: their
//! rows are made by hand, of what they hold.
use serde::{de::DeserializeOwned, Serialize};
use std::borrow::Cow;
use std::cmp::Reverse;
use std::ffi::CString;
use std::net::{IpAddr, Ipv4Addr, Ipv6Addr, SocketAddr, SocketAddrV4, SocketAddrV6};
use std::num::*;
use std::ops::{Bound, Range, RangeInclusive};
use std::path::PathBuf;
use std::rc::Rc;
use std::sync::Arc;
use std::time::{Duration, SystemTime};

fn digits(bytes: &[u8]) -> String {
    bytes.iter().map(|byte| format!("{byte:02x}")).collect()
}

/// The row of these bytes.
fn row<T: Serialize + DeserializeOwned>(name: &str, bytes: &[u8]) {
    let mut rest = bytes;
    match bincode::deserialize_from::<_, T>(&mut rest) {
        Ok(value) => {
            let written = bincode::serialize(&value).expect("a value that was read is written");
            println!("{name}|{}|ok {} {}", digits(bytes), rest.len(), digits(&written));
        }
        Err(_) => println!("{name}|{}|err", digits(bytes)),
    }
}

/// The rows of each value, and of each front of its encoding.
fn values<T: Serialize + DeserializeOwned>(name: &str, values: &[T]) {
    for value in values {
        let mut bytes = bincode::serialize(value).expect("a value is written");
        for front in 0..bytes.len() {
            row::<T>(name, &bytes[..front]);
        }
        bytes.push(0xa5);
        row::<T>(name, &bytes);
    }
}

/// The row of a value alone.
fn whole<T: Serialize + DeserializeOwned>(name: &str, value: &T) {
    row::<T>(name, &bincode::serialize(value).expect("a value is written"));
}

macro_rules! integers {
    ($name:ident, $plain:ident) => {
        values(
            stringify!($name),
            &[1, 2, $plain::MAX, $plain::MIN.wrapping_add(1), $plain::MAX / 3].map(|n| $name::new(n).unwrap()),
        );
        row::<$name>(stringify!($name), &(0 as $plain).to_le_bytes());
    };
}

fn floats() {
    values(
        "f32",
        &[
            0.0f32,
            -0.0,
            1.0,
            -2.5,
            f32::MIN_POSITIVE,
            1e-45,
            f32::MAX,
            f32::INFINITY,
            f32::NEG_INFINITY,
        ],
    );
    values(
        "f64",
        &[
            0.0f64,
            -0.0,
            1.0,
            -2.5,
            0.1,
            f64::MIN_POSITIVE,
            5e-324,
            f64::MAX,
            f64::INFINITY,
            f64::NEG_INFINITY,
        ],
    );
    values("Vec<f32>", &[vec![], vec![1.0f32, -0.5, 3.25]]);
    values("Vec<f64>", &[vec![], vec![1.0f64, -0.5, 3.25]]);
    whole("Vec<f32>", &(0..700).map(|n| n as f32 / 7.0 - 40.0).collect::<Vec<f32>>());
    whole("Vec<f64>", &(0..300).map(|n| n as f64 / 7.0 - 40.0).collect::<Vec<f64>>());
}

fn wrapped() {
    values("Wrapping<u32>", &[Wrapping(0u32), Wrapping(0x0403_0201)]);
    values("Wrapping<i8>", &[Wrapping(-1i8), Wrapping(5)]);
    values("Reverse<u16>", &[Reverse(0x0201u16)]);
    values("Reverse<String>", &[Reverse(String::from("ab"))]);
    row::<Reverse<bool>>("Reverse<bool>", &[2]);
    values("Vec<Wrapping<u32>>", &[vec![Wrapping(1u32), Wrapping(2)]]);
}

fn held() {
    values("Arc<u32>", &[Arc::new(7u32)]);
    values("Arc<String>", &[Arc::new(String::from("Ada"))]);
    values::<Box<str>>("Box<str>", &[Box::from(""), Box::from("Ada")]);
    values::<Rc<str>>("Rc<str>", &[Rc::from("Ada")]);
    values::<Arc<str>>("Arc<str>", &[Arc::from("Ada")]);
    values::<Arc<[u16]>>("Arc<[u16]>", &[Arc::from([1u16, 2].as_slice())]);
    row::<Box<str>>("Box<str>", &[1, 0, 0, 0, 0, 0, 0, 0, 0xff]);
    values::<Cow<'static, str>>("Cow<str>", &[Cow::Borrowed("Ada")]);
    values::<Cow<'static, [u16]>>("Cow<[u16]>", &[Cow::Borrowed(&[1, 2])]);
    values(
        "CString",
        &[
            CString::new("").unwrap(),
            CString::new("Ada").unwrap(),
            CString::new([0xff]).unwrap(),
        ],
    );
    row::<CString>("CString", &[3, 0, 0, 0, 0, 0, 0, 0, 65, 0, 97]);
    row::<CString>("CString", &[1, 0, 0, 0, 0, 0, 0, 0, 0]);
    values("PathBuf", &[PathBuf::from(""), PathBuf::from("/tmp/a")]);
    row::<PathBuf>("PathBuf", &[1, 0, 0, 0, 0, 0, 0, 0, 0xff]);
}

fn times() {
    let some = [
        Duration::new(0, 0),
        Duration::new(1, 500_000_000),
        Duration::new(u64::MAX, 999_999_999),
        Duration::new(0x0807_0605_0403_0201, 0x0b0a_0908),
    ];
    values("Duration", &some);
    for (secs, nanos) in [
        (1u64, 1_000_000_000u32),
        (7, u32::MAX),
        (u64::MAX, 1_000_000_000),
        (u64::MAX - 4, u32::MAX),
        (u64::MAX - 3, u32::MAX),
    ] {
        let mut bytes = secs.to_le_bytes().to_vec();
        bytes.extend(nanos.to_le_bytes());
        row::<Duration>("Duration", &bytes);
        row::<SystemTime>("SystemTime", &bytes);
    }
    values(
        "SystemTime",
        &[
            SystemTime::UNIX_EPOCH,
            SystemTime::UNIX_EPOCH + Duration::new(1_700_000_000, 5),
        ],
    );
    let mut longest = (i64::MAX as u64).to_le_bytes().to_vec();
    longest.extend(999_999_999u32.to_le_bytes());
    row::<SystemTime>("SystemTime", &longest);
    let mut past = (i64::MAX as u64 + 1).to_le_bytes().to_vec();
    past.extend(0u32.to_le_bytes());
    row::<SystemTime>("SystemTime", &past);
    values("Vec<Duration>", &[vec![Duration::new(1, 2), Duration::new(3, 4)]]);
    whole(
        "Vec<Duration>",
        &(0..200).map(|n| Duration::new(n, 1 << (n % 30))).collect::<Vec<Duration>>(),
    );
}

fn ranges() {
    values("Range<u16>", &[1u16..0x0403, 5..2]);
    values("RangeInclusive<u16>", &[1u16..=0x0403]);
    values::<Range<String>>("Range<String>", &[String::from("a")..String::from("bc")]);
    values::<RangeInclusive<bool>>("RangeInclusive<bool>", &[false..=true]);
    row::<Range<bool>>("Range<bool>", &[0, 2]);
    values(
        "Bound<u16>",
        &[Bound::Unbounded, Bound::Included(0x0201u16), Bound::Excluded(0x0403)],
    );
    row::<Bound<u16>>("Bound<u16>", &[3, 0, 0, 0, 1, 2]);
    row::<Bound<bool>>("Bound<bool>", &[1, 0, 0, 0, 2]);
}

fn addresses() {
    let four = Ipv4Addr::new(127, 0, 0, 1);
    let six = Ipv6Addr::new(0x2001, 0xdb8, 0, 0x1234, 0, 0, 0x89ab, 0xcdef);
    values("Ipv4Addr", &[four]);
    values("Ipv6Addr", &[six, Ipv6Addr::LOCALHOST]);
    values("IpAddr", &[IpAddr::V4(four), IpAddr::V6(six)]);
    row::<IpAddr>("IpAddr", &[2, 0, 0, 0, 1, 2, 3, 4]);
    values("SocketAddrV4", &[SocketAddrV4::new(four, 0x0102)]);
    values(
        "SocketAddrV6",
        &[SocketAddrV6::new(six, 0x0102, 0, 0), SocketAddrV6::new(six, 80, 7, 9)],
    );
    values(
        "SocketAddr",
        &[
            SocketAddr::V4(SocketAddrV4::new(four, 80)),
            SocketAddr::V6(SocketAddrV6::new(six, 80, 0, 0)),
        ],
    );
    row::<SocketAddr>("SocketAddr", &[3, 0, 0, 0, 1, 2, 3, 4, 80, 0]);
}

fn main() {
    floats();
    integers!(NonZeroU8, u8);
    integers!(NonZeroU16, u16);
    integers!(NonZeroU32, u32);
    integers!(NonZeroU64, u64);
    integers!(NonZeroU128, u128);
    integers!(NonZeroUsize, usize);
    integers!(NonZeroI8, i8);
    integers!(NonZeroI16, i16);
    integers!(NonZeroI32, i32);
    integers!(NonZeroI64, i64);
    integers!(NonZeroI128, i128);
    integers!(NonZeroIsize, isize);
    values(
        "Vec<NonZeroU16>",
        &[[1u16, 2, 3].map(|n| NonZeroU16::new(n).unwrap()).to_vec()],
    );
    whole(
        "Vec<NonZeroU16>",
        &(1..1200).map(|n| NonZeroU16::new(n).unwrap()).collect::<Vec<NonZeroU16>>(),
    );
    row::<Vec<NonZeroU16>>("Vec<NonZeroU16>", &[2, 0, 0, 0, 0, 0, 0, 0, 1, 0, 0, 0]);
    wrapped();
    held();
    times();
    ranges();
    addresses();
    // A NaN, whose bits bincode keeps.
    row::<f32>("NaN f32", &0x7fc0_0001u32.to_le_bytes());
    row::<f64>("NaN f64", &0xfff8_0000_0000_0001u64.to_le_bytes());
}
