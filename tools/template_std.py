"""What `tools/templates` writes of types of std that aren't in the Rust crate's list: numbers other than 0, floats, times and
addresses, which are made of parts; values with another order or another arithmetic, and ranges; and texts."""
import re

WRITE, READ, ROOT, DERIVE = "crates/wincode_write", "crates/wincode_read", "crates/wincode", "crates/wincode_derive_support"
HEAD = "//! Written by `tools/templates`: "
EVERY_INTEGER = ["u8", "u16", "u32", "u64", "u128", "usize", "i8", "i16", "i32", "i64", "i128", "isize"]


# ---- what is made of parts: numbers other than 0, floats, times and addresses

# Each with the schema of its parts, the relation that says which parts make it, the text of the error where they make
# nothing, its own parts, the laws of its parts, and some value.
NUMBER_LAWS, PAIR_LAWS = "number_read_laws {} true (lit≤ tt)", "windowed_read_laws (pair_read_laws ({}) ({}))"
TIME_LAWS = PAIR_LAWS.format(NUMBER_LAWS.format(8), NUMBER_LAWS.format(4))
FLOATS = [
    (f"f{bits}", f"u{bits}", f"AreBits binary{bits}", "[]", f"to_bits binary{bits}", f"one_float binary{bits}", NUMBER_LAWS.format(bits // 8), "0.0", f"Some({bits // 8})")
    for bits in (32, 64)
]
TIMES = [
    ("Duration", "(u64, u32)", "AreTime (2 ^ 64)", "is_overflow", "duration_parts", "one_time (2 ^ 64)", TIME_LAWS, "Duration::ZERO", "Some(12)"),
    ("SystemTime", "(u64, u32)", "AreTime (2 ^ 63)", "is_overflow", "clock_parts", "one_time (2 ^ 63)", TIME_LAWS, "UNIX_EPOCH", "Some(12)"),
]

ARRAY = "windowed_read_laws (array_read_laws {0} (λ v. v < 256 ^ 1) (number_read 1 true) (number_read_laws 1 true (lit≤ tt)))"
PORTED = PAIR_LAWS.format(ARRAY, NUMBER_LAWS.format(2))


def address(made, parts, own, some, laws):
    """An address, which makes itself, as the others are given."""
    return (made, parts, "IsSame", "[]", own, f"one_same ⟦<{parts} as SchemaRead<L>>⟧.model", laws, some, "None")


def of_kinds(made, own, some, four, six):
    """An address of either kind, which is read as a result of the two."""
    sides = [f"⟦<{it[0]} as SchemaRead<L>>⟧" for it in (four, six)]
    laws = [f"made_read_laws ⟦<{it[1]} as SchemaRead<L>>⟧.model IsSame [] ⟦<{it[1]} as SchemaRead<L>>⟧.reading ({it[5]}) ({it[6]})" for it in (four, six)]
    valid, grammars = " ".join(f"{it}.is_valid" for it in sides), " ".join(f"{it}.reading" for it in sides)
    return address(made, f"Result<{four[0]}, {six[0]}>", own, some, f"result_read_laws 4 (lit≤ tt) {valid} {grammars} ({laws[0]}) ({laws[1]})")


SOME_V6 = "SocketAddrV6::new(Ipv6Addr::UNSPECIFIED, 0, 0, 0)"
FOUR = address("Ipv4Addr", "[u8; 4]", "ipv4_octets", "Ipv4Addr::UNSPECIFIED", ARRAY.format(4))
SIX = address("Ipv6Addr", "[u8; 16]", "ipv6_octets", "Ipv6Addr::UNSPECIFIED", ARRAY.format(16))
SOCKET_FOUR = address("SocketAddrV4", "([u8; 4], u16)", "socket_v4_parts", "SocketAddrV4::new(Ipv4Addr::UNSPECIFIED, 0)", PORTED.format(4))
SOCKET_SIX = address("SocketAddrV6", "([u8; 16], u16)", "socket_v6_parts", SOME_V6, PORTED.format(16))
ADDRESSES = [
    FOUR, SIX, of_kinds("IpAddr", "ip_parts", "IpAddr::V4(Ipv4Addr::UNSPECIFIED)", FOUR, SIX),
    SOCKET_FOUR, SOCKET_SIX, of_kinds("SocketAddr", "socket_parts", f"SocketAddr::V6({SOME_V6})", SOCKET_FOUR, SOCKET_SIX),
]


def nonzero(name):
    """A number other than 0, as the others are given."""
    bits, is_signed, portable = 64 if name[1:] == "size" else int(name[1:]), name[0] == "i", "false" if name[1:] == "size" else "true"
    zero = "(pos 0)" if is_signed else "0"
    laws = f"signed_read_laws w{bits} refl {portable} (lit≤ tt)" if is_signed else f"number_read_laws {bits // 8} {portable} (lit≤ tt)"
    made = f"NonZero{name.capitalize()}"
    return (made, name, f"IsNot {zero}", "is_zero", f"non_zero_{name}_get", f"one_number (λ v. v) {zero}", laws, f"{made}::MIN", f"Some({bits // 8})")


def of_made(template, entry):
    """The template, with what the words between `$` stand for."""
    words = dict(zip(["made", "parts", "makes", "text", "own", "once", "laws", "some", "size"], entry))
    words["relation"] = entry[2]
    words["makes"] = entry[2] if " " not in entry[2] else f"({entry[2]})"
    words["function"] = entry[4] if " " not in entry[4] else f"({entry[4]})"
    template = template.replace("$at_once$", (FLOATS_READ_AT_ONCE if entry in FLOATS else READ_ONE_BY_ONE).strip("\n"))
    template = template.replace("$written_at_once$", (FLOATS_WRITTEN_AT_ONCE if entry in FLOATS else WRITTEN_ONE_BY_ONE).strip("\n"))
    words["R"], words["W"] = f"⟦<{entry[1]} as SchemaRead<L>>⟧", f"⟦<{entry[1]} as SchemaWrite>⟧"
    if entry == SOCKET_SIX:
        template = unscoped(template)
    elif entry[0] == "SocketAddr":
        template = template.replace(NO_LIMIT, OF_KIND_LIMIT)
    return re.sub(r"\$(\w+)\$", lambda it: words[it[1]], template)


def unscoped(template):
    """The template, for an address of which a part isn't written."""
    written = "$relation$ (socket_v6_written x) (socket_v6_written x) × $W$.is_valid (socket_v6_written x)"
    laws = "unscoped_write_laws $W$.model $function$ socket_v6_written (λ y c. c) $W$.write_laws"
    return (
        template.replace(NO_LIMIT, UNSCOPED_LIMIT)
        .replace("$relation$ ($own$ x) ($own$ x) × $W$.is_valid ($own$ x)", written)
        .replace("{ reference_write $W$.writing }", "{ unscoped_write (reference_write $W$.writing) }")
        .replace("made_write_laws (λ x. $relation$ ($own$ x) ($own$ x)) $function$ $W$.write_laws", laws)
    )


# What it is read back by, where every number is within its limits.
def back_of(parts):
    if parts[0] in "ui":
        bits, portable = (64, "false") if parts[1:] == "size" else (int(parts[1:]), "true")
        return f"signed_reads_back w{bits} {portable}" if parts[0] == "i" else f"number_reads_back {bits // 8} {portable}"
    if parts[0] == "[":
        return f"windowed_reads_back (array_reads_back {parts[5:-1]} (λ v. v < 256 ^ 1) (λ v. v) (number_write 1 true) (λ v. v) (number_read 1 true) (number_reads_back 1 true))"
    if parts[0] == "(":
        first, second = parts[1:-1].split(", ")
        return f"reads_back_by (λ t. (t.0, t.1)) (windowed_reads_back (pair_reads_back ({back_of(first)}) ({back_of(second)})))"
    entries = sides_of(parts)
    written, read = [f"⟦<{it[0]} as SchemaWrite>⟧" for it in entries], [f"⟦<{it[0]} as SchemaRead<L>>⟧" for it in entries]
    grammars = " ".join(f"{w}.model {w}.writing {r}.model {r}.reading" for w, r in zip(written, read))
    backs = " ".join(f"({same_back(it)})" for it in entries)
    return f"result_reads_back 4 {written[0]}.is_valid {written[1]}.is_valid {grammars} {backs}"


def same_back(entry):
    """What an address is read back by, which makes itself."""
    see, back = f"⟦<{entry[1]} as SchemaRead<L>>⟧.model", back_of(entry[1])
    if entry == SOCKET_SIX:
        return f"unscoped_reads_back {see} {entry[4]} socket_v6_written [] (λ y p small. (p.0, small)) (λ b v r. r.3.0) ({back})"
    return f"same_reads_back {see} [] {entry[4]} ({back})"


def one_text_of(parts):
    """That the parts have one text."""
    if parts[0] in "ui":
        bits, portable = (64, "false") if parts[1:] == "size" else (int(parts[1:]), "true")
        return f"signed_one_text w{bits} {portable}" if parts[0] == "i" else f"number_one_text {bits // 8} {portable}"
    if parts[0] == "[":
        return f"windowed_one_text (array_one_text {parts[5:-1]} (number_one_text 1 true))"
    if parts[0] == "(":
        first, second = parts[1:-1].split(", ")
        return f"windowed_one_text (pair_one_text ({one_text_of(first)}) ({one_text_of(second)}))"
    return "result_one_text 4 " + " ".join(f"({made_text_of(it)})" for it in sides_of(parts))


def made_text_of(entry):
    """That what is made of parts has one text."""
    see, makes = f"⟦<{entry[1]} as SchemaRead<L>>⟧.model", entry[2]
    apart = f"same_apart {see}" if makes == "IsSame" else f"numbers_apart {see} {makes[len('IsNot '):]}"
    relation = makes if " " not in makes else f"({makes})"
    return f"made_one_text {see} {relation} {entry[3]} ({apart}) ({one_text_of(entry[1])})"


def sides_of(parts):
    return (FOUR, SIX) if parts == "Result<Ipv4Addr, Ipv6Addr>" else (SOCKET_FOUR, SOCKET_SIX)


def marked(entry):
    """What it keeps beyond reading and writing."""
    made, parts, makes, text, own = entry[:5]
    see, back = f"⟦<{parts} as SchemaRead<L>>⟧.model", back_of(parts)
    is_same, relation = makes == "IsSame", makes if " " not in makes else f"({makes})"
    own = own if " " not in own else f"({own})"
    fits = "(tt, tt)" if parts[0] == "(" else "tt"
    reads_back = same_back(entry) if is_same else f"made_reads_back {see} {relation} {text} {own} (λ b p q r m. {fits}) ({back})"
    text_of = ""
    if is_same or makes.startswith("IsNot"):
        text_of = f"""
impl<L: Lending> OneText<L> for {made} {{
    ghost one_text = {{ {made_text_of(entry)} }};
}}
"""
    return f"""{text_of}
impl<L: Lending> SchemaReadOwned<L> for {made} {{
    ghost owned = {{ refl }};
}}

impl<L: Lending> RoundTrip<L> for {made} {{
    ghost reads_back = {{ {reads_back} }};
}}
"""


STD_MARKER_USES = f"""what numbers other than 0, floats, times, addresses and what is as what it holds keep beyond reading and writing.
ghost use Rattle.std.specs.Int.{{w8, w16, w32, w64, w128}};
ghost use Rattle.std.specs.Int.NonZero.{{NONZERO_NAMES}};
ghost use Rattle.std.specs.Net.Addr.{{ipv4_octets, ipv6_octets}};
ghost use Rattle.std.specs.Prelude.{{[], ◌<◌, ◌^◌, false, pos, refl, to_bits, true}};
ghost use Rattle.std.specs.Range.{{range_inclusive_end, range_inclusive_start}};
ghost use Rattle.wincode_base.specs.ArrayLaws.{{array_reads_back}};
ghost use Rattle.wincode_base.specs.LeafLaws.{{number_reads_back, signed_reads_back}};
ghost use Rattle.wincode_base.specs.Leaves.{{number_read, number_write}};
ghost use Rattle.wincode_base.specs.Made.{{AreBits, AreTime, IsNot, IsSame, clock_parts, duration_parts, ip_parts, is_overflow, is_zero, socket_parts, socket_v4_parts, socket_v6_parts, socket_v6_written}};
ghost use Rattle.wincode_base.specs.MadeLaws.{{made_reads_back, same_reads_back}};
ghost use Rattle.wincode_base.specs.SocketLaws.{{unscoped_reads_back}};
ghost use Rattle.wincode_base.specs.PairLaws.{{pair_reads_back, reads_back_by, windowed_reads_back}};
ghost use Rattle.wincode_base.specs.TagLaws.{{result_reads_back}};
ghost use Rattle.wincode.specs.OneTextLaws.{{array_one_text, both_owned, made_one_text, number_one_text, numbers_apart, pair_one_text, result_one_text, same_apart, signed_one_text, windowed_one_text}};
ghost use lib.Ieee.{{binary32, binary64}};

use crate::io::Lending;
use crate::markers::{{OneText, RoundTrip, SchemaReadOwned}};
use crate::schema::{{SchemaRead, SchemaWrite}};
use std::cmp::Reverse;
use std::net::{{IpAddr, Ipv4Addr, Ipv6Addr, SocketAddr, SocketAddrV4, SocketAddrV6}};
use std::num::{{NONZERO_TYPES, Saturating, Wrapping}};
use std::ops::{{Range, RangeFrom, RangeInclusive, RangeTo}};
use std::time::{{Duration, SystemTime}};
"""

WRAPPED_MARKERS = """
impl<L: Lending, T: OneText<L>> OneText<L> for $made$<T> {
    ghost one_text = { T.one_text };
}

impl<L: Lending, T: SchemaReadOwned<L>> SchemaReadOwned<L> for $made$<T> {
    ghost owned = { T.owned };
}

impl<L: Lending, T: RoundTrip<L>> RoundTrip<L> for $made$<T>
where
    T::Src: Drop,
{
    ghost reads_back = { reads_back_by (λ w. w.$field$) T.reads_back };
}
"""

RANGE_MARKERS = """
impl<L: Lending, T: OneText<L>> OneText<L> for $made$<T> {
    ghost one_text = { windowed_one_text (pair_one_text T.one_text T.one_text) };
}

impl<L: Lending, T: SchemaReadOwned<L>> SchemaReadOwned<L> for $made$<T> {
    ghost owned = { both_owned T.owned T.owned };
}

impl<L: Lending, T: RoundTrip<L>> RoundTrip<L> for $made$<T>
where
    T::Src: Drop,
{
    ghost reads_back = { reads_back_by (λ r. $seen$) (windowed_reads_back (pair_reads_back T.reads_back T.reads_back)) };
}
"""

NO_LIMIT = """    fn has_no_limits() -> bool {
        <$parts$ as Limited>::has_no_limits()
    }

    fn is_within(_src: &$made$) -> bool {
        true
    }
"""

UNSCOPED_LIMIT = """    /// An address reads back that has no flow label and no scope, since neither is written.
    fn is_within(src: &$made$) -> bool {
        src.flowinfo() == 0 && src.scope_id() == 0
    }
"""

OF_KIND_LIMIT = """    fn is_within(src: &$made$) -> bool {
        match src {
            SocketAddr::V4(_) => true,
            SocketAddr::V6(address) => <SocketAddrV6 as Limited>::is_within(address),
        }
    }
"""

MADE_LIMITS = f"""
impl Limited for $made$ {{
    fn counts() -> usize {{
        <$parts$ as Limited>::counts()
    }}

{NO_LIMIT}}}
"""

WRAPPED_LIMITS = """
impl<T: Limited> Limited for $made$<T> {
    fn counts() -> usize {
        T::counts()
    }

    fn has_no_limits() -> bool {
        T::has_no_limits()
    }

    fn is_within(src: &Self::Src) -> bool {
        T::is_within(&src.$field$)
    }
}
"""

RANGE_LIMITS = """
impl<T: Limited> Limited for $made$<T> {
    fn counts() -> usize {
        <(T, T) as Limited>::counts()
    }

    fn has_no_limits() -> bool {
        T::has_no_limits()
    }

    fn is_within(src: &Self::Src) -> bool {
        T::is_within($start$) && T::is_within($end$)
    }
}
"""

STD_LIMIT_USES = f"""limits of numbers other than 0, floats, times and addresses, which have none but of a socket, and of what is as what it holds.
use crate::limits::Limited;
use std::cmp::Reverse;
use std::net::{{IpAddr, Ipv4Addr, Ipv6Addr, SocketAddr, SocketAddrV4, SocketAddrV6}};
use std::num::{{NONZERO_TYPES, Saturating, Wrapping}};
use std::ops::{{Range, RangeFrom, RangeInclusive, RangeTo}};
use std::time::{{Duration, SystemTime}};
"""

WRAPPED_KEYS = """
impl<L: Lending, T: Key<L>> Key<L> for $made$<T>
where
    T::Dst: Eq,
{
    ghost alike = { λ x y. T.alike x.0 y.0 };
}

impl<L: Lending, T: Told<L>> Told<L> for $made$<T> {
    ghost told = { T.told };
}
"""

NONZERO_KEYS = """
impl<L: Lending> Key<L> for $made$ {
    ghost alike = { λ x y. $alike$ ($own$ x) ($own$ y) };
}

impl<L: Lending> Told<L> for $made$ {
    ghost told = { $decidable$ };
}
"""

LAWFUL_KEYS = """
impl<L: Lending> LawfulKey<L> for $made$ {
    type Dst = $made$;

    ghost Value = { ⟦<$made$ as Lawful<L>>⟧.Value };

    ghost model = { ⟦<$made$ as Lawful<L>>⟧.model };

    ghost is_valid = { ⟦<$made$ as Lawful<L>>⟧.is_valid };

    ghost reading = { ⟦<$made$ as Lawful<L>>⟧.reading };

    ghost read_laws = { ⟦<$made$ as Lawful<L>>⟧.read_laws };

    ghost equal = { λ x y. $equal$ ($own$ x) ($own$ y) };

    ghost equivalence = { on_equiv $own$ $equiv$ };

    ghost alike = { λ x y. $alike$ ($own$ x) ($own$ y) };

    ghost order = { λ x y. $order$ ($own$ x) ($own$ y) };

    ghost order_total = { on_total $own$ $total$ };

    ghost order_ties = { λ x y. $ties$ };
}
"""
LAWFUL_KEY_WORDS = ["made", "own", "equal", "equiv", "alike", "order", "total", "ties"]
LIST_KEY = ["slice_cmp nat_cmp", "nat_list_cmp_total"]
LAWFUL_ADDRESSES = [
    (made, own, "pointwise nat_eq", "nat_list_eq_equiv", alike, *LIST_KEY, f"texts_ties ({own} x) ({own} y)")
    for made, own, alike in [("Ipv4Addr", "ipv4_octets", "items_alike nat_alike"), ("Ipv6Addr", "ipv6_segments", "segments_alike")]
]

STD_LAWFUL_KEY_USES = """what a map or a set asks of keys that are numbers other than 0, or addresses.
ghost use Rattle.std.specs.Cmp.{on_equiv, on_total, nat_eq_equiv, nat_cmp_total, unsigned_ties, int_eq_equiv, int_cmp_total};
ghost use Rattle.std.specs.Cmp.Lexicographic.{pointwise, slice_cmp, nat_list_eq_equiv, nat_list_cmp_total, texts_ties};
ghost use Rattle.std.specs.Int.NonZero.{NONZERO_NAMES};
ghost use Rattle.std.specs.Net.Addr.{ipv4_octets, ipv6_segments};
ghost use Rattle.std.specs.Ordering.{nat_cmp, int_cmp, int_eq};
ghost use Rattle.std.specs.Prelude.{nat_eq, refl};
ghost use Rattle.wincode_base.specs.AddressLaws.{segments_alike};
ghost use Rattle.wincode_base.specs.KeyLaws.{nat_alike, int_alike, items_alike};

use crate::keys::LawfulKey;
use crate::laws::Lawful;
use std::net::{Ipv4Addr, Ipv6Addr};
use std::num::{NONZERO_TYPES};
use wincode::io::Lending;
"""

STD_KEY_USES = f"""keys of maps and items of heaps that are numbers other than 0, addresses, or what is as the value that it holds.
ghost use Rattle.std.specs.Int.NonZero.{{NONZERO_NAMES}};
ghost use Rattle.std.specs.Net.Addr.{{ipv4_octets, ipv6_segments}};
ghost use Rattle.wincode_base.specs.AddressLaws.{{segments_alike}};
ghost use Rattle.wincode_base.specs.KeyLaws.{{int_alike, int_decidable, items_alike, items_decidable, nat_alike, nat_decidable, pair_alike, pair_decidable}};
ghost use Rattle.wincode_base.specs.Made.{{socket_v4_parts}};

use crate::keys::{{Key, Told}};
use std::cmp::Reverse;
use std::net::{{Ipv4Addr, Ipv6Addr, SocketAddrV4}};
use std::num::{{NONZERO_TYPES, Saturating, Wrapping}};
use wincode_io::Lending;
"""


MADE_LAWFUL = """
impl<L: Lending> Lawful<L> for $made$ {
    type Dst = $made$;

    ghost Value = { $R$.Value };

    ghost model = { λ x. $R$.model ($own$ x) };

    ghost is_valid = { IsMadeOf $R$.model $makes$ $R$.is_valid };

    ghost reading = { made_read $R$.model $makes$ $text$ $R$.reading };

    ghost read_laws = { made_read_laws $R$.model $makes$ $text$ $R$.reading ($once$) ($laws$) };
}
"""

WRAPPED_LAWFUL = """
impl<L: Lending, T: Lawful<L>> Lawful<L> for $made$<T> {
    type Dst = $made$<T::Dst>;

    ghost Value = { T.Value };

    ghost model = { λ w. T.model w.$field$ };

    ghost is_valid = { T.is_valid };

    ghost reading = { T.reading };

    ghost read_laws = { T.read_laws };
}
"""

RANGE_LAWFUL = """
impl<L: Lending, T: Lawful<L>> Lawful<L> for $made$<T> {
    type Dst = $made$<T::Dst>;

    ghost Value = { T.Value × T.Value };

    ghost model = { λ r. $parts_seen$ };

    ghost is_valid = { λ v. T.is_valid v.0 × T.is_valid v.1 };

    ghost reading = { windowed_read (pair_read T.reading T.reading) };

    ghost read_laws = { windowed_read_laws (pair_read_laws T.read_laws T.read_laws) };
}
"""


TEXT_LAWFUL = """
impl<L: Lending> Lawful<L> for $made$ {
    type Dst = $made$;

    ghost Value = { List ℕ };

    ghost model = { λ t. $seen$ t };

    ghost is_valid = { IsUtf8 };

    ghost reading = { $reading$ };

    ghost read_laws = { $laws$ };
}
"""

STD_LAW_USES = f"""the laws of reading numbers other than 0, floats, times, addresses, texts and what is as what it holds.
ghost use Rattle.std.proofs.Common.{{lit≤}};
ghost use Rattle.std.specs.Arc.{{arc_str_bytes}};
ghost use Rattle.std.specs.Box.{{boxed_str_bytes}};
ghost use Rattle.std.specs.Int.{{w8, w16, w32, w64, w128}};
ghost use Rattle.std.specs.Int.NonZero.{{NONZERO_NAMES}};
ghost use Rattle.std.specs.Net.Addr.{{ipv4_octets, ipv6_octets}};
ghost use Rattle.std.specs.Path.{{path_buf_bytes}};
ghost use Rattle.std.specs.Prelude.{{[], ◌<◌, ◌^◌, ℕ, IsUtf8, List, false, pos, refl, to_bits, true}};
ghost use Rattle.std.specs.Range.{{range_inclusive_end, range_inclusive_start}};
ghost use Rattle.std.specs.Rc.{{rc_str_bytes}};
ghost use Rattle.wincode_base.specs.ArrayLaws.{{array_read_laws}};
ghost use Rattle.wincode_base.specs.Boxed.{{boxed_read}};
ghost use Rattle.wincode_base.specs.BoxedLaws.{{boxed_read_laws}};
ghost use Rattle.wincode_base.specs.InWindow.{{windowed_read}};
ghost use Rattle.wincode_base.specs.LeafLaws.{{number_read_laws, signed_read_laws}};
ghost use Rattle.wincode_base.specs.Leaves.{{number_read}};
ghost use Rattle.wincode_base.specs.Made.{{AreBits, AreTime, IsMadeOf, IsNot, IsSame, clock_parts, duration_parts, ip_parts, is_overflow, is_zero, made_read, socket_parts, socket_v4_parts, socket_v6_parts}};
ghost use Rattle.wincode_base.specs.MadeLaws.{{made_read_laws, one_float, one_number, one_same, one_time}};
ghost use Rattle.wincode_base.specs.PairLaws.{{pair_read_laws, windowed_read_laws}};
ghost use Rattle.wincode_base.specs.Pairs.{{pair_read}};
ghost use Rattle.wincode_base.specs.StringLaws.{{str_read_laws}};
ghost use Rattle.wincode_base.specs.Strings.{{str_read}};
ghost use Rattle.wincode_base.specs.TagLaws.{{result_read_laws}};
ghost use lib.Ieee.{{binary32, binary64}};

use crate::laws::Lawful;
use std::boxed::BoxedStr;
use std::cmp::Reverse;
use std::net::{{IpAddr, Ipv4Addr, Ipv6Addr, SocketAddr, SocketAddrV4, SocketAddrV6}};
use std::num::{{NONZERO_TYPES, Saturating, Wrapping}};
use std::ops::{{Range, RangeFrom, RangeInclusive, RangeTo}};
use std::path::PathBuf;
use std::rc::RcStr;
use std::sync::{{Arc, ArcStr}};
use std::time::{{Duration, SystemTime}};
use wincode::SchemaRead;
use wincode::io::Lending;

impl<L: Lending, T: Lawful<L>> Lawful<L> for Arc<T> {{
    type Dst = Arc<T::Dst>;

    ghost Value = {{ T.Value }};

    ghost model = {{ λ held. T.model held.value }};

    ghost is_valid = {{ T.is_valid }};

    ghost reading = {{ boxed_read T.reading }};

    ghost read_laws = {{ boxed_read_laws T.is_valid T.reading T.read_laws }};
}}
"""


def lawful_texts():
    """The laws of texts."""
    plain, laws = "str_read 24 0 false", "str_read_laws 24 0 false (lit≤ tt)"
    all_texts = [(it[0], it[1], plain, laws) for it in TEXTS] + [(made, seen, f"boxed_read ({plain})", f"boxed_read_laws IsUtf8 ({plain}) ({laws})") for made, seen in SHARED_TEXTS]
    return "".join(of_words(TEXT_LAWFUL, ["made", "seen", "reading", "laws"], it) for it in all_texts)


def nonzero_keys(entry):
    kind = "int" if entry[1][0] == "i" else "nat"
    return of_words(NONZERO_KEYS, ["made", "own", "alike", "decidable"], (entry[0], entry[4], f"{kind}_alike", f"{kind}_decidable"))


# Addresses that are their octets, or these and a port: of those of sockets of version 6 not all is written.
ADDRESS_KEYS = [
    ("Ipv4Addr", "items_alike nat_alike (ipv4_octets x) (ipv4_octets y)", "items_decidable nat_decidable"),
    ("Ipv6Addr", "segments_alike (ipv6_segments x) (ipv6_segments y)", "items_decidable nat_decidable"),
    ("SocketAddrV4", "pair_alike (items_alike nat_alike) nat_alike (socket_v4_parts x) (socket_v4_parts y)", "pair_decidable (items_decidable nat_decidable) nat_decidable"),
]

MADE_KEYS = """
impl<L: Lending> Key<L> for $made$ {
    ghost alike = { λ x y. $alike$ };
}

impl<L: Lending> Told<L> for $made$ {
    ghost told = { $told$ };
}
"""


def lawful_keys(numbers):
    """What maps ask of keys, as data."""
    entries = []
    for made, name, _, _, own, *_ in numbers:
        kind = "int" if name[0] == "i" else "nat"
        ties = "refl" if kind == "int" else f"unsigned_ties ({own} x) ({own} y)"
        entries.append((made, own, f"{kind}_eq", f"{kind}_eq_equiv", f"{kind}_alike", f"{kind}_cmp", f"{kind}_cmp_total", ties))
    return "".join(of_words(LAWFUL_KEYS, LAWFUL_KEY_WORDS, it) for it in entries + LAWFUL_ADDRESSES)


NONZERO_FROM_PARTS = """
impl<L: Lending> FromParts<L, $parts$> for $made$ {
    ghost parts = { $own$ };

    ghost made = { $relation$ };

    ghost text = { $text$ };

    fn from_parts(of: $parts$) -> ReadResult<$made$> {
        match $made$::new(of) {
            Some(number) => Ok(number),
            None => Err(ReadError::Custom("zero")),
        }
    }
}
"""

READ_ONE_BY_ONE = """
    #[inline(always)]
    fn read_at_once<R: Reader<L>>(alloc: Global, reader: &mut R, n: usize, into: &mut Vec<Self::Dst>) -> Option<ReadResult<()>> {
        let _ = (alloc, n);
        let _ = &*reader;
        let _ = &*into;
        None
    }
"""

# Of floats at hand no number is refused, so they are read in one pass.
FLOATS_READ_AT_ONCE = """
    fn read_at_once<R: Reader<L>>(_alloc: Global, reader: &mut R, n: usize, into: &mut Vec<Self::Dst>) -> Option<ReadResult<()>> {
        if add_floats::<L, $parts$, $made$, R>(reader, n, into) { Some(Ok(())) } else { None }
    }
"""

WRITTEN_ONE_BY_ONE = """
    #[inline(always)]
    fn write_at_once<W: Writer>(writer: &mut W, items: &[Self::Src]) -> Option<WriteResult<()>> {
        let _ = &*writer;
        let _items = items.len();
        None
    }
"""

FLOATS_WRITTEN_AT_ONCE = """
    fn write_at_once<W: Writer>(writer: &mut W, items: &[$made$]) -> Option<WriteResult<()>> {
        let mut block = [0; RUN];
        write_made_at_once::<$parts$, $made$, W>(writer, items, &mut block)
    }
"""

NONZERO_TO_PARTS = """
impl ToParts<$parts$> for $made$ {
    ghost parts = { $own$ };

    ghost sound = { λ x. $relation$ ($own$ x) ($own$ x) };

    fn to_parts(&self) -> $parts$ {
        self.get()
    }
}
"""

MADE_READS = """
impl<L: Lending> SchemaRead<L> for $made$ {
    type Dst = $made$;

    ghost Value = { $R$.Value };

    ghost model = { λ x. $R$.model ($own$ x) };

    ghost is_valid = { IsMadeOf $R$.model $makes$ $R$.is_valid };

    ghost reading = { made_read $R$.model $makes$ $text$ $R$.reading };

    fn type_meta() -> TypeMeta {
        reference_meta(<$parts$ as SchemaRead<L>>::type_meta())
    }

    fn prealloc_size() -> usize {
        <$parts$ as SchemaRead<L>>::prealloc_size()
    }

    fn read<R: Reader<L>>(alloc: Global, reader: &mut R, dst: &mut Option<$made$>) -> ReadResult<()> {
        read_made::<L, $parts$, $made$, R>(alloc, reader, dst)
    }

$at_once$
    #[inline(always)]
    fn blank() -> Option<$made$> {
        Some($some$)
    }

    #[inline(always)]
    fn decode(bytes: &[u8], place: &mut $made$) -> bool {
        decode_made::<L, $parts$, $made$>(bytes, place)
    }

    ghost read_laws = { made_read_laws $R$.model $makes$ $text$ $R$.reading ($once$) ($laws$) };
}
"""

MADE_WRITES = """
impl SchemaWrite for $made$ {
    type Src = $made$;

    ghost Value = { $W$.Value };

    ghost model = { λ x. $W$.model ($own$ x) };

    ghost is_valid = { λ x. $relation$ ($own$ x) ($own$ x) × $W$.is_valid ($own$ x) };

    ghost writing = { reference_write $W$.writing };

    fn type_meta() -> TypeMeta {
        reference_meta(<$parts$ as SchemaWrite>::type_meta())
    }

    fn size_of(src: &$made$) -> WriteResult<usize> {
        size_of_made::<$parts$, $made$>(src)
    }

    fn write<W: Writer>(writer: &mut W, src: &$made$) -> WriteResult<()> {
        write_made::<$parts$, $made$, W>(writer, src)
    }

    #[inline(always)]
    fn known_size() -> Option<usize> {
        $size$
    }

    #[inline(always)]
    fn encode_front(src: &$made$, dst: &mut [u8]) -> Option<usize> {
        encode_made::<$parts$, $made$>(src, dst)
    }

$written_at_once$

    ghost write_laws = { made_write_laws (λ x. $relation$ ($own$ x) ($own$ x)) $function$ $W$.write_laws };
}
"""

NONZERO_NAMES = ", ".join(f"non_zero_{it}_get" for it in EVERY_INTEGER)
# As `rt fmt` orders them.
NONZERO_TYPES = ", ".join(f"NonZero{it.capitalize()}" for it in EVERY_INTEGER[6:] + EVERY_INTEGER[:6])

NONZERO_READ_USES = f"""numbers other than 0.
ghost use Rattle.std.proofs.Common.{{lit≤}};
ghost use Rattle.std.specs.Int.{{w8, w16, w32, w64, w128}};
ghost use Rattle.std.specs.Int.NonZero.{{{NONZERO_NAMES}}};
ghost use Rattle.std.specs.Prelude.{{false, pos, refl, true}};
ghost use Rattle.wincode_base.specs.LeafLaws.{{number_read_laws, signed_read_laws}};
ghost use Rattle.wincode_base.specs.Made.{{IsMadeOf, IsNot, is_zero, made_read}};
ghost use Rattle.wincode_base.specs.MadeLaws.{{made_read_laws, one_number}};

use crate::schema::SchemaRead;
use crate::schema::made::{{FromParts, decode_made, read_made}};
use std::alloc::Global;
use std::num::{{{NONZERO_TYPES}}};
use wincode_base::error::{{ReadError, ReadResult}};
use wincode_base::meta::TypeMeta;
use wincode_base::sizes::reference_meta;
use wincode_io::{{Lending, Reader}};
"""

NONZERO_WRITE_USES = f"""numbers other than 0.
ghost use Rattle.std.specs.Int.NonZero.{{{NONZERO_NAMES}}};
ghost use Rattle.std.specs.Prelude.{{pos}};
ghost use Rattle.wincode_base.specs.Made.{{IsNot}};
ghost use Rattle.wincode_base.specs.MadeLaws.{{made_write_laws}};
ghost use Rattle.wincode_base.specs.Strings.{{reference_write}};

use crate::schema::SchemaWrite;
use crate::schema::made::{{ToParts, encode_made, size_of_made, write_made}};
use std::num::{{{NONZERO_TYPES}}};
use wincode_base::error::WriteResult;
use wincode_base::meta::TypeMeta;
use wincode_base::sizes::reference_meta;
use wincode_io::Writer;
"""

MADE_READ_USES = """schemas of floats, of times and of addresses.
ghost use Rattle.std.proofs.Common.{lit≤};
ghost use Rattle.std.specs.Net.Addr.{ipv4_octets, ipv6_octets};
ghost use Rattle.std.specs.Prelude.{[], ◌<◌, ◌^◌, to_bits, true};
ghost use Rattle.wincode_base.specs.ArrayLaws.{array_read_laws};
ghost use Rattle.wincode_base.specs.LeafLaws.{number_read_laws};
ghost use Rattle.wincode_base.specs.Leaves.{number_read};
ghost use Rattle.wincode_base.specs.Made.{AreBits, AreTime, IsMadeOf, IsSame, clock_parts, duration_parts, ip_parts, is_overflow, made_read, socket_parts, socket_v4_parts, socket_v6_parts};
ghost use Rattle.wincode_base.specs.MadeLaws.{made_read_laws, one_float, one_same, one_time};
ghost use Rattle.wincode_base.specs.PairLaws.{pair_read_laws, windowed_read_laws};
ghost use Rattle.wincode_base.specs.TagLaws.{result_read_laws};
ghost use lib.Ieee.{binary32, binary64};

use crate::schema::SchemaRead;
use crate::schema::made::floats::add_floats;
use crate::schema::made::{decode_made, read_made};
use std::alloc::Global;
use std::net::{IpAddr, Ipv4Addr, Ipv6Addr, SocketAddr, SocketAddrV4, SocketAddrV6};
use std::time::{Duration, SystemTime, UNIX_EPOCH};
use wincode_base::error::ReadResult;
use wincode_base::meta::TypeMeta;
use wincode_base::sizes::reference_meta;
use wincode_io::{Lending, Reader};
"""

MADE_WRITE_USES = """schemas of floats, of times and of addresses.
ghost use Rattle.std.specs.Net.Addr.{ipv4_octets, ipv6_octets};
ghost use Rattle.std.specs.Prelude.{◌^◌, to_bits};
ghost use Rattle.wincode_base.specs.Made.{AreBits, AreTime, IsSame, clock_parts, duration_parts, ip_parts, socket_parts, socket_v4_parts, socket_v6_parts, socket_v6_written, unscoped_write};
ghost use Rattle.wincode_base.specs.MadeLaws.{made_write_laws};
ghost use Rattle.wincode_base.specs.SocketLaws.{unscoped_write_laws};
ghost use Rattle.wincode_base.specs.Strings.{reference_write};
ghost use lib.Ieee.{binary32, binary64};

use crate::schema::SchemaWrite;
use crate::schema::made::runs::{RUN, write_made_at_once};
use crate::schema::made::{encode_made, size_of_made, write_made};
use std::net::{IpAddr, Ipv4Addr, Ipv6Addr, SocketAddr, SocketAddrV4, SocketAddrV6};
use std::time::{Duration, SystemTime};
use wincode_base::error::WriteResult;
use wincode_base::meta::TypeMeta;
use wincode_base::sizes::reference_meta;
use wincode_io::Writer;
"""


# ---- a value with another order or another arithmetic, and ranges: as what they hold

# Each with the values that it holds, as fields or calls, what contracts see of them, and how it is made of `value`, or of
# `start` and `end`.
WRAPPED = [
    ("Wrapping", "0", "Wrapping(value)"),
    ("Saturating", "0", "Saturating(value)"),
    ("Reverse", "0", "Reverse(value)"),
    ("RangeFrom", "start", "RangeFrom { start: value }"),
    ("RangeTo", "end", "RangeTo { end: value }"),
]
RANGES = [
    ("Range", "&src.start", "&src.end", "(r.start, r.end)", "Range { start, end }", "(T.model r.start, T.model r.end)"),
    ("RangeInclusive", "src.start()", "src.end()", "(range_inclusive_start r, range_inclusive_end r)", "RangeInclusive::new(start, end)",
        "(T.model (range_inclusive_start r), T.model (range_inclusive_end r))"),
]


# What isn't decoded over plain bytes.
NOT_DECODED = """
    #[inline(always)]
    fn blank() -> Option<Self::Dst> {
        None
    }

    #[inline(always)]
    fn decode(bytes: &[u8], place: &mut Self::Dst) -> bool {
        let _ = bytes.len();
        let _ = &*place;
        false
    }
"""


def of_words(template, names, entry):
    idle = {"at_once": READ_ONE_BY_ONE, "written_at_once": WRITTEN_ONE_BY_ONE, "not_decoded": NOT_DECODED}
    words = {name: text.strip("\n") for name, text in idle.items()} | dict(zip(names, entry))
    return re.sub(r"\$(\w+)\$", lambda it: words[it[1]], template)


def wrapped(template):
    return "".join(of_words(template, ["made", "field", "make"], it) for it in WRAPPED)


def ranges(template):
    return "".join(of_words(template, ["made", "start", "end", "seen", "make", "parts_seen"], it) for it in RANGES)


WRAPPED_READS = """
impl<L: Lending, T: SchemaRead<L>> SchemaRead<L> for $made$<T> {
    type Dst = $made$<T::Dst>;

    ghost Value = { T.Value };

    ghost model = { λ w. T.model w.$field$ };

    ghost is_valid = { T.is_valid };

    ghost reading = { T.reading };

    fn type_meta() -> TypeMeta {
        T::type_meta()
    }

    fn prealloc_size() -> usize {
        T::prealloc_size()
    }

    fn read<R: Reader<L>>(alloc: Global, reader: &mut R, dst: &mut Option<Self::Dst>) -> ReadResult<()> {
        let value = T::get(alloc, reader)?;
        *dst = Some($make$);
        Ok(())
    }

$at_once$

    #[inline(always)]
    fn blank() -> Option<Self::Dst> {
        let value = T::blank()?;
        Some($make$)
    }

    #[inline(always)]
    fn decode(bytes: &[u8], place: &mut Self::Dst) -> bool {
        T::decode(bytes, &mut place.$field$)
    }

    ghost read_laws = { T.read_laws };
}
"""

RANGE_READS = """
impl<L: Lending, T: SchemaRead<L>> SchemaRead<L> for $made$<T> {
    type Dst = $made$<T::Dst>;

    ghost Value = { T.Value × T.Value };

    ghost model = { λ r. ⟦<(T, T) as SchemaRead<L>>⟧.model $seen$ };

    ghost is_valid = { ⟦<(T, T) as SchemaRead<L>>⟧.is_valid };

    ghost reading = { ⟦<(T, T) as SchemaRead<L>>⟧.reading };

    fn type_meta() -> TypeMeta {
        <(T, T) as SchemaRead<L>>::type_meta()
    }

    fn prealloc_size() -> usize {
        <(T, T) as SchemaRead<L>>::prealloc_size()
    }

    fn read<R: Reader<L>>(alloc: Global, reader: &mut R, dst: &mut Option<Self::Dst>) -> ReadResult<()> {
        let (start, end) = <(T, T) as SchemaGet<L>>::get(alloc, reader)?;
        *dst = Some($make$);
        Ok(())
    }

$at_once$

    #[inline(always)]
    fn blank() -> Option<Self::Dst> {
        let (start, end) = <(T, T) as SchemaRead<L>>::blank()?;
        Some($make$)
    }

    #[inline(always)]
    fn decode(bytes: &[u8], place: &mut Self::Dst) -> bool {
        let Some((start, end)) = decoded::<L, (T, T)>(bytes) else {
            return false;
        };
        *place = $make$;
        true
    }

    ghost read_laws = { windowed_read_laws (pair_read_laws T.read_laws T.read_laws) };
}
"""

WRAPPED_WRITES = """
impl<T: SchemaWrite> SchemaWrite for $made$<T> {
    type Src = $made$<T::Src>;

    ghost Value = { T.Value };

    ghost model = { λ w. T.model w.$field$ };

    ghost is_valid = { λ w. T.is_valid w.$field$ };

    ghost writing = { T.writing };

    fn type_meta() -> TypeMeta {
        T::type_meta()
    }

    fn size_of(src: &Self::Src) -> WriteResult<usize> {
        T::size_of(&src.$field$)
    }

    fn write<W: Writer>(writer: &mut W, src: &Self::Src) -> WriteResult<()> {
        T::write::<W>(writer, &src.$field$)
    }

    #[inline(always)]
    fn encode_front(src: &Self::Src, dst: &mut [u8]) -> Option<usize> {
        T::encode_front(&src.$field$, dst)
    }

$written_at_once$

    #[inline(always)]
    fn known_size() -> Option<usize> {
        T::known_size()
    }

    ghost write_laws = { write_laws_by (λ w. w.$field$) T.write_laws };
}
"""

RANGE_WRITES = """
impl<T: SchemaWrite> SchemaWrite for $made$<T> {
    type Src = $made$<T::Src>;

    ghost Value = { T.Value × T.Value };

    ghost model = { λ r. ⟦<(T, T) as SchemaWrite>⟧.model $seen$ };

    ghost is_valid = { λ r. ⟦<(T, T) as SchemaWrite>⟧.is_valid $seen$ };

    ghost writing = { ⟦<(T, T) as SchemaWrite>⟧.writing };

    fn type_meta() -> TypeMeta {
        <(T, T) as SchemaWrite>::type_meta()
    }

    fn size_of(src: &Self::Src) -> WriteResult<usize> {
        size_of_members_2::<T, T>($start$, $end$)
    }

    fn write<W: Writer>(writer: &mut W, src: &Self::Src) -> WriteResult<()> {
        write_members_2::<T, T, W>(writer, $start$, $end$)
    }

    #[inline(always)]
    fn encode_front(src: &Self::Src, dst: &mut [u8]) -> Option<usize> {
        encode_front_members_2::<T, T>($start$, $end$, dst)
    }

$written_at_once$

    #[inline(always)]
    fn known_size() -> Option<usize> {
        None
    }

    ghost write_laws = { write_laws_by (λ r. $seen$) ⟦<(T, T) as SchemaWrite>⟧.write_laws };
}
"""

WRAPPED_READ_USES = """what is read as the values that it holds: those with another order or another arithmetic, and ranges.
ghost use Rattle.std.specs.Range.{range_inclusive_end, range_inclusive_start};
ghost use Rattle.wincode_base.specs.PairLaws.{pair_read_laws, windowed_read_laws};

use crate::schema::at_hand::decoded;
use crate::schema::{SchemaGet, SchemaRead};
use std::alloc::Global;
use std::cmp::Reverse;
use std::num::{Saturating, Wrapping};
use std::ops::{Range, RangeFrom, RangeInclusive, RangeTo};
use wincode_base::error::ReadResult;
use wincode_base::meta::TypeMeta;
use wincode_io::{Lending, Reader};
"""

WRAPPED_WRITE_USES = """what is written as the values that it holds: those with another order or another arithmetic, and ranges.
ghost use Rattle.std.specs.Range.{range_inclusive_end, range_inclusive_start};
ghost use Rattle.wincode_base.specs.PairLaws.{write_laws_by};

use crate::schema::SchemaWrite;
use crate::schema::tuples::{encode_front_members_2, size_of_members_2, write_members_2};
use std::cmp::Reverse;
use std::num::{Saturating, Wrapping};
use std::ops::{Range, RangeFrom, RangeInclusive, RangeTo};
use wincode_base::error::WriteResult;
use wincode_base::meta::TypeMeta;
use wincode_io::Writer;
"""


# ---- texts, which are read and written as a `String`: with what contracts see of them, how they lend the text, and how
# they are made of it. Those that are shared take memory of their own.
TEXTS = [
    ("BoxedStr", "boxed_str_bytes", "src.as_str()", "text.into_boxed_str()"),
    ("PathBuf", "path_buf_bytes", "src.to_string_lossy()", "PathBuf::from(text)"),
]
SHARED_TEXTS = [("RcStr", "rc_str_bytes"), ("ArcStr", "arc_str_bytes")]

TEXT_READS = """
impl<L: Lending> SchemaRead<L> for $made$ {
    type Dst = $made$;

    ghost Value = { List ℕ };

    ghost model = { λ t. $seen$ t };

    ghost is_valid = { IsUtf8 };

    ghost reading = { str_read 24 0 false };

    fn type_meta() -> TypeMeta {
        TypeMeta::Dynamic
    }

    fn prealloc_size() -> usize {
        24
    }

    fn read<R: Reader<L>>(alloc: Global, reader: &mut R, dst: &mut Option<$made$>) -> ReadResult<()> {
        let text = <String as SchemaGet<L>>::get(alloc, reader)?;
        *dst = Some($make$);
        Ok(())
    }

$at_once$

$not_decoded$

    ghost read_laws = { str_read_laws 24 0 false (lit≤ tt) };
}
"""

SHARED_TEXT_READS = """
impl<L: Lending> SchemaRead<L> for $made$ {
    type Dst = $made$;

    ghost Value = { List ℕ };

    ghost model = { λ t. $seen$ t };

    ghost is_valid = { IsUtf8 };

    ghost reading = { boxed_read (str_read 24 0 false) };

    fn type_meta() -> TypeMeta {
        TypeMeta::Dynamic
    }

    fn prealloc_size() -> usize {
        8
    }

    /// Memory is asked for once the text was read. Where there is none, it is `OutOfMemory`, and the text's bytes are
    /// gone.
    fn read<R: Reader<L>>(alloc: Global, reader: &mut R, dst: &mut Option<$made$>) -> ReadResult<()> {
        let text = <String as SchemaGet<L>>::get(alloc, reader)?;
        match $made$::from_string(text) {
            Ok(shared) => {
                *dst = Some(shared);
                Ok(())
            }
            Err(_) => Err(ReadError::OutOfMemory),
        }
    }

$at_once$

$not_decoded$

    ghost read_laws = { boxed_read_laws IsUtf8 (str_read 24 0 false) (str_read_laws 24 0 false (lit≤ tt)) };
}
"""

SHARED_TEXT_ANSWERS = """use Rattle.std.proofs.Common.{refl, inl}
use Rattle.wincode_base.specs.Sequences.{refuses_unspared}
use Rattle.wincode_base.proofs.ReadAnswers.{read_refused}
use Rattle.wincode_read.proofs.schema.strings.texts.$made$SchemaRead.read.Goals as goal

pub returns-in_err-text : goal.returns-in_err-text
returns-in_err-text g c =
    let o = c.in_err-text.ensures in
    read_refused _ _ _ _ _ _ c.from_residual.ensures refl (refuses_unspared o.refused.0, inl o.refused)

pub returns-in-Ok : goal.returns-in-Ok
returns-in-Ok g c = record { ok = rw c.in-Ok.ensures.ok c.in_ok-text.ensures.ok; refused = tt; same = tt }
"""

TEXT_WRITES = """
impl SchemaWrite for $made$ {
    type Src = $made$;

    ghost Value = { List ℕ };

    ghost model = { λ t. $seen$ t };

    ghost is_valid = { λ t. IsUtf8 ($seen$ t) };

    ghost writing = { $writing$ };

    fn type_meta() -> TypeMeta {
        TypeMeta::Dynamic
    }

    fn size_of(src: &Self::Src) -> WriteResult<usize> {
        checked_sum(8, $lend$.len())
    }

    fn write<W: Writer>(writer: &mut W, src: &Self::Src) -> WriteResult<()> {
        write_text::<W>(writer, $lend$)
    }

    #[inline(always)]
    fn encode_front(src: &Self::Src, dst: &mut [u8]) -> Option<usize> {
        encode_text($lend$, dst)
    }

$written_at_once$

    #[inline(always)]
    fn known_size() -> Option<usize> {
        None
    }

    ghost write_laws = { $laws$ };
}
"""

TEXT_READ_USES = """texts, which are read as a `String`.
ghost use Rattle.std.proofs.Common.{lit≤};
ghost use Rattle.std.specs.Arc.{arc_str_bytes};
ghost use Rattle.std.specs.Box.{boxed_str_bytes};
ghost use Rattle.std.specs.Path.{path_buf_bytes};
ghost use Rattle.std.specs.Prelude.{List, ℕ, IsUtf8, false};
ghost use Rattle.std.specs.Rc.{rc_str_bytes};
ghost use Rattle.wincode_base.specs.Boxed.{boxed_read};
ghost use Rattle.wincode_base.specs.BoxedLaws.{boxed_read_laws};
ghost use Rattle.wincode_base.specs.Strings.{str_read};
ghost use Rattle.wincode_base.specs.StringLaws.{str_read_laws};

use crate::schema::{SchemaGet, SchemaRead};
use std::alloc::Global;
use std::boxed::BoxedStr;
use std::path::PathBuf;
use std::rc::RcStr;
use std::sync::ArcStr;
use wincode_base::error::{ReadError, ReadResult};
use wincode_base::meta::TypeMeta;
use wincode_io::{Lending, Reader};
"""

TEXT_WRITE_USES = """texts, which are written as a `String`.
ghost use Rattle.std.specs.Arc.{arc_str_bytes};
ghost use Rattle.std.specs.Box.{boxed_str_bytes};
ghost use Rattle.std.specs.Path.{path_buf_bytes};
ghost use Rattle.std.specs.Prelude.{List, ℕ, IsUtf8};
ghost use Rattle.std.specs.Rc.{rc_str_bytes};
ghost use Rattle.wincode_base.specs.Boxed.{boxed_write};
ghost use Rattle.wincode_base.specs.BoxedLaws.{boxed_write_laws};
ghost use Rattle.wincode_base.specs.Strings.{str_write};
ghost use Rattle.wincode_base.specs.StringLaws.{str_write_laws};

use crate::schema::SchemaWrite;
use crate::schema::strings::{encode_text, write_text};
use std::boxed::BoxedStr;
use std::path::PathBuf;
use std::rc::RcStr;
use std::sync::ArcStr;
use wincode_base::error::WriteResult;
use wincode_base::meta::TypeMeta;
use wincode_base::sizes::checked_sum;
use wincode_io::Writer;
"""

TEXT_MARKERS = """
impl<L: Lending> OneText<L> for $made$ {
    ghost one_text = { $one_text$ };
}

impl<L: Lending> SchemaReadOwned<L> for $made$ {
    ghost owned = { refl };
}

impl<L: Lending> RoundTrip<L> for $made$ {
    ghost reads_back = { $back$ };
}
"""

TEXT_LIMITS = """
impl Limited for $made$ {
    fn counts() -> usize {
        $counts$
    }

    fn has_no_limits() -> bool {
        false
    }

    fn is_within(src: &$made$) -> bool {
        $lend$.len() <= PREALLOCATION_LIMIT
    }
}
"""

TEXT_MARKER_USES = """what texts keep beyond reading and writing.
ghost use Rattle.std.specs.Arc.{arc_str_bytes};
ghost use Rattle.std.specs.Box.{boxed_str_bytes};
ghost use Rattle.std.specs.Path.{path_buf_bytes};
ghost use Rattle.std.specs.Prelude.{IsUtf8, false, refl};
ghost use Rattle.std.specs.Rc.{rc_str_bytes};
ghost use Rattle.wincode_base.specs.BoxedLaws.{boxed_reads_back};
ghost use Rattle.wincode_base.specs.Strings.{str_read, str_write};
ghost use Rattle.wincode_base.specs.StringLaws.{str_reads_back};
ghost use Rattle.wincode.specs.OneTextLaws.{boxed_one_text, str_one_text};

use crate::io::Lending;
use crate::markers::{OneText, RoundTrip, SchemaReadOwned};
use std::boxed::BoxedStr;
use std::path::PathBuf;
use std::rc::RcStr;
use std::sync::ArcStr;
"""

TEXT_LIMIT_USES = """limits of texts.
use crate::len::PREALLOCATION_LIMIT;
use crate::limits::Limited;
use std::boxed::BoxedStr;
use std::path::PathBuf;
use std::rc::RcStr;
use std::sync::ArcStr;
"""


def text_files():
    """Each file of texts, and its text."""
    names = ["made", "seen", "lend", "make", "writing", "laws"]
    plain, boxed = "str_write_laws 24 (λ t. IsUtf8 ({0} t)) (λ t. {0} t)", "boxed_write_laws (λ b. IsUtf8 b) (λ b. b) (λ t. {0} t) (str_write 24) (str_write_laws 24 (λ b. IsUtf8 b) (λ b. b))"
    writes = [(*it, "str_write 24", plain.format(it[1])) for it in TEXTS]
    writes += [(made, seen, "src.as_str()", "", "boxed_write (str_write 24)", boxed.format(seen)) for made, seen in SHARED_TEXTS]
    made = {
        f"{READ}/src/schema/strings/texts.rt": HEAD + TEXT_READ_USES + "".join(of_words(TEXT_READS, names, it) for it in TEXTS)
        + "".join(of_words(SHARED_TEXT_READS, ["made", "seen"], it) for it in SHARED_TEXTS),
        f"{WRITE}/src/schema/strings/texts.rt": HEAD + TEXT_WRITE_USES + "".join(of_words(TEXT_WRITES, names, it) for it in writes),
    }
    back, held = "str_reads_back 24 0 false", "(λ b. IsUtf8 b) (λ b. b) (str_write 24) (λ b. b) (str_read 24 0 false) (str_reads_back 24 0 false (λ b. b))"
    kept = [(it[0], "str_one_text 24 0 false", f"{back} (λ t. {it[1]} t)", "24", it[2]) for it in TEXTS]
    kept += [(name, "boxed_one_text (str_one_text 24 0 false)", f"boxed_reads_back (λ t. {seen} t) {held}", "8", "src.as_str()") for name, seen in SHARED_TEXTS]
    for path, uses, template in [("markers", TEXT_MARKER_USES, TEXT_MARKERS), ("limits", TEXT_LIMIT_USES, TEXT_LIMITS)]:
        made[f"{ROOT}/src/{path}/texts.rt"] = HEAD + uses + "".join(of_words(template, ["made", "one_text", "back", "counts", "lend"], it) for it in kept)
    for name, seen in SHARED_TEXTS:
        made[f"{READ}/proofs/schema/strings/texts/{name}SchemaRead/read/Answers.antt"] = of_words(SHARED_TEXT_ANSWERS, ["made"], (name,))
    return made


def made_files():
    """Each file of what is made of parts, and its text."""
    numbers = [nonzero(it) for it in EVERY_INTEGER]
    others = FLOATS + TIMES + ADDRESSES
    return {
        f"{READ}/src/schema/made/nonzero.rt": HEAD + NONZERO_READ_USES + "".join(of_made(NONZERO_FROM_PARTS + MADE_READS, it) for it in numbers),
        f"{WRITE}/src/schema/made/nonzero.rt": HEAD + NONZERO_WRITE_USES + "".join(of_made(NONZERO_TO_PARTS + MADE_WRITES, it) for it in numbers),
        f"{ROOT}/src/markers/std_types.rt": HEAD + STD_MARKER_USES.replace("NONZERO_NAMES", NONZERO_NAMES).replace("NONZERO_TYPES", NONZERO_TYPES)
        + "".join(marked(it) for it in numbers + others) + wrapped(WRAPPED_MARKERS) + ranges(RANGE_MARKERS),
        f"{ROOT}/src/limits/std_types.rt": HEAD + STD_LIMIT_USES.replace("NONZERO_TYPES", NONZERO_TYPES)
        + "".join(of_made(MADE_LIMITS, it) for it in numbers + others) + wrapped(WRAPPED_LIMITS) + ranges(RANGE_LIMITS),
        f"{DERIVE}/src/laws/std_types.rt": HEAD + STD_LAW_USES.replace("NONZERO_NAMES", NONZERO_NAMES).replace("NONZERO_TYPES", NONZERO_TYPES)
        + "".join(of_made(MADE_LAWFUL, it) for it in numbers + others) + lawful_texts() + wrapped(WRAPPED_LAWFUL) + ranges(RANGE_LAWFUL),
        f"{READ}/src/keys/std_types.rt": HEAD + STD_KEY_USES.replace("NONZERO_NAMES", NONZERO_NAMES).replace("NONZERO_TYPES", NONZERO_TYPES)
        + "".join(nonzero_keys(it) for it in numbers) + "".join(of_words(MADE_KEYS, ["made", "alike", "told"], it) for it in ADDRESS_KEYS)
        + "".join(of_words(WRAPPED_KEYS, ["made"], it) for it in WRAPPED[:3]),
        f"{DERIVE}/src/keys/std_types.rt": HEAD + STD_LAWFUL_KEY_USES.replace("NONZERO_NAMES", NONZERO_NAMES).replace("NONZERO_TYPES", NONZERO_TYPES)
        + lawful_keys(numbers),
        f"{READ}/src/schema/wrapped.rt": HEAD + WRAPPED_READ_USES + wrapped(WRAPPED_READS) + ranges(RANGE_READS),
        f"{WRITE}/src/schema/wrapped.rt": HEAD + WRAPPED_WRITE_USES + wrapped(WRAPPED_WRITES) + ranges(RANGE_WRITES),
        f"{READ}/src/schema/made/schemas.rt": HEAD + MADE_READ_USES + "".join(of_made(MADE_READS, it) for it in others),
        f"{WRITE}/src/schema/made/schemas.rt": HEAD + MADE_WRITE_USES + "".join(of_made(MADE_WRITES, it) for it in others),
    }
