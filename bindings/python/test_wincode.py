"""What wincode.check answers."""
import wincode

assert wincode.check("Vec<u64>", b"\0" * 9) == (8, 1, 1)
assert wincode.check_exact("u8", b"\7") == (1, 1, 0)
for call, text, data, said in [
    (wincode.check, "bool", b"\2", "Invalid bool encoding: 2 at offset 0"),
    (wincode.check_exact, "u8", b"\7\7", "Bytes behind the value: 1 at offset 1"),
    (wincode.check, "u6", b"", "no type at byte 0"),
]:
    try:
        call(text, data)
    except ValueError as refused:
        assert str(refused) == said, refused
    else:
        raise AssertionError(said)
try:
    wincode.check("[[bool; 2]; 2]", b"\1\0\1\2")
except wincode.Refused as refused:
    assert (refused.offset, refused.depth) == (3, 2)
