"""The crates of crates.txt, what they stand on, and sums over their sources: what tools/unproved and tools/test share."""
import glob
import hashlib
import os
import re
import subprocess

TOP = os.path.dirname(os.path.dirname(os.path.abspath(__file__)))
ROW = re.compile(r"(?m)^(\w+)([^:\n]*):(.*)$")


def rows():
    """The line of each crate in crates.txt, in order: its name, and the names behind the colon."""
    with open(f"{TOP}/crates.txt", encoding="utf-8") as it:
        return {name: (flags.strip(), below.split()) for name, flags, below in ROW.findall(it.read())}


def programs():
    """The crates that are programs."""
    return [name for name in rows() if os.path.isfile(f"{TOP}/crates/{name}/src/main.rt")]


def crates_of(name):
    """The crate and those of the repository that it stands on."""
    lines, found, wanted = rows(), set(), [name]
    while wanted:
        crate = wanted.pop()
        if crate in lines and crate not in found:
            found.add(crate)
            wanted += lines[crate][1]
    return sorted(found)


def sum_of(name, more=()):
    """The sum of all that the crate is built of, and of these files."""
    lines = rows()
    total = hashlib.sha256(subprocess.run(["rt", "version"], capture_output=True, check=True).stdout)
    paths = []
    for crate in crates_of(name):
        total.update(f"{crate} {lines[crate]}\n".encode())
        paths += sorted(glob.glob(f"{TOP}/crates/{crate}/src/**/*.rt", recursive=True))
    for path in [*paths, *more]:
        with open(path, "rb") as it:
            total.update(os.path.relpath(path, TOP).encode() + b"\0" + hashlib.sha256(it.read()).digest())
    return total.hexdigest()


def kept(path):
    """The sum that a file keeps, if it is there."""
    if not os.path.exists(path):
        return None
    with open(path, encoding="utf-8") as it:
        return it.read()


def keep(path, total):
    os.makedirs(os.path.dirname(path), exist_ok=True)
    with open(path, "w", encoding="utf-8") as it:
        it.write(total)
