#!/usr/bin/env python3
"""Weighs the read-only data of what is built, in bytes, and the code of the line reader, and asks which names the archive needs from outside.

    tools/read_only_data.py       exits with 1 where one of them has grown; the programs and the archive must be built

The line reader works without a table, so the program that holds nothing else has no read-only data but the library's own and that of its start (02, Req 03).
Its code is weighed too, since the compiler may set up a small table by instructions: that is read-only memory as well, under another name.
docs/notes/req-03.md lists what the programs and the archive have, and what it is for. Whoever raises a number here adds to that list what came in.

The archive is linked by C and by crates without std: it needs `memset` from outside, and no other name.
"""
import pathlib
import re
import subprocess
import sys

ROOT = pathlib.Path(__file__).resolve().parent.parent

# The sections that count, by their names.
DATA = ("read-only data", r"\.l?rodata|\.data\.rel\.ro")
OWN = ("read-only data of its own", r"(?:\.l?rodata|\.data\.rel\.ro)\.(?!std_io::)(?!cst16\b)")
CODE = ("code", r"\.text")

ARCHIVE = "target/staticlib/libtulgarent.a"

# No image has more bytes than these.
MOST = [
    ("crates/line_reader/out/line_reader.o", OWN, 0),
    ("target/bin/line_reader", DATA, 624),
    ("target/bin/line_reader", CODE, 1724),
    ("target/bin/lower", DATA, 952),
    (ARCHIVE, DATA, 196),
]
# The names that it may need.
NEEDED = {"memset"}


def needed(image):
    names = subprocess.run(["nm", "--undefined-only", ROOT / image], capture_output=True, text=True, check=True).stdout
    return set(re.findall(r"^ +U (\S+)$", names, re.MULTILINE))


def weight(image, names):
    sections = subprocess.run(["size", "-A", ROOT / image], capture_output=True, text=True, check=True).stdout
    if not re.search(r"^\.text", sections, re.MULTILINE):
        sys.exit(f"{image}: no code in it, so it was not read as it should be")
    return sum(int(size) for size in re.findall(rf"^(?:{names})\S*\s+(\d+)", sections, re.MULTILINE))


def main():
    missing = sorted({image for image, _, _ in MOST if not (ROOT / image).exists()})
    if missing:
        print(f"not built: {', '.join(missing)}; `tools/build.sh` makes them")
        return 1
    grown = []
    for image, (what, names), most in MOST:
        size = weight(image, names)
        print(f"{what + ' of ' + image.rpartition('/')[2]:<43} {size}")
        if size > most:
            grown.append(f"{image} has {size} bytes of {what}, and {most} are allowed")
    names = needed(ARCHIVE)
    print(f"{'names that the archive needs':<43} {' '.join(sorted(names))}")
    if names - NEEDED:
        grown.append(f"{ARCHIVE} needs {', '.join(sorted(names - NEEDED))} from outside")
    for line in grown:
        print(line)
    return 1 if grown else 0


if __name__ == "__main__":
    sys.exit(main())
