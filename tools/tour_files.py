#!/usr/bin/env python3
"""docs/TOUR.md names every file, and none that is not there: exits with 1 where it does not, and says which.

A section's heading says what folders it is about: `## crates/words: ..`, `## crates/walks, query: ..`, `## bindings/, include/: ..`. In its tables the first
cell of a row lists files: paths from that folder or, where there are several, from the folder that they stand in. A name without a folder stands beside the
one before it, and `.antt` may be left out.

Left out are a function's own proof (Invariants.antt and Answers.antt in proofs/FUNCTION), wrong programs (must-fail/), lists of modules (Lib.antt, mod.rs), and what is found in
many folders under one name: README.md, LICENSE, NOTICE, and what cargo and git want.
"""
import pathlib
import re
import sys

ROOT = pathlib.Path(__file__).resolve().parent.parent
FOLDERS = ["crates", "bindings", "include", "compare", "fuzz", "bench", "oracle", "docs", "tools", ".ci"]
# What is made there, and is no part of the product.
MADE = re.compile(r"^(?!crates/)(.*/)?target/|(^|/)__pycache__/|^crates/[^/]*/out/|^fuzz/(build|corpus|found)/")
LEFT_OUT = re.compile(
    r"/must-fail/|/(Invariants\.antt|Answers\.antt|Lib\.antt|mod\.rs|README\.md|LICENSE|NOTICE|Cargo\.(toml|lock)|rustfmt\.toml|\.gitignore)$"
)
CELL = re.compile(r"^\| (.*?) \|", re.M)
HEADER = "File"


def files():
    paths = (path for folder in FOLDERS for path in (ROOT / folder).glob("**/*") if path.is_file())
    return {path for path in (path.relative_to(ROOT).as_posix() for path in paths) if not MADE.search(path)}


def start(heading):
    """What the paths of a section begin with; none if it is not about folders."""
    first, *others = heading.split(":")[0].split(",")
    first = first.strip().rstrip("/")
    if first.split("/")[0] not in FOLDERS:
        return None
    return first[:first.rfind("/") + 1] if others else first + "/"


def named(tour):
    """The paths that the tables name, as far as they are written out."""
    for section in re.split(r"^## ", tour, flags=re.M)[1:]:
        heading, _, body = section.partition("\n")
        base = start(heading)
        cells = CELL.findall(body) if base is not None else []
        for cell in cells:
            beside = base
            for name in cell.split(", ") if cell != HEADER else []:
                path = (base if "/" in name else beside) + name
                beside = path[:path.rfind("/") + 1]
                yield path


def main():
    there = files()
    paths = {path if path in there else path + ".antt" for path in named((ROOT / "docs/TOUR.md").read_text(encoding="utf-8"))}
    missing = sorted(path for path in there - paths if not LEFT_OUT.search(path))
    unknown = sorted(paths - there)
    print(f"files that the tour names                   {len(paths & there)}")
    for path in missing:
        print(f"docs/TOUR.md does not name {path}")
    for path in unknown:
        print(f"docs/TOUR.md names {path}, which is not there")
    return 1 if missing or unknown else 0


if __name__ == "__main__":
    sys.exit(main())
