#!/usr/bin/env python3
"""Figures of the text that people read: how long the proofs are, how far an answer reaches back, and what stands twice.

    tools/proof_text.py            the figures of all crates
    tools/proof_text.py --files    a row for each file that has a path of four steps back or more, or a line over the limit
    tools/proof_text.py --check    the figures; exits with 1 where a limit is broken, and says where

A path is a run of `.before`, each a step back from the place of a goal; answers name facts by their step and need none. Text that stands twice is a run of
lines, in two places, that are equal but for their indentation. Not counted there: blank lines, comments, imports, and lone parameters of a function.
"""
import pathlib
import re
import sys

MOST_STEPS = 6
MOST_COLUMNS = 200
LONG_PATH = 4
MOST_LONG_PATHS = 500
PAIR = 10

PATH = re.compile(r"\.before(?:\s+\.before)*(?![\w-])")
PASSED_OVER = re.compile(r"(--|//|use |ghost use |pub use |mod |pub mod |\W*$)")
PARAMETER = re.compile(r"\w+: [^=;]*,$")


class Source:
    def __init__(self, path):
        self.path = path
        text = path.read_text(encoding="utf-8")
        self.lines = text.splitlines()
        self.paths = [match.group(0).count(".before") for match in PATH.finditer(text)]
        self.long = [number for number, line in enumerate(self.lines, 1) if len(line) > MOST_COLUMNS]

    def told(self):
        """The lines that say something, with their numbers."""
        rows = []
        for number, line in enumerate(self.lines, 1):
            line = line.strip()
            if PASSED_OVER.match(line) or (self.path.suffix == ".rt" and PARAMETER.match(line)):
                continue
            rows.append((line, number))
        return rows


def pairs(sources):
    """Runs of PAIR lines and more that stand twice: (how many, first place, second place)."""
    told = [source.told() for source in sources]
    met, found = {}, []
    for here, rows in enumerate(told):
        start = 0
        while start + PAIR <= len(rows):
            run = tuple(line for line, _ in rows[start:start + PAIR])
            there, first = met.setdefault(run, (here, start))
            size = PAIR
            if (there, first) == (here, start) or (there == here and start < first + size):
                start += 1
                continue
            others = told[there]
            while (start + size < len(rows) and first + size < len(others) and not (there == here and first + size >= start)
                   and rows[start + size][0] == others[first + size][0]):
                size += 1
            found.append((size, f"{sources[there].path}:{others[first][1]}", f"{sources[here].path}:{rows[start][1]}"))
            start += size
    return sorted(found, reverse=True)


def main(options):
    root = pathlib.Path(__file__).resolve().parent.parent
    files = sorted(path for path in root.glob("crates/**/*") if path.suffix in (".antt", ".rt") and "out" not in path.relative_to(root).parts)
    sources = [Source(path) for path in files]
    for source in sources:
        source.path = source.path.relative_to(root)
    twice = pairs(sources)
    steps = [count for source in sources for count in source.paths]
    proofs = [source for source in sources if "proofs" in source.path.parts]
    far = [source for source in sources if max(source.paths, default=0) > MOST_STEPS]
    reaching = sum(count >= LONG_PATH for count in steps)

    print(f"lines of proof files                        {sum(len(source.lines) for source in proofs):,}")
    print(f"paths of {LONG_PATH} steps back and more              {reaching:,}")
    print(f"paths of more than {MOST_STEPS}                        {sum(count > MOST_STEPS for count in steps):,}")
    print(f"longest path                                {max(steps, default=0)}")
    print(f"longest line                                {max(len(line) for source in sources for line in source.lines):,}")
    print(f"lines over {MOST_COLUMNS} characters                   {sum(len(source.long) for source in sources):,}")
    print(f"pairs of {PAIR} and more equal lines            {len(twice)}")

    if "--files" in options:
        rows = [(sum(count >= LONG_PATH for count in source.paths), max(source.paths, default=0), len(source.long), source.path) for source in sources]
        for long_paths, longest, long_lines, path in sorted(rows, reverse=True):
            if long_paths or long_lines:
                print(f"{long_paths:4} long paths, longest {longest:2}, {long_lines:3} long lines: {path}")
    if "--check" in options:
        broken = [f"a path of more than {MOST_STEPS} steps: {source.path}" for source in far]
        broken += [f"a line over {MOST_COLUMNS} characters: {source.path}:{number}" for source in sources for number in source.long]
        broken += [f"{size} lines stand twice: {first} and {second}" for size, first, second in twice]
        if reaching >= MOST_LONG_PATHS:
            broken.append(f"{reaching} paths of {LONG_PATH} steps and more; fewer than {MOST_LONG_PATHS} are wanted")
        for line in broken:
            print(line)
        return 1 if broken else 0
    return 0


if __name__ == "__main__":
    sys.exit(main(sys.argv[1:]))
