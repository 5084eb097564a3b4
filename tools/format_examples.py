#!/usr/bin/env python3
"""Runs the examples of docs/FORMAT.md through the program lower, so that the page can't drift from what it explains.

    tools/format_examples.py       exits with 1 where an example is wrong, and says where; `tools/build.sh` makes the program

Two kinds of line are examples. A listed word has its index, the word and how it is shown: the two must be the same word, and the lists are
the signature, our rule and what it lowers to. A row of a table that begins with a rule has what comes of it, lowered words or a refusal.
"""
import pathlib
import re
import subprocess
import sys

ROOT = pathlib.Path(__file__).resolve().parent.parent
PAGE = ROOT / "docs/FORMAT.md"
LOWER = ROOT / "target/bin/lower"
ACTIONS = ["let", "set", "delete", "subsume", "union", "panic", "call", "expr"]
LISTED = re.compile(r" +(\d+)  ([0-9a-f]{8})  (\S+)")
ROW = re.compile(r"\| `(rule/[^`]*)` \| `([^`]*)` \|")

# How a word is shown, the first word of its kind, and what its first number is multiplied by if it has two.
SHOWN = [
    (r"@(\d+)\.(\d+)", 0x8000_0000, 0x1_0000),
    (r"x(\d+)", 0x4000_0000, 1),
    (r"#(\d+)", 0x2000_0000, 1),
    (r"f(\d+)/(\d+)", 0x1000_0000, 0x1_0000),
    (r"=/(\d+)", 0x0800_0000, 1),
    (r"rule/(\d+)/(\d+)", 0x0400_0000, 0x1000),
    (r"s(\d+)", 0x0100_0000, 1),
]


def word(shown):
    if shown == "()":
        return "20000000"
    if shown in ACTIONS:
        return f"{0x0200_0001 + ACTIONS.index(shown):08x}"
    for pattern, first, factor in SHOWN:
        match = re.fullmatch(pattern, shown)
        if match:
            high, *low = map(int, match.groups())
            return f"{first + high * factor + sum(low):08x}"
    return "no word"


def lowered(signature, rule):
    """What the program prints: the words of an accepted rule, or the refusal."""
    lines = "".join(f"{line}\n" for line in signature + rule)
    first, *rest = subprocess.run([LOWER], input=lines, capture_output=True, text=True, check=False).stdout.splitlines()
    return rest if first.startswith("ok ") else first.split()


def main():
    if not LOWER.exists():
        print("target/bin/lower is not there: `tools/build.sh` makes it")
        return 1
    lists, rows, wrong = [], [], []
    for number, line in enumerate(PAGE.read_text(encoding="utf-8").splitlines(), 1):
        if match := LISTED.match(line):
            index, listed, shown = match.groups()
            if index == "0":
                lists.append([])
            if int(index) != len(lists[-1]) or word(shown) != listed:
                wrong.append(f"{number}: {line.strip()}")
            lists[-1].append(listed)
        elif match := ROW.match(line):
            rows.append((number, *match.groups()))
    signature, rule, result = lists
    if lowered(signature, rule) != result:
        wrong.append("the rule that the page follows is lowered to other words")
    for number, rule, answer in rows:
        wanted = answer.split() if answer.startswith("refused") else [word(shown) for shown in answer.split()]
        if lowered(signature, [word(shown) for shown in rule.split()]) != wanted:
            wrong.append(f"{number}: {rule} is not answered by {answer}")
    print(f"examples of the format                      {sum(map(len, lists))} words listed, {len(rows)} rules in tables")
    for line in wrong:
        print(f"docs/FORMAT.md: {line}")
    return 1 if wrong else 0


if __name__ == "__main__":
    sys.exit(main())
