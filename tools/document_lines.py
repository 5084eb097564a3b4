#!/usr/bin/env python3
"""Lines of documents stay short enough to be read side by side with code.

    tools/document_lines.py                 exits with 1 where a line of a *.md file is too long, and names file and line
    tools/document_lines.py --wrap FILE..   first mends these files

Mending fills paragraphs and items that have such a line anew. A row of a table that is too long is split at the end of a sentence or of a part of one:
the rest of its longest cell goes into a row of its own, whose other cells are empty. Where that takes too many rows, or two cells are long, all tables of
the page that have this header become lists. Headings and indented code are left as they are.
"""
import pathlib
import re
import sys

LIMIT = 160
MOST_ROWS = 3
# Code in backquotes is one word, with what touches it.
WORD = re.compile(r"(?:`[^`]*`|[^ `])+")
# A word that would begin something else at the start of a line stays with the one before it.
OPENS = re.compile(r" (?=([-+*>|]|#+|\d+[.)])( |$))")
KEPT = "\u00a0"
ITEM = re.compile(r"( *)([-*]|\d+\.) ")
# Where a cell may be cut, and how much of the room the first part must then fill.
ENDS = [("; ", 0.3), (". ", 0.3), (", ", 0.5), (" ", 0.5)]


def long(lines):
    return any(len(line) >= LIMIT for line in lines)


def filled(block):
    """The lines of a paragraph or of an item, filled anew."""
    item = ITEM.match(block[0])
    first = item.group(0) if item else re.match(" *", block[0]).group(0)
    text = " ".join(line.strip() for line in [block[0][len(first):], *block[1:]])
    lines, line = [], first
    for word in WORD.findall(OPENS.sub(KEPT, text)):
        if len(line) + len(word) >= LIMIT and line != first:
            lines.append(line.rstrip())
            line = " " * len(first)
        line += word.replace(KEPT, " ") + " "
    return [*lines, line.rstrip()]


def cells(row):
    return [cell.strip() for cell in re.split(r"(?<!\\)\|", row.strip()[1:-1])]


def shown(row):
    return "|" + "|".join(f" {cell} " if cell else " " for cell in row) + "|"


def cut(cell, room):
    """A cell in two, the first part at most so long."""
    for end, least in ENDS:
        place = cell.rfind(end, 0, room)
        while place > 0 and cell.count("`", 0, place) % 2:
            place = cell.rfind(end, 0, place)
        if place >= room * least > 0:
            return cell[:place + len(end)].rstrip(), cell[place + len(end):]
    return cell, ""


def split(line):
    """The rows that a row of a table becomes."""
    rows, row = [], cells(line)
    while len(shown(row)) >= LIMIT:
        widest = max(range(len(row)), key=lambda at: len(row[at]))
        kept, rest = cut(row[widest], len(row[widest]) - (len(shown(row)) - LIMIT) - 1)
        if not rest:
            break
        rows.append(shown([kept if at == widest else cell for at, cell in enumerate(row)]))
        row = [rest if at == widest else "" for at in range(len(row))]
    return [*rows, shown(row)] if rows else [line]


def fits(table):
    return all(len(rows) <= MOST_ROWS and not long(rows) for rows in map(split, table))


def listed(table):
    """A table as a list: an item for each row. Of more than two columns, those that are there stand below it with their names."""
    names, lines = cells(table[0]), []
    for first, *rest in map(cells, table[2:]):
        if len(rest) == 1:
            lines += filled([f"- **{first}**: {rest[0]}"])
            continue
        lines += filled([f"- **{first}**"])
        for name, cell in zip(names[1:], rest):
            if cell not in ("", "-"):
                lines += filled([f"  - {name}: {cell}"])
    return lines


def blocks(lines):
    """Lines that belong together: paragraphs, items and tables, and every other line by itself."""
    block, code = [], False
    for number, line in enumerate(lines):
        after_blank = number == 0 or not lines[number - 1].strip()
        code = line.startswith("    ") and (code or after_blank)
        alone = code or not line.strip() or line[0] == "#"
        if block and (alone or ITEM.match(line) or (line[0] == "|") != (block[0][0] == "|")):
            yield block
            block = []
        if alone:
            yield [line]
        else:
            block.append(line)
    if block:
        yield block


def mended(text):
    parts = list(blocks(text.splitlines()))
    lists = {part[0] for part in parts if part[0].startswith("|") and not fits(part)}
    lines = []
    for part in parts:
        if part[0] in lists:
            lines += listed(part)
        elif part[0].startswith("|"):
            lines += [row for line in part for row in split(line)]
        else:
            lines += filled(part) if long(part) and not part[0].startswith(("#", "    ")) else part
    return "\n".join(lines) + "\n"


def main(options):
    root = pathlib.Path(__file__).resolve().parent.parent
    if options[:1] == ["--wrap"]:
        for page in map(pathlib.Path, options[1:]):
            page.write_text(mended(page.read_text(encoding="utf-8")), encoding="utf-8")
    longest, broken = 0, []
    for page in sorted(page for page in root.glob("**/*.md") if "target" not in page.relative_to(root).parts):
        for number, line in enumerate(page.read_text(encoding="utf-8").splitlines(), 1):
            longest = max(longest, len(line))
            if len(line) >= LIMIT:
                broken.append(f"{page.relative_to(root)}:{number}: {len(line)} characters; fewer than {LIMIT} are wanted")
    print(f"longest line of a document                  {longest}")
    for line in broken:
        print(line)
    return 1 if broken else 0


if __name__ == "__main__":
    sys.exit(main(sys.argv[1:]))
