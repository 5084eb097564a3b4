#!/usr/bin/env python3
"""Brings the repository's own definitions and lemmas to the spelling of today's Rattle: words in snake case, types and modules in camel case.

usage: tools/respell_names.py [--docs] [FOLDER]

tools/respelled_names.tsv has a row for each name: the old spelling, the new one, and `field` where it names a field of a record. The text of specs/ and
proofs/, the clauses, imports and comments of src/, and the must-fail edits below FOLDER/crates are rewritten in place; with --docs the names that the documents
put between backticks. Functions of src/, exported names, strings, and what follows a dot and is no field and no module's stay as they are. A name that a file has from
elsewhere stays there too. It is run once; no two names become one.
"""

import os
import re
import sys

HERE = os.path.dirname(os.path.abspath(__file__))
NAME = r"[^\s(){}\[\].;,@\"«»`]+"
TOKEN = re.compile(r"(?P<string>b?\"(?:[^\"\\\n]|\\.)*\")|(?P<dot>\.?)(?P<name>" + NAME + ")")
MODULE = re.compile(NAME + r"$")
AS = re.compile(r"(?m)^use \S+ as (\S+)$")
USE = re.compile(r"\buse ([^\s;{]+)\.\{([^}]*)\}")


def rows():
    with open(os.path.join(HERE, "respelled_names.tsv"), encoding="utf8") as f:
        split = [line.rstrip("\n").split("\t") for line in f]
    names = {row[0]: row[1] for row in split}
    assert len(set(names.values())) == len(names), "two names become one"
    return names, {row[0] for row in split if row[2:] == ["field"]}


NAMES, FIELDS = rows()


def foreign(text, own):
    """The names that a text imports from a crate that is not the repository's."""
    found = set()
    for module, items in USE.findall(text):
        parts = module.split(".")
        if parts[0] != "Rattle" or parts[1] not in own:
            found |= {item.split(" as ")[-1].strip() for item in items.split(",")}
    return found


def turned(text, stays, comment=False, modules=()):
    """A piece of code or of a comment. In a comment a word with a dash may be plain English, and stays unless it is between backticks."""

    def one(m):
        if m["string"]:
            return m[0]
        name = m["name"]
        before = MODULE.search(text[: m.start()]) if m["dot"] else None
        of_module = before is not None and before[0] in modules
        if name in stays or name not in NAMES or m["dot"] and name not in FIELDS and not of_module:
            return m[0]
        if comment and "-" in name and not (m.start() and text[m.start() - 1] == "`"):
            return m[0]
        return m["dot"] + NAMES[name]

    return TOKEN.sub(one, text)


def file_text(text, mark, own):
    stays = foreign(text, own)
    modules = set(AS.findall(text))
    out = []
    for line in text.split("\n"):
        at = line.find(mark) if mark else -1
        while at > 0 and line[at - 1] not in " \t":
            at = line.find(mark, at + 1)
        code, rest = (line, "") if at < 0 else (line[:at], line[at:])
        out.append(turned(code, stays, modules=modules) + turned(rest, stays, comment=True))
    text = "\n".join(out)
    both = stays & {m["name"] for m in TOKEN.finditer(text) if m["name"] in NEW}
    return text, sorted(both)


NEW = set(NAMES.values())


def edit_text(text):
    lines = []
    for line in text.split("\n"):
        lines.append(turned(line, set(), comment=line.startswith("#")))
    return "\n".join(lines)


def document_text(text):
    def one(m):
        return "`" + turned(m[1], set()) + "`"

    return re.sub(r"`([^`\n]+)`", one, text)


def main(argv):
    documents = "--docs" in argv
    folder = next((a for a in argv if not a.startswith("--")), ".")
    own = set(os.listdir(os.path.join(folder, "crates")))
    top = folder if documents else os.path.join(folder, "crates")
    for root, folders, files in os.walk(top):
        made = {"out", ".git"} | ({"target"} if "crates" not in root.split(os.sep) else set())
        folders[:] = sorted(f for f in folders if f not in made)
        for name in sorted(files):
            path = os.path.join(root, name)
            if documents != name.endswith(".md"):
                continue
            if not name.endswith((".antt", ".rt", ".edit", ".md")):
                continue
            with open(path, encoding="utf8") as f:
                text = f.read()
            both = []
            if name.endswith(".md"):
                new = document_text(text)
            elif name.endswith(".edit"):
                new = edit_text(text)
            else:
                new, both = file_text(text, "--" if name.endswith(".antt") else "//", own)
            if both:
                print(f"look: {path} has from elsewhere what a name of the repository is called now: {' '.join(both)}")
            if new != text:
                with open(path, "w", encoding="utf8") as f:
                    f.write(new)


if __name__ == "__main__":
    main(sys.argv[1:])
