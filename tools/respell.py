#!/usr/bin/env python3
"""Brings the names of this repository's own definitions and lemmas to the library's spelling.

usage: python3 tools/respell.py [--list]     at the top of the repository, once, after the kit's port.py

A name that begins with a capital is put in camel case (All-in-range: AllInRange), any other in snake case
(by-head: by_head). In proofs/ a dash stays after the name of a library function that a lemma is about
(length-row). Names that the checker makes (goals, invariants, measures) and names of src/ are left alone, and so
are strings of src/, the words of the job language, inputs and outputs. A name that would become one of the library's, that
proofs here import, gets _lem at its end. It stops where two names of this repository's
definitions and lemmas would become one. A second run changes nothing.
--list prints the names and changes nothing.
"""

import os
import re
import sys

# The first part of a lemma's name, where that is a function of the library: the dash after it joins two names.
LIBRARY = {"length", "take", "drop", "get_or", "ltb", "leb", "eqb"}
# Words of the job language: they stand in texts, comments and documents as they are.
JOB_WORDS = {"is-less", "clips-by"}

NAME = re.compile(r"(?<![\w'\-])[^\W\d_][\w']*(?:-[\w']+)*(?![\w'\-])")
DEFINED = re.compile(r"^ *(?:(?:abbrev|unfoldable|pub|data|record) +)*(?P<name>[^\W\d][\w'\-]*(?: +[^\W\d][\w'\-]*)*)(?: +\([^:\n]*: [^\n]*\))? *:(?= |$)(?P<type>.*)$", re.M)
MADE = re.compile(r"\b(?:goal|need|needs)\.|\bGoals\.")
TEXT = re.compile(r'//[^\n]*|"(?:[^"\\]|\\.)*"|\'(?:[^\'\\\n]|\\.)\'', re.S)
REMARK = re.compile(r"--(?=\s)[^\n]*")


def files(root, *endings):
    for folder, dirs, names in os.walk(root):
        dirs[:] = sorted(d for d in dirs if d not in ("out", ".git", "target"))
        for n in sorted(names):
            if n.endswith(endings):
                yield os.path.join(folder, n)


def read(path):
    with open(path, encoding="utf-8") as f:
        return f.read()


def spelled(name, is_lemma):
    if name[0].isupper():
        return "".join(part[:1].upper() + part[1:] for part in re.split(r"[-_]", name))
    name = re.sub("^(getD-|get_d_)", "get_or-", name)  # the older name of the library's get_or
    first, dash, rest = name.partition("-")
    if is_lemma and dash and first in LIBRARY:
        return first + "-" + rest.replace("-", "_")
    return name.replace("-", "_")


def imported():
    """The names that proofs take from the library."""
    found = set()
    for path in files("crates", ".antt"):
        for m in re.finditer(r"^use ([\w.]+)\.\{([^}]*)\}", read(path), re.M):
            if m[1].startswith("Rattle.std.") or not m[1].startswith("Rattle."):
                found.update(re.split(r", *", m[2]))
    return found


def renamed():
    """Old name to new name, of all that specs/ and proofs/ define; and the names there that stay."""
    table, kept, stay = {}, set(), set()
    library = imported()
    for path in files("crates", ".antt"):
        is_lemma = "/proofs/" in path
        for m in DEFINED.finditer(REMARK.sub("", read(path))):
            if MADE.search(m["type"]):
                kept.update(m["name"].split())
                continue
            for name in m["name"].split():
                new = spelled(name, is_lemma)
                if new != name and new in library:
                    new += "_lem"
                if new == name:
                    stay.add(name)
                elif not is_lemma or name not in table:
                    table[name] = new
    for path in files("crates", ".antt", ".rt"):
        for name in re.findall(r"^(?:ghost )?use .* as ([a-z]\w*-\w+)", read(path), re.M):
            table[name] = spelled(name[:1].upper() + name[1:] if re.search("-[A-Z]", name) else name, False)
    for name in kept:
        table.pop(name, None)
    return table, stay


def turned(text, table):
    return NAME.sub(lambda m: table.get(m[0], m[0]), text)


def around(pattern, text, table, inside):
    """The text with names turned, and what the pattern finds handed to `inside`."""
    out, at = [], 0
    for m in pattern.finditer(text):
        out += [turned(text[at:m.start()], table), inside(m[0])]
        at = m.end()
    return "".join(out + [turned(text[at:], table)])


def main():
    table, stay = renamed()
    facts = {a: b for a, b in table.items() if a[0].isupper()}
    words = {a: b for a, b in table.items() if a not in JOB_WORDS}
    if "--list" in sys.argv[1:]:
        for a, b in sorted(table.items()):
            print(a, b)
        return
    clashes = [f"{a} becomes {b}" for a, b in sorted(table.items()) if b in stay or list(table.values()).count(b) > 1]
    if clashes:
        sys.exit("respell: two names would become one: " + ", ".join(clashes))
    # names that port.py turned in specs/ and proofs/, for the documents
    words |= {b.replace("_", "-"): b for b in stay if "_" in b and b.replace("_", "-") not in JOB_WORDS}
    changed = 0
    for path in [*files("crates", ".antt", ".rt", ".edit"), *files("docs", ".md"), "README.md"]:
        if path.endswith("PORT.md"):  # it lists the older names
            continue
        old = read(path)
        if path.endswith(".antt"):
            new = around(REMARK, old, table, lambda t: turned(t, words))
        elif path.endswith((".rt", ".edit")):
            new = around(TEXT, old, table, lambda t: turned(t, facts) if t.startswith("//") else t)
        else:
            new = "".join(turned(t, facts) if not t.startswith("`") else turned(t, words) for t in re.split(r"(`[^`\n]*`)", old))
        if new != old:
            changed += 1
            with open(path, "w", encoding="utf-8") as f:
                f.write(new)
    print(f"respell: {len(table)} names, {changed} files")


if __name__ == "__main__":
    main()
