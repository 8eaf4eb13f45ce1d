#!/usr/bin/env python3
"""Brings this repository's own definitions and lemmas to the spelling of today's Rattle.

usage: python3 tools/respell.py [ROOT]

Run at the top of the repository (or at ROOT), after the toolchain's own porting script. A dashed name takes
underscores, or camel case where it is a type or a fact; the lemmas of JOINED keep a dash between two functions' names.
It rewrites specs/, proofs/, the ghost lines and clauses of src/, and what stands between backticks in README.md,
docs/RULES.md and docs/DECISIONS.md. Functions of src/, their strings, must-fail edits, inputs and outputs are left as
they are.
"""

import os
import re
import sys

# Names that are more than their old spelling with underscores.
TABLE = {
    "Always-waiting": "AlwaysWaiting",
    "Once-running": "OnceRunning",
    "True-answer": "TrueAnswer",
    "True-step": "TrueStep",
    "getD-line": "get_or-line",
    "getD-turned": "get_or-turned",
    "length-further-more": "length-further_more",
    "length-row-first": "length-row_first",
    # functions of src/ are called place_below and record_row
    "place-below": "place_if_below",
    "record-row": "row_of_record",
}

# A dash stays where it joins two functions' names.
JOINED = (
    "get_or-line get_or-turned length-further_more length-held length-line length-row_first length-turned length-written "
    "packet-append set-take set-turned times-append"
).split()

DECLARED = re.compile(r"^\s*(?:(?:abbrev|unfoldable) )?(?:pub )?(?:(?:record|data) )?([^\s:(){}=.]+)\s*(?:[({].*)?:(?!=)\s")
DASHED = re.compile(r"^[A-Za-z]\w*(?:-\w+)+$")
LETTER = r"[\w'\-\u00b7]"
GENERATED = re.compile(r"(Answers|Invariants|Proof)\.antt$")


def files(root):
    for folder, folders, names in os.walk(os.path.join(root, "crates")):
        folders[:] = sorted(f for f in folders if f != "out")
        for name in sorted(names):
            if name.endswith((".antt", ".rt")):
                yield os.path.join(folder, name)


def read(path):
    with open(path, encoding="utf-8") as file:
        return file.read()


def declared(root):
    """The dashed names that specs/ and lemma files declare, each with its new spelling."""
    found = {}
    for path in files(root):
        if path.endswith(".antt") and not GENERATED.search(path):
            for line in read(path).splitlines():
                match = DECLARED.match(line)
                if match and DASHED.match(match.group(1)) and not line.lstrip().startswith(("--", "use ")):
                    name = match.group(1)
                    if name not in JOINED:
                        found[name] = TABLE.get(name, name.replace("-", "_"))
    return found


def respelled(text, names):
    """The text with each name respelled, but where it is a step of a function's own proof, as in c.slot-at.result."""
    pattern = re.compile(r"(?<!" + LETTER + r")(c\.|w\.|goal\.)?(" + "|".join(sorted(map(re.escape, names), key=len, reverse=True)) + r")(?!" + LETTER + ")")
    return pattern.sub(lambda m: m.group(0) if m.group(1) else names[m.group(2)], text)


def code(text, names):
    """A source file: its ghost lines and clauses, which may run over several lines."""
    out, inside = [], 0
    for line in text.split("\n"):
        if inside or re.match(r"\s*(pub )?(ghost|requires|ensures)\b", line):
            inside = max(0, inside + line.count("{") - line.count("}"))
            line = respelled(line, names)
        out.append(line)
    return "\n".join(out)


def page(text, names):
    return re.sub(r"`[^`\n]+`", lambda m: respelled(m.group(0), names), text)


def main(root):
    names = declared(root)
    if not names:
        print("nothing to respell")
        return
    words = set()
    for path in files(root):
        words |= set(re.findall(LETTER + "+", read(path)))
    for old, new in sorted(names.items()):
        note = "  (a word that stood already)" if new in words else ""
        print(f"{old} -> {new}{note}")
    pages = [os.path.join(root, "README.md")] + [os.path.join(root, "docs", p) for p in ("RULES.md", "DECISIONS.md")]
    for path in [*files(root), *pages]:
        old = read(path)
        new = page(old, names) if path.endswith(".md") else code(old, names) if path.endswith(".rt") else respelled(old, names)
        if new != old:
            with open(path, "w", encoding="utf-8") as file:
                file.write(new)


if __name__ == "__main__":
    main(sys.argv[1] if len(sys.argv) > 1 else ".")
