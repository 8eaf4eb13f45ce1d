"""Writes docs/PLANTED.md."""

import os
from collections import Counter

from planting.choice import LEAST
from planting.places import KINDS
from planting.verdicts import OUTCOMES, REFUSED, SURVIVED, UNCOMPILED

# From this line on the page is written by hand, and kept.
BY_HAND = "## The survivors"

HEAD = """# Planted bugs

"Proved" says no more than the contracts do. To see how much that is, bugs were planted: {count} small edits of the code, one at a time, each in a copy of the repository. The prover was asked about each (`rt check` in the edited crate). What it let through was put to the tests of that crate and of those above it, to the programs' sample inputs and tables as the gate compares them{compare}.

The edits are chosen by a seed, with nothing picked by hand: `tools/plant --seed {seed} --count {count}` finds all places in the bodies of functions and the values of constants, and draws from them, so that each crate has its share by its lines of code, {least} at least, and each kind of edit about as many. An edit that does not compile shows nothing, and the crate's next of that kind takes its place, or one of another kind where none is left; that happened {replaced} times. Contracts, definitions, proofs and tests are never edited.

The kinds: a comparison is turned to the one beside it (`<` and `<=`, `==` and `!=`, the end of a range), a number is one more or one less, an operator is another (`+` and `-`, `&&` and `||`, `min` and `max`, a `!` left out), a statement is left out, two branches change places (those of an `if`, or the right-hand sides of two match arms), or two arguments of the same look do.

Refused means that the crate is not proved with the edit, so that the gate fails and nothing is built. The table names what failed first: a clause of the function's contract, or a step that is no longer known to be safe. In {false} of these cases the prover names values for which it is false.
"""


def cell(words):
    return words.replace("|", "\\|").replace("\n", " ")


def code(words):
    """The words as code in a table, whether or not they have backticks of their own."""
    fence = "``" if "`" in words else "`"
    return f"{fence}{cell(words)}{fence}"


def change(place):
    return f"{code(place.was)} → {'nothing' if place.then == '(nothing)' else code(place.then)}"


def outcome_cell(outcome):
    return cell(f"{outcome.name}: {outcome.detail}" if outcome.detail else outcome.name)


def totals(rows):
    """How many edits came to each outcome, of each kind and of all."""
    counted = Counter((slot.place.kind, outcome.name) for slot, outcome in rows)
    shown = [it for it in OUTCOMES if it != UNCOMPILED and any(counted[kind, it] for kind in KINDS)]
    yield f"| kind | edits | {' | '.join(shown)} |"
    yield f"|---|{'---|' * (len(shown) + 1)}"
    for kind in KINDS:
        yield f"| {kind} | {sum(counted[kind, it] for it in shown)} | {' | '.join(str(counted[kind, it]) for it in shown)} |"
    sums = [sum(counted[kind, it] for kind in KINDS) for it in shown]
    yield f"| **all** | **{sum(sums)}** | {' | '.join(f'**{it}**' for it in sums)} |"


def table(rows):
    yield "| | place | edit | kind | outcome |"
    yield "|---|---|---|---|---|"
    for slot, outcome in rows:
        place = slot.place
        yield f"| {slot.number} | {place.crate}/src/{place.file}:{place.line} | {change(place)} | {place.kind} | {outcome_cell(outcome)} |"


def by_hand(path):
    """The part of the page that is kept."""
    if not os.path.exists(path):
        return f"{BY_HAND}\n"
    with open(path, encoding="utf-8") as file:
        text = file.read()
    return text[text.index(BY_HAND):] if BY_HAND in text else f"{BY_HAND}\n"


def write(path, rows, seed, count, compare):
    head = HEAD.format(
        seed=seed, count=count, least=LEAST, compare=", and to the comparison with a receiver written apart (`compare/test`)" if compare else "",
        replaced=sum(len(slot.replaced) for slot, _ in rows), false=sum(outcome.is_false for _, outcome in rows if outcome.name == REFUSED))
    kept = by_hand(path)
    parts = [head.strip(), "## In all", "\n".join(totals(rows)), "## The edits", "\n".join(table(rows)), kept.strip()]
    with open(path, "w", encoding="utf-8") as file:
        file.write("\n\n".join(parts) + "\n")
    return [slot for slot, outcome in rows if outcome.name == SURVIVED and change(slot.place) not in kept]
