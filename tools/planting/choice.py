"""Chooses the edits by a seed, spread over the crates and over the kinds of edit."""

import hashlib
from collections import Counter
from dataclasses import dataclass, field

from planting.places import KINDS, Place, places_of

# Each crate gets so many edits, if it has so many places.
LEAST = 2


@dataclass
class Slot:
    """A row of the page: the edit that has it now, and those before it that did not compile."""
    number: int
    place: Place
    replaced: list = field(default_factory=list)


def crates_of(root):
    """The crates in the order of crates.txt, each with the crates of the repository right below it."""
    with open(f"{root}/crates.txt", encoding="utf-8") as file:
        lines = [line.partition("#")[0] for line in file]
    named = {line.split(":")[0].split()[0]: line.split(":")[1].split() for line in lines if ":" in line}
    return {name: [it for it in below if it in named] for name, below in named.items()}


def reach(start, edges):
    """All that can be come to from start."""
    found, ahead = set(), list(edges[start])
    while ahead:
        name = ahead.pop()
        if name not in found:
            found.add(name)
            ahead += edges[name]
    return found


def above(name, crates):
    """The crates that are built on this one, lowest first."""
    ordered, ahead = [], [it for it in crates if name in reach(it, crates)]
    while ahead:
        ready = [it for it in ahead if not reach(it, crates) & set(ahead)]
        ordered += ready
        ahead = [it for it in ahead if it not in ready]
    return ordered


def draw(seed, *words):
    return hashlib.sha256("\0".join(map(str, (seed, *words))).encode()).hexdigest()


def shuffled(seed, places):
    """The places in an order that the seed gives. An edit elsewhere does not change how two of them stand."""
    seen, keyed = Counter(), []
    for place in places:
        words = (place.crate, place.file, place.owner, place.kind, place.old, place.new)
        seen[words] += 1
        keyed.append((draw(seed, *words, seen[words]), place))
    return [place for _, place in sorted(keyed, key=lambda it: it[0])]


def quotas(count, lines, places):
    """How many edits each crate gets: the least, and what is left in proportion to its code."""
    given = {name: min(LEAST, len(places[name])) for name in lines}
    while sum(given.values()) < count:
        open_ones = [name for name in lines if given[name] < len(places[name])]
        if not open_ones:
            break
        given[max(open_ones, key=lambda it: lines[it] / (given[it] + 1))] += 1
    return given


class Choice:
    """Hands out places, no two of them on one line."""

    def __init__(self, root, seed, count):
        self.seed, self.crates, self.used, self.taken = seed, crates_of(root), set(), Counter()
        found = {name: places_of(root, name) for name in self.crates}
        self.lines = {name: lines for name, (_, lines) in found.items()}
        self.queues = {}
        for name, (places, _) in found.items():
            for place in shuffled(seed, places):
                self.queues.setdefault((name, place.kind), []).append(place)
        self.slots = self.first_choice(quotas(count, self.lines, {name: places for name, (places, _) in found.items()}))

    def first_choice(self, given):
        """The crates take turns by the seed."""
        turns = [(draw(self.seed, "turn", name, i), name) for name, many in given.items() for i in range(many)]
        places = [self.next_in(name, turn) for turn, name in sorted(turns)]
        order = list(self.crates)
        places = sorted(filter(None, places), key=lambda it: (order.index(it.crate), it.file, it.line))
        return [Slot(number, place) for number, place in enumerate(places, 1)]

    def next_in(self, crate, *words):
        """The crate's next place, of the kind that has been taken least of those that it still has."""
        for kind in sorted(KINDS, key=lambda it: (self.taken[it], draw(self.seed, "kind", crate, *words, it))):
            place = self.next_of(crate, kind)
            if place:
                return place
        return None

    def next_of(self, crate, kind):
        queue = self.queues.get((crate, kind), [])
        while queue:
            place = queue.pop(0)
            line = (place.crate, place.file, place.line)
            if line not in self.used:
                self.used.add(line)
                self.taken[kind] += 1
                return place
        return None

    def replace(self, slot):
        """Gives the slot the next place of its kind in its crate; where none is left, one of another kind."""
        crate, kind = slot.place.crate, slot.place.kind
        self.taken[kind] -= 1
        place = self.next_of(crate, kind) or self.next_in(crate, slot.number)
        if place is None:
            raise SystemExit(f"plant: {crate} has no place left in the stead of number {slot.number}")
        slot.replaced.append(slot.place)
        slot.place = place
