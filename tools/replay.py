#!/usr/bin/env python3
"""Replays a capture by docs/RULES.md, apart from the crates: the samples' tables are made by this.

usage: tools/replay.py packets|periods|words CAPTURE

It prints what the program of that name prints of a libpcap savefile, or, for `words`, what both say on standard error
behind their names. It was written from docs/RULES.md alone, but for the wording of that line, which is not laid down
there; where the two differ, this is wrong.
"""

import struct
import sys
from collections import Counter, deque
from dataclasses import dataclass, field

# The standard receiver.
PERIOD, LIMIT, SIZE, HIGH, LOW, HOLD = 64_000, 32_000, 32, 24, 8, 2
QUOTA = 4
BEARERS = (("ring", 8), ("mailbox", 4), ("ring", 16))
TAKE_COST = {"ring": 200, "mailbox": 120}
CLASS_COST = (420, 510, 590, 680, 760, 850, 930, 1020, 1100, 1190, 1270, 1360)
SIGNAL, BEGIN = 60, 80
MOST_OUT = 16

# The replay.
CYCLES_IN_A_MICROSECOND = 64
TASK = 2_000
MOST_PERIODS = 1_000

# Captures.
LONGEST, MOST_PACKETS, SECOND = 65_536, 1_024, 1_000_000
HEADER, RECORD_HEADER = 24, 16
MAGIC, VERSION = 0xA1B2C3D4, (2, 4)
REASONS = {
    9: "it is longer than 65,536 bytes",
    10: "it does not begin with a savefile's header",
    11: "a record runs past the end of the file",
    12: "a record has no captured data",
    13: "a record's bearer is not shown",
    14: "it has more than 1,024 packets",
    15: "a packet is a second or more after the first",
    16: "a packet's length is not 1 to 384 octets",
}


class Refused(Exception):
    def __init__(self, number, place=0):
        super().__init__(number, place)
        self.number, self.place = number, place


# Captures

@dataclass
class Packet:
    bearer: int
    length: int
    stamp: int


def byte_order(data):
    for order in "<>":
        if len(data) >= HEADER and struct.unpack_from(order + "IHH", data) == (MAGIC, *VERSION):
            return order
    raise Refused(10)


def record(data, at, order, packets):
    """The packet of the record at this offset, and where the next one begins."""
    if at + RECORD_HEADER > len(data):
        raise Refused(11, at)
    seconds, micros, captured, original = struct.unpack_from(order + "IIII", data, at)
    end = at + RECORD_HEADER + captured
    if end > len(data):
        raise Refused(11, at)
    if captured == 0:
        raise Refused(12, at)
    packet = Packet(data[at + RECORD_HEADER], original - 1, seconds * SECOND + micros)
    if packet.bearer >= len(BEARERS):
        raise Refused(13, at)
    if len(packets) == MOST_PACKETS:
        raise Refused(14, at)
    if packets and packet.stamp - packets[0].stamp >= SECOND:
        raise Refused(15, at)
    if not 1 <= packet.length <= 384:
        raise Refused(16, at)
    return packet, end


def read(data):
    if len(data) > LONGEST:
        raise Refused(9)
    order = byte_order(data)
    packets, at = [], HEADER
    while at < len(data):
        packet, at = record(data, at, order, packets)
        packets.append(packet)
    return packets


# The receiver

@dataclass
class Bearer:
    kind: str
    depth: int
    waiting: deque = field(default_factory=deque)
    armed: bool = False
    signal: bool = False

    def offer(self, number, length):
        if len(self.waiting) == self.depth:
            return False
        self.waiting.append((number, length))
        self.signal = self.signal or self.armed
        return True

    def take(self):
        taken = self.waiting.popleft() if self.waiting else None
        if not self.waiting:
            self.signal = False
        return taken

    def arm(self):
        if not self.armed:
            self.armed = True
            self.signal = self.kind == "ring" and bool(self.waiting)

    def disarm(self):
        self.armed = self.signal = False


class Receiver:
    """The standard receiver, configured. A step answers what it did, with a packet's number where there is one."""

    def __init__(self):
        self.bearers = [Bearer(kind, depth) for kind, depth in BEARERS]
        self.elapsed = self.used = self.offered = self.hold = self.numbered = 0
        self.periods = []
        self.poll_list, self.queue, self.out = deque(), deque(), deque()
        self.grant = None
        self.gate = True
        for bearer in self.bearers:
            bearer.arm()

    # time

    def charge(self, cycles):
        self.used += cycles
        self.pass_time(cycles)

    def pass_time(self, cycles):
        self.elapsed += cycles
        if self.elapsed >= PERIOD:
            self.periods.append((PERIOD - self.offered, self.offered))
            self.elapsed -= PERIOD
            self.used, self.offered = self.elapsed, 0
            self.hold = max(0, self.hold - 1)

    # the gate, at the end of each call

    def set_gate(self):
        is_open = self.used < LIMIT and self.hold == 0
        if self.gate and not is_open:
            for bearer in self.bearers:
                bearer.disarm()
        if is_open and not self.gate:
            for number, bearer in enumerate(self.bearers):
                self.listen(number, bearer)
        self.gate = is_open

    def listen(self, number, bearer):
        served = self.grant is not None and self.grant[0] == number
        if number not in self.poll_list and not served:
            bearer.arm()
            if bearer.waiting:
                bearer.disarm()
                self.poll_list.append(number)

    # the calls

    def arrive(self, number, length):
        packet, bearer = self.numbered, self.bearers[number]
        self.numbered += 1
        accepted = bearer.offer(packet, length)
        if accepted and bearer.signal:
            bearer.disarm()
            self.poll_list.append(number)
            self.charge(SIGNAL)
        self.set_gate()
        return packet, accepted

    def may_step(self):
        return self.grant is not None or (self.used < LIMIT and self.hold == 0 and bool(self.poll_list))

    def step(self):
        if self.grant is None:
            answer = self.begin()
        elif self.grant[1] > 0:
            answer = self.take()
        else:
            answer = self.close()
        self.set_gate()
        return answer

    def begin(self):
        self.grant = (self.poll_list.popleft(), QUOTA)
        self.charge(BEGIN)
        return "begun", None

    def take(self):
        number, left = self.grant
        taken = self.bearers[number].take()
        if taken is None:
            self.grant = (number, 0)
            return "empty", None
        packet, length = taken
        self.grant = (number, left - 1)
        self.charge(TAKE_COST[self.bearers[number].kind] + CLASS_COST[(length - 1) // 32])
        queued = len(self.queue) < SIZE
        if queued:
            self.queue.append(packet)
        if len(self.queue) >= HIGH:
            self.hold = HOLD
            self.grant = (number, 0)
        return "queued" if queued else "dropped", packet

    def close(self):
        number = self.grant[0]
        self.grant = None
        if self.bearers[number].waiting:
            self.poll_list.append(number)
            return "rescheduled", None
        if self.gate:
            self.bearers[number].arm()
        return "completed", None

    def work(self, cycles):
        assert 0 < cycles <= PERIOD - self.elapsed
        self.offered += cycles
        self.pass_time(cycles)
        self.set_gate()

    def fetch(self):
        assert len(self.out) < MOST_OUT
        packet = self.queue.popleft()
        self.out.append(packet)
        if len(self.queue) <= LOW:
            self.hold = 0
        self.set_gate()
        return packet

    def finish(self, packet):
        self.out.remove(packet)
        self.set_gate()


# The replay

MADE, STOP = "made", "stop"


class Replay:
    """Each turn does the first of the eight that applies. One that does not apply answers None."""

    def __init__(self, packets):
        self.receiver = Receiver()
        self.coming = deque(packets)
        self.first = packets[0].stamp if packets else 0
        self.task = None  # the application's packet, and its cycles to go
        self.fates = [None] * len(packets)
        self.turns = 0

    def run(self):
        rules = (self.stop_when_full, self.arrive, self.finish, self.step, self.work_on, self.fetch, self.stop_when_over, self.wait)
        while next(filter(None, (rule() for rule in rules))) == MADE:
            self.turns += 1
        for packet, fate in enumerate(self.fates):
            if fate is None:
                self.decide(packet, "waiting" if packet < self.receiver.numbered else "pending")
        return self

    def decide(self, packet, fate):
        self.fates[packet] = (fate, self.closed())

    def closed(self):
        return len(self.receiver.periods)

    def now(self):
        return self.closed() * PERIOD + self.receiver.elapsed

    def next_moment(self):
        return max(0, CYCLES_IN_A_MICROSECOND * (self.coming[0].stamp - self.first))

    def span(self):
        """Cycles to the period's end or, if that is sooner, to the next packet's moment."""
        to_end = PERIOD - self.receiver.elapsed
        return min(to_end, self.next_moment() - self.now()) if self.coming else to_end

    def stop_when_full(self):
        return STOP if self.closed() == MOST_PERIODS else None

    def arrive(self):
        if not self.coming or self.next_moment() > self.now():
            return None
        packet = self.coming.popleft()
        number, accepted = self.receiver.arrive(packet.bearer, packet.length)
        if not accepted:
            self.decide(number, "bearer-full")
        return MADE

    def finish(self):
        if self.task is None or self.task[1] > 0:
            return None
        packet, self.task = self.task[0], None
        self.receiver.finish(packet)
        self.decide(packet, "delivered")
        return MADE

    def step(self):
        if not self.receiver.may_step():
            return None
        did, packet = self.receiver.step()
        if did == "dropped":
            self.decide(packet, "queue-full")
        return MADE

    def work_on(self):
        if self.task is None:
            return None
        packet, to_go = self.task
        cycles = min(to_go, self.span())
        self.task = (packet, to_go - cycles)
        self.receiver.work(cycles)
        return MADE

    def fetch(self):
        if not self.receiver.queue:
            return None
        self.task = (self.receiver.fetch(), TASK)
        return MADE

    def stop_when_over(self):
        receiver = self.receiver
        held = self.coming or receiver.queue or receiver.out or any(bearer.waiting for bearer in receiver.bearers)
        return None if held else STOP

    def wait(self):
        self.receiver.work(self.span())
        return MADE


# Texts

def table(*rows):
    return "".join(",".join(map(str, row)) + "\r\n" for row in rows)


def packets_table(packets, replay):
    rows = ((i, p.bearer, p.length, *fate) for i, (p, fate) in enumerate(zip(packets, replay.fates)))
    return table(("packet", "bearer", "length", "fate", "period"), *rows)


def periods_table(packets, replay):
    return table(("period", "network", "application"), *((i, *period) for i, period in enumerate(replay.receiver.periods)))


def words(packets, replay):
    def several(count, thing):
        return f"{count} {thing}" + ("" if count == 1 else "s")

    made = (several(len(packets), "packet"), several(replay.turns, "turn"), several(replay.closed(), "period"))
    counts = Counter(fate for fate, _ in replay.fates)
    fates = (f"{counts[fate]} {fate}" for fate in ("delivered", "bearer-full", "queue-full", "waiting", "pending"))
    return ", ".join(made) + "; " + ", ".join(fates)


def refusal_words(refused):
    return f"the capture is refused with {refused.number}, place {refused.place}: {REASONS[refused.number]}"


TEXTS = {"packets": packets_table, "periods": periods_table, "words": words}


def main(text, path):
    with open(path, "rb") as file:
        data = file.read()
    try:
        packets = read(data)
        printed = TEXTS[text](packets, Replay(packets).run())
    except Refused as refused:
        printed = refusal_words(refused) if text == "words" else table((refused.number, refused.place))
    sys.stdout.write(printed + ("\n" if text == "words" else ""))


if __name__ == "__main__":
    if len(sys.argv) != 3 or sys.argv[1] not in TEXTS:
        sys.exit("usage: tools/replay.py packets|periods|words CAPTURE")
    main(*sys.argv[1:])
