#!/usr/bin/env python3
"""What the program `damaged` must print: an oracle for the reading of datagrams.

It works out from the format alone what each damaged datagram reads as, and shares no code with the library.

    tools/damaged.py > crates/damaged/stdout

The gate holds what the program prints to that file. A difference is a fault here, in the program or in the library:
decide by the definitions (crates/wire/specs/Datagrams.antt), and do not just write the file anew.

A line has the datagram's number, the group's letter, an index within the group, and what the bytes read as.
"""

DELTA, ACK = 1, 2
HEADER, COUNTED, PART = 10, 12, 10  # bytes: of a header, of a header with a count, and of a part


class Kind:
    """How many slots a kind has, and which levels each of them admits: from 1 to a cap."""

    def __init__(self, caps):
        self.caps = caps

    def admits(self, slot, level):
        return slot < len(self.caps) and 1 <= level <= self.caps[slot]


def pair(left, right):
    return Kind(left.caps + right.caps)


def four(kind):
    return Kind(kind.caps * 4)


COUNTER = Kind([2**32 - 1] * 8)
SET = Kind([1] * 256)
TWO_PHASE = pair(SET, SET)


# Writing


def little(number, width):
    return number.to_bytes(width, "little")


def header(length, sort, sender, receiver, number):
    return little(length, 2) + little(sort, 2) + little(sender, 1) + little(receiver, 1) + little(number, 4)


def ack(sender, receiver, number):
    return header(HEADER, ACK, sender, receiver, number)


def delta(sender, receiver, number, parts):
    opening = header(COUNTED + PART * len(parts), DELTA, sender, receiver, number)
    return opening + little(len(parts), 2) + b"".join(little(s, 2) + little(l, 8) for s, l in sorted(parts.items()))


# Reading


class Refused(Exception):
    pass


def field(data, at, width):
    return int.from_bytes(data[at : at + width], "little")


def read(kind, data):
    """What the bytes read as, in words; or Refused, with the lowest number that applies."""
    if len(data) < HEADER or field(data, 0, 2) != len(data):
        raise Refused(13)
    sort = field(data, 2, 2)
    if sort not in (DELTA, ACK):
        raise Refused(14)
    names = f"{data[4]} {data[5]} {field(data, 6, 4)}"
    if sort == ACK:
        if len(data) != HEADER:
            raise Refused(16)
        return f"ack {names}"
    shown = " ".join(f"{slot}:{level}" for slot, level in read_parts(kind, data))
    return f"delta {names} {{{shown}}}"


def read_parts(kind, data):
    if len(data) < COUNTED or len(data) != COUNTED + PART * field(data, 10, 2):
        raise Refused(16)
    parts = [(field(data, at, 2), field(data, at + 2, 8)) for at in range(COUNTED, len(data), PART)]
    slots = [slot for slot, _ in parts]
    if any(slot >= after for slot, after in zip(slots, slots[1:])):
        raise Refused(16)
    if not all(kind.admits(slot, level) for slot, level in parts):
        raise Refused(16)
    # In every kind here a join has the larger level at each slot. So parts whose slots rise are those of their join.
    return parts


# Damaging


def with_own_length(data):
    return little(len(data), 2) + data[2:]


def changed_bytes(good):
    for change in (lambda b: b ^ 0x01, lambda b: b ^ 0x80, lambda b: 0xFF):
        for i, byte in enumerate(good):
            yield good[:i] + bytes([change(byte)]) + good[i + 1 :]


def lengthened(good):
    for zeros in (1, 10):
        longer = good + bytes(zeros)
        yield longer
        yield with_own_length(longer)


def reordered(good):
    """The first two parts swapped, and the second part at the slot of the first; none where there are no two parts."""
    if len(good) < COUNTED + 2 * PART:
        return
    front, first, second, rest = good[:12], good[12:22], good[22:32], good[32:]
    yield front + second + first + rest
    yield front + first + first[:2] + second[2:] + rest


def overstepped(kind, good):
    """The other sort; the last part past the kind's slots; the first part past a counter's and a set's levels, and at none."""
    yield good[:2] + little(DELTA + ACK - field(good, 2, 2), 2) + good[4:]
    if len(good) < COUNTED + PART:
        return
    yield good[:-PART] + little(len(kind.caps), 2) + good[2 - PART :]
    for level in (2**32, 2, 0):
        yield good[:14] + little(level, 8) + good[22:]


def trials(kind, good):
    """The groups of damaged copies, each under its letter."""
    prefixes = [good[:n] for n in range(len(good))]
    yield "a", [good]
    yield "b", changed_bytes(good)
    yield "c", prefixes
    yield "d", map(with_own_length, prefixes[2:])
    yield "e", lengthened(good)
    yield "f", reordered(good)
    yield "g", overstepped(kind, good)


DATAGRAMS = [
    (COUNTER, ack(1, 0, 1)),
    (COUNTER, delta(0, 1, 1, {0: 5})),
    (COUNTER, delta(3, 2, 2**32 - 1, {0: 1, 3: 2**32 - 1, 7: 77})),
    (pair(COUNTER, SET), delta(0, 1, 258, {2: 9, 8: 1, 263: 1})),
    (four(SET), delta(6, 7, 65536, {0: 1, 511: 1, 1023: 1})),
    (TWO_PHASE, delta(1, 0, 9, {9: 1, 265: 1})),
    (COUNTER, delta(0, 1, 2, {})),
]


def main():
    for number, (kind, good) in enumerate(DATAGRAMS, 1):
        for letter, copies in trials(kind, good):
            for index, data in enumerate(copies):
                try:
                    answer = read(kind, data)
                except Refused as refusal:
                    answer = f"refused {refusal}"
                print(number, letter, index, answer)


if __name__ == "__main__":
    main()
