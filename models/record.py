#!/usr/bin/env python3
"""Prints what the program record_vectors must print, from document 01's section on the delta record; what is coded with a record that was
read is coding.py's.

usage: models/record.py > expected; compare with crates/record_vectors/stdout

A record is a tuple: ("nothing",), ("consecutive", order, flag), ("lookback", window, state, flag)
or ("conv1", shift, bias, order), beside it a list of 32 weights.
"""
import sys

sys.dont_write_bytecode = True
import coding  # noqa: E402

NONE = [0] * 32
EMPTY = (("nothing",), NONE)
GREATEST_WINDOW_LOG = 24


class Refused(Exception):
    pass


class BitSource:
    """The bits of some bytes, the low bit of each byte first, taken from the front."""

    def __init__(self, data):
        self.stream = [byte >> i & 1 for byte in data for i in range(8)]
        self.used = 0

    def take(self, width):
        if len(self.stream) < self.used + width:
            raise Refused(7)
        bits = self.stream[self.used : self.used + width]
        self.used += width
        return sum(bit << i for i, bit in enumerate(bits))


def parse(source, variants):
    if not variants:
        order = source.take(3)
        return (("consecutive", order, 0) if order else ("nothing",)), NONE
    variant = source.take(4)
    if variant == 0:
        return ("nothing",), NONE
    if variant == 1:
        order = source.take(3)
        if order == 0:
            raise Refused(9)
        return ("consecutive", order, source.take(1)), NONE
    if variant == 2:
        window = source.take(5) + 1
        state = source.take(4)
        if window > GREATEST_WINDOW_LOG or state > window:
            raise Refused(9)
        return ("lookback", window, state, source.take(1)), NONE
    if variant == 3:
        shift = source.take(5)
        bias = source.take(64) - 2**63
        order = source.take(5) + 1
        weights = [source.take(32) - 2**31 for _ in range(order)]
        return ("conv1", shift, bias, order), weights + [0] * (32 - order)
    raise Refused(8)


def read(data, variants=True):
    """The answer, the bits used, the record and its weights."""
    source = BitSource(data)
    try:
        record, weights = parse(source, variants)
    except Refused as refusal:
        return (refusal.args[0], 0) + EMPTY
    return 0, source.used, record, weights


def tests(record):
    kind = record[0]
    if kind == "conv1" and not 1 <= record[3] <= 32:
        raise Refused(1)
    if kind == "consecutive" and record[1] == 0:
        raise Refused(9)
    if kind == "lookback" and (record[1] > GREATEST_WINDOW_LOG or record[2] > record[1]):
        raise Refused(9)


def fields(record, weights):
    """The (value, width) pairs of a record."""
    kind = record[0]
    if kind == "nothing":
        return [(0, 4)]
    if kind == "consecutive":
        return [(1, 4), (record[1], 3), (record[2], 1)]
    if kind == "lookback":
        return [(2, 4), (record[1] - 1, 5), (record[2], 4), (record[3], 1)]
    head = [(3, 4), (record[1], 5), (record[2] + 2**63, 64), (record[3] - 1, 5)]
    return head + [(w + 2**31, 32) for w in weights[: record[3]]]


def write(record, weights, buffer):
    """The answer and the bits; the buffer is changed where the answer is 0."""
    try:
        tests(record)
        pairs = fields(record, weights)
        if any(not 0 <= value < 2**width for value, width in pairs):
            raise Refused(10)
        bits = [value >> i & 1 for value, width in pairs for i in range(width)]
        size = -(-len(bits) // 8)
        if size > len(buffer):
            raise Refused(11)
    except Refused as refusal:
        return refusal.args[0], 0
    padded = bits + [0] * (8 * size - len(bits))
    buffer[:size] = bytes(sum(padded[8 * j + i] << i for i in range(8)) for j in range(size))
    return 0, len(bits)


def spelled(record):
    words = [str(part) for part in record]
    if record[0] in ("consecutive", "lookback"):
        words[-1] = "on" if record[-1] else "off"
    return "".join(" " + word for word in words)


def reading(data, variants=True):
    answer, bits, record, weights = read(data, variants)
    shown = "".join(f" {i}: {w}" for i, w in enumerate(weights) if w)
    return f" {answer} {bits}{spelled(record)}{shown}"


def hexed(data):
    return "".join(f" {byte:02x}" for byte in data)


def say_write(record, weights, room):
    buffer = bytearray(b"\xff" * room)
    answer, bits = write(record, weights, buffer)
    print(f"w{spelled(record)} {room} : {answer} {bits}{hexed(buffer)}")
    print(" " + reading(buffer))


def say_read(data, variants=True):
    print(f"r{hexed(data)} {':' if variants else 'old:'}{reading(data, variants)}")


def say_truncations(record, weights):
    buffer = bytearray(144)
    bits = write(record, weights, buffer)[1]
    answers = "".join(f" {read(buffer[:n])[0]}" for n in range(bits // 8 + 3))
    print(f"t{spelled(record)} :{answers}")


def digest(record):
    if record[0] == "nothing":
        return 1
    if record[0] == "consecutive":
        return 16 + record[1] * 2 + record[2]
    return 1024 + record[1] * 32 + record[2] * 2 + record[3]


def say_every_two_bytes(variants):
    counts = dict.fromkeys((0, 1, 7, 8, 9), 0)
    total = 0
    for n in range(65536):
        answer, bits, record, weights = read(n.to_bytes(2, "little"), variants)
        counts[answer] += 1
        back = bytearray(b"\xff\xff")
        written = write(record, weights, back)[1]
        seen = digest(record) + bits * 65536
        left = int.from_bytes(back, "little") + written * 65536
        total = (total * 31 + seen + left * 17) % 1000003
    name = "all" if variants else "all old"
    print(name, *counts.values(), total)


def say_coding(data):
    """Three samples of 8 bits, coded with the record that the bytes are."""
    answer, bits, record, weights = read(data, True)
    line = [answer, bits]
    if record[0] == "conv1":
        _, shift, bias, order = record
        coded, samples, _ = coding.encode(8, order, shift, bias, weights[:order], [10, 12, 11])
        line += [coded, *samples]
    print("c", *line)


def main():
    for order, flag, room in ((0, 0, 0), (0, 1, 1), (1, 0, 0), (1, 0, 1), (3, 1, 2), (7, 1, 1), (8, 0, 0), (2**64 - 1, 0, 1)):
        if (order, room) == (0, 0):
            for space in (0, 1, 3):
                say_write(("nothing",), NONE, space)
        say_write(("consecutive", order, flag), NONE, room)
    for window, state, flag, room in (
        (0, 0, 0, 0), (0, 1, 0, 2), (1, 0, 0, 1), (1, 0, 0, 2), (1, 1, 1, 3), (1, 2, 0, 2), (24, 4, 0, 2),
        (24, 15, 1, 2), (24, 16, 0, 0), (25, 0, 0, 2), (25, 26, 0, 0), (2**32 - 1, 2**32 - 1, 1, 2),
    ):
        say_write(("lookback", window, state, flag), NONE, room)
    one = [1, 5] + [-5] * 30
    two = [-1, 2] + [77] * 30
    least, greatest = [-(2**31)] * 32, [2**31 - 1] * 32
    for shift, bias, order, weights, room in (
        (0, 0, 0, one, 14), (32, 0, 33, one, 0), (32, 0, 1, one, 0), (2**32 - 1, 0, 1, one, 14), (0, 0, 1, one, 13),
        (0, 0, 1, one, 14), (0, 0, 1, one, 16), (31, -1, 2, two, 18), (31, -(2**63), 32, least, 137),
        (31, -(2**63), 32, least, 138), (31, 2**63 - 1, 32, greatest, 140), (5, 1, 2**64 - 1, greatest, 140),
    ):
        say_write(("conv1", shift, bias, order), weights, room)
    for text in (
        "", "00", "f0", "01", "b1", "f1", "02", "f2", "0200", "02c0", "0222", "7209", "8201", "0204", "04", "0f", "f400",
        "0300000000000000004100000020", "f3ffffffffffffffffc2ffffff9f00000020",
    ):
        say_read(bytes.fromhex(text))
    for text in ("", "ff", "08", "01", "04"):
        say_read(bytes.fromhex(text), False)
    for record, weights in (
        (("nothing",), NONE), (("consecutive", 7, 1), NONE), (("lookback", 24, 15, 1), NONE), (("conv1", 0, 0, 1), NONE),
        (("conv1", 31, -1, 2), [-1, 2] + [0] * 30), (("conv1", 31, -(2**63), 32), least),
    ):
        say_truncations(record, weights)
    say_every_two_bytes(True)
    say_every_two_bytes(False)
    for text in (
        "0300000000000000004100000020", "f301000000000000004100000020", "0300000000000000004120000020",
        "0300000000000000000700000020000000200000002000000020", "03000000000000000041000000",
    ):
        say_coding(bytes.fromhex(text))


if __name__ == "__main__":
    sys.exit(main())
