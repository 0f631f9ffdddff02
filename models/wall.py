#!/usr/bin/env python3
"""What crates/wall must print: the front door over the model of coding.

    models/wall.py < crates/wall/stdin > crates/wall/stdout

It shares nothing with the crates but the wording: the text is taken apart here by Python's own means, and the coding is models/coding.py.
"""
import re
import sys

sys.dont_write_bytecode = True
import coding  # noqa: E402

MOST_BYTES = 65536
MOST_SAMPLES = 4096


class Refused(Exception):
    """The number or (text), the byte at which it is told, and what is wrong there."""


def words(text, start, end):
    """The words of a part of the text, each with its place; then for ever an empty one at the part's end."""
    for word in re.finditer(rb"[^ \t\n\r]+", text[start:end]):
        yield start + word.start(), word.group()
    while True:
        yield end, b""


def number(word, least, most):
    """The word's number where it is one from least to most, and otherwise None. A minus is for numbers that may be below 0."""
    if not re.fullmatch(rb"-?[0-9]+" if least < 0 else rb"[0-9]+", word):
        return None
    if len(word.lstrip(b"-").lstrip(b"0")) > 20:
        return None  # far past 64 bits; Python itself gives up at some thousand digits
    value = (-1 if word.startswith(b"-") else 1) * int(word.lstrip(b"-").lstrip(b"0") or b"0")
    return value if least <= value <= most else None


def read(text):
    """The configuration and the samples, with the place of each word of the first line."""
    end = (text + b"\n").index(b"\n")
    line = words(text, 0, end)
    places, config = [], []
    for wanted, least, most in (
        ("a width was expected: 8, 16 or 32", 0, 32),
        ("an order was expected, a whole number from 1 to 32", 0, 2**64 - 1),
        ("a shift was expected, a whole number below twice the width", 0, 2**32 - 1),
        (f"a bias was expected, a whole number from {-(2**63)} to {2**63 - 1}", -(2**63), 2**63 - 1),
    ):
        at, word = next(line)
        value = number(word, least, most)
        if value is None or (not config and value not in (8, 16, 32)):
            raise Refused("(text)", at, wanted)
        places.append(at)
        config.append(value)
    weights = []
    while True:
        at, word = next(line)
        places.append(at)
        if not word or len(weights) == 33:
            break
        value = number(word, -(2**31), 2**31 - 1)
        if value is None:
            raise Refused("(text)", at, f"a weight was expected, a whole number from {-(2**31)} to {2**31 - 1}")
        weights.append(value)
    greatest = coding.numbers(config[0])[0]
    samples = []
    for at, word in words(text, end, len(text)):
        if not word:
            break
        if len(samples) == MOST_SAMPLES:
            raise Refused("(text)", at, f"the end was expected: a trace has at most {MOST_SAMPLES} samples")
        value = number(word, 0, greatest)
        if value is None:
            raise Refused("(text)", at, f"a sample was expected, a whole number from 0 to {greatest}")
        samples.append(value)
    return config, weights, samples, places


def refuse(answer, config, samples, places, text):
    width, order, shift, _ = config
    greatest, bits, _ = coding.numbers(width)
    raise Refused(
        answer,
        len(text) if answer == 5 else places[answer],
        {
            1: f"the order is {order}, and must be 1 to 32",
            2: f"the shift is {shift}, and must be below {bits}",
            3: f"the absolute bias plus {greatest} times the sum of the absolute weights must be at most {2 ** (bits - 1) - 1}",
            4: f"the weights must number {order}, which is the order",
            5: f"the trace has {len(samples)} samples, and must have at least {order}, which is the order",
        }[answer],
    )


def row(heading, numbers):
    """A heading, and the numbers below it, ten to a line."""
    yield heading
    for start in range(0, len(numbers), 10):
        yield "  " + " ".join(map(str, numbers[start : start + 10]))


def front_door(text):
    if len(text) > MOST_BYTES:
        raise Refused("(text)", MOST_BYTES, f"the end was expected: an input has at most {MOST_BYTES} bytes")
    config, weights, samples, places = read(text)
    width, order, shift, bias = config
    answer, buffer, array = coding.encode(width, order, shift, bias, weights, samples)
    if answer:
        refuse(answer, config, samples, places, text)
    middle = coding.numbers(width)[2]
    yield f"configuration: samples of {width} bits, order {order}, shift {shift}, bias {bias}, weights " + " ".join(map(str, weights))
    yield f"samples: {len(samples)}"
    yield from row("saved state:", samples[:order])
    yield f"residuals, sample - prediction + MID, where MID is {middle}; places are counted from 0:"
    outputs, start, length = [], order, 1
    while start < len(samples):
        piece = buffer[start : start + length]
        yield from row(f"a piece of {len(piece)}, from place {start} on:", piece)
        out, array = coding.decode(width, order, shift, bias, weights, array, piece)
        outputs += out
        start += len(piece)
        length = min(2 * length, 64)
    whole = outputs + array[:order] == samples
    yield f"whole: the {len(samples)} samples came back" if whole else "NOT WHOLE"


def printed(text):
    """All that the program prints, on any bytes."""
    try:
        return "".join(line + "\n" for line in list(front_door(text)))
    except Refused as fault:
        answer, at, wrong = fault.args
        before = text[:at].split(b"\n")
        return f"refused {answer}: line {len(before)}, column {len(before[-1]) + 1}: {wrong}\n"


if __name__ == "__main__":
    sys.stdout.write(printed(sys.stdin.buffer.read()))
