#!/usr/bin/env python3
"""Document 01's rule in whole numbers that never wrap, and what crates/coding_vectors must print by it.

    models/coding.py > crates/coding_vectors/stdout

It shares nothing with the crates but the cases: the rule is written here a second time, from the document.
"""

MOST = 2048


def numbers(width):
    """M, A and MID."""
    return 2**width - 1, 2 * width, 2 ** (width - 1)


def admitted(width, bias, weights):
    greatest, bits, _ = numbers(width)
    return abs(bias) + greatest * sum(abs(w) for w in weights) <= 2 ** (bits - 1) - 1


def refusal(width, order, shift, bias, weights, state, count=None):
    """The first test that fails, in the order 1, 2, 4, 3, 5."""
    if not 1 <= order <= 32:
        return 1
    if shift >= numbers(width)[1]:
        return 2
    if len(weights) != order or state != order:
        return 4
    if not admitted(width, bias, weights):
        return 3
    if count is not None and count < order:
        return 5
    return 0


def predict(width, shift, bias, weights, window):
    total = bias + sum(w * x for w, x in zip(weights, window))
    return max(total, 0) // 2**shift % 2**width


def encode(width, order, shift, bias, weights, samples):
    """The answer, the buffer and the saved state's array."""
    answer = refusal(width, order, shift, bias, weights, order, len(samples))
    if answer:
        return answer, samples, [0] * 32
    middle = numbers(width)[2]
    buffer = []
    for i, sample in enumerate(samples):
        less = predict(width, shift, bias, weights, samples[i - order : i]) if i >= order else 0
        buffer.append((sample - less + middle) % 2**width)
    return 0, buffer, samples[:order] + [0] * (32 - order)


def decode(width, order, shift, bias, weights, array, piece):
    """The piece and the state's array afterwards."""
    known = array[:order]
    for residual in piece:
        sample = residual - numbers(width)[2] + predict(width, shift, bias, weights, known[-order:])
        known.append(sample % 2**width)
    return known[: len(piece)], known[len(piece) :] + array[order:]


# ---- the cases


def row(seed):
    return (seed % 4294967291 * 1664525 + 1013904223) % 4294967291


def check_sum(samples):
    total = 7
    for x in samples:
        total = (total * 65599 + x) % 4294967291
    return total


def trace(width, n):
    seed, samples = 1, []
    for _ in range(n):
        seed = row(seed)
        samples.append(seed // 7 % 2**width)
    return samples


def weights_around(order, spread):
    seed, weights = 3, []
    for _ in range(order):
        seed = row(seed)
        weights.append(seed // 7 % (2 * spread + 1) - spread)
    return weights


def case(width, order, shift, bias, weights, n):
    samples = trace(width, n)
    answer, buffer, array = encode(width, order, shift, bias, weights, samples)
    line = f"{width} {order} {shift} {bias} {n}: {answer} {check_sum(buffer)} {check_sum(array)}"
    if answer == 0 and order < n:
        outputs = []
        for start in range(order, n, 37):
            out, array = decode(width, order, shift, bias, weights, array, buffer[start : start + 37])
            outputs += out
        line += f" {check_sum(outputs)} {check_sum(array)}"
        line += " whole" if outputs == samples[: n - order] else " BROKEN"
        line += " whole" if array[:order] == samples[n - order :] else " BROKEN"
    print(line)  # the general way
    print(line)  # the way that a user calls: the same, by the rule


def at_widths(order, n):
    case(8, order, 1, -100, weights_around(order, 3), n)
    case(16, order, 9, -70000, weights_around(order, 900), n)
    case(32, order, 15, 8000000000, weights_around(order, 60000), n)


def main():
    for order in range(1, 33):
        for n in (order, 511 + order, 1025):
            at_widths(order, n)
    for order in (1, 2, 6, 32):
        for n in (order + 1, 511, 512, 513, 514, 543, 544, 545, 1023, 1024, 1055, 1056, 1537, 2016):
            at_widths(order, n)
    least, low = -(2**63), -(2**31)
    for edge in (
        (8, 1, 0, 127, [128]),
        (8, 1, 0, 128, [128]),
        (8, 1, 15, -127, [-128]),
        (8, 1, 0, -128, [-128]),
        (8, 1, 16, 0, [1]),
        (8, 2, 0, 0, [64, 64]),
        (8, 2, 6, 0, [-64, 128]),
        (8, 1, 0, least, [0]),
        (16, 1, 0, 32767, [32768]),
        (16, 1, 0, 65535, [32768]),
        (16, 1, 0, 0, [32769]),
        (16, 1, 31, -65535, [-32767]),
        (16, 1, 32, 0, [1]),
        (32, 1, 0, 0, [2**31 - 1]),
        (32, 1, 0, 2**31 - 1, [low]),
        (32, 1, 0, 2**31, [low]),
        (32, 1, 63, least + 1, [0]),
        (32, 1, 0, least, [0]),
        (32, 1, 64, 0, [1]),
        (32, 3, 0, 0, [low, low, 2]),
        (32, 1, 0, 0, [2]),
    ):
        case(*edge, 600)
    case(16, 0, 0, 0, [], 5)
    case(16, 33, 0, 0, [0] * 33, 50)
    case(16, 33, 32, 0, [0], 5)
    case(16, 2, 32, 0, [0], 1)
    case(16, 2, 31, 0, [0], 1)
    case(16, 2, 0, 0, [low] * 3, 1)
    case(16, 2, 0, 0, [low] * 2, 1)
    case(16, 2, 0, 0, [0] * 2, 1)
    case(16, 2, 0, 0, [0] * 2, 0)
    case(16, 2, 0, 0, [0] * 2, 2)
    case(32, 32, 63, least, [low] * 32, 100)
    case(32, 32, 63, 0, [0] * 32, 31)
    case(8, 32, 15, 0, [0] * 32, 32)


if __name__ == "__main__":
    main()
