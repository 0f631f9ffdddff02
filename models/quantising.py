#!/usr/bin/env python3
"""Document 01's six steps of quantising, and what crates/quantising_vectors must print by them.

usage: models/quantising.py > expected; compare with crates/quantising_vectors/stdout

Sums, products and the quotient are single binary64 operations, as document 01 has them; the exponent, the rounding and the cut are
worked out in exact fractions.
"""
from fractions import Fraction
from math import isfinite, nan, inf

GREATEST_SHIFT = 31
HELD = 77  # what the lent slice holds before a call


class Refused(Exception):
    pass


def exponent(x):
    """The greatest e with 2^e not above x."""
    exact, e = Fraction(x), 0
    while Fraction(2) ** e > exact:
        e -= 1
    while Fraction(2) ** (e + 1) <= exact:
        e += 1
    return e


def nearest(x):
    """To the nearest integer, halves away from zero."""
    size = abs(Fraction(x)) + Fraction(1, 2)
    whole = size.numerator // size.denominator
    return whole if x >= 0 else -whole


def cut(x):
    """Toward zero."""
    size = abs(Fraction(x))
    whole = size.numerator // size.denominator
    return whole if x >= 0 else -whole


def within(bits, whole, x):
    """The whole number that x goes to, or None where that is outside the signed numbers of so many bits."""
    if not isfinite(x):
        return None
    n = whole(x)
    return n if -(2 ** (bits - 1)) <= n < 2 ** (bits - 1) else None


def steps(width, weights, c, centre):
    greatest, limit = 2**width - 1, 2 ** (2 * width - 1) - 1
    total = total_of_sizes = 0.0
    for weight in weights:
        total = total + weight
        total_of_sizes = total_of_sizes + abs(weight)
    if not isfinite(total) or not isfinite(total_of_sizes):
        raise Refused(6)
    float_bias = (1.0 - total) * float(centre)
    float_bias = float_bias + c
    divisor = total_of_sizes * float(greatest)
    divisor = divisor + abs(float_bias)
    divisor = divisor + 1.0
    if not isfinite(divisor):
        raise Refused(6)
    shift = min(exponent(float(limit) / divisor) - 1, GREATEST_SHIFT, 2 * width - 1)
    if shift < 0:
        raise Refused(6)
    scale = float(2**shift)
    whole = [within(32, nearest, weight * scale) for weight in weights]
    bias = within(64, cut, float_bias * scale)
    if bias is None or None in whole or abs(bias) + greatest * sum(map(abs, whole)) > limit:
        raise Refused(6)
    return shift, bias, whole


def quantise(width, order, weights, c, centre, places):
    if not 1 <= order <= 32:
        raise Refused(1)
    if places != order:
        raise Refused(4)
    return steps(width, weights[:order], c, centre)


def line(width, order, weights, c, centre, places):
    try:
        shift, bias, whole = quantise(width, order, weights, c, centre, places)
        numbers = [0, shift, bias] + whole
    except Refused as refused:
        numbers = [refused.args[0], 0, 0] + [HELD] * places
    print(f"{width}: " + " ".join(map(str, numbers)))


def one(width, weight, c, centre=0):
    line(width, 1, [weight], c, centre, 1)


def each(weight, c):
    for width in 8, 16, 32:
        one(width, weight, c)


def two(first, second, c):
    for width in 8, 16, 32:
        line(width, 2, [first, second], c, 1, 2)


def integers(bits, whole, floats):
    for x in floats:
        n = within(bits, whole, x)
        print("outside" if n is None else n)


print("worked")
one(8, 1.0, 0.0, 100)
one(8, 0.3, 0.1, 7)
one(32, 4194304.000976557, 26.0)
one(32, 1.0, 0.0)
one(16, 1.0, 0.0, 30000)
one(32, -0.75, 1000000000.5, 4294967295)
one(8, 0.0, -1.999)
two(-1.0, 2.0, 0.0)
two(0.1, 0.2, -0.3)

print("halves, at shift 0")
for weight in 2.5, -2.5, 0.5, -0.5, 0.49999999999999994, -0.49999999999999994, 1.5:
    one(8, weight, 10000.0)
one(8, 3.5, -10000.0)

print("exponents")
for width, biases in (
    (8, (126.99609374999999, 126.99609375, 126.99609375000001)),
    (16, (126.99999994039534, 126.99999994039536, 126.99999994039537)),
    (32, (8589934590.999999, 8589934591.0, 8589934591.000002)),
):
    for c in biases:
        one(width, 0.0, c)

print("shifts")
each(0.0, 0.0)
each(-0.0, -0.0)
one(8, 64.0, 62.5)
one(8, 64.0, 62.50000001)
one(8, 64.25, 0.0)
one(16, 16384.0, 16382.5)
one(16, 16384.0, 16382.50001)
one(32, 1073741824.0, 1073741824.0)
one(32, 1073741824.0, 1073743824.0)
one(32, -1073741824.0, -1073741824.0)

print("to 32 bits, to the nearest")
integers(32, nearest, (2147483647.0, 2147483647.4999995, 2147483647.5, 2147483648.0, -2147483648.0, -2147483648.4999995))
integers(32, nearest, (-2147483648.5, 4503599627370495.5, inf, nan, 5e-324))
print("to 64 bits, cut")
integers(64, cut, (9223372036854774784.0, 9223372036854775808.0, -9223372036854775808.0, -9223372036854777856.0))
integers(64, cut, (-0.9999999999999999, 4503599627370495.5, -inf, nan))

print("not finite")
for first, second, c in (
    (nan, 1.0, 0.0),
    (1.0, nan, 0.0),
    (inf, 1.0, 0.0),
    (1.0, -inf, 0.0),
    (inf, -inf, 0.0),
    (1.0, 1.0, nan),
    (1.0, 1.0, inf),
    (1.0, 1.0, -inf),
):
    two(first, second, c)
print("sums and products that overflow")
two(1e308, 1e308, 0.0)
two(1e308, -1e308, 0.0)
two(8e307, -8e307, 0.0)
two(0.0, 0.0, 1.7976931348623157e308)
print("the least floats")
two(5e-324, -5e-324, 5e-324)

print("order and length")
line(8, 0, [1.0, 1.0], 0.0, 0, 1)
line(16, 33, [1.0, 1.0], 0.0, 0, 1)
line(32, 2, [1.0, 1.0], 0.0, 0, 1)
line(32, 0, [nan, 1.0], 0.0, 0, 1)
line(16, 32, [nan, 1.0], 0.0, 0, 1)
print("all 32 places")
line(16, 32, [-0.03125] * 32, 0.5, 65535, 32)
