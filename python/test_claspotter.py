"""Tests of the Python module, against the built shared library.

    tools/shared                                 # writes target/native/libclaspotter.so.1
    python3 -m unittest discover -s python       # from the repository; or python3 python/test_claspotter.py

CLASPOTTER_LIBRARY says which library is tested; without it, the one that tools/shared writes, where it is there.
"""

import ctypes
import os
import pathlib
import pickle
import random
import re
import sys
import unittest
from array import array

HERE = pathlib.Path(__file__).resolve().parent
BUILT = HERE.parent / "target" / "native" / "libclaspotter.so.1"
if "CLASPOTTER_LIBRARY" not in os.environ and BUILT.exists():
    os.environ["CLASPOTTER_LIBRARY"] = str(BUILT)
sys.dont_write_bytecode = True
sys.path.insert(0, str(HERE))
import claspotter  # noqa: E402
from claspotter import Config, Record, Refusal, Refused, Variant, Way  # noqa: E402

LETTERS = {8: "B", 16: "H", 32: "I"}


# ---- a plain model of the rule, in whole numbers that never wrap


def predict(width, config, window):
    total = config.bias + sum(w * x for w, x in zip(config.weights, window))
    return max(total, 0) // 2**config.shift % 2**width


def encoded(width, config, samples):
    """The whole buffer after encoding."""
    k, middle = len(config.weights), 2 ** (width - 1)
    less = [predict(width, config, samples[i - k : i]) if i >= k else 0 for i in range(len(samples))]
    return [(x - p + middle) % 2**width for x, p in zip(samples, less)]


def admitted(width, config):
    return abs(config.bias) + (2**width - 1) * sum(map(abs, config.weights)) <= 2 ** (2 * width - 1) - 1


def little(width, entries):
    return b"".join(x.to_bytes(width // 8, "little") for x in entries)


class Coding(unittest.TestCase):
    # mark, width, weights, bias, shift, samples, buffer
    TABLE = [
        ("T1", 8, (1,), 0, 0, [10, 12, 11], [138, 130, 127]),
        ("T2", 8, (-1, 2), 0, 0, [10, 12, 14, 15], [138, 140, 128, 127]),
        ("T3", 8, (-1,), 0, 0, [5, 3], [133, 131]),
        ("T4", 8, (0,), -1, 1, [9, 9], [137, 137]),
        ("T5", 8, (2,), 0, 0, [200, 150], [72, 134]),
        ("T6", 8, (3,), 1, 2, [7, 6], [135, 129]),
        ("T7", 8, (1,), 0, 0, [255, 0], [127, 129]),
        ("T8", 8, (-1, 2), 0, 0, [4, 5], [132, 133]),
        ("T9", 16, (1,), 0, 0, [1000, 1003], [33768, 32771]),
        ("T10", 32, (1,), 0, 0, [0, 4294967295], [2147483648, 2147483647]),
    ]

    def test_the_table(self):
        for mark, width, weights, bias, shift, samples, buffer in self.TABLE:
            with self.subTest(mark):
                config, k = Config(weights, shift, bias), len(weights)
                self.assertEqual(encoded(width, config, samples), buffer, "the model")
                lent = array(LETTERS[width], samples)
                state = claspotter.encode_in_place(config, lent)
                self.assertEqual((list(lent), list(state), state.typecode), (buffer, samples[:k], lent.typecode))
                piece = lent[k:]
                claspotter.decode_in_place(config, state, piece)
                self.assertEqual(list(piece + state), samples)
                as_bytes = bytearray(little(width, samples))
                state = claspotter.encode_in_place(config, as_bytes, width=width)
                self.assertEqual((bytes(as_bytes), bytes(state)), (little(width, buffer), little(width, samples[:k])))

    def test_t11_both_ways(self):
        for way in Way:
            state, piece = array("B", [1, 2, 3, 4, 5, 6]), array("B", [129])
            claspotter.decode_in_place(Config((0, 0, 0, 0, 0, 1)), state, piece, way=way)
            self.assertEqual((list(state), list(piece)), ([2, 3, 4, 5, 6, 7], [1]))

    def test_t12_an_empty_piece_changes_nothing(self):
        state = array("B", [10, 12])
        for piece in (array("B"), bytearray(), memoryview(bytearray(4))[2:2]):
            claspotter.decode_in_place(Config((-1, 2)), state, piece)
        self.assertEqual(list(state), [10, 12])

    def test_random_calls_go_by_the_rule(self):
        source, compared = random.Random(1), 0
        for _ in range(1500):
            width = source.choice([8, 16, 32])
            k = source.choice([1, 2, 6, 32, source.randint(1, 32)])
            most = 2 ** (width - 1) // k
            config = Config(
                [source.randint(-most, most - 1) for _ in range(k)],
                source.randrange(2 * width),
                source.randint(-(2**width), 2**width),
            )
            self.assertEqual(claspotter.admits(config, width), admitted(width, config))
            if not admitted(width, config):
                continue
            compared += 1
            samples = [source.randrange(2**width) for _ in range(k + source.randrange(60))]
            right = encoded(width, config, samples)
            by_bytes = source.random() < 0.3
            given = little(width, samples) if by_bytes else array(LETTERS[width], samples)
            say = {"width": width} if by_bytes else {}
            state, residuals = claspotter.encode(config, given, **say)
            first = bytes(state) if by_bytes else state.tobytes()
            rest = bytes(residuals) if by_bytes else residuals.tobytes()
            self.assertEqual((first, rest), (little(width, samples[:k]), little(width, right[k:])))
            # In pieces, within one buffer.
            lent, at, whole = memoryview(residuals), 0, len(residuals)
            step = width // 8 if by_bytes else 1
            while at < whole:
                end = min(whole, at + step * source.randrange(40))
                way = source.choice([Way.CHOSEN, Way.GENERAL])
                claspotter.decode_in_place(config, state, lent[at:end], way=way, **say)
                at = end
            self.assertEqual(lent.tobytes() + memoryview(state).tobytes(), little(width, samples))
        self.assertGreater(compared, 500)

    def test_buffers_of_many_kinds(self):
        config, samples = Config((-1, 2)), [10, 12, 14, 15, 20]
        right = encoded(16, config, samples)
        data = little(16, samples)
        kinds = {
            "array H": array("H", samples),
            "cast bytearray": memoryview(bytearray(data)).cast("H"),
            "ctypes": (ctypes.c_uint16 * 5)(*samples),
            "part of an array": memoryview(array("H", [7] + samples + [7]))[1:6],
            "at an odd address": memoryview(bytearray(b"\7" + data + b"\7"))[1:11].cast("H"),
        }
        for name, lent in kinds.items():
            with self.subTest(name):
                state = array("H", [0, 0])
                self.assertIs(claspotter.encode_in_place(config, lent, state), state)
                self.assertEqual((list(lent), list(state)), (right, samples[:2]))
                with memoryview(lent) as view, view.cast("B") as flat, flat[4:] as part, part.cast("H") as piece:
                    claspotter.decode_in_place(config, state, piece)
                    self.assertEqual(list(piece) + list(state), samples)
        whole = memoryview(kinds["part of an array"].obj)
        self.assertEqual((whole[0], whole[6]), (7, 7))

    def test_entries_at_an_odd_address_go_over_bytes(self):
        called = []
        function = claspotter._function
        claspotter._function = lambda name: called.append(name) or function(name)
        try:
            lent = memoryview(bytearray(9))
            for part in (lent[0:8].cast("H"), lent[1:9].cast("H"), lent[1:9].cast("I"), lent[1:9]):
                claspotter.encode_in_place(Config((1,)), part)
        finally:
            claspotter._function = function
        # A bytearray's own memory is aligned.
        self.assertEqual(called, ["encode_u16", "encode_bytes_16", "encode_bytes_32", "encode_u8"])

    def test_what_is_copied_stays(self):
        config, samples = Config((1,)), array("H", [1, 2, 3])
        state, residuals = claspotter.encode(config, samples)
        self.assertEqual(list(samples), [1, 2, 3])
        after, out = claspotter.decode(config, state, residuals)
        self.assertEqual((list(out), list(after)), ([1, 2], [3]))
        self.assertEqual((list(state), list(residuals)), ([1], [32769, 32769]))
        self.assertEqual(claspotter.encode(config, b"\1\2\3"), (array("B", [1]), array("B", [129, 129])))
        self.assertEqual(claspotter.encode(config, b"\1\0\2\0", width=16), (bytearray(b"\1\0"), bytearray(b"\1\x80")))

    def test_nothing_is_held_after_a_call(self):
        samples, signed = array("H", [1, 2, 3]), array("h", [1])
        caught = []
        for call in (
            lambda: claspotter.encode_in_place(Config((1,)), samples),
            lambda: claspotter.encode_in_place(Config((1,) * 32), samples),
            lambda: claspotter.decode_in_place(Config((1,)), samples, array("B", [1])),
            lambda: claspotter.decode_in_place(Config((1,)), samples, b"1"),
            lambda: claspotter.decode_in_place(Config((1,)), samples, samples),
            lambda: claspotter.decode_in_place(Config((1,)), signed, samples),
        ):
            try:
                call()
            except (Refused, TypeError, ValueError) as error:
                caught.append(error)
            samples.append(4)  # a BufferError where the array is still lent
            signed.append(4)
        self.assertEqual(len(caught), 5)


class Refusals(unittest.TestCase):
    def refused(self, number, call, *arguments, **more):
        with self.assertRaises(Refused) as caught:
            call(*arguments, **more)
        self.assertEqual(caught.exception.number, number)
        return caught.exception

    def test_every_number_of_coding(self):
        for number, config, places in [
            (1, Config(()), 0),
            (1, Config((0,) * 33), 33),
            (1, Config((1,), order=2**64 - 1), 1),
            (2, Config((1,), shift=32), 1),
            (2, Config((1,), shift=2**32 - 1), 1),
            (4, Config((1,), order=2), 2),
            (4, Config((1,)), 2),
            (3, Config((32769,)), 1),
            (3, Config((0,), bias=-(2**63)), 1),
        ]:
            with self.subTest(number=number, config=config):
                samples, state = array("H", [1, 2, 3]), array("H", [9] * places)
                self.refused(number, claspotter.encode_in_place, config, samples, state)
                self.refused(number, claspotter.decode_in_place, config, state, samples)
                self.assertEqual((list(samples), list(state)), ([1, 2, 3], [9] * places))
        self.refused(5, claspotter.encode_in_place, Config((1, 1)), array("H", [1]))
        self.refused(1, claspotter.decode_in_place, Config((1,)), array("H", [1]), array("H", [1]), way=Way.ORDER_SIX)

    def test_the_state_that_is_made_hides_no_refusal(self):
        self.refused(1, claspotter.encode_in_place, Config(()), array("H", [1]))
        self.refused(1, claspotter.encode_in_place, Config((1,), order=2**64 - 1), array("H", [1]))
        self.refused(4, claspotter.encode_in_place, Config((1,), order=2), array("H", [1]))

    def test_empty_buffers(self):
        for width, letter in LETTERS.items():
            for nothing in (array(letter), memoryview(array(letter))):
                self.refused(5, claspotter.encode_in_place, Config((1,)), nothing)
                self.refused(4, claspotter.decode_in_place, Config((1,)), nothing, array(letter))
            self.refused(5, claspotter.encode_in_place, Config((1,)), bytearray(), width=width)
            self.refused(4, claspotter.decode_in_place, Config((1,)), bytearray(), bytearray(), width=width)
        self.refused(5, claspotter.encode, Config((1,)), b"")
        self.refused(7, claspotter.read_record, b"")
        self.refused(11, claspotter.write_record_into, Record(Variant.NOTHING), bytearray())

    def test_ragged_bytes(self):
        self.refused(4, claspotter.encode, Config((1,)), b"\1\0\2", width=16)
        self.refused(4, claspotter.decode, Config((1,)), b"\1\0\2\0\3", b"", width=32)

    def test_what_a_refusal_says(self):
        error = self.refused(5, claspotter.encode, Config((1,)), b"")
        self.assertEqual(str(error), "refused 5: there are fewer samples than the order")
        again = pickle.loads(pickle.dumps(error))
        self.assertEqual((again.number, again.text), (error.number, error.text))
        self.assertEqual(Refusal(error.number), Refusal.TOO_FEW_SAMPLES)
        self.assertEqual(Refused(12).text, "no answer of this version")


class CannotBeCalled(unittest.TestCase):
    def test_read_only_buffers(self):
        config, state = Config((1,)), array("B", [1])
        for buffer in (b"123", memoryview(b"123"), memoryview(bytearray(b"123")).toreadonly()):
            with self.assertRaisesRegex(TypeError, "samples: the buffer is read-only"):
                claspotter.encode_in_place(config, buffer)
            with self.assertRaisesRegex(TypeError, "piece: the buffer is read-only"):
                claspotter.decode_in_place(config, state, buffer)
            with self.assertRaisesRegex(TypeError, "state: the buffer is read-only"):
                claspotter.decode_in_place(config, buffer, array("B", [1]))
            with self.assertRaisesRegex(TypeError, "buffer: the buffer is read-only"):
                claspotter.write_record_into(Record(0), buffer)
            claspotter.encode(config, buffer)

    def test_entries_of_a_wrong_type(self):
        for letter in "bhilqLQfd":
            if letter == "L" and array("L").itemsize == 4:
                continue
            with self.subTest(letter), self.assertRaisesRegex(TypeError, "unsigned, of 8, 16 or 32 bits"):
                claspotter.encode_in_place(Config((1,)), array(letter, [1, 2]))
            with self.subTest(letter), self.assertRaisesRegex(TypeError, "unsigned, of 8, 16 or 32 bits"):
                claspotter.encode(Config((1,)), array(letter, [1, 2]))
        with self.assertRaisesRegex(TypeError, "state has entries of 2 bytes and piece of 1"):
            claspotter.decode_in_place(Config((1,)), array("H", [1]), array("B", [1]))
        big = (ctypes.c_uint16.__ctype_be__ * 2)(1, 2)
        with self.assertRaisesRegex(TypeError, "unsigned, of 8, 16 or 32 bits"):
            claspotter.encode_in_place(Config((1,)), big)
        with self.assertRaises(TypeError):
            claspotter.encode_in_place(Config((1,)), [1, 2, 3])

    def test_gaps(self):
        with self.assertRaisesRegex(ValueError, "without gaps"):
            claspotter.encode_in_place(Config((1,)), memoryview(bytearray(6))[::2])
        with self.assertRaisesRegex(ValueError, "without gaps"):
            claspotter.encode(Config((1,)), memoryview(bytes(6)).cast("B", (2, 3)))

    def test_overlap(self):
        lent = bytearray(8)
        for state, piece in ((lent, lent), (memoryview(lent)[:2], memoryview(lent)[1:])):
            with self.assertRaisesRegex(ValueError, "overlap"):
                claspotter.decode_in_place(Config((1,)), state, piece)
        claspotter.decode_in_place(Config((1,)), memoryview(lent)[:1], memoryview(lent)[1:])

    def test_numbers_that_cannot_be_passed(self):
        for say in (
            {"weights": (2**31,)},
            {"weights": (-(2**31) - 1,)},
            {"weights": (1,), "shift": -1},
            {"weights": (1,), "shift": 2**32},
            {"weights": (1,), "bias": 2**63},
            {"weights": (1,), "order": 2**64},
            {"weights": (1,), "order": -2},
        ):
            with self.subTest(say), self.assertRaises(ValueError):
                Config(**say)
        with self.assertRaises(TypeError):
            Config((1.5,))
        for centre in (-1, 256):
            with self.assertRaises(ValueError):
                claspotter.quantise([1.0], 0.0, centre, 8)
        for width in (0, 7, 64, "16"):
            with self.subTest(width), self.assertRaisesRegex(ValueError, "8, 16 or 32"):
                claspotter.encode(Config((1,)), b"1234", width=width)
            with self.subTest(width), self.assertRaisesRegex(ValueError, "8, 16 or 32"):
                claspotter.admits(Config((1,)), width)
        with self.assertRaises(ValueError):
            claspotter.write_record(Record(-1))


class TheRest(unittest.TestCase):
    def test_the_accumulator_rule(self):
        for width, weights, bias, holds in [
            (8, (128,), 127, True),
            (8, (128,), 128, False),
            (8, (-128,), -127, True),
            (8, (-128,), -128, False),
            (16, (32768,), 0, True),
            (16, (32769,), 0, False),
            (32, (-(2**31),) * 32, 0, False),
            (32, (0,), -(2**63), False),
            (32, (0,), -(2**63) + 1, True),
            # It tests no order.
            (8, (), 32767, True),
            (8, (0,) * 40, 0, True),
        ]:
            with self.subTest(width=width, weights=weights, bias=bias):
                self.assertEqual(claspotter.admits(Config(weights, bias=bias), width), holds)

    def test_quantising(self):
        self.assertEqual(claspotter.quantise([1.0], 0.0, 100, 8), Config((32,), 5, 0))
        config = claspotter.quantise([0.0], 126.99609375000001, 0, 8)
        self.assertEqual((config.shift, config.bias), (6, 8127))
        config = claspotter.quantise(array("d", [-0.8, 1.8]), 0.25, 3200, 16)
        self.assertEqual(config, Config((-3277, 7373), 12, 1024))
        for width in (8, 16, 32):
            for fitted in ([float("nan")], [float("inf")], [1e306], [1e300, -1e300]):
                with self.subTest(width=width, fitted=fitted), self.assertRaises(Refused) as caught:
                    claspotter.quantise(fitted, 0.0, 1, width)
                self.assertEqual(caught.exception.number, 6)
            for fitted in ([], [0.0] * 33):
                with self.assertRaises(Refused) as caught:
                    claspotter.quantise(fitted, 0.0, 1, width)
                self.assertEqual(caught.exception.number, 1)
            config = claspotter.quantise([0.5] * 32, -3.0, 2**width - 1, width)
            self.assertTrue(claspotter.admits(config, width) and config.shift <= 31)

    def test_records_are_read_as_they_were_written(self):
        weights = tuple((i - 7) * 40_000_001 for i in range(32))
        for record, bits in [
            (Record(Variant.NOTHING), 4),
            (Record(Variant.CONSECUTIVE, order=7, secondary_uses_delta=True), 8),
            (Record(Variant.LOOKBACK, window_n_log=24, state_n_log=15, secondary_uses_delta=True), 14),
            (Record(Variant.LOOKBACK, window_n_log=1), 14),
            (Record(Variant.CONV1, order=1, quantization=31, bias=-(2**63), weights=(-5,)), 110),
            (Record.of(Config(weights, 3, 2**63 - 1)), 1102),
        ]:
            with self.subTest(record):
                data = claspotter.write_record(record)
                self.assertEqual(len(data), (bits + 7) // 8)
                self.assertEqual(claspotter.read_record(data), (record, bits))
                self.assertEqual(claspotter.read_record(bytearray(data + b"\xff" * 200)), (record, bits))
                with self.assertRaises(Refused) as caught:
                    claspotter.read_record(data[:-1])
                self.assertEqual(caught.exception.number, 7)
                buffer = bytearray(b"\xff" * (len(data) + 3))
                self.assertEqual(claspotter.write_record_into(record, buffer), bits)
                self.assertEqual(buffer, data + b"\xff" * 3)
        self.assertEqual(len(data), claspotter.MAX_RECORD_BYTES)
        self.assertEqual(claspotter.read_record(data)[0].config(), Config(weights, 3, 2**63 - 1))
        self.assertEqual(claspotter.write_record(Record(Variant.CONSECUTIVE, order=2)), b"\x21")

    def test_every_refusal_of_records(self):
        for number, record in [
            (8, Record(4)),
            (1, Record(Variant.CONV1)),
            (1, Record(Variant.CONV1, order=33, weights=(0,) * 33)),
            (4, Record(Variant.CONV1, order=2, weights=(0,))),
            (9, Record(Variant.CONSECUTIVE)),
            (9, Record(Variant.LOOKBACK, window_n_log=25)),
            (9, Record(Variant.LOOKBACK, window_n_log=1, state_n_log=2)),
            (10, Record(Variant.CONSECUTIVE, order=8)),
            (10, Record(Variant.LOOKBACK)),
            (10, Record(Variant.CONV1, order=1, quantization=32, weights=(0,))),
        ]:
            with self.subTest(record), self.assertRaises(Refused) as caught:
                claspotter.write_record(record)
            self.assertEqual(caught.exception.number, number)
        for number, data in [(8, b"\4"), (9, b"\1"), (7, b"\2")]:
            with self.subTest(data), self.assertRaises(Refused) as caught:
                claspotter.read_record(data)
            self.assertEqual(caught.exception.number, number)
        with self.assertRaises(ValueError):
            Record(Variant.LOOKBACK).config()

    def test_old_files_hold_only_an_order(self):
        self.assertEqual(claspotter.read_record(b"\0", variants=False), (Record(Variant.NOTHING), 3))
        self.assertEqual(claspotter.read_record(b"\xfd", variants=False), (Record(Variant.CONSECUTIVE, order=5), 3))

    def test_configurations_are_values(self):
        config = Config([1, 2], 3, 4)
        self.assertEqual((config.order, config), (2, Config((1, 2), 3, 4)))
        self.assertEqual(pickle.loads(pickle.dumps(Config((1,), order=5))), Config((1,), order=5))
        self.assertEqual(len({config, Config((1, 2), 3, 4), Config((1, 2), 3, 5)}), 2)

    def test_the_library_has_this_version(self):
        self.assertEqual(".".join(map(str, claspotter.version())), claspotter.__version__)

    def test_the_numbers_and_texts_are_the_headers(self):
        header = HERE.parent / "include" / "claspotter.h"
        if not header.exists():
            self.skipTest("the header is not here")
        text = header.read_text()
        numbers = {name: int(n) for name, n in re.findall(r"^    CLASPOTTER_(\w+) = (\d+)", text.split("enum claspotter_variant")[0], re.M)}
        self.assertEqual(numbers, {refusal.name: int(refusal) for refusal in Refusal})
        texts = dict(re.findall(r'case CLASPOTTER_(\w+):\n        return "(.*)";', text))
        self.assertEqual(texts, {"DONE": "done", **{Refusal(n).name: said for n, said in claspotter._TEXTS.items()}})


if __name__ == "__main__":
    unittest.main()
