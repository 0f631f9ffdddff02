"""Claspotter keeps wall traces as residuals of a linear prediction, and gives them back exactly.

This module calls the shared library by ctypes and needs nothing but Python 3.9 or later:

    from array import array
    import claspotter

    config = claspotter.Config(weights=(-1, 2))             # a straight line through the last two samples
    trace = array("H", [1000, 1003, 1007, 1010, 1014])
    state, residuals = claspotter.encode(config, trace)     # the trace stays as it is
    claspotter.decode_in_place(config, state, residuals)    # in one piece; or piece by piece, in their order
    assert residuals + state == trace

Samples, residuals and states are buffers: an array.array of type B, H or I, a bytearray, a memoryview, or anything else that lends its
memory. The size of an entry says the width, 8, 16 or 32 bits. Where `width` is given, the buffers are bytes instead: entries of that many
bits, the least significant byte first. `encode_in_place` and `decode_in_place` work in the caller's own memory and copy nothing; `encode`
and `decode` leave what they are given and take read-only buffers such as bytes too.

A call that the library refuses raises Refused, with the refusal's number, and changes nothing. What the library could not be called with
at all (a read-only buffer where one is written, a wrong type of entry, a number too large to pass) is a TypeError or a ValueError.

The rule, the tests and their order stand in the library's header, claspotter.h. The library is found where the environment variable
CLASPOTTER_LIBRARY says, else beside this file, else where the system finds it.
"""

from __future__ import annotations

import ctypes
import ctypes.util
import enum
import operator
import os
import sys
from array import array
from dataclasses import dataclass, field
from typing import Any, Callable, Dict, Iterable, List, Optional, Sequence, Tuple, Union

__all__ = [
    "Config",
    "MAX_ORDER",
    "MAX_RECORD_BYTES",
    "Record",
    "Refusal",
    "Refused",
    "Variant",
    "Way",
    "admits",
    "decode",
    "decode_in_place",
    "encode",
    "encode_in_place",
    "quantise",
    "read_record",
    "version",
    "write_record",
    "write_record_into",
]

__version__ = "1.0.0"

MAX_ORDER = 32
MAX_RECORD_BYTES = 138

Buffer = Any  # whatever memoryview() takes
Entries = Union["array[int]", bytearray]


class Refusal(enum.IntEnum):
    """The answers of a call."""

    DONE = 0
    BAD_ORDER = 1
    BAD_SHIFT = 2
    OVERFLOWS = 3
    BAD_LENGTH = 4
    TOO_FEW_SAMPLES = 5
    NO_CONFIGURATION = 6
    BYTES_END = 7
    UNKNOWN_VARIANT = 8
    BAD_RECORD = 9
    UNFIT_FIELD = 10
    NO_ROOM = 11


_TEXTS: Dict[int, str] = {
    Refusal.BAD_ORDER: "the order is not from 1 to 32, or not 6 at the order-6 way",
    Refusal.BAD_SHIFT: "the shift is not below the accumulator's bits",
    Refusal.OVERFLOWS: "the bias and weights can overflow the accumulator",
    Refusal.BAD_LENGTH: "a slice has the wrong length",
    Refusal.TOO_FEW_SAMPLES: "there are fewer samples than the order",
    Refusal.NO_CONFIGURATION: "quantising gives no configuration",
    Refusal.BYTES_END: "the bytes end inside the record",
    Refusal.UNKNOWN_VARIANT: "the record's variant is unknown",
    Refusal.BAD_RECORD: "the record's order or logs are out of range",
    Refusal.UNFIT_FIELD: "a number does not fit its field of the record",
    Refusal.NO_ROOM: "the record does not fit the buffer",
}


class Refused(Exception):
    """The library refused a call. `number` is the refusal's number and `text` says it in words; every buffer is as it was."""

    def __init__(self, number: int) -> None:
        super().__init__(number)
        self.number = number
        self.text = _TEXTS.get(number, "no answer of this version")

    def __str__(self) -> str:
        return f"refused {self.number}: {self.text}"


class Way(enum.Enum):
    """The ways to decode. All give the same samples."""

    CHOSEN = "decode_"  # the quick way at order 6, the general one elsewhere
    GENERAL = "decode_general_"  # the general way at every order
    ORDER_SIX = "decode_order_6_"  # refuses every order but 6


class Variant(enum.IntEnum):
    """The variants of a record."""

    NOTHING = 0
    CONSECUTIVE = 1
    LOOKBACK = 2
    CONV1 = 3


# ---- the library

_WIDTHS = (8, 16, 32)
_CENTRES = {8: ctypes.c_uint8, 16: ctypes.c_uint16, 32: ctypes.c_uint32}


def _open() -> ctypes.CDLL:
    named = os.environ.get("CLASPOTTER_LIBRARY")
    if named:
        return ctypes.CDLL(named)
    here = os.path.dirname(os.path.abspath(__file__))
    for name in ("libclaspotter.so.1", "libclaspotter.so"):
        beside = os.path.join(here, name)
        if os.path.exists(beside):
            return ctypes.CDLL(beside)
    found = ctypes.util.find_library("claspotter")
    if found is None:
        raise ImportError("the library claspotter is not found; CLASPOTTER_LIBRARY can say where it is")
    return ctypes.CDLL(found)


def _declare(library: ctypes.CDLL) -> None:
    """Says the types of every function, since ctypes would take each number for an int."""
    size, u32, i64, pointer = ctypes.c_size_t, ctypes.c_uint32, ctypes.c_int64, ctypes.c_void_p
    coder = [size, u32, i64, pointer, size, pointer, size, pointer, size]
    types: Dict[str, List[Any]] = {"version": []}
    for width in _WIDTHS:
        types[f"admits_{width}"] = [i64, pointer, size]
        types[f"quantise_{width}"] = [size, pointer, size, ctypes.c_double, _CENTRES[width], pointer, size, pointer, pointer]
        for call in ("encode_", *(way.value for way in Way)):
            types[f"{call}u{width}"] = types[f"{call}bytes_{width}"] = coder
    types["read_record"] = [pointer, size, ctypes.c_bool, *[pointer] * 7, pointer, size, pointer]
    types["write_record"] = [u32, size, u32, u32, ctypes.c_bool, u32, i64, pointer, size, pointer, size, pointer]
    for name, arguments in types.items():
        function = getattr(library, "claspotter_" + name)
        function.argtypes = arguments
        function.restype = u32


def _load() -> ctypes.CDLL:
    library = _open()
    try:
        _declare(library)
    except AttributeError as missing:
        raise ImportError(f"the library is another than claspotter {__version__}: {missing}") from None
    number = library.claspotter_version()
    if number // 1_000_000 != int(__version__.split(".")[0]):
        raise ImportError(f"the library's version is {number}, which version {__version__} of this module cannot call")
    return library


_library = _load()


def _function(name: str) -> Callable[..., int]:
    return getattr(_library, "claspotter_" + name)  # type: ignore[no-any-return]


def version() -> Tuple[int, int, int]:
    """The version of the library that was loaded."""
    number = _function("version")()
    return number // 1_000_000, number // 1000 % 1000, number % 1000


def _check(answer: int) -> None:
    if answer:
        raise Refused(answer)


# ---- what is passed


def _whole(name: str, number: Any, low: int, high: int) -> int:
    """The number itself, where it is whole and can be passed: ctypes would cut it without a word."""
    value = operator.index(number)
    if not low <= value <= high:
        raise ValueError(f"{name} is to be from {low} to {high}, and is {value}")
    return value


def _unsigned(name: str, number: Any, bits: int) -> int:
    return _whole(name, number, 0, 2**bits - 1)


def _signed(name: str, number: Any, bits: int) -> int:
    return _whole(name, number, -(2 ** (bits - 1)), 2 ** (bits - 1) - 1)


_SIZE_BITS = 8 * ctypes.sizeof(ctypes.c_size_t)


def _weights(weights: Iterable[int]) -> Tuple[int, ...]:
    return tuple(_signed("a weight", weight, 32) for weight in weights)


def _known_width(width: Any) -> int:
    if width not in _WIDTHS:
        raise ValueError(f"the width is to be 8, 16 or 32, and is {width!r}")
    return int(width)


@dataclass(frozen=True)
class Config:
    """A configuration: weights, the oldest sample's first, a shift and a bias. The order is the number of weights, unless it is given; then
    coding refuses one that the weights do not number. Any numbers that can be passed may be given: coding refuses what it should."""

    weights: Sequence[int]
    shift: int = 0
    bias: int = 0
    order: int = -1
    _entries: Any = field(init=False, repr=False, compare=False)
    _bytes: Any = field(init=False, repr=False, compare=False)

    def __post_init__(self) -> None:
        weights = _weights(self.weights)
        order = len(weights) if self.order == -1 else self.order
        packed = b"".join(weight.to_bytes(4, "little", signed=True) for weight in weights)
        for name, value in (
            ("weights", weights),
            ("shift", _unsigned("the shift", self.shift, 32)),
            ("bias", _signed("the bias", self.bias, 64)),
            ("order", _unsigned("the order", order, _SIZE_BITS)),
            ("_entries", (ctypes.c_int32 * len(weights))(*weights)),
            ("_bytes", (ctypes.c_uint8 * len(packed))(*packed)),
        ):
            object.__setattr__(self, name, value)

    def __reduce__(self) -> Any:
        return Config, (self.weights, self.shift, self.bias, self.order)


def _packed(view: memoryview, name: str) -> None:
    if view.ndim != 1 or not view.c_contiguous:
        raise ValueError(f"{name}: the buffer is to be one row of entries without gaps")


_NATIVE = "@=" + ("<" if sys.byteorder == "little" else ">")


def _entry_bytes(view: memoryview, name: str) -> int:
    """The bytes to an entry of a buffer of samples."""
    _packed(view, name)
    letter = view.format[1:] if len(view.format) == 2 and view.format[0] in _NATIVE else view.format
    if letter not in ("B", "H", "I", "L") or view.itemsize not in (1, 2, 4):
        raise TypeError(f"{name}: the buffer's entries are to be unsigned, of 8, 16 or 32 bits, and not of format {view.format!r}")
    return view.itemsize


class _Lent:
    """A writable buffer that is lent to one call: its address, its entries, and what keeps it where it is."""

    def __init__(self, name: str, buffer: Buffer, width: Optional[int]) -> None:
        with memoryview(buffer) as view:
            if view.readonly:
                raise TypeError(f"{name}: the buffer is read-only")
            if width is None:
                self.itemsize = _entry_bytes(view, name)
            else:
                _packed(view, name)
                self.itemsize = 1
            self.size = view.nbytes
        self.count = self.size // self.itemsize
        # Nothing lies at an empty buffer, and null stands for it.
        self.keeper = (ctypes.c_char * self.size).from_buffer(buffer) if self.size else None
        self.address = ctypes.addressof(self.keeper) if self.keeper is not None else 0

    def overlaps(self, other: _Lent) -> bool:
        return self.address < other.address + other.size and other.address < self.address + self.size


def _answer(call: str, config: Config, width: Optional[int], first: Tuple[str, Buffer], second: Tuple[str, Buffer]) -> int:
    """Calls a coder with two lent buffers, which are let go when this is over, also where a traceback keeps hold of this call."""
    a = b = None
    try:
        a, b = _Lent(*first, width), _Lent(*second, width)
        if a.itemsize != b.itemsize:
            raise TypeError(f"{first[0]} has entries of {a.itemsize} bytes and {second[0]} of {b.itemsize}")
        if a.overlaps(b):
            raise ValueError(f"{first[0]} and {second[0]} overlap")
        name, weights, lengths = f"{call}u{8 * a.itemsize}", config._entries, (a.count, b.count)
        if width is not None:
            name, weights = f"{call}bytes_{width}", config._bytes
        elif sys.byteorder == "little" and (a.address | b.address) % a.itemsize:
            # Entries at an address that is no multiple of their size: the same over bytes.
            name, weights, lengths = f"{call}bytes_{8 * a.itemsize}", config._bytes, (a.size, b.size)
        where = ctypes.addressof(weights)
        return _function(name)(
            config.order, config.shift, config.bias, where, len(weights), a.address, lengths[0], b.address, lengths[1]
        )
    finally:
        del a, b


# ---- coding


_LETTERS = {1: "B", 2: "H", 4: "I"}


def _new(entries: int, itemsize: int, width: Optional[int]) -> Entries:
    if width is not None:
        return bytearray(entries * width // 8)
    return array(_LETTERS[itemsize], bytes(entries * itemsize))


def _copy(name: str, buffer: Buffer, width: Optional[int]) -> Entries:
    with memoryview(buffer) as view:
        if width is not None:
            _packed(view, name)
            return bytearray(view)
        return array(_LETTERS[_entry_bytes(view, name)], view.tobytes())


def encode_in_place(config: Config, samples: Buffer, state: Optional[Buffer] = None, *, width: Optional[int] = None) -> Buffer:
    """Encodes the samples in their own memory: the residuals are the places from the order on. The first samples go into the state, whose
    length is the order, and which is handed back; where none is lent a new one is made."""
    if width is not None:
        _known_width(width)
    if state is None:
        with memoryview(samples) as view:
            itemsize = 1 if width is not None else _entry_bytes(view, "samples")
        # An order above 32 is refused whatever the state.
        state = _new(min(config.order, MAX_ORDER), itemsize, width)
    _check(_answer("encode_", config, width, ("samples", samples), ("state", state)))
    return state


def decode_in_place(config: Config, state: Buffer, piece: Buffer, *, width: Optional[int] = None, way: Way = Way.CHOSEN) -> None:
    """Decodes a piece of residuals in its own memory. In the list of the state and then the new samples, the first ones replace the piece
    and the last ones are the new state, so what comes out lags by the order. The joined pieces and then the last state are the trace."""
    if width is not None:
        _known_width(width)
    _check(_answer(way.value, config, width, ("state", state), ("piece", piece)))


def encode(config: Config, samples: Buffer, *, width: Optional[int] = None) -> Tuple[Entries, Entries]:
    """The state and the residuals of a trace, which stays as it is: arrays, or bytearrays where a width is given."""
    coded = _copy("samples", samples, width)
    state = encode_in_place(config, coded, width=width)
    del coded[: len(state)]
    return state, coded


def decode(
    config: Config, state: Buffer, piece: Buffer, *, width: Optional[int] = None, way: Way = Way.CHOSEN
) -> Tuple[Entries, Entries]:
    """The new state and what comes out of a piece, both of which stay as they are. See `decode_in_place`."""
    after, out = _copy("state", state, width), _copy("piece", piece, width)
    decode_in_place(config, after, out, width=width, way=way)
    return after, out


def admits(config: Config, width: int) -> bool:
    """Whether the accumulator rule admits the configuration's bias and weights at a width. It tests no order and no shift."""
    answer = _function(f"admits_{_known_width(width)}")(config.bias, ctypes.addressof(config._entries), len(config._entries))
    if answer not in (Refusal.DONE, Refusal.OVERFLOWS):
        raise Refused(answer)
    return answer == Refusal.DONE


def quantise(fitted: Iterable[float], centred_bias: float, centre: int, width: int) -> Config:
    """Makes a configuration of float weights that were fitted to samples less a centre: a sample less the centre is about the centred bias
    plus each fitted weight times its earlier sample less the centre. What comes out is admitted at that width. Any floats may be given."""
    _known_width(width)
    floats = array("d", fitted)
    order = len(floats)
    given = (ctypes.c_double * order)(*floats)
    weights = (ctypes.c_int32 * order)()
    shift, bias = ctypes.c_uint32(), ctypes.c_int64()
    answer = _function(f"quantise_{width}")(
        order,
        ctypes.addressof(given),
        order,
        centred_bias,
        _unsigned("the centre", centre, width),
        ctypes.addressof(weights),
        order,
        ctypes.addressof(shift),
        ctypes.addressof(bias),
    )
    _check(answer)
    return Config(tuple(weights), shift.value, bias.value)


# ---- the record


@dataclass(frozen=True)
class Record:
    """A delta record. What its variant does not have is 0 after reading, and is not looked at in writing."""

    variant: int
    order: int = 0  # of Consecutive and Conv1
    window_n_log: int = 0  # of Lookback
    state_n_log: int = 0  # of Lookback
    secondary_uses_delta: bool = False  # of Consecutive and Lookback
    quantization: int = 0  # of Conv1, its shift
    bias: int = 0  # of Conv1
    weights: Sequence[int] = ()  # of Conv1, as many as the order

    @staticmethod
    def of(config: Config) -> Record:
        """The Conv1 record of a configuration."""
        return Record(Variant.CONV1, order=config.order, quantization=config.shift, bias=config.bias, weights=config.weights)

    def config(self) -> Config:
        """The configuration of a Conv1 record."""
        if self.variant != Variant.CONV1:
            raise ValueError("a record of another variant than Conv1 holds no configuration")
        return Config(self.weights, self.quantization, self.bias, self.order)


def read_record(data: Buffer, variants: bool = True) -> Tuple[Record, int]:
    """The record at the start of the bytes, and the bits that it takes. `variants` is false for files that hold only an order."""
    with memoryview(data) as view:
        _packed(view, "data")
        # No record is longer, and bytes past it are not looked at.
        start = view.cast("B")[:MAX_RECORD_BYTES].tobytes()
    given = (ctypes.c_uint8 * len(start))(*start)
    variant, window, state, flag, shift = (ctypes.c_uint32() for _ in range(5))
    order, bits, bias = ctypes.c_size_t(), ctypes.c_size_t(), ctypes.c_int64()
    weights = (ctypes.c_int32 * MAX_ORDER)()
    numbers = (ctypes.addressof(number) for number in (variant, order, window, state, flag, shift, bias))
    answer = _function("read_record")(
        ctypes.addressof(given), len(start), bool(variants), *numbers, ctypes.addressof(weights), MAX_ORDER, ctypes.addressof(bits)
    )
    _check(answer)
    held = tuple(weights[: order.value]) if variant.value == Variant.CONV1 else ()
    record = Record(variant.value, order.value, window.value, state.value, bool(flag.value), shift.value, bias.value, held)
    return record, bits.value


def _write(record: Record, lent: _Lent, bits: ctypes.c_size_t) -> int:
    weights = _weights(record.weights)
    entries = (ctypes.c_int32 * len(weights))(*weights)
    return _function("write_record")(
        _unsigned("the variant", record.variant, 32),
        _unsigned("the order", record.order, _SIZE_BITS),
        _unsigned("the window's log", record.window_n_log, 32),
        _unsigned("the state's log", record.state_n_log, 32),
        bool(record.secondary_uses_delta),
        _unsigned("the shift", record.quantization, 32),
        _signed("the bias", record.bias, 64),
        ctypes.addressof(entries),
        len(weights),
        lent.address,
        lent.size,
        ctypes.addressof(bits),
    )


def write_record_into(record: Record, buffer: Buffer) -> int:
    """Writes a record from the buffer's first bit on, and says how many bits it takes. Later bytes stay."""
    bits = ctypes.c_size_t()
    _check(_write(record, _Lent("buffer", buffer, 8), bits))
    return bits.value


def write_record(record: Record) -> bytes:
    """The bytes of a record. The unused bits of the last one are 0."""
    buffer = bytearray(MAX_RECORD_BYTES)
    bits = write_record_into(record, buffer)
    return bytes(buffer[: (bits + 7) // 8])
