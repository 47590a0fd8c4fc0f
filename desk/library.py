"""The proved library as include/knellgable.h declares it, and the records of docs/RULES.md by name.

Numbers come back as the library answered them; rates and moments are exact fractions of them.
"""
from __future__ import annotations

import ctypes
from dataclasses import astuple, dataclass, fields, make_dataclass
from fractions import Fraction
from functools import cached_property
from pathlib import Path
from struct import Struct

RECORD, PLAN_ROOM, WEEK = 32, 47392, 604800
ORDER_NUMBERS = 10  # by which an order of a stream may be refused, from 0
GRAM = 1024  # a log's figures are in 1/1024 gram
STATES = ("finished", "shut", "idle", "dosing")
IDLE, DOSING = STATES.index("idle"), STATES.index("dosing")
NUMBER, SIZE, LARGE = ctypes.c_uint32, ctypes.c_size_t, ctypes.c_uint64
# What the functions answer, as wide as in the header: 0 or a refusal's number, its place and, for 9, the first class as
# a set with its weight and fan time.
Answer = make_dataclass("Answer", [
    ("number", NUMBER), ("place", SIZE), ("set", LARGE), ("weight", LARGE), ("time", LARGE)], frozen=True)
Planned = make_dataclass("Planned", [("classes", SIZE), ("slots", SIZE)], bases=(Answer,), frozen=True)
Drawn = make_dataclass("Drawn", [("amount", NUMBER), ("state", NUMBER), ("fan", NUMBER)], bases=(Answer,), frozen=True)
Laid = make_dataclass("Laid", [("metered", LARGE), ("risen", LARGE), ("unknown", NUMBER)], bases=(Answer,), frozen=True)
AddedUp = make_dataclass("AddedUp", [
    ("number", NUMBER), ("place", SIZE), ("accepted", NUMBER), ("refused", NUMBER * ORDER_NUMBERS),
    ("grams", LARGE), ("seconds", LARGE), ("weight", LARGE), ("time", LARGE)], frozen=True)


def answering(function, answer: type, *taken):
    """A function that takes such values and answers a dataclass; an array in it is a tuple."""
    widths = [(field.name, field.type) for field in fields(answer)]
    function.restype = type(answer.__name__, (ctypes.Structure,), {"_fields_": widths})
    function.argtypes = taken

    def call(*given):
        got = function(*given)
        values = (getattr(got, name) for name, _ in widths)
        return answer(*(tuple(value) if isinstance(value, ctypes.Array) else value for value in values))
    return call


def bound(function, answer: type, *more):
    """A function of an order, a plan and more."""
    ask = answering(function, answer, ctypes.c_char_p, SIZE, ctypes.c_char_p, SIZE, *more)
    return lambda order, plan=b"", *given: ask(order, len(order), plan, len(plan), *given)


class Library:
    """The six functions. Orders, plans, logs and streams are any bytes; every call gets one answer."""

    def __init__(self, path: Path):
        library = ctypes.CDLL(str(path))
        self.judge = bound(library.knellgable_judge, Answer)
        self.point = bound(library.knellgable_point, Drawn, SIZE, NUMBER)
        self._plan = bound(library.knellgable_plan, Planned)
        self._advance = bound(library.knellgable_advance, Drawn, SIZE, ctypes.POINTER(NUMBER))
        self._log = bound(library.knellgable_log, Laid, SIZE, ctypes.c_char_p, SIZE)
        self._season = answering(library.knellgable_season, AddedUp, ctypes.c_char_p, SIZE)

    def plan(self, order: bytes) -> tuple[Planned, bytes]:
        """The answer, and the plan's own bytes."""
        room = ctypes.create_string_buffer(PLAN_ROOM)
        answer = self._plan(order, room)
        return answer, room.raw[:RECORD * (answer.classes + answer.slots)]

    def advance(self, order: bytes, plan: bytes, dose: int, tick: int) -> tuple[Drawn, int]:
        """The answer, and the tick that the pen is at."""
        lent = NUMBER(tick)
        return self._advance(order, plan, dose, lent), lent.value

    def log(self, order: bytes, plan: bytes, dose: int, log: bytes) -> Laid:
        return self._log(order, plan, dose, log, len(log))

    def season(self, stream: bytes) -> AddedUp:
        return self._season(stream, len(stream))


@dataclass(frozen=True)
class Fans:
    count: int
    rule: int
    top_grams: int
    top_seconds: int

    @cached_property
    def top_rate(self) -> Fraction:
        return Fraction(self.top_grams, self.top_seconds)


@dataclass(frozen=True)
class Dose:
    bay: int
    release: int
    deadline: int
    grams: int


class Rated:
    """A class and its slots have one rate: W grams in P seconds of fan time."""

    @cached_property
    def rate(self) -> Fraction:
        return Fraction(self.weight, self.time)


@dataclass(frozen=True)
class Class(Rated):
    number: int
    doses: int
    weight: int
    time: int


@dataclass(frozen=True)
class Slot(Rated):
    fan: int
    dose: int
    start_tick: int
    start_part: int
    end_tick: int
    end_part: int
    weight: int
    time: int
    class_number: int

    @cached_property
    def start(self) -> Fraction:
        """A moment is a tick and a part of it in 1/W."""
        return self.start_tick + Fraction(self.start_part, self.weight)

    @cached_property
    def end(self) -> Fraction:
        return self.end_tick + Fraction(self.end_part, self.weight)


@dataclass(frozen=True)
class Meter:
    """A record of a log: its form says whether the reading is missing, a counter's value or a mean flow."""
    form: int
    bay: int
    tick: int
    value: int

    @property
    def flow(self) -> float:
        """The value's bits as a 32-bit float: grams per second."""
        return Struct("<f").unpack(Struct("<I").pack(self.value))[0]


# Each kind's first byte, and how its fields stand in the other 31: docs/RULES.md, "Records".
LAYOUT = {Fans: (b"F", Struct("<BBxII20x")), Dose: (b"D", Struct("<xHIII16x")),
          Class: (b"C", Struct("<BHII20x")), Slot: (b"S", Struct("<BHIIIIIIB3x")), Meter: (b"M", Struct("<BHII20x"))}
KINDS = {byte: kind for kind, (byte, _) in LAYOUT.items()}
MOST = {kind: rest.unpack(b"\xff" * rest.size) for kind, (_, rest) in LAYOUT.items()}  # what each field can hold


def read_records(data: bytes) -> list:
    """The whole records of any bytes, fields as they stand; None for a kind that is none of the five."""
    kinds = ((at, KINDS.get(data[at:at + 1])) for at in range(0, len(data) - RECORD + 1, RECORD))
    return [kind and kind(*LAYOUT[kind][1].unpack_from(data, at + 1)) for at, kind in kinds]


def write_record(record) -> bytes:
    byte, rest = LAYOUT[type(record)]
    return byte + rest.pack(*astuple(record))
