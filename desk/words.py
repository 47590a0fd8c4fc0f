"""Plans, lines and seasons in words, in the times that the order is written in, and every refusal with what it names.

What is wrong where is asked of the library.
"""
from __future__ import annotations

from collections.abc import Callable
from dataclasses import astuple, dataclass, replace
from fractions import Fraction
from textwrap import fill

from .figures import count, decimal, grams, in_percent, listed, rate
from .library import DOSING, MOST, RECORD, STATES, WEEK, AddedUp, Answer, Dose, Fans, Library, Meter, write_record
from .logs import Log
from .orders import RANGES, ROWS, Order, Wrong, out_of_range
from .plans import Plan

FACTS = {
    1: "The room for the plan is under 47,392 bytes.",
    2: "An order is whole records of 32 bytes, at most 50 of them.",
    3: "A record is neither fans (F) nor a dose (D).",
    4: "A byte that must be zero is not.",
    5: "A field is out of range.",
    6: "An order has exactly one record of fans.",
    7: "An order has at most 24 doses.",
    8: "The windows of two doses of one bay overlap, or the rest between them is too short.",
    9: "No plan keeps to the top rate.",
    10: "These plan bytes do not stand for the order.",
    11: "There is no such dose.",
    12: "The second is past the week.",
    13: "The log has a bad length, kind, form or field, or a bay other than the dose's.",
    14: "A tick of the log is not above the one before.",
    15: "Trial bays, 900 to 999, are closed: a new order that names one is not planned.",
    16: "A stream is whole records of 32 bytes, at most 2,048 of them, and begins with fans (F).",
}
OVERLAP, SHORT = "The windows of two doses of one bay overlap.", "The rest between two doses of one bay is too short."
REST = 300  # seconds by rule 1; words only, as the ranges are
LINES = 24  # of a dose in words
GOOD = {Dose: Dose(1, 0, WEEK, 1), Fans: Fans(1, 0, 1, 1)}


@dataclass
class Refusal(Exception):
    """What a refusal's number says, what that is of this order, and what it names."""
    answer: Answer | AddedUp
    fact: str
    detail: list[str]
    doses: list[int]
    record: bytes
    wrong_bytes: list[int]

    def __str__(self) -> str:
        return "\n".join([f"refused {self.answer.number}: {self.fact}", *map(sentence, self.detail)])


def sentence(words: str) -> str:
    return words[:1].upper() + words[1:] + "."


def dose_words(order: Order, dose: int) -> str:
    """bay 104 (dose 3), and its line in a text."""
    line = f", {order.place(order.places[dose])}" if order.lines else ""
    return f"bay {order.doses[dose].bay} (dose {dose}{line})"


def window_words(order: Order, dose: int) -> str:
    window = order.doses[dose]
    times = f"{order.time(window.release)} to {order.time(window.deadline, True)}"
    return f"{dose_words(order, dose)}: {window.grams:,} g, {times}"


def check(answer: Answer, order: Order, library: Library, log: Log | None = None) -> None:
    """Raises the refusal that an answer is, if it is one."""
    number, at, doses, data, wrong_bytes = answer.number, answer.place, [], b"", []
    if number == 0:
        return
    fact = FACTS[number]
    fans = listed([order.place(i) for i, record in enumerate(order.records) if isinstance(record, Fans)])
    detail = {2: [f"this one has {count(len(order.data), 'byte')}"], 6: [f"this one has {fans or 'none'}"],
              7: [f"this one has {len(order.doses)}"],
              11: [f"this order has {count(len(order.doses), 'dose')}, numbered from 0"]}.get(number, [])
    if number in (3, 4, 5):
        data = order.bytes_at(at)
        said, wrong_bytes = wrong_record(number, order, at, library)
        dose = f", dose {order.places.index(at)}" if at in order.places else ""
        detail = [f"record {at}, counted from 0{dose}: {said}"]
    elif number == 15:
        doses = [order.places.index(at)]
        detail = [f"record {at}, counted from 0: {window_words(order, doses[0])}"]
    elif number == 8:
        fact, detail, doses = clash(order, order.places.index(at), library)
    elif number == 9:
        detail, doses = too_fast(answer, order)
    elif number in (13, 14):
        data = log.data[RECORD * at:RECORD * (at + 1)]
        said, wrong_bytes = wrong_log(log, data)
        detail = [said]
    raise Refusal(answer, fact, detail, doses, data, wrong_bytes)


def check_season(season: AddedUp, stream: bytes, library: Library) -> None:
    """Raises the refusal of a stream, if it is one: of its length where another first byte would not mend it."""
    if season.number:
        length = library.season(b"F" + stream[1:]).number
        wrong = f"it has {count(len(stream), 'byte')}" if length else f"its first byte is {stream[0]:02x}, not 46 (F)"
        raise Refusal(season, FACTS[season.number], [wrong], [], b"", [])


def wrong_record(number: int, order: Order, at: int, library: Library) -> tuple[str, list[int]]:
    """What is wrong in a record, and its bytes: for 4 those that are refused each alone in a record of that kind."""
    record, data = order.records[at], order.bytes_at(at)
    if number == 3:
        return f"its first byte is {data[0]:02x}, neither 46 (F) nor 44 (D)", [0]
    if number == 4:
        alone = [bytes(byte if i in (0, here) else 0 for i, byte in enumerate(data)) for here in range(RECORD)]
        found = [here for here in range(RECORD) if library.judge(alone[here]).number == 4]
        return not_zero(data, found), found
    wrong, values = out_of_range_in(record, library), [*zip(ROWS[type(record)][1], astuple(record))]
    said = [f"{column} is {value:,}, and may be {RANGES[column]}" for column, value in values]
    return "; ".join(said[i] for i in wrong), bytes_of(type(record), wrong)


def wrong_log(log: Log, data: bytes) -> tuple[str, list[int]]:
    """What is wrong in a log's length or its refused record, and the bytes of that record that 13 is for."""
    at, order, size = log.laid.place, log.plan.order, len(log.data)
    good = Meter(1, order.doses[log.dose].bay, 0, 0)  # a counter may have any value
    if log.lay((write_record(good) * (size // RECORD + 1))[:size]).number == 13:  # good records of that length
        return f"it has {count(size, 'byte')}, and may have whole records of 32 bytes, at most 4,096 of them", []
    record, named = log.records[at], f"record {at} of the log of dose {log.dose}, counted from 0"
    if log.laid.number == 14:
        now, before = (order.time(log.records[i].tick) for i in (at, at - 1))
        return f"{named}: its time is {now}, and that of the one before is {before}", []
    if not isinstance(record, Meter):
        return f"{named}: its first byte is {data[0]:02x}, not 4d (M)", [0]
    found = [here for here, byte in enumerate(write_record(record)) if byte != data[here]]
    if found:
        return f"{named}: {not_zero(data, found)}", found
    wrong = faults(record, good, lambda alone: log.lay(alone).number == 13)
    said = [f"form is {record.form}, and may be 0 (missing), 1 (counter) or 2 (flow)",
            f"bay is {record.bay}, and that of dose {log.dose} is {good.bay}",
            f"tick is {record.tick:,}, and may be 0 to 604,800, which is Sun 24:00",
            f"flow is {record.flow} g/s, and may be a multiple of 1/1024 from 0 to 1,000" if record.form
            else f"value is {record.value:,}, and a missing reading has 0"]
    return f"{named}: {'; '.join(said[i] for i in wrong)}", bytes_of(Meter, wrong)


def not_zero(data: bytes, found: list[int]) -> str:
    return listed([f"byte {here} is {data[here]:02x}" for here in found]) + ", where 00 must be"


def bytes_of(kind: type, chosen: list[int]) -> list[int]:
    """Where some fields of a record stand."""
    filled = kind(*(most if i in chosen else 0 for i, most in enumerate(MOST[kind])))
    return [here for here, byte in enumerate(write_record(filled)) if here and byte]


def faults(record: Dose | Fans | Meter, good: Dose | Fans | Meter, refused: Callable[[bytes], bool]) -> list[int]:
    """The fields that are refused each alone in a good record; else the last one that, made good, mends its own."""
    kind, own, right = type(record), astuple(record), astuple(good)
    alone = [i for i in range(len(own)) if refused(write_record(kind(*right[:i], own[i], *right[i + 1:])))]
    mends = [i for i in range(len(own)) if not refused(write_record(kind(*own[:i], right[i], *own[i + 1:])))]
    return alone or mends[-1:]


def out_of_range_in(record: Dose | Fans, library: Library) -> list[int]:
    return faults(record, GOOD[type(record)], lambda alone: library.judge(alone).number == 5)


def check_text(order: Order, library: Library) -> None:
    """A text is wrong where the library refuses a value of it as out of range."""
    answer = library.judge(order.data)
    if order.lines and answer.number == 5:
        record = order.records[answer.place]
        first = out_of_range_in(record, library)[0]
        column = ROWS[type(record)][1][first]
        words = out_of_range(order.lines[answer.place], column, order.cell(column, astuple(record)[first]))
        raise Wrong(f"{order.name}: {words}")


def clash(order: Order, dose: int, library: Library) -> tuple[str, list[str], list[int]]:
    """A dose, and the earlier ones that are refused 8 with it alone. Those that overlap it are so by rule 0 too."""
    own, fans = order.doses[dose], order.fans[0]

    def refused(by: Fans) -> list[int]:
        pairs = {other: (by, order.doses[other], own) for other in range(dose)}
        return [other for other, pair in pairs.items() if library.judge(b"".join(map(write_record, pair))).number == 8]
    others, over = refused(fans), refused(replace(fans, rule=0))
    near = [f"{rest_words(own, order.doses[other])} {window_words(order, other)}"
            for other in others if other not in over]
    said = [f"it overlaps {listed([window_words(order, other) for other in over])}"] if over else []
    said += [f"it is {listed(near)}; the valve must rest {REST} s between doses"] if near else []
    return OVERLAP if over else SHORT, [window_words(order, dose), *said], [*others, dose]


def rest_words(one: Dose, other: Dose) -> str:
    """How far a window is from another that it does not overlap."""
    after = one.release - other.deadline
    return f"{after:,} s after" if after >= 0 else f"{other.release - one.deadline:,} s before"


def too_fast(answer: Answer, order: Order) -> tuple[list[str], list[int]]:
    """The doses of the first class, and its W grams in P fan-seconds against the top rate."""
    doses = [dose for dose in range(len(order.doses)) if answer.set >> dose & 1]
    top, weight, time = order.fans[0], answer.weight, answer.time
    rates = [[decimal(exact, digits) for exact in (Fraction(weight, time), top.top_rate)] for digits in range(3, 20)]
    need, most = next((pair for pair in rates if pair[0] != pair[1]), rates[-1])
    named = listed([dose_words(order, dose) for dose in doses])
    return [f"{named} {'together need' if len(doses) > 1 else 'needs'} {weight:,} g in {time:,} fan-seconds, "
            "all that windows and fans can give",
            f"that is {need} g/s, and the top rate is {most} g/s",
            f"to check: {weight:,} x {top.top_seconds:,} = {weight * top.top_seconds:,} is above "
            f"{time:,} x {top.top_grams:,} = {time * top.top_grams:,}"], doses


def plan_words(plan: Plan) -> str:
    weight, time = sum(own.weight for own in plan.classes), sum(own.time for own in plan.classes)
    top = f"{count(plan.fans.count, 'fan')}, top rate {rate(plan.fans.top_rate)}"
    sizes = f"{count(len(plan.classes), 'class')}, {count(len(plan.slots), 'slot')}"
    words = [f"{count(len(plan.order.doses), 'dose')} on {top}: {weight:,} g in {time:,} fan-seconds, {sizes}", ""]
    if plan.fans.rule:
        words.insert(1, f"valves rest {REST} s between doses of a bay")
    for own in plan.classes:
        doses = sorted({slot.dose for slot in plan.slots if slot.class_number == own.number})
        named = listed([dose_words(plan.order, dose) for dose in doses])
        words += [f"class {own.number}: {rate(own.rate)}, which is {own.weight:,} g in {own.time:,} fan-seconds",
                  fill(named, 100, initial_indent="  ", subsequent_indent="  ")]
    for fan in range(1, plan.fans.count + 1):
        slots = plan.of_fan(fan)
        times = [(plan.order.time(slot.start), plan.order.time(slot.end, True)) for slot in slots]
        width = max((len(time) for pair in times for time in pair), default=0)
        lines = [f"  {start:{width}} to {end:{width}}  {dose_words(plan.order, slot.dose)} "
                 f"at {rate(slot.rate)}" for (start, end), slot in zip(times, slots)]
        words += ["", f"fan {fan} feeds", *(lines or ["  nothing"])]
    return "\n".join(words)


def line_words(plan: Plan, dose: int) -> str:
    """The dose at some seconds of its window, its first and its last among them."""
    window = plan.order.doses[dose]
    step = -(-(window.deadline - window.release) // LINES)
    words = [window_words(plan.order, dose)]
    for tick in [*range(window.release, window.deadline, step), window.deadline]:
        point, time = plan.point(dose, tick), plan.order.time(tick, tick == window.deadline)
        by = f" by fan {point.fan}" if point.state == DOSING else ""
        words.append(f"  {time:12}  {point.amount:>9,} g  {STATES[point.state]}{by}")
    return "\n".join(words)


def log_facts(log: Log) -> list[tuple[str, str]]:
    """The three figures of a log, each under its name; under two readings no stretch is there to be unknown."""
    laid, whole = log.laid, log.ticks[-1] - log.ticks[0] if log.ticks else 0
    of_time = f" of {whole:,} s, {in_percent(laid.unknown, whole)}" if whole else ": no stretch is there"
    return [("metered", f"{grams(laid.metered)} in known stretches"),
            ("the line rose by", f"{grams(laid.risen)} in the same stretches"),
            ("unknown", f"{laid.unknown:,} s{of_time}")]


def log_words(log: Log) -> str:
    order, ticks = log.plan.order, log.ticks
    when = f", {order.time(ticks[0])} to {order.time(ticks[-1], True)}" if len(ticks) > 1 else ""
    return "\n".join([window_words(order, log.dose), count(len(ticks), "reading") + when,
                      *(f"  {name:16}  {words}" for name, words in log_facts(log))])


def season_words(season: AddedUp) -> str:
    """A line for each figure, in the program's sequence."""
    refused = [f"{count(orders, 'order')} refused {number}: {FACTS[number]}"
               for number, orders in enumerate(season.refused) if orders]
    first = f"{rate(Fraction(season.weight, season.time))}, which is {season.weight:,} g in {season.time:,} fan-seconds"
    return "\n".join([f"{count(season.accepted, 'order')} accepted", *refused, f"{season.grams:,} g in accepted orders",
                      f"{season.seconds:,} fan-seconds in accepted orders",
                      f"greatest first class: {first}" if season.weight else "no accepted order has a dose"])
