"""The sheet: one page of a plan, with a row for each fan, dose and log, or of why an order or a log is refused."""
from __future__ import annotations

from collections.abc import Iterable, Sequence
from dataclasses import dataclass, replace
from fractions import Fraction
from html import escape
from math import floor
from pathlib import Path

from .drawing import BARS, LOGGED, NARROW, Axis, box, dot, fitted, grid, line, rule, shared, text, times, width_class
from .figures import clock, count, grams, rate, span
from .library import RECORD, Class, Dose, Slot
from .logs import Log, Stretch
from .orders import Order
from .plans import Plan
from .words import REST, Refusal, log_facts, sentence

STYLES = {name: Path(__file__).with_name(f"{name}.css").read_text("utf-8") for name in ("drawing", "page")}
LEAD = """<p><b>Each gram on a line has a fan behind it.</b> A line rises only above a bar, and the number in the bar is
the fan that feeds it. Hatched: the dose waits, because every fan runs at its rate or faster. Grey: outside its window.
Strong bars run fast, pale ones slowly.</p>"""
METERED = """<p><b>Dashed: what was metered,</b> with a dot at each reading that bounds a known stretch. In each run of
known stretches it starts at the drawn amount, so that the two can be compared, and rises at each reading by what was
metered since the one before. Where a rule stands below, the stretch is unknown, and nothing is drawn.</p>\n"""
PROVED = """<footer><b>Proved</b> are the verdict, the classes with their grams and fan-seconds, every slot, every
point of a line and every figure of a log: they are answers of the proved library, and the page is not written where its
bars and lines don't agree with them. <b>Not proved but tested</b> are the words, the drawing, times of day, sums, and
rates as decimals, which are cut and not rounded. A line holds each point until the next, so that it is never above the
amount.</footer>"""
REFUSED = """<footer><b>Proved</b> is the refusal: its number, the record or the doses it names, their grams and
fan-seconds are answers of the proved library. <b>Not proved but tested</b> are the words and the drawing.</footer>"""
TITLES = {10: "this plan does not stand", 11: "no such dose", **dict.fromkeys((13, 14), "this log can't be laid")}
THIN = Fraction(1, 500)  # of the width: a bar that is narrower has no gap beside it, and an edge that keeps it seen


@dataclass(frozen=True)
class Row:
    """A label (strong, plain, small), a drawing over the time axis, and the same in words."""
    label: tuple[str, str, str]
    drawing: str
    words: str
    facts: str = ""


def strength(classes: list[Class], number: int) -> float:
    """Of a colour: the faster the class, the stronger."""
    return 0.95 - 0.7 * (number - 1) / (len(classes) - 1) if len(classes) > 1 else 0.6


def window_row(axis: Axis, number: int, dose: Dose, small: str = "", fans: str = "", more: str = "",
               under: str = '<use href="#grid"/>') -> Row:
    """A dose's window with its start, its grams and its deadline; the fans too, where no bar has room for theirs."""
    left, right = axis.at(dose.release), axis.at(dose.deadline)
    start, end = clock(dose.release, axis.days), clock(dose.deadline, axis.days, True)
    halo, by, beside = " halo" if right < 0.85 else "", f"by {end}", f", {fans}" if fans else ""
    out = [box(axis, dose.release, dose.deadline, "open"), under, more]
    if left * NARROW > max(len(start), len(fans)) * 6 + 5:
        out += [text(left, "32%", start, "soft from halo", -5), text(left, "81%", fans, "soft from halo", -5)]
    elif width_class(3 * start, left, right) == "":  # clear of a line that rises evenly
        out.append(text(left, "15%", start, "soft inside", 4))
        by += beside
    else:
        by = f"{start} to {end}{beside}"
    out += [text(right, "32%", f"{dose.grams:,} g", "grams" + halo, 6), text(right, "73%", by, "soft" + halo, 6)]
    words = f"bay {dose.bay}, dose {number}: {dose.grams:,} g, {span(dose.release, dose.deadline)}"
    return Row((f"bay {dose.bay}", f"dose {number}", small), "".join(out), words)


class Rows:
    """The rows of a plan, over one axis; a dose's line has about so many points."""

    def __init__(self, plan: Plan, points: int):
        windows = {moment for dose in plan.order.doses for moment in (dose.release, dose.deadline)}
        edges = {moment for slot in plan.slots for moment in (slot.start, slot.end)}
        self.plan, self.axis, self.points = plan, Axis(windows | edges), points

    def fan(self, fan: int) -> Row:
        slots = self.plan.of_fan(fan)
        runs = f"runs {floor(sum(slot.end - slot.start for slot in slots)):,} s"
        bars = "".join(self.bar(slot, self.plan.order.doses[slot.dose].bay, 0) for slot in slots)
        return Row((f"fan {fan}", "", runs), f'<use href="#grid"/>{bars}', f"fan {fan} {runs}")

    def dose(self, number: int) -> Row:
        dose, slots = self.plan.order.doses[number], self.plan.of_dose(number)
        drawn = line(self.axis, self.plan.points(number, self.points), dose.grams, f"h{number % 3}")
        bars = "".join(self.bar(slot, slot.fan, BARS) for slot in slots)
        small = f"{rate(slots[0].rate)}, class {slots[0].class_number}"
        return window_row(self.axis, number, dose, small, self.unnamed(slots), self.waits(number) + drawn + bars)

    def bar(self, slot: Slot, name: int, top: int) -> str:
        """A bar from a height down, with its name where that fits; its words show over the whole row."""
        left, right = self.axis.at(slot.start), self.axis.at(slot.end)
        thin, strong = right - left < THIN, strength(self.plan.classes, slot.class_number)
        kind = f"bar h{slot.dose % 3}" + (" thin" if thin else "")
        shade = " strong" if strong > 0.75 else " weak" if strong <= 0.5 else ""
        fill = f'y="{top}%" height="{100 - top}%" opacity="{strong:.2f}"'
        ends = " to ".join(f"tick {tick}" + (f" + {part}/{slot.weight}" if part else "")
                           for tick, part in ((slot.start_tick, slot.start_part), (slot.end_tick, slot.end_part)))
        words = (f"fan {slot.fan} feeds bay {self.plan.order.doses[slot.dose].bay} (dose {slot.dose})\n"
                 f"{span(slot.start, slot.end)}\n{ends}\n"
                 f"{rate(slot.rate)}, class {slot.class_number}: {slot.weight:,} g in {slot.time:,} fan-seconds")
        return (box(self.axis, slot.start, slot.end, "feel", words)
                + box(self.axis, slot.start, slot.end, kind, more=fill)
                + ("" if thin else rule(left, "cut", f"{top}%"))
                + fitted(left, right, f"{(100 + top) // 2}%", str(name), "name" + shade))

    def unnamed(self, slots: list[Slot]) -> str:
        """The fans of a dose, where no bar of it has room for its fan on a narrow page."""
        if any(width_class("8", self.axis.at(slot.start), self.axis.at(slot.end)) == "" for slot in slots):
            return ""
        fans = sorted({slot.fan for slot in slots})
        return f"fan{'s' if len(fans) > 1 else ''} {', '.join(map(str, fans))}"

    def waits(self, number: int) -> str:
        """Hatched: the dose has no fan, because all of them run at its rate or above."""
        dose, last, out = self.plan.order.doses[number], self.plan.of_dose(number)[-1], []
        for start, end, slowest in self.plan.waits(number):
            why = (f"bay {dose.bay} waits: all fans busy at its rate or above\n{span(start, end)}\n"
                   f"slowest of {count(self.plan.fans.count, 'fan')} {rate(slowest)}, its own rate {rate(last.rate)}")
            out += [box(self.axis, start, end, "wait", why),
                    fitted(self.axis.at(start), self.axis.at(end), "81%", "waits", "waits")]
        return "".join(out) + box(self.axis, last.end, dose.deadline, "feel", f"all {dose.grams:,} g are in")


def log_row(log: Log, points: int) -> tuple[Axis, Row]:
    """A dose's line with what was metered beside it, over an axis of its own: nothing where a stretch is unknown."""
    dose, starts = log.plan.order.doses[log.dose], {slot.start for slot in log.plan.of_dose(log.dose)}
    axis = Axis({dose.release, dose.deadline, *log.ticks[:1], *log.ticks[-1:]} | starts)
    metered = [log.metered(run) for run in log.runs if not run[0].laid.unknown]
    full = max([dose.grams, *(run[-1][1] for run in metered)])
    out = [line(axis, log.plan.points(log.dose, points, log.ticks), full, f"h{log.dose % 3}", LOGGED, metered),
           *(dot(axis, tick, amount / full) for run in metered for tick, amount in run)]
    for run in log.runs:
        out += [box(axis, stretch.start, stretch.end, "feel", stretch_words(stretch)) for stretch in run]
        if run[0].laid.unknown:
            start, end = run[0].start, run[-1].end
            out += [box(axis, start, end, "rule", more='y="98%" height="2%"'),
                    fitted(axis.at(start), axis.at(end), "86%", "unknown", "waits")]
    row = window_row(axis, log.dose, dose, count(len(log.ticks), "reading"), "", "".join(out), grid(axis))
    facts = log_facts(log)
    return axis, replace(row, words="; ".join([row.words, *map(" ".join, facts)]), facts=listing(facts))


def stretch_words(stretch: Stretch) -> str:
    known = f"metered {grams(stretch.laid.metered)}\nthe line rose by {grams(stretch.laid.risen)}"
    return f"{span(stretch.start, stretch.end)}\n{'unknown' if stretch.laid.unknown else known}"


def listing(facts: list[tuple[str, object]]) -> str:
    pairs = "".join(f"<div><dt>{name}<dd>{words}</div>" for name, words in facts)
    return f"<dl>{pairs}</dl>"


def page(title: str, facts: list[tuple[str, object]], body: str) -> str:
    return ('<!DOCTYPE html>\n<html lang="en"><meta charset="utf-8"><meta name="viewport" content="width=device-width">'
            f"<title>{title}</title>\n<style>{STYLES['drawing']}{STYLES['page']}</style>\n"
            f"<main><header><h1>{title}</h1>{listing(facts)}</header>\n{body}</main></html>\n")


def defs(axis: Axis) -> str:
    return f'<svg class="defs" aria-hidden="true">{shared(axis)}</svg>\n'


def section(axis: Axis, word: str, rows: Iterable[Row], kind: str = "") -> str:
    out = []
    for row in rows:
        strong, plain, small = row.label
        out.append(f'<div class="row {word}"><div class="label" title="{row.words}">'
                   f'<b>{strong}</b> {plain}<br><small>{small}</small></div><svg role="img" aria-label="{row.words}">'
                   f'<rect class="shut" width="100%" height="100%"/>{row.drawing}</svg>{row.facts}</div>\n')
    head = f'<h2 class="label">{count(len(out), word)}</h2><svg aria-hidden="true">{times(axis)}</svg>'
    return (f'<section class="{kind}" data-scale="{axis.scale()}"><div class="row axis">{head}</div>\n'
            f'{"".join(out)}</section>\n')


def title_of(plan: Plan) -> str:
    return f"{Path(plan.order.name).stem}: {count(len(plan.order.doses), 'dose')} on {count(plan.fans.count, 'fan')}"


def planned_page(plan: Plan, logs: Sequence[Log] = ()) -> str:
    classes = plan.classes
    facts = [("judge", "<b>&#10003; stands</b>"), ("CO&#8322;", f"{sum(own.weight for own in classes):,} g"),
             ("fan time", f"{sum(own.time for own in classes):,} fan-seconds"), ("classes", len(classes)),
             ("slots", f"{len(plan.slots):,}"), ("first class", rate(classes[0].rate) if classes else "none"),
             ("top rate", rate(plan.fans.top_rate))]
    if plan.fans.rule:
        facts.append(("valves rest", f"{REST} s"))  # so short that the head stays one line on paper
    body = f"<p>No dose is ordered, and no fan runs.</p>{PROVED}"
    if classes:
        rows = Rows(plan, 200)
        beside = [section(axis, "log", [row], "logs") for axis, row in (log_row(log, 200) for log in logs)]
        beside += [METERED] if logs else []
        body = (LEAD + defs(rows.axis)
                + section(rows.axis, "fan", map(rows.fan, range(1, plan.fans.count + 1)))
                + section(rows.axis, "dose", map(rows.dose, range(len(plan.order.doses))))
                + class_tables(classes) + PROVED + "".join(beside) + lists(plan, rows.axis))
    return page(escape(title_of(plan)), facts, body)


def class_tables(classes: list[Class]) -> str:
    """Side by side, so that 24 classes leave room for 24 doses on one sheet of paper."""
    rows = [f'<tr><td><i style="opacity:{strength(classes, own.number):.2f}"></i>{own.number}<td>{rate(own.rate)}'
            f"<td>{own.doses}<td>{own.weight:,}<td>{own.time:,}" for own in classes]
    most = -(-len(rows) // (2 if len(rows) < 13 else 3))
    head = "<tr><th>class<th>rate<th>doses<th>grams<th>fan-seconds"
    tables = "".join(f"<table>{head}{''.join(rows[at:at + most])}</table>" for at in range(0, len(rows), most))
    return (f'<section class="row classes"><h2>{count(len(rows), "class")}</h2>'
            f'<div class="tables">{tables}</div></section>\n')


def lists(plan: Plan, axis: Axis) -> str:
    """What each fan feeds, in words: on paper the short slots have no other."""
    out = []
    for fan in range(1, plan.fans.count + 1):
        lines = "".join(f"<li>{span(slot.start, slot.end, axis.days)} <b>bay {plan.order.doses[slot.dose].bay}</b> "
                        f"dose {slot.dose}" for slot in plan.of_fan(fan))
        out.append(f"<h3>fan {fan}</h3><ol>{lines or '<li>nothing'}</ol>")
    return f'<section class="feeds"><h2>What each fan feeds</h2><div class="lists">{"".join(out)}</div></section>\n'


def refused_page(refusal: Refusal, order: Order) -> str:
    """What is wrong, with the bytes or the windows that the refusal names."""
    answer, body = refusal.answer, "".join(f"<p>{escape(sentence(words))}</p>" for words in refusal.detail)
    if refusal.wrong_bytes:
        heads = "".join(f"<th>{at}" for at in range(RECORD))
        cells = "".join(f'<td{" class=wrong" if at in refusal.wrong_bytes else ""}>{byte:02x}'
                        for at, byte in enumerate(refusal.record))
        body += ('<section><h2>Its bytes, in hexadecimal</h2>'
                 f'<table class="bytes"><tr>{heads}<tr>{cells}</table></section>\n')
    if refusal.doses:
        axis = Axis(moment for dose in order.doses for moment in (dose.release, dose.deadline))
        rows = (window_row(axis, number, order.doses[number]) for number in refusal.doses)
        body += defs(axis) + section(axis, "dose", rows, "named")
    facts = [("order", escape(Path(order.name).name)), ("refusal", answer.number),
             ("what is wrong", f"<b>{refusal.fact}</b>")]
    title = TITLES.get(answer.number, "no plan for this order")
    return page(f"Refused: {title}", facts, body + REFUSED)
