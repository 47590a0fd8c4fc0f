"""Pieces of SVG over one time axis, placed in percent so that type keeps its size at every width."""
from __future__ import annotations

from collections.abc import Iterable
from fractions import Fraction
from html import escape
from math import ceil, floor

from .figures import DAY, clock
from .library import Drawn

WIDE, TALL = 20000, 1000  # units of the box that a line is drawn in
NARROW, MIDDLE, BROAD = 470, 660, 900  # pixels of time axis that labels are fitted to
STEPS = (1, 2, 5, 10, 15, 30, 60, 120, 300, 600, 900, 1800, 3600, 7200, 10800, 21600, 43200, DAY)
APART = 54  # pixels between two times on the axis
LEAST = Fraction(1, 10**10)  # of the width: a box without any is not drawn, and neither is its edge
TOP, LINE, BARS = 5, 54, 62  # percent of a dose's row: what is above its line, how high that is, where its bars begin
LOGGED = 90  # percent of a log's row: how high the line is


class Axis:
    """Moments as parts of the width: one even scale, or up to three where edges crowd, one of them drawn wider."""

    def __init__(self, moments: Iterable[Fraction | int]):
        edges = sorted(map(Fraction, set(moments)))
        self.start, self.end = edges[0], edges[-1]
        self.days = floor(self.start) // DAY != (ceil(self.end) - 1) // DAY
        low, high, gain = crowded(edges)
        marks = sorted({0, low, high, len(edges) - 1}) if gain > 0.5 else [0, len(edges) - 1]
        self.pieces, right = [], Fraction(0)
        for a, b in zip(marks, marks[1:]):
            share = Fraction(b - a, len(edges) - 1) + (edges[b] - edges[a]) / (self.end - self.start)
            left, right = right, right + share / 2
            self.pieces.append((edges[a], edges[b], left, right))
        self.wider = self.pieces[marks.index(low)] if len(marks) > 2 else None

    def at(self, moment: Fraction | int) -> Fraction:
        start, end, left, right = next((piece for piece in self.pieces if moment <= piece[1]), self.pieces[-1])
        return left + (right - left) * (moment - start) / (end - start)

    def ticks(self, width: int, given: Iterable[int] = ()) -> list[int]:
        """Those given, the start, where the scale changes, and round times that keep their distance."""
        found = {*given, *(int(piece[0]) for piece in self.pieces)}
        for start, end, left, right in self.pieces:
            step = next((step for step in STEPS if step * (right - left) * width >= APART * (end - start)), DAY)
            for tick in range(ceil(start / step) * step, floor(end) + 1, step):
                if all(abs(self.at(tick) - self.at(other)) * width >= APART for other in found):
                    found.add(tick)
        return sorted(found)

    def scale(self) -> str:
        """Where the pieces begin and end, for whoever reads the page by program."""
        ends = [(piece[0], piece[2]) for piece in self.pieces] + [(self.end, 1)]
        return " ".join(f"{moment}:{part}" for moment, part in ends)


def crowded(edges: list[Fraction]) -> tuple[int, int, float]:
    """The stretch between two whole ticks that has most more than its share of the edges, and how much more."""
    length, count = edges[-1] - edges[0], len(edges) - 1
    lead = [at / count - float((edge - edges[0]) / length) for at, edge in enumerate(edges)]
    least, found = 0, (0, count, 0.0)
    for at in (at for at, edge in enumerate(edges) if edge.denominator == 1):
        found = max(found, (least, at, lead[at] - lead[least]), key=lambda stretch: stretch[2])
        least = min(least, at, key=lead.__getitem__)
    return found


def percent(part: Fraction | int) -> str:
    return f"{float(100 * part):.{3 if part == 0 or part > 0.0001 else 8}f}".rstrip("0").rstrip(".") + "%"


def box(axis: Axis, start, end, kind: str, title: str = "", more: str = 'height="100%"') -> str:
    left, shown = axis.at(start), f"<title>{escape(title)}</title>" if title else ""
    width = percent(max(axis.at(end) - left, LEAST))
    return f'<rect class="{kind}" x="{percent(left)}" width="{width}" {more}>{shown}</rect>'


def rule(part: Fraction, kind: str, top: str = "0") -> str:
    return f'<line class="{kind}" x1="{percent(part)}" x2="{percent(part)}" y1="{top}" y2="100%"/>'


def text(part: Fraction | int, y: str, words: str, kind: str, shift: int = 0) -> str:
    return f'<text class="{kind}" x="{percent(part)}" y="{y}" dx="{shift}" dy=".35em">{escape(words)}</text>'


def width_class(words: str, left: Fraction, right: Fraction) -> str | None:
    """From which width on words fit into a stretch: every one, a middle one, a broad one, or none."""
    need = (len(words) * 6.4 + 4) / float(right - left) if right > left else BROAD + 1
    return next((kind for limit, kind in ((NARROW, ""), (MIDDLE, " f1"), (BROAD, " f2")) if need <= limit), None)


def fitted(left: Fraction, right: Fraction, y: str, words: str, kind: str) -> str:
    width = width_class(words, left, right)
    return "" if width is None else text((left + right) / 2, y, words, kind + width)


def steps(axis: Axis, points: Iterable[tuple[int, Fraction | int]], full: Fraction | int) -> str:
    """Steps that come late and low, across rounded up and height rounded down: never above the amount."""
    start, *rest = ((ceil(axis.at(tick) * WIDE), TALL - amount * TALL // full) for tick, amount in points)
    return f"M{start[0]} {start[1]}" + "".join(f"H{across}V{down}" for across, down in rest)


def line(axis: Axis, drawn: list[tuple[int, Drawn]], full: Fraction | int, hue: str, height: int = LINE,
         metered: Iterable[list[tuple[int, Fraction]]] = ()) -> str:
    """A dose's line, filled below, and beside it runs of what was metered."""
    path = steps(axis, ((tick, point.amount) for tick, point in drawn), full)
    runs = "".join(f'<path class="metered" d="{steps(axis, run, full)}"/>' for run in metered)
    return (f'<svg y="{TOP}%" height="{height}%" viewBox="0 0 {WIDE} {TALL}" preserveAspectRatio="none">'
            f'<path class="under {hue}" d="{path}V{TALL}"/><path class="line" d="{path}"/>{runs}</svg>')


def dot(axis: Axis, tick: int, part: Fraction) -> str:
    """A reading, at a part of the height of a log's line."""
    top = (TOP + LOGGED * (1 - part)) / 100
    return f'<circle class="reading" cx="{percent(axis.at(tick))}" cy="{percent(top)}" r="2.5"/>'


def grid(axis: Axis) -> str:
    return "".join([*(rule(axis.at(tick), "grid") for tick in axis.ticks(NARROW)),
                    *(rule(piece[2], "turn") for piece in axis.pieces[1:])])


def shared(axis: Axis) -> str:
    """What every row refers to: the hatching and the grid."""
    return ('<defs><pattern id="hatch" width="5" height="5" patternUnits="userSpaceOnUse" '
            'patternTransform="rotate(45)">'
            f'<rect class="hatch" width="1" height="5"/></pattern><g id="grid">{grid(axis)}</g></defs>')


def times(axis: Axis) -> str:
    """The axis in words: few times on every page, more where there is room."""
    few, out = axis.ticks(NARROW), []
    more = axis.ticks(MIDDLE, few)
    for tick in axis.ticks(BROAD, more):
        midnight = axis.days and tick % DAY == 0
        words = clock(tick, tick == few[0] or tick % DAY == 0, tick == axis.end)
        kind = "soft hour" + ("" if tick in few else " f1" if tick in more else " f2")
        out.append(text(axis.at(tick), "72%", words[:3] if midnight and tick != axis.end else words, kind))
    if axis.wider:
        start, end, left, right = axis.wider
        out.append(box(axis, start, end, "rule", more='y="9" height="1"'))
        out.append(text((left + right) / 2, "9", "drawn wider", "waits"))
    return "".join(out)
