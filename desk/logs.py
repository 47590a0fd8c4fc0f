"""A log laid beside a dose's line, as a whole and stretch by stretch: every figure is an answer of the library."""
from __future__ import annotations

from dataclasses import dataclass
from fractions import Fraction
from functools import cached_property
from itertools import accumulate, groupby

from .library import GRAM, RECORD, Laid, read_records
from .plans import Differs, Plan


@dataclass(frozen=True)
class Stretch:
    """The time between two neighbouring records, and the answer to a log of these two alone."""
    start: int
    end: int
    laid: Laid


class Log:
    """Log bytes, and what is answered of them beside a dose of a plan that stands: figures, or a refusal."""

    def __init__(self, plan: Plan, dose: int, data: bytes):
        self.plan, self.dose, self.data, self.records = plan, dose, data, read_records(data)
        self.laid = self.lay(data)

    def lay(self, data: bytes) -> Laid:
        return self.plan.library.log(self.plan.order.data, self.plan.data, self.dose, data)

    @cached_property
    def ticks(self) -> list[int]:
        return [record.tick for record in self.records]

    @cached_property
    def runs(self) -> list[list[Stretch]]:
        """The stretches in time, neighbours together that are alike known or unknown.

        Checked: logs that continue each other add up, and so do the figures of its stretches to those of the log."""
        pairs = (self.data[at:at + 2 * RECORD] for at in range(0, len(self.data) - RECORD, RECORD))
        found = [Stretch(*ends, self.lay(pair)) for *ends, pair in zip(self.ticks, self.ticks[1:], pairs)]
        for name in ("metered", "risen", "unknown"):
            if sum(getattr(stretch.laid, name) for stretch in found) != getattr(self.laid, name):
                raise Differs(f"dose {self.dose}: the stretches of its log and the log differ in what is {name}")
        return [list(run) for _, run in groupby(found, lambda stretch: stretch.laid.unknown > 0)]

    def metered(self, run: list[Stretch]) -> list[tuple[int, Fraction]]:
        """A run of known stretches as a line, which starts at the drawn amount, so that the two can be compared."""
        start = run[0].start
        amounts = accumulate((Fraction(stretch.laid.metered, GRAM) for stretch in run),
                             initial=Fraction(self.plan.point(self.dose, start).amount))
        return [*zip((start, *(stretch.end for stretch in run)), amounts)]
