"""A plan that stands, by fan and by dose, and the checks without which no sheet is written."""
from __future__ import annotations

from collections.abc import Iterable
from dataclasses import replace
from fractions import Fraction
from math import ceil, floor

from .library import DOSING, Class, Drawn, Library, Slot, read_records
from .orders import Order


class Differs(Exception):
    """The library's answers and what would be drawn don't agree."""


class Plan:
    """An order and plan bytes that stand for it."""

    def __init__(self, order: Order, data: bytes, library: Library):
        self.order, self.data, self.library, self.fans = order, data, library, order.fans[0]
        self.classes = [record for record in read_records(data) if isinstance(record, Class)]
        self.slots = [record for record in read_records(data) if isinstance(record, Slot)]

    def point(self, dose: int, tick: int) -> Drawn:
        return self.library.point(self.order.data, self.data, dose, tick)

    def of_fan(self, fan: int) -> list[Slot]:
        return joined([slot for slot in self.slots if slot.fan == fan])

    def of_dose(self, dose: int) -> list[Slot]:
        return joined([slot for slot in self.slots if slot.dose == dose])

    def waits(self, dose: int) -> list[tuple[Fraction, Fraction, Fraction]]:
        """The stretches of a dose's window before its last slot in which it has no fan, with the slowest rate of a fan.

        Checked: every fan runs all the while, at the dose's rate or above."""
        found, at = [], Fraction(self.order.doses[dose].release)
        for slot in self.of_dose(dose):
            if slot.start > at:
                busy = [other for other in self.slots if other.start < slot.start and other.end > at]
                fed = sum(min(other.end, slot.start) - max(other.start, at) for other in busy)
                slowest = min((other.rate for other in busy), default=0)
                if fed != self.fans.count * (slot.start - at) or slowest < slot.rate:
                    raise Differs(f"dose {dose} is idle from {at} to {slot.start} with a fan free or slower")
                found.append((at, slot.start, slowest))
            at = slot.end
        return found

    def points(self, dose: int, most: int, more: Iterable[int] = ()) -> list[tuple[int, Drawn]]:
        """The dose as the library draws it: at its window's ends, at slot edges and at about so many ticks between.
        Where more ticks are asked for, at those in its window too.

        Checked: its fan is that of the first bar in the second from there on, and it has none where no bar is."""
        window, slots = self.order.doses[dose], self.of_dose(dose)
        step = max(1, ceil(sum(slot.end - slot.start for slot in slots) / most))
        ticks = {window.release, window.deadline, *(at for at in more if window.release < at < window.deadline)}
        for slot in slots:
            ticks.update((floor(slot.start), floor(slot.end), ceil(slot.end)))
            ticks.update(range(ceil(slot.start), ceil(slot.end), step))
        found = [(tick, self.point(dose, tick)) for tick in sorted(ticks)]
        for tick, point in found:
            fans = [point.fan] if point.state == DOSING else []
            # A bar that has time in the second from the tick on, the first one in time: the bars are in time order.
            if point.number or fans != [slot.fan for slot in slots if slot.start < tick + 1 and slot.end > tick][:1]:
                raise Differs(f"dose {dose} at tick {tick}: the library's point and the bars differ")
        return found


def joined(slots: list[Slot]) -> list[Slot]:
    """Slots in time order, made one where they touch and are of one dose and fan."""
    found: list[Slot] = []
    for slot in sorted(slots, key=lambda slot: slot.start):
        last = found[-1] if found else None
        if last and (last.end, last.dose, last.fan) == (slot.start, slot.dose, slot.fan):
            found[-1] = replace(last, end_tick=slot.end_tick, end_part=slot.end_part)
        else:
            found.append(slot)
    return found
