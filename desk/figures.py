"""Times, rates and counts as people write them. Fractions are cut, never rounded up; only percents are rounded."""
from __future__ import annotations

import re
from fractions import Fraction
from math import ceil, floor

from .library import GRAM

DAY = 86400
DAYS = ("Mon", "Tue", "Wed", "Thu", "Fri", "Sat", "Sun")
TIME = re.compile(rf"({'|'.join(DAYS)})\s+([0-9][0-9]?):([0-9][0-9])(?::([0-9][0-9]))?", re.IGNORECASE)


def whole_in(text: str) -> int | None:
    """The number that a text of digits names."""
    return int(text) if re.fullmatch("[0-9]{1,18}", text) else None


def seconds_in(text: str) -> int | None:
    """The second of the week that a text names: 23400, Mon 06:30 or Mon 06:30:15."""
    found = TIME.fullmatch(text)
    if not found:
        return whole_in(text)
    hours, minutes, seconds = (int(part or 0) for part in found.groups()[1:])
    of_day = hours * 3600 + minutes * 60 + seconds
    return DAYS.index(found[1].title()) * DAY + of_day if max(minutes, seconds) < 60 and of_day <= DAY else None


def clock(moment: Fraction | int, day: bool = True, closing: bool = False) -> str:
    """Mon 06:30:15, seconds and thousandths where needed; midnight may close a day as 24:00, and closes the week."""
    if moment > DAY * len(DAYS):
        return plain(moment)
    days, rest = divmod(Fraction(moment), DAY)
    if rest == 0 and days and (closing or days == len(DAYS)):
        days, rest = days - 1, Fraction(DAY)
    whole = floor(rest)
    words = f"{whole // 3600:02}:{whole // 60 % 60:02}" + (f":{whole % 60:02}" if rest % 60 else "") + thousandths(rest)
    return f"{DAYS[days]} {words}" if day else words


def plain(moment: Fraction | int) -> str:
    """A moment in seconds of the week."""
    return f"{floor(moment)}{thousandths(moment)}"


def thousandths(moment: Fraction | int) -> str:
    return f".{floor(moment % 1 * 1000):03}" if moment % 1 else ""


def span(start: Fraction | int, end: Fraction | int, day: bool = True) -> str:
    """From one moment to another, the day said again only where it is another one."""
    return f"{clock(start, day)} to {clock(end, floor(start) // DAY != (ceil(end) - 1) // DAY, True)}"


def decimal(fraction: Fraction, digits: int = 3) -> str:
    """At least three digits that count."""
    while fraction and fraction * 10**digits < 100:
        digits += 1
    words = str(floor(fraction * 10**digits)).rjust(digits + 1, "0")
    return f"{int(words[:-digits]):,}.{words[-digits:]}".rstrip("0").rstrip(".")


def grams(parts: int) -> str:
    """So many 1/1024 gram, exactly: their decimals end at the tenth, as 1,024 is the tenth power of 2."""
    return f"{decimal(Fraction(parts, GRAM), 10)} g"


def in_percent(some: int, whole: int) -> str:
    """To the nearest tenth, and 0 or 100 only where it is exactly that."""
    tenths = (2000 * some + whole) // (2 * whole)
    return decimal(Fraction(min(max(tenths, 1), 999) if 0 < some < whole else tenths, 10)) + " %"


def rate(fraction: Fraction) -> str:
    return f"{decimal(fraction)} g/s"


def count(number: int, word: str) -> str:
    return f"{number:,} {word}" + ("" if number == 1 else "es" if word.endswith("s") else "s")


def listed(words: list[str]) -> str:
    return ", ".join(words[:-1]) + " and " + words[-1] if len(words) > 1 else "".join(words)
