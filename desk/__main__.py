"""The command line: a verb is a function here, under its use and what it does."""
from __future__ import annotations

import argparse
import os
import re
import signal
import subprocess
import sys
import tempfile
from collections.abc import Callable
from pathlib import Path

from . import sheet
from .figures import whole_in
from .library import Library
from .logs import Log
from .orders import Order, Wrong, read_order, write_text
from .plans import Differs, Plan
from .words import Refusal, check, check_season, check_text, line_words, log_words, plan_words, season_words

HOME = Path(__file__).resolve().parent.parent
LIBRARY = "target/staticlib/libknellgable.so"
PRINTER, SEASON = "target/bin/printer", "target/bin/season"
need: Callable[[str], Path] = HOME.joinpath  # ./knell builds it first
VERBS: dict[str, tuple[str, str, Callable[..., int | None]]] = {}


def say(words: object) -> None:
    print(f"knell: {words}", file=sys.stderr)


def verb(use: str, does: str):
    """Makes a function a verb. Its use names its arguments, of the kinds below; those in brackets may be left out."""
    def made(function: Callable[..., int | None]):
        VERBS[use.split()[0]] = use, does, function
        return function
    return made


def writable(name: str) -> Path:
    path = Path(name)
    if path.is_dir() or not path.parent.is_dir():
        raise Wrong(f"can't write {name}")
    return path


def read_bytes(name: str) -> bytes:
    return Path(name).read_bytes()


def dose_number(word: str) -> int:
    number = whole_in(word)
    if number is None:
        raise Wrong("DOSE is not a number")
    return number


def log_of_dose(word: str) -> tuple[int, bytes]:
    number, _, name = word.partition("=")
    if not name:
        raise Wrong(f"{word} is not DOSE=LOG")
    return dose_number(number), read_bytes(name)


KINDS = {"ORDER": read_order, "PLAN": read_bytes, "OUT": writable, "DOSE": dose_number, "LOG": read_bytes,
         "DOSE=LOG": log_of_dose, "STREAM": read_bytes}


def printed(program: str, data: bytes) -> int:
    """Has a proved program print what it says of these bytes: its status. It may end before it has read them all."""
    with tempfile.TemporaryFile() as lent:
        lent.write(data)
        lent.seek(0)
        return subprocess.run([need(program)], stdin=lent, check=False).returncode


def library_for(order: Order) -> Library:
    """The library, for an order whose text holds nothing out of range."""
    library = Library(need(LIBRARY))
    check_text(order, library)
    return library


def plan_for(order: Order, given: bytes | None) -> Plan:
    """The plan given, or else the library's own; it stands. Only an order that is planned now may not name a trial bay."""
    library, data = library_for(order), given
    if data is None:
        answer, data = library.plan(order.data)
        check(answer, order, library)
    check(library.judge(order.data, data), order, library)
    return Plan(order, data, library)


def log_for(plan: Plan, dose: int, data: bytes) -> Log:
    """A log laid beside a plan that stands, and not refused."""
    log = Log(plan, dose, data)
    check(log.laid, plan.order, plan.library, log)
    return log


def both_forms(order: Order) -> Order:
    """An order that is text as well as bytes: if it is refused, then for what its records say together."""
    library = library_for(order)
    answer = library.judge(order.data)
    if answer.number in (2, 3, 4, 5):
        check(answer, order, library)
    return order


@verb("plan ORDER [OUT.plan] [--records]", "says what each fan feeds when, or the plan's records as the printer does")
def plan(order: Order, out: Path | None, records: bool) -> int | None:
    if records:
        library_for(order)
        status = printed(PRINTER, order.data)
        if status or not out:
            return status
    made = plan_for(order, None)
    if out:
        out.write_bytes(made.data)
    if not records:
        print(plan_words(made))
    return None


@verb("judge ORDER [PLAN]", "says whether a plan stands: the one given or, here and below, the library's own")
def judge(order: Order, plan: bytes | None) -> None:
    plan_for(order, plan)
    print("stands")


@verb("draw ORDER DOSE [PLAN]", "says how much of a dose is in, and by which fan, at seconds of its window")
def draw(order: Order, dose: int, plan: bytes | None) -> None:
    made = plan_for(order, plan)
    check(made.point(dose, 0), order, made.library)
    print(line_words(made, dose))


@verb("log ORDER DOSE LOG [PLAN]", "says what a log metered of a dose, what its line rose by, and what is unknown")
def lay(order: Order, dose: int, log: bytes, plan: bytes | None) -> None:
    print(log_words(log_for(plan_for(order, plan), dose, log)))


@verb("sheet ORDER [PLAN] OUT.html [--log DOSE=LOG]", "writes the page of a plan, with such logs, or of a refusal")
def make_sheet(order: Order, plan: bytes | None, out: Path, log: list[tuple[int, bytes]]) -> None:
    try:
        made = plan_for(order, plan)
        logs = [log_for(made, *given) for given in log]
    except Refusal as refusal:
        out.write_text(sheet.refused_page(refusal, order), "utf-8", "replace")
        raise
    out.write_text(sheet.planned_page(made, logs), "utf-8", "replace")
    print(f"{out}: {sheet.title_of(made)}, the plan stands")


@verb("season STREAM [--words]", "adds up a file of orders: the figures as the proved program prints them, or in words")
def add_up(stream: bytes, words: bool) -> int | None:
    if not words:
        return printed(SEASON, stream)
    library = Library(need(LIBRARY))
    season = library.season(stream)
    check_season(season, stream, library)
    print(season_words(season))
    return None


@verb("order ORDER OUT.order", "writes an order's bytes")
def to_bytes(order: Order, out: Path) -> None:
    out.write_bytes(both_forms(order).data)


@verb("text ORDER", "says an order as text, for a spreadsheet")
def to_text(order: Order) -> None:
    print(write_text(both_forms(order)), end="")


class Parser(argparse.ArgumentParser):
    """Bad use is one line."""
    def error(self, message: str):
        raise Wrong(f"{message}; use: {self.usage}")


def show_help() -> int:
    width = max(len(use) for use, _, _ in VERBS.values())
    print("use: ./knell VERB ..; an ORDER is bytes, or text where its name ends in .csv; a STREAM is orders' bytes, "
          "one behind the other")
    for use, does, _ in VERBS.values():
        print(f"  {use:{width}}  {does}")
    print("It exits 0, 1 at a refusal, and 2 at bad use, a file that can't be read or written, or a failed build.")
    return 0


def run(words: list[str]) -> int:
    if words[:1] in (["help"], ["--help"], ["-h"]):
        return show_help()
    if not words or words[0] not in VERBS:
        raise Wrong(f"{f'no verb {words[0]!r}' if words else 'no verb'}: ./knell help says which there are")
    use, _, function = VERBS[words[0]]
    parser = Parser(usage=f"./knell {use}", add_help=False)
    for word in re.findall(r"\[.*?\]|\S+", use)[1:]:
        name, _, value = word.strip("[]").partition(" ")
        kind = name.partition(".")[0]
        if value:
            parser.add_argument(name, action="append", metavar=value, type=KINDS[value], default=[])
        elif name.startswith("--"):
            parser.add_argument(name, action="store_true")
        else:
            parser.add_argument(kind.lower(), metavar=name, type=KINDS[kind], nargs="?" if name != word else None)
    try:
        return function(**vars(parser.parse_intermixed_args(words[1:]))) or 0
    except Refusal as refusal:  # what text prints may go into a file
        print(refusal, file=sys.stderr if function is to_text else sys.stdout)
        return 1


def main() -> int:
    signal.signal(signal.SIGPIPE, signal.SIG_DFL)
    sys.stdout.reconfigure(errors="backslashreplace")  # a file's name may be any bytes
    try:
        status = run(sys.argv[1:])
        sys.stdout.flush()
        return status
    except (Wrong, Differs) as wrong:
        say(wrong)
    except OSError as error:
        os.dup2(os.open(os.devnull, os.O_WRONLY), sys.stdout.fileno())  # or it fails again when it is closed
        say(f"{error.filename}: {error.strerror}" if error.filename else error)
    except KeyboardInterrupt:
        say("stopped")
    return 2


if __name__ == "__main__":
    sys.exit(main())
