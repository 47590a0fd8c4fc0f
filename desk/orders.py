"""Orders, and their text: CSV with a header row, then a row for the fans and a row for each dose.

A row is a record, in the same sequence: bytes and text go over into each other without loss.
"""
from __future__ import annotations

import csv
import io
from collections.abc import Iterator
from dataclasses import astuple
from itertools import zip_longest
from pathlib import Path

from .figures import clock, plain, seconds_in, whole_in
from .library import MOST, RECORD, Dose, Fans, read_records, write_record

ROWS = {Dose: ("dose", ("bay", "start", "done", "grams")), Fans: ("fans", ("fans", "rule", "top grams", "top seconds"))}
KINDS = {name: kind for kind, (name, _) in ROWS.items()}
UNSAID = {"rule": "0"}  # what an empty cell means, or none: older texts read as they did
COLUMNS = ("row", *(column for _, columns in ROWS.values() for column in columns if column not in UNSAID), *UNSAID)
TIMES = ("start", "done")
# Words only: whether a value is in range is the library's to say.
RANGES = {"bay": "1 to 999", "start": "0 to 604,799, which is Sun 23:59:59",
          "done": "a second after the start up to 604,800, which is Sun 24:00", "grams": "1 to 1,000,000",
          "fans": "1 to 8", "rule": "0 or 1", "top grams": "1 to 1,000,000", "top seconds": "1 to 1,000,000"}


class Wrong(Exception):
    """Bad use, a file that can't be written, or a text that is no order: one line."""


class Order:
    """An order's bytes as the library takes them, and what words about it need."""

    def __init__(self, name: str, data: bytes, lines: tuple[int, ...] = (), clock: bool = True):
        """A text has the line of each record. Times are said as Mon 06:30, or in seconds."""
        self.name, self.data, self.lines, self.clock = name, data, lines, clock
        self.records = read_records(data)
        self.places = [at for at, record in enumerate(self.records) if isinstance(record, Dose)]  # of each dose
        self.doses = [self.records[at] for at in self.places]
        self.fans = [record for record in self.records if isinstance(record, Fans)]

    def bytes_at(self, at: int) -> bytes:
        return self.data[RECORD * at:RECORD * (at + 1)]

    def place(self, at: int) -> str:
        """Where a record stands, for people."""
        return f"line {self.lines[at]}" if self.lines else f"record {at}"

    def time(self, moment, closing: bool = False) -> str:
        return clock(moment, closing=closing) if self.clock else plain(moment)

    def cell(self, column: str, value: int) -> str:
        """A value as the text has it."""
        return self.time(value, column == "done") if column in TIMES else str(value)


def read_order(name: str) -> Order:
    """An order from a file: a text where its name ends in .csv, else bytes."""
    data = Path(name).read_bytes()
    if not name.lower().endswith(".csv"):
        return Order(name, data)
    try:
        return read_text(name, data.decode("utf-8-sig", errors="replace"))
    except Wrong as wrong:
        raise Wrong(f"{name}: {wrong}") from None


def read_text(name: str, text: str) -> Order:
    rows = rows_of(text)
    columns = header(*next(rows, (1, [])))
    records = {line: record_of(line, columns, cells) for line, cells in rows}
    data = b"".join(map(write_record, records.values()))
    return Order(name, data, tuple(records), ":" in text)  # only a time of day has a colon


def rows_of(text: str) -> Iterator[tuple[int, list[str]]]:
    """The rows that hold anything, each with its first line; what parts the header's cells parts all."""
    lines, before = io.StringIO(text, newline="").readlines(), 0
    rows = csv.reader(lines, delimiter=max(",;\t", key=next(filter(str.strip, lines), "").count))
    try:
        for row in rows:
            cells = [cell.strip() for cell in row]
            if any(cells):
                yield before + 1, cells
            before = rows.line_num
    except csv.Error as error:
        raise wrong(before + 1, 1, str(error)) from None


def write_text(order: Order) -> str:
    """The text of an order whose records the reader takes: without rules where all are 0, as it was before them."""
    said = [column for column in COLUMNS if column != "rule" or any(fans.rule for fans in order.fans)]
    rows = [said]
    for record in order.records:
        name, columns = ROWS[type(record)]
        cells = {column: order.cell(column, value) for column, value in zip(columns, astuple(record))}
        rows.append([name, *(cells.get(column, "") for column in said[1:])])
    return "".join(",".join(row) + "\n" for row in rows)


def wrong(line: int, column: str | int, what: str) -> Wrong:
    return Wrong(f"line {line}, column {column}: {what}")


def out_of_range(line: int, column: str, value: str) -> Wrong:
    return wrong(line, column, f"{value} is out of range: {RANGES[column]}")


def header(line: int, cells: list[str]) -> list[str]:
    if not cells:
        raise wrong(line, "row", f"no header; it names the columns {', '.join(COLUMNS)}")
    names = [" ".join(cell.lower().split()) for cell in cells]
    for at, name in enumerate(names):
        if name and name not in COLUMNS:
            raise wrong(line, at + 1, f"{cells[at]!r} is none of the columns {', '.join(COLUMNS)}")
        if name and name in names[:at]:
            raise wrong(line, at + 1, f"{name!r} is there twice")
    return names


def record_of(line: int, columns: list[str], cells: list[str]) -> Fans | Dose:
    for at, (column, cell) in enumerate(zip_longest(columns, cells, fillvalue=""), 1):
        if cell and not column:
            raise wrong(line, at, f"{cell!r} stands under no name")
    row = {column: cell for column, cell in zip(columns, cells) if cell}
    name = row.pop("row", "")
    if name.lower() not in KINDS:
        raise wrong(line, "row", f"{name!r} is neither {' nor '.join(KINDS)}")
    kind = KINDS[name.lower()]
    own = ROWS[kind][1]
    for column, cell in row.items():
        if column not in own:
            raise wrong(line, column, f"{cell!r} is not for a row of {name}")
    return kind(*(value_of(line, column, row.get(column, UNSAID.get(column, "")), most)
                  for column, most in zip(own, MOST[kind])))


def value_of(line: int, column: str, cell: str, most: int) -> int:
    value = seconds_in(cell) if column in TIMES else whole_in(cell)
    if not cell:
        raise wrong(line, column, "nothing is there")
    if value is None:
        what = "time: write Mon 06:30, Mon 06:30:15 or a second of the week" if column in TIMES else "whole number"
        raise wrong(line, column, f"{cell!r} is no {what}")
    if value > most:
        raise out_of_range(line, column, cell)
    return value
