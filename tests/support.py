"""What the tests of the desk share: the library, orders by chance, and how a run is told."""
import io
import struct
import subprocess
import sys
import unittest
from pathlib import Path

ROOT = Path(__file__).resolve().parent.parent
sys.path.insert(0, str(ROOT))
sys.dont_write_bytecode = True

from desk import orders, plans  # noqa: E402
from desk.__main__ import LIBRARY as LIBRARY_FILE  # noqa: E402
from desk.library import Library  # noqa: E402

subprocess.run([ROOT / "knell", "judge", ROOT / "samples/p2.order"], check=True, stdout=subprocess.DEVNULL)  # builds it
LIBRARY = Library(ROOT / LIBRARY_FILE)


def fans_bytes(count=2, grams=3, seconds=1):
    return struct.pack("<BBHII20x", 0x46, count, 0, grams, seconds)


def dose_bytes(bay, release, deadline, grams):
    return struct.pack("<BBHIII16x", 0x44, 0, bay, release, deadline, grams)


def meter_bytes(form, bay, tick, value=0):
    """A record of a log; the value of a flow, form 2, in grams per second."""
    return struct.pack("<BBHII20x" if form != 2 else "<BBHIf20x", 0x4D, form, bay, tick, value)


def random_order(chance, most=24):
    """Whole records with fields in range, one F anywhere; bays may clash and rates be too high."""
    span = chance.choice([30, 5000, 86400, 604800])
    records = []
    for bay in range(chance.randint(0, most)):
        release = chance.randrange(span)
        deadline = chance.choice([chance.randint(release + 1, span), min(release + chance.randint(1, 900), 604800)])
        records.append(dose_bytes(chance.choice([bay + 1, bay + 1, chance.randint(1, 999)]), release, deadline,
                                  chance.choice([1, chance.randint(1, 5000), chance.randint(1, 10**6)])))
    top = chance.choice([(1000000, 1), (1000000, 1), (chance.randint(1, 50), chance.randint(1, 10))])
    records.insert(chance.randint(0, len(records)), fans_bytes(chance.randint(1, 8), *top))
    return b"".join(records)


def planned(name, order, plan=None):
    made = orders.Order(name, order)
    return plans.Plan(made, LIBRARY.plan(order)[1] if plan is None else plan, LIBRARY)


def tell(name, of_what):
    """Runs the tests of the script: one line, or what went wrong."""
    said = io.StringIO()
    result = unittest.main("__main__", exit=False, testRunner=unittest.TextTestRunner(said)).result
    if not result.wasSuccessful():
        sys.exit(said.getvalue())
    print(f"{name}: {result.testsRun} tests of {of_what}, nothing wrong")
