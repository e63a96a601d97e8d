"""A whole class: the marks are those that follow from how each folder was made, in any order of the folders, and what it takes.

LC3LAB_CLASS is the number of folders, 50 if it isn't there.
"""
import csv
import io
import os
import random
import subprocess
import time
from dataclasses import dataclass

from . import submissions
from .calling import GRADE, TASKS

TASK = TASKS / "3-lost-update.toml"
RUNS = 3
SIDE_BY_SIDE = 4


@dataclass
class Took:
    """What a call took: seconds on the clock and of processor time, and the most megabytes of one of its processes."""

    clock: float
    processor: float
    megabytes: int

    def __str__(self):
        return f"{self.clock:.1f} s, {self.processor:.1f} s of processor time, {self.megabytes} megabytes"


def graded(check, grader, folders, *words):
    """The verdicts of each folder in the order of a call, and what that took."""
    table = grader.place / "marks.csv"
    began = time.monotonic()
    with open(grader.place / "printed", "wb") as printed:
        called = subprocess.Popen([GRADE, "-j", str(SIDE_BY_SIDE), "--brief", "--csv", table, *words, "--", TASK, *folders],
                                  stdout=printed, cwd=grader.place, env=grader.environment)
        _, status, used = os.wait4(called.pid, 0)
    called.returncode = os.waitstatus_to_exitcode(status)
    took = Took(time.monotonic() - began, used.ru_utime + used.ru_stime, used.ru_maxrss // 1024)
    check(called.returncode == 0, f"status {called.returncode}")
    rows = list(csv.DictReader(io.StringIO(table.read_bytes().decode(), newline="")))
    check(len(rows) == RUNS * len(folders), f"{len(rows)} lines for {len(folders)} folders")
    return {it: [row["verdict"] for row in rows[RUNS * place:RUNS * place + RUNS]] for place, it in enumerate(folders)}, took


def look(check, grader):
    count = int(os.environ.get("LC3LAB_CLASS", "50"))
    made = submissions.make(grader.place / "class", count)
    print(f"class: {count} folders, {SIDE_BY_SIDE} side by side; load before: {os.getloadavg()[0]:.1f}", flush=True)
    results = grader.place / "results"
    found, took = graded(check, grader, list(made), "--results", results)
    print(f"class: {took}; load after: {os.getloadavg()[0]:.1f}", flush=True)
    for folder, wanted in made.items():
        fits = [verdict in one.split(" or ") for verdict, one in zip(found[folder], wanted)]
        check(fits == [True] * RUNS, f"{folder!r}: {found[folder]}, not {wanted}")
    again, took = graded(check, grader, list(made), "--results", results)
    print(f"class, taken up: {took}", flush=True)
    check(again == found, f"other marks where they are taken up: {differing(again, found)}")
    shuffled = random.Random(count).sample(list(made), count)
    other, took = graded(check, grader, shuffled)
    print(f"class, in another order, nothing kept: {took}; load after: {os.getloadavg()[0]:.1f}", flush=True)
    check(other == found, f"other marks in another order: {differing(other, found)}")


def differing(one, other):
    return [(it, one.get(it), other[it]) for it in other if one.get(it) != other[it]]
