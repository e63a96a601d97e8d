"""The command line of `grade`."""
from __future__ import annotations

import argparse
import os
import signal
import sys
import tempfile
from pathlib import Path

from . import reports
from .crew import Crew
from .faults import NoMark, TaskFault
from .laboratory import Laboratory, found_beside
from .marking import Given, handed_in, key_of
from .packing import KINDS, pack
from .records import Records, write_whole
from .task import read_plan
from .trying import try_task

WRITERS = {"junit": reports.junit, "gradescope": reports.gradescope, "csv": reports.table, "totals": reports.totals}
LONGEST_SEED = 4096


class Stopped(Exception):
    """A signal asks for the end."""


def parser():
    words = argparse.ArgumentParser(
        prog="grade", allow_abbrev=False,
        description="Marks what students hand in, by every end that their programs can have (docs/autograding.md).",
        epilog="The status is 0 where all were marked, 1 where a mark couldn't be worked out or --must-pass isn't met, and 2 "
               "where the task or these words can't be taken. LC3LAB names the lc3lab to use, where it isn't the one two "
               "folders up, or else the one on the path.")
    words.add_argument("task", metavar="TASK", help="the task's file")
    words.add_argument("folders", metavar="FOLDER", nargs="*", help="a folder that a student handed in")
    words.add_argument("-j", "--jobs", type=int, metavar="N", help="mark N folders side by side (as many as there are "
                       "processors, and memory for the task's limit in each)")
    words.add_argument("--results", metavar="PLACE", help="keep marks, and a page of each failure, in this folder; what is "
                       "kept there is taken up")
    words.add_argument("--seed-file", metavar="FILE", help="what the task leaves to be drawn is drawn by what stands in this file, "
                       "which students don't know, and by what is handed in; else by the variable LC3LAB_SEED")
    words.add_argument("--seed", help=argparse.SUPPRESS)
    words.add_argument("--practice", action="store_true", help="draw by what is handed in alone, as each student can")
    words.add_argument("--pending", action="store_true", help="print the folders of which no mark is kept in PLACE, each with "
                       "a zero byte behind it, and mark none")
    words.add_argument("--mutants", action="store_true", help="the folder is a solution: try whether the task refuses it where a "
                       "call is left out, doubled, exchanged with the next one, or has another name or value")
    words.add_argument("--part", metavar="K/N", help="take each N-th folder alone, from the K-th on")
    words.add_argument("--junit", metavar="FILE", help="write the marks as JUnit's XML")
    words.add_argument("--gradescope", metavar="FILE", help="write the marks of one folder as Gradescope's results.json")
    words.add_argument("--csv", metavar="FILE", help="write the marks as a table, with a row for each folder and run")
    words.add_argument("--totals", metavar="FILE", help="write the marks as a table, with a row for each folder")
    words.add_argument("--must-pass", action="store_true", help="have the status 1 unless each folder passes")
    words.add_argument("--brief", action="store_true", help="print the marks alone, not what is wrong")
    words.add_argument("--pack", choices=KINDS, metavar="SERVICE", help="mark nothing, but write the task and all that marks it to "
                       "the file of -o, as gradescope or moodle takes it")
    words.add_argument("-o", "--output", metavar="FILE", help="the file of --pack")
    return words


def part_of(folders, word):
    """The folders of one part."""
    place, _, count = word.partition("/")
    if not (place + count).isdecimal() or not 1 <= int(place or 0) <= int(count or 0):
        raise TaskFault(f"--part: not K/N with K from 1 to N: {word}")
    return folders[int(place) - 1::int(count)]


def keep_out(said):
    """What is written has a place, and none in a folder that was handed in; neither has what says how to mark. A link isn't read,
    so it is no such folder."""
    inside = {os.path.realpath(it) for it in said.folders if not os.path.islink(it.rstrip("/"))}
    written = [said.results, *(getattr(said, it) for it in WRITERS)]
    for target in filter(None, [said.task, said.seed_file, *written]):
        place = Path(os.path.realpath(target))
        if not inside.isdisjoint(map(str, [place, *place.parents])):
            raise TaskFault(f"{target} lies in a folder that was handed in")
        if not place.parent.is_dir() and target in written:
            raise TaskFault(f"{target}: there is no folder for it")


def seed_of(said):
    """The seed, which comes by no word of the command line, since anybody on the machine can see those; the empty one for practice,
    and none where nobody says one."""
    if said.seed is not None:
        raise TaskFault("--seed isn't taken, since others see the words of a command: --seed-file or LC3LAB_SEED")
    if said.practice:
        if said.seed_file:
            raise TaskFault("--practice needs no --seed-file")
        return ""
    if not said.seed_file:
        return os.environ.get("LC3LAB_SEED", "").strip() or None
    with open(said.seed_file, "rb") as file:
        found = file.read(LONGEST_SEED + 1).strip()
    if not 0 < len(found) <= LONGEST_SEED:
        raise TaskFault(f"{said.seed_file}: a seed has 1 to {LONGEST_SEED} bytes")
    return found.decode("utf-8", "surrogateescape")


def hands_for(plan, asked):
    """How many folders are marked side by side."""
    if asked is not None and asked < 1:
        raise TaskFault(f"--jobs: this can't be {asked}")
    processors = len(os.sched_getaffinity(0))
    memory = Path("/proc/meminfo").read_text().splitlines()
    free = [int(it.split()[1]) // 1024 for it in memory if it.startswith("MemAvailable")]
    room = free[0] // max(it.bounds.memory for it in plan.sample.runs) if free else processors
    return asked or max(1, min(processors, room))


class Ear:
    """Hears a signal that asks for the end. It is an exception, at once or, while folders are marked, between two of them."""

    def __init__(self):
        self.heard, self.waits = None, False
        for it in signal.SIGINT, signal.SIGTERM, signal.SIGHUP:
            signal.signal(it, self.hear)

    def hear(self, number, _):
        self.heard = number
        if not self.waits:
            raise Stopped(number)

    def look(self):
        if self.heard:
            raise Stopped(self.heard)


def marks_of(crew, folders, said, ear):
    """The marks in the order of the folders. Each is printed as soon as it is there."""
    found = {}
    ear.waits = True
    for number, mark in crew.marks(folders, ear.look):
        found[number] = mark = {**mark, "folder": folders[number]}
        if sys.stderr.isatty():
            end = "\r" if len(found) == len(folders) else ""
            print(f"\r{len(found)} of {len(folders)}", end=end, file=sys.stderr, flush=True)
        if crew.records:
            crew.records.publish(mark)
        print("\n".join(reports.lines(mark, said.brief)), flush=True)
    ear.waits = False
    return reports.with_equal([found[it] for it in range(len(folders))])


def print_pending(plan, folders, records):
    """Prints the folders of which no mark is kept. One that can't be read has none."""
    for it in folders:
        try:
            same = handed_in(plan, it)[1]
            kept = records.kept(key_of(plan.task_for(same)[1], same))
        except (NoMark, TaskFault, OSError):
            kept = None
        if not kept:
            sys.stdout.buffer.write(os.fsencode(it) + b"\0")


def grade(said, place, ear):
    laboratory = Laboratory(found_beside(Path(sys.argv[0])))
    if said.pack or said.output or not said.folders:
        pack(said, seed_of(said), laboratory, place)
        return 0
    plan = read_plan(said.task, seed_of(said), laboratory)
    folders = [os.path.join(".", it) if it.startswith("-") else it.rstrip("/") or "/" for it in said.folders]
    folders = part_of(folders, said.part) if said.part else folders
    if said.gradescope and len(folders) != 1:
        raise TaskFault("--gradescope is for one folder")
    if said.mutants and (len(folders) != 1 or said.results or any(getattr(said, it) for it in WRITERS)):
        raise TaskFault("--mutants is for one folder, and nothing is written")
    if said.pending and not said.results:
        raise TaskFault("--pending is asked of --results")
    keep_out(said)
    records = Records(said.results) if said.results else None
    if said.pending:
        print_pending(plan, folders, records)
        return 0
    given = Given(laboratory, place)
    given.assemble(plan.sample)
    crew = Crew(laboratory, plan, given, records, hands_for(plan, said.jobs), place)
    if said.mutants:
        lines, refused = try_task(crew, plan, folders[0], place, ear.look)
        print("\n".join(lines))
        return 0 if refused else 1
    marks = marks_of(crew, folders, said, ear)
    if not said.brief:
        for it in reports.equal_lines(marks):
            print(it)
    print(reports.count(marks), flush=True)
    for option, written in WRITERS.items():
        if getattr(said, option):
            write_whole(Path(getattr(said, option)), written(plan.sample, marks))
    wanted = {"pass"} if said.must_pass else {"pass", "fail"}
    return 0 if {it["mark"] for it in marks} <= wanted else 1


def said_by(words):
    """What the words say. argparse forgets a `--` where options and folders are mixed, so what begins with `-` behind it is
    given as a path of this folder."""
    if "--" in words:
        at = words.index("--")
        words = words[:at] + [f"./{it}" if it.startswith("-") else it for it in words[at + 1:]]
    return parser().parse_intermixed_args(words)


def main():
    sys.stdout.reconfigure(encoding="utf-8", errors="backslashreplace")
    said = said_by(sys.argv[1:])
    ear = Ear()
    try:
        with tempfile.TemporaryDirectory(prefix="grade-") as place:
            return grade(said, place, ear)
    except (TaskFault, OSError) as it:
        print(f"grade: {it}", file=sys.stderr)
        return 2
    except Stopped as it:
        number = it.args[0]
        ear.waits = True
    signal.signal(number, signal.SIG_DFL)
    os.kill(os.getpid(), number)
    return 128 + number
