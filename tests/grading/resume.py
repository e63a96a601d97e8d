"""A call that was stopped, however it was, goes on where it was, leaves nothing running, and makes the same marks."""
import json
import os
import shutil
import signal
import time
from pathlib import Path

from .calling import HALT, example

TASK = """
[[run]]
name = "alone"
programs = [{ asked = "add.asm" }]
[[run]]
name = "together"
programs = [{ given = "counter.asm", input = "02" }, { asked = "add.asm" }, { asked = "add.asm" }]
outputs = ["2", "", ""]
"""
FOLDERS = 40


def look(check, grader):
    (grader.place / "counter.asm").write_text(example("autograder/tasks/given/counter.asm"))
    task = grader.task(TASK.replace('"alone"\nprograms = [{', '"alone"\nrequire = "stuck"\nprograms = [{'))
    source = example("course/3-lost-update/add-locked.asm")
    folders = [grader.folder(f"student-{it:02}", add__asm=f"; {it}\n{source if it % 3 else HALT}") for it in range(FOLDERS)]
    whole = grader.marks(task, folders)
    for number in signal.SIGTERM, signal.SIGINT, signal.SIGKILL:
        look_at_one(check, grader, task, folders, whole, number)
    look_at_records(check, grader, task, folders, whole)
    look_at_program(check, grader, task, folders[:2])
    look_at_room(check, grader, task, folders[:2])


def look_at_program(check, grader, task, folders):
    """Marks are kept under the program that made them, also where a launcher starts it, which stays the same."""
    clone, results = grader.place / "clone", grader.place / "results-of-clone"
    (clone / ".built").mkdir(parents=True)
    program = clone / ".built/lc3lab"
    (clone / "lc3lab").write_text(f"#!/bin/sh\nexec '{program}' \"$@\"\n")
    (clone / "lc3lab").chmod(0o755)
    shutil.copy(grader.environment["LC3LAB"], program)
    for count in 2, 2, 4:
        if count == 4:
            program.write_bytes(program.read_bytes() + b"\n")
        printed, complained, status = grader.call("--results", results, task, *folders, LC3LAB=str(clone / "lc3lab"))
        kept = len(list((results / "records").glob("*.json")))
        check(status == 0 and kept == count, f"{kept} marks are kept, not {count}: {printed}{complained}")


def look_at_one(check, grader, task, folders, whole, number):
    results = grader.place / f"results-{number}"
    called = grader.start("-j", "2", "--results", results, task, *folders)
    kept = wait_for(results, 5)
    called.send_signal(number)
    called.communicate(timeout=60)
    check(called.returncode == -number, f"signal {number}: status {called.returncode}")
    check(kept < FOLDERS, f"signal {number}: it had ended before")
    check(wait_until_alone(grader), f"signal {number}: something still runs")
    if number != signal.SIGKILL:
        check(not list(grader.rooms.iterdir()), f"signal {number}: left behind {list(grader.rooms.iterdir())}")
    names = {it.name: it.stat().st_mtime_ns for it in (results / "records").glob("*.json")}
    found = grader.marks(task, folders, "--results", results)
    check(found == whole, f"signal {number}: other marks: {found}")
    same = all((results / "records" / name).stat().st_mtime_ns == at for name, at in names.items())
    check(len(names) >= 5 and same, f"signal {number}: marks that were kept are worked out again")


def look_at_room(check, grader, task, folders):
    """A mark that can't be kept is told all the same."""
    results = grader.place / "results-without-room"
    (results / "records").mkdir(parents=True)
    for _ in range(2):
        printed = grader.call("--results", results, task, *folders)[0]
        check(printed.count(" points\n") == len(folders), f"a mark isn't told: {printed}")
        for kept in (results / "records").glob("*.json"):
            # a folder in its place can't be written over
            if kept.is_file():
                kept.unlink()
                kept.mkdir()
    check(printed.count("    the mark isn't kept: ") == len(folders), f"marks that can't be kept: {printed}")


def wait_for(results, count):
    """How many marks are kept once there are so many at least."""
    for _ in range(1000):
        kept = len(list((results / "records").glob("*.json")))
        if kept >= count:
            return kept
        time.sleep(0.02)
    return 0


def wait_until_alone(grader):
    """No process works in a room of the grader any more."""
    for _ in range(100):
        places = []
        for it in Path("/proc").glob("[0-9]*"):
            try:
                places.append(os.readlink(it / "cwd"))
            except OSError:
                pass
        if not any(it.startswith(str(grader.rooms)) for it in places):
            return True
        time.sleep(0.1)
    return False


def look_at_records(check, grader, task, folders, whole):
    """A record that is no mark isn't taken up, and neither is one for other work or another task."""
    results = grader.place / f"results-{signal.SIGTERM}"
    records = sorted((results / "records").glob("*.json"))
    for it, content in zip(records, (b"", b"[]", b'{"key": 1}', b"\xff")):
        it.write_bytes(content)
    stolen = json.loads(records[-1].read_bytes())
    records[5].write_text(json.dumps(stolen))
    for it in list((results / "records").glob("*.html"))[:2]:
        it.unlink()
    check(grader.marks(task, folders, "--results", results) == whole, "records that are none make other marks")
    other = grader.task(TASK.replace('"2", "", ""', '"3", "", ""'), "other.toml")
    found = grader.marks(other, folders[1:2], "--results", results)
    check(found[str(folders[1])][1] == "wrong output", f"a record of another task is taken up: {found}")
