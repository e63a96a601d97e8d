"""Calls of the grader, in a place that goes again."""
import csv
import io
import os
import subprocess
from pathlib import Path

from checking import ROOT

EXAMPLES = ROOT / "examples"
TASKS = EXAMPLES / "autograder/tasks"
GRADE = EXAMPLES / "autograder/grade"
SECONDS = 300
HALT = "     .ORIG x3000\n     HALT\n     .END\n"
ECHO = "     .ORIG x3000\n     GETC\n     OUT\n     HALT\n     .END\n"


class Grader:
    """The grader with a built program. What it makes for itself lies in `rooms`."""

    def __init__(self, program, place):
        self.place, self.rooms = place, place / "rooms"
        self.rooms.mkdir()
        (place / "class").mkdir()
        self.environment = {"LC3LAB": os.path.abspath(program), "PATH": os.environ["PATH"], "TMPDIR": str(self.rooms),
                            "LC3LAB_SEED": "gate"}

    def start(self, *words, **more):
        pipes = {"stdout": subprocess.PIPE, "stderr": subprocess.PIPE}
        return subprocess.Popen([GRADE, *map(os.fspath, words)], cwd=self.place, env=self.environment | more, **pipes)

    def call(self, *words, **more):
        """What a call prints, what it complains of, and its status."""
        with self.start(*words, **more) as called:
            printed, complained = called.communicate(timeout=SECONDS)
        return printed.decode(), complained.decode(), called.returncode

    def marks(self, task, folders, *words, **more):
        """The verdicts of each folder, by their runs, from the table."""
        table = self.place / "marks.csv"
        printed, complained, status = self.call("--csv", table, *words, "--", task, *folders, **more)
        if status not in (0, 1):
            return {"": complained}
        found = {}
        for row in csv.DictReader(io.StringIO(table.read_bytes().decode(), newline="")):
            found.setdefault(row["folder"], []).append(row["verdict"])
        return found

    def folder(self, name, **files):
        """A folder of the class with these files; a dot of a name is a double line here."""
        folder = self.place / "class" / name
        folder.mkdir(parents=True, exist_ok=True)
        for file, text in files.items():
            (folder / file.replace("__", ".")).write_text(text)
        return folder

    def task(self, text, name="task.toml"):
        path = self.place / name
        path.write_text(text)
        return path


def example(name):
    """A source of examples/."""
    return (EXAMPLES / name).read_text()


def example_path(name):
    return Path(EXAMPLES / name)
