"""Tasks: what their files say (docs/autograding.md)."""
from __future__ import annotations

import hashlib
import os
import re
from dataclasses import dataclass
from pathlib import Path

try:
    import tomllib
except ImportError:
    import tomli as tomllib

from . import calls, drawn, outputs
from .answer import WORDS
from .faults import TaskFault
from .laboratory import Bounds

# another number where marks come to be worked out otherwise, so that kept ones aren't taken up
FORM = 6
# the seconds of processor time that all runs of a folder may take together
BUDGET = 120
VISIBILITIES = ["visible", "hidden", "after_due_date", "after_published"]
# what stands at the head of a task holds for each run that doesn't say otherwise
SHARED = {"require": "halted", "may-wait": [], "never": [], "fair": False, "profile": "a", "limit": 100_000,
          "worlds": 100_000, "memory": 1024, "seconds": 60, "points": 1, "visibility": "visible"}
ADDRESSES = re.compile("x[0-9A-Fa-f]{1,4}(-x[0-9A-Fa-f]{1,4})?")
OF_TASK = {"title", "budget", "draw", "run"}
OF_RUN = {"name", "hint", "programs", "outputs", "alternatives"}
OF_PROGRAM = {"given", "asked", "input", "input-file", *calls.KEYS}


@dataclass
class Program:
    """A process of a run: the source that is given or asked, its console input, and what is asked of its calls."""

    given: bytes | None
    name: str
    input: bytes | None
    questions: list


@dataclass
class Run:
    """Programs side by side, and what is asked of all their interleavings."""

    name: str
    hint: str
    programs: list
    alternatives: list
    needs: list
    options: dict
    points: float
    visibility: str
    bounds: Bounds

    def words(self):
        """The words of explore but for the programs."""
        said = self.options
        found = ["--profile", said["profile"], "--limit", str(said["limit"]), "--worlds", str(said["worlds"]),
                 "--memory", str(said["memory"]), "--threads", "1"]
        found += ["--require", said["require"]] if said["require"] else []
        for option in "may-wait", "never":
            found += [word for it in said[option] for word in (f"--{option}", it)]
        found += [word for option, it in self.demands() for word in (f"--{option}", it)]
        return found + ["--fair"] * said["fair"]

    def names_labels(self):
        """A condition, or a process that may wait, is said of labels of sources."""
        places = [it for option in ("may-wait", "never") for text in self.options[option]
                  for it in re.findall(r"(?<!\S)(?:at|in) +(\S+)", text)]
        return not all(ADDRESSES.fullmatch(it) for it in places)

    def questions(self):
        """What is asked of the calls of all processes."""
        return [it for program in self.programs for it in program.questions]

    def demands(self):
        """What the search is asked about outputs and calls, each an option and its word, once."""
        asked = [it.key() for it in self.needs if it.word is not None]
        return list(dict.fromkeys(asked + [it.key() for it in self.questions()]))

    def asks(self):
        """Something is asked of the search itself."""
        return bool(self.options["require"] or self.options["never"] or self.demands())

    def asks_of_ends(self):
        """Something is asked of each end, and so of nothing where there is none."""
        return bool(self.alternatives or self.options["require"] or any(it.option == "require" for it in self.questions()))

    def asks_to_end(self):
        return not {"ended", "stuck", "halted"}.isdisjoint(self.options["require"].split(","))


@dataclass
class Task:
    """All runs, each of which is one part of the mark, as they are for one who hands in something."""

    title: str
    budget: int
    runs: list

    def asked(self):
        """The names of the files that a student hands in, each once."""
        return list(dict.fromkeys(it.name for run in self.runs for it in run.programs if it.given is None))


@dataclass
class Plan:
    """What a task's file says, and the seed. Each hand-in has a task of its own by it, with what is drawn for it."""

    folder: Path
    table: dict
    seed: str
    program: str
    sample: Task

    def task_for(self, digest):
        """The task for what has this digest, and a digest of all that a mark depends on beside."""
        table = {**self.table, "run": drawn.runs_for(self.table, drawn.seed_for(self.seed, digest), self.table["run"])}
        task = task_of(table, self.folder)
        files = [(it.given, it.input) for run in task.runs for it in run.programs]
        return task, hashlib.sha256(repr((FORM, self.program, table, files)).encode()).hexdigest()


def value(table, key, kind, otherwise=None):
    """The value of a key, of this kind; `otherwise` where the key isn't there."""
    found = table.get(key, otherwise)
    if key in table and (not isinstance(found, kind) or isinstance(found, bool) and kind is not bool):
        raise TaskFault(f"{key}: this can't be {found!r}")
    return found


def expect_keys(table, known, where):
    if not isinstance(table, dict):
        raise TaskFault(f"{where}: this must be a table")
    for key in table:
        if key not in known:
            raise TaskFault(f"{where}: there is no key {key}")


def content_of(folder, name):
    try:
        return (folder / name).read_bytes()
    except OSError as it:
        raise TaskFault(f"{name}: {it.strerror}") from None


def asked_name(name):
    """The name of a file that is handed in: a path that stays within the folder."""
    parts = name.split("/")
    if not re.fullmatch(r"[^\x00-\x1F\x7F\\]+", name) or {"", ".", ".."} & set(parts):
        raise TaskFault(f"asked: no path within a folder: {name}")
    return name


def program_of(table, folder, process):
    expect_keys(table, OF_PROGRAM, "programs")
    given, asked = value(table, "given", str), value(table, "asked", str)
    if (given is None) == (asked is None):
        raise TaskFault("programs: each program is given or asked")
    if {"input", "input-file"} <= set(table):
        raise TaskFault("programs: a program has input or input-file, not both")
    words = value(table, "input", str)
    if words is not None and not outputs.is_output(words):
        raise TaskFault("input: a character stands for one byte, up to \\u00FF")
    file = value(table, "input-file", str)
    content = words.encode("latin-1") if words is not None else content_of(folder, file) if file else None
    source = None if given is None else content_of(folder, given)
    name = asked_name(asked) if given is None else os.path.basename(given)
    return Program(source, name, content, calls.questions_of(table, process))


def wanted_outputs(table, count):
    """The alternatives of a run: each has what every process should print."""
    if {"outputs", "alternatives"} <= set(table):
        raise TaskFault("a run has outputs or alternatives, not both")
    every = value(table, "alternatives", list, [])
    if "alternatives" in table and not every:
        raise TaskFault("alternatives: there is none")
    return [outputs.wanted_of_all(it, count) for it in ([table["outputs"]] if "outputs" in table else every)]


def options_of(table):
    said = {}
    for key, otherwise in SHARED.items():
        kind = (int, float) if key == "points" else type(otherwise)
        said[key] = value(table, key, kind, otherwise)
        if key in ("limit", "worlds", "memory", "seconds", "points") and said[key] < (key != "points"):
            raise TaskFault(f"{key}: this can't be {said[key]}")
    for key in "may-wait", "never":
        if any("$(" in it for it in calls.words_of(said[key], key)):
            raise TaskFault(f"{key}: a run draws this, and not the head of a task")
    if said["require"] and not set(said["require"].split(",")) <= set(WORDS):
        raise TaskFault(f"require: {said['require']}: the words are {', '.join(WORDS)}")
    if said["profile"] not in ("a", "b") or said["visibility"] not in VISIBILITIES:
        raise TaskFault("profile is a or b, and visibility one of " + ", ".join(VISIBILITIES))
    return said


def run_of(table, shared, folder):
    expect_keys(table, OF_RUN | SHARED.keys(), "run")
    programs = [program_of(it, folder, process) for process, it in enumerate(value(table, "programs", list, []))]
    if not 1 <= len(programs) <= 64:
        raise TaskFault("a run has 1 to 64 programs")
    said = options_of(shared | {key: it for key, it in table.items() if key in SHARED})
    alternatives = wanted_outputs(table, len(programs))
    return Run(value(table, "name", str, ""), value(table, "hint", str, ""), programs, alternatives,
               outputs.needs_of(alternatives), said, float(said["points"]), said["visibility"],
               Bounds(said["seconds"], said["memory"]))


def task_of(table, folder):
    expect_keys(table, OF_TASK | SHARED.keys(), "task")
    shared = {key: it for key, it in table.items() if key in SHARED}
    runs = [run_of(it, shared, folder) for it in value(table, "run", list, [])]
    for number, run in enumerate(runs, 1):
        run.name = run.name or f"run {number}"
    if not runs or len({it.name for it in runs}) < len(runs):
        raise TaskFault("a task has a run at least, and each run a name of its own")
    budget = value(table, "budget", int, BUDGET)
    if budget < 1:
        raise TaskFault(f"budget: this can't be {budget}")
    task = Task(value(table, "title", str, ""), budget, runs)
    if not task.asked():
        raise TaskFault("no program is asked")
    return task


def programs_in(shapes):
    """The tables of all programs of all shapes, as far as these are such."""
    runs = [run for several in shapes for run in several if isinstance(run, dict)]
    listed = [it for run in runs if isinstance(run.get("programs"), list) for it in run["programs"]]
    return [it for it in listed if isinstance(it, dict)]


def samples_of(table, folder):
    """The task with each shape of its runs once at least, so that a fault is told before anybody is marked by another one."""
    runs = value(table, "run", list, [])
    for key, text in [(key, it[key]) for it in runs if isinstance(it, dict) for key in ("name", "hint") if key in it]:
        if isinstance(text, str) and "$(" in text:
            raise TaskFault(f"{key}: what is drawn isn't told: {text}")
    shapes = [drawn.shapes_of(it) for it in runs]
    if any("$(" in str(it.get("asked")) for it in programs_in(shapes)):
        raise TaskFault("asked: the name of a file isn't drawn")
    shared = drawn.drawn_by(table.get("draw", {}), "", {})
    for place in range(max(map(len, shapes), default=1)):
        drawn_runs = [drawn.run_for(it[place % len(it)], "", shared) for it in shapes]
        yield task_of({**table, "run": drawn_runs}, folder)


def read_plan(path, seed, laboratory):
    """What is in a task's file. Paths in it begin at its folder."""
    path = Path(path)
    try:
        table = tomllib.loads(path.read_text(encoding="utf-8"))
        samples = list(samples_of(table, path.parent))
        if len({tuple(sorted(it.asked())) for it in samples}) > 1:
            raise TaskFault("shape: each shape of a run must ask for the same files")
        for options in [run.options for task in samples for run in task.runs]:
            for option in [it for it in ("never", "fair") if options[it]] + ["json", "may-wait"]:
                if not laboratory.has(f"--{option}"):
                    raise TaskFault(f"this lc3lab has no explore --{option}")
    except OSError as it:
        raise TaskFault(f"{path}: {it.strerror}") from None
    except (ValueError, TaskFault) as it:
        raise TaskFault(f"{path}: {it}") from None
    if seed is None and drawn.draws(table):
        raise TaskFault(f"{path}: this task draws, so marks need a seed: --seed-file or LC3LAB_SEED; students say --practice")
    return Plan(path.parent, table, seed or "", laboratory.identity, samples[0])
