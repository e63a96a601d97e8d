"""Marks the mutants of a solution, and tells which of them a task lets pass (docs/autograding.md)."""
from __future__ import annotations

from collections import Counter
from pathlib import Path

from . import shown
from .faults import TaskFault
from .mutants import mutants_of, names_in
from .sources import take
from .task import samples_of


def solution_in(plan, folder):
    """The files of a solution, by their names. Each byte is a character, so that none is lost."""
    found = {}
    for name in plan.sample.asked():
        source = take(folder, name)
        if source.fault:
            raise TaskFault(f"{folder}: {source.fault}")
        found[name] = source.content.decode("latin-1")
    return found


def hand_in(place, files):
    """A folder with these files."""
    for name, text in files.items():
        path = Path(place) / name
        path.parent.mkdir(parents=True, exist_ok=True)
        path.write_bytes(text.encode("latin-1"))
    return str(place)


def private_names(plan, solution):
    """The names that stand once in the solution, and neither in a given program nor in the task."""
    given = {it.given.decode("latin-1") for task in samples_of(plan.table, plan.folder) for run in task.runs for it in run.programs if it.given}
    names = Counter(name for text in [*solution.values(), *given] for name in names_in(text))
    return {name for name, count in names.items() if count == 1 and name not in str(plan.table)}


def refuses_refusals(plan):
    """Each run asks that no call is refused. Then O_NONBLOCK and O_CREAT make no difference to what passes."""
    return all("refused" in run.options["never"] for run in plan.sample.runs)


def try_task(crew, plan, folder, place, look):
    """The lines that are told of a task that was tried by the mutants of a solution, and whether it refuses them all."""
    solution = solution_in(plan, folder)
    private = private_names(plan, solution)
    mutants = [it for name, text in solution.items() for it in mutants_of(name, text, private)]
    folders = [hand_in(Path(place) / f"mutant-{number}", {**solution, it.file: it.text}) for number, it in enumerate(mutants)]
    marks = dict(crew.marks([str(folder), *folders], look))
    for run in marks[0]["runs"]:
        if run["verdict"] == "asks nothing":
            raise TaskFault(f"the task asks nothing by {folder}: {run['name']}: {', '.join(run['detail'])}")
    if marks[0]["mark"] != "pass":
        raise TaskFault(f"{folder}: the solution doesn't pass")
    is_same = refuses_refusals(plan)
    judged = [(it, marks[number]["mark"]) for number, it in enumerate(mutants, 1)]
    judged = [(it, mark) for it, mark in judged if not (mark == "pass" and it.is_of_flags and is_same)]
    told = {"pass": "passes", "no mark": "no mark"}
    lines = [f"{told[mark]}: {shown.name(it.file)} line {it.line}: {it.what}" for it, mark in judged if mark in told]
    refused = sum(mark == "fail" for _, mark in judged)
    return lines + [f"{refused} of {len(judged)} mutants are refused"], refused == len(judged)
