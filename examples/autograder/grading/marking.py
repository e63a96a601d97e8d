"""The mark of one folder: its sources are taken, assembled, and each run of the task is explored."""
from __future__ import annotations

import hashlib
import os
import re
import resource
import shutil
import time
from pathlib import Path

from . import answer, pages, shown, sources
from .budget import Budget, spent
from .faults import NoMark, OverBudget, TaskFault
from .records import PAGES

LINES_OF_TRACE = 40
LONGEST_LINE = 300
LONGEST_OUTPUT = 100_000


class Given:
    """The object files of the teacher's own programs, each of which is assembled once."""

    def __init__(self, laboratory, place, known=()):
        self.laboratory, self.place, self.known = laboratory, Path(place), dict(known)

    def object_of(self, program, bounds):
        """The object file of a given program."""
        if program.given not in self.known:
            source, target = (self.place / f"given-{len(self.known)}.{it}" for it in ("asm", "obj"))
            source.write_bytes(program.given)
            ran = self.laboratory.run(["asm", str(source), str(target)], self.place, bounds)
            if ran.status != 0:
                told = "; ".join(shown.lines(ran.errors, LONGEST_LINE, 3)).replace(f"{self.place}/", "")
                raise TaskFault(f"{program.name}: {told}")
            self.known[program.given] = target
        return self.known[program.given]

    def assemble(self, task):
        """Assembles all that a task gives."""
        for run, program in [(run, it) for run in task.runs for it in run.programs if it.given is not None]:
            self.object_of(program, run.bounds)


class Marking:
    """What is under way for one folder, in a place that goes again."""

    def __init__(self, laboratory, plan, given, place):
        self.laboratory, self.plan, self.place = laboratory, plan, Path(place)
        self.given = Given(laboratory, place, given.known)

    def mark(self, folder, records):
        """The mark of a folder, as JSON will have it; one that is kept is taken as it is."""
        taken, same = handed_in(self.plan, folder)
        self.task, key = self.plan.task_for(same)
        kept = records.kept(key_of(key, same)) if records else None
        if kept:
            return kept
        self.budget, self.with_pages = Budget(self.task.budget), bool(records)
        objects = self.within(self.assemble, taken)
        runs = [self.mark_run(place, run, objects) for place, run in enumerate(self.task.runs, 1)]
        refuse_empty(self.task.runs, runs)
        record = {"key": key_of(key, same), "same": same if any(it.content is not None for it in taken.values()) else None,
                  "mark": mark_of(runs), "points": sum(it["points"] for it in runs),
                  "of": sum(it.points for it in self.task.runs), "runs": runs,
                  "warnings": self.within(self.warnings, objects, runs) or [],
                  "megabytes": resource.getrusage(resource.RUSAGE_CHILDREN).ru_maxrss // 1024}
        if records and record["mark"] != "no mark":
            try:
                records.keep(record)
                return record
            except OSError as it:
                record["warnings"].append(f"the mark isn't kept: {it.strerror or it}")
        for it in runs:
            it.update(dict.fromkeys(PAGES))
        return record

    def within(self, work, *words):
        """What some work gives, and nothing where it takes more than is left."""
        try:
            with self.budget.watch():
                return work(*words)
        except OverBudget:
            return None

    def call(self, words, run, given=b""):
        """A call of lc3lab, within what is left to the folder."""
        ran = self.laboratory.run(words, self.place, self.budget.bounds(run.bounds), given)
        if ran.bound == "time":
            self.budget.look()
        return ran

    def assemble(self, taken):
        """The object file of each source that was handed in, or the lines that say why there is none, or that nobody knows."""
        objects = {}
        for name, source in taken.items():
            if source.fault:
                objects[name] = [source.fault]
                continue
            path = self.place / "asked" / name
            path.parent.mkdir(parents=True, exist_ok=True)
            path.write_bytes(source.content)
            objects[name] = self.assembled(name, self.place / f"asked-{len(objects)}.obj")
        return objects

    def assembled(self, name, target):
        words = ["asm", "--explain", "--", str(self.place / "asked" / name), str(target)]
        ran = self.call(words, self.task.runs[0])
        if ran.status == 0 and not ran.bound:
            return target
        if ran.bound == "clock" or not ran.bound and ran.status != 1:
            return NoMark("the machine had no time for asm" if ran.bound else f"asm ended with status {ran.status}")
        told = [it.replace(f"{self.place}/asked/", "") for it in shown.lines(ran.errors, LONGEST_LINE + 200, 20)]
        return told or [f"{name} isn't accepted"]

    def warnings(self, objects, runs):
        """What `check` says of the sources of a mark that failed, but of those that aren't accepted, which were told already."""
        found = []
        for name, path in objects.items() if mark_of(runs) == "fail" else ():
            if isinstance(path, Path):
                words = ["check", "--profile", self.task.runs[0].options["profile"], "--", str(self.place / "asked" / name)]
                ran = self.call(words, self.task.runs[0])
                told = shown.lines(ran.output + ran.errors, LONGEST_LINE + 200, 20)
                found += [it.replace(f"{self.place}/asked/", "") for it in told if not it.startswith("lc3lab: ")]
        return found

    def mark_run(self, place, run, objects):
        """A run's part of the mark."""
        began, before = time.monotonic(), spent()
        part = {"name": run.name, "verdict": "pass", "detail": [], "points": 0, "of": run.points, "hint": run.hint,
                "trace": [], "visibility": run.visibility, "schedule": None, **dict.fromkeys(PAGES)}
        try:
            with self.budget.watch():
                self.judge(place, run, objects, part)
        except OverBudget:
            if part["verdict"] == "pass":
                part.update(verdict="too long", detail=[f"all runs together take more than {self.task.budget} seconds"])
        except (NoMark, OSError, MemoryError) as it:
            part.update(verdict="no mark", detail=[str(it) or type(it).__name__])
        if part["verdict"] == "pass":
            part["points"] = run.points
        part["seconds"] = round(spent() - before, 3)
        part["clock"] = round(time.monotonic() - began, 3)
        return part

    def judge(self, place, run, objects, part):
        """Puts into a run's part what is found of it: its verdict, and the schedule that shows it, with its trace and pages."""
        self.budget.look()
        if objects is None:
            raise OverBudget
        missing = {it.name: objects[it.name] for it in run.programs
                   if it.given is None and not isinstance(objects[it.name], Path)}
        for it in missing.values():
            if isinstance(it, NoMark):
                raise it
        if missing:
            part.update(verdict="no program", detail=[line for lines in missing.values() for line in lines])
            return
        words = self.furnish(place, run, objects)
        judged = self.with_sources(place, run, words) if run.names_labels() else words
        found = self.explore(run, judged)
        if isinstance(found, dict):
            part.update(found)
            return
        verdict, detail, schedule = fault_of(run, found)
        part.update(verdict=verdict, detail=detail, schedule=schedule, ends=len(found.ends), empty=found.empty)
        if schedule is not None:
            text = self.show(place, run, words, schedule)
            trace = shown.lines(text, LONGEST_LINE, LINES_OF_TRACE)
            part.update(detail=[*sentences(trace), *detail, *processes_of(run), *printed_at(run, found, schedule, verdict)], trace=trace)
            if self.with_pages:
                part["page"] = pages.bounded(self.place / f"{place}.html", text)
                part["ends_page"] = self.page_of_ends(place, run, judged, found)

    def furnish(self, place, run, objects):
        """Puts the programs of a run and their inputs into the place, and gives the words that name them."""
        words = []
        for number, program in enumerate(run.programs):
            word = f"{place}-{number}.obj"
            source = objects[program.name] if program.given is None else self.given.object_of(program, run.bounds)
            os.symlink(source, self.place / word)
            if program.input is not None:
                (self.place / f"{place}-{number}.in").write_bytes(program.input)
                word += f"={place}-{number}.in"
            words.append(word)
        return words

    def explore(self, run, words):
        """The answer to all that is asked of the search, or the part of a mark where there is none."""
        ran = self.call(["explore", "--json", *run.words(), *words], run)
        met = bound_met(run, ran)
        if met:
            return {"verdict": met[0], "detail": [met[1]]}
        if ran.status == 2 and b" doesn't fit the programs: " in ran.errors:
            return {"verdict": "no label", "detail": shown.lines(ran.errors, LONGEST_LINE, 5)[1:]}
        if ran.status not in (0, 1):
            raise NoMark("; ".join([f"explore ended with status {ran.status}"] + shown.lines(ran.errors, LONGEST_LINE, 5)))
        return answer.read(ran.output, len(words), run)

    def traced(self, run, words, schedule, *options):
        """The trace of a run by a schedule."""
        given = f"{schedule}\n".encode()
        words = ["trace", "--profile", run.options["profile"], *options, *words]
        return self.call(words, run, given)

    def show(self, place, run, words, schedule):
        """The trace by a schedule, with the labels and lines of what was handed in. Beside it a page is made, where that has
        room."""
        words = [self.with_source(place, number, program, word)
                 for number, (program, word) in enumerate(zip(run.programs, words))]
        if self.with_pages:
            ran = self.traced(run, words, schedule, "--page", f"{place}.html")
            if ran.status == 0 and not ran.bound:
                return ran.output
            (self.place / f"{place}.html").unlink(missing_ok=True)
        return self.traced(run, words, schedule).output

    def with_source(self, place, number, program, word):
        """The word for a program, with its source in the object file's place where a student has handed that in."""
        if program.given is not None:
            return word
        source = f"{place}-{number}.asm"
        shutil.copyfile(self.place / "asked" / program.name, self.place / source)
        return source + word.removeprefix(f"{place}-{number}.obj")

    def with_sources(self, place, run, words):
        """The words for programs, with the source of each in the object file's place: its labels count."""
        found = []
        for number, (program, word) in enumerate(zip(run.programs, words)):
            if program.given is not None:
                source = f"{place}-{number}.asm"
                (self.place / source).write_bytes(program.given)
                found.append(source + word.removeprefix(f"{place}-{number}.obj"))
            else:
                found.append(self.with_source(place, number, program, word))
        return found

    def page_of_ends(self, place, run, words, found):
        """The file of a page of all ends, by another search."""
        path = self.place / f"{place}.ends.html"
        ran = self.call(["explore", "--json", "--page", path.name, *run.words(), *words], run)
        if ran.status not in (0, 1) or ran.bound:
            path.unlink(missing_ok=True)
        return pages.bounded(path, "".join(lines_of_ends(found)).encode())


def handed_in(plan, folder):
    """The sources in a folder, and a digest of them."""
    if os.path.lexists(folder) and not os.path.isdir(folder):
        raise NoMark("this is no folder")
    taken = {name: sources.take(folder, name) for name in plan.sample.asked()}
    found = repr([(name, it.content, it.fault) for name, it in taken.items()])
    return taken, hashlib.sha256(found.encode()).hexdigest()


def key_of(asked, same):
    """The key of a mark, by the digests of what is asked and of what was handed in."""
    return hashlib.sha256(f"{asked} {same}".encode()).hexdigest()


def fault_of(run, found):
    """The first thing that isn't as it should be: the verdict, what is said of it, and its schedule."""
    if found.fault:
        return found.fault[0], [], found.fault[1]
    if not found.ends and not found.limits and run.asks_of_ends():
        return "endless", ["no interleaving has an end"], found.round
    for end in found.ends:
        wrong = [it for it in run.needs if found.is_wrong(it, end)]
        if wrong:
            return "wrong output", [line for it in wrong for line in it.difference(end.outputs)], end.schedule
    for it in run.questions():
        if it.key() in found.unmet:
            return it.verdict, [it.said], found.unmet[it.key()]
    if found.limits:
        return "incomplete", ["the search met the limit of " + ", ".join(found.limits)], None
    return "pass", [], None


def asks_of(run, sentence):
    """A condition of a run is on what a sentence says that nobody opens, or calls at."""
    subject = re.escape(re.sub(r"^nobody (opens|calls) ", "", sentence))
    return any(re.search(rf"{subject}(?![\w/.-])", it) for option in ("never", "may-wait") for it in run.options[option])


def refuse_empty(runs, parts):
    """A run that passes fails where it asks nothing by a condition, unless another run asks something by it."""
    told = [part.pop("empty", None) for part in parts]
    for part, empty in zip(parts, told):
        alone = [it for it in empty or () if not any(
            asks_of(run, it) and other is not None and it not in other for run, other in zip(runs, told))]
        if alone and part["verdict"] == "pass":
            part.update(verdict="asks nothing", detail=alone, points=0)


def sentences(trace):
    """What a trace says of its end: how each process stands there, and what follows from it."""
    return [it for it in trace if it.startswith(("note: ", "end P"))]


def processes_of(run):
    """Which program each process runs, and with what input."""
    given = [f" with the input {shown.output(it.input.decode('latin-1'))}" if it.input else "" for it in run.programs]
    return [", ".join(f"P{number} is {shown.name(it.name)}{more}" for number, (it, more) in enumerate(zip(run.programs, given)))]


def printed_at(run, found, schedule, verdict):
    """What the processes print at the end of a schedule, where something else is asked for; a wrong output is told before."""
    ends = [it for it in found.ends if it.schedule == schedule and verdict != "wrong output"]
    return [line for end in ends[:1] for it in run.needs if not it.is_met(end.outputs)
            for line in it.difference(end.outputs)]


def bound_met(run, ran):
    """The verdict and a sentence where a search met a bound, which is what the programs do, and no fault of the machine."""
    if ran.bound == "clock":
        raise NoMark("the machine had no time for the search")
    if ran.bound == "time":
        return "too long", f"the search takes more than {run.bounds.seconds} seconds"
    if ran.bound == "size":
        return "incomplete", "the search has more output than is read"
    if ran.bound == "memory" or not ran.output and ran.status == 1 and b"out of memory" in ran.errors:
        return "incomplete", f"the search takes more than {run.bounds.memory} megabytes"
    return None


def lines_of_ends(found):
    """What each process prints at each end, and a schedule that leads there."""
    for number, end in enumerate(found.ends, 1):
        yield f"end {number}\n"
        for process, text in enumerate(end.outputs):
            yield f"out {process} {shown.output(text, LONGEST_OUTPUT)}\n"
        yield f"schedule {end.schedule}\n"


def mark_of(runs):
    verdicts = {it["verdict"] for it in runs}
    return "no mark" if "no mark" in verdicts else "pass" if verdicts == {"pass"} else "fail"
