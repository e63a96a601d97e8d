"""What `explore --json` answers, checked before anything in it counts."""
from __future__ import annotations

import json
import re
from dataclasses import dataclass

from .faults import NoMark

SCHEDULE = re.compile(r"(\d+(\*\d+)?( \d+(\*\d+)?)*)?", re.ASCII)
WORDS = ["ended", "stuck", "halted", "empty", "same"]


@dataclass
class End:
    """An end: what each process printed, and a schedule that leads to it."""

    outputs: list
    schedule: str


@dataclass
class Answer:
    """The ends, what isn't as it should be but for demands (a verdict, and a schedule that shows it), the demands that aren't met,
    each with such a schedule, the limits that were met, why conditions ask nothing, and a schedule that never ends, where there
    is one."""

    ends: list
    fault: tuple | None
    unmet: dict
    limits: list
    empty: list
    round: str | None

    def is_wrong(self, need, end):
        """The outputs of an end aren't as it is needed. Where explore was asked it says so of the first such end."""
        return not need.is_met(end.outputs) if need.word is None else self.unmet.get(need.key()) == end.schedule


def member(where, key, kind):
    """A member of an object, which must be of this kind."""
    found = where.get(key) if isinstance(where, dict) else None
    if not isinstance(found, kind):
        raise NoMark(f"explore --json: {key} isn't as the schema says")
    return found


def schedule_of(text):
    if not isinstance(text, str) or not SCHEDULE.fullmatch(text):
        raise NoMark("explore --json: a schedule isn't as the schema says")
    return text


def end_of(found, count):
    processes = member(found, "processes", list)
    if len(processes) != count:
        raise NoMark("explore --json: an end has not as many processes as the run")
    return End([member(it, "out", str) for it in processes], schedule_of(member(found, "schedule", str)))


def untrue(found):
    """What isn't as it should be, by the option and its word, in the order in which explore tells it; each with the schedule
    that shows it."""
    for it in member(found, "not", list):
        word, schedules = member(it, "require", str), member(it, "schedules", list)
        if not schedules:
            raise NoMark("explore --json: not isn't as the schema says")
        yield ("require", word), schedule_of(schedules[-1])
    for it in member(found, "reached", list):
        yield ("never", member(it, "never", str)), schedule_of(member(it, "schedule", str))


def round_of(found):
    """A schedule that leads to a world and then round to it again, where some run never ends."""
    endless = member(found, "endless", (dict, type(None)))
    if endless is None:
        return None
    way, back = (schedule_of(member(endless, it, str)) for it in ("schedule", "round"))
    return f"{way} {back}".strip()


def fault_of(told, endless, asks_to_end):
    """The first thing that isn't as it should be, but for demands. `asks_to_end` says that an endless run is a fault, too."""
    if not all(option == "never" or word in WORDS for option, word in told):
        raise NoMark("explore --json: not isn't as the schema says")
    for (option, word), schedule in told.items():
        return f"{'not' if option == 'require' else 'reached'} {word}", schedule
    return ("endless", endless) if endless is not None and asks_to_end else None


def parsed(raw):
    try:
        return json.loads(raw)
    except (ValueError, RecursionError):
        raise NoMark("explore --json: this is no JSON") from None


def read(raw, count, run):
    """The answer for a run of so many programs."""
    found = parsed(raw)
    limits, empty = member(found, "limits", list), member(found, "empty", list)
    complete = member(found, "search", str) == "complete"
    if complete == bool(limits) or not all(isinstance(it, str) for it in limits + empty):
        raise NoMark("explore --json: search and limits contradict each other")
    told, endless = dict(untrue(found)), round_of(found)
    unmet = {it: told.pop(it) for it in run.demands() if it in told}
    fault = fault_of(told, endless, run.asks_to_end())
    # what explore itself makes of it must be the same
    holds = not (fault or unmet or empty)
    if holds and complete and run.questions() and found.get("holds", "none") is None:
        # calls have a search of their own, which meets a limit alone
        complete, limits = False, ["worlds or memory"]
    if not run.asks() or holds and not complete:
        holds = None
    if found.get("holds", "none") is not holds:
        raise NoMark("explore --json: holds contradicts what was found")
    ends = [end_of(it, count) for it in member(found, "ends", list)]
    if not {unmet.get(it.key()) for it in run.needs} <= {None, *(it.schedule for it in ends)}:
        raise NoMark("explore --json: an end that isn't told has another output")
    return Answer(ends, fault, unmet, limits, empty, endless)
