"""What a task asks of the calls of a process, in the words of `explore` (docs/asking-calls.md)."""
from __future__ import annotations

import re
from dataclasses import dataclass

from .faults import TaskFault

CALLS = "mq_open mq_close mq_unlink mq_send mq_receive mq_getattr mq_setattr sem_open sem_close sem_unlink sem_wait" \
    " sem_trywait sem_post sem_getvalue".split()
# commas stand between the words of `explore`, so a name that has one can't be asked for
NAME = r"/[!-+\-.0-~]+"
# the most that `explore` counts, and the most semaphores of which it asks whether they are held
MOST_CALLS = 1_000
MOST_HELD = 8
KEYS = ["must-call", "must-not-call", "must-hold", "may-call", "must-order"]


@dataclass(frozen=True)
class Question:
    """An option of `explore` with its word, and the verdict and the sentence where that isn't so."""

    option: str
    word: str
    verdict: str
    said: str

    def key(self):
        return self.option, self.word


@dataclass(frozen=True)
class Wanted:
    """A call, of one object or of any, that is made so many times at least."""

    call: str
    name: str | None
    times: int

    def kind(self):
        return self.call + (f" {self.name}" if self.name else "")

    def written(self):
        return self.kind() + (f" >= {self.times}" if self.times > 1 else "")

    def told(self):
        return self.kind() + (f" {self.times} times" if self.times > 1 else "")


def wanted_calls(words, key):
    """The calls of a list in a task, each as `sem_wait`, `sem_wait /lock` or `mq_send /q >= 3`."""
    return [wanted_call(it, key) for it in words_of(words, key)]


def wanted_call(word, key):
    found = re.fullmatch(rf"([a-z]+_[a-z]+)(?: ({NAME}))?(?: >= ([1-9]\d{{0,5}}))?", word)
    if not found or found[1] not in CALLS or int(found[3] or 1) > MOST_CALLS:
        raise TaskFault(f"{key}: no call: {word}")
    return Wanted(found[1], found[2], int(found[3] or 1))


def listed_calls(words, key):
    """The kinds of the calls of a list in which each stands for itself, and not for so many."""
    found = wanted_calls(words, key)
    if any(it.times > 1 for it in found):
        raise TaskFault(f"{key}: a number of calls can't be asked here")
    if len(found) > MOST_CALLS:
        raise TaskFault(f"{key}: more than {MOST_CALLS} calls can't be asked here")
    return [it.kind() for it in found]


def wanted_names(words, key):
    """The names of a list in a task."""
    for word in words_of(words, key):
        if not re.fullmatch(NAME, word):
            raise TaskFault(f"{key}: no name of a semaphore: {word}")
    if len(words) > MOST_HELD:
        raise TaskFault(f"{key}: more than {MOST_HELD} semaphores can't be asked here")
    return words


def words_of(words, key):
    if not isinstance(words, list) or not all(isinstance(it, str) for it in words):
        raise TaskFault(f"{key}: this must be a list of texts")
    return words


def questions_of(table, process):
    """What the table of a program asks of its calls."""
    called, uncalled, held, listed, ordered = (table.get(it, []) for it in KEYS)
    found = [missing(f"{process} calls {it.written()}", f"process {process} never calls {it.told()} with success")
             for it in wanted_calls(called, "must-call")]
    found += [forbidden(f"{process} calls {it}") for it in listed_calls(uncalled, "must-not-call")]
    names = " and ".join(dict.fromkeys(wanted_names(held, "must-hold")))
    found += [missing(f"{process} holds {names}", f"process {process} never holds {names} together")] if names else []
    kinds = ", ".join(listed_calls(listed, "may-call"))
    found += [forbidden(f"{process} calls other than {kinds}")] if kinds else []
    order = ", ".join(listed_calls(ordered, "must-order"))
    said = f"process {process} doesn't call {order} in this order, with none of them between"
    return found + ([missing(f"{process} calls in order {order}", said)] if order else [])


def missing(word, said):
    return Question("require", word, "missing call", said)


def forbidden(word):
    return Question("never", word, "forbidden call", f"process {word}")
