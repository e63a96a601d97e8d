"""Many folders side by side, each in a process of its own, which ends with all that it started when its time is up."""
from __future__ import annotations

import ctypes
import json
import os
import selectors
import shutil
import signal
import tempfile
import time
import traceback

from .budget import BESIDE, BY_CLOCK
from .faults import NoMark, TaskFault
from .marking import Marking
from .records import PAGES


DIE_WITH_PARENT = 1


def end_with_parent():
    """Has the kernel tell this process when the one that started it ends, however that ends. Then it ends with all its calls."""
    signal.signal(signal.SIGTERM, lambda *_: os.killpg(0, signal.SIGKILL))
    ctypes.CDLL(None).prctl(DIE_WITH_PARENT, signal.SIGTERM, 0, 0, 0)


class Worker:
    """The process that marks one folder, and what it has written of the mark so far."""

    def __init__(self, number, marker, folder, rooms, deadline):
        self.number, self.pieces, self.deadline = number, [], deadline
        self.place = tempfile.mkdtemp(dir=rooms)
        self.pipe, end = os.pipe()
        self.process = os.fork()
        if self.process == 0:
            os.close(self.pipe)
            work(marker, folder, self.place, end)
        os.close(end)

    def stop(self):
        """Ends the process, if it still runs, and clears its place."""
        try:
            os.killpg(self.process, signal.SIGKILL)
        except (ProcessLookupError, PermissionError):
            # it may not have made its group yet
            os.kill(self.process, signal.SIGKILL)
        os.waitpid(self.process, 0)
        os.close(self.pipe)
        shutil.rmtree(self.place, ignore_errors=True)


def work(marker, folder, place, end):
    """What the process of a worker does. It never comes back."""
    try:
        os.setpgid(0, 0)
        for it in signal.SIGINT, signal.SIGHUP:
            signal.signal(it, signal.SIG_DFL)
        end_with_parent()
        with os.fdopen(end, "wb") as pipe:
            pipe.write(json.dumps(marker(folder, place)).encode())
    finally:
        os._exit(0)


def unmarked(task, why):
    """What stands for a mark that couldn't be worked out."""
    runs = [{"name": it.name, "verdict": "no mark", "detail": [why], "points": 0, "of": it.points, **dict.fromkeys(PAGES),
             "hint": it.hint, "trace": [], "schedule": None, "visibility": it.visibility, "seconds": 0, "clock": 0}
            for it in task.runs]
    return {"key": None, "same": None, "mark": "no mark", "points": 0, "of": sum(it.points for it in task.runs), "runs": runs,
            "warnings": [], "megabytes": 0}


class Crew:
    """Marks folders, so many at a time."""

    def __init__(self, laboratory, plan, given, records, hands, rooms):
        self.laboratory, self.plan, self.given, self.records, self.hands = laboratory, plan, given, records, hands
        self.rooms, self.workers = rooms, {}
        self.ready = selectors.DefaultSelector()
        # a folder has a budget, also by the clock; this bound is for what nobody thought of
        self.patience = BY_CLOCK * plan.sample.budget + 2 * BESIDE

    def mark_one(self, folder, place):
        """The mark of a folder, also where something goes wrong that isn't the student's fault."""
        try:
            return Marking(self.laboratory, self.plan, self.given, place).mark(folder, self.records)
        except (NoMark, TaskFault, OSError, MemoryError) as it:
            return unmarked(self.plan.sample, str(it) or type(it).__name__)
        except Exception:
            return unmarked(self.plan.sample, traceback.format_exc(limit=-1).strip().splitlines()[-1])

    def begin(self, number, folder):
        """Begins with a folder. Where the machine has no room for that there is a mark at once, which is none."""
        try:
            worker = Worker(number, self.mark_one, folder, self.rooms, time.monotonic() + self.patience)
        except OSError as it:
            return [(number, unmarked(self.plan.sample, str(it)))]
        self.workers[worker.pipe] = worker
        self.ready.register(worker.pipe, selectors.EVENT_READ)
        return []

    def end(self, worker):
        """The mark that a worker has written, or none where it was ended before."""
        self.ready.unregister(worker.pipe)
        del self.workers[worker.pipe]
        worker.stop()
        try:
            return worker.number, json.loads(b"".join(worker.pieces))
        except ValueError:
            return worker.number, unmarked(self.plan.sample, "the process that worked it out was ended")

    def wait(self):
        """The marks of the workers that have ended meanwhile."""
        for key, _ in self.ready.select(1):
            worker = self.workers[key.fd]
            piece = os.read(key.fd, 1 << 20)
            if piece:
                worker.pieces.append(piece)
            else:
                yield self.end(worker)
        for worker in [it for it in self.workers.values() if it.deadline < time.monotonic()]:
            yield self.end(worker)

    def marks(self, folders, look):
        """Each folder's number and mark, as they come. `look` may ask for the end, between two of them."""
        coming = enumerate(folders)
        more = True
        try:
            while more or self.workers:
                look()
                while more and len(self.workers) < self.hands:
                    following = next(coming, None)
                    more = following is not None
                    if more:
                        yield from self.begin(*following)
                if self.workers:
                    yield from self.wait()
        finally:
            for worker in list(self.workers.values()):
                worker.stop()
