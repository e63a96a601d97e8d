"""What all that is done for one folder may take, whoever takes it: calls of lc3lab, or the grader's own regular expressions."""
from __future__ import annotations

import math
import resource
import signal
import time
from contextlib import contextmanager

from .faults import NoMark, OverBudget
from .laboratory import Bounds

# by the clock a folder may take so many times as long, and some seconds more: a machine that is busy is nobody's fault
BY_CLOCK, BESIDE = 10, 60


def spent(*whose):
    """The processor time of this process, of its calls that have ended, or of both."""
    used = [resource.getrusage(it) for it in whose or (resource.RUSAGE_SELF, resource.RUSAGE_CHILDREN)]
    return sum(it.ru_utime + it.ru_stime for it in used)


class Budget:
    """The seconds of processor time and of the clock that are left to a folder."""

    def __init__(self, seconds):
        self.seconds, self.before = seconds, spent()
        self.ends = time.monotonic() + BY_CLOCK * seconds + BESIDE

    def left(self):
        return self.seconds - (spent() - self.before)

    def bounds(self, bounds):
        """The bounds of a call, which are no wider than what is left."""
        self.look()
        return Bounds(min(bounds.seconds, math.ceil(self.left())), bounds.memory, self.ends)

    def look(self):
        """Nothing more is done where nothing is left."""
        if self.left() <= 0:
            raise OverBudget
        if self.ends <= time.monotonic():
            raise NoMark(f"the machine had no time for it in {BY_CLOCK * self.seconds + BESIDE} seconds")

    @contextmanager
    def watch(self):
        """What is done inside ends by an exception when nothing is left, wherever it is, also in a regular expression."""
        def over(*_):
            # a little more than a timer's grain is left now and then
            signal.setitimer(signal.ITIMER_PROF, 0.05)
            self.look()

        before = [signal.signal(it, over) for it in (signal.SIGPROF, signal.SIGALRM)]
        try:
            signal.setitimer(signal.ITIMER_PROF, max(0.01, self.left()))
            signal.setitimer(signal.ITIMER_REAL, max(0.01, self.ends - time.monotonic()))
            yield
        finally:
            for timer in signal.ITIMER_PROF, signal.ITIMER_REAL:
                signal.setitimer(timer, 0)
            for it, handler in zip((signal.SIGPROF, signal.SIGALRM), before):
                signal.signal(it, handler)
