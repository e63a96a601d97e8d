"""Calls of lc3lab, each within its bounds of time, memory and what it writes."""
from __future__ import annotations

import hashlib
import math
import os
import resource
import selectors
import shutil
import signal
import subprocess
import time
from dataclasses import dataclass
from pathlib import Path

from .faults import TaskFault

MEGABYTE = 1 << 20
MOST_BYTES = 32 * MEGABYTE
MOST_ERRORS = 64 * 1024
LARGEST_FILE = 64 * MEGABYTE
PLACES_OF_TOOLS = "/usr/local/bin:/usr/bin:/bin"


@dataclass
class Ran:
    """What a call wrote, its status (negative: the signal that ended it), and which bound it met, if any: its `time`, that of the
    `clock`, its `memory`, or the `size` of what it writes."""

    output: bytes
    errors: bytes
    status: int
    bound: str | None


@dataclass
class Bounds:
    """The seconds of processor time and the megabytes that a call may take, and when it must have ended by the clock."""

    seconds: int
    memory: int
    ends: float = math.inf

    def impose(self, process):
        """On the program that has just begun."""
        room = (self.memory + self.memory // 2 + 256) * MEGABYTE
        for what, most in (resource.RLIMIT_AS, room), (resource.RLIMIT_CPU, self.seconds), \
                (resource.RLIMIT_FSIZE, LARGEST_FILE), (resource.RLIMIT_CORE, 0):
            hard = resource.getrlimit(what)[1]
            least = most if hard == resource.RLIM_INFINITY else min(most, hard)
            try:
                resource.prlimit(process, what, (least, hard))
            except ProcessLookupError:
                return


class Pipes:
    """Takes what a program writes, up to a bound, while it is given its input."""

    def __init__(self, child, words, most):
        self.child, self.left = child, memoryview(words)
        self.room = {child.stdout: most, child.stderr: MOST_ERRORS}
        self.found = {it: [] for it in self.room}
        self.ready = selectors.DefaultSelector()
        for it in self.room:
            self.ready.register(it, selectors.EVENT_READ)
        self.ready.register(child.stdin, selectors.EVENT_WRITE)

    def close(self, pipe):
        self.ready.unregister(pipe)
        pipe.close()

    def give(self):
        try:
            self.left = self.left[os.write(self.child.stdin.fileno(), self.left[:4096]):] if self.left else self.left
        except BrokenPipeError:
            self.left = memoryview(b"")
        if not self.left:
            self.close(self.child.stdin)

    def take(self, pipe):
        """Whether what came was within the bound; more errors than there is room for are left out."""
        piece = os.read(pipe.fileno(), 65536)
        if not piece:
            self.close(pipe)
        self.room[pipe] -= len(piece)
        if self.room[pipe] >= 0:
            self.found[pipe].append(piece)
        return self.room[pipe] >= 0 or pipe is self.child.stderr

    def run(self, deadline):
        """The bound that was met, or nothing once the program has closed its pipes."""
        while self.ready.get_map():
            events = self.ready.select(max(0, deadline - time.monotonic()))
            if not events:
                return "clock"
            for key, _ in events:
                if key.fileobj is self.child.stdin:
                    self.give()
                elif not self.take(key.fileobj):
                    return "size"
        return None

    def bytes_of(self, pipe):
        return b"".join(self.found[pipe])


class Laboratory:
    """The program lc3lab, kept open, so that all marks are of the one whose digest they are kept under."""

    def __init__(self, command):
        version = subprocess.run([command, "--version"], stdout=subprocess.PIPE, stderr=subprocess.PIPE, check=False)
        if version.returncode != 0 or not version.stdout.startswith(b"lc3lab "):
            raise TaskFault(f"{command} is no lc3lab, or can't be built")
        self.command = program_behind(command)
        self.file = open(self.command, "rb")
        known = self.file.read()
        self.identity = hashlib.sha256(version.stdout + known).hexdigest()
        # the file itself, also where another one comes to have its name; a script would take that for its own name
        number = self.file.fileno()
        self.how = {"executable": f"/proc/self/fd/{number}", "pass_fds": [number]} if is_program(known) else {}
        self.help = subprocess.run([command, "explore", "--help"], stdout=subprocess.PIPE, stderr=subprocess.PIPE,
                                   check=False).stdout.decode("utf-8", "replace")

    def has(self, option):
        """`explore` has this option."""
        return option in self.help.replace(",", " ").replace("[", " ").replace("]", " ").split()

    def run(self, words, folder, bounds, given=b""):
        """Calls the program in a folder. Time that goes by without work is bounded, too, but at a multiple."""
        deadline = min(bounds.ends, time.monotonic() + 10 * bounds.seconds + 30)
        pipes = {"stdin": subprocess.PIPE, "stdout": subprocess.PIPE, "stderr": subprocess.PIPE}
        environment = {"PATH": PLACES_OF_TOOLS, "LC_ALL": "C"}
        child = subprocess.Popen([self.command, *words], cwd=folder, env=environment, **self.how, **pipes)
        bounds.impose(child.pid)
        taken, bound = Pipes(child, given, MOST_BYTES), "none"
        try:
            bound = taken.run(deadline)
        finally:
            if bound:
                child.kill()
            status = child.wait()
        if status in (-signal.SIGXCPU, -signal.SIGKILL) and not bound:
            bound = "time" if status == -signal.SIGXCPU else "memory"
        return Ran(taken.bytes_of(child.stdout), taken.bytes_of(child.stderr), status, bound)


def is_program(content):
    return content.startswith(b"\x7fELF")


def program_behind(command):
    """What the launcher of a clone, which was called once, has built; of any other command itself."""
    built = Path(command).resolve().parent / ".built/lc3lab"
    return command if is_program(Path(command).read_bytes()) or not built.exists() else str(built)


def found_beside(script):
    """The lc3lab that LC3LAB names, or else the one two folders above a script, or else the one on the path."""
    beside = script.resolve().parent.parent.parent / "lc3lab"
    named = os.environ.get("LC3LAB") or (beside if os.access(beside, os.X_OK) else "lc3lab")
    found = shutil.which(named)
    if not found:
        raise TaskFault(f"there is no command {named}; LC3LAB can name it")
    return os.path.abspath(found)
