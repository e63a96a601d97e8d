"""The files that a student hands in, taken without following a link, and read before anything is done with them."""
from __future__ import annotations

import os
import stat
from dataclasses import dataclass

from . import shown
from .faults import NoMark

LARGEST = 4_000_000
# of so many folders inside one that was handed in it is told that a missing file is there
MOST_FOLDERS = 100
# so many other sources of the folder are named where one is missing
MOST_OTHERS = 3
STEPS = os.O_RDONLY | os.O_NOFOLLOW | os.O_NONBLOCK | os.O_CLOEXEC


@dataclass
class Taken:
    """A source: its bytes, or why there is none."""

    content: bytes | None
    fault: str | None


def open_below(folder, name):
    """A file below a folder, where neither the folder nor anything on the way is a link. A FIFO isn't waited for."""
    way = os.open(folder, STEPS | os.O_DIRECTORY)
    try:
        *folders, last = name.split("/")
        for it in folders:
            further = os.open(it, STEPS | os.O_DIRECTORY, dir_fd=way)
            os.close(way)
            way = further
        return os.open(last, STEPS, dir_fd=way)
    finally:
        os.close(way)


def read_up_to(file, most):
    pieces = []
    while most > 0 and (piece := os.read(file, min(most, 1 << 20))):
        pieces.append(piece)
        most -= len(piece)
    return b"".join(pieces)


def beside(folder, name):
    """Which folder inside this one has a file of the name, where one has it; else which sources this one has."""
    try:
        inside = sorted(os.scandir(folder), key=lambda it: it.name)
    except OSError:
        return ""
    folders = [it.name for it in inside if it.is_dir(follow_symlinks=False)]
    for it in folders[:MOST_FOLDERS]:
        if os.path.lexists(os.path.join(folder, it, name)):
            return f"; it is in the folder {shown.name(it)}"
    others = [shown.name(it.name) for it in inside if ".asm" in it.name.lower() and it.is_file(follow_symlinks=False)]
    more = [f"{len(others) - MOST_OTHERS} more"] if len(others) > MOST_OTHERS else []
    return f"; here is {', '.join(others[:MOST_OTHERS] + more)}" if others else ""


def take(folder, name):
    """The source of this name in a student's folder."""
    try:
        # a device may do something when it is opened, so it is looked at before
        kind = os.lstat(os.path.join(folder, name)).st_mode
        if not stat.S_ISREG(kind):
            return Taken(None, f"{name} is no file of this folder")
        file = open_below(folder, name)
    except (FileNotFoundError, NotADirectoryError) as it:
        if it.errno == 2 and not os.path.lexists(folder):
            raise NoMark("there is no such folder") from None
        there = os.path.lexists(folder) and not os.path.isdir(folder) or os.path.islink(folder) or it.errno == 20
        return Taken(None, f"{name} is no file of this folder" if there else f"{name} isn't there{beside(folder, name)}")
    except OSError as it:
        told = "is no file of this folder" if it.errno == 40 else f"can't be read: {it.strerror}"
        return Taken(None, f"{name} {told}")
    try:
        if not stat.S_ISREG(os.fstat(file).st_mode):
            return Taken(None, f"{name} is no file of this folder")
        content = read_up_to(file, LARGEST + 1)
    except OSError as it:
        raise NoMark(f"{shown.name(folder)}/{name} can't be read: {it.strerror}") from None
    finally:
        os.close(file)
    return Taken(None, f"{name} has over {LARGEST} bytes") if len(content) > LARGEST else Taken(content, None)
