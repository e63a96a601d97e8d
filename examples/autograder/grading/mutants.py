"""Tries a task: a solution is changed at each of its calls, and the task should refuse what comes of it (docs/autograding.md)."""
from __future__ import annotations

import re
from dataclasses import dataclass

CALL = re.compile(r"\bTRAP\s+x(4[0-6]|5[0-6])\b", re.IGNORECASE)
# an instruction that makes R0 before a call
MAKES_FIRST = re.compile(r"\b(ADD|AND|LD|LEA|LDR|LDI|NOT)\s+R0\b", re.IGNORECASE)
BRANCH = re.compile(r"\b(BR[nzp]*|JMP|JSR|JSRR|RET|HALT)\b", re.IGNORECASE)
LABEL = re.compile(r"^([A-Za-z_]\w*)(?=\s)")
NAME = re.compile(r'(\.STRINGZ\s+")/([^"])', re.IGNORECASE)
FILL = re.compile(r"(\.FILL\s+)(x-?[0-9A-Fa-f]+|#?-?\d+)", re.IGNORECASE)
ADDED = re.compile(r"(\bADD\s+R[1-3],\s*R[1-3],\s*#)(-?\d+)", re.IGNORECASE)
# what is loaded for a call: its flags, and a queue's sizes
USED = re.compile(r"\b(?:LD|LEA)\s+R[12],\s*(\w+)", re.IGNORECASE)
CALLS = {"40": "mq_open", "41": "mq_close", "42": "mq_unlink", "43": "mq_send", "44": "mq_receive", "45": "mq_getattr",
         "46": "mq_setattr", "50": "sem_open", "51": "sem_close", "52": "sem_unlink", "53": "sem_wait", "54": "sem_trywait",
         "55": "sem_post", "56": "sem_getvalue"}
NONBLOCK, CREATE, EXCLUSIVE = 0x800, 0x40, 0x80
# a value that is loaded is taken for flags if it is one of these without O_NONBLOCK
FLAGS = {0, 1, 2, 0x40, 0x41, 0x42, 0x80, 0xC0, 0xC1, 0xC2}


@dataclass
class Mutant:
    """A changed source: where, and what was done."""

    file: str
    line: int
    what: str
    text: str
    is_of_flags: bool = False


@dataclass
class Block:
    """The lines of a call, from the one that makes R0 on, by their numbers from 0."""

    first: int
    last: int
    name: str


def code(line):
    """A line of a source without its comment."""
    return line.split(";")[0]


def blocks_of(lines):
    """The calls of a source in the order of their lines."""
    found = []
    for number, line in enumerate(lines):
        called = CALL.search(code(line))
        if not called:
            continue
        first = number
        for before in range(number - 1, max(-1, number - 6), -1):
            if CALL.search(code(lines[before])) or BRANCH.search(code(lines[before])):
                break
            if MAKES_FIRST.search(code(lines[before])):
                first = before
                break
            if LABEL.match(lines[before]):
                break
        found.append(Block(first, number, CALLS[called[1]]))
    return found


def without_label(line):
    """A line without its label, which stands once."""
    return LABEL.sub(lambda it: " " * len(it[1]), line)


def left_out(lines, block):
    """The call isn't made; its label, if it has one, stays."""
    label = LABEL.match(lines[block.last])
    return lines[:block.last] + [f"{label[1] if label else ''}     NOP"] + lines[block.last + 1:]


def doubled(lines, block):
    again = list(map(without_label, lines[block.first:block.last + 1]))
    return lines[:block.last + 1] + again + lines[block.last + 1:]


def exchanged(lines, one, other):
    """The lines with two calls in the other order. Labels stay where they were."""
    moved = lines[other.first:other.last + 1] + lines[one.last + 1:other.first] + lines[one.first:one.last + 1]
    moved = list(map(without_label, moved))
    label = LABEL.match(lines[one.first])
    moved[0] = f"{label[1]} {moved[0].lstrip()}" if label else moved[0]
    return lines[:one.first] + moved + lines[other.last + 1:]


def is_straight(lines, one, other):
    """Nothing comes in or goes out between two calls."""
    inner = lines[one.first + 1:other.last + 1]
    return not any(LABEL.match(it) or BRANCH.search(code(it)) for it in inner)


def names_in(text):
    """The names of objects in a source, each as often as it stands there."""
    return ["/" + it for it in re.findall(r'\.STRINGZ\s+"/([^"]*)"', text, re.IGNORECASE)]


def other_name(line):
    """The line with another name for its object."""
    return NAME.sub(lambda it: f"{it[1]}/{'x' if it[2] != 'x' else 'y'}", line, count=1)


def number_of(word):
    word = word.lstrip("#")
    return int(word[1:], 16) if word[0] in "xX" else int(word)


def is_exclusive(text):
    """A value of the source may be flags with O_EXCL, so that an open that is made twice is refused."""
    values = [number_of(it[2]) for it in FILL.finditer("\n".join(map(code, text.split("\n"))))]
    return any(it in FLAGS and it & EXCLUSIVE for it in values)


def other_values(line, used):
    """The line with another value, what that is, and whether it is of flags: O_NONBLOCK or O_CREAT; else it is one more."""
    added, filled, label = ADDED.search(code(line)), FILL.search(code(line)), LABEL.match(line)
    if added:
        more = int(added[2]) + 1 if int(added[2]) < 15 else 1
        yield line[:added.start()] + added[1] + str(more) + line[added.end():], f"#{more} for #{added[2]}", False
    if filled and label and label[1] in used:
        value = number_of(filled[2])
        if value & ~NONBLOCK in FLAGS:
            for bit, name in (NONBLOCK, "O_NONBLOCK"), (CREATE, "O_CREAT"):
                what = f"{'without' if value & bit else 'with'} {name}"
                yield line[:filled.start()] + f"{filled[1]}x{value ^ bit:X}" + line[filled.end():], what, True
    elif filled and not label and 0 < number_of(filled[2]) < 100:
        value = number_of(filled[2]) + 1
        yield line[:filled.start()] + f"{filled[1]}{value}" + line[filled.end():], f"{value} for {filled[2]}", False


def mutants_of(file, text, private):
    """All mutants of a source: each of its calls left out, doubled, and exchanged with the next one; each name and value changed.

    Two changes make no difference, and aren't made: an open is doubled only beside O_EXCL, and a private name stays, which
    nobody else has.
    """
    lines = text.split("\n")
    blocks = blocks_of(lines)

    def made(number, what, changed, is_of_flags=False):
        return Mutant(file, number + 1, what, "\n".join(changed), is_of_flags)

    for place, block in enumerate(blocks):
        yield made(block.last, f"{block.name} left out", left_out(lines, block))
        if is_exclusive(text) or not block.name.endswith("_open"):
            yield made(block.last, f"{block.name} doubled", doubled(lines, block))
        following = blocks[place + 1] if place + 1 < len(blocks) else None
        if following and following.first > block.last and is_straight(lines, block, following):
            what = f"{block.name} exchanged with {following.name}"
            yield made(block.last, what, exchanged(lines, block, following))
    used = set(USED.findall("\n".join(map(code, lines))))
    for number, line in enumerate(lines):
        if NAME.search(code(line)) and private.isdisjoint(names_in(code(line))):
            yield made(number, "another name", lines[:number] + [other_name(line)] + lines[number + 1:])
        for changed, what, is_of_flags in other_values(line, used):
            yield made(number, what, lines[:number] + [changed] + lines[number + 1:], is_of_flags)
