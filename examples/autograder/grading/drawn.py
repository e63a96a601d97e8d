"""What a seed draws for the runs of a task, so that no answer can be written down beforehand (docs/autograding.md)."""
from __future__ import annotations

import hashlib
import re

from .faults import TaskFault

NUMBERS = re.compile(r"(\d{1,5})-(\d{1,5})")
LETTERS = re.compile(r"([A-Z])-([A-Z])|([a-z])-([a-z])")
# $(n), $(n.0), $(n.word), $(n+2), $(n-m.1), and from left to right $(n+m*2)
OPERAND = r"(?:[a-z]+(?:\.(?:[a-z]+|\d+))?|\d+)"
PLACE = re.compile(rf"\$\(({OPERAND})((?:[-+*]{OPERAND})*)\)")
STEP = re.compile(rf"([-+*])({OPERAND})")
BY_SIGN = {"+": lambda one, other: one + other, "-": lambda one, other: one - other, "*": lambda one, other: one * other}
# what a shape may say in place of its run
OF_SHAPE = {"programs", "outputs", "alternatives", "require", "may-wait", "never", "fair", "draw"}


class Hat:
    """Numbers that look as if by chance, and are the same for the same seed."""

    def __init__(self, seed):
        self.seed, self.taken = seed, 0

    def below(self, count):
        self.taken += 1
        return int.from_bytes(hashlib.sha256(f"{self.seed} {self.taken}".encode()).digest(), "big") % count

    def one_of(self, among):
        return among[self.below(len(among))]

    def some_of(self, among, count):
        """So many different ones, in the order in which they stand."""
        left = list(among)
        while len(left) > count:
            left.remove(self.one_of(left))
        return left

    def mixed(self, among):
        """The same ones in another order."""
        left, found = list(among), []
        while left:
            found.append(left.pop(self.below(len(left))))
        return found


def seed_for(seed, digest):
    """The seed for one who handed in what has this digest: nobody can know by his own what is drawn for another's."""
    return hashlib.sha256(f"{digest} {seed}".encode("utf-8", "surrogateescape")).hexdigest()


def range_of(word):
    """The numbers or letters of a range."""
    numbers, letters = (it.fullmatch(word) if isinstance(word, str) else None for it in (NUMBERS, LETTERS))
    if numbers and int(numbers[1]) <= int(numbers[2]):
        return range(int(numbers[1]), int(numbers[2]) + 1)
    first, *_, last = list(filter(None, letters.groups())) if letters else "10"
    if not letters or first > last:
        raise TaskFault(f"draw: not LOW-HIGH: {word}")
    return [chr(it) for it in range(ord(first), ord(last) + 1)]


def several(word, hat):
    """So many different numbers or letters of a range: ascending, or in any order."""
    how, = word.keys() - {"of"}
    count, among = word[how], range_of(word["of"])
    if not isinstance(count, int) or not 1 <= count <= len(among):
        raise TaskFault(f"draw: so many can't be drawn: {count} of {word['of']}")
    found = hat.some_of(among, count)
    return found if how == "ascending" else hat.mixed(found)


def draw(name, word, hat):
    """What a name of `draw` stands for: a number or letter, one of some texts, one of some tables of texts, or several."""
    if isinstance(word, list) and word and all(isinstance(it, str) for it in word):
        return {name: hat.one_of(word)}
    if isinstance(word, list) and word and all(isinstance(it, dict) for it in word):
        return {f"{name}.{key}": it for key, it in hat.one_of(word).items() if isinstance(it, str)}
    if isinstance(word, dict) and word.keys() in ({"ascending", "of"}, {"different", "of"}):
        return {f"{name}.{place}": it for place, it in enumerate(several(word, hat))}
    return {name: hat.one_of(range_of(word))}


def drawn_by(words, seed, known):
    """All that a table `draw` draws, beside what is known already, which may stand in it."""
    if not isinstance(words, dict) or not all(re.fullmatch("[a-z]+", it) for it in words):
        raise TaskFault("draw: this must be a table, with names of small letters")
    drawn = dict(known)
    for name, word in words.items():
        drawn.update(draw(name, put(word, drawn), Hat(f"{seed} {name}")))
    return drawn


def joined(found, one, sign, other):
    """What a sign makes of two things that were drawn: of numbers a number, of a text and a number the text so many times."""
    if isinstance(one, int) and isinstance(other, int):
        return BY_SIGN[sign](one, other)
    if isinstance(one, str) and isinstance(other, int) and sign == "*" and 0 <= other <= 1000:
        return one * other
    raise TaskFault(f"{found[0]}: this is no number")


def value_at(found, drawn):
    """What stands in the place of `$(..)`."""
    def operand(word):
        value = int(word) if word.isdecimal() else drawn.get(word)
        if value is None:
            raise TaskFault(f"{found[0]}: {word} isn't drawn")
        return value

    value = operand(found[1])
    for sign, word in STEP.findall(found[2]):
        value = joined(found, value, sign, operand(word))
    return str(value)


def put(value, drawn):
    """A part of a run, with what was drawn in its texts."""
    if isinstance(value, str):
        return PLACE.sub(lambda it: value_at(it, drawn), value)
    if isinstance(value, list):
        return [put(it, drawn) for it in value]
    return {key: put(it, drawn) for key, it in value.items()} if isinstance(value, dict) else value


def shapes_of(table):
    """The shapes of a run, of which one is drawn; of a run without such the run itself."""
    if not isinstance(table, dict) or "shape" not in table:
        return [table]
    shapes = table["shape"]
    if not isinstance(shapes, list) or not shapes or not all(isinstance(it, dict) for it in shapes):
        raise TaskFault("shape: this must be a list of tables")
    for key in (key for it in shapes for key in it if key not in OF_SHAPE):
        raise TaskFault(f"shape: there is no key {key}")
    run = {key: it for key, it in table.items() if key != "shape"}
    return [{**run, **it, "draw": {**run.get("draw", {}), **it.get("draw", {})}} for it in shapes]


def run_for(shape, seed, shared):
    """The table of a run of this shape as the seed has it, which knows what is drawn for all runs."""
    if not isinstance(shape, dict):
        return shape
    drawn = drawn_by(shape.get("draw", {}), seed, shared)
    run = {key: it for key, it in shape.items() if key != "draw"}
    return put(run, drawn) if drawn else run


def runs_for(table, seed, runs):
    """The tables of all runs as the seed has them, each of one of its shapes."""
    shared = drawn_by(table.get("draw", {}), f"{seed} 0", {})
    return [run_for(Hat(f"{seed} {number} shape").one_of(shapes_of(it)), f"{seed} {number}", shared)
            for number, it in enumerate(runs, 1)]


def draws(table):
    """Something in a task is drawn."""
    if isinstance(table, dict):
        return "draw" in table or "shape" in table or any(map(draws, table.values()))
    return isinstance(table, list) and any(map(draws, table))
