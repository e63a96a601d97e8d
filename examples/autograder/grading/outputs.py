"""What each process of a run should print."""
from __future__ import annotations

import itertools
import math
import re
from dataclasses import dataclass

from . import shown
from .faults import TaskFault

# what stands for a character in a text of `explore --require`, beside those from a blank to `~`
ESCAPES = {"\n": "\\n", "\t": "\\t", "\r": "\\r", "\a": "\\a", "\b": "\\b", "\f": "\\f", "\v": "\\v", "\x1b": "\\e",
           "\0": "\\0", '"': '\\"', "\\": "\\\\"}
# a word has so many characters, and joins so many alternatives; the system takes words that are somewhat longer
LONGEST = 100_000
MOST = 1_000


@dataclass
class Text:
    """One of these texts, exactly."""

    texts: list

    def fits(self, found):
        return found in self.texts

    def words(self, process):
        """What `explore --require` takes for each of the texts, if it does for all of them."""
        if not all(" " <= it <= "~" or it in ESCAPES for text in self.texts for it in text):
            return None
        return [f'out {process} = "{"".join(ESCAPES.get(it, it) for it in text)}"' for text in self.texts]

    def told(self):
        return " or ".join(shown.output(it) for it in self.texts)


@dataclass
class Lines:
    """A regular expression for each line, in turn. A line feed at the very end begins no line."""

    patterns: list

    def fits(self, found):
        lines = lines_of(found)
        return len(lines) == len(self.patterns) and all(it.fullmatch(line) for it, line in zip(self.patterns, lines))

    def words(self, process):
        return None

    def told(self):
        return "lines like " + ", ".join(f"/{it.pattern}/" for it in self.patterns)


@dataclass
class EachLine:
    """One regular expression for all lines, however many there are."""

    pattern: re.Pattern

    def fits(self, found):
        return all(self.pattern.fullmatch(it) for it in lines_of(found))

    def words(self, process):
        return None

    def told(self):
        return f"only lines like /{self.pattern.pattern}/"


class Anything:
    """Whatever is printed."""


@dataclass
class Need:
    """What processes should print together: each alternative has it by their numbers. `word` asks `explore` for it, where that
    has words."""

    alternatives: list
    word: str | None

    def key(self):
        return "require", self.word

    def wrong(self, found):
        """For each alternative the processes that printed something else."""
        return [[place for place, it in each.items() if not it.fits(found[place])] for each in self.alternatives]

    def is_met(self, found):
        return [] in self.wrong(found)

    def difference(self, found):
        """What is wrong with the outputs of an end, in lines."""
        wrong = self.wrong(found)
        nearest = min(range(len(wrong)), key=lambda it: len(wrong[it]))
        told = self.alternatives[nearest]
        also = ["(other outputs would do, too)"] * (len(wrong) > 1)
        return [f"process {it} printed {shown.output(found[it])}, not {told[it].told()}" for it in wrong[nearest]] + also


def lines_of(text):
    lines = text.split("\n")
    return lines[:-1] if lines[-1] == "" else lines


def pattern_of(text):
    try:
        return re.compile(text)
    except (re.error, TypeError) as it:
        raise TaskFault(f"outputs: no regular expression: {text}: {it}") from None


def is_output(text):
    return isinstance(text, str) and all(ord(it) < 256 for it in text)


def wanted(word):
    """What stands for one process in `outputs`."""
    if is_output(word):
        return Text([word])
    if isinstance(word, dict) and len(word) == 1:
        (key, value), = word.items()
        if key == "any" and isinstance(value, list) and value and all(map(is_output, value)):
            return Text(value)
        if key == "lines" and isinstance(value, list):
            return Lines([pattern_of(it) for it in value])
        if key == "each-line":
            return EachLine(pattern_of(value))
        if key == "free" and value is True:
            return Anything()
    raise TaskFault(f"outputs: neither a text nor one of any, lines, each-line, free: {word}")


def wanted_of_all(words, count):
    """What stands for all processes of a run."""
    if not isinstance(words, list) or len(words) != count:
        raise TaskFault(f"outputs: there must be one for each program, so {count}")
    return [wanted(it) for it in words]


def word_for(alternatives):
    """The word of `--require` that asks for one of the alternatives, if it has words for all of them."""
    words = [[it.words(place) for place, it in each.items()] for each in alternatives]
    if any(None in each for each in words) or sum(math.prod(map(len, each)) for each in words) > MOST:
        return None
    word = " or ".join(" and ".join(it) for each in words for it in itertools.product(*each))
    return word if len(word) <= LONGEST else None


def needs_of(alternatives):
    """What is asked of the outputs. Of one alternative each process has its own, so that it is told alone."""
    asked = [{place: it for place, it in enumerate(each) if not isinstance(it, Anything)} for each in alternatives]
    if not asked or {} in asked:
        return []
    parts = [asked] if len(asked) > 1 else [[{place: it}] for place, it in asked[0].items()]
    return [Need(it, word_for(it)) for it in parts]
