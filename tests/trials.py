"""Trials of wrong bodies: several edits of a crate in one check, over the libraries that `rt ci` left.

Each round is a copy of the crate in which some functions are edited and every other function runs for ever, with a hole in
the place of its proof: so the check proves nothing again that `rt ci` has proved, and an edited function is still held to its
own contract, by the contracts of those that it calls. No two edits of a round change one function, and none changes a
function that another one's function calls.
"""
import glob
import os
import re
import shutil
import subprocess
import sys
import tempfile
import time
from importlib.machinery import SourceFileLoader
from importlib.util import module_from_spec, spec_from_loader

from checking import ROOT
from functions import all_functions, changed_at, emptied, homes, own_text

# reading it leaves no file beside it
sys.dont_write_bytecode = True
loader = SourceFileLoader("prove", str(ROOT / "prove"))
prove = module_from_spec(spec_from_loader("prove", loader))
loader.exec_module(prove)

HOLE = """use Rattle.{module}.Statement.{{statement}}

pub {name}_spec : {{M : Type 1}} → statement M
{name}_spec 𝓤 𝓛 𝓜 𝓡 w = ?
"""
PLACE = re.compile(r"(?:note: )?(?:\./)?((?:src|specs|proofs)/\S+?):(\d+):\d+: (.*)")
NAMES = re.compile(
    r"has no field|is not in scope|has no `|was not admitted|depend on `.*was rejected|is no name|operand is missing|"
    r"expected the end|cannot continue")

LATE = "not tried, since the time was over"


def read(path):
    with open(path, encoding="utf-8") as file:
        return file.read()


def pairs(path):
    """The pairs of an edit: a file of its crate, the text that stands there, and the one in its place."""
    file = old = None
    for line in read(path).split("\n"):
        word, _, text = line.partition(": ")
        if word == "file":
            file = text.strip()
        elif word == "old":
            old = text
        elif word in ("new", "new:"):
            yield file, old, text


def texts_of(crate):
    """The texts of a crate's code by their files."""
    folder = f"crates/{crate}/"
    return {path.removeprefix(folder): read(path) for path in sorted(glob.glob(folder + "src/**/*.rt", recursive=True))}


class Edit:
    """An edit of a crate's code, and the paths of the functions that it changes."""

    def __init__(self, path):
        self.path, self.pairs = path, list(pairs(path))
        self.crate, self.name = path.split("/")[1], os.path.basename(path).removesuffix(".edit")
        texts, self.functions = texts_of(self.crate), []
        for file, old, new in self.pairs:
            text = texts[file]
            self.functions += changed_at(texts, file, text.count("\n", 0, text.index(old)))
            texts[file] = text.replace(old, new)

    def changed(self, texts):
        """The texts with the edit, or None where one that it replaces isn't there once."""
        texts = dict(texts)
        for file, old, new in self.pairs:
            if texts[file].count(old) != 1:
                return None
            texts[file] = texts[file].replace(old, new)
        return texts

    def own_text(self, texts):
        """The text of the functions with the edit."""
        made = self.changed(texts)
        return "\n".join(own_text(made[file], it) for file, it in all_functions(made) if it.path in self.functions)


def call_of(path, types):
    """How a text may call a function, by its name. Methods of traits are left out: an operator or a macro calls them, too."""
    *above, name = path.split("::")
    block = above[-1].partition("+")[0] if above and above[-1][:1].isupper() else None
    if not block:
        return rf"(?<![.\w]){name}\b"
    return rf"\.{name}\(|\b(?:{block}|Self)(?:::<[^()]*>)?::{name}\b" if block in types else None


def rounds_of(crate, edits):
    """The edits in rounds, each with the texts of the crate with its edits."""
    start, rounds = texts_of(crate), []
    owns, types = {edit: edit.own_text(start) for edit in edits}, homes(start)

    def calls(one, other):
        ways = [call_of(path, types) for path in other.functions]
        return any(way and re.search(way, owns[one]) for way in ways)

    def fits(edit, others):
        return not any(set(edit.functions) & set(it.functions) or calls(edit, it) or calls(it, edit) for it in others)

    for edit in edits:
        for texts, others in rounds:
            made = edit.changed(texts[0]) if fits(edit, others) else None
            if made:
                texts[0] = made
                others.append(edit)
                break
        else:
            rounds.append(([edit.changed(start)], [edit]))
    return [(texts[0], others) for texts, others in rounds]


class Kit(prove.Toolchain):
    """The toolchain and the crates of the repository, over the libraries that `rt ci` left."""

    def library(self, name):
        return f"{ROOT}/crates/{name}/out/rlib/{name}.rlib"

    def is_built(self, crate):
        """Whether a crate's library is there, and has the specs and the proofs that the crate has now."""
        if not os.path.isdir(self.library(crate)):
            return False
        folder, kept = f"crates/{crate}/", f"{self.library(crate)}/lang/antt/"
        files = [it.removeprefix(folder) for part in ("specs", "proofs") for it in glob.glob(f"{folder}{part}/**/*.antt", recursive=True)]
        return all(
            os.path.exists(kept + it) and read(kept + it) == read(folder + it) for it in files if not it.endswith("/Lib.antt"))

    def lacks(self, crate):
        """The crates below whose libraries aren't built."""
        return [name for name in self.below(crate) if not self.is_built(name)]

    def check(self, crate):
        """The command that checks a crate in the folder where it runs."""
        return [f"{self.kit}/bin/rattle", "check", *self.words(crate), "--jobs", "1"]


def write_hole(folder, crate, path):
    """Puts a hole in the place of a function's proof."""
    names = path.split("::")
    home = f"{folder}/proofs/{'/'.join(names)}"
    os.makedirs(home, exist_ok=True)
    for file in ("Answers.antt", "Invariants.antt"):
        if os.path.exists(f"{home}/{file}"):
            os.remove(f"{home}/{file}")
    with open(f"{home}/Proof.antt", "w", encoding="utf-8") as file:
        file.write(HOLE.format(module=".".join([crate, "proofs", *names]), name=names[-1]))


def write_crate(folder, crate, texts, kept):
    """Writes a copy of a crate with these texts, in which each function but those that are kept is emptied."""
    for part in ("specs", "proofs"):
        if os.path.isdir(f"crates/{crate}/{part}"):
            shutil.copytree(f"crates/{crate}/{part}", f"{folder}/{part}")
    made, paths = (texts, []) if kept is None else emptied(texts, kept)
    for file, text in made.items():
        os.makedirs(os.path.dirname(f"{folder}/{file}"), exist_ok=True)
        with open(f"{folder}/{file}", "w", encoding="utf-8") as it:
            it.write(text)
    for path in paths:
        write_hole(folder, crate, path)
    return made


def closures_of(path):
    """What the paths of a function's closures begin with: `a::fn::Type::name` for `a::Type::name`."""
    names = path.split("::")
    own = 2 if len(names) > 1 and names[-2][:1].isupper() else 1
    return "::".join([*names[:-own], "fn", *names[-own:]])


def run(words, folder):
    """Runs a command in a folder: its lines, the seconds of processors, and the most memory, in bytes."""
    with tempfile.TemporaryFile("w+", encoding="utf-8", errors="replace") as out:
        ran = subprocess.Popen(words, cwd=folder, stdin=subprocess.DEVNULL, stdout=out, stderr=subprocess.STDOUT)
        _, status, used = os.wait4(ran.pid, 0)
        ran.returncode = os.waitstatus_to_exitcode(status)
        out.seek(0)
        return out.read().split("\n"), used.ru_utime + used.ru_stime, 1024 * used.ru_maxrss


class Said:
    """What a check of some functions said, and what it took. With `whole` no function is emptied."""

    def __init__(self, kit, crate, texts, paths, whole=False):
        self.crate, self.paths, self.whole = crate, paths, whole
        words = [*kit.check(crate), *([] if whole else ["--allow-holes"])]
        with tempfile.TemporaryDirectory(prefix="wrong-bodies-") as folder:
            self.texts = write_crate(folder, crate, texts, None if whole else paths)
            words += [word for path in paths for word in ("--only", path)]
            self.lines, self.seconds, self.memory = run(words, folder)

    def counts(self):
        """Whether the check came to its end, and has no error but at the functions that it was asked for."""
        own = {line for path in self.paths for line in self.told_at(path)}
        strays = [line for line in self.lines if PLACE.match(line) and ": error" in line and line not in own]
        return any(line.startswith("only=") for line in self.lines[-2:]) and (self.whole or not strays)

    def told_at(self, path):
        """The lines that are told of places of a function: of its text, and of the files of its proof and its closures'."""
        homes = tuple(f"proofs/{it.replace('::', '/')}/" for it in (path, closures_of(path)))
        own = [(file, it) for file, it in all_functions(self.texts) if it.path == path]
        for line in self.lines:
            at = PLACE.match(line)
            if at and (at[1].startswith(homes) or any(at[1] == file and it.begin < int(at[2]) <= it.end + 1 for file, it in own)):
                yield line

    def lines_of(self, path):
        """The lines that say whether a function and its closures are proved."""
        starts = f"fn {self.crate}::{path}: ", f"fn {self.crate}::{closures_of(path)}::"
        return [line for line in self.lines if line.startswith(starts)]

    def refusal(self, path):
        """What refuses a function, or None: a goal of its contract or of its code, and not a name that is no more."""
        if not any(re.search(r": (not proved|no proof: expected answers)", line) for line in self.lines_of(path)):
            return None
        told = [line for line in self.told_at(path) if ": error: " in line or ": it is not proved that " in line]
        return next((line for line in told if not NAMES.search(line)), None)

    def accepts(self, path):
        """Whether a function is accepted by the contracts of those that it calls."""
        told = [re.search(r": (proved|no holes|depends on a hole)", line) for line in self.lines_of(path)]
        return self.counts() and bool(told) and all(told)

    def verdict(self, paths):
        """What the check says of functions, or else its first error, or its last lines."""
        told = [line for path in paths for line in self.lines_of(path)]
        return " ".join(told or [line for line in self.lines if "error" in line][:1] or self.lines[-3:])


class Trial:
    """A trial of a crate's edits: what refused each, or why it counts as not refused, and what it took."""

    def __init__(self, kit, crate, edits, logs=None):
        self.kit, self.crate, self.edits, self.logs = kit, crate, edits, logs
        self.refused, self.faults, self.checks, self.seconds, self.memory = {}, {}, 0, 0, 0
        self.faults = {edit: "it changes no function" for edit in edits if not edit.functions}

    def left(self):
        """The edits of which nothing is known yet."""
        return [it for it in self.edits if it not in self.refused and it not in self.faults]

    def check(self, texts, edits, whole=False):
        """Checks what these edits change, and keeps what is refused."""
        said = Said(self.kit, self.crate, texts, list(dict.fromkeys(path for it in edits for path in it.functions)), whole)
        self.checks, self.seconds, self.memory = self.checks + 1, self.seconds + said.seconds, max(self.memory, said.memory)
        if self.logs:
            with open(f"{self.logs}/{self.crate}-{self.checks}", "w", encoding="utf-8") as file:
                file.write("\n".join([*(it.path for it in edits), *said.lines]))
        for edit in edits if said.counts() else []:
            found = next(filter(None, map(said.refusal, edit.functions)), None)
            if found:
                self.refused[edit] = found
        return said

    def accept(self, ends):
        """Looks in the same rounds whether each function is accepted as it is."""
        for _, edits in rounds_of(self.crate, self.left()):
            said = self.check(texts_of(self.crate), edits) if time.monotonic() < ends else None
            for edit in edits:
                if not said:
                    self.faults[edit] = LATE
                elif not all(map(said.accepts, edit.functions)):
                    self.faults[edit] = said.verdict(edit.functions)

    def run(self, ends):
        """Tries the edits in rounds, what is left of them in rounds once more, and then alone, until the time ends."""
        for least in (1, 2):
            for texts, edits in rounds_of(self.crate, self.left()):
                if len(edits) >= least and time.monotonic() < ends:
                    self.blame(self.check(texts, edits), edits)
        for edit in self.left():
            self.try_alone(edit, ends)

    def blame(self, said, edits):
        """Finds the edits at whose functions a check stopped before it proved anything."""
        for edit in edits:
            told = [line for path in edit.functions for line in said.told_at(path) if "error[" in line]
            if told:
                self.faults[edit] = f"it doesn't compile: {told[0]}"

    def try_alone(self, edit, ends):
        """Tries an edit in the crate as it is."""
        said = self.check(edit.changed(texts_of(self.crate)), [edit], whole=True) if time.monotonic() < ends else None
        if edit not in self.refused:
            self.faults[edit] = said.verdict(edit.functions) if said else LATE
