"""Packs: a task with all that marks it, in one file, as services that call graders take it (docs/autograding.md)."""
from __future__ import annotations

import gzip
import io
import os
import re
import shlex
import subprocess
import sys
import tarfile
import zipfile
from pathlib import Path, PurePosixPath

from . import shown
from .faults import TaskFault
from .laboratory import is_program
from .records import write_whole
from .task import tomllib

AUTOGRADER = Path(__file__).resolve().parent.parent
# by these keys a task names files of its own
FILES = ("given", "input-file")
# a part of a name that is drawn
DRAWN = re.compile(r"\$\([^)]*\)")
# each file has this time, the earliest of a zip file, so that equal packs have equal bytes
TIME = (1980, 1, 1, 0, 0, 0)
SECONDS = 315532800
PROGRAM, TEXT = 0o755, 0o644


def pack(said, seed, laboratory, place):
    """Writes the pack of a task as a whole, or nothing, and says what it is."""
    if not said.pack or not said.output or said.folders:
        raise TaskFault("either folders are marked, or --pack is asked with -o FILE and no folder")
    try:
        task = Task(Path(said.task))
        found = {**common(laboratory), **task.files(), "pack.sh": (words_of(task, seed, said).encode("utf-8", "surrogateescape"), TEXT)}
        try_out(found, task, Path(place))
        content = KINDS[said.pack](found)
    except UnicodeError as it:
        raise TaskFault(f"{said.task}: {it}") from None
    except OSError as it:
        raise TaskFault(f"{it.filename or place}: {it.strerror}") from None
    try:
        write_whole(Path(said.output), content)
    except OSError as it:
        raise TaskFault(f"{said.output}: {it.strerror}") from None
    print(f"{said.output}: {said.pack}, {len(found)} files, {len(content):,} bytes", flush=True)


class Task:
    """A task's file, and those that it names, as they lie towards each other."""

    def __init__(self, path):
        self.path = path
        try:
            self.names = sorted(names_in(tomllib.loads(path.read_text(encoding="utf-8"))))
        except ValueError as it:
            raise TaskFault(f"{path}: {it}") from None
        self.above = self.folders_above()

    def folders_above(self):
        """The folders that a name with `..` leaves, the highest first, which a pack has too."""
        most = 0
        for name in self.names:
            steps = PurePosixPath(name).parts
            up = next((place for place, it in enumerate(steps) if it != ".."), len(steps))
            if ".." in steps[up:] or PurePosixPath(name).is_absolute():
                raise TaskFault(f"{self.path}: {name} can't be packed: its path must begin at the task's folder")
            most = max(most, up)
        folders = Path(os.path.realpath(self.path.parent)).parts[1:]
        if most > len(folders):
            raise TaskFault(f"{self.path}: there are no {most} folders above it")
        return folders[len(folders) - most:]

    def place(self):
        """Where the task lies in a pack, below its folder `task`."""
        return "/".join([*self.above, self.path.name])

    def files(self):
        """The task and its files, by their names in a pack. Where a part of a name is drawn, all files that fit it are meant."""
        found = {f"task/{self.place()}": (self.path.read_bytes(), TEXT)}
        for name in self.names:
            paths = [name] if not DRAWN.search(name) else fitting(self.path.parent, name)
            if not paths:
                raise TaskFault(f"{self.path}: {name}: no file has such a name")
            for it in paths:
                content = file_bytes(self.path.parent / it, f"{self.path}: {it}")
                found["task/" + os.path.normpath("/".join([*self.above, it]))] = content, TEXT
        return found


def names_in(table):
    """What a table, or one in it, calls files."""
    if isinstance(table, dict):
        own = {table[key] for key in FILES if isinstance(table.get(key), str)}
        return own.union(*map(names_in, table.values()))
    return set().union(*map(names_in, table)) if isinstance(table, list) else set()


def fitting(folder, name):
    """The files whose names are as this one, whatever is drawn."""
    pattern = "*".join(re.sub(r"([*?[])", r"[\1]", it) for it in DRAWN.split(name))
    return sorted(os.path.relpath(it, folder) for it in folder.glob(pattern) if it.is_file())


def file_bytes(path, told):
    try:
        return path.read_bytes()
    except OSError as it:
        raise TaskFault(f"{told}: {it.strerror}") from None


def common(laboratory):
    """The files that each pack has: the program, what it says of itself, and the grader."""
    program = program_of(laboratory)
    found = {"lc3lab": (program.read_bytes(), PROGRAM), "grader/grade": ((AUTOGRADER / "grade").read_bytes(), PROGRAM)}
    built = program.with_name(f"{program.name}.build")
    if built.is_file():
        found["lc3lab.build"] = built.read_bytes(), TEXT
    for it in sorted((AUTOGRADER / "grading").glob("*.py")):
        found[f"grader/grading/{it.name}"] = it.read_bytes(), TEXT
    return found


def program_of(laboratory):
    """The program itself, also if a release's script starts it."""
    command = Path(laboratory.command).resolve()
    for it in command, command.parent / "lib/lc3lab":
        if it.is_file() and is_program(it.read_bytes()):
            return it
    raise TaskFault(f"{laboratory.command} is a script: let LC3LAB name the program that it starts")


def words_of(task, seed, said):
    """What the scripts of a pack take in: where its task lies, and how its grader is called, with the word by which it draws."""
    practice = " --practice" if said.practice else ""
    drawn = f"LC3LAB_SEED={shlex.quote(seed)} " if seed else ""
    return f"task={shlex.quote(task.place())}\n" \
        f'mark() {{\n    {drawn}LC3LAB="$home/lc3lab" python3 -B "$home/grader/grade"{practice} "$@"\n}}\n'


def try_out(found, task, place):
    """Marks an empty folder by the pack, as its service would: whatever is missing or refused is told now."""
    home, nobody = place / "pack", place / "nobody"
    nobody.mkdir()
    for name, (content, mode) in found.items():
        path = home / name
        path.parent.mkdir(parents=True, exist_ok=True)
        path.write_bytes(content)
        path.chmod(mode)
    script = '. "$home/pack.sh"\nmark --brief -- "$home/task/$task" "$nobody"'
    path = f"{os.path.dirname(sys.executable)}:{os.environ.get('PATH', os.defpath)}"
    given = {**os.environ, "home": home, "nobody": nobody, "PATH": path, "TMPDIR": str(place)}
    ran = subprocess.run(["sh", "-c", script], env=given, stdin=subprocess.DEVNULL, stdout=subprocess.PIPE, stderr=subprocess.PIPE,
                         check=False)
    if ran.returncode != 0:
        told = " ".join(shown.lines(ran.stderr + ran.stdout, 1000, 5)) or f"the grader ended with status {ran.returncode}"
        above = f"{home}/task/" + "".join(f"{it}/" for it in task.above)
        raise TaskFault(told.removeprefix("grade: ").replace(above, f"{task.path.parent}/"))


def scripts(kind, *names):
    """What a service calls, or a pack has for it alone."""
    folder = AUTOGRADER / "pack" / kind
    return {it: ((folder / it).read_bytes(), TEXT if it.endswith(".py") else PROGRAM) for it in names}


def zipped(found):
    """A zip file, by the names of its files and with their modes."""
    written = io.BytesIO()
    with zipfile.ZipFile(written, "w", zipfile.ZIP_DEFLATED) as target:
        for name, (content, mode) in sorted(found.items()):
            info = zipfile.ZipInfo(name, TIME)
            info.create_system, info.external_attr, info.compress_type = 3, (0o100000 | mode) << 16, zipfile.ZIP_DEFLATED
            target.writestr(info, content)
    return written.getvalue()


def tarred(found):
    """A tar file, packed by gzip, likewise."""
    written = io.BytesIO()
    with tarfile.open(fileobj=written, mode="w", format=tarfile.PAX_FORMAT) as target:
        for name, (content, mode) in sorted(found.items()):
            info = tarfile.TarInfo(name)
            info.size, info.mode, info.mtime = len(content), mode, SECONDS
            target.addfile(info, io.BytesIO(content))
    return gzip.compress(written.getvalue(), mtime=0)


def gradescope(found):
    """Gradescope unpacks it as /autograder/source."""
    return zipped({**found, **scripts("gradescope", "setup.sh", "run_autograder")})


def moodle(found):
    """The execution files of VPL, one of which has all others, since they lie beside what is handed in."""
    inner = tarred({**found, **scripts("moodle", "report.py")})
    return zipped({**scripts("moodle", "vpl_evaluate.sh"), "pack.tar.gz": (inner, TEXT)})


KINDS = {"gradescope": gradescope, "moodle": moodle}
