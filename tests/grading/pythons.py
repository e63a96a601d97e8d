"""The grader runs on each Python from 3.9 on that is here: on the path, or as pyenv keeps them."""
import ast
import glob
import os
import re
import shutil
import subprocess

from .calling import ECHO, GRADE
from .packed import ALWAYS_X, furnished

OLDEST = (3, 9)
WITH_TOML = (3, 11)


def answered(*words):
    """What a command prints, or nothing if it can't be run."""
    try:
        return subprocess.run(words, stdout=subprocess.PIPE, stderr=subprocess.DEVNULL, check=True).stdout.decode().strip()
    except (OSError, subprocess.CalledProcessError):
        return ""


def interpreters():
    """A Python of each version, by that version."""
    named = [shutil.which(f"python3.{it}") for it in range(8, 30)]
    kept = glob.glob(os.path.expanduser("~/.pyenv/versions/3.*/bin/python3"))
    found = {}
    for path in [*filter(None, named), *kept]:
        version = answered(path, "-c", "import sys; print(*sys.version_info[:2])").split()
        if version and tuple(map(int, version)) >= (3, 8):
            found.setdefault(tuple(map(int, version)), path)
    return dict(sorted(found.items()))


def look_at_one(check, grader, version, python, task, folders, wanted):
    """Marks are what they are with the Python of this call."""
    name = ".".join(map(str, version))
    place = grader.place / f"python-{name}"
    place.mkdir()
    (place / "python3").symlink_to(python)
    how = {"PATH": f"{place}:{grader.environment['PATH']}"}
    if OLDEST <= version < WITH_TOML and not answered(python, "-c", "import tomli; print(tomli)"):
        _, complained, status = grader.call("--help", **how)
        check(status == 2 and "python3-tomli" in complained, f"Python {name} without tomli: status {status}: {complained}")
        copy = answered(python, "-c", "from pip._vendor import tomli; print(*tomli.__path__)")
        if not copy:
            print(f"Python {name}: skipped, since it has no tomli")
            return
        (place / "tomli").symlink_to(copy)
        how["PYTHONPATH"] = str(place)
    found = marks(grader, task, folders, f"results-{name}", **how)
    if version < OLDEST:
        check(found[2] == 2 and found[1] == "grade: this needs Python 3.9 or later\n", f"Python {name}: {found}")
    else:
        check(found == wanted, f"Python {name}: {found}, not {wanted}")
    print(f"tried with Python {name}")


def marks(grader, task, folders, results, **how):
    """What is printed of the marks, without the names of pages; all reports are written."""
    reports = [it for name in ("junit", "csv") for it in (f"--{name}", f"{results}.{name}")]
    printed, complained, status = grader.call("--practice", "--results", results, *reports, "--", task, *folders, **how)
    return re.sub(r"^ *(page|ends) .*\n", "", printed, flags=re.M), complained, status


def look(check, grader):
    for path in [GRADE, *GRADE.parent.rglob("*.py")]:
        try:
            check(ast.parse(path.read_bytes(), feature_version=OLDEST), f"{path}: empty")
        except SyntaxError as it:
            check(False, f"{path}: not for Python 3.9: {it}")
    task = furnished(grader)
    folders = [grader.folder(name, a__asm=source) for name, source in (("ben", ECHO), ("anna", ALWAYS_X))]
    wanted = marks(grader, task, folders, "results")
    check(wanted[2] == 0 and wanted[0].endswith("\n1 of 2 pass\n"), f"this Python: {wanted}")
    for version, python in interpreters().items():
        look_at_one(check, grader, version, python, task, folders, wanted)
