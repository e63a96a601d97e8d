"""A repository of a few tiny crates with the launcher lc3lab, and stand-ins for the toolchain's commands that only sleep."""
import os
import re
import shutil
import signal
import subprocess
import time
from pathlib import Path

from checking import ROOT

CRATES = "# tiny crates\nlow:\nleft: low clap\nright: low\nhigh: right left serde\nlab_cli: high low\nother_tests: low\n"
OF_PROGRAM = ["low", "left", "right", "high", "lab_cli"]
SECONDS = 60

# Beside itself it writes the crates that are proved to `proved`, their jobs to `jobs`, and calls of the program to `runs`.
STAND_IN = r"""#!/bin/sh
set -eu
at=$(dirname -- "$(readlink -f -- "$0")")
case $1 in
version) echo "stand-in 1" ;;
doc) echo "$at/kit/START-HERE.md" ;;
try)
    [ ! -e "$at/no-try" ] || { echo "run=none proved=no" >&2; exit 2; }
    words=$([ -t 0 ] || cat)
    [ "$words" ] || { echo "lc3lab: standard input: Empty" >&2; echo "run=ended status=1 proved=no" >&2; exit 1; }
    echo "unproved $words"
    printf 'checked: ended status=0\nrun=ended status=0 proved=no\n' >&2
    ;;
esac
"""

# It refuses a library below that isn't there, and what it starts ends with its group.
PROVER = r"""#!/bin/sh
set -eu
at=$(dirname -- "$(readlink -f -- "$0")")/../..
[ "$1" = build ] && [ "$2" = --crate-name ]
crate=$3
jobs=- made=- kept=-
while [ $# -gt 0 ]; do
    case $1 in
    --jobs) jobs=$2 ;;
    -o) made=$2 ;;
    --incremental) kept=$2 ;;
    --extern) case $2 in */kit/rlibs/*) ;; *) [ -e "${2#*=}/format" ] ;; esac ;;
    esac
    shift
done
echo "$crate $jobs" >>"$at/jobs"
echo "begin $crate" >>"$at/proved"
sleep "$(cat "$at/seconds")"
! grep -q wrong src/* || { echo "fn f: not proved"; exit 1; }
[ "$kept" = - ] || echo kept >"$kept/whole"
case $made in
*.rlib) mkdir "$made"; cat src/* | cksum >"$made/format" ;;
*) echo "compiled" >"$made" ;;
esac
echo "end $crate" >>"$at/proved"
"""

LINKER = r"""#!/bin/sh
set -eu
at=$(dirname -- "$(readlink -f -- "$0")")/../..
while [ "$1" != -o ]; do shift; done
[ "$(cat "$3")" = compiled ]
cat >"$2" <<END
#!/bin/sh
echo "run \$*" >>"$at/runs"
[ \$# -gt 0 ] && echo "proved \$*" || echo "proved \$(cat)"
END
chmod +x "$2"
"""


class Failure(Exception):
    """What a case found."""


def expect(wanted, found, what):
    if wanted != found:
        raise Failure(f"{what}: expected {wanted!r}, found {found!r}")


def expect_text(pattern, text):
    if not re.search(pattern, text):
        raise Failure(f"expected {pattern!r} in {text!r}")


class Place:
    """A folder with the launcher, its crates and the stand-in; its name has a blank."""

    def __init__(self, folder, seconds="0.2"):
        self.folder = Path(folder)
        self.root = self.folder / "repository"
        for crate in OF_PROGRAM + ["other_tests"]:
            for part in ("src", "specs", "proofs"):
                self.write(self.root / "crates" / crate / part / "text", crate)
        self.write(self.root / "crates/lab_cli/src/main.rt", "main")
        self.write(self.root / "crates/lab_cli/stdin", "given")
        self.write(self.root / "crates.txt", CRATES)
        (self.root / "packaging").mkdir()
        for name in ("lc3lab", "build.mk", "prove", "packaging/edited"):
            shutil.copy(ROOT / name, self.root / name)
        for name, text in (("rt", STAND_IN), ("kit/bin/rattle", PROVER), ("kit/bin/rattle-link", LINKER)):
            self.write(self.folder / name, text)
            (self.folder / name).chmod(0o755)
        (self.folder / "lc3lab").symlink_to("repository/lc3lab")
        self.sleep(seconds)

    def write(self, path, text):
        path.parent.mkdir(parents=True, exist_ok=True)
        path.write_text(text + "\n")

    def sleep(self, seconds):
        self.write(self.folder / "seconds", seconds)

    def environment(self, **more):
        fixed = {"PATH": os.environ["PATH"], "LC_ALL": "C", "RT": str(self.folder / "rt"), "OF_CASE": str(self.folder)}
        return {**fixed, **more}

    def start(self, *words, before=(), **how):
        """A call of the launcher through a link, in a process group of its own, as a shell at a terminal starts it."""
        how = {"stdin": subprocess.DEVNULL, "stdout": subprocess.PIPE, "stderr": subprocess.PIPE, **how}
        how = {"cwd": self.folder, "env": self.environment(), "text": True, "start_new_session": True, **how}
        # whatever this test was started with
        how["preexec_fn"] = lambda: [signal.signal(it, signal.SIG_DFL) for it in (signal.SIGHUP, signal.SIGINT, signal.SIGQUIT)]
        return subprocess.Popen([*before, str(self.folder / "lc3lab"), *words], **how)

    def call(self, *words, given="", **how):
        started = self.start(*words, stdin=subprocess.PIPE, **how)
        output, errors = started.communicate(given, timeout=SECONDS)
        return started.returncode, output, errors

    def lines(self, name):
        path = self.folder / name
        return path.read_text().splitlines() if path.exists() else []

    def await_line(self, line):
        until(lambda: line in self.lines("proved"), f"{line} in {self.lines('proved')}")

    def await_end(self):
        until(lambda: not self.left(), f"all has ended: {self.left()}")

    def left(self):
        """The processes that calls of this place started, by their environment, each with its first words."""
        found = {}
        for path in Path("/proc").glob("[0-9]*"):
            try:
                if f"OF_CASE={self.folder}\0".encode() in (path / "environ").read_bytes():
                    found[int(path.name)] = (path / "cmdline").read_bytes().decode().split("\0")[:3]
            except OSError:
                pass
        return found


def until(holds, what, seconds=10):
    end = time.monotonic() + seconds
    while not holds():
        if time.monotonic() > end:
            raise Failure(f"after {seconds} seconds not so: {what}")
        time.sleep(0.02)
