"""Cases: how their files are read and run. The head of the script `run` tells their form."""
import os
import signal
import subprocess
import tempfile
from dataclasses import dataclass, field
from pathlib import Path

from checking import ROOT

CASES = ROOT / "tests" / "cases"
EXAMPLES = ROOT / "examples"
SECONDS = int(os.environ.get("CASE_SECONDS", "300"))
UNENDED = "\\ no line feed at the end"
PLACES_OF_TOOLS = "/usr/local/bin:/usr/bin:/bin"


class Malformed(Exception):
    """A line that the format of a case doesn't have."""


@dataclass
class Expectation:
    """What a command prints, line by line, and its status."""

    output: list[str] = field(default_factory=list)
    errors: list[str] = field(default_factory=list)
    status: str = "0"

    def lines(self):
        errors = [f"! {it}" if it else "!" for it in self.errors]
        status = [] if self.status == "0" else [f"? {self.status}"]
        return [f"  {it}" for it in self.output] + errors + status


@dataclass
class Remark:
    """A comment or an empty line outside of a command."""

    line: str

    def lines(self):
        return [self.line]


@dataclass
class File:
    """A file that the case makes."""

    name: str
    content: list[str] = field(default_factory=list)

    def lines(self):
        return [f"= {self.name}"] + [f"  {it}" for it in self.content]


@dataclass
class Command:
    """A command with its input and what is expected of it. The remarks stand before or after its expected lines."""

    line: str
    head: list[str] = field(default_factory=list)
    tail: list[str] = field(default_factory=list)
    input: list[str] = field(default_factory=list)
    expected: Expectation = field(default_factory=Expectation)
    has_expected: bool = False

    def lines(self, found=None):
        return [f"$ {self.line}"] + self.head + (found or self.expected).lines() + self.tail


def text_of(path):
    return path.read_bytes().decode("utf-8", "surrogateescape")


def lines_of(text):
    """The lines of a text; one line more tells that the last one lacks its line feed."""
    lines = text.split("\n")
    last = lines.pop()
    return lines + [last, UNENDED] if last else lines


def bytes_of(lines):
    return "".join(f"{it}\n" for it in lines).encode("utf-8", "surrogateescape")


def content_of(line):
    """What stands behind a line's first character and a blank."""
    if line[1:2] not in ("", " "):
        raise Malformed(f"a blank is missing behind `{line[0]}`")
    return line[2:]


def file_of(line):
    name = content_of(line)
    if not name or name.startswith("/") or ".." in name.split("/"):
        raise Malformed("a file's name is a path within the case's folder")
    return File(name)


def add_to_command(command, line):
    """Takes one line that belongs to a command."""
    if line.startswith("#"):
        (command.tail if command.has_expected else command.head).append(line)
        return
    if line.startswith("<"):
        command.input.append(content_of(line))
        command.head.append(line)
        return
    command.has_expected = True
    if line.startswith("  "):
        command.expected.output.append(line[2:])
    elif line.startswith("!"):
        command.expected.errors.append(content_of(line))
    elif line.startswith("?") and content_of(line).isdigit():
        command.expected.status = content_of(line)
    else:
        raise Malformed("a line begins with `#`, `=`, `$`, `<`, `!`, `?` and a number, or two blanks")


def parts_of(lines):
    """The parts of a case in their order: remarks, files and commands."""
    parts, block = [], None
    for number, line in enumerate(lines, 1):
        try:
            if line.startswith("="):
                block = file_of(line)
                parts.append(block)
            elif line.startswith("$"):
                block = Command(content_of(line))
                parts.append(block)
            elif line == "" or line.startswith("#") and not isinstance(block, Command):
                block = None
                parts.append(Remark(line))
            elif isinstance(block, File) and line.startswith("  "):
                block.content.append(line[2:])
            elif isinstance(block, Command):
                add_to_command(block, line)
            else:
                raise Malformed("this line belongs to no file and no command (an empty line ends a block)")
        except Malformed as it:
            raise Malformed(f"line {number}: {it}: {line}") from None
    if not any(isinstance(it, Command) for it in parts):
        raise Malformed(f"line {max(len(lines), 1)}: the case has no command")
    return parts


def read_case(path):
    lines = lines_of(text_of(path))
    if lines and lines[-1] == UNENDED:
        raise Malformed(f"line {len(lines) - 1}: the last line lacks its line feed")
    return parts_of(lines)


def run_command(command, folder, environment, seconds):
    """What the command gives: its output, its errors and its status."""
    pipes = {"stdin": subprocess.PIPE, "stdout": subprocess.PIPE, "stderr": subprocess.PIPE}
    ran = subprocess.Popen(["sh", "-c", command.line], cwd=folder, env=environment, start_new_session=True, **pipes)
    try:
        output, errors = ran.communicate(bytes_of(command.input), seconds)
        status = str(ran.returncode if ran.returncode >= 0 else 128 - ran.returncode)
    except subprocess.TimeoutExpired:
        os.killpg(ran.pid, signal.SIGKILL)
        output, errors = ran.communicate()
        status = f"none within {seconds} seconds"
    output, errors = (lines_of(it.decode("utf-8", "surrogateescape")) for it in (output, errors))
    return Expectation(output, errors, status)


def run_case(parts, programs, seconds=SECONDS, **more):
    """The case's lines as the program gives them. `programs` is the folder that holds `lc3lab`, `more` is for the environment."""
    environment = {"PATH": f"{programs}:{PLACES_OF_TOOLS}", "LC_ALL": "C", **more}
    lines = []
    with tempfile.TemporaryDirectory(prefix="lc3lab-case-") as name:
        folder = Path(name)
        (folder / "examples").symlink_to(EXAMPLES)
        for part in parts:
            if isinstance(part, Command):
                lines += part.lines(run_command(part, folder, environment, seconds))
                continue
            if isinstance(part, File):
                (folder / part.name).parent.mkdir(parents=True, exist_ok=True)
                (folder / part.name).write_bytes(bytes_of(part.content))
            lines += part.lines()
    return lines


def written(parts):
    """The case's lines as they stand in its file."""
    return [line for part in parts for line in part.lines()]


def paths_of(words):
    """The files of the cases that words of the command line name, or of all cases."""
    found = []
    for word in words or [CASES]:
        ways = [it for it in (Path(word), CASES / word, CASES / f"{word}.case") if it.exists()]
        path = ways[0] if ways else Path(word)
        found += sorted(path.rglob("*.case")) if path.is_dir() else [path]
    return list(dict.fromkeys(found))
