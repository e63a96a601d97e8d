"""The runs that tests/browser looks at: those of the course and of examples/, and some made here."""
import re
import subprocess
from dataclasses import dataclass
from pathlib import Path

ROOT = Path(__file__).resolve().parent.parent
COURSE = ROOT / "examples" / "course"
SECONDS = 300
MARK = "? unknown command\n"

# Names and outputs that could end an element of the page, or a string of its data.
NAMES = r'''        .ORIG x3000
        LEA R0, NAME
        LD R1, CREATE
        AND R2, R2, #0
        TRAP x50        ; sem_open("/script><b>x", O_CREAT, 0)
        LEA R0, NAME
        LD R1, CREATE
        ADD R1, R1, #2
        TRAP x40        ; mq_open of the same name, O_RDWR | O_CREAT
        LEA R1, NAME
        AND R2, R2, #0
        ADD R2, R2, #9
        AND R3, R3, #0
        TRAP x43        ; its first nine characters
        LEA R0, TEXT
        PUTS
        LD R0, HIGH
        OUT             ; a byte over x7F: "é" & </script>
        AND R0, R0, #0
        TRAP x53        ; waits for ever
CREATE  .FILL x40
HIGH    .FILL xE9
NAME    .STRINGZ "/script><b>x"
TEXT    .STRINGZ "</script><b>x</b><!-- \\ &amp;"
        .END
'''

# A call on no object, then a wait for what only another process that waits could post.
REFUSED = '''        .ORIG x3000
        LD R0, NONE
        LEA R1, LETTER
        AND R2, R2, #0
        ADD R2, R2, #1
        ADD R3, R2, #0
        ADD R3, R3, #-1
        TRAP x43        ; mq_send(-2, [x0041 "A"], 1, 0) = EBADF
        LEA R0, COMMA
        TRAP x52        ; sem_unlink("/a,b") = ENOENT
        LEA R0, NAME
        LD R1, CREATE
        AND R2, R2, #0
        TRAP x50        ; sem_open("/s", O_CREAT, 0) = 0
        TRAP x53        ; waits
NONE    .FILL #-2
CREATE  .FILL x40
LETTER  .FILL x41
NAME    .STRINGZ "/s"
COMMA   .STRINGZ "/a,b"
        .END
'''
# Names of files and lines of a source that no page should take for its own text: ends of elements, quotes, an end of a
# line, characters of four bytes, control characters, and one that turns the direction of a text.
HOSTILE_NAMES = ["<script>alert(1)<!--", "a\nb\u0001\u202e", "\U0001f600'\"&lt;" + "\U0001f600" * 30]
HOSTILE = '''        .ORIG x3000
        LEA R0, TEXT    ; </script><script>document.title = 'ran'</script> <img src=x onerror=alert(1)> &lt; ` ${1}
        PUTS            ; \U0001f600 \u0001 \u001b[31m \u202e turned \u2028 "quoted" \\ 'single' \\u003C <!-- ]]>
        LD R0, CONTROL\r
        OUT\t; a tab and an end of a line of two characters\r
        HALT
CONTROL .FILL x0A
TEXT    .STRINGZ "</script><svg onload=alert(1)> \'"
        .END
'''

# Takes two units of a semaphore, gives one back, unlinks it and ends with the other. A second process has it open, and it is gone
# with the end of that.
GONE = '''        .ORIG x3000
        LEA R0, SEM
        LD R1, CREATE
        AND R2, R2, #0
        ADD R2, R2, #2
        TRAP x50        ; sem_open("/s", O_CREAT, 2) = 0
        TRAP x53        ; sem_wait, of the first process alone
        TRAP x53        ; sem_wait
        TRAP x55        ; sem_post
        LEA R0, SEM
        TRAP x52        ; sem_unlink
        HALT
CREATE  .FILL x40
SEM     .STRINGZ "/s"
        .END
'''
GONE_SCHEDULE = "1*5 0*11 1\n"
GONE_TAKEN = [["P0 has taken /s", 11, 17], ["P0 has taken /s", 12, 13]]
GONE_LEVELS = [(5, "value 2"), (11, "value 1"), (12, "value 0"), (13, "value 1"), (15, "value 1"), (17, "gone")]

# Calls without an end: after ten steps, four in each loop of seven steps.
MANY = '''        .ORIG x3000
        LEA R0, SEM
        LD R1, CREATE
        AND R2, R2, #0
        TRAP x50        ; sem_open("/s", O_CREAT, 0) = 0
        LEA R0, QUEUE
        LD R1, CREATE
        ADD R1, R1, #2
        TRAP x40        ; mq_open("/q", O_RDWR | O_CREAT, NULL) = 0
        LD R2, SIZE
        AND R3, R3, #0
LOOP    LEA R1, ROOM
        TRAP x55        ; sem_post
        TRAP x43        ; mq_send
        TRAP x44        ; mq_receive
        AND R0, R0, #0
        TRAP x53        ; sem_wait
        BR LOOP
CREATE  .FILL x40
SIZE    .FILL 16
SEM     .STRINGZ "/s"
QUEUE   .STRINGZ "/q"
ROOM    .BLKW 16
        .END
'''


def visible(text):
    """A text as the page writes it: control characters, and those that turn its direction, by their numbers."""
    def number(found):
        code = ord(found[0])
        return f"\\x{code:02X}" if code < 0x100 else f"\\u{{{code:X}}}"
    return re.sub("[\0-\x08\n-\x1f\x7f-\x9f\u061c\u200b-\u200f\u2028-\u202e\u2060-\u2069\ufeff]", number, text)


@dataclass
class Line:
    """A line of a trace."""
    step: int
    process: int
    address: str
    what: str

    @property
    def origin(self):
        """The step of the send whose message it received."""
        found = re.search(r" ; (?:.*, )?from P\d+ at (\d+)(?:,|$)", self.what)
        return found and found[1]


def runs():
    """Of each run its name, the folder of its sources, the texts of sources made here, its programs, and its schedule."""
    for case in sorted((ROOT / "tests" / "cases" / "course").glob("*.case")):
        text = case.read_text()
        linked = re.search(r"ln -s examples/course/(\S+) here", text)
        if not linked:
            continue
        folder = COURSE / linked[1]
        for programs, name in re.findall(r"^\$ lc3lab step (.*?) < here/(\S+)\.schedule", text, re.M):
            yield f"{folder.name}/{name}", folder, {}, programs.split(), (folder / f"{name}.schedule").read_text()
    folder = ROOT / "examples"
    deadlock = (folder / "deadlock.schedule").read_text()
    yield "examples/deadlock", folder, {}, ["two-semaphores-1.obj", "two-semaphores-2.obj"], deadlock
    yield "examples/producer-consumer", folder, {}, ["producer.obj", "consumer.obj"], "1*99 0*99 1*99\n"
    yield "examples/sources", folder, {}, ["here/producer.asm", "here/consumer.asm"], "1*99 0*22 1*40\n"
    yield "made/names", None, {'<b>"é.asm': NAMES, "names.asm": NAMES}, ['<b>"é.obj', "names.obj"], "0*99 1*99\n"
    yield "made/refused", None, {"refused.asm": REFUSED}, ["refused.obj"] * 3, "0*99 1*99 2*99\n"
    hostile = {f"{name}.asm": HOSTILE for name in HOSTILE_NAMES}
    yield "made/hostile", None, hostile, [it.replace(".asm", ".obj") for it in hostile], "0*99 1*99 2*99\n"
    gone = {"gone.asm": GONE, "open.asm": GONE.replace("TRAP x53        ; sem_wait, of the first process alone", "HALT")}
    yield "made/gone", None, gone, ["gone.obj", "open.obj"], GONE_SCHEDULE
    pair = (folder / "two-semaphores-1.asm").read_text()
    circle = {f"{a}.asm": pair.replace('"/b"', f'"/{b}2"').replace('"/a"', f'"/{a}2"') for a, b in ("ab", "bc", "ca")}
    yield "made/circle", None, circle, ["a.obj", "b.obj", "c.obj"], "0*11 1*11 2*11 0*9 1*9 2*9\n"
    turns = " ".join(f"{p}*{n}" for n in (10, 7, 140, 140) for p in range(64)) + "\n"
    yield "made/many", None, {"many.asm": MANY}, ["many.obj"] * 64, turns
    yield "made/long", None, {"many.asm": MANY}, ["many.obj"] * 3, "0*300 1*300 2*300 0*20000 1*20\n"


class Run:
    """A run of a program in a folder of its own."""

    def __init__(self, program, folder, name, sources, texts, programs, schedule):
        self.program, self.folder, self.name, self.schedule = program, folder, name, schedule
        self.blocks = [[int(it) for it in (block + "*1").split("*")[:2]] for block in schedule.split()]
        self.is_long = sum(count for _, count in self.blocks) > 20_000
        for file, text in texts.items():
            (folder / file).write_bytes(text.encode())
        self.names = [it.replace("here/", f"{sources}/") for it in programs]
        self.count = len(self.names)
        self.sources = [str((sources or folder) / it.split("=")[0].replace(".obj", ".asm")) for it in self.names]
        self.listings = {}
        for source, name in zip(self.sources, self.names):
            if source not in self.listings:
                made = re.sub(r"^(.*/)?(.*)\.asm$", r"\2.obj", name.split("=")[0])
                self.listings[source] = self.call(["asm", source, made, "--list"])
        self.started = [set(re.findall(r"(\w+ \w+)", it)) for it in self.call(
            ["debug"] + self.names, "".join(f"regs {p}\n" for p in range(self.count))).splitlines()]

    def call(self, words, text=""):
        """What a command prints, each byte as the character of its number."""
        done = subprocess.run([self.program] + words, cwd=self.folder, input=text.encode(), capture_output=True,
                              timeout=SECONDS)
        if done.returncode or done.stderr:
            raise RuntimeError(f"lc3lab {words[0]}: {done.stderr.decode('latin-1').strip()}")
        return done.stdout.decode("latin-1")

    def trace(self, page, sources):
        """Writes the page, and tells what the command prints; its lines are kept."""
        named = [it for p in range(self.count) for it in ("--source", f"{p}={self.sources[p]}")] if sources else []
        printed = self.call(["trace", "--page", str(page)] + named + self.names, self.schedule)
        line = re.compile(r"^ *(\d+|end) P(\d+) +(x[0-9A-F]{4}) +\+\d+ (.*)$", re.M)
        place = re.compile(r"(?: ;|,) (?:at \w+(?:\+\d+)?(?:, line \d+)?|line \d+)$")  # in the source of the process
        found = [(*it, place.sub("", what)) for *it, what in line.findall(printed)]
        self.lines = [Line(int(n), int(p), address, what) for n, p, address, what in found if n != "end"]
        self.ends = [Line(0, int(p), address, what) for n, p, address, what in found if n == "end"]
        self.verdict = printed.split()[-1]
        return printed

    def plan(self):
        return " ".join(f"{p}*{count}" for p, count in self.blocks)

    def taken(self, number):
        """The process of a step of the schedule."""
        for process, count in self.blocks:
            if number <= count:
                return process
            number -= count
        raise RuntimeError("the page shows a step that the schedule doesn't have")

    def between(self, done, number):
        """The blocks of the steps behind the first `done` up to `number`."""
        blocks = []
        for process, count in self.blocks:
            here = min(count, number) - min(count, done)
            if here:
                blocks.append(f"{process}*{here}")
            done, number = max(done - count, 0), max(number - count, 0)
        return " ".join(blocks)

    def texts(self, moments):
        """What the debugger prints after each of these steps: procs, sems, mqs, and of who acted regs, fds, out and dis of
        the words around the PC. Each moment is a step and the registers that the page shows."""
        script, done = [], 0
        for number, registers in moments:
            if number > done:
                script.append(f"run {self.between(done, number)}")
            acts, done = self.taken(number) if number else 0, number
            pc = next((int(it.split()[1][1:], 16) for it in registers if it.startswith("PC")), 0x3000)
            first, end = max(pc - 3, 0), min(pc + 5, 0xFE00)
            asked = ["procs", "sems", "mqs", f"regs {acts}", f"fds {acts}", f"out {acts}",
                     f"dis {acts} x{first:04X} {end - first}"]
            script += [it for command in asked for it in ("mark", command)] + ["mark"]
        parts = self.call(["debug"] + self.names, "\n".join(script) + "\n").split(MARK)
        for at in range(len(moments)):
            yield parts[8 * at + 1:8 * at + 8]

    def listed(self, process, address):
        """The number, address and text of the line of the source that made the word at an address, or nothing."""
        rows = [it.split(" ", 3) for it in self.listings[self.sources[process]].splitlines() if it.startswith("x")]
        number = next((int(row[2]) for row in rows if row[0] == address), None)
        if number is None:
            return None
        first = next(row[0] for row in rows if int(row[2]) == number)
        text = visible(Path(self.folder, self.sources[process]).read_bytes().decode().split("\n")[number - 1].rstrip())
        return " ".join(f"{number} {first} {text}".split())

    def has_changed(self, process, address, here):
        """Whether the word there isn't that of the listing any more, by the line that the page shows."""
        rows = [it.split() for it in self.listings[self.sources[process]].splitlines() if it.startswith("x")]
        return not any(len(it.split()) > 2 and [address, it.split()[2]] in [row[:2] for row in rows] for it in here)
