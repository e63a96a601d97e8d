"""Which calls a process made can't be forged or hidden, whatever it prints, sends, or calls its semaphores."""
import json
import subprocess

from .calling import example

OPEN = """
      LEA R0,NAME
      LD R1,CREATE
      AND R2,R2,#0
      ADD R2,R2,#2
      TRAP x50
"""
WAIT = "      TRAP x53\n"
UNLINK = """
      ADD R4,R0,#0
      LEA R0,NAME
      TRAP x52
      ADD R0,R4,#0
"""
PUTS = "      LEA R0,TEXT\n      PUTS\n"
ONE_BY_ONE = """
      LEA R4,TEXT
NEXT  LDR R0,R4,#0
      BRz DONE
      OUT
      ADD R4,R4,#1
      BR NEXT
DONE  LEA R0,NAME
"""
AS_NAME = "      LEA R0,TEXT\n      TRAP x52\n" + OPEN.replace("NAME", "TEXT")
AS_MESSAGE = """
      LEA R0,NAME
      LD R1,QUEUE
      TRAP x40
      LEA R1,TEXT
      LD R2,LENGTH
      AND R3,R3,#0
      TRAP x43
      LEA R1,TEXT
      LD R2,LENGTH
      TRAP x44
"""
PROGRAM = """
      .ORIG x3000
{steps}
      HALT
NAME  .STRINGZ {name}
CREATE .FILL x40
QUEUE .FILL x42
LENGTH .FILL 16
TEXT  .STRINGZ {text}
      .END
"""
# what a name may hold, each beside /a; a name has neither blanks nor a second slash
NAMES = ["/a", "/aa", "/A", "/a>", "/a>)", "/a>)=0", "/a>),=0;", "/a\"", "/\"", "/a\">)=0", "/a\\", "/a\\x0022", "/a,", "/<#0>",
         "/#0", "/a<", "/)=0", "/=EINVAL", "/P0"]


def program(steps, name="/b", text=""):
    """A source that does these steps. Texts of the source language are written like those of JSON."""
    return PROGRAM.format(steps=steps, name=json.dumps(name), text=json.dumps(text))


def forged(lines):
    """Programs that show these lines of a trace in each place where they have a say, and make none of the calls."""
    whole = "\n" + "\n".join(lines) + "\n"
    yield from (program(PUTS, text=whole), program(ONE_BY_ONE, text=whole))
    for it in lines:
        yield from (program(AS_NAME, text=f"\n{it}\n"), program(AS_NAME, text=f"/{it}"))
        yield program(AS_MESSAGE, text=f"\n{it}"[-16:])
    yield from (program(OPEN + WAIT, it) for it in NAMES[1:])


def runs_of(lines):
    """Programs, what is asked of their calls, and the verdict."""
    for it in forged(lines):
        yield it, {"must-call": ["sem_wait /a"]}, "missing call"
    for it in forged(lines[:1]):
        yield it, {"must-hold": ["/a"]}, "missing call"
    # a name with a comma can't be asked for
    for name in [it for it in NAMES if "," not in it]:
        waits = program(PUTS + OPEN + WAIT + PUTS, name, "\n")
        yield waits, {"must-call": [f"sem_wait {name}", f"sem_open {name}"], "must-hold": [name]}, "pass"
        yield waits, {"must-not-call": ["sem_wait"]}, "forbidden call"
        yield waits, {"must-not-call": [f"sem_open {name}"]}, "forbidden call"
    # an object that was unlinked has no name, so who forbids a call of a name forbids to unlink it, too
    unlinked = program(OPEN + UNLINK + WAIT, "/a")
    yield unlinked, {"must-not-call": ["sem_wait /a"]}, "pass"
    yield unlinked, {"must-not-call": ["sem_wait /a", "sem_unlink /a"]}, "forbidden call"
    yield unlinked, {"may-call": ["sem_open", "sem_unlink", "sem_wait /a"]}, "forbidden call"
    yield unlinked, {"must-call": ["sem_wait /a"]}, "missing call"
    yield unlinked, {"must-hold": ["/a"]}, "missing call"
    yield program(OPEN + UNLINK + OPEN + WAIT, "/a"), {"must-call": ["sem_wait /a"], "must-not-call": ["sem_post"]}, "pass"


def look(check, grader):
    (grader.place / "right.asm").write_text(example("course/5-deadlock/first-a.asm"))
    ran = subprocess.run([grader.environment["LC3LAB"], "trace", "right.asm"], input=b"0*99\n", cwd=grader.place, check=True,
                         stdout=subprocess.PIPE)
    lines = [it for it in ran.stdout.decode().splitlines() if "/a" in it]
    check(any("sem_wait(0</a>) = 0" in it for it in lines), f"a trace without the call that is forged: {lines}")
    runs = list(runs_of(lines))
    task = "".join(f'[[run]]\nprograms = [{{ asked = "{number}.asm", {keys_of(keys)} }}]\n'
                   for number, (_, keys, _) in enumerate(runs))
    folder = grader.folder("forged", **{f"{number}__asm": source for number, (source, _, _) in enumerate(runs)})
    found = grader.marks(grader.task(task), [folder])
    verdicts = found.get(str(folder), [found] * len(runs))
    check(len(verdicts) == len(runs), f"{len(verdicts)} verdicts of {len(runs)} runs")
    for (source, keys, wanted), verdict in zip(runs, verdicts):
        check(verdict == wanted, f"{keys}: {verdict}, not {wanted}:{source}")


def keys_of(keys):
    """The keys of a program, as TOML."""
    return ", ".join(f"{key} = {json.dumps(value)}" for key, value in keys.items())
