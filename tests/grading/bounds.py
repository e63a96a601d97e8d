"""Programs that run for ever, print for ever, or have too many worlds end in a mark, within time and memory."""
import time

from .calling import HALT, example

ENDLESS = "     .ORIG x3000\nLOOP BR LOOP\n     .END\n"
# takes and gives a semaphore for ever: a round
ROUND = """
      .ORIG x3000
      LEA R0,NAME
      LD R1,CREATE
      ADD R2,R2,#1
      TRAP x50
LOOP  TRAP x53
      AND R0,R0,#0
      TRAP x55
      BR LOOP
NAME  .STRINGZ "/s"
CREATE .FILL x40
      .END
"""
# posts a semaphore for ever, and so comes to another world each time, up to its greatest value; with a text before each post,
# memory grows, too
POSTS = ROUND.replace("LOOP  TRAP x53", "LOOP  NOP").replace("NOP", "AND R0,R0,#0")
PRINTS = """
      .ORIG x3000
      LEA R0,NAME
      LD R1,CREATE
      TRAP x50
LOOP  LEA R0,TEXT
      PUTS
      AND R0,R0,#0
      TRAP x55
      BR LOOP
NAME  .STRINGZ "/s"
CREATE .FILL x40
TEXT  .BLKW 200 x41
      .END
""".replace(".BLKW 200 x41", '.STRINGZ "' + "A" * 200 + '"')
# a short text without end between two calls, and one of 60 megabytes
CHATTERS = "     .ORIG x3000\nLOOP LEA R0,TEXT\n     PUTS\n     BR LOOP\nTEXT .STRINGZ \"a line\\n\"\n     .END\n"
MUCH = """
      .ORIG x3000
      LD R4,TIMES
LOOP  LEA R0,TEXT
      PUTS
      ADD R4,R4,#-1
      BRp LOOP
      HALT
TIMES .FILL 24000
TEXT  .STRINGZ "%s"
      .END
""" % ("A" * 2500)
# eight megabytes of quotation marks, each of which takes two bytes as JSON and four in a trace, and then a call
QUOTES = MUCH.replace("A" * 2500, '\\"' * 2500).replace("24000", "3200").replace("      HALT", """
      LEA R0,NAME
      LD R1,CREATE
      AND R2,R2,#0
      TRAP x50
      HALT
NAME  .STRINGZ "/s"
CREATE .FILL x40""")
# eleven times something is done with a semaphore
ELEVEN_TIMES = """
      .ORIG x3000
      LEA R0,NAME
      LD R1,CREATE
      TRAP x50
      ADD R5,R0,#0
      LD R4,TIMES
LOOP  ADD R0,R5,#0
%s
      ADD R4,R4,#-1
      BRp LOOP
      HALT
NAME  .STRINGZ "/s"
CREATE .FILL x40
TIMES .FILL 11
YES   .FILL x79
NO    .FILL x6E
      .END
"""
# it is asked for, while another process posts it as often: each of 2,048 outputs is an end
ASKS = ELEVEN_TIMES % """
      TRAP x54
      ADD R0,R0,#0
      BRz GOT
      LD R0,NO
      OUT
      BR NEXT
GOT   LD R0,YES
      OUT
NEXT
"""
GIVES = ELEVEN_TIMES % "      TRAP x55"
MANY_ENDS = """
seconds = 20
[[run]]
programs = [{ asked = "a.asm", must-call = ["sem_open /s"] }, { given = "gives.asm" }]
"""
LONG_TASK = """
seconds = 20
[[run]]
name = "calls"
programs = [{ asked = "a.asm", must-call = ["sem_open /s"] }]
[[run]]
name = "no calls"
programs = [{ asked = "a.asm" }]
outputs = [{ each-line = '"*' }]
[[run]]
name = "another output"
programs = [{ asked = "a.asm" }]
outputs = [""]
"""
# an expression that tries more ways than anybody can wait for, after a run that is quick
SLOW_PATTERN = """
budget = 1
[[run]]
name = "quick"
programs = [{ asked = "a.asm" }]
[[run]]
name = "slow"
programs = [{ asked = "a.asm" }]
outputs = [{ each-line = "([a-z]+ ?)+" }]
[[run]]
name = "later"
programs = [{ asked = "a.asm" }]
outputs = [{ lines = ["a+!"] }]
"""
PRINTS_LETTERS = f'     .ORIG x3000\n     LEA R0,TEXT\n     PUTS\n     HALT\nTEXT .STRINGZ "{"a" * 60}!"\n     .END\n'
TASK = """
seconds = 20
worlds = {worlds}
memory = 64
[[run]]
programs = [{{ asked = "a.asm" }}, {{ given = "other.asm" }}]
"""


def look(check, grader):
    (grader.place / "other.asm").write_text(POSTS)
    small = grader.task(TASK.format(worlds=2000), "small.toml")
    large = grader.task(TASK.format(worlds=10_000_000), "large.toml")
    folders = {name: str(grader.folder(name, a__asm=text)) for name, text in
               {"endless": ENDLESS, "round": ROUND, "posts": POSTS, "prints": PRINTS, "halts": HALT, "chatters": CHATTERS,
                "much": MUCH}.items()}
    began = time.monotonic()
    found = grader.marks(small, folders.values())
    check(found[folders["endless"]] == ["incomplete"], f"a process without a call: {found}")
    check(found[folders["posts"]] == ["incomplete"], f"too many worlds: {found}")
    check(found[folders["prints"]] == ["incomplete"], f"too much output: {found}")
    check(found[folders["chatters"]] == ["incomplete"], f"a process that prints and makes no call: {found}")
    check(found[folders["much"]] in (["incomplete"], ["too long"]), f"60 megabytes of output: {found}")
    found = grader.marks(large, [folders["prints"], folders["posts"]])
    check(found[folders["prints"]] in (["incomplete"], ["too long"]), f"too much memory: {found}")
    # all worlds of the posts fit in there: at its greatest the value stays, which is a round
    check(found[folders["posts"]] in (["endless"], ["too long"]), f"a post that is refused for ever: {found}")
    check(time.monotonic() - began < 200, f"bounds: {time.monotonic() - began:.0f} seconds")
    look_at_seconds(check, grader, folders)
    look_at_length(check, grader)
    look_at_budget(check, grader, folders)
    (grader.place / "other.asm").write_text(HALT)
    found = grader.marks(small, [folders["round"], folders["halts"]])
    check(found == {folders["round"]: ["endless"], folders["halts"]: ["pass"]}, f"a round: {found}")


def look_at_length(check, grader):
    """What is too long to be traced is marked all the same."""
    folder, results = grader.folder("quotes", a__asm=QUOTES), grader.place / "results"
    printed, complained, status = grader.call("--results", results, grader.task(LONG_TASK, "long.toml"), folder)
    check(status == 0 and not complained, f"long output: status {status}: {complained}")
    said = [it for it in printed.splitlines() if it.startswith("  ") and it[2] != " "]
    check(said == ["  another output: wrong output"], f"long output: {said}")
    check(f"{folder}: fail: 2 of 3 points\n" in printed, f"long output: {printed[:200]}")
    pages = [it.read_bytes() for it in results.glob("quotes-*/*.html")]
    check(len(pages) == 2 and all(len(it) <= 4_000_000 and b"</html>" in it[-200:] for it in pages), f"{len(pages)} long pages")
    check(any(b"more than 4,000,000 bytes" in it for it in pages), "no page says that it was cut")


def look_at_budget(check, grader, folders):
    """All that is done for a folder has a budget together, the grader's own regular expressions included. The mark is kept."""
    task, results = grader.task(SLOW_PATTERN, "pattern.toml"), grader.place / "budget"
    folder, began = grader.folder("letters", a__asm=PRINTS_LETTERS), time.monotonic()
    printed, complained, status = grader.call("-j", "2", "--results", results, task, folder, folders["halts"])
    good = status == 0 and not complained and "all runs together take more than 1 seconds" in printed
    check(good and f"{folder}: fail: 1 of 3 points\n" in printed, f"a slow expression: status {status}: {printed}{complained}")
    # a line is printed as soon as it is there, not in the order of the folders
    check(printed.startswith(f"{folders['halts']}: "), f"behind a slow folder: {printed}")
    took, began = time.monotonic() - began, time.monotonic()
    again = grader.call("--results", results, task, folder)[0]
    check("all runs together" in again and time.monotonic() - began < max(3, took / 2), f"taken up: {again}")


def look_at_seconds(check, grader, folders):
    """Time that is up is a mark, which is kept."""
    text = TASK.format(worlds=10_000_000).replace("seconds = 20", "seconds = 1").replace("memory = 64", "memory = 4000")
    programs = ", ".join('{ given = "taker.asm" }' for _ in range(17))
    (grader.place / "taker.asm").write_text(example("course/5-deadlock/first-a.asm"))
    task = grader.task(text.replace('{ given = "other.asm" }', programs), "seconds.toml")
    found = grader.marks(task, [folders["halts"]], "--results", grader.place / "results")
    check(found == {folders["halts"]: ["too long"]}, f"too long: {found}")
    check(len(list((grader.place / "results/records").iterdir())) == 1, "a mark for want of time isn't kept")
    (grader.place / "gives.asm").write_text(GIVES)
    task = grader.task(MANY_ENDS, "many.toml")
    # what is asked of calls is asked once, however many ends there are
    printed = grader.call(task, grader.folder("asks", a__asm=ASKS))[0]
    check(": pass: 1 of 1 points\n" in printed, f"many ends: {printed}")
