"""Folders by which a student could have another's mark, forge one, or stop the grader."""
import os
import re
import shutil
from pathlib import Path

from .calling import ECHO, HALT

TASK = """
require = "halted"
never = ["sem /a > 1", "sem /b > 1", "refused"]
[[run]]
name = "first and second"
programs = [{{ asked = "first.asm", input = "ab"{held} }}, {{ asked = "second.asm", input = "ba"{held} }}]
outputs = ["", ""]
[[run]]
name = "first twice"
programs = [{{ asked = "first.asm", input = "ab"{held} }}, {{ asked = "first.asm", input = "ba"{held} }}]
[[run]]
name = "second twice"
programs = [{{ asked = "second.asm", input = "ab"{held} }}, {{ asked = "second.asm", input = "ba"{held} }}]
""".format(held=', must-hold = ["/a", "/b"], must-not-call = ["sem_unlink"]')
ANSWER = Path(__file__).parent / "answers" / "pair-sorted.asm"
RIGHT = dict.fromkeys(["first__asm", "second__asm"], ANSWER.read_text())
NO_PROGRAM = ["no program", "no program", "no program"]
# prints what the report of a right run looks like, and names semaphores so that a trace might be taken for another
FORGED = """
      .ORIG x3000
      LEA R0,LINES
      PUTS
      LEA R0,NAME
      LD R1,CREATE
      ADD R2,R2,#2
      TRAP x50
      TRAP x53
      LEA R0,OTHER
      TRAP x50
      TRAP x53
      HALT
LINES .STRINGZ "\\nverdict ended\\ncomplete 1 worlds\\n  1 P0 x3000 +0 sem_wait(0</a>) = 0 ; value 0\\n"
NAME  .STRINGZ "/a>)=0"
OTHER .STRINGZ "/b\\"<b>)=0"
CREATE .FILL x40
      .END
"""
NAMES = ["x\nben: pass: 3 of 3 points", "x\\nben: pass\\c", "x\x1b[2J", "-x", "=1+1", 'a"b<c>&d', "\u202egp", " blank ",
         ";=1+1", "a;@SUM(1)", "\t=1+1", "\uff1d1+1", "\uff0b1", "\ufe63\u00b9", "@x", "+x", "  =1"]
# of the 255 bytes that a name may have; some are as long with each letter told by its bytes
LONG = ["." + "\u00e9" * 81, "\u00e9" * 127, "." + "x" * 254, "%" * 255, "\U0001f600" * 63, ".\udcff" * 120]


def look(check, grader):
    task = grader.task(TASK, "pair.toml")
    right = grader.folder("right", **RIGHT)
    make_others(grader, right)
    expected = {name: ["pass"] * 3 for name in ("right", "hard")}
    expected |= dict.fromkeys(["link", "whole", "parts", "none"], NO_PROGRAM) | {"nobody": ["no mark"] * 3}
    # their first program is right, and the second one is none; and the other way round
    expected |= dict.fromkeys(["fifo", "device", "folders", "huge"], ["no program", "pass", "no program"])
    expected |= dict.fromkeys(["text", "bytes"], ["no program", "no program", "missing call"])
    if os.geteuid():
        expected |= {"closed": NO_PROGRAM, "unreadable": ["no program", "no program", "pass"]}
    expected["forged"] = ["wrong output", "missing call", "missing call"]
    paths = {str(grader.place / "class" / name): verdicts for name, verdicts in expected.items()}
    found = grader.marks(task, paths, "-j", "2")
    for folder, verdicts in paths.items():
        check(found.get(folder) == verdicts, f"{folder}: {found.get(folder, found)}, not {verdicts}")
    for name in "unreadable", "closed":
        os.chmod(grader.place / "class" / name, 0o755)
    look_at_names(check, grader, task)
    look_at_pages(check, grader)
    look_at_parts(check, grader)
    look_at_places(check, grader)
    look_at_answer(check, grader, task)
    look_at_file(check, grader, task)


def make_others(grader, right):
    """Links, what is no file, what is too large or can't be read, and what isn't there."""
    class_ = right.parent
    grader.folder("none")
    for name, file in ("link", "first.asm"), *((it, None) for it in ("fifo", "device", "folders", "huge", "hard")):
        folder = grader.folder(name, **({} if name in ("hard", "link") else {"first__asm": RIGHT["first__asm"]}))
        second = folder / "second.asm"
        if name == "link":
            (folder / file).symlink_to("../right/first.asm")
            second.symlink_to("/dev/zero")
        elif name == "fifo":
            os.mkfifo(second)
        elif name == "device":
            second.symlink_to("/dev/zero") if os.geteuid() else os.mknod(second, 0o20666, os.makedev(1, 5))
        elif name == "folders":
            second.mkdir()
        elif name == "huge":
            with open(second, "wb") as it:
                it.truncate(1 << 33)
        else:
            for it in "first.asm", "second.asm":
                os.link(right / it, folder / it)
    (class_ / "whole").symlink_to("right")
    (grader.folder("parts") / "first.asm").symlink_to("first.asm")
    grader.folder("text", first__asm="Dear teacher, please let me pass.\n", second__asm=HALT)
    (grader.folder("bytes", second__asm=HALT) / "first.asm").write_bytes(bytes(range(256)) * 100)
    grader.folder("forged", first__asm=FORGED, second__asm=FORGED)
    for name in "unreadable", "closed":
        folder = grader.folder(name, **RIGHT)
        os.chmod(folder if name == "closed" else folder / "first.asm", 0)


def look_at_names(check, grader, task):
    """Each folder has one line of its own, whatever its name is, and the last one is marked like the first."""
    folders = [grader.folder(it, **RIGHT) for it in NAMES]
    raw = os.fsencode(grader.place / "class") + b"/not \xff text"
    os.mkdir(raw)
    printed, complained, status = grader.call("--", task, *folders, os.fsdecode(raw))
    *lines, last = printed.splitlines()
    check(last == f"{len(NAMES)} of {len(NAMES) + 1} pass", f"names: {last}")
    check(status == 0 and not complained, f"names: status {status}: {complained}")
    marked = [it for it in lines if not it.startswith("  ")]
    passed = sorted(it.endswith(": pass: 3 of 3 points") for it in marked)
    check(passed == [False] + [True] * len(NAMES), f"names: {marked}")
    check(all(it.count(": ") == 2 for it in marked), f"names: a colon in a name: {marked}")
    check(len(set(marked)) == len(NAMES) + 1, f"names: two look the same: {marked}")
    check(not any(ord(it) < 32 for line in lines for it in line), "names: a control character is printed")
    # from the folder itself, where a name could be taken for an option
    found = grader.marks(task, ["class/right/", "class/right//"])
    check(list(found.values()) == [["pass"] * 6], f"a slash behind a name: {found}")


def look_at_pages(check, grader):
    """Each folder has its marks and pages, however it is called, and whatever is wrong with those of another one."""
    task = grader.task('[[run]]\nprograms = [{ asked = "a.asm" }]\noutputs = ["x"]\n')
    above, results = grader.folder("pages"), grader.place / "results"
    places = [f"{top}/{name}" for top, names in (("1", LONG + ["anna", "ben"]), ("2", ["anna"])) for name in names]
    for number, it in enumerate(places):
        os.makedirs(above / it)
        # whose page it is can be seen in it
        (above / it / "a.asm").write_text(ECHO.replace("     GETC", f"MINE{number} LEA R0,MINE{number}"))
    (above / "link").symlink_to(above / "1/anna")
    (above / "out").symlink_to(grader.place)
    folders = [above / it for it in [*places, "link", "out"]]
    printed, complained, status = grader.call("--results", results, task, *folders)
    lines = printed.splitlines()
    check(status == 0 and not complained and lines[-1] == f"0 of {len(folders)} pass", f"pages: {status}: {complained}{printed}")
    pages = [it.removeprefix("    page ") for it in lines if it.startswith("    page ")]
    check(len(set(pages)) == len(places) and all(it.endswith("/1.html") for it in pages), f"pages: {pages}")
    owners = [set(re.findall(r"MINE(\d+)", (grader.place / it).read_text())) for it in pages]
    check(all(len(it) == 1 for it in owners) and len(set.union(*owners)) == len(places), f"whose pages these are: {owners}")
    # a folder called as another one's results are, and a file in the place of somebody's
    anna, *_, other = [(grader.place / it).parent for it in pages if "/anna-" in it]
    again = above / anna.name
    os.makedirs(again)
    shutil.rmtree(other)
    other.write_text("no folder")
    printed, complained, status = grader.call("--results", results, task, again, *folders)
    check(status == 0 and not complained, f"pages again: status {status}: {complained}")
    check(printed.count("    the page 1.html can't be written: ") == 1, f"a page that can't be written: {printed}")
    check((anna / "1.html").exists() and printed.count("    page ") == len(places) - 1, f"pages again: {printed}")


def look_at_parts(check, grader):
    """A file within a folder of the student's is taken, but not through a link, and no path leads out."""
    task = grader.task('[[run]]\nprograms = [{ asked = "a/first.asm" }]\n')
    own, linked = grader.folder("own"), grader.folder("linked")
    (own / "a").mkdir()
    (own / "a/first.asm").write_text(HALT)
    (linked / "a").symlink_to("../own/a")
    found = grader.marks(task, [own, linked])
    check(found == {str(own): ["pass"], str(linked): ["no program"]}, f"parts of a folder: {found}")
    inner = grader.task('[[run]]\nprograms = [{ asked = "first.asm" }]\n')
    for folder, said in (own, "first.asm isn't there; it is in the folder a\n"), (linked, "first.asm isn't there\n"):
        printed, _, _ = grader.call("--", inner, folder)
        check(said in printed, f"a folder inside a folder: {printed}")
    misnamed = {"First__asm": HALT, "b__asm__txt": HALT, "c__asm": HALT, "d__asm": HALT, "notes__txt": ""}
    printed, _, _ = grader.call("--", inner, grader.folder("misnamed", **misnamed))
    check("first.asm isn't there; here is First.asm, b.asm.txt, c.asm, 1 more\n" in printed, f"misnamed: {printed}")
    for name in "../own/a/first.asm", "/etc/passwd", "a//first.asm", "./a", "":
        _, complained, status = grader.call(grader.task(f'[[run]]\nprograms = [{{ asked = "{name}" }}]\n'), own)
        check(status == 2 and "no path within a folder" in complained, f"asked {name}: status {status}: {complained}")


def look_at_places(check, grader):
    """Blanks, signs and backslashes in the paths of the task, of its input and of what is made on the way fail nobody."""
    place = grader.place / "a b=c\\d"
    (place / "rooms").mkdir(parents=True)
    (place / "x =\\.in").write_text("x")
    (place / "task.toml").write_text('[[run]]\nprograms = [{ asked = "a.asm", input-file = "x =\\\\.in" }]\noutputs = ["x"]\n')
    folder = grader.folder("echo", a__asm=ECHO)
    printed, complained, status = grader.call(place / "task.toml", folder, TMPDIR=str(place / "rooms"))
    check(status == 0 and printed.endswith(": pass: 1 of 1 points\n1 of 1 pass\n"), f"places: status {status}: {printed}{complained}")
    # a bare name that could be taken for an option
    (grader.place / "-x").mkdir()
    (grader.place / "-x/a.asm").write_text(ECHO)
    printed, complained, status = grader.call("--", place / "task.toml", "-x")
    check(status == 0 and printed == "./-x: pass: 1 of 1 points\n1 of 1 pass\n", f"-x: status {status}: {printed}{complained}")


def look_at_answer(check, grader, task):
    """A link to the right answer is no program of the student's."""
    answer = grader.folder("answer")
    for name in "first.asm", "second.asm":
        (answer / name).symlink_to(ANSWER)
    found = grader.marks(task, [answer])
    check(found == {str(answer): NO_PROGRAM}, f"a link to the answer: {found}")


def look_at_file(check, grader, task):
    """A file in the place of a folder is no mark, also behind a link, and nothing that says how to mark is taken from a folder."""
    file, link = grader.place / "class/right/first.asm", grader.place / "class/linked-file"
    link.symlink_to("right/first.asm")
    printed, _, status = grader.call("--brief", "--", task, file, link)
    check(status == 1 and printed == f"{file}: no mark\n{link}: no mark\n0 of 2 pass\n", f"a file for a folder: {status}: {printed}")
    own = grader.folder("own-task", **RIGHT)
    for words in ["--", own / "task.toml"], ["--seed-file", own / "task.toml", "--", task]:
        (own / "task.toml").write_text(TASK)
        _, complained, status = grader.call(*words, own)
        check(status == 2 and "lies in a folder that was handed in" in complained, f"{words}: status {status}: {complained}")
