"""What is written for other programs is as they ask, also with names and outputs that try to break it."""
import csv
import io
import json
from xml.etree import ElementTree

from . import formats
from .calling import TASKS, example
from .hostile import NAMES

TASK = TASKS / "3-lost-update.toml"
NOISE = """
      .ORIG x3000
      AND R0,R0,#0
      ADD R0,R0,#1
      OUT
      LEA R0,TEXT
      PUTS
      HALT
UNUSED .FILL 1 ; [[ATTACHMENT|/etc/passwd]]
TEXT  .STRINGZ "]]><x>&=\\"[[ATTACHMENT|/etc/passwd]]"
      .END
"""


def look(check, grader):
    wrong, right = example("course/3-lost-update/add.asm"), example("course/3-lost-update/add-locked.asm")
    folders = [grader.folder(name, add__asm=text) for name in NAMES for text in [right if name == NAMES[0] else wrong]]
    folders += [grader.folder("noise", add__asm=NOISE), grader.folder("none")]
    names = {it: grader.place / it for it in ("marks.xml", "marks.csv", "totals.csv")}
    printed, complained, status = grader.call("--junit", names["marks.xml"], "--csv", names["marks.csv"], "--results",
                                              grader.place / "results", "--totals", names["totals.csv"], "--", TASK, *folders)
    check(status == 0 and not complained, f"formats: status {status}: {complained}")
    for name, faults in ("marks.xml", formats.junit_faults), ("marks.csv", formats.csv_faults), ("totals.csv", formats.csv_faults):
        for fault in faults(names[name].read_bytes()):
            check(False, f"{name}: {fault}")
    look_at_marks(check, names, folders)
    look_at_gradescope(check, grader, folders)
    look_at_status(check, grader, folders)


def look_at_marks(check, names, folders):
    """Both have a line for each folder and run, and the same verdicts."""
    root = ElementTree.fromstring(names["marks.xml"].read_bytes())
    cases = [(it.get("classname"), it.get("name"), "pass" if it.find("failure") is None else it.find("failure").get("type"))
             for it in root.iter("testcase")]
    rows = list(csv.DictReader(io.StringIO(names["marks.csv"].read_bytes().decode(), newline="")))
    table = [(it["folder"].replace("'", ""), it["run"], it["verdict"]) for it in rows]
    check(cases == table and len(cases) == 3 * len(folders), f"the formats differ: {cases}, {table}")
    check(len({it[0] for it in cases}) == len(folders), "two folders have one name")
    failed = [it for it in rows if it["verdict"] not in ("pass", "no program")]
    pages = [it["page"].endswith(".html") and it["ends_page"].endswith(".ends.html") for it in failed]
    check(failed and all(pages) and all(it["schedule"] for it in failed), f"a page is missing: {failed}")
    # a plug-in sends the files that are named so, and a student has written such words, too
    check(names["marks.xml"].read_text().count("[[") == 2 * len(failed), "a student's words name a file to be sent")
    check("[ [ATTACHMENT|/etc/passwd]]" in names["marks.xml"].read_text(), "a student's words aren't told")
    attached = [it.text for it in root.iter("system-out")]
    wanted = [f"[[ATTACHMENT|{it['page']}]]\n[[ATTACHMENT|{it['ends_page']}]]" for it in failed]
    check(attached == wanted, f"attached: {attached}")
    check(all(float(it["seconds"]) >= 0 and int(it["megabytes"]) > 0 for it in rows if it["verdict"] != "no program"),
          f"what it took: {rows}")
    totals = list(csv.DictReader(io.StringIO(names["totals.csv"].read_bytes().decode(), newline="")))
    check(totals == [{it: row[it] for it in totals[0]} for row in rows[::3]], f"the totals differ: {totals}")
    equal = {len(it["equal"].split(", ")) if it["equal"] else 0 for it in totals}
    check(equal == {0, len(NAMES) - 2}, f"equal sources: {totals}")
    own = [sum(float(it["run_points"]) for it in rows[place:place + 3]) for place in range(0, len(rows), 3)]
    check(own == [float(it["points"]) for it in totals], f"points of runs: {own}, {totals}")
    # without a lock the adder is right where it is alone
    for place in range(0, len(rows), 3):
        passed = str(sum(it["verdict"] == "pass" for it in rows[place:place + 3]))
        told = {(it["points"], it["of"]) for it in rows[place:place + 3]}
        check(told == {(passed, "3")} and passed in "013", f"points: {rows[place:place + 3]}")


def look_at_gradescope(check, grader, folders):
    target = grader.place / "results.json"
    text = TASK.read_text().replace("[[run]]", '[[run]]\npoints = 2.5\nvisibility = "after_due_date"', 1)
    task = grader.task(text.replace("given/", f"{TASKS}/given/"))
    for place, points in (0, [2.5, 1, 1]), (1, [0, 0, 1]), (-1, [0, 0, 0]):
        _, complained, status = grader.call("--gradescope", target, "--", task, folders[place])
        check(status == 0, f"gradescope: status {status}: {complained}")
        for fault in formats.gradescope_faults(target.read_bytes()):
            check(False, f"results.json: {fault}")
        tests = json.loads(target.read_bytes())["tests"]
        check([it["score"] for it in tests] == points and [it["max_score"] for it in tests] == [2.5, 1, 1], f"scores: {tests}")
        check([it["visibility"] for it in tests] == ["after_due_date", "visible", "visible"], f"visibility: {tests}")
    _, complained, status = grader.call("--gradescope", target, "--", task, *folders[:2])
    check(status == 2 and "--gradescope is for one folder" in complained, f"gradescope of two: status {status}: {complained}")


def marks_in(grader, folders):
    """The mark of each folder, from the table."""
    table = grader.place / "marks-of-all.csv"
    grader.call("--brief", "--csv", table, "--", TASK, *folders)
    rows = csv.DictReader(io.StringIO(table.read_bytes().decode("utf-8", "replace"), newline=""))
    return {it["folder"]: it["mark"] for it in rows}.values()


def look_at_status(check, grader, folders):
    for place, status in (0, 0), (1, 1):
        check(grader.call("--must-pass", "--", TASK, folders[place])[2] == status, f"--must-pass: not {status}")
    *brief, last = grader.call("--brief", "--", TASK, *folders)[0].splitlines()
    check(len(brief) == len(folders), f"--brief: {brief}")
    passed = sum(it == "pass" for it in marks_in(grader, folders))
    check(last == f"{passed} of {len(folders)} pass", f"--brief: {last}, and the table has {passed}")
    no_lab = grader.place / "no"
    no_lab.write_text("#!/bin/sh\n[ \"$1\" != explore ] || [ \"$2\" = --help ] || { echo '{}'; exit 0; }\n"
                      "exec \"$REAL\" \"$@\"\n")
    no_lab.chmod(0o755)
    # the program's answer isn't as the schema says: that is no fault of the student
    (grader.place / "real").symlink_to(grader.environment["LC3LAB"])
    no_lab.write_text(no_lab.read_text().replace("$REAL", str(grader.place / "real")))
    printed, _, status = grader.call("--junit", grader.place / "marks.xml", "--", TASK, folders[0], LC3LAB=str(no_lab))
    check(status == 1 and printed.splitlines()[0].endswith(": no mark"), f"no mark: status {status}: {printed}")
    # and neither is an assembler that crashes
    no_lab.write_text(f"#!/bin/sh\n[ \"$2\" != --explain ] || exit 3\nexec {grader.place / 'real'} \"$@\"\n")
    printed, _, status = grader.call("--", TASK, folders[0], LC3LAB=str(no_lab))
    good = status == 1 and printed.splitlines()[0].endswith(": no mark") and "    asm ended with status 3\n" in printed
    check(good, f"no assembler: status {status}: {printed}")
    faults = list(formats.junit_faults((grader.place / "marks.xml").read_bytes()))
    check(not faults, f"no mark: {faults}")
