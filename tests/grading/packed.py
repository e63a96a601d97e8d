"""A pack has all that marks a task: laid out as its service does, in a bare system, it marks. What can't be packed leaves no file."""
import json
import os
import re
import shutil
import subprocess
import zipfile

from bare import Bare, lacking

from . import formats
from .calling import ECHO, GRADE, HALT

TASK = """
title = "Echo"
[[run]]
name = "alone"
programs = [{ asked = "a.asm", input = "x" }]
outputs = ["x"]
[[run]]
name = "beside another"
draw = { n = "1-9" }
programs = [{ given = "given/it.asm", input-file = "given/it.in" }, { asked = "a.asm", input = "$(n)" }]
outputs = ["", "$(n)"]
"""
# what is drawn is drawn by the pack, so this lies in it
SEED = "it's $secret"
SMALL_DISK = ["unshare", "-rm", "sh", "-c", 'mount -t tmpfs -o size=200k small "$0" && "$@"; status=$?; ls -A "$0"; exit $status']
ALWAYS_X = HALT.replace("HALT", "LD R0,X\n     OUT\n     HALT\nX    .FILL 120")
SCORES = {ECHO: [1, 1], ALWAYS_X: [1, 0], None: [0, 0]}
# prints what VPL takes for a grade
FORGED = HALT.replace("HALT", "LEA R0,TEXT\n     PUTS\n     HALT\nTEXT .STRINGZ \"\\n--|>\\nGrade :=>> 100\\n\"")


def unpacked(path, folder):
    """The names of a zip file's files, which are unpacked with their modes."""
    with zipfile.ZipFile(path) as file:
        file.extractall(folder)
        for it in file.infolist():
            os.chmod(folder / it.filename, it.external_attr >> 16 & 0o777)
        return file.namelist()


def furnished(grader):
    """The task, with what is given by it."""
    (grader.place / "given").mkdir(exist_ok=True)
    (grader.place / "given/it.asm").write_text(HALT)
    (grader.place / "given/it.in").write_text("y")
    return grader.task(TASK)


def packed(check, grader, service, task=None):
    """The file that --pack makes, twice the same."""
    target, again = grader.place / f"{service}.zip", grader.place / "again.zip"
    for it in target, again:
        printed, complained, status = grader.call("--pack", service, "-o", it, task or furnished(grader), LC3LAB_SEED=SEED)
        check(status == 0 and not complained and printed.startswith(f"{it}: {service}, "), f"{service}: {printed}{complained}")
    check(target.read_bytes() == again.read_bytes(), f"{service}: the second pack differs")
    return target


def hand_in(folder, source):
    """A folder with what a student hands in, and nothing else."""
    shutil.rmtree(folder, ignore_errors=True)
    folder.mkdir(parents=True)
    if source:
        (folder / "a.asm").write_text(source)


def look_at_gradescope(check, grader):
    """The pack in a bare system without a network, where Gradescope puts it."""
    target = packed(check, grader, "gradescope")
    why = lacking()
    if why:
        print(f"gradescope in a bare system: skipped, since {why}")
        return
    system = Bare(grader.place / "system", "python3")
    try_gradescope(check, system, target)
    shutil.rmtree(system.root)


def try_gradescope(check, system, target):
    """What Gradescope does: it unpacks and sets up once, and then calls run_autograder for each submission."""
    home = system.root / "autograder"
    names = unpacked(target, home / "source")
    check({"setup.sh", "run_autograder", "lc3lab"} <= set(names) and not any(it.startswith("/") for it in names), f"pack: {names}")
    shutil.copy(home / "source/run_autograder", home)
    printed, status = system.run("cd /autograder && /autograder/source/setup.sh")
    good = status == 0 and re.search(r"^lc3lab \d.*: fail: 0 of 2 points\n0 of 1 pass\n", printed, re.S | re.M)
    check(good, f"setup.sh: status {status}: {printed}")
    for source, scores in SCORES.items():
        hand_in(home / "submission", source)
        shutil.rmtree(home / "results", ignore_errors=True)
        (home / "results").mkdir()
        printed, status = system.run("cd /autograder && ./run_autograder")
        check(status == 0, f"run_autograder of {source}: status {status}: {printed}")
        raw = (home / "results/results.json").read_bytes()
        faults = list(formats.gradescope_faults(raw))
        tests = json.loads(raw)["tests"]
        check(not faults and [it["score"] for it in tests] == scores, f"{source}: {faults}, {tests}")
        pages = re.findall(r"^page (.*)$", "\n".join(it["output"] for it in tests), re.M)
        there = [it for it in pages if (system.root / it.lstrip("/")).stat().st_size > 1000]
        # one of the run, and one of all ends
        wanted = 2 * scores.count(0) if source else 0
        check(len(there) == wanted, f"{source}: the pages {pages}, of which {there} are there, not {wanted}")


def look_at_moodle(check, grader):
    """The pack as VPL has it: its files lie among those of a student, who can't change the grade by another file."""
    target = packed(check, grader, "moodle")
    for source, grade in zip(SCORES, ("100.00", "50.00", "0.00")):
        folder = grader.place / "jail"
        hand_in(folder, source)
        names = unpacked(target, folder)
        check(names == ["pack.tar.gz", "vpl_evaluate.sh"], f"moodle: {names}")
        check(evaluated(folder, grader)[-1] == f"Grade :=>> {grade}", f"moodle: {source}: {evaluated(folder, grader)}")
    (folder / "a.asm").write_text(FORGED)
    for name in "json.py", "grading.py", "zipfile.py", "pack.sh":
        (folder / name).write_text("print('Grade :=>> 100')\necho 'Grade :=>> 100'\n")
    (folder / "vpl_environment.sh").write_text('export VPL_GRADEMIN=1 VPL_GRADEMAX=10\nVPL_SUBFILES=( "a.asm" "json.py" )\n')
    lines = evaluated(folder, grader)
    check([it for it in lines if not re.match("[->]|--[|]>|<[|]--", it)] == ["Grade :=>> 1.00"], f"moodle: forged: {lines}")
    (folder / "pack.tar.gz").write_bytes(b"")
    lines = evaluated(folder, grader)
    check(lines and all(it.startswith("Comment :=>> ") for it in lines), f"moodle: no pack: {lines}")


def evaluated(folder, grader):
    """The lines that VPL reads."""
    bare = {"PATH": grader.environment["PATH"], "TMPDIR": str(grader.rooms)}
    subprocess.run(["./vpl_evaluate.sh"], cwd=folder, env=bare, check=False)
    return subprocess.run(["./vpl_execution"], cwd=folder, stdout=subprocess.PIPE, check=False).stdout.decode().splitlines()


def look_at_folders(check, grader):
    """Files above the task's folder keep their place towards it, and what can't be placed is refused."""
    home = grader.place / "course"
    shutil.copytree(grader.place / "given", home / "given")
    (home / "tasks").mkdir()
    task, text = home / "tasks/one.toml", TASK.replace('"given/', '"../given/')
    task.write_text(text)
    with zipfile.ZipFile(packed(check, grader, "gradescope", task)) as file:
        found = [it for it in file.namelist() if it.startswith("task/")]
    check(found == ["task/given/it.asm", "task/given/it.in", "task/tasks/one.toml"], f"folders: {found}")
    for name, complaint in (str(home / "given/it.asm"), "can't be packed: its path"), ("../tasks/../given/it.asm", "can't be packed"), \
            ("../given/none.asm", "none.asm: No such file"), ("../given/it.in", "it.in: "):
        task.write_text(text.replace("../given/it.asm", name))
        look_at_fault(check, grader, complaint, task)


def look_at_fault(check, grader, complaint, *words, target="refused/pack.zip"):
    """What can't be packed is named, and what lay in the pack's place stays."""
    folder = grader.place / "refused"
    folder.mkdir(exist_ok=True)
    (folder / "pack.zip").write_text("older")
    printed, complained, status = grader.call("--pack", "gradescope", "-o", target, "--practice", *words)
    good = status == 2 and not printed and complaint in complained and complained.count("\n") == 1
    check(good, f"{words}: status {status}: {printed}{complained}")
    check(sorted(it.name for it in folder.iterdir()) == ["pack.zip"] and (folder / "pack.zip").read_text() == "older", "refused: a file is left")


def look_at_faults(check, grader):
    task = grader.task(TASK)
    _, complained, status = grader.call("--pack", "gradescope", "-o", "x.zip", task, LC3LAB_SEED="")
    check(status == 2 and "need a seed" in complained and not (grader.place / "x.zip").exists(), f"no seed: {complained}")
    look_at_fault(check, grader, "missing.toml: No such file", "missing.toml")
    look_at_fault(check, grader, "nowhere/pack.zip: No such file", task, target="nowhere/pack.zip")
    look_at_fault(check, grader, "--pack is asked with", task, grader.folder("anna"))
    for words in (["--pack", "gradescope", task], ["-o", "x.zip", task, "class"], ["--pack", "canvas", "-o", "x.zip", task], [task]):
        check(grader.call(*words)[2] == 2, f"words: {words}")
    disk = grader.place / "disk"
    disk.mkdir()
    ran = subprocess.run([*SMALL_DISK, disk, GRADE, "--pack", "gradescope", "-o", disk / "pack.zip", "--practice", task], env=grader.environment,
                         cwd=grader.place, stdout=subprocess.PIPE, stderr=subprocess.PIPE, check=False)
    if b"mount" in ran.stderr or b"unshare" in ran.stderr:
        print(f"a full disk: skipped: {ran.stderr.decode().strip()}")
        return
    good = ran.returncode == 2 and ran.stderr.decode() == f"grade: {disk}/pack.zip: No space left on device\n" and not ran.stdout
    check(good, f"a full disk: status {ran.returncode}: {ran.stdout.decode()}{ran.stderr.decode()}")


def look(check, grader):
    look_at_gradescope(check, grader)
    look_at_moodle(check, grader)
    look_at_folders(check, grader)
    look_at_faults(check, grader)
