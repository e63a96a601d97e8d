"""Parts of a class that are marked apart make the marks of the whole."""
import os
import shutil
import subprocess

from .calling import EXAMPLES, GRADE, HALT, TASKS

TASK = TASKS / "1-hello.toml"
SPREAD = EXAMPLES / "autograder/spread"


def look(check, grader):
    folders = [grader.folder(f"student-{it}", hello__asm=f"; {it}\n{HALT}") for it in range(7)]
    results = grader.place / "results"
    lines = []
    for part in range(1, 4):
        printed, complained, status = grader.call("--brief", "--part", f"{part}/3", "--results", results, TASK, *folders)
        check(status == 0, f"part {part}: status {status}: {complained}")
        lines += printed.splitlines()[:-1]
        pending, _, status = grader.call("--pending", "--results", results, TASK, *folders)
        left = [it for place, it in enumerate(map(str, folders)) if place % 3 >= part]
        good = status == 0 and pending == "".join(f"{it}\0" for it in left)
        check(good, f"pending after part {part}: status {status}: {pending!r}")
    *whole, last = grader.call("--brief", TASK, *folders)[0].splitlines()
    whole.sort()
    check(last == "0 of 7 pass", f"the whole: {last}")
    check(sorted(lines) == whole and len(whole) == 7, f"parts: {lines}, {whole}")
    check(len(list((results / "records").glob("*.json"))) == 7, "the parts keep not all marks")
    look_at_array(check, grader, folders, whole)
    look_at_ssh(check, grader, whole)


def look_at_array(check, grader, folders, whole):
    """The jobs of an array, run here one behind the other as Slurm would run them."""
    results, seed = grader.place / "array", grader.place / "seed"
    seed.write_text("a b\n")
    for job in "1", "2":
        given = grader.environment | {"SLURM_ARRAY_TASK_ID": job, "SLURM_ARRAY_TASK_COUNT": "2", "SLURM_CPUS_PER_TASK": "2",
                                        "GRADE_SEED_FILE": str(seed), "LC3LAB_SEED": "another"}
        ran = subprocess.run(["sh", SPREAD / "array.sbatch", GRADE, results, TASK, folders[0].parent], env=given,
                             stdout=subprocess.PIPE, stderr=subprocess.PIPE, cwd=grader.place, check=False)
        check(ran.returncode == 0 and not ran.stderr, f"array, job {job}: status {ran.returncode}: {ran.stderr.decode()}")
    found = sorted(grader.call("--brief", "--results", results, TASK, *folders, LC3LAB_SEED="a b")[0].splitlines()[:-1])
    check(found == whole and len(list((results / "records").glob("*.json"))) == 7, f"array: {found}")


def look_at_ssh(check, grader, whole):
    """Without a machine that answers, all is marked here. With LC3LAB_MACHINES, names for ssh, all is marked there."""
    missing = [it for it in ("parallel", "rsync", "ssh") if not shutil.which(it)]
    if missing:
        print(f"over-ssh: skipped, since there is no {missing[0]}")
        return
    given = grader.environment | {it: value for it, value in os.environ.items() if it in ("HOME", "PARALLEL_SSH")}
    machines = os.environ.get("LC3LAB_MACHINES", "nobody.invalid")
    given["GRADE_SEED_FILE"] = str(grader.place / "seed")
    ran = subprocess.run([SPREAD / "over-ssh", machines, "spread", TASK, "class"], env=given, stdin=subprocess.DEVNULL,
                         stdout=subprocess.PIPE, stderr=subprocess.PIPE, cwd=grader.place, check=False)
    there = "over-ssh: 7 different marks" if "LC3LAB_MACHINES" in os.environ else "over-ssh: 0 different marks"
    check(ran.returncode == 0 and there in ran.stderr.decode(), f"over-ssh: status {ran.returncode}: {ran.stderr.decode()}")
    found = sorted(it for it in ran.stdout.decode().splitlines()[:-1] if not it.startswith(" "))
    check([it.split(":")[1:] for it in found] == [it.split(":")[1:] for it in whole], f"over-ssh: {found}")
    check(not (grader.place / "spread/records/said").exists() and sorted(it.name for it in (grader.place / "class").iterdir())
          == [f"student-{it}" for it in range(7)], "over-ssh: something is left in the class")
