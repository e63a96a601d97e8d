"""The course that teachers copy: what its files say, and what they do in a bare system."""
import json
import re
import shlex
import shutil
from pathlib import Path

from bare import Bare, lacking
from checking import ROOT

try:
    import yaml
except ModuleNotFoundError:
    yaml = None

COURSE = ROOT / "examples/course-template"
TASKS = ROOT / "examples/autograder/tasks"
EXTENSION = ".vscode/extensions/lc3lab"
# sources of the course that are those of the repository's
SOURCES = ["1-hello/hello.asm", "2-producer-consumer/producer.asm", "3-lost-update/main.asm", "3-lost-update/add.asm"]
GIVEN = re.compile(r'\b(?:given|input-file) = "([^"]+)"')
RIGHT = {
    "1-hello/hello.asm": "tests/grading/answers/hello-digits.asm",
    "2-producer-consumer/consumer.asm": "examples/course/2-producer-consumer/consumer.asm",
    "3-lost-update/add.asm": "examples/course/3-lost-update/add-locked.asm",
}
WORKFLOW = ".github/workflows/classroom.yml"
STEP = {"name", "id", "if", "uses", "run", "with", "env", "shell", "working-directory", "continue-on-error", "timeout-minutes"}
JOB = {"name", "runs-on", "steps", "timeout-minutes", "permissions", "env", "needs", "if"}
CONTAINER = {"name", "build", "remoteUser", "forwardPorts", "portsAttributes", "customizations"}
TASK = {"label", "detail", "type", "command", "options", "problemMatcher", "group", "dependsOn"}
NOBODY = "65534:65534"


def data(name):
    return json.loads((COURSE / name).read_text(encoding="utf-8"))


def exercises():
    """The exercises that the Makefile names."""
    return re.search(r"^EXERCISES = (.*)$", (COURSE / "Makefile").read_text(), re.M)[1].split()


def copies():
    """The files of the course that are those of the repository, by their names. What a task is given lies in one folder."""
    found = {f"{EXTENSION}/{it.relative_to(ROOT / 'editors/vscode')}": it.read_bytes()
             for it in (ROOT / "editors/vscode").rglob("*") if it.is_file()}
    found.update({it: (ROOT / "examples/course" / it).read_bytes() for it in SOURCES})
    for name in exercises():
        task = (TASKS / f"{name}.toml").read_text(encoding="utf-8")
        for it in set(GIVEN.findall(task)):
            copy = f"given/{Path(it).name}"
            found[f"tasks/{copy}"] = (TASKS / it).read_bytes()
            task = task.replace(f'"{it}"', f'"{copy}"')
        found[f"tasks/{name}.toml"] = task.encode()
    return found


def write():
    """Makes the copies anew."""
    shutil.rmtree(COURSE / "tasks")
    shutil.rmtree(COURSE / EXTENSION)
    for name, content in copies().items():
        (COURSE / name).parent.mkdir(parents=True, exist_ok=True)
        (COURSE / name).write_bytes(content)


def look(check):
    wanted = copies()
    for name, content in wanted.items():
        found = (COURSE / name).read_bytes() if (COURSE / name).is_file() else None
        check(found == content, f"{name} isn't the repository's file: --write copies it")
    there = [str(it.relative_to(COURSE)) for part in ("tasks", EXTENSION) for it in (COURSE / part).rglob("*") if it.is_file()]
    check(set(there) <= wanted.keys(), f"no copies: {set(there) - wanted.keys()}")
    for name in exercises():
        words = (COURSE / name / "programs").read_text().split()
        needed = [f"{name}/README.md", f"tasks/{name}.toml", *(f"{name}/{part}" for it in words for part in it.split("="))]
        for it in needed:
            check((COURSE / it).is_file(), f"{it} isn't there")
    look_at_container(check)
    look_at_tasks(check)
    look_at_workflow(check)


def look_at_container(check):
    found = data(".devcontainer/devcontainer.json")
    check(found.keys() <= CONTAINER, f"devcontainer.json: {found.keys() - CONTAINER}")
    build = {name: COURSE / ".devcontainer" / it for name, it in found["build"].items()}
    check(build.keys() == {"dockerfile", "context"} and build["dockerfile"].is_file(), f"devcontainer.json: build {build}")
    check(build["context"].resolve() == COURSE, "devcontainer.json: the context isn't the course")
    check({str(it) for it in found["forwardPorts"]} == found["portsAttributes"].keys(), "devcontainer.json: ports")
    text = build["dockerfile"].read_text()
    lines = [it for it in text.replace("\\\n", " ").splitlines() if it and not it.startswith("#")]
    check(all(re.match("(FROM|RUN|COPY|USER|WORKDIR) ", it) for it in lines) and lines[0].startswith("FROM "), f"Dockerfile: {lines}")
    made = re.findall(r"useradd .*?(\w+)$", text, re.M)
    check([found["remoteUser"]] == made == re.findall(r"^USER (\w+)$", text, re.M), f"the user is {found['remoteUser']}, made is {made}")


def look_at_tasks(check):
    found, about = data(".vscode/tasks.json"), data(".vscode/extensions/lc3lab/package.json")["contributes"]
    labels, inputs = [it["label"] for it in found["tasks"]], {it["id"] for it in found["inputs"]}
    matchers = {f"${it['name']}" for it in about["problemMatchers"]}
    check(found["version"] == "2.0.0" and len(set(labels)) == len(labels), f"tasks.json: {labels}")
    for task in found["tasks"]:
        check(task.keys() <= TASK and {"label", "type", "command", "problemMatcher"} <= task.keys(), f"tasks.json: {task}")
        check(task["type"] == "shell" and task.get("dependsOn", labels[0]) in labels, f"tasks.json: {task}")
        check(task["problemMatcher"] == [] or task["problemMatcher"] in matchers, f"tasks.json: {task['problemMatcher']}")
        check(set(re.findall(r"\$\{input:(\w+)\}", task["command"])) <= inputs, f"tasks.json: {task['command']}")
    for it in found["inputs"]:
        check(it["type"] == "command" and f":{port()}/" in it["args"], f"tasks.json: {it}")
    languages = {it["id"] for it in about["languages"]}
    check(set(data(".vscode/settings.json")["files.associations"].values()) <= languages, "settings.json: no such language")


def port():
    """The port of pages, which stands in three files."""
    return re.search(r"127\.0\.0\.1:(\d+)/", (COURSE / ".vscode/page").read_text())[1]


def workflow():
    # YAML 1.1 takes the key `on` for a truth value
    return {"on" if key is True else key: it for key, it in yaml.safe_load((COURSE / WORKFLOW).read_text()).items()}


def look_at_workflow(check):
    if yaml is None:
        print("the workflow: skipped, since Python has no yaml")
        return
    found = workflow()
    check(found.keys() == {"name", "on", "permissions", "jobs"} and "push" in found["on"], f"{WORKFLOW}: {found.keys()}")
    for job in found["jobs"].values():
        check(job.keys() <= JOB and {"runs-on", "steps"} <= job.keys(), f"{WORKFLOW}: {job.keys()}")
        for step in job["steps"]:
            check(step.keys() <= STEP and len({"uses", "run"} & step.keys()) == 1, f"{WORKFLOW}: {step}")
            check(re.fullmatch(r"actions/[a-z-]+@v\d+", step.get("uses", "actions/checkout@v4")), f"{WORKFLOW}: {step}")


class Runner:
    """What runs the workflow's steps in a bare system, as GitHub's runner does: by bash, until one fails, and on if one says so."""

    def __init__(self, system, home):
        self.system, self.home, self.said = system, home, {}
        for name, text in ("sudo", 'exec "$@"'), ("bash-step", "exec bash --noprofile --norc -e /tmp/step"):
            path = system.root / "usr/local/bin" / name
            path.parent.mkdir(parents=True, exist_ok=True)
            path.write_text(f"#!/bin/sh\n{text}\n")
            path.chmod(0o755)

    def run(self, seed):
        """Whether all steps pass. What each says stays, and so does the summary."""
        good, summary = True, self.system.root / "tmp/summary"
        summary.unlink(missing_ok=True)
        for step in workflow()["jobs"]["mark"]["steps"]:
            if "run" in step and (good or step.get("if") == "always()"):
                (self.system.root / "tmp/step").write_text(step["run"])
                given = {name: str(it).replace("${{ secrets.LC3LAB_SEED }}", seed) for name, it in step.get("env", {}).items()}
                said, status = self.system.run(f"cd {self.home} && bash-step", GITHUB_STEP_SUMMARY="/tmp/summary", **given)
                self.said[step["name"]] = said
                good = good and status == 0
        return good, summary.read_text() if summary.exists() else ""


def try_copy(check, course, package):
    """The course, as a teacher copies it from a release, in a bare system: the container's script, the workflow, the editor's tasks."""
    why = lacking() or "Python has no yaml" * (yaml is None)
    if why:
        print(f"the course in a bare system: skipped, since {why}")
        return
    system = Bare(Path(package).parent / "system", "python3", "apt", "make")
    home = system.root / "course"
    shutil.copytree(course, home)
    runner = Runner(system, "/course")
    good, summary = runner.run("a word")
    check(not good and "lc3lab_1.0.0_amd64.deb isn't there" in runner.said["Install lc3lab"], f"no package: {runner.said}")
    version = package.name.split("_")[1]
    shutil.copy(package, home)
    check(package.name == f"lc3lab_{version}_amd64.deb", f"the package is called {package.name}")
    good, summary = runner.run("a word")
    marks = re.findall(r"^    (\S+): (\w+): (\d) of", summary, re.M)
    check(not good and summary.startswith("## Marks\n\n") and [it[:2] for it in marks] == [(it, "fail") for it in exercises()],
          f"the sources of the course are marked {marks}: {runner.said}")
    try_tasks(check, system)
    for name, source in RIGHT.items():
        shutil.copy(ROOT / source, home / name)
    good, summary = runner.run("it's $another")
    marks = re.findall(r"^    (\S+): (\w+): ", summary, re.M)
    check(good and marks == [(it, "pass") for it in exercises()], f"right answers: {marks}: {runner.said}")
    (home / ".devcontainer/package").write_text(f"{package.name}\n{'0' * 64}\n")
    check(not runner.run("")[0] and "did NOT match" in runner.said["Install lc3lab"], f"another checksum: {runner.said}")
    shutil.rmtree(system.root)


def try_tasks(check, system):
    """The tasks of the editor, for a user without rights, as it would run them on a source of the last exercise."""
    folder = exercises()[-1]
    wanted = {"check": "", "run": "verdict ", "write the page": "\ncomplete ", "mark": f"{folder}: fail: "}
    values = {"relativeFile": f"{folder}/add.asm", "fileDirname": f"/course/{folder}", "workspaceFolder": "/course"}
    system.run(f"chown -R {NOBODY} /course")
    for task in data(".vscode/tasks.json")["tasks"]:
        if "${input:" in task["command"]:
            continue
        command, where = (re.sub(r"\$\{(\w+)\}", lambda it: values[it[1]], it)
                          for it in (task["command"], task.get("options", {}).get("cwd", "/course")))
        served = f"; python3 -c {shlex.quote(FETCH)}" if task["label"] == "write the page" else ""
        said, status = system.run(f"cd {where} && bash -c {shlex.quote(command)}{served}", NOBODY)
        good = wanted[task["label"]] in said and (status == 0) != (task["label"] == "mark")
        check(good and bool(said) == bool(wanted[task["label"]]), f"task {task['label']}: status {status}: {said}")


FETCH = """
import json, urllib.request
with open("/course/.vscode/tasks.json") as file:
    address = json.load(file)["inputs"][0]["args"].replace("localhost", "127.0.0.1")
with open("/course/.pages/ends.html", "rb") as file:
    assert urllib.request.urlopen(address).read() == file.read() and file.tell() > 10000
"""
