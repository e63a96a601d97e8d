"""Each task passes right answers, and refuses wrong ones: what prints what is expected, what is right by luck, and right answers
with something changed."""
import tomllib
from pathlib import Path

from .calling import TASKS, example

PLACE = Path(__file__).parent
SEEDS = ["gate", "lane", "yard"]
# so many answers there are at least, so many wrong ones for each task, and of these so many of the kinds of refused.toml
LEAST = {"pass": 20, "fail": 150}
WRONG = 8
OF_KINDS = 4


def look_at_task(check, task, expected, seed, found):
    """The marks of a task's answers by a seed are as expected."""
    for folder, answer in expected.items():
        verdicts = set(found.get(folder, [str(found)]))
        good = (verdicts == {"pass"}) == (answer["mark"] == "pass") and answer.get("said", "pass") in verdicts | {"pass"}
        wanted = f"{answer['mark']} {answer.get('said', '')}"
        check(good, f"{task}, seed {seed}: {answer['files']}: {found.get(folder, found)}, not {wanted}")


def source(word):
    """The text of an answer's file."""
    if isinstance(word, dict):
        text = source(word["of"])
        for old, new in word["edits"]:
            assert text.count(old) == 1, f"{word['of']} has not once: {old}"
            text = text.replace(old, new)
        return text
    return example(word) if "/" in word else (PLACE / "answers" / word).read_text()


def look(check, grader):
    refused = tomllib.loads((PLACE / "refused.toml").read_text())["answer"]
    answers = tomllib.loads((PLACE / "answers.toml").read_text())["answer"] + [{**it, "mark": "fail"} for it in refused]
    asked = {}
    for number, answer in enumerate(answers, 1):
        files = {name.replace(".", "__"): source(word) for name, word in answer["files"].items()}
        asked.setdefault(answer["task"], {})[str(grader.folder(f"answer-{number}", **files))] = answer
    for task, expected in asked.items():
        for seed in SEEDS:
            look_at_task(check, task, expected, seed, grader.marks(TASKS / f"{task}.toml", expected, LC3LAB_SEED=seed))
    for task in TASKS.glob("*.toml"):
        marks = [it["mark"] for it in asked.get(task.stem, {}).values()]
        check("pass" in marks and marks.count("fail") >= WRONG, f"{task.name}: no answer that passes, or too few that fail")
        check(sum(it["task"] == task.stem for it in refused) >= OF_KINDS, f"{task.name}: too few answers in refused.toml")
    for mark, least in LEAST.items():
        count = sum(it["mark"] == mark for it in answers)
        check(count >= least, f"{count} answers that {mark}")
