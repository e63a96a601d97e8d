"""Tasks that can't be taken are refused, what outputs may be, and what the keys of a run ask."""
import csv
import io
import json
import os
import re
import subprocess
import sys

from .calling import ECHO, GRADE, HALT, TASKS

ONE = '[[run]]\nprograms = [{ asked = "a.asm" }]\n'
REFUSED = {
    "": "a task has a run at least",
    "x": "Expected '='",
    "[run]\n": "run: this can't be",
    ONE + ONE.replace("[[run]]", '[[run]]\nname = "run 1"'): "each run a name of its own",
    "title = 1\n" + ONE: "title: this can't be 1",
    "colour = 1\n" + ONE: "there is no key colour",
    "[[run]]\nprograms = []\n": "1 to 64 programs",
    '[[run]]\nprograms = [{ given = "missing.asm" }]\n': "missing.asm: No such file",
    '[[run]]\nprograms = [{ given = "a.asm", asked = "a.asm" }]\n': "given or asked",
    '[[run]]\nprograms = [{ given = "given.asm" }]\n': "no program is asked",
    '[[run]]\nprograms = [{ asked = "a.asm", input = "1", input-file = "given.asm" }]\n': "not both",
    '[[run]]\nprograms = [{ asked = "a.asm", input = "\\u20AC" }]\n': "one byte",
    '[[run]]\nprograms = [{ asked = "a.asm", must-call = ["sem_wat"] }]\n': "must-call: no call: sem_wat",
    '[[run]]\nprograms = [{ asked = "a.asm", must-call = ["sem_wait a"] }]\n': "no call: sem_wait a",
    '[[run]]\nprograms = [{ asked = "a.asm", must-call = ["sem_wait /a,"] }]\n': "no call: sem_wait /a,",
    '[[run]]\nprograms = [{ asked = "a.asm", must-call = ["sem_wait >= 1001"] }]\n': "no call: sem_wait >= 1001",
    '[[run]]\nprograms = [{ asked = "a.asm", must-not-call = ["sem_wait >= 2"] }]\n': "must-not-call: a number of calls",
    '[[run]]\nprograms = [{ asked = "a.asm", must-hold = "/a" }]\n': "must-hold: this must be a list",
    '[[run]]\nprograms = [{ asked = "a.asm", must-hold = ["/a,"] }]\n': "must-hold: no name of a semaphore: /a,",
    '[[run]]\nprograms = [{ asked = "a.asm", must-hold = ["/1", "/2", "/3", "/4", "/5", "/6", "/7", "/8", "/9"] }]\n': "more than 8",
    ONE + "outputs = []\n": "one for each program, so 1",
    ONE + 'outputs = [{ lines = ["("] }]\n': "no regular expression",
    ONE + "outputs = [{ colour = 1 }]\n": "neither a text",
    ONE + "alternatives = []\n": "there is none",
    ONE + 'require = "halt"\n': "require: halt",
    ONE + 'require = "halted,"\n': "require: halted,",
    ONE + "worlds = 0\n": "worlds: this can't be 0",
    ONE + "seconds = true\n": "seconds: this can't be True",
    ONE + "points = -1\n": "points: this can't be -1",
    ONE + 'visibility = "never"\n': "visibility one of",
    ONE + 'profile = "c"\n': "profile is a or b",
    '[[run]]\nprograms = [{ asked = "a.asm", must-order = ["sem_wait >= 2"] }]\n': "must-order: a number of calls can't be asked",
    '[[run]]\nprograms = [{ asked = "a.asm", may-call = "sem_wait" }]\n': "may-call: this must be a list",
    ONE + "draw = 1\n": "draw: this must be a table",
    ONE + 'draw = { N = "0-1" }\n': "names of small letters",
    ONE + 'draw = { n = "7-0" }\n': "draw: not LOW-HIGH: 7-0",
    ONE + "draw = { n = [] }\n": "draw: not LOW-HIGH",
    ONE + 'draw = { n = { ascending = 3, of = "1-2" } }\n': "so many can't be drawn: 3 of 1-2",
    ONE + 'draw = { n = { different = 3, of = "a-b" } }\n': "so many can't be drawn: 3 of a-b",
    ONE + 'draw = { n = "z-a" }\n': "draw: not LOW-HIGH: z-a",
    ONE + 'name = "$(n)"\ndraw = { n = "0-1" }\n': "name: what is drawn isn't told: $(n)",
    ONE + 'hint = "$(n)"\ndraw = { n = "0-1" }\n': "hint: what is drawn isn't told: $(n)",
    ONE.replace("a.asm", "$(n).asm") + 'draw = { n = "0-1" }\n': "asked: the name of a file isn't drawn",
    ONE + "shape = 1\n": "shape: this must be a list of tables",
    ONE + "[[run.shape]]\npoints = 2\n": "shape: there is no key points",
    ONE + '[[run.shape]]\noutputs = [""]\n[[run.shape]]\noutputs = []\n': "one for each program, so 1",
    ONE + '[[run.shape]]\n[[run.shape]]\nprograms = [{ asked = "b.asm" }]\n': "each shape of a run must ask for the same files",
    "budget = 0\n" + ONE: "budget: this can't be 0",
    ONE + 'outputs = ["$(m)"]\ndraw = { n = "0-1" }\n': "$(m): m isn't drawn",
    ONE + 'outputs = ["$(n+1)"]\ndraw = { n = ["a"] }\n': "$(n+1): this is no number",
    ONE + 'outputs = ["$(n*n)"]\ndraw = { n = ["a"] }\n': "$(n*n): this is no number",
}
PRINTS = '     .ORIG x3000\n     LEA R0,TEXT\n     PUTS\n     HALT\nTEXT .STRINGZ "12\\nabc\\n"\n     .END\n'
OUTPUTS = {
    '"12\\nabc\\n"': "pass", '"12\\nabc"': "wrong output",
    '{ any = ["", "12\\nabc\\n"] }': "pass", '{ any = ["", "12"] }': "wrong output",
    # one of the texts has a byte for which explore has no words
    '{ any = ["\\u00E9", "12\\nabc\\n"] }': "pass", '{ any = ["\\u00E9", "12"] }': "wrong output",
    '{ lines = ["[0-9]+", "a.c"] }': "pass", '{ lines = ["[0-9]+"] }': "wrong output", '{ lines = ["1", "a"] }': "wrong output",
    '{ lines = ["12", "abc", ""] }': "wrong output",
    '{ each-line = "[a-c0-2]*" }': "pass", '{ each-line = "[a-c]*" }': "wrong output",
    "{ free = true }": "pass",
}

WAITS = """
      .ORIG x3000
      LEA R0,NAME
      LD R1,CREATE
      TRAP x50
      TRAP x53
      HALT
NAME  .STRINGZ "/w"
CREATE .FILL x40
      .END
"""
ASKS = WAITS.replace("TRAP x53", "ADD R4,R0,#0\nAGAIN ADD R0,R4,#0\n      TRAP x54\n      ADD R0,R0,#0\n      BRn AGAIN")
POSTS = WAITS.replace("TRAP x53", "TRAP x55")
TWICE = WAITS.replace("TRAP x53", "TRAP x55\n      LEA R0,NAME\n      TRAP x50\n      TRAP x55")
LOOKS = """
      .ORIG x3000
      LEA R0,NAME
      LD R1,CREATE
      TRAP x50
      ADD R4,R0,#0
      LEA R1,SEEN
      TRAP x56
      LD R1,SEEN
      BRz DONE
      ADD R0,R4,#0
      TRAP x51
DONE  HALT
NAME  .STRINGZ "/w"
CREATE .FILL x40
SEEN  .BLKW 1
      .END
"""
NEVER_ENDS = WAITS.replace("TRAP x53", "ADD R4,R0,#0\nAGAIN ADD R0,R4,#0\n      TRAP x54\n      BR AGAIN")
# a student's program, what stands behind it in the list of programs, the keys of the run, and the verdict
ASKED = [
    (WAITS, "", "", "not halted"),
    (WAITS, "", 'require = "ended"', "not ended"),
    (WAITS, "", 'require = "stuck"', "pass"),
    (WAITS, "", 'may-wait = ["0"]', "pass"),
    (HALT, "", 'require = "stuck"', "not stuck"),
    (HALT, "", 'never = ["ended"]', "reached ended"),
    (HALT, "", 'never = ["blocked", "crashed"]', "pass"),
    (PRINTS, "", 'alternatives = [["1"], ["12\\nabc\\n"]]', "pass"),
    (PRINTS, "", 'alternatives = [["1"], ["2"]]', "wrong output"),
    (PRINTS, "", 'alternatives = [["1"], [{ lines = ["12", "abc"] }]]', "pass"),
    (PRINTS, "", 'alternatives = [["12\\nabc\\n"], [{ lines = ["1"] }]]', "pass"),
    (PRINTS, "", 'alternatives = [["1"], [{ lines = ["1"] }]]', "wrong output"),
    (PRINTS, "", 'alternatives = [["1"], [{ free = true }]]', "pass"),
    (PRINTS, '}, { given = "x.asm"', 'alternatives = [["1", "x"], [{ any = ["12\\nabc\\n", "2"] }, { any = ["", "y"] }]]', "pass"),
    (PRINTS, '}, { given = "x.asm"', 'alternatives = [["12\\nabc\\n", "x"], [{ any = ["1", "2"] }, { any = ["", "y"] }]]', "wrong output"),
    (ECHO, ', input-file = "x.in"', 'outputs = ["x"]', "pass"),
    (ECHO, ', input-file = "x.in"', 'outputs = ["y"]', "wrong output"),
    (ECHO, ', input = "y"', 'outputs = ["y"]', "pass"),
    (POSTS, ', must-not-call = ["sem_post /v"]', "", "pass"),
    (POSTS, ', must-not-call = ["sem_post /w"]', "", "forbidden call"),
    (POSTS, ', may-call = ["sem_open", "sem_post /w"]', "", "pass"),
    (POSTS, ', may-call = ["sem_open", "sem_post /v"]', "", "forbidden call"),
    (POSTS, ', may-call = ["sem_post"]', "", "forbidden call"),
    (POSTS, ', must-order = ["sem_open /w", "sem_post"]', "", "pass"),
    (POSTS, ', must-order = ["sem_post", "sem_open"]', "", "missing call"),
    (POSTS, ', must-order = ["sem_post", "sem_post"]', "", "missing call"),
    (TWICE, ', must-order = ["sem_post /w"]', "", "missing call"),
    (TWICE, ', must-order = ["sem_post /w", "sem_post /w"]', "", "pass"),
    (TWICE, ', must-call = ["sem_post >= 2", "sem_open /w >= 2"]', "", "pass"),
    (TWICE, ', must-call = ["sem_post /w >= 3"]', "", "missing call"),
    # a call that isn't made where another process was there before, and one that is made only then
    (LOOKS, ', must-call = ["sem_close"] }, { given = "posts.asm"', "", "missing call"),
    (LOOKS, ', must-not-call = ["sem_close"] }, { given = "posts.asm"', "", "forbidden call"),
    (LOOKS, ', may-call = ["sem_open", "sem_getvalue"] }, { given = "posts.asm"', "", "forbidden call"),
    # the search for calls leaves no world out, and so meets a limit that the other one doesn't
    (POSTS, ' }, { given = "posts.asm"', "worlds = 13", "pass"),
    (POSTS, ', must-call = ["sem_post"] }, { given = "posts.asm"', "worlds = 13", "incomplete"),
    (ASKS, '}, { given = "posts.asm"', "", "endless"),
    (ASKS, '}, { given = "posts.asm"', "fair = true", "pass"),
    # where there is no end, nothing is so that is asked of ends
    (NEVER_ENDS, "", 'require = "same"', "endless"),
    (NEVER_ENDS, "", 'require = "empty"\nfair = true', "endless"),
    (NEVER_ENDS, "", 'require = ""\noutputs = [{ free = true }]', "endless"),
    (NEVER_ENDS, "", 'require = ""\nalternatives = [["x"]]', "endless"),
    (NEVER_ENDS, ', must-call = ["sem_open"]', 'require = ""', "endless"),
    (NEVER_ENDS, ', must-not-call = ["sem_close"]', 'require = "same"', "endless"),
    (NEVER_ENDS, ', must-hold = ["/w"]', 'require = ""', "endless"),
    (NEVER_ENDS, "", 'require = ""\nnever = ["crashed"]', "pass"),
    (HALT, "", 'require = "same"\noutputs = [""]', "pass"),
]


SEEDED = """
draw = { all = "A-Z" }
[[run]]
name = "drawn"
draw = { n = "0-4", word = ["x", "y"], d = { ascending = 3, of = "1-9" }, e = { different = 3, of = "a-z" }, f = ["$(word)z"] }
programs = [{ asked = "a.asm", input = "$(n) $(word) $(d.0)$(d.1)$(d.2) $(e.0)$(e.1)$(e.2) $(f) $(all)." }]
outputs = [""]
[[run]]
name = "worked out"
draw = { n = "0-4", m = "5-9", t = [{ a = "one", b = "1" }, { a = "two", b = "2" }], w = ["ab"] }
programs = [{ asked = "a.asm", input = "$(n*2) $(n+1) $(n-n) $(n+m*2) $(m) $(t.a)$(t.b) $(w*n) $(all)." }]
outputs = [{ any = [""] }]
[[run]]
name = "a shape"
[[run.shape]]
programs = [{ asked = "a.asm", input = "one." }]
outputs = [""]
[[run.shape]]
draw = { n = "1-9" }
programs = [{ asked = "a.asm", input = "two $(n)." }, { asked = "a.asm", input = "." }]
outputs = ["", ""]
"""
# prints its input up to a full stop
COPIES = """
     .ORIG x3000
NEXT GETC
     LD R1,STOP
     ADD R1,R0,R1
     BRz DONE
     OUT
     BR NEXT
DONE HALT
STOP .FILL x-2E
     .END
"""
DRAWN = re.compile(r"([0-4]) ([xy]) ([1-9])([1-9])([1-9]) ([a-z]{3}) \2z ([A-Z])")
WORKED_OUT = re.compile(r"(\d) (\d) 0 (\d+) (\d) (one1|two2) ((?:ab)*) ([A-Z])")


def printed_by(printed):
    """What the process 0 printed in each run, by the lines of a report."""
    return re.findall(r"process 0 printed `([^`]*)`", printed)


def look_at_seeds(check, grader):
    """What is drawn differs from seed to seed and from one hand-in to another, is the same for the same, and a mark is kept for its
    own alone. No seed comes by the command line."""
    task, results = grader.task(SEEDED), grader.place / "seeds"
    folders = [grader.folder(f"drawn-{it}", a__asm=f"; {it}\n{COPIES}") for it in range(2)]
    told = set()
    for seed in "abcdef":
        for folder in folders:
            twice = {tuple(printed_by(grader.call("--results", results, task, folder, LC3LAB_SEED=seed)[0])) for _ in range(2)}
            check(len(twice) == 1, f"the same seed, but another draw: {twice}")
            told |= twice
            look_at_draw(check, *twice.pop())
    check(len(told) == 12, f"seeds: {told}")
    check({it[2].split()[0] for it in told} == {"one", "two"}, f"shapes: {told}")
    count = len(list((results / "records").glob("*.json")))
    check(count == 12, f"{count} marks are kept of 12")
    look_at_words(check, grader, task, folders)


def look_at_draw(check, first, second, _):
    """What is drawn fits what is asked, and what is worked out from it."""
    found, other = re.fullmatch(DRAWN, first), re.fullmatch(WORKED_OUT, second)
    check(found and found[3] < found[4] < found[5] and len(set(found[6])) == 3, f"what is drawn: {first}")
    good = other and int(other[1]) == 2 * int(other[2]) - 2 and int(other[3]) == 2 * (int(other[1]) // 2 + int(other[4]))
    check(good and len(other[6]) == int(other[1]), f"what is worked out: {second}")
    check(found and other and found[7] == other[7], f"what is drawn for all runs: {first}, {second}")


# prints for how many of so many seeds a table of inputs and outputs would be right in all runs of a task
TABLES = """
import sys
from pathlib import Path
from grading.task import read_plan

class Laboratory:
    identity = ""
    def has(self, _):
        return True

fits = 0
for seed in range(int(sys.argv[2])):
    task, _ = read_plan(Path(sys.argv[1]), str(seed), Laboratory()).task_for("")
    told = {(program.input, text.texts[0]) for run in task.runs for program, text in zip(run.programs, run.alternatives[0])}
    fits += len({it[0] for it in told}) == len(told)
print(fits)
"""


def look_at_tables(check):
    """By its own input no process of a ring knows what it has to print: for no seed a table would do."""
    words = [sys.executable, "-B", "-c", TABLES, TASKS / "classic-8-election.toml", "200"]
    ran = subprocess.run(words, env={**os.environ, "PYTHONPATH": str(GRADE.parent)}, stdout=subprocess.PIPE, check=False)
    check(ran.stdout == b"0\n", f"a table would do for some of 200 seeds: {ran.stdout}")


def look_at_words(check, grader, task, folders):
    """Where the seed comes from, and that there is one."""
    file = grader.place / "seed"
    file.write_text("a\n")
    by_file = grader.call("-j", "1", "--seed-file", file, task, *folders, LC3LAB_SEED="b")[0]
    check(by_file == grader.call("-j", "1", task, *folders, LC3LAB_SEED="a")[0], f"a file for a seed: {by_file}")
    practice = {grader.call("-j", "1", "--practice", task, *folders, LC3LAB_SEED=it)[0] for it in "ab"}
    check(len(practice) == 1 and by_file not in practice, f"practice: {practice}")
    check(grader.call(grader.task(ONE), folders[0], LC3LAB_SEED="")[2] == 0, "a task that draws nothing needs a seed")
    (grader.place / "empty").write_text("\n")
    for words, said in ([], "marks need a seed"), (["--seed", "a"], "--seed isn't taken"), \
            (["--practice", "--seed-file", file], "--practice needs no --seed-file"), \
            (["--seed-file", grader.place / "empty"], "a seed has 1 to 4096 bytes"), (["--seed-file", "missing"], "No such file"):
        _, complained, status = grader.call(*words, grader.task(SEEDED), folders[0], LC3LAB_SEED=" ")
        check(status == 2 and said in complained, f"{words}: status {status}: {complained}")


def look_at_keys(check, grader):
    """What the keys of a run and of a program ask, each with an answer that is so, or with one that isn't."""
    (grader.place / "x.in").write_text("x")
    (grader.place / "posts.asm").write_text(POSTS)
    (grader.place / "x.asm").write_text(HALT)
    for number, (source, program, keys, verdict) in enumerate(ASKED):
        folder = grader.folder(f"key-{number}", a__asm=source)
        task = grader.task(ONE.replace('"a.asm"', f'"a.asm"{program}') + keys + "\n")
        found = grader.marks(task, [folder])
        check(found == {str(folder): [verdict]}, f"{program} {keys}: {found}, not {verdict}")


def look_at_names(check, grader):
    """A condition on a name that nobody opens, or on a place where nobody calls, is told and fails; one that asks something isn't told."""
    folder = grader.folder("names", a__asm=POSTS)
    task = grader.task(ONE + 'never = ["sem /v > 1", "sem /w > 5", "mq /w = 0"]\n')
    said = ["nobody opens sem /v", "nobody opens mq /w"]
    printed, _, status = grader.call("--junit", "marks.xml", "--gradescope", "results.json", task, folder)
    good = status == 0 and printed.splitlines()[1:4] == ["  run 1: asks nothing", *(f"    {it}" for it in said)]
    check(good, f"names: {printed}")
    check("\n".join(said) in (grader.place / "marks.xml").read_text(), "JUnit's XML doesn't tell the names")
    test, = json.loads((grader.place / "results.json").read_text())["tests"]
    check(test["score"] == 0 and "\n".join(said) in test["output"], f"Gradescope: {test}")
    # a critical section whose traps are left out
    folder = grader.folder("nops", a__asm=".ORIG x3000\nENTER ADD R0,R0,#1\nLEAVE ADD R0,R0,#1\nHALT\n")
    two = ONE.replace('[{ asked = "a.asm" }]', '[{ asked = "a.asm" }, { asked = "a.asm" }]')
    task = grader.task(two + 'never = ["at ENTER-LEAVE > 1"]\n')
    found = grader.marks(task, [folder])
    check(found == {str(folder): ["asks nothing"]}, f"traps left out: {found}")
    _, complained, status = grader.call("--mutants", task, folder)
    told = f"the task asks nothing by {folder}: run 1: nobody calls at ENTER-LEAVE"
    check(status == 2 and told in complained, f"traps left out, by mutants: {complained}")


def look(check, grader):
    look_at_keys(check, grader)
    look_at_seeds(check, grader)
    look_at_tables(check)
    look_at_names(check, grader)
    folder = grader.folder("one", a__asm=PRINTS)
    (grader.place / "given.asm").write_text(HALT)
    for text, complaint in REFUSED.items():
        printed, complained, status = grader.call(grader.task(text), folder)
        good = status == 2 and not printed and complained.startswith("grade: ") and complaint in complained
        check(good, f"task: {text!r}: status {status}: {complained}")
    (grader.place / "given.asm").write_text("ADD R0,R0\n")
    both = '[[run]]\nprograms = [{ asked = "a.asm" }, { given = "given.asm" }]\n'
    _, complained, status = grader.call(grader.task(both), folder)
    check(status == 2 and "given.asm: " in complained, f"a given program that isn't accepted: {complained}")
    for words in (["missing.toml", folder], [grader.task(ONE), folder, "--part", "3/2"], [grader.task(ONE), folder, "-j", "0"],
                  [grader.task(ONE)], ["--colour", grader.task(ONE), folder]):
        check(grader.call(*words)[2] == 2, f"words: {words}")
    for wanted, verdict in OUTPUTS.items():
        found = grader.marks(grader.task(f"{ONE}outputs = [{wanted}]\n"), [folder])
        check(found == {str(folder): [verdict]}, f"outputs {wanted}: {found}")
    for text, verdict in ("", "pass"), ('must-not-call = ["mq_open"]', "pass"), ('must-call = ["mq_open"]', "missing call"), \
            ('must-hold = ["/a"]', "missing call"):
        found = grader.marks(grader.task(ONE.replace("a.asm\"", f'a.asm", {text}' if text else 'a.asm"')), [folder])
        check(found == {str(folder): [verdict]}, f"{text}: {found}")
