"""What tests/browser looks at of sources and questions: variables beside the debugger's memory, the answers on a page of ends, and
the round of a run that never ends."""
import json
import re
import subprocess
from pathlib import Path

from browsed import MARK

SECONDS = 300
SOME = 60            # so many moments of a run are looked at
DIRECTIVE = re.compile(r"(?:^|[\s,:])\.(FILL|BLKW|STRINGZ)(?![^\s,])", re.I)


def character(word):
    return chr(word) if 32 <= word <= 126 else None


def wanted_text(kind, words):
    """A variable as the page writes it."""
    if kind == "STRINGZ":
        end = words.index(0) if 0 in words else len(words)
        return '"' + "".join(chr(w) if character(w) and chr(w) not in '"\\' else f"\\x{w:02X}" for w in words[:end]) + '"'
    if len(words) == 1:
        word, = words
        signed = word - 65536 * (word > 32767)
        return f"x{word:04X} {signed}" + (f" '{chr(word)}'" if character(word) else "")
    first = words[:16]
    shown = " ".join(f"x{w:04X}" for w in first) + (" ..." if len(words) > 16 else "")
    quoted = '"' + "".join(chr(w) if character(w) and chr(w) not in '"\\' else "." for w in first) + '"'
    return shown + (f" {quoted}" if any(map(character, first)) else "")


def variables_of(run, process):
    """The lines of data of a source: the name, the kind, the address and how many words."""
    listing = run.listings[run.sources[process]].splitlines()
    labels = sorted((int(it.split()[1][1:], 16), at, it.split()[0])
                    for at, it in enumerate(listing) if re.fullmatch(r"\w+ x[0-9A-F]{4}", it))
    lines = Path(run.folder, run.sources[process]).read_bytes().decode().split("\n")
    rows = {}
    for row in (it.split() for it in listing if re.match(r"x[0-9A-F]{4} x[0-9A-F]{4} ", it)):
        rows.setdefault(int(row[2]), []).append(int(row[0][1:], 16))
    for number, addresses in rows.items():
        found = DIRECTIVE.search(re.split('[;"]', lines[number - 1])[0])
        if found:
            near = [it for it in labels if it[0] <= addresses[0]]
            place = near and max(it[0] for it in near)
            name = next(it[2] for it in near if it[0] == place) if near else f"x{addresses[0]:04X}"
            behind = f"+{addresses[0] - place}" if near and addresses[0] > place else ""
            yield name + behind, found[1].upper(), addresses[0], len(addresses)


def memory(run, asked):
    """What the debugger has at these steps: each is a step, a process, an address and a count."""
    script, done = [], 0
    for number, process, address, count in asked:
        if number > done:
            script.append(f"run {run.between(done, number)}")
            done = number
        for first in range(address, address + count, 256):
            script += ["mark", f"mem {process} x{first:04X} {min(256, address + count - first)}"]
    printed = run.call(["debug"] + run.names, "\n".join(script + ["mark"]) + "\n")
    words = [[int(it, 16) for it in re.findall(r"^x[0-9A-F]{4} x([0-9A-F]{4})$", part, re.M)] for part in printed.split(MARK)[1:-1]]
    for _, _, _, count in asked:
        found = []
        while len(found) < count:
            found += words.pop(0)
        yield found



def compare_variables(run, moments):
    """The variables of the process that acted beside the memory that the debugger shows; what a step changed is marked."""
    chosen = [it for it in moments if it["acts"] is not None and it["whole"]]
    chosen = chosen[::max(1, len(chosen) // SOME)]
    steps = [int(re.match(r"step (\d+)", it["count"])[1]) for it in chosen]
    asked = [(step, it["acts"], address, count) for step, it in zip(steps, chosen)
             for _, _, address, count in variables_of(run, it["acts"])]
    before = [(step - 1, p, address, count) for step, p, address, count in asked]
    now, was = list(memory(run, asked)), list(memory(run, before))
    for step, moment in zip(steps, chosen):
        wanted = []
        for name, kind, _, _ in variables_of(run, moment["acts"]):
            words, old = now.pop(0), was.pop(0)
            wanted.append([name, " ".join(wanted_text(kind, words).split()), words != old])
        if moment["variables"] != wanted:
            yield f"step {step}: the page shows the variables {moment['variables']}, the debugger has {wanted}"
            return


def asked_pages():
    """Of each page of questions its name, the files made for it, and the words behind `explore`."""
    from browsed_ends import ASKS, EXAMPLES, LOOKS, POSTS
    two = [str(EXAMPLES / f"two-semaphores-{n}.asm") for n in (1, 2)]
    yield "asked/two", {}, ["--require", "halted,empty", "--never", "lost", "--never", "0 blocked and 1 blocked", *two]
    yield "asked/same", {"posts.asm": POSTS, "looks.asm": LOOKS}, ["--require", "same", "--never", "sem /s > 3", "posts.asm", "looks.asm"]
    forever = ASKS.replace("BRn AGAIN", "BR AGAIN")
    yield "asked/round", {"asks.asm": forever}, ["--require", "ended", "--fair", "asks.asm"]
    yield "asked/limit", {"asks.asm": forever}, ["--require", "ended", "--never", "lost", "--worlds", "1", "asks.asm"]
    yield "asked/calls", {}, ["--require", "empty", "--require", "0 calls sem_wait /a", "--worlds", "40", *two]


SEEN_ASKED = """({
  title: document.getElementById('askedtitle').textContent,
  rows: [...document.querySelectorAll('#askedlist > li')].map(e => [e.querySelector('code').textContent,
    e.querySelector('strong').textContent.slice(2), e.innerText, [...e.querySelectorAll('.way')].map(w => w.dataset.to)]),
})"""


def wanted_answers(words, told):
    """What is asked by these words, each with its answer and the schedules that show it. If all ends are known, and nothing is
    against what was asked, but it isn't known whether it is so, the search for what is asked of calls met a limit."""
    unknown = " calls " if told["search"] == "complete" and told["holds"] is None else None
    complete, endless = told["search"] == "complete", told["endless"]
    schedules = {f"--require {it['require']}": it["schedules"] for it in told["not"]}
    schedules |= {f"--never {it['never']}": [it["schedule"]] for it in told["reached"]}
    through = [f"{endless['schedule']} {endless['round']}".strip()] if endless else []
    for at, word in enumerate(words):
        given = words[at + 1].split(",") if word == "--require" else [words[at + 1]] if word == "--never" else []
        for text in [f"{word} {it}" for it in given] + (["--fair"] if word == "--fair" else []):
            shown = list(schedules.get(text, []))
            if text == "--fair" or text.split()[-1] in ("ended", "stuck", "halted") and word == "--require":
                shown += through
            is_known = complete and not (unknown and unknown in text)
            yield text, "not met" if shown else "met" if is_known else "not known", shown


def steps_of(schedule):
    """A schedule with blocks of one process joined."""
    blocks = []
    for word in schedule.split():
        process, count = (word + "*1").split("*")[:2]
        if blocks and blocks[-1][0] == process:
            blocks[-1][1] += int(count)
        else:
            blocks.append([process, int(count)])
    return blocks


def try_asked(browser, seen, reloaded, program, folder, given, page):
    """What is wrong with the answers on a page of ends, and with the runs that they lead to."""
    name, files, words = given
    for file, text in files.items():
        Path(folder, file).write_bytes(text.encode())
    done = subprocess.run([program, "explore", "--json", "--page", str(page), *words], cwd=folder, capture_output=True, timeout=SECONDS)
    told = json.loads(done.stdout)
    wanted = list(wanted_answers(words, told))
    order = {text: at for at, text in enumerate(text for text, _, _ in wanted)}
    browser.show(page, (1400, 900))
    browser.evaluate(seen)
    found = browser.evaluate(SEEN_ASKED)
    wrong = [f"the page's script: {it}" for it in browser.faults] + browser.evaluate("seen.foreign()") + browser.evaluate("seen.spoilt()")
    rows = sorted(found["rows"], key=lambda row: order.get(row[0], -1))
    if [row[:2] for row in rows] != [[text, answer] for text, answer, _ in wanted]:
        wrong.append(f"the page answers {[row[:2] for row in rows]}, wanted is {wanted}")
    why = "incomplete" if told["search"] == "incomplete" else "its own search, over all worlds at calls, met a limit"
    if any(why not in row[2] for row in rows if row[1] == "not known"):
        wrong.append("it isn't told why something isn't known")
    for row, (text, _, schedules) in zip(rows, wanted):
        if len(row[3]) != len(schedules):
            wrong.append(f"{text} has the ways {row[3]} to {schedules}")
        for way, schedule in zip(row[3], schedules):
            browser.evaluate(f"document.querySelector('.way[data-to=\"{way}\"]').click()")
            reloaded(browser)
            if steps_of(browser.evaluate("plan.textContent")) != steps_of(schedule):
                wrong.append(f"{text}: {way} has the schedule {browser.evaluate('plan.textContent')!r}, not {schedule!r}")
            if told["endless"] and way == "run=1":
                wrong += try_round(browser, seen, told["endless"])
            browser.evaluate("document.getElementById('back').click()")
            reloaded(browser)
    return [f"{name}: {it}" for it in wrong]


def try_round(browser, seen, endless):
    """Right goes through the round again and again, and Left back; it is marked beside its lanes."""
    count = lambda blocks: sum(int((it + "*1").split("*")[1]) for it in blocks.split())  # noqa: E731
    before, through = count(endless["schedule"]), count(endless["round"])
    browser.evaluate(seen)
    browser.evaluate("details.open = true; new Promise(d => setTimeout(d, 300))")
    wrong = browser.evaluate("seen.spoilt()")
    browser.press("Home")
    told = []
    for _ in range(before + 2 * through):
        browser.press("ArrowRight")
        told.append(browser.evaluate("document.getElementById('count').textContent"))
    most = before + through
    wanted = [f"step {it} of {most}" for it in range(1, before + 1)]
    wanted += [f"step {before + it} of {most}, round {n}" for n in (1, 2) for it in range(1, through + 1)]
    if told != wanted:
        wrong.append(f"Right goes through {told}, not {wanted}")
    back = []
    for _ in range(before + 2 * through):
        browser.press("ArrowLeft")
        back.append(browser.evaluate("document.getElementById('count').textContent"))
    if back[-1] != f"step 0 of {most}":
        wrong.append(f"Left goes back through {back}")
    if browser.evaluate("document.querySelectorAll('#pic .roundbar').length") != 1:
        wrong.append("the round has no bar")
    return wrong
