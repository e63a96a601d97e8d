"""The pages of `explore --page` that tests/browser looks at: their lists, and the ways from the lists to the runs and back."""
import re
import subprocess
import time
from pathlib import Path

from browsed import HOSTILE, HOSTILE_NAMES, visible
from browsed_play import calls_in, try_play
from browsed_stage import SEEN_STAGE, try_beside, try_decision

ROOT = Path(__file__).resolve().parent.parent
EXAMPLES = ROOT / "examples"
SECONDS = 300
MOST_DRAWN, SOME = 2000, 3
SIZES = {"wide": (1400, 900), "phone": (360, 640)}
TWO = ["two-semaphores-1.asm", "two-semaphores-2.asm"]
BESIDE_TWO = {1: "On the right P0 waits on /b before P1 does. So it doesn't wait for ever for /b.",
              2: "On the right P1 waits on /b before P0 does. So P0 waits for ever for /b."}
MEDIA = {"light": ("", "light"), "dark": ("", "dark"), "printed": ("print", "light")}

# One posts four times, the other looks at the value four times and writes what it sees: 70 ends.
POSTS = '''        .ORIG x3000
        LEA R0, NAME
        LD R1, CREATE
        AND R2, R2, #0
        TRAP x50        ; sem_open("/s", O_CREAT, 0) = 0
        TRAP x55        ; sem_post
        AND R0, R0, #0
        TRAP x55
        AND R0, R0, #0
        TRAP x55
        AND R0, R0, #0
        TRAP x55
        HALT
CREATE  .FILL x40
NAME    .STRINGZ "/s"
        .END
'''
LOOKS = '''        .ORIG x3000
        LEA R0, NAME
        LD R1, CREATE
        AND R2, R2, #0
        TRAP x50        ; sem_open("/s", O_CREAT, 0) = 0
        ADD R4, R2, #4
AGAIN   AND R0, R0, #0
        LEA R1, VALUE
        TRAP x56        ; sem_getvalue
        LD R0, VALUE
        LD R3, ZERO
        ADD R0, R0, R3
        OUT
        ADD R4, R4, #-1
        BRp AGAIN
        HALT
CREATE  .FILL x40
ZERO    .FILL x30
VALUE   .FILL 0
NAME    .STRINGZ "/s"
        .END
'''

# It asks for a semaphore for ever, unless somebody posts it.
ASKS = '''        .ORIG x3000
        LEA R0, NAME
        LD R1, CREATE
        AND R2, R2, #0
        TRAP x50        ; sem_open("/s", O_CREAT, 0)
        ADD R2, R0, #0
AGAIN   ADD R0, R2, #0
        TRAP x54        ; sem_trywait
        BRn AGAIN
        HALT
NAME    .STRINGZ "/s"
CREATE  .FILL x40
        .END
'''

# Takes the unit of a semaphore, unlinks it, takes that of another of its name, and waits for the first one for ever.
REMADE = '''        .ORIG x3000
        LEA R0, SEM
        LD R1, CREATE
        AND R2, R2, #0
        ADD R2, R2, #1
        TRAP x50        ; sem_open("/s", O_CREAT, 1) = 0
        ADD R5, R0, #0
        TRAP x53        ; sem_wait
        LEA R0, SEM
        TRAP x52        ; sem_unlink
        LEA R0, SEM
        TRAP x50        ; another of the same name
        TRAP x53        ; sem_wait
        ADD R0, R5, #0
        TRAP x53        ; of the first one
CREATE  .FILL x40
SEM     .STRINGZ "/s"
        .END
'''


def explored():
    """Of each page its name, the files made for it, and the words behind `explore`."""
    two = [str(EXAMPLES / f"two-semaphores-{n}.asm") for n in (1, 2)]
    yield "ends/two", {}, two
    patterns = [str(EXAMPLES / "course" / "patterns" / f"{name}.asm") for name in ("receive", "send")]
    yield "ends/patterns", {}, patterns
    yield "ends/many", {"posts.asm": POSTS, "looks.asm": LOOKS}, ["posts.asm", "looks.asm"]
    yield "ends/endless", {"asks.asm": ASKS}, ["asks.asm", "--worlds", "2"]
    yield "ends/none", {"asks.asm": ASKS.replace("BRn AGAIN", "BR AGAIN")}, ["asks.asm"]
    yield "ends/remade", {"remade.asm": REMADE}, ["remade.asm"]
    hostile = {f"{name}.asm": HOSTILE for name in HOSTILE_NAMES}
    yield "ends/hostile", hostile, list(hostile)


class Ends:
    """What `explore` prints, with its page."""

    def __init__(self, program, folder, files, words, page):
        for name, text in files.items():
            (folder / name).write_bytes(text.encode())
        done = subprocess.run([program, "explore", *words, "--page", str(page)], cwd=folder, capture_output=True,
                              timeout=SECONDS)
        if done.returncode or done.stderr:
            raise RuntimeError(f"lc3lab explore: {done.stderr.decode('latin-1').strip()}")
        self.text, self.program, self.folder = done.stdout.decode("latin-1"), program, folder
        self.programs = [it for it in words if it.endswith(".asm")]
        self.names = [it.split("/")[-1] for it in self.programs]
        parts = re.split(r"^end \d+\n", re.split(r"^(?:endless|complete|incomplete)\b", self.text, flags=re.M)[0],
                         flags=re.M)[1:]
        self.ends = [self.end(it) for it in parts]
        # Where something is asked of each world none is left out, as none is in the picture.
        done = subprocess.run([program, "explore", "--never", "lost", *words], cwd=folder, capture_output=True, timeout=SECONDS)
        self.worlds = done.stdout.decode("latin-1").splitlines()[-1].split()

    @staticmethod
    def end(part):
        """The verdict of an end, what was written, and how often another process goes on."""
        outs = re.findall(r"^out (\d+) (.*)$", part, re.M)
        schedule = re.search(r"^schedule(.*)$", part, re.M)[1].split()
        shown = ", ".join(f'P{p} "{visible(text)}"' for p, text in outs) or "no output"
        return re.search(r"^verdict (\w+)$", part, re.M)[1], shown, len(schedule) - 1, " ".join(schedule)

    def lines(self, n):
        """The lines of the trace of a run."""
        done = subprocess.run([self.program, "trace", *self.programs], cwd=self.folder, input=self.ends[n][3].encode(),
                              capture_output=True, timeout=SECONDS)
        return [it for it in done.stdout.decode("latin-1").splitlines() if re.match(r" *\d+ P", it)]

    def counts(self, n):
        """How many calls and ends a run has in the lines of its trace, and how many tries of calls that wait."""
        found = self.lines(n)
        waits = sum(re.search(r"\) waits( ;|$)", it) is not None for it in found)
        calls = sum(re.search(r"\) = |\+\d+ ends ", it) is not None for it in found)
        return number(calls, "call", "calls") + (f", {number(waits, 'wait', 'waits')}" if waits else "")


SEEN_ENDS = """({
  isList: !document.getElementById('ends').hidden,
  buttons: [...document.querySelectorAll('#endlist > li > button')].map(e => e.textContent),
  items: [...document.querySelectorAll('#endlist > li')].map(e => e.innerText.replace(/\\s+/g, ' ').trim()),
  title: document.getElementById('endstitle').textContent,
  programs: document.getElementById('programs').textContent,
  extent: document.getElementById('extent').textContent,
  rest: document.getElementById('rest').hidden ? '' : document.getElementById('rest').textContent,
  round: document.getElementById('endless').hidden ? '' : document.getElementById('endless').innerText,
  shown: ['header', 'main', '.bottom'].filter(it => document.querySelector(it).checkVisibility()),
  focus: document.activeElement.id,
})"""


def number(count, one, more):
    return f"{count:,} {one if count == 1 else more}"


def compare_list(ends, found):
    """The list beside the text."""
    shown = ends.ends[:len(found["buttons"])]
    if found["buttons"] != [f"End {n}: {verdict}" for n, (verdict, *_) in enumerate(shown, 1)]:
        yield f"the list has {found['buttons'][:5]}"
    for (_, output, switches, _), item in zip(shown, found["items"]):
        if f", {number(switches, 'switch', 'switches')} " not in item or not item.endswith(" ".join(output.split())):
            yield f"an end of {switches} switches with {output!r} is told as {item!r}"
    for n in range(min(len(shown), SOME)):
        counts = f"End {n + 1}: {shown[n][0]} {ends.counts(n)}, "
        if not found["items"][n].startswith(counts):
            yield f"end {n + 1} is told as {found['items'][n]!r}, and its trace has {counts}"
    rest, last = len(ends.ends) - len(shown), ends.text.splitlines()[-1].split()
    if (f"{rest:,} more end" in found["rest"]) != (rest > 0) or (rest and len(shown) != 64):
        yield f"of {len(ends.ends)} ends it shows {len(shown)} and says {found['rest']!r}"
    other = ", and there is no other end." if ends.ends else ", and there is no end."
    if not found["extent"].startswith(f"{last[0]}: {number(int(last[1]), 'world', 'worlds')} visited") or \
            found["extent"].endswith(other) != (last[0] == "complete"):
        yield f"it says {found['extent']!r}"
    for line in re.findall(r"^endless\n(schedule .*)\n(round .*)$", ends.text, re.M) or [()]:
        if bool(line) != bool(found["round"]) or not all(it in found["round"].splitlines() for it in line):
            yield f"of the round it says {found['round']!r}"
    if found["programs"] != ", ".join(f"P{p} " + visible(name) for p, name in enumerate(ends.names)):
        yield f"the programs are {found['programs']!r}"


def reloaded(browser):
    """Waits until the page that the address names is there."""
    time.sleep(.3)
    browser.evaluate("new Promise(d => document.readyState === 'complete' ? d() : addEventListener('load', () => d()))")


def try_ways(browser, ends, count, told):
    """Tab goes through the list, and Enter opens the run of an end; the first button there leads back to that end."""
    reached = []
    for _ in range(count):
        browser.press("Tab")
        reached.append(browser.evaluate("document.activeElement.id"))
        if not browser.evaluate("seen.isMarked()"):
            yield f"the focus isn't seen on {reached[-1]}"
    if reached != [f"end{n}" for n in range(1, count + 1)]:
        yield f"Tab goes to {reached[:5]}"
    for n in sorted({1, min(2, count), count}):
        browser.evaluate(f"document.getElementById('end{n}').focus()")
        browser.press("Enter")
        reloaded(browser)
        verdict, _, _, schedule = ends.ends[n - 1]
        found = browser.evaluate(f"{{ const found = {SEEN_ENDS}; found.plan = plan.textContent; "
                                 "found.verdict = verdict.textContent; found }")
        if found["isList"] or len(found["shown"]) != 3 or found["plan"] != schedule.replace("  ", " "):
            yield f"the run of end {n} has the schedule {found['plan'][:80]!r}, not {schedule[:80]!r}"
        if found["verdict"] != f"verdict {verdict}":
            yield f"the run of end {n} has {found['verdict']!r}"
        if browser.evaluate("location.hash.split('&')[0]") != f"#end={n}":
            yield f"the address of end {n} is {browser.evaluate('location.hash')}"
        found = browser.evaluate(SEEN_STAGE)
        if not told and (found["buttons"] or "isn't known. There is no picture of the worlds: " not in found["when"]):
            yield f"without a picture it says {found['when']!r}"
        browser.press("Tab")
        if browser.evaluate("document.activeElement.id") != "back":
            yield "the way back isn't the first that Tab reaches"
        browser.press(" ")
        reloaded(browser)
        found = browser.evaluate(SEEN_ENDS)
        if not found["isList"] or found["focus"] != f"end{n}":
            yield f"the way back from end {n} leads to {found['focus']!r}"


SEEN_WORLDS = """(() => {
  const list = selector => [...document.querySelectorAll(selector)], say = document.getElementById('worldsay');
  return {
    nodes: list('#map .world').map(e => e.getAttribute('aria-label')), edges: list('#map .call').length,
    told: list('#worldlist > li').map(e => e.textContent), says: say ? say.textContent : '',
    way: list('#map .call.way > title').map(e => e.textContent.match(/\\d+/g).map(Number)),
    chosen: list('#map .world.chosen').map(e => e.id), focus: document.activeElement.id,
  };
})()"""


def compare_worlds(ends, found):
    """The picture beside the text: a shape for each world, where these are all and at most 2,000, and one for each end."""
    kind, count, _ = ends.worlds
    wanted = int(count) if kind == "complete" and int(count) <= MOST_DRAWN else 0
    if len(found["nodes"]) != wanted or len(found["told"]) != wanted:
        yield f"of {kind} {count} worlds it draws {len(found['nodes'])} and tells {len(found['told'])}"
    if any(not told.startswith(name) for name, told in zip(found["nodes"], found["told"])):
        yield "the worlds in words aren't those of the picture"
    led = sum(len(re.findall(r"P\d+ to world \d+", it)) for it in found["told"])
    if led != found["edges"]:
        yield f"it draws {found['edges']} calls and tells {led}"
    for n, (verdict, *_) in enumerate(ends.ends[:64] if wanted else [], 1):
        if not any(f", end {n}: {verdict}." in it for it in found["nodes"]):
            yield f"end {n} has no world"


def try_way(browser, n):
    """Where the list is at an end, the calls stand out that lead from the first world to it."""
    browser.evaluate(f"document.getElementById('end{n}').focus()")
    found = browser.evaluate(SEEN_WORLDS)
    at, after = next((k, int(re.search(r"after (\d+)", it)[1])) for k, it in enumerate(found["nodes"], 1) if f", end {n}:" in it)
    follows = {start: end for _, start, end in found["way"]}
    here = 1
    for _ in range(after):
        here = follows.get(here)
    if len(found["way"]) != after or here != at or found["chosen"] != [f"world{at}"]:
        yield f"the way to end {n}, world {at} after {after} calls, is {found['way']}, and {found['chosen']} is chosen"


def try_worlds(browser, ends, count):
    """The ways to ends, and the keys: Tab goes from the last end to playing and the picture, and arrows go along its calls."""
    for n in sorted({1, min(2, count), count}):
        yield from try_way(browser, n)
    browser.evaluate(f"document.getElementById('end{count}').focus()")
    browser.press("Tab")
    if browser.evaluate("document.activeElement.parentElement.id") != "game":
        yield "Tab doesn't go from the last end to playing"
    browser.press("Tab")
    browser.press("Tab") if browser.evaluate("document.activeElement.id === 'map'") else None
    found = browser.evaluate(SEEN_WORLDS)
    if found["focus"] not in found["chosen"] or not browser.evaluate("seen.isMarked()"):
        yield f"Tab goes from the last end to {found['focus']!r}"
    for key, wanted in ("Home", 0), ("ArrowDown", 1), ("ArrowUp", 0):
        browser.press(key)
        found = browser.evaluate(SEEN_WORLDS)
        number = int((re.fullmatch(r"world(\d+)", found["focus"]) or [0, 0])[1])
        if not number or f"after {wanted} call" not in found["says"] or found["says"] != found["told"][number - 1]:
            yield f"{key} goes to {found['focus']!r}, of which is told {found['says']!r}"
    at = next(k for k, it in enumerate(found["nodes"], 1) if ", end 1:" in it)
    browser.evaluate(f"document.getElementById('world{at}').focus()")
    browser.press("Enter")
    reloaded(browser)
    if browser.evaluate("location.hash.split('&')[0]") != "#end=1":
        yield f"Enter on the world of end 1 leads to {browser.evaluate('location.hash')}"


def try_names(browser):
    """A screen reader meets the worlds and not the arrows, below the one main part; the kinds of worlds are those of the picture."""
    found = browser.evaluate("""({
      arrows: [...document.querySelectorAll('#map .call')].filter(e => !e.closest('[aria-hidden="true"]')).length,
      mains: [...document.querySelectorAll('main, [role=main]')].filter(e => e.checkVisibility()).map(e => e.id),
      kinds: [...document.querySelectorAll('#worldkinds .world')].map(e => e.classList[1] || ''),
      worlds: [...document.querySelectorAll('#map .world')].map(e => e.classList[1]),
    })""")
    if found["arrows"] or found["mains"] != ["ends"] or set(found["kinds"]) != set(found["worlds"]):
        yield f"a screen reader meets {found['arrows']} arrows and the main parts {found['mains']}, and the kinds are {found['kinds']}"


def try_stage(browser, seen, ends, n, page, worlds):
    """The call from which an end was the only one, beside the worlds in words; and the first two ends beside each other."""
    browser.show(page, SIZES["wide"])
    browser.evaluate(f"location.hash = 'end={n + 1}'")
    reloaded(browser)
    if n == 0 and len(ends.ends) > 1:
        for one, other in ((1, 2), (2, 1)):
            browser.evaluate(f"location.hash = 'end={one}&beside={other}'")
            reloaded(browser)
            browser.evaluate(seen)
            yield from try_beside(browser, ends.lines(one - 1), ends.lines(other - 1))
            yield from browser.evaluate("[...seen.spoilt(), ...seen.faint(), ...seen.foreign()]")
            told = browser.evaluate("difference.textContent")
            if [it.split("/")[-1] for it in ends.programs] == TWO and told != BESIDE_TWO[one]:
                yield f"end {other} beside end {one} is told as {told!r}"
        browser.evaluate("other.value = ''; other.dispatchEvent(new Event('change'))")
        reloaded(browser)
        if browser.evaluate("document.querySelector('main').checkVisibility()") is not True:
            yield "the stage isn't there after the ends beside each other"
        browser.evaluate("location.hash = 'end=1'")
        reloaded(browser)
    yield from try_decision(browser, worlds, calls_in(worlds), ends.lines(n), ends.ends[n][0], reloaded)


def try_looks(browser, page):
    """In two sizes of the window nothing is cut, texts have contrast, and paper has the whole list."""
    for name, size in SIZES.items():
        browser.resize(size)
        yield from (f"{name}: {it}" for it in browser.evaluate("seen.spoilt()"))
        browser.picture(page.with_suffix(f".{name}.png"))
    browser.resize(SIZES["wide"])
    for name, (kind, scheme) in MEDIA.items():
        browser.media(kind, scheme)
        yield from (f"{name}: {it}" for it in browser.evaluate("seen.faint()"))
    if browser.evaluate("[...document.querySelectorAll('#endlist > li')].some(e => !e.offsetHeight)"):
        yield "paper lacks ends"
    browser.media()
    browser.print(page.with_suffix(".pdf"))


def try_ends(browser, seen, program, folder, given, page):
    """What is wrong with the page of an exploration."""
    name, files, words = given
    ends = Ends(program, Path(folder), files, words, page)
    browser.show(page, SIZES["wide"])
    browser.evaluate(seen)
    found = browser.evaluate(SEEN_ENDS)
    if browser.faults or not found["isList"] or found["shown"]:
        return [f"the page's script: {it}" for it in browser.faults] or [f"the list isn't shown, but {found['shown']}"]
    worlds = browser.evaluate(SEEN_WORLDS)
    wrong = [*compare_list(ends, found), *compare_worlds(ends, worlds), *browser.evaluate("seen.foreign()"), *try_names(browser),
             *try_looks(browser, page)]
    if name == "ends/hostile" and browser.evaluate("document.title.includes('ran')"):
        wrong.append("a text of the run was run")
    if found["buttons"]:
        wrong += try_ways(browser, ends, len(found["buttons"]), worlds["told"])
    for n in range(min(len(found["buttons"]), SOME) if worlds["told"] else 0):
        wrong += try_stage(browser, seen, ends, n, page, worlds["told"])
    if found["buttons"] and worlds["nodes"]:
        browser.show(page, SIZES["wide"])
        browser.evaluate(seen)
        wrong += try_play(browser, program, folder, ends.programs, worlds["told"], lambda: (reloaded(browser), browser.evaluate(seen)))
        browser.show(page, SIZES["wide"])
        browser.evaluate(seen)
        wrong += try_worlds(browser, ends, len(found["buttons"]))
    return wrong + [f"the page's script: {it}" for it in browser.faults]
