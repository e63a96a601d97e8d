"""The reader as the scheduler on a page of `explore --page`, beside what `step`, `trace` and `debug` print: for tests/browser."""
import re
import subprocess

from browsed import visible
from browsed_stage import ends_in, reached

SECONDS = 300
SIZES = {"wide": (1400, 900), "phone": (360, 640)}
SEEN_PLAY = """(() => {
  const list = selector => [...document.querySelectorAll(selector)].map(e => e.textContent);
  return {
    says: document.getElementById('gamesay').textContent, plan: document.getElementById('gameplan').textContent,
    world: [...list('#turns .stand'), ...list('#gameworld > li')], command: list('#command')[0],
    has: [...document.querySelectorAll('#turns .turn')].map(e => [...e.querySelectorAll('.chip')].map(c => c.textContent)),
    lines: list('#gamelines > li'), turns: list('#turns button > span'),
    open: [...document.querySelectorAll('#turns button')].map(e => e.getAttribute('aria-disabled') === 'false'),
    chosen: [...document.querySelectorAll('#map .world.chosen')].map(e => Number(e.id.slice(5))),
    lit: document.querySelectorAll('#map .call.way').length, plans: document.querySelectorAll('#map .call.plan').length,
  };
})()"""
STATES = {"goes on": "running", "waits": "running", "ended": "ended"}


def printed(program, folder, words, text):
    """What a command prints."""
    done = subprocess.run([program, *words], cwd=folder, input=text.encode(), capture_output=True, timeout=SECONDS)
    if done.returncode:
        raise RuntimeError(f"lc3lab {words[0]}: {done.stderr.decode('latin-1').strip()}")
    return done.stdout.decode("latin-1")


def calls_in(told):
    """Of each world, from 1 on, where a call of each process leads, by the worlds in words."""
    return [{}] + [{int(p): int(n) for p, n in re.findall(r"P(\d+) to world (\d+)", it.split(" Calls: ")[-1])} for it in told]


def way_to(calls, goals):
    """The processes on a way of fewest calls from the first world to one of the goals."""
    ways, queue = {1: []}, [1]
    for world in queue:
        if world in goals:
            return ways[world]
        for process, after in calls[world].items():
            if after not in ways:
                ways[after] = ways[world] + [process]
                queue.append(after)
    return None


class Game:
    """A page that is played, and the programs that it is of."""

    def __init__(self, browser, program, folder, programs, told, reload):
        self.browser, self.program, self.folder, self.programs, self.reload = browser, program, folder, programs, reload
        self.told, self.calls = told, calls_in(told)

    def printed(self, command, text):
        return printed(self.program, self.folder, [command, *self.programs], text)

    def seen(self):
        return self.browser.evaluate(SEEN_PLAY)

    def compare(self, world, count):
        """The world that is shown beside the reports by the schedule that stands there."""
        found = self.seen()
        if found["chosen"] != [world] or not found["says"].startswith(f"World {world}, after {count} call"):
            yield f"world {world} after {count} calls is told as {found['says']!r}, and {found['chosen']} is chosen"
        if found["open"] != [p in self.calls[world] for p in range(len(found["turns"]))]:
            yield f"in world {world} {found['open']} can go on, not {sorted(self.calls[world])}"
        yield from self.compare_report(found, self.printed("step", found["plan"]))
        yield from self.compare_lines(found, self.printed("trace", found["plan"]))
        script = f"run {found['plan']}\nsems\nmqs\n" if found["plan"] else "sems\nmqs\n"
        yield from self.compare_objects(found, self.printed("debug", script))

    @staticmethod
    def compare_report(found, report):
        """Where each process stands, and what it has written."""
        stands = dict(re.findall(r"^(\d+) ((?:running|waiting|ended) x[0-9A-F]{4}.*)$", report, re.M))
        outs = dict(re.findall(r"^out (\d+)(?: (.*))?$", report, re.M))
        for p in sorted(stands, key=int):
            seen = re.fullmatch(r"P(\d+) (goes on|waits|ended) at (x[0-9A-F]{4}), (.*?); output (.*)", found["world"][int(p)], re.S)
            state, pc, *how = stands[p].split(" ")
            wanted = "waiting" if state == "waiting" and seen[2] == "waits" else STATES[seen[2]]
            text = f'"{visible(outs[p])}"' if outs[p] else "none"
            ended = state != "ended" or seen[4] == " ".join(how).split(",")[0]
            if (wanted, seen[3], seen[5]) != (state, pc, text) or not ended:
                yield f"by {found['plan']} P{p} is told as {found['world'][int(p)]!r}, and step prints {stands[p]!r}, {outs[p]!r}"

    @staticmethod
    def compare_lines(found, trace):
        """The lines so far; the trace has notes behind them, and the calls by which processes begin to wait."""
        lines = [it for it in trace.splitlines() if re.match(r" *\d+ P", it) and not re.search(r"\) waits( ;|$)", it)]
        rest = [line[len(seen):] for line, seen in zip(lines, found["lines"]) if line.startswith(seen)]
        if len(lines) != len(found["lines"]) or len(rest) != len(lines) or any(not re.match(r"$|,? ", it) for it in rest):
            yield f"by {found['plan']} the lines are {found['lines'][-3:]}, and trace prints {lines[-3:]}"

    @staticmethod
    def compare_objects(found, listed):
        """The semaphores and their values, the queues and how many messages they have."""
        rows = [it.split() for it in listed.splitlines() if re.match(r"\d+ (/\S*|-) \d", it)]
        named = lambda row: f"#{row[0]} (unlinked)" if row[1] == "-" else row[1]  # noqa: E731
        wanted = [f"{named(row)}: value {row[2]}" if len(row) == 3 else f"{named(row)}: {row[4]} of {row[2]}" for row in rows]
        shown = [it.split(",")[0] for it in found["world"][len(found["turns"]):]]
        if sorted(shown) != sorted(wanted):
            yield f"by {found['plan']} the objects are {shown}, and debug prints {wanted}"

    def go(self, process, by_key):
        if by_key:
            self.browser.press(str(process))
        else:
            self.browser.click(f"document.querySelector('#turns button[data-p=\"{process}\"]')")

    def play(self, way, by_key):
        """Goes along a way from the first world, and looks at each world."""
        world = 1
        yield from self.compare(world, 0)
        for count, process in enumerate(way, 1):
            self.go(process, by_key)
            world = self.calls[world][process]
            yield from self.compare(world, count)
        blocked = next((p for p in range(len(self.seen()["turns"])) if p not in self.calls[world]), None)
        if blocked is not None:
            self.go(blocked, by_key)
            yield from self.compare(world, len(way))

    def turn_back(self, way):
        """Undo leads to the world before, and `Start again` to the first."""
        world = 1
        for process in way[:-1]:
            world = self.calls[world][process]
        self.browser.click("document.getElementById('undo')")
        yield from self.compare(world, len(way) - 1)
        self.browser.click("document.getElementById('again')")
        yield from self.compare(1, 0)

    def keep(self, way):
        """The picture stays at the game's world, whatever is pointed at; an arrow's world takes the game there; its address keeps it."""
        world = 1
        for process in way[:-1]:
            world = self.calls[world][process]
        last, count = self.calls[world][way[-1]], len(way)
        self.browser.evaluate("document.getElementById('end1').focus(); document.getElementById('end1').dispatchEvent("
                              "new Event('mouseover', { bubbles: true })); document.querySelector('#map .world').focus()")
        yield from self.compare(last, count)
        self.browser.click("document.getElementById('undo')")
        self.browser.click(f"document.querySelector('#world{last} .shape')")
        yield from self.compare(last, count)
        wanted = "#play=" + ("." if len(self.programs) > 10 else "").join(map(str, way))
        for leave in ("location.reload()", "document.getElementById('end1').click()"):
            if self.browser.evaluate("location.hash") != wanted:
                yield f"the address of the game is {self.browser.evaluate('location.hash')}, not {wanted}"
            self.browser.evaluate(leave)
            self.reload()
            if "reload" not in leave:
                self.browser.evaluate("history.back()")
                self.reload()
            yield from self.compare(last, count)
        self.browser.evaluate(f"location.hash = '{wanted}{'.' if len(self.programs) > 10 else ''}9'")
        self.browser.evaluate("new Promise(d => setTimeout(d, 100))")
        yield from self.compare(last, count)

    def take(self, way):
        """A schedule that is given is played, and what it says of an arrow that isn't there is told."""
        world = 1
        for process in way:
            world = self.calls[world][process]
        plan = self.seen()["plan"]
        for given, says in (plan, ""), (f"{plan} 0*9999", ""), ("0", "World 1,"):
            self.browser.evaluate("again.click()")
            self.browser.evaluate(f"document.getElementById('given').value = {given!r}; take.click()")
            if says and not self.seen()["says"].startswith(says):
                yield f"after {given!r} the game says {self.seen()['says']!r}"
            yield from [] if says or "9999" in given else self.compare(world, len(way))
        self.browser.evaluate(f"document.getElementById('given').value = {plan!r}; take.click()")
        if f"'{plan}' | lc3lab trace --page " not in self.seen()["command"]:
            yield f"the command is {self.seen()['command']!r}"

    def ask(self, way):
        """Before a call after which all can still end or not, as with another call, it is asked; the answer is that of the worlds."""
        can_end = lambda n: any(": ended. P0" in self.told[it - 1] for it in reached(self.calls, n)[0])  # noqa: E731
        self.browser.evaluate("again.click(); asks.checked = true")
        world, right = 1, 0
        for process in way:
            wanted = len({can_end(n) for n in self.calls[world].values()}) > 1
            self.browser.evaluate(f"document.querySelector('#turns button[data-p=\"{process}\"]').click()")
            found = self.browser.evaluate("question.hidden ? '' : ask.textContent")
            if found != (f"If P{process} goes now, can all still end?" if wanted else ""):
                yield f"before a call of P{process} in world {world} it asks {found!r}"
            world = self.calls[world][process]
            if wanted:
                right += 1
                self.browser.evaluate("yes.click()" if can_end(world) else "no.click()")
                told = "all can still end" if can_end(world) else "not all can end any more"
                if f"Right: {told}. {right} of {right} right." not in self.seen()["says"]:
                    yield f"a right answer is told as {self.seen()['says']!r}"
        self.browser.evaluate("asks.checked = false")
        yield from self.compare(world, len(way))

    def compare_has(self):
        """Who has what others wait for in the last lines of the trace."""
        found = self.seen()
        taken = re.compile(r"^end .* in sem_wait\(\d+<([/#][^ ]*)>\): value 0, taken by (P\d+(?: P\d+)*), ", re.M)
        for name, takers in taken.findall(self.printed("trace", found["plan"])):
            wanted = [f"P{p}" for p, chips in enumerate(found["has"]) if name in chips]
            if wanted != takers.split():
                yield f"{name} is taken by {takers}, and the cards show {wanted}"

    def compare_kinds(self):
        """What can come from each world, beside a plain enumeration, where all ends have numbers."""
        if any(", an end: " in it for it in self.told):
            return
        ends, left = ends_in(self.told), {}
        for n in range(1, len(self.told) + 1):
            worlds, is_round = reached(self.calls, n)
            left[n] = {ends[it] for it in worlds if it in ends} | ({("", "round")} if is_round else set())
        is_good = lambda it: it[1] == "ended"  # noqa: E731
        is_mixed = any(map(is_good, left[1])) and not all(map(is_good, left[1]))
        wanted = []
        for n in sorted(left):
            alike = all(map(is_good, left[n])) if is_mixed else len(left[n]) == 1
            never = is_mixed and not any(map(is_good, left[n]))
            wanted.append(ends[n][1] if n in ends else "free" if alike else "doom" if never else "both")
        found = self.browser.evaluate("[...document.querySelectorAll('#map .world')]"
                                      ".sort((a, b) => a.dataset.n - b.dataset.n).map(e => e.classList[1])")
        if found != wanted:
            n = next(k for k, (a, b) in enumerate(zip(found, wanted), 1) if a != b)
            yield f"world {n} is drawn as {found[n - 1]}, and by its calls it is {wanted[n - 1]}"

    def go_on(self, goal):
        """The way to a chosen end lights up, and is gone."""
        end = re.search(r", end (\d+): ", self.told[goal - 1])[1]
        way = way_to(self.calls, {n for n, it in enumerate(self.told, 1) if f", end {end}: " in it})
        self.browser.evaluate(f"goal.value = '{int(end) - 1}'; goal.dispatchEvent(new Event('change'))")
        found = self.seen()
        world = 1
        if found["plans"] != len(way):
            yield f"{found['plans']} calls light up on the way to world {goal}, not {len(way)}"
        self.browser.click("document.getElementById('goon')")
        for process in way:
            world = self.calls[world][process]
        yield from self.compare(world, len(way))
        if self.seen()["lit"] != len(way):
            yield f"{self.seen()['lit']} calls stand out behind world {goal}, not {len(way)}"


def try_play(browser, program, folder, programs, told, reload):
    """Plays to a stuck world, or to an end where none is stuck, by keys and by the pointer, in two sizes of the window."""
    game = Game(browser, program, folder, programs, told, reload)
    ends = {n for n, it in enumerate(told, 1) if re.search(r": (stuck|ended)\. P0", it)}
    stuck = {n for n in ends if re.search(r": stuck\. P0", told[n - 1])}
    way = way_to(game.calls, stuck or ends)
    for by_key, (name, size) in zip((True, False), SIZES.items()):
        browser.resize(size)
        browser.evaluate("game.open = true; new Promise(d => setTimeout(d, 100))")
        browser.click("document.getElementById('puzzle')")
        yield from (f"{name}: {it}" for it in game.play(way, by_key))
        says = game.seen()["says"]
        if stuck and f"Stuck after {len(way)} call" not in says or stuck and f"; the fewest are {len(way)}." not in says:
            yield f"{name}: stuck after {len(way)} calls, of which is told {says!r}"
        yield from (f"{name}: {it}" for it in [*game.compare_has(), *game.compare_kinds(), *game.ask(way), *game.take(way)])
        yield from (f"{name}, kept: {it}" for it in game.keep(way))
        yield from (f"{name}: {it}" for it in game.turn_back(way))
        yield from (f"{name}: {it}" for it in game.go_on(max(n for n in ends if ", end " in told[n - 1])))
        yield from (f"{name}, played: {it}" for it in browser.evaluate("seen.spoilt()") + browser.evaluate("seen.faint()"))
        yield from browser.evaluate("seen.foreign()")
    browser.resize(SIZES["wide"])
