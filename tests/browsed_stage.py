"""The stage on a page of a run, beside the lines of the trace, and from which call on an end was the only one, beside a plain
enumeration of the worlds: for tests/browser."""
import re

from browsed_picture import circles, objects_of

MOST_CHIPS, MOST_ROWS = 30, 24  # of so few the whole stage is drawn
SEEN_STAGE = """(() => {
  const titles = selector => [...document.querySelectorAll(selector)].map(e => e.parentElement.querySelector('title').textContent);
  const text = id => document.getElementById(id).innerText.replace(/\\s+/g, ' ').trim();
  return {
    sentence: text('sentence'), when: text('when'), calls: text('calls'),
    chips: titles('#show g.ev > rect'), waits: titles('#show .waitbar'),
    bands: titles('#show .band > rect'), taken: titles('#pic rect.holds'), arrows: document.querySelectorAll('#show path.arrow').length,
    red: document.querySelectorAll('#relations .node.red').length, here: text('here'), title: text('heretitle'),
    buttons: ['there', 'playfrom'].filter(id => !document.getElementById(id).hidden).length,
  };
})()"""
SEEN_RING = """(() => {
  const rows = [...document.querySelectorAll('#sems tr')].slice(1).map(r => [...r.children].map(c => c.innerText.trim()));
  const name = it => it.replace(' (unlinked)', ''), each = text => text === '-' ? [] : text.split(' ');
  const queues = [...document.querySelectorAll('#mqs .queue')].map(q => /^(\\S+).*?, waited for by ((?:P\\d+ ?)+)/.exec(q.innerText));
  const wanted = [...rows.flatMap(([o, , , by]) => each(by).map(p => `${p} waits for ${name(o)}`)),
    ...queues.filter(q => q).flatMap(([, o, by]) => by.trim().split(' ').map(p => `${p} waits for ${o}`)),
    ...rows.flatMap(([o, , by]) => each(by).map(p => `${name(o)} is taken by ${p.replace(/[*(].*/, '')}`))];
  const told = relations.getAttribute('aria-label').split('; ').filter(it => it !== 'nobody waits, and nothing is taken');
  return [wanted.sort(), told.sort()];
})()"""


def listed(words):
    """Processes in words, and whether they have something or has it."""
    return " and ".join([", ".join(words[:-1]), words[-1]] if len(words) > 1 else words), "have" if len(words) > 1 else "has"


def wanted_waits(run):
    """What each process that waits for ever waits for, in words, by the last lines of the trace."""
    for it in run.ends:
        found = re.match(r"waits since \d+ in (\w+)\(-?\d+<([^ ]*)>.*?: (?:value 0, taken by (.*), open in (.*)"
                         r"|(\d+) of \d+, (?:senders|receivers) (.*))$", it.what.split(" ; ")[0])
        if not found:
            continue
        call, name, taken, opened, level, users = found.groups()
        if taken and taken != "nobody":
            yield f"for {name}, which {' '.join(listed(taken.split()))}"
            continue
        use = {"mq_receive": " to send", "mq_send": " to receive"}.get(call, "")
        users = (opened or users).split()
        state = "is at 0" if call == "sem_wait" else "is empty" if level == "0" else "is full"
        others = "nobody else has" if users == ["nobody"] else " ".join(listed(users))
        more = ", stuck too" if users != ["nobody"] else ""
        yield f"P{it.process} waits in {call} on {name}, which {state}; {others} it open{use}{more}"


def compare_stage(browser, run):
    """The sentence, the chips, the hatched waits and the bands beside the trace, and who waits for whom beside the tables."""
    browser.press("End")
    found = browser.evaluate(SEEN_STAGE)
    if run.verdict == "stuck":
        waits = list(wanted_waits(run))
        missing = [it for it in waits if it not in found["sentence"]]
        if len(waits) <= 6 and missing or len(waits) > 6 and f"and {len(waits) - 2} more" not in found["sentence"]:
            yield f"the sentence is {found['sentence']!r} and lacks {missing}"
        for circle in list(circles(run))[:1]:
            if found["red"] not in (0, len(circle.split(" -> ")) - 1):
                yield f"{found['red']} processes of the circle {circle} are red"
    elif not found["sentence"].startswith({"ended": "Ended: ", "open": "Not over: "}[run.verdict]):
        yield f"the sentence of a run that is {run.verdict} is {found['sentence']!r}"
    signals = {name for (_, name), lines in objects_of(run).items() if lines[0][3] == "value 0"}
    for _ in range(8):
        wanted, told = browser.evaluate(SEEN_RING)
        wanted = [it for it in wanted if " is taken by " not in it or it.split()[0] not in signals]
        if wanted != told:
            yield f"who waits for whom is told as {told}, and the tables have {wanted}"
        browser.press("ArrowUp")
    if run.count > MOST_ROWS or len(run.lines) > MOST_CHIPS:
        return
    chips = [part for title in found["chips"] for part in re.split(r"; (?=step \d+, P)", title)]
    if chips != [f"step {it.step}, P{it.process}: {it.what}" for it in run.lines]:
        yield f"the chips are {chips[:5]}"
    waits = [re.match(r"\w+\(-?\d+<([^ ]*)>", it.what) and it for it in run.lines if re.search(r"\) waits( ;|$)", it.what)]
    names = sorted(f"P{it.process} waits for {re.search(r'<([^ ]*)>', it.what)[1]}" for it in waits)
    if sorted(found["waits"]) != names or sorted(found["bands"]) != sorted(found["taken"]):
        yield f"it has the waits {found['waits']} and the bands {found['bands']}, not {names} and {found['taken']}"
    if found["arrows"] != sum(it.origin is not None for it in run.lines):
        yield f"it has {found['arrows']} messages"


# ---- from which call on an end was the only one

def reached(calls, world):
    """The worlds that some calls lead to, and whether some of them never come to rest."""
    seen, state = set(), {}

    def is_round(at):  # a call leads back to a world that is still being looked at
        stack = [(at, iter(calls[at].values()))]
        state[at] = "open"
        found = False
        while stack:
            n, rest = stack[-1]
            after = next(rest, None)
            if after is None:
                state[n] = "done"
                stack.pop()
            elif after not in state:
                state[after] = "open"
                stack.append((after, iter(calls[after].values())))
            elif state[after] == "open":
                found = True
        return found

    found = is_round(world)
    seen.update(state)
    return seen, found


def ends_in(told):
    """Of the worlds in words that are ends the number and the verdict."""
    found = {n: re.search(r", (end \d+|an end): (stuck|ended)\. P0", it) for n, it in enumerate(told, 1)}
    return {n: it.groups() for n, it in found.items() if it}


def wanted_decision(told, calls, processes, verdict):
    """The number of the first call after which only this verdict, or where all have it this end, can come; and how it is told."""
    ends, way = ends_in(told), [1]
    for process in processes:
        way.append(calls[way[-1]][process])
    left = []
    for world in way:
        worlds, is_round = reached(calls, world)
        left.append({ends[n] for n in worlds if n in ends} | ({("", "round")} if is_round else set()))
    alike = {it for it in left[0] if it[1] == verdict}
    goal = {ends[way[-1]]} if alike == left[0] else alike
    return next(k for k, it in enumerate(left) if it <= goal), left, goal


def try_decision(browser, told, calls, lines, verdict, reloaded):
    """What is wrong with the call that a run of an end names, and with the ways from there."""
    counted = [it for it in lines if re.search(r"\) = |\+\d+ ends ", it)]
    processes = [int(re.match(r" *\d+ P(\d+)", it)[1]) for it in counted]
    at, left, goal = wanted_decision(told, calls, processes, verdict)
    found = browser.evaluate(SEEN_STAGE)
    if at == 0:
        always = "No order of calls avoids it." if verdict == "stuck" else "Every order of calls comes to this."
        if found["when"] != always or found["buttons"]:
            yield f"nothing else could come, and it says {found['when']!r}"
        return
    before = left[at - 1] - goal
    other = "come to another end" if any(kind == verdict for _, kind in before) else "all could still end" \
        if any(kind == "ended" for _, kind in before) else "get stuck" if any(kind == "stuck" for _, kind in before) else "go on for ever"
    until = "At the start" if at == 1 else f"Until call {at - 1}"
    name = re.search(r"(\w+)\((?:-?\d+<([^ ]*)>|\"([^\"]*)\")|ends", counted[at - 1])
    call = f"P{processes[at - 1]} " + (f"{name[1]}({name[2] or name[3]})" if name[1] else "ends")
    place = re.search(r"line (\d+)$", counted[at - 1])
    if f"{until} " not in found["when"] or other not in found["when"] or f"call {at}, {call}" not in found["when"] or \
            place and not found["when"].endswith(f", line {place[1]}."):
        yield f"call {at}, {call}, decided it, {other!r} before, and it says {found['when']!r}"
    browser.click("there")
    if not browser.evaluate(SEEN_STAGE)["calls"].startswith(f"call {at} of {len(counted)},"):
        yield f"`Go there` leads to {browser.evaluate(SEEN_STAGE)['calls']}"
    browser.evaluate("playfrom.click()")
    reloaded(browser)
    wanted = "#play=" + ("." if any(it > 9 for it in calls[1]) else "").join(map(str, processes[:at - 1]))
    if browser.evaluate("location.hash") != wanted:
        yield f"`Play from before it` leads to {browser.evaluate('location.hash')}, not {wanted}"


# ---- two ends beside each other

SEEN_PAIRS = """({
  rows: [...document.querySelectorAll('#pairs .row')].map(e => [e.querySelector('title').textContent, e.matches('.swapped'),
    e.matches('.other'), e.textContent.includes('\u2260')]),
  joins: document.querySelectorAll('#pairs .join').length, swapped: document.querySelectorAll('#pairs .join.swapped').length,
})"""


def rows_of(lines):
    """The calls, outputs and ends of a trace, and the tries that wait for ever, each with the how many it is of its process."""
    told = [re.match(r" *\d+ P(\d+) +x\w+ +\+\d+ (.*)$", it) for it in lines]
    told = [(int(it[1]), re.sub(r"(?: ;|,) (?:at .*, )?line \d+$", "", it[2])) for it in told]
    last = {process: at for at, (process, _) in enumerate(told)}
    counts, found = {}, {}
    for at, (process, what) in enumerate(told):
        if not re.search(r"\) waits( ;|$)", what) or last[process] == at:
            counts[process] = counts.get(process, 0) + 1
            found[process, counts[process]] = what
    return found


def try_beside(browser, left, right):
    """The rows, what is another answer and what has another order, beside two traces."""
    sides = [rows_of(left), rows_of(right)]
    plain = lambda what: re.sub(r"\(-?\d+<", "(<", what.split(" ; ")[0])  # noqa: E731
    order = [list(it) for it in sides]
    same = next((at for at, (a, b) in enumerate(zip(*order)) if a != b or plain(sides[0][a]) != plain(sides[1][b])), min(map(len, order)))
    on = {key: re.match(r"\w+(?:send|receive|wait|post)\(-?\d+<([^ ]*)>", what) for key, what in sides[0].items()}
    both = [key for key in order[0] if key in sides[1]]
    swapped = {key for a in both for b in both for key in (a, b) if on[a] and on[b] and on[a][1] == on[b][1] and a[0] != b[0]
               and (order[0].index(a) < order[0].index(b)) != (order[1].index(a) < order[1].index(b))}
    wanted = []
    for side, (mine, others) in enumerate((sides, sides[::-1])):
        for key in order[side][max(0, same - 2):]:
            other = key not in others or plain(mine[key]) != plain(others[key])
            wanted.append([mine[key], key in swapped, other, other])
    found = browser.evaluate(SEEN_PAIRS)
    if found["rows"] != wanted:
        yield f"beside each other: {next(((a, b) for a, b in zip(found['rows'], wanted) if a != b), (len(found['rows']), len(wanted)))}"
    joined = [key for key in order[0][max(0, same - 2):] if key in sides[1]]
    if (found["joins"], found["swapped"]) != (len(joined), len(swapped & set(joined))):
        yield f"{found['joins']} lines join them, {found['swapped']} of them thick, not {len(joined)} and {len(swapped)}"
