"""The picture on a page of `trace --page` beside the lines of the trace: for tests/browser."""
import re

from browsed import GONE_LEVELS, GONE_TAKEN


def givers(lines):
    """The steps of the last post to its semaphore, or receive from its queue, and of a call that waited; not of receives."""
    last, found = {}, []
    for it in lines:
        call = re.match(r"(mq|sem)_(\w+)\(-?\d+<([^ ]*)>[,)]", it.what)
        if call and call[2] != "receive" and re.search(r"waited since \d+$", it.what):
            found.append([last.get((call[1], call[3])), it.step])
        if call and call[2] in ("post", "receive") and re.search(r"\) = \d", it.what):
            last[call[1], call[3]] = it.step
    return sorted(found)


def steps_between(run):
    """How many steps of each process lie before each line, and behind the last one: local, or without effect while it waits."""
    lines, kinds, counts, found = {it.step: it.what for it in run.lines}, {}, {}, []
    for step, process in enumerate((p for p, count in run.blocks for _ in range(count)), 1):
        kind, what = kinds.get(process, "local steps"), lines.get(step)
        if what is None:
            counts[process, kind] = counts.get((process, kind), 0) + 1
            continue
        found += [[f"P{p}: {count} {kind}", step] for (p, kind), count in counts.items() if kind]
        waits = "steps without effect" if re.search(r"\) waits( ;|$)", what) else "local steps"
        kinds[process], counts = "" if what.startswith("ends ") else waits, {}
    return sorted(found + [[f"P{p}: {count} {kind}", None] for (p, kind), count in counts.items() if kind], key=str)


def compare_picture(run, picture):
    """The picture beside the lines of the trace."""
    lines, wrong = run.lines, []
    name = re.compile(r"\((?:-?\d+)<([^ ]*)>[,)]")
    waits = [(at, it) for at, it in enumerate(lines) if re.search(r"\) waits( ;|$)", it.what)]
    after = lambda at: next((it.step for it in lines[at + 1:] if it.process == lines[at].process), None)  # noqa: E731
    ends = [it for it in run.ends if it.what.startswith("waits since")] if run.verdict == "stuck" else []
    wanted = {
        "boxes": [f"step {it.step}, P{it.process}: {it.what}" for it in lines],
        "waits": sorted([f"P{it.process} waits for {name.search(it.what)[1]}", it.step, after(at)] for at, it in waits),
        "arrows": sorted([int(it.origin), it.step] for it in lines if it.origin),
        "wakes": givers(lines),
        "between": steps_between(run),
        "stuck": sorted(f"P{it.process} waits for ever for {name.search(it.what)[1]}" for it in ends),
    }
    found = {**picture, "waits": sorted(picture["waits"]), "arrows": sorted(picture["arrows"]),
             "wakes": sorted(picture["wakes"]), "between": sorted(picture["between"], key=str),
             "stuck": sorted(it.rsplit(": ", 1)[0] for it in picture["stuck"])}
    for it, label in zip(lines, found.pop("labels")):
        refused = re.match(r'(\w+)\((?:(-?\d+), |"([^"]*)").* = (E[A-Z]+)', it.what)
        if refused and len(label) > 20 and label != f"{refused[1]} {refused[2] or refused[3]} {refused[4]}":
            wrong.append(f"the box of {it.what} says {label}")
    for part, value in wanted.items():
        if found[part] != value:
            wrong.append(f"{part}: the picture has {found[part][:20]}, the trace {value[:20]}")
    for it in ends:
        taken = re.search(r", taken by (.*?), open in ", it.what)
        mark = next((m for m in picture["stuck"] if m.startswith(f"P{it.process} ")), "")
        said = re.fullmatch(r".*: (.*) ha(?:s|ve) it", mark)
        if taken and said and said[1] != taken[1]:
            wrong.append(f"P{it.process}: the mark says {mark!r}, the trace taken by {taken[1]}")
        opened = re.search(r"(?:open in|senders|receivers) ([^,]*)$", it.what)[1]
        if not said and f": {opened} " not in mark:
            wrong.append(f"P{it.process}: the mark says {mark!r}, the trace open in {opened}")
    return wrong


def objects_of(run):
    """Of each object that is never unlinked, by kind and name: the step, process, call and level of each line that changes it."""
    unlinked = {re.match(r'(\w+)_unlink\("([^"]*)"', it.what).groups() for it in run.lines if '_unlink("' in it.what}
    found = {}
    for it in run.lines:
        made = re.match(r'(mq|sem)_open\("([^"]*)", .*\) = \d+ ; ', it.what)
        call = re.match(r"(mq|sem)_(send|receive|wait|trywait|post)\(\d+<([^ ]*)>.*\) = \d", it.what)
        level = re.search(r".* ; (?:value (\d+)|(\d+) of (\d+))(?:,|$)", it.what)
        key = (made[1], made[2]) if made else call and (call[1], call[3])
        if level and key and key not in unlinked and not (made and key in found):
            text = f"value {level[1]}" if level[1] else f"{level[2]}/{level[3]}"
            found.setdefault(key, []).append((it.step, it.process, call and call[2], text))
    return found


def taken_bars(name, lines):
    """From when to when a process has taken a unit of a semaphore that it hasn't posted; to nothing where it never does."""
    units, bars, last = {}, [], {}
    for step, process, call, _ in lines[1:]:
        was = units.get(process, 0)
        units[process] = was + (-1 if call == "post" else 1)
        if units[process] > max(was, 0):
            bars.append([f"P{process} has taken {name}", step, None])
            last.setdefault(process, []).append(bars[-1])
        elif call == "post" and was > 0:
            last[process].pop()[2] = step
    return bars


def compare_objects(run, picture):
    """The levels of the objects, the messages that nobody received, and what is taken, beside the lines of the trace."""
    objects = objects_of(run)
    taken = [bar for (kind, name), lines in objects.items() if kind == "sem" and lines[0][3] != "value 0"
             for bar in taken_bars(name, lines)]
    sent = sum(re.match(r"mq_send\(.*\) = 0 ;", it.what) is not None for it in run.lines)
    wanted = {
        "levels": sorted([*key, text, step] for key, lines in objects.items() for step, _, _, text in lines),
        "taken": sorted(taken, key=str),
        "unreceived": sent - sum(it.origin is not None for it in run.lines),
    }
    found = {
        "levels": sorted(it for it in picture["levels"] if tuple(it[:2]) in objects),
        "taken": sorted((it for it in picture["taken"] if ("sem", it[0].split()[-1]) in objects), key=str),
        "unreceived": picture["unreceived"],
    }
    if run.name == "made/gone":
        wanted |= {"taken": GONE_TAKEN, "levels": [["sem", "/s", text, step] for step, text in GONE_LEVELS]}
        levels = [[kind, name, text.removesuffix(" undefined"), step] for kind, name, text, step in picture["levels"]]
        found |= {"taken": sorted(picture["taken"]), "levels": levels}
    return [f"{part}: the picture has {found[part]}"[:300] + f", the trace {value}"[:300]
            for part, value in wanted.items() if found[part] != value]


def circles(run):
    """The circles at a deadlock, by who has taken what each process waits for in the lines of the end; not of one process."""
    signals = {name for (_, name), lines in objects_of(run).items() if lines[0][3] == "value 0"}
    taken = {}
    for it in run.ends:
        found = re.search(r"sem_wait\(\d+<([^ ]*)>\): .*, taken by P(\d+)", it.what)
        if found and found[1] not in signals:
            taken[it.process] = int(found[2])
    for first in sorted(taken):
        circle = [first]
        while taken.get(circle[-1], -1) not in [-1, *circle]:
            circle.append(taken[circle[-1]])
        if taken.get(circle[-1]) == first == min(circle) and len(circle) > 1:
            yield " -> ".join(f"P{p}" for p in [*circle, first])
