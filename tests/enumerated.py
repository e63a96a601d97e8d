"""Small random programs, and all worlds that single steps of them lead to.

The enumeration begins at the start and tries one more step of each process, over and over. Worlds are told apart by all that
the debugger shows: registers, the words of the programs, outputs, descriptors, semaphores and queues. It knows nothing of
calls or local steps.
"""
import random
import subprocess
from concurrent.futures import ThreadPoolExecutor
from dataclasses import dataclass
from functools import cached_property
from pathlib import Path

WORKERS = 3
MOST_WORLDS = 3_000
FIRST = 0x3000
# No command of the debugger; what it answers stands between the answers of others.
PAUSE, PAUSED = "stop", "? unknown command\n"


def semaphore_program(dice):
    """Opens a semaphore, and takes, tries, posts or closes it some times."""
    lines = ["LEA R0,NAME", "LD R1,FLAGS"]
    lines += ["ADD R2,R2,#1"] * dice.choice([0, 0, 1])
    lines += ["TRAP x50"]
    body = []
    for _ in range(dice.randint(1, 3)):
        body.append(dice.choice(["TRAP x53", "TRAP x53", "TRAP x54", "TRAP x55", "TRAP x55", "TRAP x51", "OUT"]))
    if dice.random() < 0.4:
        body += ["ADD R0,R0,#0", dice.choice(["BRn LOOP", "BRz LOOP"])]
    if not any(it.startswith("TRAP") for it in body):
        body.insert(0, "TRAP x54")
    body[0] = "LOOP " + body[0]
    name = dice.choice(["/a", "/a", "/b"])
    return lines + body + [last(dice), f'NAME .STRINGZ "{name}"', "FLAGS .FILL x40"]


def queue_program(dice):
    """Opens a queue, sends to it or receives from it some times, and may take its name away and close it."""
    lines = ["LEA R0,NAME", "LD R1,FLAGS", "TRAP x40", "LEA R1,WORDS", "LD R2,LENGTH"]
    body = []
    for _ in range(dice.randint(1, 2)):
        body.append(dice.choice(["TRAP x43", "TRAP x44"]))
        body.append(dice.choice(["AND R0,R0,#0", "ADD R3,R3,#1"]))
    if dice.random() < 0.3:
        body += ["ADD R0,R0,#0", "BRn LOOP"]
    body[0] = "LOOP " + body[0]
    if dice.random() < 0.2:
        body += ["LEA R0,NAME", "TRAP x42"]
        # R0 is 0 then, the number of the descriptor
        body += ["TRAP x41"] * dice.choice([0, 0, 1])
    flags = dice.choice(["x42", "x42", "x842"])
    word = dice.randint(1, 3)
    data = ['NAME .STRINGZ "/q"', f"FLAGS .FILL {flags}", "LENGTH .FILL 16", f"WORDS .FILL {word}", ".BLKW 15"]
    return lines + body + [last(dice), *data]


def last(dice):
    """HALT; or now and then an instruction that ends a process otherwise."""
    return "RTI" if dice.random() < 0.1 else "HALT"


def random_programs(seed):
    """Two or three programs, as lists of lines; of each line the first word stands at x3000 and so on up to the data."""
    dice = random.Random(seed)
    kind = dice.choice([semaphore_program, semaphore_program, queue_program])
    count = 3 if kind is semaphore_program and dice.random() < 0.2 else 2
    return [kind(dice) for _ in range(count)], dice


def source_of(lines):
    return "\n".join([".ORIG x3000", *lines, ".END", ""])


@dataclass(frozen=True)
class World:
    """What the debugger shows of one."""

    text: str

    @cached_property
    def parts(self):
        """What `run`, `procs`, `sems`, `mqs`, `out` and the other commands wrote."""
        return [it.splitlines() for it in self.text.split(PAUSED)]

    @cached_property
    def processes(self):
        """For each process its status, its PC, and how it ended or where it waits."""
        return [line.split(" ", 3)[1:] for line in self.parts[1]]

    @cached_property
    def replies(self):
        """R0 of each process."""
        return [int(line.split()[1][1:], 16) for line in self.parts[5] if line.startswith("R0 ")]

    @cached_property
    def semaphores(self):
        """The values of the semaphores by their names."""
        return {line.split()[1]: int(line.split()[2]) for line in self.parts[2]}

    @cached_property
    def queues(self):
        """The name of each queue, or `-`, and the number of its messages."""
        rows = [line.split() for line in self.parts[3] if not line.startswith(" ")]
        return [(row[1], int(row[4])) for row in rows]

    @property
    def outputs(self):
        return self.parts[4]


class Laboratory:
    """Programs in a folder, and what lc3lab says of them."""

    def __init__(self, program, folder, programs):
        self.program = program
        self.folder = folder
        self.programs = programs
        self.names = []
        self.lengths = []
        for at, lines in enumerate(programs):
            Path(folder, f"{at}.asm").write_text(source_of(lines))
            self.call(["asm", f"{at}.asm", f"{at}.obj"])
            self.names.append(f"{at}.obj")
            self.lengths.append(Path(folder, f"{at}.obj").stat().st_size // 2 - 1)

    def call(self, words, given="", statuses=(0,)):
        done = subprocess.run([self.program, *words], input=given, capture_output=True, text=True, cwd=self.folder)
        if done.returncode not in statuses:
            raise RuntimeError(f"{words}: {done.stderr}")
        return done.stdout

    def look(self, steps):
        """The world after these steps."""
        commands = ["run " + " ".join(f"{it}*1" for it in steps)]
        pids = range(len(self.names))
        shown = [["procs"], ["sems"], ["mqs"], [f"out {pid}" for pid in pids],
                 [f"{word} {pid}" for pid in pids for word in ("regs", "fds")]
                 + [f"mem {pid} {FIRST} {self.lengths[pid]}" for pid in pids]]
        for words in shown:
            commands += [PAUSE, *words]
        return World(self.call(["debug", *self.names], "\n".join([*commands, "quit", ""])))

    def report(self, steps):
        return self.call(["step", *self.names], " ".join(f"{it}*1" for it in steps))


class Enumeration:
    """All worlds of a laboratory: of each some steps to it, and for each process the world after its step, or None."""

    def __init__(self, laboratory):
        self.laboratory = laboratory
        start = laboratory.look([])
        self.ways, self.after, todo = {start: []}, {}, [start]
        while todo and len(self.ways) <= MOST_WORLDS:
            world = todo.pop()
            self.after[world] = []
            for pid in range(len(laboratory.names)):
                steps = [*self.ways[world], pid]
                there = laboratory.look(steps)
                # the line of `run` is the same for the same world
                self.after[world].append(None if there == world else there)
                if there not in self.ways:
                    self.ways[there] = steps
                    todo.append(there)
        self.is_whole = not todo

    @cached_property
    def ends(self):
        """The worlds in which no step changes anything."""
        return [world for world, following in self.after.items() if not any(following)]

    @cached_property
    def reports(self):
        return {self.laboratory.report(self.ways[it]) for it in self.ends}

    @cached_property
    def has_cycle(self):
        """Whether some worlds are left when those to which none leads are taken away, again and again."""
        before = dict.fromkeys(self.after, 0)
        for following in self.after.values():
            for it in filter(None, following):
                before[it] += 1
        free = [it for it, count in before.items() if count == 0]
        gone = 0
        while free:
            gone += 1
            for it in filter(None, self.after[free.pop()]):
                before[it] -= 1
                if before[it] == 0:
                    free.append(it)
        return gone < len(self.after)


    @cached_property
    def has_fair_cycle(self):
        """Whether in some strongly connected worlds a step leads from one to another, and each process takes such a step, or
        has none that changes anything in one of them."""
        return any(self.serves(worlds) for worlds in strongly_connected(self.after))

    def serves(self, worlds):
        inside = set(worlds)
        taken = {pid for world in worlds for pid, there in enumerate(self.after[world]) if there in inside}
        still = {pid for world in worlds for pid, there in enumerate(self.after[world]) if there is None}
        return bool(taken) and taken | still == set(range(len(self.laboratory.names)))


def strongly_connected(after):
    """The sets of worlds in which each leads to each other, by Kosaraju's two passes."""
    seen, left = set(), []
    for start in after:
        todo = [] if start in seen else [(start, iter(after[start]))]
        seen.add(start)
        while todo:
            world, rest = todo[-1]
            there = next((it for it in rest if it is not None and it not in seen), None)
            if there is None:
                left.append(todo.pop()[0])
            else:
                seen.add(there)
                todo.append((there, iter(after[there])))
    before = {world: [] for world in after}
    for world, following in after.items():
        for it in filter(None, following):
            before[it].append(world)
    sets, placed = [], set()
    for start in reversed(left):
        todo = [] if start in placed else [start]
        placed.add(start)
        found = []
        while todo:
            found.append(todo.pop())
            for it in before[found[-1]]:
                if it not in placed:
                    placed.add(it)
                    todo.append(it)
        if found:
            sets.append(found)
    return sets


def for_sets(look, count, seed):
    """What `look` finds at each of so many seeds, some side by side."""
    with ThreadPoolExecutor(WORKERS) as pool:
        yield from pool.map(look, range(seed, seed + count))
