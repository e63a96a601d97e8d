"""A made-up class for the task 3-lost-update: no two are equal, and the verdicts of each follow from how it was made."""
import os
import random

# The parts of an adder. {0} is what a student puts before each of its labels.
OPEN = """
      LEA R0,{0}COUNTER
      LD R1,{0}FLAGS
      AND R2,R2,#0
      TRAP x40
      ADD R4,R0,#0
      LEA R0,{0}FINISHED
      TRAP x50
      ADD R5,R0,#0
"""
OPEN_LOCK = """
      LEA R0,{0}LOCK
      AND R2,R2,#0
      ADD R2,R2,#1
      TRAP x50
      ST R0,{0}SLOT
"""
TAKE = """
      ADD R0,R4,#0
      LEA R1,{0}NUMBER
      LD R2,{0}LENGTH
      AND R3,R3,#0
      TRAP x44
"""
PUT = """
      ADD R0,R4,#0
      LEA R1,{0}NUMBER
      AND R2,R2,#0
      ADD R2,R2,#1
      AND R3,R3,#0
      TRAP x43
"""
READ = TAKE + PUT + "      LD R6,{0}NUMBER\n"
ADD = "      ADD R6,R6,#1\n"
KEEP = "      ST R6,{0}NUMBER\n"
WRITE = TAKE + KEEP + PUT
LOCK = "      LD R0,{0}SLOT\n      TRAP x53\n"
ASK = "{0}ASK  LD R0,{0}SLOT\n      TRAP x54\n      ADD R0,R0,#0\n      BRn {0}ASK\n"
UNLOCK = "      LD R0,{0}SLOT\n      TRAP x55\n"
DONE = "      ADD R0,R5,#0\n      TRAP x55\n"
TWO = "      AND R6,R6,#0\n      ADD R6,R6,#2\n"
PUTS = "      LEA R0,{0}TEXT\n      PUTS\n"
LOOP = "{0}LOOP BR {0}LOOP\n"
PRINT_FOR_EVER = "{0}AGAIN LEA R0,{0}TEXT\n      PUTS\n      BR {0}AGAIN\n"
PRINT_AND_POST_FOR_EVER = "{0}AGAIN LEA R0,{0}TEXT\n      PUTS\n      LD R0,{0}SLOT\n      TRAP x55\n      BR {0}AGAIN\n"
ILLEGAL = "      .FILL xD000\n"
# takes a lock of its own and the other's: who comes first, in one order, the other in the other one
CROSSED = """
      LEA R0,{0}FIRST
      LD R1,{0}NEW
      TRAP x50
      ADD R6,R0,#0
      LD R1,{0}FLAGS
      LEA R0,{0}FIRST
      TRAP x50
      ADD R3,R0,#0
      LD R0,{0}SLOT
      ADD R6,R6,#0
      BRn {0}ELSE
      TRAP x53
      ADD R0,R3,#0
      TRAP x53
      BR {0}BOTH
{0}ELSE ADD R0,R3,#0
      TRAP x53
      LD R0,{0}SLOT
      TRAP x53
{0}BOTH ADD R0,R3,#0
      TRAP x55
      LD R0,{0}SLOT
      TRAP x55
"""
DATA = """
      HALT
{0}COUNTER .STRINGZ "/counter"
{0}FINISHED .STRINGZ "/finished"
{0}LOCK .STRINGZ "/{1}"
{0}FIRST .STRINGZ "/first-{1}"
{0}FLAGS .FILL x42
{0}NEW .FILL xC0
{0}LENGTH .FILL 16
{0}SLOT .BLKW 1
{0}NUMBER .BLKW 16
{0}TEXT .STRINGZ "{2}"
      .END
"""
# steps between two parts that change nothing
NOTHING = ["", "", "      ADD R6,R6,#0\n", "      NOT R6,R6\n      NOT R6,R6\n"]
REPORT = "\\nverdict ended\\ncomplete 9 worlds\\n  1 P1 x3000 +0 mq_receive(0</counter>) = 0\\n"
LOCKED = [OPEN, OPEN_LOCK, LOCK, READ, ADD, WRITE, UNLOCK, DONE]
EACH = {it: [it, it, it] for it in ("pass", "wrong output", "not halted", "not empty", "incomplete", "incomplete or too long",
                                    "no program")}
# right where there is no other adder
BOTH = {it: [it, it, "pass"] for it in ("not same", "not halted", "endless")}
# how many of 50 hand in what: the parts of a program or what else is made, the text that it prints, and the verdicts
KINDS = [
    (14, LOCKED, "", EACH["pass"]),
    (6, [OPEN, TAKE, "      LD R6,{0}NUMBER\n", ADD, KEEP, PUT, DONE], "", EACH["pass"]),
    (7, [OPEN, READ, ADD, WRITE, DONE], "", BOTH["not same"]),
    (2, [OPEN, OPEN_LOCK, READ, LOCK, ADD, WRITE, UNLOCK, DONE], "", BOTH["not same"]),
    (1, [OPEN, OPEN_LOCK, LOCK, READ, UNLOCK, ADD, WRITE, DONE], "", BOTH["not same"]),
    (2, [OPEN, OPEN_LOCK, LOCK, READ, ADD, ADD, WRITE, UNLOCK, DONE], "", EACH["wrong output"]),
    (1, [OPEN, OPEN_LOCK, LOCK, TAKE, TWO, KEEP, PUT, UNLOCK, DONE], "", EACH["wrong output"]),
    (2, [OPEN, OPEN_LOCK, LOCK, READ, ADD, WRITE, DONE], "", BOTH["not halted"]),
    (1, [OPEN, OPEN_LOCK, LOCK, READ, ADD, WRITE, UNLOCK], "", EACH["not halted"]),
    (1, [OPEN, OPEN_LOCK, LOCK, READ, ADD, WRITE, PUT, UNLOCK, DONE], "", EACH["not empty"]),
    (1, [OPEN, OPEN_LOCK, ASK, READ, ADD, WRITE, UNLOCK, DONE], "", BOTH["endless"]),
    (1, [OPEN, OPEN_LOCK, CROSSED, READ, ADD, WRITE, DONE], "", BOTH["not halted"]),
    (1, [OPEN, LOOP], "", EACH["incomplete"]),
    (1, [OPEN, PRINT_FOR_EVER], "A line. ", EACH["incomplete"]),
    (1, [OPEN, OPEN_LOCK, PRINT_AND_POST_FOR_EVER], "A line. ", EACH["incomplete or too long"]),
    (1, [OPEN, OPEN_LOCK, LOCK, READ, ADD, WRITE, UNLOCK, DONE, ILLEGAL], "", EACH["not halted"]),
    (1, [OPEN, OPEN_LOCK, LOCK, READ, ADD, WRITE, UNLOCK, DONE, PUTS], "done\\n", EACH["wrong output"]),
    (1, [PUTS, *LOCKED], REPORT, EACH["wrong output"]),
    (1, "no orig", "", EACH["no program"]),
    (1, "missing", "", EACH["no program"]),
    (1, "link", "", EACH["no program"]),
    (1, "fifo", "", EACH["no program"]),
    (1, "too large", "", EACH["no program"]),
]
OF_FIFTY = [kind for kind in KINDS for _ in range(kind[0])]
NAMES = ["Anna", "Ben", "Cleo D", "O'Neil", "Jo\u00e3o", "x: pass", "-v", "a\nb"]


def source(parts, text, chance):
    """A program of these parts, with labels, names, comments and steps without a meaning that nobody else has."""
    label = "".join(chance.choice("ABCDEFGHKLMNP") for _ in range(4)) + "_"
    lock = "".join(chance.choice("abcdefghklmnp") for _ in range(6))
    between = [part + chance.choice(NOTHING) for part in parts]
    return f"; {chance.random()}\n      .ORIG x3000\n" + ("".join(between) + DATA).format(label, lock, text)


def hand_in(folder, kind, chance):
    """Makes the folder of one student."""
    _, parts, text, _ = kind
    folder.mkdir(parents=True)
    file = folder / "add.asm"
    if parts == "no orig":
        file.write_text(f"; {chance.random()}\nADD R0,R0\n")
    elif parts == "missing":
        (folder / "Add.asm.txt").write_text(source(LOCKED, "", chance))
    elif parts == "link":
        (folder.parent / "answer.asm").write_text(source(LOCKED, "", chance))
        file.symlink_to("../answer.asm")
    elif parts == "fifo":
        os.mkfifo(file)
    elif parts == "too large":
        file.write_text(source(LOCKED, "", chance) + "; and so on\n" * 400_000)
    else:
        file.write_text(source(parts, text, chance))


def make(class_, count):
    """So many folders, in the order of their numbers, each with the verdicts of its three runs."""
    made = {}
    for number in range(count):
        chance = random.Random(number)
        kind = OF_FIFTY[number * 7 % 50]
        folder = class_ / f"{NAMES[number % len(NAMES)]} {number:04}"
        hand_in(folder, kind, chance)
        made[str(folder)] = kind[3]
    return made
