#!/usr/bin/env python3
"""Compares a program's answers with those of tests/reference.py.

    tests/compare.py PROGRAM [COUNT] [SEED] [--stats]

makes COUNT random requests (4000 if not given) from SEED (1 if not given),
sends them all to `PROGRAM batch`, and compares the answers line by line. The
first few differences are printed with their requests. The last line is
`N compared, M different`. The exit status is 1 if M is not 0 or if the program
gave more or fewer lines than requests. The same seed makes the same requests.

`--stats` also prints how often each answer came, by number.

Answers that begin with the word `error` are alike, whatever the reason is.
"""

import argparse
import random
import subprocess
import sys
from collections import Counter

sys.dont_write_bytecode = True

import reference
from reference import (
    EFFECT, END, GOAL, IF, IFMOVE, MOVE, NEED, NO_MOVE, OPERANDS, PLAN_LIMIT, SIZES, START,
    STATIONS, STEP, TASK_LIMIT, THEN, WITH, is_plain, number_of,
)

SHOWN = 5  # differences that are printed

# A task is made as a list of commands, each of type bytes, so that it can be
# changed by whole commands. A plan is a list of STEPs in the same way.

LITERALS = (START, GOAL, NEED, WITH, IF, IFMOVE, THEN)


# ---- well-formed tasks and plans ----

def random_sizes(rng):
    if rng.random() < 0.04:
        return 16, 128, 64
    n = 16 if rng.random() < 0.05 else rng.randint(1, 4)
    f = 128 if rng.random() < 0.05 else rng.choice((1, 2, 3, 4, 4, 5, 5, 6, 6))
    m = 64 if rng.random() < 0.03 else rng.choice((1, 2, 3, 4, 4, 5, 5, 6, 6))
    return n, f, m


def some_literals(rng, command, numbers, count):
    """So many commands, of different numbers, as far as there are so many."""
    chosen = rng.sample(numbers, min(count, len(numbers)))
    return [bytes([command, x | rng.choice((0x00, 0x80))]) for x in chosen]


def mixed(rng, *lists):
    """The commands of all lists, in any order."""
    commands = [command for some in lists for command in some]
    rng.shuffle(commands)
    return commands


def random_task(rng):
    """A task without goals."""
    n, f, m = random_sizes(rng)
    # With many fluents, only a few are used, or no two literals would meet.
    fluents = list(range(f)) if f <= 6 else [0, 1, 63, 64, 126, 127]
    moves = list(range(m))
    stations = list(range(n)) if rng.random() < 0.7 else [0, n - 1]
    most = rng.choice((1, 1, 2, 3))  # how full the lists are
    few = lambda: rng.randint(0, most) if rng.random() < 0.6 else 0
    starts = [bytes([START, x]) for x in fluents if rng.random() < 0.5]
    commands = [bytes([SIZES, n, f, m])] + mixed(rng, starts)
    for _ in moves:
        commands.append(bytes([MOVE, rng.choice(stations)]))
        needs = some_literals(rng, NEED, fluents, few())
        companions = some_literals(rng, WITH, moves, few())
        commands += mixed(rng, needs, companions)
        for _ in range(8 if rng.random() < 0.03 else rng.choice((0, 1, 1, 2, 2, 3))):
            commands.append(bytes([EFFECT]))
            conditions = some_literals(rng, IF, fluents, few())
            move_conditions = some_literals(rng, IFMOVE, moves, few())
            results = some_literals(rng, THEN, fluents, rng.randint(0, most + 1))
            commands += mixed(rng, conditions, move_conditions, results)
    return commands + [bytes([END])]


def with_goal(rng, commands, goal):
    """The task with GOALs for these literals, mixed with its STARTs."""
    starts = [command for command in commands if command[0] == START]
    goals = [bytes([GOAL, x]) for x in goal]
    return commands[:1] + mixed(rng, starts, goals) + commands[1 + len(starts):]


def step_of(task, moves):
    """The STEP that has these moves."""
    operands = [NO_MOVE] * STATIONS
    for move in moves:
        operands[task.moves[move].station] = move
    return bytes([STEP] + operands)


def random_moves(rng, task):
    """A set of moves with at most one of each station. Companions often come along."""
    moves = {}  # station -> move

    def add(move):
        moves.setdefault(task.moves[move].station, move)

    for _ in range(rng.randint(1, min(task.n, 4))):
        add(rng.randrange(task.m))
    if rng.random() < 0.7:
        for move in list(moves.values()):
            for x in task.moves[move].companions:
                if is_plain(x):
                    add(number_of(x))
    return set(moves.values())


def allowed_moves(rng, task, states):
    """Moves that are allowed in the last of the states; if possible, they lead to a new one."""
    found = set()
    for _ in range(20):
        moves = random_moves(rng, task)
        if reference.refusal_of(task, states[-1], moves) is None:
            found = moves
            if reference.after(task, states[-1], moves) not in states:
                break
    return found


def refused_moves(rng, task, state):
    """Moves that are refused here, by a number drawn beforehand if possible, or None."""
    wanted = rng.choices((12, 13, 14, 15), (1, 2, 2, 4))[0]
    found = None
    for _ in range(40):
        moves = random_moves(rng, task)
        number = reference.refusal_of(task, state, moves)
        if number is not None:
            found = moves
            if number == wanted:
                break
    return found


def random_goal(rng, task, state):
    """Literals that hold in the state, of all fluents or of some."""
    fluents = range(task.f)
    if rng.random() < 0.6:
        fluents = rng.sample(fluents, rng.randint(0, task.f))
    return [x if x in state else x | 0x80 for x in fluents]


def task_and_plan(rng):
    """A well-formed task and plan: about half of them solve, most others fail late."""
    commands = random_task(rng)
    task = reference.read_task(b"".join(commands))
    plan = []
    states = [set(task.start)]
    for _ in range(rng.choice((0, 1, 2, 3, 3, 4, 4, 5, 6, 8, 12))):
        moves = allowed_moves(rng, task, states)
        states.append(reference.after(task, states[-1], moves))
        plan.append(step_of(task, moves))
    # The goal is met at the end, or somewhere on the way, or one literal is missed.
    ending = rng.choices(("end", "way", "miss"), (7, 1, 2))[0]
    goal = random_goal(rng, task, rng.choice(states) if ending == "way" else states[-1])
    if ending == "miss" and goal:
        goal[rng.randrange(len(goal))] ^= 0x80
    if rng.random() < 0.5:
        moves = refused_moves(rng, task, states[-1])
        if moves is not None:
            plan.append(step_of(task, moves))
            while rng.random() < 0.3:
                plan.append(step_of(task, random_moves(rng, task)))
    return with_goal(rng, commands, goal), plan


def well_formed(rng):
    commands, plan = task_and_plan(rng)
    return b"".join(commands), b"".join(plan)


# ---- changed bytes and changed commands ----

def changed_bytes(rng, data):
    """One change of the bytes, of a random kind."""
    if not data:
        return rng.randbytes(rng.randint(1, 3))
    at = rng.randrange(len(data))
    to = rng.randint(at, min(len(data), at + 8))
    kind = rng.randrange(7)
    if kind == 0:  # flip a bit
        return data[:at] + bytes([data[at] ^ (1 << rng.randrange(8))]) + data[at + 1:]
    if kind == 1:  # any other byte
        return data[:at] + rng.randbytes(1) + data[at + 1:]
    if kind == 2:  # delete
        return data[:at] + data[at + 1:]
    if kind == 3:  # insert
        return data[:at] + bytes([rng.choice((rng.randrange(16), rng.randrange(256)))]) + data[at:]
    if kind == 4:  # duplicate
        return data[:to] + data[at:]
    if kind == 5:  # truncate
        return data[:at]
    return data + rng.randbytes(rng.randint(1, 3))  # append


def random_command(rng):
    """A known command with operands that may be out of range."""
    command = rng.choice(list(OPERANDS))
    small = lambda: rng.choice((0, 1, 2, 3, 0x80, 0x81, rng.randrange(256)))
    return bytes([command] + [small() for _ in range(OPERANDS[command])])


def edge_operand(rng, command, sizes):
    """The command with an operand at the edge of its range."""
    n, f, m = sizes
    if command[0] == SIZES:
        which = rng.randrange(3)
        most = (16, 128, 64)[which]
        changed = bytearray(command)
        changed[1 + which] = rng.choice((0, 0, 1, most, most + 1, most + 1, 0x80, 0xFF))
        return bytes(changed)
    bound = {MOVE: n, WITH: m, IFMOVE: m}.get(command[0], f)
    edge = rng.choice((bound - 1, bound, bound, 0, 0x7F))
    return bytes([command[0], (edge | rng.choice((0x00, 0x80))) & 0xFF])


def changed_commands(rng, commands):
    """One change of whole commands, of a random kind."""
    if not commands:
        return [random_command(rng)]
    changed = list(commands)
    at = rng.randrange(len(changed))
    kind = rng.choice((
        "swap", "delete", "duplicate", "insert", "after END", "effects", "effects", "repeat", "repeat",
        "repeat", "edge", "edge", "edge", "sizes", "sizes", "more moves", "fewer moves", "truncate",
    ))
    if kind == "swap":
        other = rng.choice((rng.randrange(len(changed)), max(at - 1, 0)))
        changed[at], changed[other] = changed[other], changed[at]
    elif kind == "delete":
        del changed[at]
    elif kind == "duplicate":
        changed.insert(rng.choice((at, rng.randint(0, len(changed)))), changed[at])
    elif kind == "insert":
        changed.insert(at, random_command(rng))
    elif kind == "after END":
        whole = random_command(rng)
        changed.append(rng.choice((whole, whole[:1], rng.randbytes(1), whole + b"\x00", b"".join(commands))))
    elif kind == "effects":  # up to eight or nine in one move
        places = [i for i, command in enumerate(changed) if command[0] == MOVE]
        if places:
            at = rng.choice(places) + 1
            while at < len(changed) and changed[at][0] in (NEED, WITH):
                at += 1
            end = at
            while end < len(changed) and changed[end][0] in (EFFECT, IF, IFMOVE, THEN):
                end += 1
            have = sum(command[0] == EFFECT for command in changed[at:end])
            more = max(rng.choice((8, 9, 9, 10)) - have, 0)
            place = rng.choice((at, end))
            changed[place:place] = [bytes([EFFECT])] * more
    elif kind == "repeat":  # the same number again in its list, with either sign
        places = [i for i, command in enumerate(changed) if command[0] in LITERALS]
        if places:
            at = rng.choice(places)
            again = bytes([changed[at][0], changed[at][1] ^ rng.choice((0x00, 0x80))])
            changed.insert(min(at + rng.randint(1, 4), len(changed)), again)
    elif kind == "edge":
        places = [i for i, command in enumerate(changed) if len(command) == 2]
        if places and len(changed[0]) == 4:
            at = rng.choice(places)
            changed[at] = edge_operand(rng, changed[at], changed[0][1:])
    elif kind == "sizes":
        if changed[0][0] == SIZES and len(changed[0]) == 4:
            changed[0] = edge_operand(rng, changed[0], changed[0][1:])
    elif kind in ("more moves", "fewer moves"):
        places = [i for i, command in enumerate(changed) if command[0] == MOVE]
        if places and kind == "fewer moves":
            del changed[places[-1]:-1]
        elif places:
            changed[-1:-1] = changed[places[-1]:-1]
    else:
        del changed[at:]
    return changed


def changed_task(rng):
    commands, plan = task_and_plan(rng)
    for _ in range(rng.choice((1, 1, 1, 2, 3))):
        commands = changed_commands(rng, commands)
    task = b"".join(commands)
    if rng.random() < 0.3:
        task = changed_bytes(rng, task)
    plan = b"".join(plan)
    if rng.random() < 0.2:
        plan = changed_bytes(rng, plan)
    return task, plan


def changed_task_bytes(rng):
    task, plan = well_formed(rng)
    for _ in range(rng.choice((1, 1, 2))):
        task = changed_bytes(rng, task)
    return task, plan


def changed_plan(rng):
    task, plan = well_formed(rng)
    for _ in range(rng.choice((1, 1, 2))):
        plan = changed_bytes(rng, plan)
    return task, plan


# ---- plans with wrong operands ----

def wrong_operands(rng):
    commands, plan = task_and_plan(rng)
    data = b"".join(commands)
    task = reference.read_task(data)
    plan = plan or [step_of(task, ())]
    for _ in range(rng.choice((1, 1, 2, 3))):
        # Often the last step, after steps that are refused when they are made.
        at = rng.choice((len(plan) - 1, rng.randrange(len(plan))))
        step = bytearray(plan[at])
        move = rng.randrange(task.m)
        kind = rng.randrange(5)
        if kind == 0:  # any station, mostly the wrong one
            step[1 + rng.randrange(task.n)] = move
        elif kind == 1:  # a station from n on
            step[1 + rng.choice((min(task.n, STATIONS - 1), STATIONS - 1))] = move
        elif kind == 2:  # out of range, or just within
            wrong = (task.m, task.m - 1, task.m | 0x80, move | 0x80, 0x40, 0x7F, 0xFE)
            step[1 + rng.randrange(STATIONS)] = rng.choice(wrong)
        elif kind == 3:  # the same move twice
            step[1 + task.moves[move].station] = move
            step[1 + rng.randrange(STATIONS)] = move
        else:  # another move of the station: well-formed
            step[1 + task.moves[move].station] = move
        plan[at] = bytes(step)
    return data, b"".join(plan)


# ---- short files of any bytes ----

def short_bytes(rng, likely):
    if rng.random() < 0.3:
        return rng.randbytes(rng.randint(0, 20))
    return bytes(rng.choice(likely) for _ in range(rng.randint(0, 20)))


def short_files(rng):
    """Random bytes as a task, as what follows SIZES or MOVE, or as a plan."""
    likely = list(OPERANDS) + [0, 0, 1, 0x80, 0x81]
    plan = short_bytes(rng, (STEP, NO_MOVE, 0, 1))
    start = rng.choice((b"", b"\x01\x01\x01\x01", b"\x01\x02\x02\x02", b"\x01\x01\x01\x01\x04\x00"))
    task = start + short_bytes(rng, likely)
    if rng.random() < 0.3:
        task = b"\x01\x01\x01\x01\x04\x00\x0F"
    return task, plan


# ---- files at their limits ----

def long_task(rng, length):
    """A task of about this length, 8,000 to 8,200 bytes. Move 0 at station 15 meets the goal."""
    f, m = 128, 64
    commands = [bytes([SIZES, 16, f, m]), bytes([GOAL, 0])]
    commands += [bytes([MOVE, 15]), bytes([EFFECT]), bytes([THEN, 0])]
    # The other moves have one effect each that is never triggered: it needs its own move
    # to be absent. An effect takes 3 bytes and 2 for each result.
    left = length - len(b"".join(commands)) - 2 * (m - 1) - 1
    effects = 62 + left % 2
    results = (left - 3 * effects) // 2
    for move in range(1, m):
        commands.append(bytes([MOVE, 0]))
        if move <= effects:
            commands += [bytes([EFFECT]), bytes([IFMOVE, move | 0x80])]
            share = results // (effects + 1 - move)
            results -= share
            for fluent in rng.sample(range(f), share):
                commands.append(bytes([THEN, fluent | rng.choice((0x00, 0x80))]))
    return b"".join(commands + [bytes([END])])


def task_at_limit(rng):
    kind = rng.randrange(5)
    if kind == 0:  # just within
        task = long_task(rng, rng.choice((TASK_LIMIT - 1, TASK_LIMIT)))
    elif kind == 1:  # just over, and well-formed but for that
        task = long_task(rng, TASK_LIMIT + 1)
    elif kind == 2:  # over, with something after END
        task = long_task(rng, TASK_LIMIT) + rng.randbytes(rng.choice((1, 2, 1000)))
    elif kind == 3:  # over, with any bytes
        task = rng.randbytes(TASK_LIMIT + rng.choice((1, 2, 1000)))
    else:  # just within, with a fault in the last byte
        last = bytes([rng.choice((0x00, START, THEN, EFFECT, END))])
        task = rng.choice((long_task(rng, TASK_LIMIT)[:-1], long_task(rng, TASK_LIMIT - 1))) + last
    plan = b"\x31" + b"\xFF" * 15 + rng.choice((b"\x00", b"\xFF"))
    return task, rng.choice((plan, plan, plan, plan[:-1], rng.randbytes(PLAN_LIMIT + 1)))


def plan_at_limit(rng):
    commands, steps = task_and_plan(rng)
    task = b"".join(commands)
    idle = [b"\x31" + b"\xFF" * 16] * (256 - len(steps))
    # Idle steps last, or idle steps first, so that the plan fails late.
    plan = b"".join(rng.choice((steps + idle, idle + steps)))
    kind = rng.randrange(5)
    if kind == 0:  # over by some bytes or by a step
        plan += rng.choice((b"\x31", b"\x00", plan[:17], plan))
    elif kind == 1:  # over, with any bytes
        plan = rng.randbytes(PLAN_LIMIT + rng.choice((1, 2, 1000)))
    elif kind == 2:  # a fault in the last step
        plan = plan[:-17] + changed_bytes(rng, plan[-17:])[:17]
    if rng.random() < 0.2:
        task = changed_bytes(rng, task)
    return task, plan


# ---- requests ----

def digits(data):
    return data.hex() if data else "-"


def request(task, plan):
    return f"judge-joint written {digits(task)} {digits(plan)}"


def other_line(rng):
    """A line that is no request, or a request that is about as long as it may be."""
    line = request(*well_formed(rng))
    kind = rng.randrange(8)
    if kind == 0:  # too long: 262,145 bytes
        return request(bytes(131061), b"\x31")
    if kind == 1:  # just short enough: 262,143 bytes
        return request(bytes(131060), b"\x31")
    return {
        2: "",
        3: line.replace("judge-joint", "judge"),
        4: line.rsplit(" ", 1)[0],
        5: line + "0",
        6: line + " -",
        7: line.replace(" 01", " 0g", 1),
    }[kind]


def random_request(rng):
    makers = {
        well_formed: 44,
        changed_task: 26,
        changed_task_bytes: 6,
        changed_plan: 6,
        wrong_operands: 11,
        short_files: 5,
        task_at_limit: 1.5,
        plan_at_limit: 1.5,
    }
    if rng.random() < 0.005:
        return other_line(rng)
    maker = rng.choices(list(makers), list(makers.values()))[0]
    return request(*maker(rng))


# ---- comparison ----

def alike(given, expected):
    if expected == "error":
        return given.split(" ")[0] == "error"
    return given == expected


def kind_of(answer):
    """`solves`, `error`, or the number of the refusal."""
    words = answer.split(" ")
    return words[1] if words[0] == "refused" else words[0]


def shown(line):
    return line if len(line) <= 20000 else f"{line[:200]}... ({len(line)} bytes)"


def main():
    parser = argparse.ArgumentParser(description="Compares a program's answers with tests/reference.py.")
    parser.add_argument("program")
    parser.add_argument("count", nargs="?", type=int, default=4000)
    parser.add_argument("seed", nargs="?", type=int, default=1)
    parser.add_argument("--stats", action="store_true", help="print how often each answer came")
    given = parser.parse_args()

    rng = random.Random(given.seed)
    requests = [random_request(rng) for _ in range(given.count)]
    expected = [reference.answer(line.encode("ascii")) for line in requests]
    if given.stats:
        counts = Counter(map(kind_of, expected))
        names = ["solves", "1", "2", "3", "4", "5", "6", "7", "12", "13", "14", "15", "16", "error"]
        print("stats: " + ", ".join(f"{name}: {counts[name]}" for name in names))

    text = "".join(line + "\n" for line in requests)
    done = subprocess.run([given.program, "batch"], input=text.encode("ascii"), stdout=subprocess.PIPE)
    answers = done.stdout.decode("utf-8", "replace").split("\n")
    if answers[-1] == "":
        answers.pop()
    if done.returncode != 0:
        print(f"the program ended with status {done.returncode}")

    different = 0
    for index, (line, answer, right) in enumerate(zip(requests, answers, expected)):
        if not alike(answer, right):
            different += 1
            if different <= SHOWN:
                print(f"request {index}: {shown(line)}")
                print(f"  program:   {shown(answer)}")
                print(f"  reference: {right}")
    if len(answers) != len(requests):
        print(f"{len(requests)} requests, but {len(answers)} answer lines")
    print(f"{min(len(answers), len(requests))} compared, {different} different")
    return 1 if different or len(answers) != len(requests) else 0


if __name__ == "__main__":
    sys.exit(main())
