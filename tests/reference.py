#!/usr/bin/env python3
"""A second judge of joint plans, for comparison.

It was written from docs/FORMATS.md, docs/REFUSALS.md and docs/MEANING.md
alone, without looking at the program that it is compared with. Keep it so:
where it differs from the program, ask the pages which of the two is right.

    judge_joint(task, plan)    answers `solves` or `refused N LAYER PLACE`

Run as a program it reads lines `judge-joint written TASK PLAN` from standard
input and writes one answer a line. Every other line is answered by `error`.
"""

import re
import sys
from dataclasses import dataclass, field

TASK_LIMIT = 8192
PLAN_LIMIT = 4352
LINE_LIMIT = 262144

SIZES = 0x01
START = 0x02
GOAL = 0x03
MOVE = 0x04
NEED = 0x05
WITH = 0x06
EFFECT = 0x07
IF = 0x08
IFMOVE = 0x09
THEN = 0x0A
END = 0x0F

# How many operands each command of a task has.
OPERANDS = {
    SIZES: 3, START: 1, GOAL: 1, MOVE: 1, NEED: 1, WITH: 1,
    EFFECT: 0, IF: 1, IFMOVE: 1, THEN: 1, END: 0,
}

# Which commands may follow in which part of a task. MOVE and END also depend
# on the count of moves, see in_order.
FOLLOW = {
    "file": {SIZES},
    "head": {START, GOAL, MOVE, END},
    "move": {NEED, WITH, EFFECT, MOVE, END},
    "effect": {IF, IFMOVE, THEN, EFFECT, MOVE, END},
    "end": set(),
}

STEP = 0x31
STATIONS = 16
NO_MOVE = 0xFF


class Refused(Exception):
    def __init__(self, number, place):
        super().__init__(number, place)
        self.number = number
        self.place = place


# Lists of literals hold the bytes of the file: low seven bits the number, high
# bit "not".

@dataclass
class Effect:
    conditions: list = field(default_factory=list)
    move_conditions: list = field(default_factory=list)
    results: list = field(default_factory=list)


@dataclass
class Move:
    station: int
    needs: list = field(default_factory=list)
    companions: list = field(default_factory=list)
    effects: list = field(default_factory=list)


@dataclass
class Task:
    n: int
    f: int
    m: int
    start: list = field(default_factory=list)
    goal: list = field(default_factory=list)
    moves: list = field(default_factory=list)


def number_of(literal):
    return literal & 0x7F


def is_plain(literal):
    return literal < 0x80


# The form of a task.

def in_order(command, part, task):
    if command not in FOLLOW[part]:
        return False
    if command == MOVE:
        return len(task.moves) < task.m
    if command == END:
        return len(task.moves) == task.m
    return True


def in_range(command, operands, task):
    if command == SIZES:
        n, f, m = operands
        return 1 <= n <= 16 and 1 <= f <= 128 and 1 <= m <= 64
    if command == START:
        return operands[0] < task.f
    if command == MOVE:
        return operands[0] < task.n
    if command in (GOAL, NEED, IF, THEN):
        return number_of(operands[0]) < task.f
    if command in (WITH, IFMOVE):
        return number_of(operands[0]) < task.m
    return True


def read_task(data):
    if len(data) > TASK_LIMIT:
        raise Refused(1, 0)
    task = None
    part = "file"
    lists = {}  # command -> the list that it adds to at this point of the file
    at = 0
    while part != "end" or at < len(data):
        if at == len(data) or data[at] not in OPERANDS:
            raise Refused(2, at)
        command = data[at]
        operands = data[at + 1:at + 1 + OPERANDS[command]]
        if len(operands) < OPERANDS[command]:
            raise Refused(2, at)
        if not in_order(command, part, task):
            raise Refused(3, at)
        if not in_range(command, operands, task):
            raise Refused(4, at)
        if command == SIZES:
            task = Task(*operands)
            lists[START] = task.start
            lists[GOAL] = task.goal
            part = "head"
        elif command == MOVE:
            move = Move(operands[0])
            task.moves.append(move)
            lists[NEED] = move.needs
            lists[WITH] = move.companions
            part = "move"
        elif command == EFFECT:
            effects = task.moves[-1].effects
            if len(effects) == 8:
                raise Refused(6, at)
            effect = Effect()
            effects.append(effect)
            lists[IF] = effect.conditions
            lists[IFMOVE] = effect.move_conditions
            lists[THEN] = effect.results
            part = "effect"
        elif command == END:
            part = "end"
        else:
            if number_of(operands[0]) in map(number_of, lists[command]):
                raise Refused(5, at)
            lists[command].append(operands[0])
        at += 1 + len(operands)
    return task


# The form of a plan. The answer is a list of steps, each a set of moves.

def read_plan(data, task):
    if len(data) > PLAN_LIMIT:
        raise Refused(1, 0)
    steps = []
    for at in range(0, len(data), 1 + STATIONS):
        operands = data[at + 1:at + 1 + STATIONS]
        if data[at] != STEP or len(operands) < STATIONS:
            raise Refused(2, at)
        for move in operands:
            if move != NO_MOVE and move >= task.m:
                raise Refused(4, at)
        for station, move in enumerate(operands):
            if move != NO_MOVE and task.moves[move].station != station:
                raise Refused(7, at)
        steps.append({move for move in operands if move != NO_MOVE})
    return steps


# Steps. A state is the set of the fluents that are true.

def holds(literals, numbers):
    """Each literal's number is in the set, or with "not" is not in it."""
    return all((number_of(x) in numbers) == is_plain(x) for x in literals)


def results_of(task, state, step):
    """The results of the effects that the step triggers, as a set."""
    results = set()
    for move in step:
        for effect in task.moves[move].effects:
            if holds(effect.conditions, state) and holds(effect.move_conditions, step):
                results.update(effect.results)
    return results


def refusal_of(task, state, step):
    """The number of the first question that is answered no, or None."""
    moves = [task.moves[move] for move in step]
    companions = [x for move in moves for x in move.companions]
    if not all(holds(move.needs, state) for move in moves):
        return 12
    if any(is_plain(x) and number_of(x) not in step for x in companions):
        return 13
    if any(not is_plain(x) and number_of(x) in step for x in companions):
        return 14
    results = results_of(task, state, step)
    if any(x ^ 0x80 in results for x in results):
        return 15
    return None


def after(task, state, step):
    """The state after a step that is allowed."""
    results = results_of(task, state, step)
    made = {number_of(x) for x in results if is_plain(x)}
    unmade = {number_of(x) for x in results if not is_plain(x)}
    return (state - unmade) | made


def run(task, steps):
    state = set(task.start)
    for index, step in enumerate(steps):
        number = refusal_of(task, state, step)
        if number is not None:
            raise Refused(number, index)
        state = after(task, state, step)
    if not holds(task.goal, state):
        raise Refused(16, len(steps))


def judge_joint(task: bytes, plan: bytes) -> str:
    try:
        read = read_task(task)
        run(read, read_plan(plan, read))
    except Refused as refused:
        layer = "form" if refused.number <= 7 else "run"
        return f"refused {refused.number} {layer} {refused.place}"
    return "solves"


# Requests.

FILE = rb"(-|(?:[0-9a-f][0-9a-f])+)"
REQUEST = re.compile(rb"judge-joint written " + FILE + rb" " + FILE)


def file_bytes(digits):
    return b"" if digits == b"-" else bytes.fromhex(digits.decode("ascii"))


def answer(line: bytes) -> str:
    """The answer to one line, given without its line feed."""
    request = REQUEST.fullmatch(line)
    if len(line) > LINE_LIMIT or request is None:
        return "error"
    return judge_joint(file_bytes(request[1]), file_bytes(request[2]))


if __name__ == "__main__":
    for given in sys.stdin.buffer:
        print(answer(given.removesuffix(b"\n")))
