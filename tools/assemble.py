#!/usr/bin/env python3
"""Writes a task file or a joint plan file from its text form.

  tools/assemble.py task IN.txt OUT.task
  tools/assemble.py plan TASK.txt IN.txt OUT.plan

Blank lines, and what follows a # at a line's start or after a space, are left out.
A name is made of letters, digits, '-' and '_'.

A task text has these lines. Each of the first four may be repeated to go on with its list.

  stations: NAME ...
  fluents: NAME ...
  start: FLUENT ...
  goal: LITERAL, LITERAL, ...
  move NAME at STATION:
    need LITERAL
    with MOVE-LITERAL
    effect: ITEM, ITEM: ITEM, ...

A literal is a name, or 'not' and a name. An effect's items are 'if LITERAL', 'ifmove MOVE-LITERAL' and
'then LITERAL'; a comma or a colon stands between them. Stations, fluents and moves are numbered from 0 in the order
in which they are named, and the commands stand in the file as the lines stand in the text. A move may be named before
its own line.

A plan text has one line a step, 'step: MOVE ...'; a step without moves is 'step:' or 'step: -'.
"""
import re
import sys

SIZES, START, GOAL, MOVE, NEED, WITH, EFFECT, IF, IFMOVE, THEN, END = 1, 2, 3, 4, 5, 6, 7, 8, 9, 10, 15
STEP, NO_MOVE = 0x31, 0xFF
STATIONS, FLUENTS, MOVES, EFFECTS, STEPS = 16, 128, 64, 8, 256
TASK_BYTES = 8192
NAMING = r"(stations|fluents)\s*:(.*)"
MOVE_LINE = r"move\s+(\S+)\s+at\s+(\S+?)\s*:"


class Wrong(Exception):
    """What is wrong in a text, and in which line."""

    def __init__(self, line, what):
        super().__init__(f"line {line}: {what}")


def lines_of(text):
    """The lines that say something, with their numbers, without comments."""
    for number, line in enumerate(text.splitlines(), 1):
        line = re.sub(r"(^|\s)#.*", "", line).strip()
        if line:
            yield number, line


class Names:
    """Names of one kind, numbered in the order in which they come."""

    def __init__(self, kind, most):
        self.kind, self.most, self.numbers = kind, most, {}

    def add(self, line, name):
        if not re.fullmatch(r"[A-Za-z0-9_-]+", name) or name in ("not", "-"):
            raise Wrong(line, f"'{name}' can't be the name of a {self.kind}")
        if name in self.numbers:
            raise Wrong(line, f"a {self.kind} named '{name}' is there already")
        if len(self.numbers) == self.most:
            raise Wrong(line, f"a task has at most {self.most} {self.kind}s")
        self.numbers[name] = len(self.numbers)

    def number(self, line, name):
        if name not in self.numbers:
            raise Wrong(line, f"no {self.kind} is named '{name}'")
        return self.numbers[name]

    def literal(self, line, text):
        """The number that 'NAME' or 'not NAME' names, and the byte that it is written as."""
        words = text.split()
        negated = words[:1] == ["not"]
        if len(words) != 1 + negated:
            raise Wrong(line, f"'{text}' is neither a {self.kind} nor 'not' and a {self.kind}")
        number = self.number(line, words[-1])
        return number, number | (0x80 if negated else 0)


class Task:
    """A task text as bytes, with its names and the station of each move."""

    def __init__(self, text):
        self.stations = Names("station", STATIONS)
        self.fluents = Names("fluent", FLUENTS)
        self.moves = Names("move", MOVES)
        self.station_of = []  # by move number
        self.body = bytearray()
        self.listed = {}  # the numbers in each list so far, by command
        self.effects = 0  # of the move that is being written
        lines = list(lines_of(text))
        for line, words in lines:
            self.name(line, words)
        for line, words in lines:
            self.write(line, words)
        for names in (self.stations, self.fluents, self.moves):
            if not names.numbers:
                raise Wrong(len(text.splitlines()) or 1, f"the text ends without a {names.kind}")
        sizes = [len(names.numbers) for names in (self.stations, self.fluents, self.moves)]
        self.bytes = bytes([SIZES, *sizes]) + bytes(self.body) + bytes([END])
        if len(self.bytes) > TASK_BYTES:
            raise Wrong(line, f"the task has {len(self.bytes)} bytes; a task file has at most {TASK_BYTES}")

    def name(self, line, words):
        """First pass: the names that a line gives."""
        if match := re.fullmatch(NAMING, words):
            names = self.stations if match[1] == "stations" else self.fluents
            for name in match[2].split():
                names.add(line, name)
        elif match := re.fullmatch(MOVE_LINE, words):
            self.moves.add(line, match[1])

    def write(self, line, words):
        """Second pass: the commands that a line stands for."""
        if re.fullmatch(NAMING, words):
            return
        if match := re.fullmatch(MOVE_LINE, words):
            station = self.stations.number(line, match[2])
            self.station_of.append(station)
            self.body += bytes([MOVE, station])
            self.listed[NEED], self.listed[WITH], self.effects = set(), set(), 0
        elif match := re.fullmatch(r"(start|goal)\s*:(.*)", words):
            if self.station_of:
                raise Wrong(line, f"'{match[1]}' must stand before the first move")
            if match[1] == "start":
                for name in match[2].split():
                    self.put(line, START, self.fluents, name)
            else:
                for item in items_of(match[2], ","):
                    self.put(line, GOAL, self.fluents, item)
        elif match := re.fullmatch(r"(need|with)\s+(.*)", words):
            if not self.station_of or self.effects:
                raise Wrong(line, f"'{match[1]}' must stand in a move, before its effects")
            command, names = (NEED, self.fluents) if match[1] == "need" else (WITH, self.moves)
            self.put(line, command, names, match[2])
        elif match := re.fullmatch(r"effect\s*:(.*)", words):
            self.effect(line, match[1])
        else:
            raise Wrong(line, f"'{words}' is no line of a task text")

    def effect(self, line, text):
        if not self.station_of:
            raise Wrong(line, "'effect' must stand in a move")
        self.effects += 1
        if self.effects > EFFECTS:
            raise Wrong(line, f"a move has at most {EFFECTS} effects")
        self.body.append(EFFECT)
        kinds = {"if": (IF, self.fluents), "ifmove": (IFMOVE, self.moves), "then": (THEN, self.fluents)}
        for command, _ in kinds.values():
            self.listed[command] = set()
        for item in items_of(text, ",:"):
            word, *literal = item.split(None, 1)
            if word not in kinds:
                raise Wrong(line, f"'{item}' does not begin with 'if', 'ifmove' or 'then'")
            self.put(line, *kinds[word], "".join(literal))

    def put(self, line, command, names, text):
        """A command with a literal whose fluent or move is new in its list."""
        if command == START and text == "not":
            raise Wrong(line, "'start' names the fluents that are true, without 'not'")
        number, byte = names.literal(line, text)
        listed = self.listed.setdefault(command, set())
        if number in listed:
            raise Wrong(line, f"the {names.kind} of '{text.strip()}' is in this list already")
        listed.add(number)
        self.body += bytes([command, byte])


def items_of(text, separators):
    return [item.strip() for item in re.split(f"[{separators}]", text) if item.strip()]


def plan_bytes(task, text):
    out = bytearray()
    for line, words in lines_of(text):
        match = re.fullmatch(r"step\s*:(.*)", words)
        if not match:
            raise Wrong(line, f"'{words}' is no line of a plan text")
        step = [NO_MOVE] * STATIONS
        for name in match[1].split():
            if name == "-":
                continue
            move = task.moves.number(line, name)
            station = task.station_of[move]
            if step[station] != NO_MOVE:
                raise Wrong(line, f"'{name}' is this step's second move of its station")
            step[station] = move
        out += bytes([STEP, *step])
        if len(out) > STEPS * (1 + STATIONS):
            raise Wrong(line, f"a plan has at most {STEPS} steps")
    return bytes(out)


def read(path):
    with open(path, encoding="utf-8") as file:
        return file.read()


def assemble(kind, *paths):
    """The bytes of the file; a fault is told with the path of the text that has it."""
    path = paths[0]
    try:
        task = Task(read(path))
        if kind == "task":
            return task.bytes
        path = paths[1]
        return plan_bytes(task, read(path))
    except Wrong as wrong:
        sys.exit(f"{path}, {wrong}")


def main(arguments):
    if [arguments[:1], len(arguments)] not in ([["task"], 3], [["plan"], 4]):
        sys.exit("usage: assemble.py task IN.txt OUT.task, or assemble.py plan TASK.txt IN.txt OUT.plan")
    try:
        made = assemble(*arguments[:-1])
        with open(arguments[-1], "wb") as file:
            file.write(made)
    except (OSError, UnicodeDecodeError) as error:
        sys.exit(f"assemble.py: {error}")


if __name__ == "__main__":
    main(sys.argv[1:])
