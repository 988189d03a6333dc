#!/usr/bin/env python3
"""Carries out a script of calls (docs/SCRIPTS.md) and prints the answers that the documents give.

Usage: evaluator.py [--strict] [FILE]

After each accepted finish, with --strict after every command, the promise of docs/BOARD.md is checked against a least
model that is worked out apart from the board. Status 1: a malformed line or a file that cannot be read. Status 2: a
check was violated. `grades` is read but prints nothing.
"""

import operator
import sys
from collections import namedtuple

UNOPENED, QUIET, ACTIVE = 0, 1, 2
MARK_NAMES = ("unopened", "quiet", "active")
MOST_STATEMENTS = 1024
MOST_PLACES = 4096
FORMS = "AOL"

Rule = namedtuple("Rule", "head form weight bodies")


class Malformed(Exception):
    """A line that is not a command; carries what was expected."""


class Violation(Exception):
    """A check that does not hold."""


# Scales (docs/SCALES.md)


class Percent:
    """Grades are the numbers 0 to 100."""

    lowest, highest, height = 0, 100, 100
    join, meet, below = max, min, operator.le

    def blend(self, a, b):
        return a * b // 100

    def level(self, a):
        return a

    def code(self, a):
        return a

    def decode(self, code):
        return code if code <= 100 else None


class Members:
    """Grades are sets of `height` members, as bits; blend is meet."""

    lowest = 0
    join, meet, blend = operator.or_, operator.and_, operator.and_

    def __init__(self, height):
        self.height = height
        self.highest = 2**height - 1

    def below(self, a, b):
        return a & b == a

    def level(self, a):
        return bin(a).count("1")

    def code(self, a):
        return a

    def decode(self, code):
        return code if code <= self.highest else None


class Turned:
    """The grades of another scale, the other way round."""

    def __init__(self, base):
        self.base = base
        self.lowest, self.highest, self.height = base.highest, base.lowest, base.height
        self.join, self.meet, self.blend = base.meet, base.join, base.join
        self.code, self.decode = base.code, base.decode

    def below(self, a, b):
        return self.base.below(b, a)

    def level(self, a):
        return self.height - self.base.level(a)


class Pair:
    """Two scales, part by part."""

    def __init__(self, first, second):
        self.first, self.second = first, second
        self.lowest = (first.lowest, second.lowest)
        self.highest = (first.highest, second.highest)
        self.height = first.height + second.height

    def join(self, a, b):
        return (self.first.join(a[0], b[0]), self.second.join(a[1], b[1]))

    def meet(self, a, b):
        return (self.first.meet(a[0], b[0]), self.second.meet(a[1], b[1]))

    def blend(self, a, b):
        return (self.first.blend(a[0], b[0]), self.second.blend(a[1], b[1]))

    def below(self, a, b):
        return self.first.below(a[0], b[0]) and self.second.below(a[1], b[1])

    def level(self, a):
        return self.first.level(a[0]) + self.second.level(a[1])

    def code(self, a):
        return 256 * self.first.code(a[0]) + self.second.code(a[1])

    def decode(self, code):
        a, b = self.first.decode(code // 256), self.second.decode(code % 256)
        return None if a is None or b is None else (a, b)


# A verdict is a set of two: false has neither, unknown the first, inconsistent the second, true both.
SCALES = {
    "percent": Percent(),
    "verdict": Members(2),
    "suppliers": Members(16),
    "belief": Pair(Percent(), Turned(Percent())),
}


def ramp_degree(near, far, reading):
    """The percentage that a reading gives (docs/SURVEYS.md)."""
    if reading == 0:
        return 0
    if reading <= near:
        return 100
    if reading >= far:
        return 0
    return 100 * (far - reading) // (far - near)


# Rules and the least model (docs/BOARD.md)


def value(scale, rule, grades):
    """The value of a rule under given grades."""
    bodies = [grades[b] for b in rule.bodies if b]
    if not bodies:
        return rule.weight
    if rule.form == "L":
        held = rule.weight
        for grade in bodies:
            held = scale.blend(held, grade)
        return held
    gather = scale.meet if rule.form == "A" else scale.join
    held = bodies[0]
    for grade in bodies[1:]:
        held = gather(held, grade)
    return scale.blend(rule.weight, held)


def worth(scale, degree, rules, grades):
    """The worth of a statement with this degree and these rules."""
    for rule in rules:
        degree = scale.join(degree, value(scale, rule, grades))
    return degree


def by_heads(rules):
    """The rules of each head."""
    heads = {}
    for rule in rules:
        heads.setdefault(rule.head, []).append(rule)
    return heads


def least_model(scale, degrees, rules):
    """Repeats worths from all lowest until nothing changes. Sweeps go up and down in turn."""
    heads = by_heads(rules)
    grades = [scale.lowest] * len(degrees)
    sweep = range(1, len(degrees))
    changed = True
    while changed:
        changed = False
        for s in sweep:
            new = worth(scale, degrees[s], heads.get(s, ()), grades)
            if new != grades[s]:
                grades[s] = new
                changed = True
        sweep = sweep[::-1]
    return grades


# The board (docs/BOARD.md)


class Board:
    """A statement table and a rule table, and the calls on them. Each call gives its answer as printed."""

    def __init__(self, scale, statements, places, degree):
        self.scale = scale
        self.count, self.places = statements, places
        self.legal = 1 <= statements <= MOST_STATEMENTS and 1 <= places <= MOST_PLACES
        self.degrees = [scale.lowest] * (statements + 1) if self.legal else []
        if self.legal:
            for s in range(1, statements + 1):
                self.degrees[s] = degree(s)
        self.clear()

    def clear(self):
        if not self.legal:
            return "refused 1"
        self.grades = [self.scale.lowest] * (self.count + 1)
        self.marks = bytearray(self.count + 1)
        self.rules = {}
        self.stale = True
        return "cleared"

    def index(self):
        """Rules by head, sons and parents of each statement."""
        if self.stale:
            self.heads = by_heads(self.rules.values())
            self.sons, self.parents = {}, {}
            for rule in self.rules.values():
                for b in rule.bodies:
                    if b:
                        self.sons.setdefault(rule.head, set()).add(b)
                        self.parents.setdefault(b, set()).add(rule.head)
            self.stale = False

    def leading_to(self, goals):
        """All statements that lead to one of the goals."""
        self.index()
        found, todo = set(goals), list(goals)
        while todo:
            for s in self.parents.get(todo.pop(), ()):
                if s not in found:
                    found.add(s)
                    todo.append(s)
        return found

    def open_up(self, s):
        """The events Wanted and Opened."""
        if self.marks[s] == UNOPENED:
            self.marks[s] = ACTIVE

    def son_rose(self, s):
        if self.marks[s] == QUIET:
            self.marks[s] = ACTIVE

    def is_statement(self, s):
        return 1 <= s <= self.count

    def is_mark(self, mark):
        return 1 <= mark <= self.places

    def misplaced(self):
        """Refusal 2. No script can bring it about, so only the checks ask for it."""
        for rule in self.rules.values():
            if rule.head > self.count or any(b > self.count for b in rule.bodies):
                return True
            if any(b and not a for a, b in zip(rule.bodies, rule.bodies[1:])):
                return True
        return False

    def add(self, mark, rule):
        if not self.legal:
            return "refused 1"
        if not self.is_mark(mark):
            return "refused 4"
        if mark in self.rules:
            return "refused 5"
        if not self.is_statement(rule.head):
            return "refused 3"
        absent = False
        for b in rule.bodies:
            if b > self.count:
                return "refused 3"
            if b and absent:
                return "refused 7"
            absent = absent or b == 0
        self.rules[mark] = rule
        self.stale = True
        self.son_rose(rule.head)
        return "added"

    def withdraw(self, mark):
        if not self.legal:
            return "refused 1"
        if not self.is_mark(mark):
            return "refused 4"
        if mark not in self.rules:
            return "refused 6"
        for s in self.leading_to([self.rules[mark].head]):
            if self.marks[s] != UNOPENED:
                self.grades[s] = self.scale.lowest
                self.son_rose(s)
        del self.rules[mark]
        self.stale = True
        return "withdrawn"

    def want(self, s):
        if not self.legal:
            return "refused 1"
        if not self.is_statement(s):
            return "refused 3"
        self.open_up(s)
        return "wanted"

    def take(self, s):
        """Evaluates an active statement; answers whether it rose."""
        self.index()
        self.marks[s] = QUIET
        new = worth(self.scale, self.degrees[s], self.heads.get(s, ()), self.grades)
        for son in self.sons.get(s, ()):
            self.open_up(son)
        old = self.grades[s]
        if new == old or not self.scale.below(old, new):
            return False
        self.grades[s] = new
        for parent in self.parents.get(s, ()):
            self.son_rose(parent)
        return True

    def first_active(self):
        """The lowest-numbered active statement, or -1."""
        return self.marks.find(ACTIVE)

    def step(self):
        if not self.legal:
            return "refused 1"
        s = self.first_active()
        if s < 0:
            return "refused 8"
        return f"{s} rose" if self.take(s) else f"{s} unchanged"

    def finish(self):
        if not self.legal:
            return "refused 1"
        steps = 0
        while (s := self.first_active()) >= 0:
            self.take(s)
            steps += 1
        return f"{steps} evaluations"

    def read(self, s):
        if not self.legal:
            return "refused 1"
        if not self.is_statement(s):
            return "refused 3"
        if self.marks[s] == UNOPENED:
            return "refused 9"
        settled = "settled" if self.first_active() < 0 else "unsettled"
        return f"{self.scale.code(self.grades[s])} {settled}"

    def tables(self):
        """The lines of `tables`. Of a refused board only statements stand, at most one above the limit."""
        code = self.scale.code
        if not self.legal:
            low = code(self.scale.lowest)
            shown = min(self.count, MOST_STATEMENTS + 1)
            return [f"s {s} {low} unopened" for s in range(1, shown + 1)]
        lines = [f"s {s} {code(self.grades[s])} {MARK_NAMES[self.marks[s]]}" for s in range(1, self.count + 1)]
        for mark, rule in sorted(self.rules.items()):
            bodies = " ".join(map(str, rule.bodies))
            lines.append(f"p {mark} {rule.head} {rule.form} {code(rule.weight)} {bodies}")
        return lines

    def load(self, text):
        """Takes over the rules of a text. The answer has the fault if there is one."""
        if not self.legal:
            return "refused 1 at board line 0 column 0"
        try:
            rules = read_text(text, self.scale, self.count, self.places)
        except Fault as fault:
            return str(fault)
        self.clear()
        self.rules = rules
        return f"{len(rules)} rules"


# Board text (docs/TEXT.md)


class Fault(Exception):
    """The first fault of a text."""

    def __init__(self, number, layer, line, column):
        super().__init__(f"refused {number} at {layer} line {line} column {column}")


def field_number(field):
    """The number in a field of five bytes, or None."""
    digits = field.lstrip(b" ")
    if not digits.isdigit() or (digits[:1] == b"0" and digits != b"0"):
        return None
    return int(digits)


class TextReader:
    """Walks over the lines and fields of a text."""

    def __init__(self, text):
        self.text = text
        self.at, self.line = 0, 0

    def next_line(self, letter, length):
        """Takes the next line; length counts its line feed."""
        self.line += 1
        self.now = self.text[self.at : self.at + length]
        if len(self.now) < length or self.now[-1:] != b"\n":
            raise Fault(10, "line", self.line, 1)
        if self.now[:1] != letter:
            raise Fault(11, "line", self.line, 1)
        self.at += length

    def number(self, column):
        """The number in the field that begins at this column."""
        found = field_number(self.now[column - 1 : column + 4])
        self.demand(found is not None, 12, "field", column)
        return found

    def demand(self, holds, number, layer, column):
        if not holds:
            raise Fault(number, layer, self.line, column)


def read_text(text, scale, count, places):
    """The rules of a board text, by mark; raises the first fault."""
    reader = TextReader(text)
    reader.next_line(b"B", 12)
    reader.demand(reader.number(2) == count, 14, "board", 2)
    due = reader.number(7)
    reader.demand(due <= places, 14, "board", 7)
    rules, last = {}, 0
    for _ in range(due):
        reader.next_line(b"R", 38)
        mark = reader.number(2)
        reader.demand(1 <= mark <= places, 4, "board", 2)
        reader.demand(mark > last, 15, "board", 2)
        head = reader.number(7)
        reader.demand(1 <= head <= count, 3, "board", 7)
        form = reader.now[11:12].decode("latin-1")
        reader.demand(form in FORMS, 11, "field", 12)
        weight = scale.decode(reader.number(13))
        reader.demand(weight is not None, 13, "field", 13)
        bodies = []
        for column in (18, 23, 28, 33):
            body = reader.number(column)
            reader.demand(body <= count, 3, "board", column)
            reader.demand(not body or 0 not in bodies, 7, "board", column)
            bodies.append(body)
        rules[mark] = Rule(head, form, weight, tuple(bodies))
        last = mark
    reader.line += 1
    reader.demand(reader.at == len(text), 14, "board", 1)
    return rules


def write_text(scale, count, rules):
    """The one spelling of these rules."""
    lines = [f"B{count:5}{len(rules):5}\n"]
    for mark, rule in sorted(rules.items()):
        bodies = "".join(f"{b:5}" for b in rule.bodies)
        lines.append(f"R{mark:5}{rule.head:5}{rule.form}{scale.code(rule.weight):5}{bodies}\n")
    return "".join(lines)


# Checks of the promise


class Watch:
    """The rules in force as the past has them, and the checks of a board against their least model."""

    def __init__(self, board):
        self.board = board
        self.force = {}
        self.least = None

    def brought(self, mark, rule):
        self.force[mark] = rule
        self.least = None

    def took(self, mark):
        if self.force.pop(mark, None) is None:
            raise Violation("a rule was withdrawn that is not in force")
        self.least = None

    def loaded(self, text):
        """A loaded text is the spelling of the rules that it gave."""
        board = self.board
        if write_text(board.scale, board.count, board.rules).encode() != text:
            raise Violation("a loaded text is not the spelling of its rules")
        self.force = dict(board.rules)
        self.least = None

    def written(self, text):
        """A written text reads back as the rules in force."""
        board = self.board
        if len(text) != 12 + 38 * len(self.force):
            raise Violation("a written text has a wrong length")
        if read_text(text.encode(), board.scale, board.count, board.places) != self.force:
            raise Violation("a written text does not read back as the rules in force")

    def finished(self, steps):
        """The bound on the number of evaluations."""
        board = self.board
        board.index()
        bound = 0
        for s in range(1, board.count + 1):
            if board.marks[s] != UNOPENED:
                bound += 1 + len(board.sons.get(s, ())) * board.scale.height
        if steps > bound:
            raise Violation(f"a finish took {steps} evaluations, above the bound of {bound}")

    def check(self):
        """Grades against the least model, and the rule table against the rules in force."""
        board = self.board
        if not board.legal:
            return
        if board.rules != self.force or board.misplaced():
            raise Violation("the rule table does not hold the rules in force")
        scale, marks, grades = board.scale, board.marks, board.grades
        if self.least is None:
            self.least = least_model(scale, board.degrees, self.force.values())
        least = self.least
        if least == grades:
            return
        active = [s for s in range(1, board.count + 1) if marks[s] == ACTIVE]
        waiting = board.leading_to(active)
        for s in range(1, board.count + 1):
            if not scale.below(grades[s], least[s]):
                raise Violation(f"statement {s} is not at or below its least-model grade")
            if marks[s] != UNOPENED and s not in waiting and grades[s] != least[s]:
                raise Violation(f"statement {s} leads to no active one and has not its least-model grade")


# Scripts (docs/SCRIPTS.md)


BEYOND = 10**9


def number(words, at):
    """The number at this place of a line. Whatever is above all limits is BEYOND."""
    word = words[at] if at < len(words) else ""
    if not (word.isascii() and word.isdigit()):
        raise Malformed("a decimal number")
    if len(word) > 9:
        word = word.lstrip("0") or "0"
        if len(word) > 9:
            return BEYOND
    return int(word)


def grade(scale, words, at):
    """The grade whose code is at this place of a line."""
    found = scale.decode(number(words, at))
    if found is None:
        raise Malformed("the code of a grade of this scale")
    return found


def short_number(words, at):
    found = number(words, at)
    if found > 65535:
        raise Malformed("a number up to 65535")
    return found


def end(words, length):
    if len(words) > length:
        raise Malformed("the end of the line")


class Script:
    """Carries out the lines of a script, one by one."""

    def __init__(self, strict):
        self.strict = strict
        self.board = self.watch = None
        self.out = []
        self.commands = {
            "add": self.add,
            "withdraw": self.withdraw,
            "want": self.want,
            "step": self.step,
            "finish": self.finish,
            "read": self.read,
            "tables": self.tables,
            "grades": self.grades,
            "load": self.load,
            "write": self.write,
        }

    def say(self, line):
        self.out.append(line + "\n")

    def perform(self, words):
        """Carries out one line that is not skipped."""
        if words[0] == "board":
            self.make(words)
        else:
            command = self.commands.get(words[0])
            if command is None:
                raise Malformed("a command")
            if self.board is None:
                raise Malformed("a `board` line first")
            command(words)
        if self.strict:
            self.watch.check()

    def make(self, words):
        scale = SCALES.get(words[1] if len(words) > 1 else "")
        if scale is None:
            raise Malformed("a scale")
        statements, places = number(words, 2), number(words, 3)
        listed, ramp, at = [], None, 4
        if words[at : at + 1] == ["listed"]:
            at += 1
            while at < len(words) and words[at] != "ramp":
                listed.append(grade(scale, words, at))
                at += 1
        if words[at : at + 1] == ["ramp"]:
            if words[1] != "percent":
                raise Malformed("no ramp off percent")
            ramp = [short_number(words, i) for i in range(at + 1, max(len(words), at + 3))]
            at = len(words)
        end(words, at)

        def degree(s):
            held = listed[s - 1] if s <= len(listed) else scale.lowest
            if ramp and s + 1 < len(ramp):
                held = scale.join(held, ramp_degree(ramp[0], ramp[1], ramp[s + 1]))
            return held

        self.board = Board(scale, statements, places, degree)
        self.watch = Watch(self.board)
        self.say("board: " + ("cleared" if self.board.legal else "refused 1"))

    def add(self, words):
        mark, head = number(words, 1), number(words, 2)
        if len(words) < 4 or words[3] not in ("A", "O", "L"):
            raise Malformed("a form")
        weight = grade(self.board.scale, words, 4)
        bodies = [number(words, at) for at in range(5, len(words))]
        if len(bodies) > 4:
            raise Malformed("at most four bodies")
        bodies += [0] * (4 - len(bodies))
        rule = Rule(head, words[3], weight, tuple(bodies))
        answer = self.board.add(mark, rule)
        if answer == "added":
            self.watch.brought(mark, rule)
        self.say(f"add {words[1]}: {answer}")

    def withdraw(self, words):
        mark = number(words, 1)
        end(words, 2)
        answer = self.board.withdraw(mark)
        if answer == "withdrawn":
            self.watch.took(mark)
        self.say(f"withdraw {words[1]}: {answer}")

    def want(self, words):
        s = number(words, 1)
        end(words, 2)
        self.say(f"want {words[1]}: {self.board.want(s)}")

    def step(self, words):
        end(words, 1)
        self.say(f"step: {self.board.step()}")

    def finish(self, words):
        end(words, 1)
        answer = self.board.finish()
        self.say(f"finish: {answer}")
        if self.board.legal:
            self.watch.finished(int(answer.split()[0]))
            self.watch.check()

    def read(self, words):
        s = number(words, 1)
        end(words, 2)
        self.say(f"read {words[1]}: {self.board.read(s)}")

    def tables(self, words):
        end(words, 1)
        for line in self.board.tables():
            self.say(line)

    def grades(self, words):
        end(words, 1)

    def load(self, words):
        if len(words) < 2:
            raise Malformed("a path")
        end(words, 2)
        try:
            with open(words[1].encode("latin-1"), "rb") as file:
                text = file.read()
        except (OSError, ValueError) as error:
            raise Malformed(f"a file that can be read ({error})")
        answer = self.board.load(text)
        if not answer.startswith("refused"):
            self.watch.loaded(text)
        self.say(f"load {words[1]}: {answer}")

    def write(self, words):
        end(words, 1)
        if not self.board.legal:
            self.say("write: refused 1")
            return
        text = write_text(self.board.scale, self.board.count, self.board.rules)
        self.watch.written(text)
        self.out.append(text)


def run(script, strict):
    """Carries out a script; gives the printed text, the status and a message."""
    machine = Script(strict)
    lines = script.decode("latin-1").replace("\t", " ").replace("\r", " ").split("\n")
    for at, line in enumerate(lines, 1):
        words = [word for word in line.split(" ") if word]
        if not words or words[0].startswith("#"):
            continue
        try:
            machine.perform(words)
        except Malformed as expected:
            return "".join(machine.out), 1, f"line {at}: expected {expected}"
        except Violation as what:
            return "".join(machine.out), 2, f"line {at}: check violated: {what}"
    return "".join(machine.out), 0, ""


def main(arguments):
    strict = "--strict" in arguments
    files = [word for word in arguments if word != "--strict"]
    if len(files) > 1 or any(word.startswith("-") for word in files):
        print("usage: evaluator.py [--strict] [FILE]", file=sys.stderr)
        return 1
    try:
        if files:
            with open(files[0], "rb") as file:
                script = file.read()
        else:
            script = sys.stdin.buffer.read()
    except OSError as error:
        print(f"evaluator: {error}", file=sys.stderr)
        return 1
    text, status, message = run(script, strict)
    sys.stdout.buffer.write(text.encode("latin-1"))
    sys.stdout.buffer.flush()
    if message:
        print(f"evaluator: {message}", file=sys.stderr)
    return status


if __name__ == "__main__":
    sys.exit(main(sys.argv[1:]))
