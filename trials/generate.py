#!/usr/bin/env python3
"""Makes random scripts of calls (docs/SCRIPTS.md).

Usage: generate.py SEED COUNT [--full] [--text DIR] [--out DIR]

The scripts have about COUNT calls in all, on many small and some medium boards. They go to standard output as one
script, or with --out to files in a folder, some of them with a malformed line. --full adds a full-size board of each
scale. --text also makes board texts, good and damaged ones, as files in DIR (which the scripts name as it is given
here), and `load` and `write` lines.
"""

import os
import random
import sys

SCALES = ("percent", "verdict", "suppliers", "belief")
FORMS = "AOL"
CALLS_A_SCRIPT = 2500

# Commands that are counted as calls.
CALLS = ("board", "add", "withdraw", "want", "step", "finish", "read", "load", "write")


def count_calls(script):
    return sum(line.split(" ", 1)[0] in CALLS for line in script.split("\n"))


# Codes and surveys


def percentage(rng):
    return rng.choice((0, 1, 50, 99, 100, 100, rng.randint(0, 100), rng.randint(0, 100), rng.randint(80, 100)))


def some_code(rng, scale, rich=False):
    """The code of a grade; a rich one in percent or belief is neither high nor low."""
    if rich and scale == "percent":
        return rng.randint(40, 99)
    if rich and scale == "belief":
        return 256 * rng.randint(40, 99) + rng.randint(1, 60)
    if scale == "percent":
        return percentage(rng)
    if scale == "verdict":
        return rng.randint(0, 3)
    if scale == "suppliers":
        one = 1 << rng.randrange(16)
        return rng.choice((0, one, 65535, 65535, rng.randint(0, 15), rng.randint(0, 65535), 65535 ^ one))
    return 256 * percentage(rng) + rng.choice((percentage(rng), 100 - percentage(rng)))


def wrong_code(rng, scale):
    """A code that no grade has."""
    if scale == "percent":
        return rng.choice((101, 255, 256, 300, 65535, 65536, 2**32 + 5, 2**64 + 5))
    if scale == "verdict":
        return rng.choice((4, 5, 255, 256, 65536, 2**64 + 1))
    if scale == "suppliers":
        return rng.choice((65536, 65537, 99999, 2**32, 2**64))
    return rng.choice((101, 255, 357, 256 * 50 + 101, 256 * 101, 256 * 101 + 5, 65535, 65536, 65536 + 100, 2**64))


def survey(rng, scale, count, rich):
    """The words of a survey, often none."""
    words = []
    if rich or rng.random() < 0.5:
        words.append("listed")
        for _ in range(rng.choice((0, 1, count, rng.randint(0, count), count + rng.randint(1, 2)))):
            words.append(str(some_code(rng, scale, rich)) if rng.random() < 0.6 else lowest(scale))
    if scale == "percent" and rng.random() < 0.3:
        near = rng.choice((0, 1, 50, 10000, 65534, 65535, rng.randint(0, 65535)))
        far = rng.choice((near, near + 1, near + rng.randint(0, 300), near - 1, 0, 65535, rng.randint(0, 65535)))
        far = max(0, min(65535, far))
        words += ["ramp", str(near), str(far)]
        low, high = min(near, far), max(near, far)
        for _ in range(rng.choice((0, 1, count, rng.randint(0, count), count + 1))):
            reading = rng.choice((0, near, far, near + 1, far - 1, rng.randint(low, high), rng.randint(0, 65535)))
            words.append(str(max(0, min(65535, reading))))
    return words


def lowest(scale):
    return "100" if scale == "belief" else "0"


# Boards


class Maker:
    """Makes the calls on one board and keeps in mind which places are taken."""

    def __init__(self, rng, scale, count, places, texts=None):
        self.rng, self.scale, self.count, self.places, self.texts = rng, scale, count, places, texts
        self.lines = []
        self.taken = {}
        self.theme = rng.choice(("any", "any", "any", "circle", "self", "few"))
        # How often a call is made badly, and how many statements may well be active.
        self.badness = rng.choice((0.02, 0.05, 0.1, 0.3))
        self.rich = rng.random() < 0.3
        self.work = 0

    def begin(self):
        words = ["board", self.scale, self.spell(self.count), self.spell(self.places)]
        self.lines.append(" ".join(words + survey(self.rng, self.scale, min(self.count, 1024), self.rich)))

    def spell(self, number):
        """A number, at times with zeros before it."""
        if self.rng.random() < 0.01:
            return "0" * self.rng.choice((1, 2, 5, 30)) + str(number)
        return str(number)

    def bad(self):
        return self.rng.random() < self.badness

    def beyond(self, limit):
        """A number above a limit; some would fit if cut to fewer bits."""
        rng = self.rng
        inside = rng.randint(0, limit)
        return rng.choice((limit + 1, limit + 1, limit + rng.randint(1, 9), 1024, 1025, 4097, 65535) +
                          (2**16 + inside, 2**32 + inside, 2**64 + inside, 10**30 + inside))

    def statement(self):
        """A statement number, at times a bad one."""
        rng = self.rng
        if self.bad():
            return rng.choice((0, self.beyond(self.count)))
        if self.theme == "few":
            return rng.randint(1, min(self.count, 2))
        return rng.randint(1, self.count)

    def free_mark(self):
        if len(self.taken) < self.places:
            for _ in range(20):
                mark = self.rng.randint(1, self.places)
                if mark not in self.taken:
                    return mark
        return self.rng.randint(1, self.places)

    def taken_mark(self):
        return self.rng.choice(list(self.taken)) if self.taken else self.rng.randint(1, self.places)

    def bodies(self, head):
        rng = self.rng
        found = []
        for _ in range(rng.choice((0, 0, 1, 1, 1, 2, 2, 3, 4))):
            if self.theme == "circle" and 1 <= head <= self.count and rng.random() < 0.8:
                found.append(head % self.count + 1)
            elif self.theme == "self" and rng.random() < 0.4:
                found.append(head)
            elif found and rng.random() < 0.15:
                found.append(rng.choice(found))
            else:
                found.append(rng.randint(1, self.count))
        if self.bad():
            # A gap, a number beyond or both.
            for _ in range(rng.randint(1, 2)):
                if len(found) < 4:
                    found.insert(rng.randint(0, len(found)), rng.choice((0, 0, self.beyond(self.count))))
                else:
                    found[rng.randrange(4)] = rng.choice((0, 0, self.beyond(self.count)))
        while len(found) < 4 and rng.random() < 0.1:
            found.append(0)
        return found

    def add(self):
        rng = self.rng
        mark = self.free_mark()
        if self.bad():
            mark = rng.choice((0, self.beyond(self.places), self.taken_mark(), self.taken_mark()))
        head = self.statement()
        bodies = self.bodies(head)
        code = some_code(rng, self.scale, self.rich)
        words = ["add", self.spell(mark), self.spell(head), rng.choice(FORMS), self.spell(code)]
        self.lines.append(" ".join(words + [self.spell(b) for b in bodies]))
        gap = any(b and not a for a, b in zip(bodies, bodies[1:]))
        if 1 <= mark <= self.places and 1 <= head <= self.count and not gap and all(b <= self.count for b in bodies):
            self.taken[mark] = True
            self.work += 1

    def withdraw(self):
        self.work += 2
        mark = self.taken_mark()
        if self.bad():
            mark = self.rng.choice((0, self.beyond(self.places), self.free_mark(), self.free_mark()))
        self.lines.append(f"withdraw {self.spell(mark)}")
        self.taken.pop(mark, None)

    def want(self):
        self.work += 2
        self.lines.append(f"want {self.spell(self.statement())}")

    def read(self):
        self.lines.append(f"read {self.spell(self.statement())}")

    def plain(self, word):
        self.lines.append(word)

    def step(self):
        if self.work < 1 and self.rng.random() < 0.8:
            self.want()
        self.work -= 1
        self.plain("step")

    def finish(self):
        self.work = 0
        self.plain("finish")

    def add_or_withdraw(self):
        """Mostly withdraws where all places are taken."""
        if len(self.taken) == self.places and self.rng.random() < 0.8:
            self.withdraw()
        else:
            self.add()

    def fill(self):
        """Some rules and some wants to begin with."""
        for _ in range(self.rng.randint(0, self.places)):
            self.add_or_withdraw()
        for _ in range(self.rng.randint(0, min(self.count, 4))):
            self.want()

    def load(self):
        """A text for this board; a damaged one mostly leaves the board as it was."""
        rng = self.rng
        text, marks = good_text(rng, self.scale, self.count, self.places)
        if rng.random() < 0.7:
            text = damaged(rng, text, self.scale, self.count, self.places)
        else:
            self.taken = dict.fromkeys(marks, True)
        self.lines.append(f"load {self.texts.keep(text)}")
        if rng.random() < 0.5:
            self.plain(rng.choice(("tables", "write")))

    def go(self, calls, tables):
        """Makes calls in any order; `tables` says how often the tables are shown."""
        rng = self.rng
        doings = {
            self.add_or_withdraw: rng.choice((2, 4, 8)),
            self.withdraw: rng.choice((0.5, 1, 3)),
            self.want: rng.choice((0.5, 2, 4)),
            self.read: rng.choice((0.5, 2)),
            self.step: rng.choice((1, 4, 8)),
            self.finish: rng.choice((0.2, 1, 2)),
            (lambda: self.plain("tables")): tables,
        }
        if self.texts:
            doings[self.load] = rng.choice((0.2, 1, 3))
            doings[lambda: self.plain("write")] = 0.5
        for doing in rng.choices(list(doings), list(doings.values()), k=calls):
            doing()
            if rng.random() < 0.002:
                self.lines.append(rng.choice(("", "# a remark", "#step")))


def small_board(rng, texts):
    maker = Maker(rng, rng.choice(SCALES), rng.randint(1, 6), rng.randint(1, 8), texts)
    maker.begin()
    if rng.random() < 0.5:
        maker.fill()
    maker.go(rng.randint(5, 60), 2)
    maker.lines += ["finish", "tables"] if rng.random() < 0.7 else ["tables"]
    return maker.lines


def medium_board(rng, texts):
    maker = Maker(rng, rng.choice(SCALES), rng.randint(7, 80), rng.randint(9, 300), texts)
    maker.begin()
    maker.fill()
    maker.go(rng.randint(100, 500), 0.1)
    maker.lines += ["finish", "tables"]
    return maker.lines


def refused_board(rng, texts):
    """A board with a table length outside its limits: each call answers 1."""
    count = rng.choice((0, 1025, 1025, 1026, 4096, 65536 + 3, 2**32 + 3, 2**64 + 3, 1024, rng.randint(1, 6)))
    places = rng.choice((4096, rng.randint(1, 8)))
    if 1 <= count <= 1024 or rng.random() < 0.1:
        places = rng.choice((0, 4097, 4097, 4098, 65536 + 3, 2**32 + 3, 2**64 + 3))
    scale = rng.choice(SCALES)
    maker = Maker(rng, scale, count, places, None)
    maker.begin()
    maker.count, maker.places = max(1, min(count, 9)), max(1, min(places, 9))
    maker.go(rng.randint(3, 10), 0)
    lines = maker.lines
    if texts:
        text, _ = good_text(rng, scale, maker.count, maker.places)
        lines += [f"load {texts.keep(text)}", "write"]
    return lines


def limits_script(rng):
    """Boards with table lengths about the limits."""
    lines = []
    for count, places in ((0, 1), (1, 0), (0, 0), (1, 1), (1, 4096), (1, 4097), (1024, 1), (1025, 1), (1024, 4096),
                          (1025, 4096), (1024, 4097), (1025, 4097), (2**16 + 1, 1), (1, 2**16 + 1), (2**32 + 1, 1),
                          (1, 2**32 + 1), (2**64 + 1, 1), (1, 2**64 + 1)):
        scale = rng.choice(SCALES)
        lines += [f"board {scale} {count} {places}"]
        for mark, head in ((places, count), (places + 1, count), (places, count + 1), (0, 1), (1, 0), (1, 1)):
            lines += [f"add {mark} {head} L {some_code(rng, scale)} {head}", f"want {head}", "step", f"read {head}"]
        lines += [f"withdraw {places}", f"withdraw {places + 1}", "finish", "read 1", "step"]
    return "\n".join(lines) + "\n"


def full_board(rng, scale, texts, shape):
    """1,024 statements and 4,096 rules; the shape is random, near (bodies close by) or a long circle."""
    maker = Maker(rng, scale, 1024, 4096, texts)
    maker.badness = 0.01
    maker.begin()
    marks = list(range(1, 4097))
    rng.shuffle(marks)
    for at, mark in enumerate(marks):
        head = at % 1024 + 1
        if shape == "random":
            head = rng.randint(1, 1024)
            bodies = [rng.randint(1, 1024) for _ in range(rng.choice((0, 1, 2, 3, 4)))]
        elif shape == "near":
            bodies = [min(1024, max(1, head + rng.randint(-3, 3))) for _ in range(rng.choice((0, 1, 2, 4)))]
        else:
            bodies = [head % 1024 + 1] if at < 1024 else [rng.randint(1, 1024) for _ in range(rng.choice((0, 2, 3)))]
        words = ["add", mark, head, rng.choice(FORMS), some_code(rng, scale, maker.rich)] + bodies
        maker.lines.append(" ".join(map(str, words)))
        maker.taken[mark] = True
    maker.add()
    maker.lines += [f"want {rng.randint(1, 1024)}" for _ in range(20)]
    maker.lines += ["step"] * 20 + ["finish", "tables"]
    maker.lines += [f"want {s}" for s in range(1, 1025)]
    maker.lines += ["finish", "tables"]
    for _ in range(6):
        for doing in rng.choices((maker.withdraw, maker.add, maker.read, maker.want), k=6):
            doing()
        maker.lines += ["step"] * 10 + ["read 1", "finish"]
    maker.plain("tables")
    if texts:
        maker.plain("write")
        for worse in (False, True, True, False):
            text, _ = good_text(rng, scale, 1024, 4096, full=rng.random() < 0.5)
            if worse:
                text = damaged(rng, text, scale, 1024, 4096)
            maker.lines += [f"load {texts.keep(text)}", f"want {rng.randint(1, 1024)}", "finish", "tables", "write"]
    return maker.lines


# Malformed lines


def malformed_lines(rng, scale, texts):
    """Lines that end a run. The board before them has this scale, two statements and two places."""
    code, wrong = some_code(rng, scale), wrong_code(rng, scale)
    other = rng.choice([name for name in SCALES if name != "percent"])
    lines = [
        "clear", "Step", "wants 1", "added 1 1 A", "1", "-", "boards percent 1 1",
        "want", "read", "withdraw", "add", "add 1", "add 1 1", "add 1 1 A",
        "board", f"board {scale}", f"board {scale} 2",
        "want x", "want -1", "want +1", "want 1.5", "want 0x1", "read 1e2", "withdraw -0",
        f"add one 1 A {code}", f"add 1 -1 A {code}", f"add 1 1 A {code} x", f"add 1 1 A {code} -1", "add 1 1 A x",
        f"add 1 1 a {code}", f"add 1 1 AO {code}", f"add 1 1 X {code}", f"add 1 1 1 {code}",
        f"add 1 1 A {code} 1 1 1 1 1", f"add 1 1 A {code} 0 0 0 0 0", f"add 9 9 A {code} 1 1 1 1 0",
        f"add 1 1 A {wrong}", f"add 9 1 O {wrong} 1", f"add 0 0 L {wrong} 1",
        f"board {scale} 2 2 listed {wrong}", f"board {scale} 2 2 listed {code} {wrong}",
        f"board {scale} 0 2 listed {wrong}", f"board {scale} 2 2 listed x", f"board {scale} 2 2 {code}",
        f"board {other} 2 2 ramp 10 20 15", f"board {other} 2 2 listed ramp 10 20", "board percent 2 2 ramp",
        "board percent 2 2 ramp 10", "board percent 2 2 ramp 10 x", "board percent 2 2 ramp 10 20 x",
        "board percents 2 2", "board turned 2 2", "board percent 2 x", "board percent -1 2",
        "want 1 1", "read 1 2", "withdraw 1 1", "step 1", "finish 1", "tables 1", "grades 1",
    ]
    if texts:
        here = texts.keep(good_text(rng, scale, 2, 2)[0])
        lines += ["load", f"load {here} x", "write 1", f"load {here}.none"]
    return lines


def malformed_scripts(rng, texts):
    """One script for each kind of malformed line."""
    early = ["want 1", "read 1", "step", "finish", "tables", "withdraw 1", "add 1 1 A 0"]
    for line in early + (["write"] if texts else []):
        yield f"# no board yet\n{line}\nboard percent 2 2\n"
    for at in range(len(malformed_lines(rng, "percent", texts))):
        scale = rng.choice(SCALES)
        lines = [f"board {scale} 2 2", "want 1", f"add 1 1 A {some_code(rng, scale)} 2", "finish", "read 1"]
        lines += ["", "# a remark"] * rng.randint(0, 2)
        lines += [malformed_lines(rng, scale, texts)[at], "step", f"board {scale} 2 2", "tables"]
        yield "\n".join(lines) + "\n"


# Board texts (docs/TEXT.md)


def rule_line(mark, head, form, code, bodies):
    return f"R{mark:5}{head:5}{form}{code:5}" + "".join(f"{b:5}" for b in bodies) + "\n"


def good_text(rng, scale, count, places, full=False):
    """A text that a board of this size takes, and its marks."""
    marks = range(1, places + 1)
    if not full:
        marks = sorted(rng.sample(marks, rng.choice((0, 1, rng.randint(0, places), places)) if places < 99 else 99))
    text = f"B{count:5}{len(marks):5}\n"
    for mark in marks:
        bodies = [rng.randint(1, count) for _ in range(rng.randint(0, 4))]
        bodies += [0] * (4 - len(bodies))
        text += rule_line(mark, rng.randint(1, count), rng.choice(FORMS), some_code(rng, scale), bodies)
    return text.encode(), marks


ODD_BYTES = [bytes([b]) for b in b"0123456789 AOLXBRabr\n\r\t\0+-._\x7f\x80\xff"]


def odd_field(rng, scale, count, places):
    """Five bytes for a number field, good or bad."""
    near = (0, 1, count - 1, count, count + 1, places, places + 1, 1024, 4096, 65535, 65536, 99999)
    number = str(rng.choice(near + (some_code(rng, scale), wrong_code(rng, scale))))[:5]
    spelled = rng.choice((
        number.rjust(5), number.rjust(5), number.rjust(5), number.ljust(5), number.rjust(5, "0"), ("0" + number).rjust(5),
        number.center(5), "     ", "    -", f"-{number}".rjust(5), f"+{number}".rjust(5), f"{number}.".rjust(5),
        f"\t{number}".rjust(5), "   00", "    0", "00000", "1 1 1", "0x001", "  1 0", "\0\0\0\0001", "   1\n", "   1\r",
    ))
    return spelled[-5:].encode()


def damaged(rng, text, scale, count, places):
    """A text with a few things altered; it may still be good by chance."""
    for _ in range(rng.choice((1, 1, 1, 2, 3))):
        alter = rng.choice((altered_bytes, altered_lines, altered_field, wrong_value, wrong_value))
        text = alter(rng, text, scale, count, places)
    return text


def altered_bytes(rng, text, scale, count, places):
    """Bytes lost, brought in or changed anywhere."""
    at = rng.randint(0, len(text))
    odd = rng.choice(ODD_BYTES)
    return rng.choice((
        text[:at], text[:at] + text[at + 1 :], text[:at] + odd + text[at:], text[:at] + odd + text[at + 1 :],
        text[:at] + odd + text[at + 1 :], text + odd, text + b"\n", text[:-1], text[:-1] + b" ", text[:-1] + b"\r",
        text[:-1] + b"\r\n", text.replace(b"\n", b"\r\n"), b"" if rng.random() < 0.2 else text + b"R",
    ))


def altered_lines(rng, text, scale, count, places):
    """A line lost, doubled, brought in or changed over with another."""
    lines = text.splitlines(keepends=True)
    if not lines:
        return b"\n"
    one, two = rng.randrange(len(lines)), rng.randrange(len(lines))
    kind = rng.randrange(4)
    if kind == 0:
        del lines[one]
    elif kind == 1:
        lines.insert(one, lines[two])
    elif kind == 2:
        lines[one], lines[two] = lines[two], lines[one]
    else:
        lines.append(rule_line(places, 1, "A", 0, (0, 0, 0, 0)).encode())
    return b"".join(lines)


def altered_field(rng, text, scale, count, places):
    """A letter or a number field, seldom one of the first line."""
    lines = text.splitlines(keepends=True)
    if not lines:
        return rng.choice(ODD_BYTES)
    one = 0 if len(lines) == 1 or rng.random() < 0.2 else rng.randrange(1, len(lines))
    column = rng.choice((0, 1, 6)) if one == 0 else rng.choice((0, 1, 6, 11, 12, 17, 22, 27, 32))
    field = rng.choice(ODD_BYTES) if column in (0, 11) else odd_field(rng, scale, count, places)
    lines[one] = lines[one][:column] + field + lines[one][column + len(field) :]
    return b"".join(lines)


def wrong_value(rng, text, scale, count, places):
    """Well-spelled numbers with wrong values, one or more in a line."""
    lines = text.splitlines(keepends=True)
    if not lines:
        return text
    one = 0 if len(lines) == 1 or rng.random() < 0.15 else rng.randrange(1, len(lines))
    beyond = rng.choice((count + 1, count + 1, places + 1, 1025, 65535, 65536 + count, 99999))
    if one == 0:
        wrong = {1: rng.choice((0, count - 1, beyond)), 6: rng.choice((0, len(lines), places, places + 1, 4097, 99999))}
    else:
        mark = rng.choice((0, 0, places, places + 1, 65537, 99999, rng.randint(1, places)))
        code = int(str(wrong_code(rng, scale))[:5])
        wrong = {1: mark, 6: rng.choice((0, beyond)), 12: code}
        wrong.update({column: rng.choice((0, 0, 1, count, beyond)) for column in (17, 22, 27, 32)})
    for column in rng.sample(sorted(wrong), rng.choice((1, 1, 1, min(2, len(wrong))))):
        lines[one] = lines[one][:column] + str(wrong[column]).rjust(5).encode() + lines[one][column + 5 :]
    return b"".join(lines)


class Texts:
    """Keeps texts as numbered files in a folder."""

    def __init__(self, folder, named):
        self.folder, self.named, self.count = folder, named, 0
        os.makedirs(folder, exist_ok=True)

    def keep(self, text):
        self.count += 1
        name = f"{self.count:06}.txt"
        with open(os.path.join(self.folder, name), "wb") as file:
            file.write(text)
        return f"{self.named}/{name}"


# Scripts


def scripts(seed, count, full=False, texts=None):
    """Gives scripts as pairs of a kind and a text; kinds are mixed, limits, malformed and full."""
    rng = random.Random(seed)
    made = 0
    while made < count:
        lines, calls = [], 0
        while calls < CALLS_A_SCRIPT and made + calls < count:
            roll = rng.random()
            if roll < 0.04:
                board = refused_board(rng, texts)
            elif roll < 0.07:
                board = medium_board(rng, texts)
            else:
                board = small_board(rng, texts)
            calls += len(board)
            lines += board
        script = "\n".join(lines) + "\n"
        made += count_calls(script)
        yield "mixed", script
    yield "limits", limits_script(rng)
    for script in malformed_scripts(rng, texts):
        yield "malformed", script
    if full:
        for scale in SCALES:
            shape = rng.choice(("random", "near", "circle"))
            yield "full", "\n".join(full_board(rng, scale, texts, shape)) + "\n"


def main(arguments):
    plain, full, text, out = [], False, None, None
    words = iter(arguments)
    for word in words:
        if word == "--full":
            full = True
        elif word == "--text":
            text = next(words, None)
        elif word == "--out":
            out = next(words, None)
        else:
            plain.append(word)
    if len(plain) != 2 or not all(word.isdigit() for word in plain):
        print("usage: generate.py SEED COUNT [--full] [--text DIR] [--out DIR]", file=sys.stderr)
        return 1
    texts = Texts(text, text) if text else None
    if out:
        os.makedirs(out, exist_ok=True)
    for at, (kind, script) in enumerate(scripts(int(plain[0]), int(plain[1]), full, texts), 1):
        if out:
            with open(os.path.join(out, f"{plain[0]}-{at:04}-{kind}.script"), "w") as file:
                file.write(script)
        elif kind != "malformed":
            # A malformed line would end the one script.
            sys.stdout.write(script)
    return 0


if __name__ == "__main__":
    sys.exit(main(sys.argv[1:]))
