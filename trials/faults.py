#!/usr/bin/env python3
"""Makes board texts with every fault of docs/TEXT.md at every column where it can arise, and a script of their loads.

Usage: faults.py DATA [ANSWERS]

Makes the folder DATA/faults.d anew and prints the script part that loads its files. With DATA crates/tamqwedis/data
that part is the end of crates/tamqwedis/stdin, from `# faults-good` on. A text with a fault is named after it,
NUMBER-LINE-COLUMN-WHAT.txt. Where ANSWERS is given nothing is made: the answers in that file to the loads of such
texts are compared with the names. Status 1: an answer is not what a name says.
"""

import os
import re
import shutil
import sys

FOLDER = "faults.d"

# The texts are for a board of five statements and six places.
STATEMENTS, PLACES = 5, 6
BASE = (
    b"B    5    3\n"
    b"R    2    1A   90    2    3    4    5\n"
    b"R    3    5O   80    1    4    0    0\n"
    b"R    5    4L    7    5    1    2    3\n"
)
# The board that refused loads must leave alone: unopened, quiet and active statements, blank places between rules.
BOARD = f"""board percent {STATEMENTS} {PLACES}
add 1 2 A 90 4
add 4 4 L 60
add 6 3 O 100 2 4
want 2
finish
want 5""".split("\n")

RULE_LINES = (2, 3, 4)
BODIES = (18, 23, 28, 33)
NUMBERS = (13, *BODIES)


def start(line):
    """Where a line of a text starts."""
    return 0 if line == 1 else 12 + 38 * (line - 2)


def put(text, line, column, new):
    """A text with other bytes from this column on."""
    at = start(line) + column - 1
    return text[:at] + new + text[at + len(new) :]


def field(text, line, column):
    """The number in a field, as digits."""
    at = start(line) + column - 1
    return text[at : at + 5].strip()


def right(number):
    return b"%5d" % number


def number_fields():
    """Line and column of each number field; those of rules lie in the first, a middle and the last in turn."""
    yield from ((1, 2), (1, 7))
    for at, column in enumerate((2, 7, *NUMBERS)):
        yield RULE_LINES[at % 3], column


class Part:
    """Collects files and script lines."""

    def __init__(self):
        self.files, self.script = {}, []

    def say(self, *lines):
        self.script += lines

    def load(self, name, text):
        name += ".txt"
        if self.files.setdefault(name, text) != text:
            raise ValueError(f"two texts have the name {name}")
        self.say(f"load {FOLDER}/{name}")

    def fault(self, number, line, column, what, text):
        """Loads a text with this fault."""
        self.load(f"{number}-{line}-{column}-{what}", text)


# Texts that load


def good(part):
    part.say("# faults-good", "# each scale takes its texts, the highest codes among them, and gives them back")
    codes = {
        "percent": (90, 80, 7, 100),
        "verdict": (1, 2, 0, 3),
        "suppliers": (1, 255, 32768, 65535),
        "belief": (100, 15390, 25600, 25700),
    }
    for scale, weights in codes.items():
        part.say(f"board {scale} {STATEMENTS} {PLACES}")
        part.load(f"good-{scale}", good_text(weights))
        part.say("write", "tables")
    part.say("# 0 in each field that may have it: a weight, the bodies, the rule count; old tables are ignored", *BOARD)
    part.load("good-zeros", b"B    5    1\nR    6    5O    0    0    0    0    0\n")
    part.say("write", "tables", *BOARD)
    part.load("good-none", b"B    5    0\n")
    part.say("write", "tables")
    part.say("# as many rules as places")
    part.load("good-all-places", filled_text())
    part.say("write", "want 1", "finish", "tables")


def good_text(weights):
    """The base text with other weights and a rule in the last place."""
    text = put(BASE, 1, 7, right(4)) + b"R    6    5L    0    5    5    5    5\n"
    for at, weight in enumerate(weights):
        text = put(text, 2 + at, 13, right(weight))
    return text


def filled_text():
    lines = [b"B%5d%5d\n" % (STATEMENTS, PLACES)]
    for mark in range(1, PLACES + 1):
        head = mark % STATEMENTS + 1
        lines.append(b"R%5d%5d%c%5d%5d    0    0    0\n" % (mark, head, b"AOL"[mark % 3], 100 - mark, mark % 3))
    return b"".join(lines)


# 10 and 11


def lines(part):
    part.say("# faults-lines", "# 10: too few bytes are left for a line", *BOARD)
    part.fault(10, 1, 1, "empty", b"")
    part.fault(10, 1, 1, "one-byte", b"B")
    part.fault(10, 1, 1, "no-line-feed", BASE[:11])
    for line in RULE_LINES:
        part.fault(10, line, 1, "no-line", BASE[: start(line)])
        part.fault(10, line, 1, "no-line-feed", BASE[: start(line + 1) - 1])
    part.fault(10, 3, 1, "half-a-line", BASE[: start(3) + 17])
    part.fault(10, 5, 1, "a-rule-more-due", put(BASE, 1, 7, right(4)))
    part.say("tables", "# 10: the line feed is not in place")
    part.fault(10, 3, 1, "a-second-header", BASE[: start(3)] + BASE)
    part.fault(10, 1, 1, "byte-order-mark", b"\xef\xbb\xbf" + BASE)
    part.fault(10, 1, 1, "carriage-returns", BASE.replace(b"\n", b"\r\n"))
    for line in (1, *RULE_LINES):
        at = start(line + 1) - 1
        part.fault(10, line, 1, "blank-for-line-feed", BASE[:at] + b" " + BASE[at + 1 :])
        part.fault(10, line, 1, "return-for-line-feed", BASE[:at] + b"\r" + BASE[at + 1 :])
        part.fault(10, line, 1, "return-and-line-feed", BASE[:at] + b"\r" + BASE[at:])
    for line in (1, 4):
        at = start(line + 1) - 1
        part.fault(10, line, 1, "line-feed-early", BASE[: at - 1] + BASE[at:])
        part.fault(10, line, 1, "line-feed-late", BASE[:at] + b" " + BASE[at:])
    part.say("tables")


def letters(part):
    part.say("# faults-letters", "# 11 at column 1", *BOARD)
    for what, letter in (("lower-case", b"b"), ("r", b"R"), ("x", b"X"), ("blank", b" ")):
        part.fault(11, 1, 1, what, put(BASE, 1, 1, letter))
    for line in RULE_LINES:
        part.fault(11, line, 1, "lower-case", put(BASE, line, 1, b"r"))
        part.fault(11, line, 1, "b", put(BASE, line, 1, b"B"))
    part.fault(11, 3, 1, "blank", put(BASE, 3, 1, b" "))
    part.say("tables", "# 11 at column 12")
    for line in RULE_LINES:
        part.fault(11, line, 12, "x", put(BASE, line, 12, b"X"))
    odd = (("lower-a", b"a"), ("lower-o", b"o"), ("lower-l", b"l"), ("blank", b" "), ("zero", b"0"), ("nine", b"9"))
    near = (("before-a", b"@"), ("b", b"B"), ("m", b"M"), ("p", b"P"))
    for at, (what, letter) in enumerate(odd + near):
        line = RULE_LINES[at % 3]
        part.fault(11, line, 12, what, put(BASE, line, 12, letter))
    part.say("tables")


# 12, and numbers as wide as their field


def malformed(digits, sign):
    """Spellings of a number that are not its own, with what is wrong."""
    wide = digits.rjust(5)
    yield "leading-zero", (b"0" + digits).rjust(5)
    yield "left", digits.ljust(5)
    yield "blank", b" " * 5
    yield "inner-blank", (digits + b" " + digits).rjust(5)
    yield "sign", (sign + digits).rjust(5)
    yield "letter", (b"x" + digits).rjust(5)
    yield "blank-after", (digits + b" ").rjust(5)
    yield "zeros", b"00000"
    yield "high-bit", wide[:4] + bytes([wide[4] | 128])


# Each number field has one of these too.
STRANGE = (
    ("slash", b"    /"),
    ("colon", b"    :"),
    ("tab", b"\t   1"),
    ("nul", b"\0\0\0\0001"),
    ("line-feed", b"   \n1"),
    ("zeros-before", b"00001"),
    ("point", b"  1.0"),
    ("arabic-one", "   \u0661".encode()),
    ("no-break-blank", "  \u00a01".encode()),
)


def numbers(part):
    part.say("# faults-numbers", "# 12 at every number field", *BOARD)
    for at, ((line, column), strange) in enumerate(zip(number_fields(), STRANGE, strict=True)):
        spellings = malformed(field(BASE, line, column), (b"+", b"-")[at % 2])
        for what, spelling in (*spellings, strange):
            part.fault(12, line, column, what, put(BASE, line, column, spelling))
        part.say("tables")


def wide_numbers(part):
    part.say("# faults-wide-numbers", "# 99999, and 65536 too many: numbers, judged by the later checks", *BOARD)
    kinds = {(1, 2): 14, (1, 7): 14, 2: 4, 7: 3, 13: 13}
    for line, column in number_fields():
        number = kinds.get((line, column)) or kinds.get(column, 3)
        part.fault(number, line, column, "99999", put(BASE, line, column, b"99999"))
        over = right(65536 + int(field(BASE, line, column)))
        part.fault(number, line, column, "65536-too-many", put(BASE, line, column, over))
    part.say("tables")


# 14, 4, 15, 3, 13 and 7


def counts(part):
    part.say("# faults-counts", "# 14 at the counts", *BOARD)
    for what, count in (("none", 0), ("one-less", STATEMENTS - 1), ("one-more", STATEMENTS + 1)):
        part.fault(14, 1, 2, what, put(BASE, 1, 2, right(count)))
    part.fault(14, 1, 7, "one-more", put(BASE, 1, 7, right(PLACES + 1)))
    part.say("tables", "# 14: bytes follow the last line")
    for what, more in (("line-feed", b"\n"), ("blank", b" "), ("rule", BASE[start(4) :])):
        part.fault(14, 5, 1, what, BASE + more)
    part.fault(14, 4, 1, "a-rule-less-due", put(BASE, 1, 7, right(2)))
    part.fault(14, 2, 1, "no-rule-due", put(BASE, 1, 7, right(0)))
    part.fault(14, 2, 1, "line-feed", b"B    5    0\n\n")
    part.fault(14, 2, 1, "two-headers", b"B    5    0\n" * 2)
    part.say("tables")


def marks(part):
    part.say("# faults-marks", "# 4; also where 15 is met: 0 is never above the mark before", *BOARD)
    for line in RULE_LINES:
        part.fault(4, line, 2, "none", put(BASE, line, 2, right(0)))
        part.fault(4, line, 2, "above-the-table", put(BASE, line, 2, right(PLACES + 1)))
    part.say("tables", "# 15: equal to the mark before, below it, below it but above the one before that")
    for line, before in ((3, 2), (4, 3)):
        part.fault(15, line, 2, "equal", put(BASE, line, 2, right(before)))
        part.fault(15, line, 2, "one-below", put(BASE, line, 2, right(before - 1)))
    part.fault(15, 4, 2, "below-and-above", put(put(BASE, 3, 2, right(6)), 4, 2, right(5)))
    part.say("tables")


def heads(part):
    part.say("# faults-heads", "# 3 at a head", *BOARD)
    for line in RULE_LINES:
        part.fault(3, line, 7, "none", put(BASE, line, 7, right(0)))
        part.fault(3, line, 7, "above-the-count", put(BASE, line, 7, right(STATEMENTS + 1)))
    part.say("tables")


def weights(part):
    part.say("# faults-weights", "# 13: a code that no grade has, in each scale")
    codes = {
        "percent": (101, 256, 65535, 65536),
        "verdict": (4, 256, 65535, 65536, 99999),
        "suppliers": (65536, 65537, 99999),
        # the second part is 101, the first is, both are; 65636 is what 16 bits would take for the lowest
        "belief": (101, 25701, 25856, 25957, 65535, 65536, 65636, 99999),
    }
    for scale, wrong in codes.items():
        part.say(f"board {scale} {STATEMENTS} {PLACES}", "add 2 3 O 3", "want 3", "finish")
        # every line has a weight that all scales have
        text = put(put(put(BASE, 2, 13, right(0)), 3, 13, right(1)), 4, 13, right(2))
        for code in wrong:
            line = RULE_LINES[code % 3]
            part.fault(13, line, 13, str(code), put(text, line, 13, right(code)))
        part.say("tables")


def bodies(part):
    part.say("# faults-bodies", "# 3 at each body", *BOARD)
    for at, column in enumerate(BODIES):
        line = (2, 4)[at % 2]
        part.fault(3, line, column, "above-the-count", put(BASE, line, column, right(STATEMENTS + 1)))
    part.say("tables", "# 7 at each body but the first, and 3 where both are met")
    for before in ((0,), (0, 0), (1, 0), (0, 0, 0), (5, 0, 0), (5, 1, 0)):
        column = BODIES[len(before)]
        what = "after-" + "-".join(map(str, before))
        last = put(BASE, 4, 18, b"".join(map(right, (*before, 0, 0, 0)[:4])))
        part.fault(7, 4, column, what, put(last, 4, column, right(1)))
        part.fault(3, 4, column, what, put(last, 4, column, right(STATEMENTS + 1)))
    part.say("tables")


# Two and more faults in one text

# The checks of a line in their order: column, number, bytes that meet it, and, after the last of a field, bytes that
# pass the field. Bytes that meet a check meet the later ones of the field too, where that is possible.
HEADER_CHECKS = (
    (12, 10, b" ", b"\n"),
    (1, 11, b"R", b"B"),
    (2, 12, b"   06", None),
    (2, 14, b"    6", b"    5"),
    (7, 12, b"   07", None),
    (7, 14, b"    7", b"    3"),
)
RULE_CHECKS = (
    (38, 10, b" ", b"\n"),
    (1, 11, b"B", b"R"),
    (2, 12, b"   00", None),
    (2, 4, b"    0", None),
    (2, 15, b"    2", b"    3"),
    (7, 12, b"   00", None),
    (7, 3, b"    0", b"    1"),
    (12, 11, b"a", b"A"),
    (13, 12, b"00101", None),
    (13, 13, b"  101", b"  100"),
    (18, 12, b"   06", None),
    (18, 3, b"    6", b"    0"),
    (23, 12, b"   06", None),
    (23, 3, b"    6", None),
    (23, 7, b"    1", b"    0"),
    (28, 12, b"   06", None),
    (28, 3, b"    6", None),
    (28, 7, b"    1", b"    0"),
    (33, 12, b"   06", None),
    (33, 3, b"    6", None),
    (33, 7, b"    1", b"    0"),
)


def at_fault_from(text, line, checks, first):
    """A text whose line passes the checks before this one, meets it, and is at fault in every later field."""
    # backwards, so that a field is left with what meets its first check
    for column, _, meets, _ in reversed(checks):
        text = put(text, line, column, meets)
    for column, _, _, passes in checks[:first]:
        if passes:
            text = put(text, line, column, passes)
    column, _, meets, _ = checks[first]
    return put(text, line, column, meets)


def order(part):
    part.say("# faults-order", "# everything from a check to the end of the text is at fault: the first wins", *BOARD)
    tail = at_fault_from(BASE, 3, RULE_CHECKS, 0)[start(3) : start(4)]
    for first, (column, number, _, _) in enumerate(HEADER_CHECKS):
        text = at_fault_from(BASE, 1, HEADER_CHECKS, first)[:12] + tail * 4
        part.fault(number, 1, 1 if number == 10 else column, "and-all-later", text)
    for first, (column, number, _, _) in enumerate(RULE_CHECKS):
        text = at_fault_from(BASE, 3, RULE_CHECKS, first)[: start(4)] + tail * 2
        part.fault(number, 3, 1 if number == 10 else column, "and-all-later", text)
    part.fault(10, 4, 1, "and-all-later", BASE[: start(4)] + tail * 2)
    part.fault(14, 5, 1, "and-all-later", BASE + tail)
    part.say("tables")


# 1, and the longest text


def limits(part):
    part.say("# faults-limits", "# a board outside its limits refuses every text with 1, good ones too")
    for statements, places in ((0, 6), (5, 0), (5, 4097), (1025, 6)):
        part.say(f"board percent {statements} {places}")
        part.load("good-percent", good_text((90, 80, 7, 100)))
        part.load("good-none" if statements == STATEMENTS else f"for-{statements}", b"B%5d    0\n" % statements)
        part.load("10-1-1-empty", b"")


def longest_text():
    """4,096 rules on 1,024 statements with supplier sets as weights; only the last weight is no belief."""
    lines = [b"B 1024 4096\n"]
    for mark in range(1, 4097):
        head = (mark - 1) % 1024 + 1
        sons = [s for s in range(head + 1, head + 1 + mark % 5) if s <= 1024]
        spelled = b"".join(map(right, (sons + [0] * 4)[:4]))
        weight = 65535 if mark == 4096 else 256 * (mark % 101) + mark * 7 % 101
        lines.append(b"R%5d%5d%c%5d%s\n" % (mark, head, b"AOL"[mark % 3], weight, spelled))
    return b"".join(lines)


def longest(part):
    part.say("# faults-longest", "# 4,096 rules on 1,024 statements", "board suppliers 1024 4096")
    part.load("longest", longest_text())
    part.say("want 1000", "finish", "read 1000", "read 1013", "read 1024", "read 999")
    part.say("# one rule more is above the table: refused at the count, so the text has only two of them")
    part.fault(14, 1, 7, "4097-rules", b"B 1024 4097\n" + longest_text()[12:88])
    part.say("read 1000", "# one place or one statement short; and a weight in the last line that is no belief")
    for board in ("board suppliers 1024 4095", "board suppliers 1023 4096", "board belief 1024 4096"):
        part.say(board, "want 1000", "finish")
        part.load("longest", longest_text())
        part.say("read 1000", "withdraw 1")


# Names and answers


def layer(number, column):
    if number in (10, 11) and column == 1:
        return "line"
    return "field" if number in (11, 12, 13) else "board"


def check(path):
    """Compares answers with the names of the texts; number 1 comes before all that a text can have."""
    seen, wrong = 0, []
    with open(path, encoding="latin-1") as file:
        for line in file:
            named = re.match(rf"load {FOLDER}/(\d+)-(\d+)-(\d+)-\S+: (.*)", line)
            if named is None or named[4] == "refused 1 at board line 0 column 0":
                continue
            number, row, column = (int(named[at]) for at in (1, 2, 3))
            seen += 1
            if named[4] != f"refused {number} at {layer(number, column)} line {row} column {column}":
                wrong.append(line.strip())
    print("\n".join(wrong) if wrong else f"{seen} answers are as the names say")
    return 1 if wrong else 0


def make(data):
    part = Part()
    for add in (
        good, lines, letters, numbers, wide_numbers, counts, marks, heads, weights, bodies, order, limits, longest,
    ):
        add(part)
    folder = os.path.join(data, FOLDER)
    shutil.rmtree(folder, ignore_errors=True)
    os.makedirs(folder)
    for name, text in part.files.items():
        with open(os.path.join(folder, name), "wb") as file:
            file.write(text)
    print("\n".join(part.script))
    return 0


def main(arguments):
    if len(arguments) not in (1, 2):
        print("usage: faults.py DATA [ANSWERS]", file=sys.stderr)
        return 2
    return make(arguments[0]) if len(arguments) == 1 else check(arguments[1])


if __name__ == "__main__":
    sys.exit(main(sys.argv[1:]))
