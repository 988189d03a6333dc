"""Boards for the benchmark, as board text (docs/TEXT.md). The same seed makes the same board."""

import os
import random

STATEMENTS = 1024
RULES = 4096
SCALES = ("percent", "verdict", "suppliers", "belief")


def weight(scale, rng):
    """The code of a rule's weight: high, so that grades travel far, but of many values."""
    if scale == "percent":
        return rng.randint(60, 100)
    if scale == "verdict":
        return rng.choice((1, 2, 3, 3, 3, 3))
    if scale == "suppliers":
        return rng.getrandbits(16) | rng.getrandbits(16) | rng.getrandbits(16)
    return 256 * rng.randint(60, 100) + rng.randint(0, 40)


def start(scale, rng):
    """The code of the weight of a rule without bodies."""
    if scale == "percent":
        return rng.randint(40, 100)
    if scale == "verdict":
        return rng.choice((1, 2, 3))
    if scale == "suppliers":
        return rng.getrandbits(16) & rng.getrandbits(16)
    return 256 * rng.randint(40, 100) + rng.randint(0, 60)


def highest(scale):
    return {"percent": 100, "verdict": 3, "suppliers": 65535, "belief": 25600}[scale]


def form(rng):
    return rng.choice("AOL")


def circles(scale, rng, statements, rules):
    """Random heads and one to three random bodies; one rule in sixteen has none."""
    board = []
    for mark in range(rules):
        head = rng.randint(1, statements)
        if mark % 16 == 15:
            board.append((head, form(rng), start(scale, rng), []))
        else:
            bodies = [rng.randint(1, statements) for _ in range(rng.randint(1, 3))]
            board.append((head, form(rng), weight(scale, rng), bodies))
    return board


def chain(scale, rng, statements, rules):
    """Each statement rests on the next by several rules, one of which mostly passes the grade on unlessened."""
    each = rules // statements
    board = []
    for head in range(1, statements):
        for turn in range(each):
            passes = turn == 0 and rng.random() < 0.97
            board.append((head, form(rng), highest(scale) if passes else weight(scale, rng), [head + 1]))
    for _ in range(each):
        board.append((statements, form(rng), start(scale, rng), []))
    return board


def shuffled(scale, rng, statements, rules):
    """The chain with its statements numbered in another order, and its rules but the last in another too."""
    numbers = list(range(1, statements + 1))
    rng.shuffle(numbers)
    board = [
        (numbers[head - 1], letter, code, [numbers[b - 1] for b in bodies])
        for head, letter, code, bodies in chain(scale, rng, statements, rules)
    ]
    last = board.pop()
    rng.shuffle(board)
    return board + [last]


def knot(scale, rng, statements, rules):
    """64 statements that rest on each other by rules of four bodies; every other statement rests on them."""
    tied = 64
    board = [
        (rng.randint(1, tied), form(rng), start(scale, rng), [])
        for _ in range(15)
    ]
    for head in range(tied + 1, statements + 1):
        bodies = [rng.randint(1, tied) for _ in range(rng.randint(1, 4))]
        board.append((head, form(rng), weight(scale, rng), bodies))
    while len(board) < rules - 1:
        bodies = [rng.randint(1, tied) for _ in range(4)]
        board.append((rng.randint(1, tied), form(rng), weight(scale, rng), bodies))
    rng.shuffle(board)
    return board + [(rng.randint(1, tied), form(rng), start(scale, rng), [])]


KINDS = {"circles": circles, "chain": chain, "shuffled": shuffled, "knot": knot}


def spelled(statements, board):
    lines = [f"B{statements:5}{len(board):5}\n"]
    for mark, (head, letter, code, bodies) in enumerate(board, 1):
        four = bodies + [0] * (4 - len(bodies))
        lines.append(f"R{mark:5}{head:5}{letter}{code:5}" + "".join(f"{b:5}" for b in four) + "\n")
    return "".join(lines)


def facts(board):
    """The rules as Prolog facts; a rule without bodies has the form f."""
    rows = []
    for head, letter, code, bodies in board:
        name = letter.lower() if bodies else "f"
        rows.append(f"rule({head}, {name}, {code}, [{', '.join(map(str, bodies))}]).\n")
    return ":- discontiguous rule/4.\n" + "".join(sorted(rows, key=lambda row: int(row[5:row.index(",")])))


def save(folder, name, statements, board, scale):
    path = os.path.join(folder, name + ".txt")
    with open(path, "w", encoding="ascii") as file:
        file.write(spelled(statements, board))
    if scale == "percent":
        with open(os.path.join(folder, name + ".pl"), "w", encoding="ascii") as file:
            file.write(facts(board))
    return path


def make(folder):
    """Writes all boards. Answers the full-size ones as (kind, scale, path), and the growing ones as (rules, path)."""
    os.makedirs(folder, exist_ok=True)
    full = []
    for kind, board_of in KINDS.items():
        for scale in SCALES:
            board = board_of(scale, random.Random(f"{kind} {scale}"), STATEMENTS, RULES)
            full.append((kind, scale, save(folder, f"{kind}-{scale}", STATEMENTS, board, scale)))
    growing = []
    rules = 64
    while rules <= RULES:
        board = circles("percent", random.Random(f"growing {rules}"), rules // 4, rules)
        growing.append((rules, save(folder, f"growing-{rules}", rules // 4, board, "percent")))
        rules *= 2
    return full, growing
