#!/usr/bin/env python3
"""Respells the repository's own names in specs/, proofs/, clauses and edits: functions, lemmas, fields and
constructors in snake case, facts and types in camel case, none with a dash. It was run once, at the top, on
what the toolchain's port.py left. Names that Rattle makes (loop-x-preserved, if-k, ..), names of its library
and everything in strings stay. With --list it prints the table of names and changes nothing."""
import collections
import pathlib
import re
import sys

TOP = pathlib.Path('.')
WORD = re.compile(r"[^\s(){};,.\[\]:=λ→×|`\"]+")
DECLARES = re.compile(r"^\s*(?:(?:abbrev|unfoldable|pub|data|record)\s+)*([^\s(){};,.\[\]:=]+)(?:\s+[({].*)?\s*:(?!=)")
GOAL = re.compile(r":\s*goal\.")
ALIAS = re.compile(r"\bas ([^\s(){};,.\[\]:=]+)")
BOUND = re.compile(r"[({]([^(){}:=;]+) :")

# the library's, though a line of a proof begins with it
THEIRS = {'cond-false'}

# the library has a word of the name that these would get; port.py gave the last one a capital
APART = {'bit-and': 'bit_of_and', 'bit-or': 'bit_of_or', 'Filled-of': 'filled_of'}


def antt_files():
    return sorted(p for p in TOP.glob('crates/*/*/**/*.antt') if '/out/' not in str(p))


def dashed(name):
    return '-' in name.strip('-') and re.match(r"^[A-Za-z]", name) and name not in THEIRS


def declared(path):
    """The names with a dash that the file declares: definitions, lemmas, fields, constructors, helpers,
    variables of specs/, and what a use line calls something as."""
    for line in path.read_text().split('\n'):
        if line.startswith(('use ', 'ghost use ')):
            yield from filter(dashed, ALIAS.findall(line))
        if path.suffix == '.rt' or line.lstrip().startswith(('use ', '--', 'mod ', 'pub mod')):
            continue
        if 'specs' in path.parts:
            for group in BOUND.findall(line):
                yield from filter(dashed, group.split())
        found = DECLARES.match(line)
        if found and not GOAL.search(line) and dashed(found.group(1)):
            yield found.group(1)


def respelled(name):
    if name in APART:
        return APART[name]
    if name[0].isupper():
        return ''.join(part[:1].upper() + part[1:] for part in name.split('-'))
    return name.replace('-', '_')


def main():
    names = collections.defaultdict(set)
    for path in [*antt_files(), *sorted(TOP.glob('crates/*/src/*.rt'))]:
        for name in declared(path):
            names[name].add(str(path))
    table = {name: respelled(name) for name in names}
    words = collections.Counter()
    for path in antt_files():
        words.update(WORD.findall(path.read_text()))
    for path in TOP.glob('crates/*/src/*.rt'):
        words.update(WORD.findall(path.read_text()))
    falls = collections.defaultdict(set)
    for old, new in table.items():
        falls[new].add(old)
    for new, olds in sorted(falls.items()):
        if len(olds) > 1 or words[new]:
            print('falls together:', new, sorted(olds), words[new])
    if '--list' in sys.argv:
        for old, new in sorted(table.items()):
            print(old, new, *sorted(names[old])[:2])
        return

    def turn(text):
        return WORD.sub(lambda m: table.get(m.group(0), m.group(0)), text)

    for path in antt_files():
        old = path.read_text()
        new = turn(old)
        if new != old:
            path.write_text(new)
    for path in [*TOP.glob('crates/*/src/*.rt'), *TOP.glob('crates/*/must-fail/*.edit')]:
        old = path.read_text()
        new = '\n'.join(
            ''.join(part if k % 2 else turn(part) for k, part in enumerate(re.split(r'("(?:[^"\\]|\\.)*")', line)))
            for line in old.split('\n'))
        if new != old:
            path.write_text(new)
    print(len(table), 'names')


main()
