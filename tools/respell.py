#!/usr/bin/env python3
"""Respells this repository's own definitions and lemmas: words in snake case, facts in upper camel case.

    python3 tools/respell.py [--list]      at the top of the checkout, once; --list shows what it would rename

A name counts as the repository's own where a file of specs/ or proofs/ declares it. Names of goals, of steps and of
types, and all of src/ but its clauses, stay.
"""
import re
import sys
from pathlib import Path

# A fact; definitions whose plain spelling is a field or a ghost member; lemmas that would fall together with the
# definition or the function that they speak of.
BY_HAND = {
    'owesNow': 'OwesNow',
    'lastReader': 'last_reader_of',
    'noneTwice': 'no_task_twice',
    'queueLocked': 'is_queue_locked',
    'oneMore': 'one_more_attempt',
    'goesOn': 'may_go_on',
    'sameWay': 'is_same_way',
    'writersWait': 'writers_wait',
}
LEMMAS = '''behind-first behind-last-reader behind-readers call-read end-at first-fault first-line first-writer front-readers
holding-all in-first list-of number-at one-agreed out-row places-of readers-in retraces-exactly runs-are-safe
same-words'''.split()
BY_HAND.update({name: name.replace('-', '_') + '_lem' for name in LEMMAS})
WORDS = r'(?:abbrev|unfoldable|pub|data|record|ruleset)'
DECLARED = re.compile(r'^\s*(?:' + WORDS + r'\s+)*([a-z][^\s:(){}\[\];,.]*)\s+(:.*)$')
GOAL = re.compile(r'^:\s*(?:goal|Needs|Goals)\.')
TOKEN = re.compile(r"[^\s(){}\[\];,.⌜⌝‹›\"]+")


def snake(name):
    parts = re.sub(r'(?<=[a-z0-9])(?=[A-Z])', '_', name)
    return parts.lower().replace('-', '_')


def own_names(files):
    names = set()
    for f in files:
        for line in f.read_text().splitlines():
            m = DECLARED.match(line)
            if m and not GOAL.match(m.group(2)) and re.search(r'[A-Z-]', m.group(1)):
                names.add(m.group(1))
    return names


def respelled(text, table):
    return TOKEN.sub(lambda m: table.get(m.group(), m.group()), text)


def clause_spans(text):
    """Where a .rt text has clauses, ghost items and ghost uses."""
    for m in re.finditer(r'\b(ghost|ensures|requires)\b[^{};]*', text):
        end, depth = m.end(), 0
        while end < len(text):
            depth += {'{': 1, '}': -1}.get(text[end], 0)
            end += 1
            if depth == 0:
                break
        yield m.start(), end
    for m in re.finditer(r'#!?\[tactic\([^\]]*\)\]', text):
        yield m.start(), m.end()


def respell_source(text, table):
    out, at = [], 0
    for start, end in sorted(clause_spans(text)):
        if start < at:
            continue
        out += [text[at:start], respelled(text[start:end], table)]
        at = end
    return ''.join(out + [text[at:]])


def main():
    ghosts = sorted(p for d in ('specs', 'proofs') for p in Path('crates').glob(f'*/{d}/**/*.antt'))
    sources = sorted(Path('crates').glob('*/src/**/*.rt'))
    table = {n: BY_HAND.get(n, snake(n)) for n in own_names(ghosts)}
    if '--list' in sys.argv:
        for old in sorted(table):
            print(old, table[old])
        return
    for f in ghosts:
        lines = f.read_text().split('\n')
        f.write_text('\n'.join(l if l.lstrip().startswith('--') else respelled(l, table) for l in lines))
    for f in sources:
        f.write_text(respell_source(f.read_text(), table))


main()
