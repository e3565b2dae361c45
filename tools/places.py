#!/usr/bin/env python3
"""Lists places of src/ that may be written in an older form, by point of docs/DESIGN-PASS.md.

    python3 tools/places.py [POINT..]      at the top of a checkout; with no point it prints all counts, and each place of the points named

It goes by text and lists candidates: a place that it names may be right as it is, and docs/DESIGN-PASS.md says why.
"""
import re
import sys
from collections import defaultdict
from pathlib import Path

TITLES = {
    '1': 'sentinels, flags beside values, numbers for kinds, refusals and outcomes',
    '2': 'functions or types of one shape',
    '3': 'loops that count by hand',
    '4': 'numbers, conversions and texts by hand',
    '5': 'facts in three or more contracts, parameters that travel together',
    '6': 'buffers with a length, arenas of indices',
    '7': 'switches by number, tables of functions',
}
LINES = {
    '1': [
        r'\bconst NON?E\b',
        r'^\s+(pub(\(\w+\))? )?(present|accepted|writes|refused): bool,',
        r'\b(refusal|outcome|number|kind|way)\w*: u(8|16|32)\b',
        r'Result<[^<>]*, u(8|16|32)>',
        r'^\s+Nothing,',
        r'\(u32, u32',
        r'-> Option<u32>',
        r'\btasks == 0\b|\btasks != 0\b',
    ],
    '3': [
        r'\bwhile\b(?! let)',
        r'^\s+\w+ (\+|-)= 1;',
        r'\w+ = \w+\.wrapping_add\(1\);',
        r'\bfor \w+ in [^{]*\.\.[^{]*\{',
        r'\bwhile let\b',
    ],
    '4': [
        r'\bfn \w*(number|numbered|value|text|letter|bits_of|says)\w*(<.*>)?\(',
        r'\bfn (print|push|add)_\w+\(',
        r'impl.* From<',
        r'(refused|agreed) \{',
    ],
    '6': [
        r'^\s+(pub(\(\w+\))? )?\w+: \[[^\]]+; ?\w+\],',
        r'^\s+(pub(\(\w+\))? )?len: \w+,',
        r'^\s+(pub(\(\w+\))? )?next: \w+,',
        r'^\s+pub records: Vec<u8>',
    ],
    '7': [
        r'match (self\.)?dice\.',
        r'match way',
        r'\bfn\([^)]*\)',
        r'unreachable\(\)',
    ],
}
CLAUSE = re.compile(r'^\s+(?:requires|ensures)\*?(?: \w+)? \{ (.*) \}')
FUNCTION = re.compile(r'^\s*(?:pub(?:\(\w+\))? )?(?:final )?fn (\w+)')


def sources():
    for path in sorted(Path('crates').glob('*/src/**/*.rt')):
        yield path, path.read_text().split('\n')


def by_line(point):
    for path, lines in sources():
        for number, line in enumerate(lines, 1):
            if not line.lstrip().startswith('//') and any(re.search(p, line) for p in LINES[point]):
                yield f'{path}:{number}: {line.strip()}'


def functions():
    """Each function: where it begins, its name, its parameters' text, its clauses and its body's lines."""
    for path, lines in sources():
        at = 0
        while at < len(lines):
            found = FUNCTION.match(lines[at])
            if not found:
                at += 1
                continue
            head, clauses, end = '', [], at
            while end < len(lines) and lines[end].strip() not in ('{', '{}') and not lines[end].rstrip().endswith(('{', '{}', ';')):
                clause = CLAUSE.match(lines[end])
                if clause:
                    clauses.append(clause.group(1))
                else:
                    head += ' ' + lines[end].strip()
                end += 1
            clause = CLAUSE.match(lines[end]) if end < len(lines) else None
            if clause:
                clauses.append(clause.group(1))
            else:
                head += ' ' + (lines[end].strip() if end < len(lines) else '')
            indent = len(lines[at]) - len(lines[at].lstrip())
            close = end
            while close < len(lines) and lines[close] != ' ' * indent + '}' and lines[close].strip() != '{}':
                if close > end and FUNCTION.match(lines[close]):
                    break
                close += 1
            yield f'{path}:{at + 1}', found.group(1), head, clauses, lines[end + 1:close]
            at = end + 1


def shape(text):
    text = re.sub(r'"[^"]*"|b?\'[^\']*\'|\b\d[\w.]*\b', '0', text)
    return re.sub(r'[A-Za-z_]\w*', 'a', re.sub(r'\s+', ' ', text)).strip()


def twins():
    by_shape = defaultdict(list)
    for place, name, head, _, body in functions():
        code = [line for line in body if line.strip() and not line.strip().startswith('//')]
        if code:
            by_shape[shape(' '.join(code)) + '|' + str(head.count(':'))].append(f'{place}: {name}')
    for _, places in sorted(by_shape.items()):
        if len(places) > 1:
            yield ' ~ '.join(places)


def repeated():
    facts = defaultdict(set)
    groups = defaultdict(set)
    for place, name, head, clauses, _ in functions():
        for clause in clauses:
            if not clause.startswith('result'):
                facts[clause].add(f'{place}: {name}')
        types = re.findall(r'\w+: (&mut [\w<>, \']+?|&[\w<>, \'\[\]]+?|[A-Z]\w+)(?=[,)])', head)
        wide = sorted({t for t in types if t.startswith('&mut')})
        for i, first in enumerate(wide):
            for second in wide[i + 1:]:
                groups[f'{first} with {second}'].add(f'{place}: {name}')
    for text, places in sorted(facts.items()):
        if len(places) >= 3:
            yield f'{len(places)} contracts: {text}'
    for text, places in sorted(groups.items()):
        if len(places) >= 3:
            yield f'{len(places)} functions take {text}'


def places(point):
    if point == '2':
        return list(twins())
    if point == '5':
        return list(repeated())
    return list(by_line(point))


def main():
    for point, title in TITLES.items():
        found = places(point)
        print(f'{point}. {title}: {len(found)}')
        if point in sys.argv[1:]:
            for place in found:
                print('   ', place)


main()
