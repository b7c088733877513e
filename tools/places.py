#!/usr/bin/env python3
"""Finds where code may be in an older form than the language allows now.

Run at the repository's top: python3 tools/places.py [POINT]
It prints, for each point, every line of crates/*/src that is to be read for it, and how many there are. What is
found by a pattern is a candidate: docs/DESIGN-PASS.md says which of them are places.
"""
import glob
import re
import sys
from collections import defaultdict
from difflib import SequenceMatcher

FILES = sorted(glob.glob('crates/*/src/*.rt'))


def lines(pattern, code_only=True):
    """The lines that the pattern matches, comments left out."""
    found = []
    for name in FILES:
        for number, line in enumerate(open(name), 1):
            text = line.split('//')[0] if code_only else line
            if re.search(pattern, text):
                found.append(f'{name}:{number}: {line.strip()}')
    return found


def functions():
    """Each function: file, line, name, header (with clauses) and body."""
    found = []
    for name in FILES:
        text = open(name).read()
        for match in re.finditer(r'^( *)(pub(?:\(crate\))? )?fn (\w+)', text, re.M):
            indent = match.group(1)
            rest = text[match.start():]
            opened = re.search(r'^' + indent + r'\{\n|\{\n', rest, re.M)
            closed = re.search(r'^' + indent + r'\}', rest, re.M)
            ended = re.search(r';\n', rest)
            if not closed or not opened or opened.start() > closed.start():
                continue
            if ended and ended.start() < opened.start():
                continue  # a trait's method without a body
            line = text[:match.start()].count('\n') + 1
            found.append((name, line, match.group(3), rest[:opened.start()], rest[opened.end():closed.start()]))
    return found


def shape(body):
    """The body's words, with numbers and types left open."""
    body = re.sub(r'//.*', '', body)
    words = re.findall(r"b'.'|\w+|[^\w\s]", body)
    out = []
    for word in words:
        if re.match(r'\d', word) or word.startswith("b'"):
            out.append('0')
        elif re.match(r'[A-Z]|[ui]\d+$|usize$|bool$', word):
            out.append('T')
        else:
            out.append(word)
    return out


def twins():
    """Pairs of functions of the same shape but for types and numbers."""
    all_of = [(f'{n}:{l}: {w}', shape(b)) for n, l, w, h, b in functions() if '/tests' not in n and '/refusing' not in n]
    found = []
    for i, (one, a) in enumerate(all_of):
        for other, b in all_of[i + 1:]:
            if min(len(a), len(b)) >= 8 and SequenceMatcher(None, a, b, False).ratio() >= 0.75:
                found.append(f'{one}  ~  {other}')
    return found


def repeated_clauses():
    """Clauses with the same words in three functions or more."""
    seen = defaultdict(list)
    for name, line, word, header, _ in functions():
        for kind, clause in re.findall(r'(requires|ensures)(?: \w+)? \{ (.*?) \}\n', header + '\n', re.S):
            plain = re.sub(r'\bself\b|\blist\b|\bchip\b', 'it', ' '.join(clause.split()))
            plain = re.sub(r'Writes .*? result', 'Writes _ result', plain)
            seen[(kind, plain)].append(f'{name}:{line} {word}')
    return [f'{len(v)} times, {k[0]} {{ {k[1]} }}: ' + '; '.join(v) for k, v in seen.items() if len(v) >= 3]


def travelling():
    """Pairs of parameters with the same names and types in three functions or more."""
    seen = defaultdict(list)
    for name, line, word, header, _ in functions():
        if '/tests' in name:
            continue
        match = re.search(r'\((.*?)\)\s*(->|\n|$)', header, re.S)
        if not match:
            continue
        parts = [' '.join(p.split()) for p in re.split(r',(?![^<\[]*[>\]])', match.group(1)) if ':' in p]
        for i, a in enumerate(parts):
            for b in parts[i + 1:]:
                seen[tuple(sorted((a, b)))].append(f'{name}:{line} {word}')
    return [f'{len(v)} times, {k[0]}, {k[1]}: ' + '; '.join(v) for k, v in seen.items() if len(v) >= 3]


def proofs():
    found = []
    for name in sorted(glob.glob('crates/*/proofs/**/*.antt', recursive=True)):
        count = sum(1 for _ in open(name))
        found.append(f'{name}: {count} lines')
    return found


POINTS = {
    '1 own enums': lambda: lines(r'\benum [A-Z]'),
    '1 flags': lambda: lines(r'\b\w+: (&mut )?bool\b'),
    '1 numbers for kinds': lambda: lines(r'requires \{ \w+ < [0-9] \}|-> u8\b|match (code|number)\b|\b0 => |\b1 => '),
    '2 twins': twins,
    '3 loops': lambda: lines(r'^\s*(for|while|loop)\b'),
    '4 by hand': lambda: lines(r'\{ [0-9] \}|=> (true|false)\b|Ok\(\w\) => Ok|Ok\(_\) => Ok|Err\(\w+\) => Err|Some\(\w+\) => Some\(|fn (same|of|number_of|part_of|told|number)\b|Err\(\w+::(Beyond|Cut) \{ at \}\) =>'),
    '5 facts': repeated_clauses,
    '5 parameters': travelling,
    '6 buffers': lambda: lines(r'&(\'\w+ )?mut \[|\blen: |\[u?\w+; '),
    '7 switches': lambda: lines(r'^\s*(\} else )?if (same\(|\w+ == b")|\bfn\('),
    '8 proofs': proofs,
}

for point, find in POINTS.items():
    if len(sys.argv) > 1 and not point.startswith(sys.argv[1]):
        continue
    found = find()
    print(f'== {point}: {len(found)}')
    for place in found:
        print('  ' + place)
