#!/usr/bin/env python3
"""The places that docs/DESIGN-PASS.md counts: tools/places.py [-v] [FOLDER]. With -v each place is shown; FOLDER is a checkout, this one where none is named."""
import collections
import glob
import itertools
import os
import re
import sys

shown = '-v' in sys.argv
folders = [a for a in sys.argv[1:] if a != '-v']
os.chdir(folders[0] if folders else os.path.join(os.path.dirname(os.path.abspath(__file__)), '..'))
files = {f: open(f).read() for f in sorted(glob.glob('crates/*/src/*.rt'))}


def lines(pattern, within=''):
    """the lines that match, outside comments"""
    found = []
    for f, text in files.items():
        if within and not re.search(within, f):
            continue
        for n, line in enumerate(text.split('\n'), 1):
            code = line.split('//')[0]
            if re.search(pattern, code):
                found.append(f'{f}:{n}: {code.strip()}')
    return found


def signatures():
    """each function: file, name, parameters by name and type"""
    for f, text in files.items():
        for m in re.finditer(r'\bfn (\w+)(?:<[^>]*>)?\(([^)]*)\)', text):
            given = [' '.join(p.split()) for p in m.group(2).split(',') if ':' in p]
            yield f, m.group(1), [tuple(x.strip() for x in p.split(':', 1)) for p in given]


def facts():
    """facts that stand in the `requires` of three functions or more"""
    count = collections.Counter()
    for text in files.values():
        for m in re.finditer(r'^\s*requires(?: \w+)? \{ (.*) \}$', text, re.M):
            count.update(set(p.strip(' ()') for p in m.group(1).split(' × ')))
    return [f'{n} times: {fact}' for fact, n in count.most_common() if n >= 3]


def travellers():
    """groups of three parameters or more that are part of no larger one, of the same names and types, that three functions or more take"""
    sets = [frozenset(p for p in given if p[0] != 'rt') for _, _, given in signatures()]
    groups = {}
    for a, b in itertools.combinations(sets, 2):
        both = a & b
        if len(both) >= 3:
            groups[both] = sum(both <= s for s in sets)
    often = {g: n for g, n in groups.items() if n >= 3}
    top = [g for g in often if not any(g < h for h in often)]
    return sorted(f'{often[g]} functions: ' + ', '.join(f'{n}: {t}' for n, t in sorted(g)) for g in top)


def beside():
    """a slice or an array with how much of it is meant beside it, in one list of parameters"""
    return [f'{f}: {name}' for f, name, given in signatures()
            if any(re.search(r'\[', t) for _, t in given) and any(n in ('n', 'k', 'top', 'at', 'depth', 'd', 'leaf', 'left', 'commands', 'count') and t == 'usize' for n, t in given)]


def bodies():
    """each function's body as a row of signs: names and numbers are left out, what is called stays"""
    for f, text in files.items():
        for m in re.finditer(r'^( *)(?:pub )?(?:extern "C" )?fn (\w+)', text, re.M):
            first = re.compile(r'(?:^' + m.group(1) + r'| )\{$', re.M).search(text, m.end())
            end = re.compile(r'^' + m.group(1) + r'\}$', re.M).search(text, first.end())
            body = '\n'.join(l.split('//')[0] for l in text[first.end():end.start() if end else None].split('\n'))
            signs = re.findall(r'\w+(?=\()|[^\w\s]|\b(?:if|while|for|match|return|let|mut|else|in)\b|\w+', body)
            row = [t if not re.match(r'\w', t) or t in ('if', 'while', 'for', 'match', 'return', 'let', 'mut', 'else', 'in') else 'x' for t in signs]
            yield f'{f}: {m.group(2)}', row


def twins():
    """functions whose bodies are the same row of signs, of thirty signs or more"""
    rows = collections.defaultdict(list)
    for name, row in bodies():
        if len(row) >= 30:
            rows[' '.join(row)].append(name)
    return [', '.join(names) for names in rows.values() if len(names) > 1]


REFUSAL = r'\bregions::(DONE|IMAGE|REGION|ACCOUNT|HELD|CROSS|SHARE|ABSENT|SHARES|SEAT|LIMIT|DESK|FORM|ROOM|LEVEL)\b'
POINTS = [
    ('1a a flag beside what it speaks of (fields)', lambda: lines(r'^\s*(pub )?(ok|found|marked|opened): (bool|u32),$') + lines(r'^\s*pub flag: u32,$', 'owners')),
    ('1b enums', lambda: lines(r'^\s*(pub )?enum \w+')),
    ('1c a refusal by its number (fields, functions)', lambda: lines(r'^\s*(pub )?number: u32,$') + lines(r'^(pub )?(extern "C" )?fn \w*(number|asked_of|save|delete|open_\w+|close_\w+|batch)\w*\(.*-> u32') ),
    ('1d a refusal by its number (uses)', lambda: lines(REFUSAL)),
    ('1e numbers for kinds (constants, parameters)', lambda: lines(r'^pub const \w+: usize = \d+;', 'script') + lines(r'\b(inner|what|group): (usize|u32)\b', 'mending|remove|index|script|replay/src/(sets|asked)') + lines(r'\b(kind|choice): u32\b')),
    ('2 twins (bodies that differ in names and numbers alone)', twins),
    ('3a loops by `while`', lambda: lines(r'^\s*while ')),
    ('3b loops by `loop`', lambda: lines(r'^\s*loop \{')),
    ('4a equality by hand', lambda: lines(r'^\s*(pub )?fn same_\w+')),
    ('4b words copied or cleared one by one in a loop', lambda: lines(r'^\s+\w+\[[^\]]*\b(i|a|at)\b[^\]]*\] = (\w+\[[^\]]*\b(i|a)\b[^\]]*\]|0|s|words::word\(.*\));$')),
    ('4c conversion by hand: wide', lambda: lines(r'\bwide(_word)?\(')),
    ('4d conversion by hand: functions between two types', lambda: lines(r'^\s*(pub )?fn (kind_of|choice_of|kind_number|mark_of|seat_of_numbers|seat_of|seats_of|flat_open|flat_seat|flat_desk)\(', 'flat')),
    ('4e printing by hand', lambda: lines(r'\bfn (number|line|rows|text|print_number)\(', 'console')),
    ('5a facts of three functions or more', facts),
    ('5b parameters that travel together', travellers),
    ('6 a buffer with a length or a place beside it', beside),
    ('7 a switch on which step to run', lambda: lines(r'^\s*(match (task|wanted|choice|kind|what|c\.what|c\.group|letter|tier)\b|(\} else )?if (what|c\.what|c\.group|inner|group|h) == )')),
    ('8a functions with answers', lambda: sorted(glob.glob('crates/*/proofs/**/Answers.antt', recursive=True))),
    ('8b answers', lambda: [f'{f}: {m}' for f in sorted(glob.glob('crates/*/proofs/**/Answers.antt', recursive=True)) for m in re.findall(r'^pub ([\w\'-]+) : goal\.', open(f).read(), re.M)]),
]
for name, count in POINTS:
    found = count()
    print(f'{len(found):5}  {name}')
    if shown:
        for place in found:
            print('         ' + place)
