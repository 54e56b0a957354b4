#!/usr/bin/env python3
"""Counts, in crates/*/src, the places of each point of docs/DESIGN-PASS.md: `tools/count_forms.py [-l] [FOLDER]`.

-l lists them as file:line. FOLDER is a checkout, by default this one."""
import collections
import glob
import os
import re
import sys

args = [a for a in sys.argv[1:] if a != '-l']
LIST = '-l' in sys.argv
ROOT = args[0] if args else os.path.join(os.path.dirname(os.path.abspath(__file__)), '..')
TESTS = {'test_geometry', 'test_listings', 'test_records'}

Function = collections.namedtuple('Function', 'file line name head body')


def functions(path, text):
    """Each function with its head (up to the body) and its body."""
    for m in re.finditer(r'(?m)^( *)(?:pub )?(?:extern "C" )?fn (\w+)', text):
        depth = m.group(1)
        end = re.search(r'(?m)^%s\}' % depth, text[m.start():])
        whole = text[m.start():m.start() + end.end()] if end else text[m.start():]
        brace = re.search(r'(?m)^%s\{$' % depth, whole) or re.search(r'\{\n', whole)
        at = brace.start() if brace else len(whole)
        yield Function(path, text.count('\n', 0, m.start()) + 1, m.group(2), whole[:at], whole[at:])


files = sorted(glob.glob(os.path.join(ROOT, 'crates/*/src/*.rt')))
texts = {f: open(f).read() for f in files}
funcs = [g for f in files for g in functions(f, texts[f])]
short = lambda f: os.path.relpath(f, ROOT)
points = collections.OrderedDict()


def add(point, kind, file, line, what=''):
    points.setdefault(point, collections.OrderedDict()).setdefault(kind, []).append('%s:%d %s' % (short(file), line, what))


def lines(point, kind, pattern, skip=r'^\s*//'):
    for f in files:
        for i, l in enumerate(texts[f].split('\n'), 1):
            if re.search(pattern, l) and not re.search(skip, l):
                add(point, kind, f, i, l.strip())


# 1 own enums of the shape of Option or Result, flags with a value beside, numbers for refusals
for f in files:
    for m in re.finditer(r'(?m)^(?:pub )?enum (\w+)(?:<[^>]*>)? \{\n((?:    .*\n)+)\}', texts[f]):
        variants = re.findall(r'(?m)^    (\w+)(\(.*\))?,', m.group(2))
        held = [v for v in variants if v[1]]
        if len(held) == 1 and len(variants) < 4:
            add(1, 'enum like Option or Result', f, texts[f].count('\n', 0, m.start()) + 1, m.group(1))
lines(1, 'flag or reason beside a value', r'^    (pub )?(some|reason|\w+_may): ')
lines(1, 'variant for nothing known', r'^    Unknown,$')
for g in funcs:
    if re.search(r'-> (u64|Done|Answer|Judged|Removal|CurveRead)\b', g.head) and re.search(
            r'_reason$|^refused$|^answered$|^turned_down$|^removal_refused$|^without_curve$', g.name):
        add(1, 'function that answers a reason as a number', g.file, g.line, g.name)
for g in funcs:
    crate = short(g.file).split('/')[1]
    for i, l in enumerate(g.body.split('\n')):
        if re.search(r'(refused|answered|turned_down|removal_refused|without_curve)\((h, )?[0-9]+', l) or (
                g.name.endswith('_reason') and re.search(r'(return|=>|\{|^\s+)\s*[0-9]+\b\s*[;,}]?$|\{ [0-9]+ \}', l)):
            add(1, 'refusal as a numeral', g.file, g.line + g.head.count('\n') + i, l.strip())
        if re.search(r'\b(reason|early|late|meeting|refusal) != 0', l):
            add(1, 'test of a reason by != 0', g.file, g.line + g.head.count('\n') + i, l.strip())

# 2 functions that are the same but for names and numbers
shapes = collections.defaultdict(list)
for g in funcs:
    if short(g.file).split('/')[1] in TESTS:
        continue
    tokens = re.findall(r'\w+|[^\w\s]', re.sub(r'//.*', '', g.body))
    if len(tokens) < 25:
        continue
    keep = {'if', 'else', 'for', 'while', 'loop', 'return', 'match', 'let', 'mut', 'in', 'true', 'false', 'as'}
    shapes[' '.join(t if t in keep or not re.match(r'\w', t) else 'x' for t in tokens)].append(g)
for group in shapes.values():
    if len(group) > 1:
        add(2, 'functions of one shape', group[0].file, group[0].line, ', '.join(
            '%s::%s' % (short(g.file).split('/')[1], g.name) for g in group))

# 3 loops that count by hand
lines(3, 'while or loop', r'^\s+(while|loop)\b')
for g in funcs:
    for m in re.finditer(r'(?m)^( +)for (\w+) in (.*) \{\n((?:\1 .*\n|\n)*)', g.body):
        var, over, body = m.group(2), m.group(3), m.group(4)
        line = g.line + g.head.count('\n') + g.body.count('\n', 0, m.start())
        if '..' not in over:
            continue
        uses = re.findall(r'(?<![\w.])%s\b(?!\()' % var, body)
        indexed = re.findall(r'\w+\[%s\]' % var, body)
        if over.endswith('.len()') or (indexed and len(uses) == len(indexed) and len(set(indexed)) == 1):
            add(3, 'for over an index that reads one slice', g.file, line, 'for %s in %s' % (var, over))

# 4 equality, order, copies and conversions by hand
HAND = ('same_point is_straight turns_apart graver least greatest lesser clamped steps is_new magnitude clamp count_of '
        'is_complete instead with_counts with_next').split()
for g in funcs:
    if g.name in HAND and short(g.file).split('/')[1] not in TESTS:
        add(4, 'function that a derive or a method of the library is', g.file, g.line, g.name)
for g in funcs:
    if re.search(r'match \w+ \{\s*([\w:]+(\(.*\))? => (true|false),\s*)+\}', g.body):
        add(4, 'match that says a bool', g.file, g.line, g.name)
    elif re.search(r'=> (true|false),\n', g.body) and g.name not in ('turns_apart', 'is_straight', 'is_new', 'is_complete'):
        add(4, 'match that says a bool', g.file, g.line, g.name)

# 5 parameters that always travel together
for g in funcs:
    names = re.findall(r'(\w+): ', g.head.split('requires')[0].split('ensures')[0])
    if {'nodes', 'edges', 'faces', 'h'} <= set(names):
        add(5, 'nodes, edges, faces, h', g.file, g.line, g.name)
    if {'edges', 'count'} <= set(names) or {'edges', 'e'} <= set(names):
        add(5, 'edges, count', g.file, g.line, g.name)
    if {'nodes', 'n'} <= set(names):
        add(5, 'nodes, n', g.file, g.line, g.name)

# 6 buffers with a length beside them
for f in files:
    for m in re.finditer(r'(?m)^(?:pub )?struct (\w+)[^\n]* \{\n((?:    .*\n)+)\}', texts[f]):
        if re.search(r'(count|length|len): usize', m.group(2)) and re.search(r'\[\w+; ', m.group(2)):
            add(6, 'struct of an array and its length', f, texts[f].count('\n', 0, m.start()) + 1, m.group(1))
lines(6, 'array on the stack', r'let mut \w+ = \[[^\]]*; ')

# 7 switches on which step to run
lines(7, 'match on a Routine or a Variant', r'match (routine|how) \{')

for p, kinds in sorted(points.items()):
    print('%d: %d' % (p, sum(len(k) for k in kinds.values())))
    for k, where in kinds.items():
        print('   %4d  %s' % (len(where), k))
        if LIST:
            for w in where:
                print('         ' + w)
