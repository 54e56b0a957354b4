#!/usr/bin/env python3
"""Brings this repository's own definitions and lemmas to snake case, once, after the kit's port.py.

usage: python3 tools/respell.py            at the top of the repository; run with --list it only prints the table

A definition in camelCase, and a name joined by dashes, becomes snake_case. A dash stays where it joins two names
(`filled-length` where both `filled` and `length` are definitions), as in the standard library, and in a name that
begins with a type. Functions of src/, exported names, strings, inputs and outputs keep their names.
"""
import os, re, subprocess, sys

TOKEN = re.compile(r"[^\s(){}\[\],;.«»`\"⌜⌝]+")
DECL = re.compile(r"^\s*(?:(?:abbrev|unfoldable|pub)\s+)*([^\s(){}:=,;.]+) :(?:\s|$)")
FIELD = re.compile(r"^\s+(?:pub\s+)?((?:[^\s(){}:=,;.]+ )+): ")
KIND = re.compile(r"^\s*(?:abbrev )?(?:pub )?(?:record|data|ruleset)\s+([^\s(){}:=,;.]+)")
SKIP = {'let', 'module', 'use', 'open', 'in', 'pub', 'abbrev', 'unfoldable', 'record', 'data', 'where', '|', '--'}
# definitions of the library that lemmas of this repository are named after
WORDS = set('''length take drop append map set get_or paste filter sum replicate flat_map fold table sweep place column
pos negsuc nat_abs lt_z non_neg add sub mul div mod le lt leb ltb eqb cond and or not true false zero suc nil cons
reverse concat zip'''.split())
# fields that share a definition's word, and definitions whose word stands only as a field of a literal or a local name
PLAIN = set('links-once rings-bear-one in-form in-range no-link face-cells face-ranges'.split())
FORCED = set('countOf endsAt findNode lastNumber nextLeft nextLink nextNode nextRight plotterPoints'.split())


def files(top, ext):
    for folder, dirs, names in os.walk(os.path.join(top, 'crates')):
        dirs[:] = sorted(d for d in dirs if d != 'out')
        for n in sorted(names):
            if n.endswith(ext):
                yield os.path.join(folder, n)


def of_function(path):
    """Whether the file is the proof of one function: what it declares are answers to goals."""
    return re.search(r'/proofs/.*/(Proof|Answers|Invariants)\.antt$', path) is not None


def part(word):
    """A word in snake case; one that begins with a capital is a type's name, and stays."""
    if not word or word[0].isupper():
        return word
    word = re.sub(r"(?<=[a-z0-9'])(?=[A-Z][a-z0-9]|[A-Z]$|[A-Z]['_]|[A-Z]{2})", '_', word)
    head, *rest = word.split('_')
    return '_'.join([head] + [r[:1].lower() + r[1:] if r[:1].isupper() and not r[1:2].isupper() else r for r in rest])


def spelled(name, defs):
    if not re.match(r"^[A-Za-z][A-Za-z0-9_'\-₀-₉]*$", name) or name[0].isupper():
        return name
    parts = [part(p) for p in name.split('-')]
    if '' in parts:
        return name
    # the words in as few definitions as they make; a suffix that is a plain word, or any word that is none, has `_`
    best = {len(parts): []}
    for i in range(len(parts) - 1, -1, -1):
        for j in range(i + 1, len(parts) + 1):
            word = '_'.join(parts[i:j])
            if j in best and (word in defs or word[0].isupper() and j == i + 1):
                if i not in best or len(best[j]) + 1 < len(best[i]):
                    best[i] = [word] + best[j]
    out = '-'.join(best[0]) if 0 in best else '_'.join(parts)
    return out


def main():
    top = os.getcwd()
    texts = {p: open(p, encoding='utf-8').read() for p in list(files(top, '.antt')) + list(files(top, '.rt'))}
    declared, defs, used, specs = {}, set(WORDS), set(), set()
    for p, t in texts.items():
        if p.endswith('.rt'):
            defs |= set(re.findall(r'\bfn (\w+)', t))
        for l in t.split('\n'):
            if not p.endswith('.antt'):
                continue
            used |= {m.group(0) for m in TOKEN.finditer(l) if l[m.start() - 1:m.start()] != '.'}
            if of_function(p):
                continue
            names = []
            if m := DECL.match(l):
                names.append(m.group(1))
            if m := FIELD.match(l):
                names += m.group(1).split()
            if m := KIND.match(l):
                names.append(m.group(1))
            for n in names:
                if n not in SKIP and not (set(names) & SKIP - {'pub', 'abbrev', 'unfoldable'}):
                    declared.setdefault(n, p)
            if '/specs/' in p:
                specs |= {n for n in names if n in declared}
            if '/specs/' in p and re.match(r'^\s*(abbrev pub|unfoldable pub|pub abbrev)', l) and names:
                defs.add(part(names[0]) if '-' not in names[0] else names[0])
    table, lemmas, seen, bad = {}, {}, {}, []
    # a definition has its word; a lemma that would have the same gets `_lem`
    for n in sorted(declared, key=lambda n: (n not in specs, '-' in n, n)):
        new = spelled(n, defs)
        if new == n:
            continue
        if n in PLAIN:
            table[n] = new
            continue
        if new in seen or new in declared and new in specs or new in used and new not in declared and '-' in n:
            new += '_lem'
        elif new in declared:
            if new + '_lem' in used:
                bad.append((n, new, 'both stand'))
                continue
            lemmas[new] = new + '_lem'
        elif new in used and n not in FORCED:
            bad.append((n, new, 'a local name, or one of the library'))
            continue
        if new in seen or new in used and new not in lemmas and n not in FORCED:
            bad.append((n, new, seen.get(new, 'stands already')))
            continue
        table[n] = new
        seen[new] = n
    if '--list' in sys.argv:
        for n, new in table.items():
            print(f'{n}\t{new}')
        for n, new in lemmas.items():
            print(f'{n}\t{new}\tlemma')
        for b in bad:
            print('CLASH', *b)
        return
    for n, new, why in bad:
        print(f'left: {n} would be {new}: {why}')
    changed = 0

    def turn(text, antt=True):
        def one(m):
            n = m.group(0)
            if antt and n in lemmas and text[m.start() - 1:m.start()] != '.':
                return lemmas[n]
            return table.get(n, n)

        return TOKEN.sub(one, text)

    for p, t in texts.items():
        comment = '--' if p.endswith('.antt') else '//'
        lines = []
        for l in t.split('\n'):
            code, mark, said = l, '', ''
            at = re.search(r'(^|\s)' + re.escape(comment) + r'(\s|$)', l)
            if at:
                code, mark, said = l[:at.start()], l[at.start():at.end()], l[at.end():]
            strings = re.split(r'("(?:[^"\\]|\\.)*")', code) if p.endswith('.rt') else [code]
            code = ''.join(s if s.startswith('"') else turn(s, p.endswith('.antt')) for s in strings)
            said = re.sub(r'`[^`]*`', lambda m: turn(m.group(0), False), said)
            lines.append(code + mark + said)
        new = '\n'.join(lines)
        if new != t:
            open(p, 'w', encoding='utf-8').write(new)
            changed += 1
    print(f'{len(table)} names, {changed} files, {len(bad)} left')


main()
