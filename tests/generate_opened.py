#!/usr/bin/env python3
"""Writes proofs/Opened.antt of the crates whose closed examples compute: every shut definition that a crate's
definitions use, opened at once. The map's has those of the crates below it.

  generate_opened.py     no arguments; needs nothing that is built
"""

import re

from repository import ROOT

CRATES = ROOT / 'crates'
HEADER = """\
-- Every definition opened at once: `unfolding opened` lets closed examples compute.
-- Written by tests/generate_opened.py.
"""
# a crate, the crates below whose definitions it opens itself, and what is opened already
OPENED = (
    ('map', ('lists', 'tables', 'plane', 'curves', 'planar_maps', 'rotation'), None),
    ('network', (), 'Rattle.map.proofs.Opened'),
    ('paths', (), 'Rattle.network.proofs.Opened'),
    ('joining', (), 'Rattle.map.proofs.Opened'),
    ('mending', (), 'Rattle.map.proofs.Opened'),
    ('nesting', (), 'Rattle.map.proofs.Opened'),
)


def shut(path):
    """The names of the shut definitions of a file."""
    return re.findall(r'^ *unfoldable pub (\S+) ', path.read_text(), re.M)


def filled(line, words):
    """The words behind the first, in lines of at most 120 columns."""
    lines = []
    for w in words:
        if len(line) + 1 + len(w) > 120:
            lines.append(line)
            line = '   '
        line += ' ' + w
    return '\n'.join([*lines, line])


def uses(module, names):
    """Imports of at most 120 columns each."""
    out, now = [], []
    for n in names:
        if now and len(f'use {module}.{{{", ".join((*now, n))}}}') > 120:
            out.append(now)
            now = []
        now.append(n)
    return [f'use {module}.{{{", ".join(part)}}}' for part in (*out, now)]


def write(crate, below, base):
    lines, names = ['use mathlib.Core.List.{flat_map}'], ['flat_map']
    if base:
        lines, names = [f'use {base} as below'], ['below.opened']
    for c in (*below, crate):
        for path in sorted((CRATES / c / 'specs').glob('*.antt')):
            found = shut(path)
            if found:
                lines += uses(f'Rattle.{c}.specs.{path.stem}', found)
                names += found
    text = HEADER + '\n'.join(lines) + '\n\nunfoldable pub opened : Unit {0}\n'
    text += filled('unfolding', names) + '\nopened = tt\n'
    (CRATES / crate / 'proofs/Opened.antt').write_text(text)


def main():
    for row in OPENED:
        write(*row)


if __name__ == '__main__':
    main()
