#!/usr/bin/env python3
"""The documents held against the repository.

  check_docs.py

Needs crates/sheet/out/sheet (`rt run` in crates/sheet).
- Answers and rows of docs/MANUAL.md are those of the program, and crates/sheet/stdin begins with its tickets.
- examples/meadow.txt is the first tickets of the manual, up to its meadow.
- A block that names a file (```c examples/square.c) stands in that file, line by line.
- Every relative link of README.md and docs/*.md leads to a file, and its #anchor to a heading.
- Each name of docs/CODE.md is declared where its link leads; every crate and every public function is named there.
- No line is above 120 columns; in README.md, MANUAL.md, CODE.md and FIGURES.md no sentence is above 40 words.
"""

import subprocess
import sys
from urllib.parse import unquote, urlsplit

import code_names
import manual
import markdown
from repository import ROOT, program

MOST_COLUMNS, MOST_WORDS = 120, 40
PROSE = ('README.md', 'docs/MANUAL.md', 'docs/CODE.md', 'docs/FIGURES.md')
NOTES = ('docs/DECISIONS.md', 'docs/LANDINGS.md')


def documents():
    """All that have links, by path."""
    paths = [ROOT / 'README.md', *sorted((ROOT / 'docs').glob('*.md'))]
    return {str(p.relative_to(ROOT)): p.read_text() for p in paths}


def printed(tickets):
    """What the program prints after each ticket."""
    run = subprocess.run([program('sheet')], input=''.join(t + '\n' for t in tickets), capture_output=True, text=True)
    found = []
    for line in run.stdout.splitlines():
        if line[:1] in 'HNEF' and found:
            found[-1].append(line)
        else:
            found.append([line])
    return found


def example_faults():
    examples = manual.examples()
    tickets = [e.ticket for e in examples]
    said = printed(tickets)
    if len(said) != len(tickets):
        yield f'docs/MANUAL.md: {len(tickets)} tickets, but {len(said)} answers of the program'
    for e, (answer, *rows) in zip(examples, said):
        yield from manual.faults(e, answer, rows)
    stored = (ROOT / 'crates/sheet/stdin').read_bytes().split(b'\n')
    if stored[:len(tickets)] != [t.encode() for t in tickets]:
        yield 'crates/sheet/stdin does not begin with the tickets of docs/MANUAL.md: tests/generate_lines.py writes it'
    meadow = (ROOT / 'examples/meadow.txt').read_text().splitlines()
    if meadow != tickets[:len(meadow)]:
        yield 'examples/meadow.txt is not the first tickets of docs/MANUAL.md'


def stands_in(part, whole):
    return any(whole[i:i + len(part)] == part for i in range(len(whole) - len(part) + 1))


def block_faults(path, text):
    """Blocks that name a file."""
    for block in manual.blocks(text):
        where = f'{path}:{block.line}'
        if len(block.info) < 2:
            continue
        file = ROOT / block.info[1]
        if not block.lines:
            yield f'{where}: nothing of {block.info[1]}'
        elif not file.is_file():
            yield f'{where}: no file {block.info[1]}'
        elif not stands_in(block.lines, file.read_text().splitlines()):
            yield f'{where}: does not stand so in {block.info[1]}'


def link_faults(path, text):
    for number, target in markdown.links(text):
        link = urlsplit(target)
        if link.scheme or link.netloc:
            continue
        file = (ROOT / path).parent / unquote(link.path) if link.path else ROOT / path
        if not file.exists():
            yield f'{path}:{number}: no file {target}'
        elif link.fragment and file.suffix == '.md':
            if unquote(link.fragment) not in markdown.anchors(file.read_text()):
                yield f'{path}:{number}: no heading {target}'
    yield from (f'{path}:{number}: no link [{label}]' for number, label in markdown.undefined(text))


def width_faults(path, text):
    for line in markdown.lines(text):
        if len(line.text) > MOST_COLUMNS:
            yield f'{path}:{line.number}: {len(line.text)} columns'


def sentence_faults(path, text):
    for number, sentence in markdown.sentences(text):
        words = markdown.word_count(sentence)
        if words > MOST_WORDS:
            yield f'{path}:{number}: a sentence of {words} words: {sentence[:60]}..'


def faults():
    found = documents()
    yield from (f'{path} is missing' for path in (*PROSE, *NOTES) if path not in found)
    yield from example_faults()
    yield from code_names.faults()
    for path, text in found.items():
        yield from block_faults(path, text)
        yield from link_faults(path, text)
        yield from width_faults(path, text)
        if path in PROSE:
            yield from sentence_faults(path, text)


def main():
    found = list(faults())
    print(*found, f'{len(manual.examples())} examples, {len(documents())} documents, {len(found)} faults', sep='\n')
    return 1 if found else 0


if __name__ == '__main__':
    sys.exit(main())
