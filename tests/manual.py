"""The examples of docs/MANUAL.md.

A block ```sheet has tickets `> 1 -1 0 0`, each followed by its answer and by some of the rows printed after it; a row
may end in ` ..`, which stands for zeros, and `#` begins a comment. The tickets of all blocks, in the order of the text,
are those of one sheet from the empty map on. A block with two words, ```c examples/square.c, stands in that file.
"""

from dataclasses import dataclass, field

from repository import ROOT

MANUAL = ROOT / 'docs/MANUAL.md'
FENCE = '```'


@dataclass
class Block:
    info: list              # the words behind the fence
    line: int               # of the fence, from 1
    lines: list = field(default_factory=list)


@dataclass
class Example:
    line: int               # where the ticket stands, from 1
    ticket: str
    answer: str = ''
    rows: list = field(default_factory=list)


def blocks(text):
    """The fenced blocks of a text."""
    found, now = [], None
    for i, line in enumerate(text.splitlines(), 1):
        if now is None and line.startswith(FENCE):
            now = Block(line[len(FENCE):].split(), i)
        elif now and line.strip() == FENCE:
            found.append(now)
            now = None
        elif now:
            now.lines.append(line)
    if now:
        raise SystemExit(f'docs/MANUAL.md:{now.line}: a block that does not end')
    return found


def examples_of(block):
    found = []
    for i, line in enumerate(block.lines, block.line + 1):
        if line.startswith('> '):
            found.append(Example(i, line[2:]))
        elif line.startswith('#') or not line.strip():
            continue
        elif not found:
            raise SystemExit(f'docs/MANUAL.md:{i}: an answer without a ticket')
        elif not found[-1].answer:
            found[-1].answer = line
        else:
            found[-1].rows.append(line)
    return found


def examples():
    """The tickets of the sheet, in order, with answers and rows."""
    if not MANUAL.is_file():
        raise SystemExit('docs/MANUAL.md is missing')
    return [e for b in blocks(MANUAL.read_text()) if b.info[:1] == ['sheet'] for e in examples_of(b)]


def matches(row, printed):
    """A row of the manual and one that was printed: equal, or up to ` ..` and then zeros."""
    if not row.endswith(' ..'):
        return row == printed
    start, words = row[:-3].split(), printed.split()
    return words[:len(start)] == start and set(words[len(start):]) == {'0'}


def missing_row(rows, printed):
    """The first of the rows that does not stand, in this order, among those printed; None where all do."""
    left = iter(printed)
    return next((r for r in rows if not any(matches(r, p) for p in left)), None)


def faults(example, answer, printed):
    """What the program said and printed that the manual does not say, as text."""
    where = f'docs/MANUAL.md:{example.line}: > {example.ticket}'
    if example.answer != answer:
        return [f'{where}: answer {example.answer!r}, but {answer!r}']
    row = missing_row(example.rows, printed)
    return [] if row is None else [f'{where}: no row {row!r}, or not in this place']
