"""Markdown as check_docs.py reads it: prose, links and the anchors of headings."""

import re
from dataclasses import dataclass

FENCE = '```'
HEADING = re.compile(r'#+ +(.*?)(?: +#+)? *$')
ITEM = re.compile(r' *(?:[-*+]|\d+\.) +')
TARGET = re.compile(r'\]\(([^)\s]+)')                  # [text](target)
LABEL = re.compile(r'\]\[([^\]]+)\]')                  # [text][label]
DEFINITION = re.compile(r' {0,3}\[([^\]]+)\]: +(\S+)')
CODE = re.compile(r'(`+).*?\1')
TEXT_OF_LINK = re.compile(r'!?\[([^\[\]]*)\](?:\([^)]*\)|\[[^\]]*\])')
SENTENCE_END = re.compile(r'(?<=[.!?])[)"*_\']*\s+')


@dataclass
class Line:
    number: int
    text: str
    kind: str          # blank, heading, table, definition (of a link's label), item, code or text


def lines(text):
    """Each line and what it is; fenced and indented blocks are code."""
    out, fenced, kind = [], False, 'blank'
    for number, line in enumerate(text.splitlines(), 1):
        before, kind = kind, kind_of(line)
        if line.lstrip().startswith(FENCE):
            fenced, kind = not fenced, 'code'
        elif fenced or line.startswith('    ') and before in ('blank', 'code') and not in_list(out):
            kind = 'code'
        out.append(Line(number, line, kind))
    return out


def kind_of(line):
    if not line.strip():
        return 'blank'
    if HEADING.match(line):
        return 'heading'
    if line.startswith('|'):
        return 'table'
    if DEFINITION.match(line):
        return 'definition'
    return 'item' if ITEM.match(line) else 'text'


def in_list(before):
    """Whether the last line at the margin is a list item."""
    for line in reversed(before):
        if line.kind == 'item':
            return True
        if line.kind != 'blank' and not line.text.startswith(' '):
            return False
    return False


def paragraphs(text):
    """Prose, each paragraph and list item by itself: the number of its first line, and its words in one line."""
    start, words = 0, []
    for line in [*lines(text), Line(0, '', 'blank')]:
        if line.kind != 'text' and words:
            yield start, ' '.join(words)
            words = []
        if line.kind in ('text', 'item'):
            start = start if words else line.number
            words.append(ITEM.sub('', line.text, count=1) if line.kind == 'item' else line.text.strip())


def sentences(text):
    """The sentences of the prose with the line at which their paragraph begins; code counts as one word, links by
    their text."""
    for number, paragraph in paragraphs(text):
        plain = TEXT_OF_LINK.sub(r'\1', CODE.sub('code', paragraph))
        for sentence in SENTENCE_END.split(plain):
            yield number, sentence


def word_count(sentence):
    return sum(any(c.isalnum() for c in word) for word in sentence.split())


def found(pattern, text):
    """What the pattern finds, with its line; code aside."""
    return [(line.number, x) for line in lines(text) if line.kind != 'code'
            for x in pattern.findall(CODE.sub('', line.text))]


def definitions(text):
    """The targets of labels, with their lines."""
    matches = [(line.number, DEFINITION.match(line.text)) for line in lines(text) if line.kind == 'definition']
    return {m[1].lower(): (number, m[2]) for number, m in matches}


def links(text):
    """The targets of links and pictures, with their lines."""
    return found(TARGET, text) + list(definitions(text).values())


def undefined(text):
    """Labels of links that nothing defines, with their lines."""
    defined = definitions(text)
    return [(number, label) for number, label in found(LABEL, text) if label.lower() not in defined]


def anchors(text):
    """The anchors of the headings, by GitHub's rule: a second heading of one name gets -1, a third -2."""
    slugs = [slug_of(HEADING.match(line.text)[1]) for line in lines(text) if line.kind == 'heading']
    earlier = [slugs[:i].count(s) for i, s in enumerate(slugs)]
    return [f'{s}-{n}' if n else s for s, n in zip(slugs, earlier)]


def slug_of(heading):
    plain = TEXT_OF_LINK.sub(r'\1', heading).replace('`', '')
    return re.sub(r'[^\w\- ]', '', plain.strip().lower()).replace(' ', '-')
