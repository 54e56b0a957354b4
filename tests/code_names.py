"""The names of docs/CODE.md: each stands where its link leads, and no crate or public function is left out."""

import re

import markdown
from repository import ROOT

CODE = ROOT / 'docs/CODE.md'
NAME = re.compile(r'\[`([^`]+)`\]\[([^\]]+)\]')             # [`name`][label]
PUBLIC = re.compile(r'^ *pub (?:extern "C" )?fn (\w+)', re.M)


def is_declared(name, file):
    """Whether the file declares the name; a module's own name counts."""
    text = file.read_text()
    if file.suffix != '.antt':
        return name == file.parts[-3] or re.search(rf'\b(?:fn|struct|enum) {name.split("::")[-1]}\b', text)
    module = '.'.join(file.relative_to(ROOT / 'crates').with_suffix('').parts)
    short = re.escape(name.removeprefix(module + '.'))
    declared = rf'^ *(?:(?:unfoldable|abbrev) )?pub (?:record |data )?{short}(?= |$)'
    return name == module or re.search(declared, text, re.M)


def wrong_names(text):
    targets = {label: CODE.parent / target for label, (_, target) in markdown.definitions(text).items()}
    for name, label in NAME.findall(text):
        file = targets.get(label.lower())
        if file is not None and file.is_file() and not is_declared(name, file.resolve()):
            yield f'docs/CODE.md: `{name}` is not declared in {file.resolve().relative_to(ROOT)}'


def left_out(text):
    named = {(label, name.split('::')[-1]) for name, label in NAME.findall(text)}
    for source in sorted(ROOT.glob('crates/*/src/*.rt')):
        crate = source.parts[-3]
        label = crate if source.stem in ('lib', 'main') else f'{crate}.{source.stem}'
        if f'](../crates/{crate})' not in text:
            yield f'docs/CODE.md: the crate {crate} is left out'
        for function in PUBLIC.findall(source.read_text()):
            if (label, function) not in named:
                yield f'docs/CODE.md: the public function {crate}::{function} is left out'


def faults():
    text = CODE.read_text()
    return [*wrong_names(text), *left_out(text)]
