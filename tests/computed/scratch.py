"""Cases, and the scratch crate in which they are computed: a theorem `.. ≡ ..` a claim, proved by refl and checked by
`rt check`. It stands in a repository of its own in the folder for temporary files, one for each checkout, which stays
for the next run: `rt ci` refuses definitions in a checkout that are no listed crate's."""

import os
import pathlib
import re
import shutil
import subprocess
import tempfile
import time
import zlib
from collections import Counter
from dataclasses import dataclass

from generate_opened import shut

from repository import ROOT, needed

from . import antt

REPOSITORY = pathlib.Path(tempfile.gettempdir()) / f'solgwid-definitions-{zlib.crc32(os.fsencode(ROOT)):08x}'
SCRATCH = REPOSITORY / 'crates/scratch'
WRITTEN = 'Written by tests/check_definitions.py.'
# shut definitions of the kit that ours use
KIT = (('mathlib.Core.List', 'flat_map'), ('Rattle.std.specs.Int.Count', 'count_leading_zeros'))


@dataclass(frozen=True)
class Claim:
    """What a definition computes, what the reference gives, and the type of both."""
    left: str
    right: str
    type_: str


@dataclass(frozen=True)
class Case:
    what: str              # list or call
    said: str              # what is printed where it differs
    claims: tuple
    answers: tuple = ()    # (kind, refusal) of each answer

    def named(self, i):
        return {f'case{i}-{j}': c for j, c in enumerate(self.claims)}


# ---- the crates

def closure(crates):
    """The crate map, these, and all that they need: of each what it needs, and those that are taken whole. That are the
    map and what is below it, whose functions need their proofs; of the others the definitions are enough."""
    lines = [l.split('#')[0].partition(':') for l in (ROOT / 'crates.txt').read_text().splitlines()]
    named = {c.strip(): ds.split() for c, _, ds in lines if c.strip()}
    whole = reached(['map'], named.get)
    found = {c: named[c] for c in named if c in whole}
    for c in reached(crates, lambda c: named_in(c) if c not in whole else ()):
        found.setdefault(c, sorted(named_in(c)))
    return found, whole


def reached(some, onward):
    found, left = set(), list(some)
    while left:
        c = left.pop()
        if c not in found:
            found.add(c)
            left += onward(c)
    return found


def named_in(crate):
    texts = [p.read_text() for p in (ROOT / 'crates' / crate / 'specs').glob('*.antt')]
    return {c for t in texts for c in re.findall(r'^use Rattle\.(\w+)\.', t, re.M)} - {crate, 'std'}


def opened(crates):
    """Every shut definition of these crates, opened at once."""
    uses, names = [f'use {m}.{{{n}}}' for m, n in KIT], [n for _, n in KIT]
    for c in crates:
        for path in sorted((ROOT / 'crates' / c / 'specs').glob('*.antt')):
            found = [] if path.stem == 'Opened' else shut(path)
            if found:
                uses.append(f'use Rattle.{c}.specs.{path.stem} as {c}-{path.stem}')
                names += [f'{c}-{path.stem}.{n}' for n in found]
    return '\n'.join(uses) + f'\n\nunfoldable pub opened : Unit {{0}}\nunfolding {" ".join(names)}\nopened = tt\n'


def scratch_crates(crates):
    """Each crate anew, but for what rt keeps in its out/."""
    for part in REPOSITORY.glob('crates/*/*'):
        if part.name != 'out':
            shutil.rmtree(part)
    found, whole = closure(crates)
    for c in found:
        for part in ('src', 'specs', 'proofs') if c in whole else ('src', 'specs'):
            if (ROOT / 'crates' / c / part).exists():      # copied: rt sees no change behind a link
                shutil.copytree(ROOT / 'crates' / c / part, REPOSITORY / 'crates' / c / part)
    lines = [f'{c}: {" ".join(ds)}' for c, ds in found.items()] + [f'scratch: {" ".join(found)}']
    (SCRATCH / 'src').mkdir(parents=True)
    (REPOSITORY / 'crates.txt').write_text('\n'.join(lines) + '\n')
    (SCRATCH / 'src/lib.rt').write_text(f'// {WRITTEN}\n#![tactic(auto)]\n\npub fn one() -> usize {{\n    1\n}}\n')
    (SCRATCH / 'specs').mkdir()
    (SCRATCH / 'specs/Opened.antt').write_text(f'-- {WRITTEN}\n' + opened(found))


# ---- the theorems

def theorem(name, claim):
    return f"""
pub expected-{name} : {claim.type_}
expected-{name} = {claim.right}

pub {name} : ◌≡◌ {{A = {claim.type_}}} ({claim.left}) expected-{name}
unfolding opened expected-{name}
{name} = refl
"""


def spoiled(rng, claim):
    """The claim with one number or truth of what is expected changed; None where there is none."""
    places = list(re.finditer(r'\b(\d+|true|false)\b', claim.right))
    if not places:
        return None
    at = rng.choice(places)
    other = {'true': 'false', 'false': 'true'}.get(at[0]) or int(at[0]) + 1
    return Claim(claim.left, f'{claim.right[:at.start()]}{other}{claim.right[at.end():]}', claim.type_)


def check(kind, theorems, per):
    """The names of the theorems that the prover refuses, and the seconds spent; what rt said stands in the file out."""
    needed('rt', 'the Rattle kit')
    scratch_crates(kind.CRATES)
    texts = [theorem(n, c) for n, c in theorems.items()]
    header = f'-- {WRITTEN}\n{antt.HEADER}use Rattle.scratch.specs.Opened.{{opened}}\n{kind.HEADER}'
    modules = ['Opened']
    for k in range(0, len(texts), per):
        modules.append(f'M{k // per}')
        (SCRATCH / f'specs/{modules[-1]}.antt').write_text(header + ''.join(texts[k:k + per]))
    (SCRATCH / 'specs/Lib.antt').write_text(''.join(f'pub mod {m}\n' for m in modules))
    start = time.time()
    run = subprocess.run(['rt', 'check'], cwd=SCRATCH, stdout=subprocess.PIPE, stderr=subprocess.STDOUT, text=True)
    (REPOSITORY / 'out').write_text(run.stdout)
    failed = set(re.findall(r'error: `(?:expected-)?(case\d+-\d+)`', run.stdout))
    if failed or run.returncode == 0 and 'logic=proved' in run.stdout:
        return failed, time.time() - start
    raise SystemExit('\n'.join(l[:600] for l in run.stdout.splitlines()[-25:] if not l.startswith('rt:')))


def claims(cases):
    return {n: c for i, case in enumerate(cases) for n, c in case.named(i).items()}


def told(kind, cases, per, rng):
    """Each expectation is spoiled in one place, and each must be told."""
    theorems = {n: s for n, c in claims(cases).items() if (s := spoiled(rng, c))}
    failed, spent = check(kind, theorems, per)
    untold = sorted(set(theorems) - failed)
    print(f'{len(theorems)} claims spoiled, {len(failed)} told, {spent:.1f} s', *untold[:5])
    return 1 if untold else 0


def differing(cases, failed):
    """The cases with a theorem that fails, as text, the shortest first."""
    bad = {int(re.match(r'case(\d+)', n)[1]) for n in failed}
    return [f'case{i} ' + ' '.join(sorted(n for n in failed if n.startswith(f'case{i}-'))) + f'\n  {cases[i].said}'
            for i in sorted(bad, key=lambda i: len(cases[i].said))]


def run(kind, cases, per):
    """The cases computed, and what came of it printed."""
    failed, spent = check(kind, claims(cases), per)
    bad = differing(cases, failed)
    print(line(kind, cases, bad, spent), *bad[:5], sep='\n')
    return 1 if bad else 0


def compared(kind, cases, per):
    """The cases computed, as a comparison."""
    failed, _ = check(kind, claims(cases), per)
    return Counter(c.what + 's' for c in cases), differing(cases, failed)


def in_order(tally):
    return {k: tally[k] for k in sorted(tally, key=lambda k: (isinstance(k, str), k))}


def line(kind, cases, bad, spent):
    what = Counter(c.what for c in cases)
    answers = [a for c in cases for a in c.answers]
    refusals, carried = Counter(r for _, r in answers), Counter(k for k, r in answers if not r)
    parts = [', '.join([f'{n} {w}s' for w, n in sorted(what.items())] + [f'{len(answers)} answers'] * bool(answers)
                       + [f'{len(bad)} different', f'{spent:.1f} s'])]
    if answers:
        parts.append(f'refusals {in_order(refusals)}')
        parts.append(f'carried out by kind {in_order(carried)}' * (len(carried) > 1))
        parts.append(f'not met {missing}' if (missing := [r for r in kind.REFUSALS if r not in refusals]) else '')
    return '; '.join(p for p in parts if p)
