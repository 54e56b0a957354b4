#!/usr/bin/env python3
"""Two builds of the static library timed in turn: what a change did to speed.

  compare.py [--as-built] OLD.a NEW.a [RUNS]
                     ratios of the least times, NEW to OLD, by setting and kinds (default 6 runs each); at 1,000 edges
                     also the times, of all kinds in the mean and of redrawings (kind 6)

Runs are taken in turn, so that both meet the same minutes, and of each cell the least time counts: a machine's clock
moves, and times alone say little. In both builds each function is put at a multiple of 64 bytes, unless they are timed
as built: where the linker happens to put one moved the time of a ticket by a tenth. Needs rustc, a C compiler and
objcopy; about six seconds a run.
A redrawing past wells or an island is turned down with 22, and carried out by a library of before landing 13: there
the ratio is that of a refusal to an edit. A library of before landing 14 gets face rows of one number, and one of
before landing 17 a head of six numbers and no record of points. The contents, which landing 18 added, are not compared.
"""

import csv
import ctypes
import pathlib
import statistics
import subprocess
import sys
import tempfile

ROOT = pathlib.Path(__file__).resolve().parent.parent
BENCH, WRAPPER = 'bench/bench.rs', 'include/solgwid.rs'
FACE_WIDTH, HEAD_WIDTH = 'FACE_WIDTH: usize = {};', 'HEAD_WIDTH: usize = {};'
RECORD = ' points: i64,', ' points as i64,'    # declared and handed over; not in a library whose head has six numbers
CONTENTS = 'let contents = {};', 'contents_times(map)', '[0.0; 2]'    # not asked of either library
NEW_FACES = {'11', '12'}                       # kinds that walk rings, as 6 does
LISTED, PASS = 'edges of a face', 'bare pass'
BESIDE = ('6 beside wells', '6 beside an island')
KINDS = {str(kind) for kind in range(1, 15)}
ENDS = CARRIED, REFUSED = 'carried out', 'turned down'
GROUPS = (('kinds 1 to 5, 7 to 10, 13, 14', KINDS - NEW_FACES - {'6'}, ENDS), ('kinds 11, 12', NEW_FACES, ENDS),
          ('kind 6, carried out', {'6', *BESIDE}, [CARRIED]), ('kind 6, turned down with 15', {'6'}, [REFUSED]),
          ('kind 6, past wells or an island', set(BESIDE), [REFUSED]), (LISTED, {LISTED}, ENDS))
EDGES = '1000'
AS_BUILT = '--as-built'


def widths(library, folder):
    """The numbers of a face row, one where a face table of one number is whole, and of the head, seven where an empty
    map has a record of points behind the six."""
    shared = folder / 'solgwid.so'
    whole = '-Wl,--whole-archive', library, '-Wl,--no-whole-archive'
    subprocess.run(['cc', '-shared', '-o', shared, *whole], check=True)
    none = None, ctypes.c_size_t(0)
    faces, head, points = (ctypes.c_int64 * 5)(), (ctypes.c_int64 * 7)(), ctypes.c_int64(12)
    empty_map = ctypes.CDLL(str(shared)).solgwid_empty_map
    # a library without a record does not look at the last argument
    face = next(n for n in (1, 5) if not empty_map(*none, *none, faces, ctypes.c_size_t(n), head, points))
    return face, 7 if head[6] else 6


def adapted(text, face, head):
    """A source of the bench, for a library with such face rows and such a head."""
    for line, new, width in ((FACE_WIDTH, 5, face), (HEAD_WIDTH, 7, head)):
        text = text.replace(line.format(new), line.format(width))
    for words in RECORD if head == 6 else ():
        text = text.replace(words, '')
    line, asked, none = CONTENTS
    return text.replace(line.format(asked), line.format(none))


def build(library, folder, as_built):
    """The bench over a library, with the face rows and the head that this takes."""
    folder.mkdir()
    align = [] if as_built else ['--set-section-alignment', '.text*=64']
    subprocess.run(['objcopy', *align, library, folder / 'libsolgwid.a'], check=True)
    face, head = widths(library, folder)
    for path in BENCH, WRAPPER:
        (folder / path).parent.mkdir()
        (folder / path).write_text(adapted((ROOT / path).read_text(), face, head))
    program = folder / 'times'
    words = '-O', '--edition', '2021', '-A', 'unused', '-L', folder, '-l', 'static=solgwid'
    subprocess.run(['rustc', *words, folder / BENCH, '-o', program], check=True)
    return program


def times(program):
    """The time of each cell: by setting, kind, edges, and carried out or turned down."""
    file = program.with_name('times.csv')
    file.write_text('')
    subprocess.run([program, file], check=True, stdout=subprocess.DEVNULL)
    rows = csv.DictReader(line for line in file.open() if not line.startswith('#'))
    return {(row['setting'], row['kind'], row['edges'], end): float(row[end])
            for row in rows if row['kind'] in KINDS | {LISTED, PASS, *BESIDE} for end in ENDS if row[end]}


def least(runs):
    return {cell: min(run[cell] for run in runs) for cell in runs[0]}


def report(before, after):
    for setting in dict.fromkeys(cell[0] for cell in before):
        for name, kinds, ends in GROUPS:
            found = [after[c] / before[c] for c in before if c[0] == setting and c[1] in kinds and c[3] in ends]
            print(f'{setting}, {name}: mean {statistics.mean(found):.3f}, {min(found):.3f} to {max(found):.3f}')
        bare = before[setting, PASS, EDGES, CARRIED]
        for end in ENDS:
            old, new = (statistics.mean(run[setting, kind, EDGES, end] for kind in KINDS) for run in (before, after))
            print(f'{setting}, kinds 1 to 14, {end}: {old:.1f} us before, {new:.1f} after, '
                  f'{(new - old) / bare:.2f} bare passes of {bare:.1f} us more')
        for cell in before:
            if cell[0] == setting and cell[1] in ('6', *BESIDE) and cell[2] == EDGES:
                end = 'past them' if cell[1] in BESIDE and cell[3] == REFUSED else cell[3]
                print(f'{setting}, {cell[1]}, {end}: {before[cell]:.1f} us before, {after[cell]:.1f} after')


def main(old, new, count='6', as_built=False):
    with tempfile.TemporaryDirectory() as folder:
        programs = [build(library, pathlib.Path(folder, name), as_built)
                    for library, name in ((old, 'old'), (new, 'new'))]
        runs = [[], []]
        for _ in range(int(count)):
            for found, program in zip(runs, programs):
                found.append(times(program))
    report(*map(least, runs))


if __name__ == '__main__':
    words = [word for word in sys.argv[1:] if word != AS_BUILT]
    if len(words) not in (2, 3):
        sys.exit(__doc__)
    main(*words, as_built=AS_BUILT in sys.argv)
