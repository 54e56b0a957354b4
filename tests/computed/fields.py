"""Bit fields: crates/fields against the bit code of transport.py."""

import random

import grown
import transport as tr

from repository import LEVEL

from . import antt
from .scratch import Case, Claim

CRATES = ('fields',)
HEADER = """use Rattle.std.specs.Prelude.{◌++◌}
use Rattle.fields.specs.Bits.{width, bits, field, bits_of, bytes_of}
"""
REFUSALS = ()
EDGES = (0, 1, 2, 3, 7, 8, 9, 255, 256, 999_999, 1_000_000, 2 ** 20 - 1, 2 ** 20, 2 ** 63, 2 ** 64 - 1)


def nats(numbers):
    return antt.listed(numbers)


def truths(some_bits):
    return antt.listed(antt.truth(b) for b in some_bits)


def call(left, right, type_):
    return Case('call', left, (Claim(left, right, type_),))


def number(rng):
    return rng.choice([rng.choice(EDGES), rng.randrange(2 ** rng.randint(1, 64))])


def some_bytes(rng):
    return bytes(rng.choice([0, 255, 128, 1, rng.randrange(256)]) for _ in range(rng.choice([0, 1, 2, 3, 8, 20])))


def of_width(rng):
    n = number(rng)
    return call(f'width {n}', str(tr.number_width(n)), 'ℕ')


def of_number(rng):
    n, w = number(rng), rng.choice([0, 1, 4, 8, 11, 20, 64, rng.randint(0, 70)])
    return call(f'bits {w} {n}', truths(tr.field_bits(n, w)), 'List Bool')


def of_field(rng):
    """Anywhere in a file, past its end too."""
    f, w = some_bytes(rng), rng.choice([0, 1, 4, 8, 11, 20, rng.randint(0, 64)])
    at = rng.randint(0, 8 * len(f) + 8)
    return call(f'field (bits_of ({nats(f)})) {at} {w}', str(tr.take_run(f, at, (w,))[0][0]), 'ℕ')


def of_bytes(rng):
    f = some_bytes(rng)
    return call(f'bits_of ({nats(f)})', truths(tr.bit(f, i) for i in range(8 * len(f))), 'List Bool')


def filled(some_bits):
    """As `file_of` of transport.py makes bytes: zero bits fill the last."""
    b = some_bits + [0] * (-len(some_bits) % 8)
    return [tr.number_of(b[i:i + 8]) for i in range(0, len(b), 8)]


def of_bits(rng):
    b = [rng.randint(0, 1) for _ in range(rng.choice([0, 1, 7, 8, 9, rng.randint(0, 100)]))]
    return call(f'bytes_of ({truths(b)})', nats(filled(b)), 'List ℕ')


def of_map(rng):
    """The fields of a whole map, put one behind the other, make its file."""
    m = grown.grow(rng, rng.choice([0, 5, 12]), LEVEL)
    fields = ' ++ '.join(f'bits {w} {int(v)}' for v, w in tr.fields(m))
    return call(f'bytes_of ({fields})', nats(tr.file_of(m)), 'List ℕ')


def cases(count, seed):
    rng, makers = random.Random(seed), (of_width, of_number, of_field, of_bytes, of_bits, of_map)
    return [rng.choices(makers, (3, 3, 6, 2, 4, 1))[0](rng) for _ in range(count)]
