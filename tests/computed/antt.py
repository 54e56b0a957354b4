"""Numbers, lists and lent tables as antt."""

import plotmap as pm

from repository import LEVEL

HEADER = """use Rattle.std.specs.Prelude.{◌≡◌, refl, Bool, true, false, List, [], ◌∷◌, ℕ, ℤ, pos, negsuc}
"""


def listed(texts):
    return ''.join(f'{t} ∷ ' for t in texts) + '[]'


def z(n):
    return f'pos {n}' if n >= 0 else f'negsuc {-n - 1}'


def zs(numbers):
    return listed(map(z, numbers))


def runs(lists):
    return listed(f'({zs(l)})' for l in lists)


def truth(b):
    return 'true' if b else 'false'


def record(**fields):
    return 'record { ' + '; '.join(f'{n} = {v}' for n, v in fields.items()) + ' }'


def head(numbers, *names):
    return record(**{n: z(v) for n, v in zip(names, numbers, strict=True)})


def sheet(t, h):
    """The lent tables and head of a map."""
    names = ('nodes', 'edges', 'faces', 'next_node', 'next_edge', 'next_face', 'points')
    return record(nodes=zs(t.nodes), edges=zs(t.edges), faces=zs(t.faces), head=head(pm.head_numbers(h, LEVEL), *names))


def sizes(room, points):
    """So many rows a table, for curves of at most so many points."""
    return record(nodes=room, edges=room, faces=room, limit={6: 'SixPoints', 12: 'TwelvePoints'}[points])


def answer(refusal, value):
    return record(refusal=refusal, value=z(value))


def outcome(lent, refusal, value):
    return record(lent=lent, answer=answer(refusal, value))


def written(numbers, refusal, value):
    """A list after a call, and the answer."""
    return record(list=zs(numbers), answer=answer(refusal, value))
