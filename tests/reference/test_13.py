"""Request (xiii): the shortest pipe run within a number of nodes."""

import heapq
import random
import unittest

import grown
import networks as nw
import route as rt


def net_of(points, links, year=2005):
    """Nodes by place, links by node numbers, straight."""
    nodes = tuple(nw.Node(i + 1, p) for i, p in enumerate(points))
    at = lambda n: points[n - 1]
    rows = tuple(nw.Link(i + 1, u, v, (at(u), *mid, at(v))) for i, (u, v, *mid) in enumerate(links))
    return nw.Net(nodes, rows, len(nodes) + 1, len(rows) + 1, year)


def ask(net, start, goal, k, room=99):
    t, h = nw.encode(net, nw.Sizes(len(net.nodes), len(net.links)))
    out, r, v = rt.find_route(t, h, start, goal, k, (7,) * room)
    assert out[v:] == (7,) * (room - v) and (v == 0 or r == 0)
    return r or out[:v]


def dijkstra(net, start):
    """Plain, with a heap: distances of all reachable nodes."""
    near = {}
    for k in net.links:
        n = sum(abs(a - c) + abs(b - d) for (a, b), (c, d) in zip(k.points, k.points[1:]))
        near.setdefault(k.start, []).append((k.end, n))
        near.setdefault(k.end, []).append((k.start, n))
    done, heap = {}, [(0, start)]
    while heap:
        d, u = heapq.heappop(heap)
        if u not in done:
            done[u] = d
            for v, n in near.get(u, []):
                heapq.heappush(heap, (d + n, v))
    return done


def walked(net, start, links):
    """Where the links lead and how long they are."""
    at, total = start, 0
    for d in links:
        k = nw.link(net, abs(d))
        u, v = (k.start, k.end) if d > 0 else (k.end, k.start)
        assert u == at
        at, total = v, total + sum(abs(a - c) + abs(b - d2) for (a, b), (c, d2) in zip(k.points, k.points[1:]))
    return at, total


def random_net(rng):
    """Some grid places, or a grown network with the links that have no curve taken out."""
    if rng.random() < 0.5:
        net = grown.grow_net(rng, rng.randint(5, 120), rng.choice([2004, 2005]), rng.choice([3, 8, 30]))
        return nw.replace(net, links=tuple(k for k in net.links if k.points))
    n = rng.randint(1, 14)
    w = rng.choice([2, 3, 6])
    spots = [(rng.randrange(w), rng.randrange(w)) for _ in range(n)]
    links = []
    for _ in range(rng.randint(0, 3 * n)):
        u, v = rng.randint(1, n), rng.randint(1, n)
        far = spots[u - 1] == spots[v - 1] or rng.random() < 0.2
        mid = [(rng.randrange(20, 25), rng.randrange(20, 25))] if far else []
        links.append((u, v, *mid))
    return net_of(spots, links)


class Route(unittest.TestCase):
    def test_by_hand(self):
        """1 - 2 - 3 - 4 in a row, 1 by one, and a long way round from 1 to 4."""
        net = net_of([(0, 0), (1, 0), (2, 0), (3, 0)], [(1, 2), (3, 2), (3, 4), (4, 1, (3, 9), (0, 9))])
        self.assertEqual(ask(net, 1, 4, 4), (3, 3, 1, -2, 3))
        self.assertEqual(ask(net, 1, 4, 9), (3, 3, 1, -2, 3))
        self.assertEqual(ask(net, 1, 4, 3), (3, 3, 1, -2, 3))    # bound: the next nearest is 4 itself
        self.assertEqual(ask(net, 1, 4, 2), (21, 2, -4))
        self.assertEqual(ask(net, 1, 4, 1), (21, 1, -4))
        self.assertEqual(ask(net, 1, 3, 1), 33)
        self.assertEqual(ask(net, 1, 1, 1), (0, 0))
        self.assertEqual(ask(net, 1, 1, 0), 33)
        self.assertEqual(ask(net, 1, 4, 0), 33)

    def test_refusals(self):
        net = net_of([(0, 0), (1, 0), (2, 0)], [(1, 2)])
        self.assertEqual(ask(net, 1, 3, 1), 33)
        self.assertEqual(ask(net, 1, 3, 2), 32)
        self.assertEqual(ask(net, 1, 3, 99), 32)
        self.assertEqual(ask(net, 3, 1, 1), 32)
        self.assertEqual(ask(net, 4, 1, 1), 4)
        self.assertEqual(ask(net, 1, 0, 1), 4)
        bare = nw.replace(net, links=(nw.Link(1, 1, 2, ()),))
        self.assertEqual(ask(bare, 4, 1, 1), 4)
        self.assertEqual(ask(bare, 1, 3, 5), 27)
        self.assertEqual(ask(net, 1, 2, 2, 3), 20)
        self.assertEqual(ask(net, 1, 2, 2, 4), (1, 1, 1))
        self.assertEqual(ask(net, 1, 2, 99, 4), (1, 1, 1))       # two nodes are examined, not 99
        self.assertEqual(ask(net, 1, 2, 1, 3), (1, 1, 1))
        self.assertEqual(ask(net, 1, 2, 1, 2), 20)
        self.assertEqual(ask(nw.replace(net, year=1), 9, 9, 0), 2)

    def test_ties(self):
        """2, 3 and 4 are all 1 away; only 2 leads to the goal 5 but for 4's long pipe."""
        net = net_of([(5, 5), (6, 5), (5, 6), (4, 5), (7, 5)],
                     [(1, 4), (1, 3), (1, 2), (2, 5), (4, 5, (4, 20), (7, 20))])
        self.assertEqual(ask(net, 1, 5, 1), 33)
        self.assertEqual(ask(net, 1, 5, 2), (2, 1, 3, 4))
        self.assertEqual(ask(net, 1, 5, 4), (2, 2, 3, 4))

    def test_random(self):
        seen = {}
        for seed in range(700):
            rng = random.Random(seed)
            net = random_net(rng)
            if not net.nodes:
                continue
            start, goal = rng.choice(net.nodes).number, rng.choice(net.nodes).number
            far = dijkstra(net, start)
            order = sorted((d, n) for n, d in far.items())
            last = None
            for k in list(range(0, len(net.nodes) + 2)) + [2 ** 63 - 1]:
                got = ask(net, start, goal, k)
                examined = {n for _, n in order[:k]}
                seen[got if isinstance(got, int) else 'found' if goal in examined else 'over'] = True
                if goal in examined:
                    want = bound = far[goal]
                elif k >= len(order):
                    self.assertEqual(got, 32)
                    continue
                else:
                    steps = [far[u] + walked(net, u, (d,))[1] for link in net.links
                             for u, v, d in ((link.start, link.end, link.number), (link.end, link.start, -link.number))
                             if u in examined and v == goal]
                    if not steps:
                        self.assertEqual(got, 33)
                        continue
                    want, bound = min(steps), order[k][0]
                self.assertEqual(got[:2], (want, bound))
                self.assertEqual(walked(net, start, got[2:]), (goal, want))
                self.assertTrue(bound <= far[goal] <= want)
                self.assertTrue(last is None or want <= last)
                self.assertTrue(len(got) <= 2 + min(k, len(order)))
                self.assertEqual(ask(net, start, goal, k, min(k, len(order)) + 1), 20)
                self.assertEqual(ask(net, start, goal, k, min(k, len(order)) + 2), got)
                last = want
            if goal in far:
                self.assertEqual(last, far[goal])
        self.assertEqual(set(seen), {32, 33, 'found', 'over'})


if __name__ == '__main__':
    unittest.main()
