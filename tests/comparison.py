"""Comparisons one after the other: a script takes so many of them, check_all.py as many as its minutes allow.

A comparison is a pair: what was compared, as counts by name, and the differences found, each as text.
"""

import argparse
import itertools
import sys
import time
from collections import Counter


def seeds(seed, step=1):
    """A seed for each comparison; two runs share none."""
    return itertools.count(seed * 100_000, step)


def tally(comparisons, seconds=None):
    """The counts and how many differences there were; these are printed. It stops after so many seconds, if any."""
    start, counts, differences = time.monotonic(), Counter(), 0
    for compared, found in comparisons:
        counts.update(compared)
        differences += len(found)
        for text in found:
            print('differs:', text, file=sys.stderr, flush=True)
        if seconds is not None and time.monotonic() - start > seconds:
            break
    return counts, differences


def counted(counts, *names):
    """These counts as text."""
    return ', '.join(f'{counts[name]:,} {name}' for name in names)


def command(doc, what, most, comparisons, names):
    """A script that takes a number of comparisons and a seed: it prints the counts, and answers its exit status."""
    p = argparse.ArgumentParser(description=doc, formatter_class=argparse.RawDescriptionHelpFormatter)
    p.add_argument(what, nargs='?', type=int, default=most)
    p.add_argument('--seed', type=int, default=1)
    a = vars(p.parse_args())
    counts, differences = tally(itertools.islice(comparisons(a['seed']), a[what]))
    print(f'{counted(counts, *names)}; {differences} differences')
    return 1 if differences else 0
