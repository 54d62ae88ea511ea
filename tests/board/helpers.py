#!/usr/bin/env python3
"""Writes what helpers.c reads on the board: arguments of the helpers and what Python's own numbers give for them. A record has seven
words: the helper (its position in HELPERS), two arguments of 64 bits, low word first, and what is to be returned; of a helper on
memory the first two arguments are how many bytes lie before those that it is to write and how many it is to write.

    helpers.py           writes the records
    helpers.py names     writes the names of the helpers"""
import random
import struct
import sys

HELPERS = ['__aeabi_llsl', '__aeabi_lmul', '__aeabi_memclr4']
EDGES = [0, 1, 2, 0xffff, 0x10000, 0x10001, 2**31, 2**32 - 1, 2**32, 2**32 + 1, 2**48 - 1, 2**63, 2**64 - 2**32, 2**64 - 1]
COUNT = 4000


def numbers(source):
    """A number of any length, mostly zeros or mostly ones before it."""
    part = source.getrandbits(64) >> source.randrange(64)
    return part if source.getrandbits(1) else 2**64 - 1 - part


def records():
    source = random.Random(1)
    others = [(numbers(source), numbers(source)) for _ in range(COUNT)]
    for a in EDGES + [a for a, _ in others[:60]]:
        for by in range(64):
            yield 0, a, by, (a << by) % 2**64
    for a, b in [(a, b) for a in EDGES for b in EDGES] + others:
        yield 1, a, b, a * b % 2**64
    for before in (0, 4, 8):
        for count in range(41):
            yield 2, before, count, 0


if __name__ == '__main__':
    if sys.argv[1:] == ['names']:
        print(*HELPERS, sep='\n')
    elif len(sys.argv) == 1:
        made = list(records())
        sys.stdout.buffer.write(struct.pack('<I', len(made)))
        for helper, *rest in made:
            sys.stdout.buffer.write(struct.pack('<I3Q', helper, *rest))
    else:
        sys.exit(__doc__)
