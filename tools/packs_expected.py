#!/usr/bin/env python3
"""Writes what the program test_packs must print: the pack of its table damaged, cut and refitted, each answered by the program model of oracle/
(the case `name PACK 0`).

    tools/packs_expected.py [MODEL] > crates/test_packs/stdout"""
import subprocess, sys
MODEL = sys.argv[1] if len(sys.argv) > 1 else 'oracle/target/release/model'
k = lambda kind, content=0: kind << 27 | content
def close(ws):
    ws = ws[:]; ws[0] = k(1, 1 << 16 | len(ws) + 1)
    return ws + [sum(ws) % 2**32]
LIMITS = [k(3, v) for v in (16, 8, 256, 256, 64, 256, 256, 256, 256, 256, 256, 256, 16384)]
def name(b): return [int.from_bytes(b[i:i + 4].ljust(4, b'\0'), 'little') for i in range(0, len(b), 4)]
def entry(stage, b, res=(), pairs=(), ins=(), outs=(), mesh=None, pay=0, dual=0, size=(0, 0, 0)):
    ws = [k(7, stage << 24 | len(b) << 16 | (mesh is not None) << 1 | dual)] + name(b) + [k(8, v) for v in size] + [k(9, pay)]
    ws += [k(10, v) for v in mesh or ()]
    ws += [k(15, len(res) << 18 | len(pairs) << 12 | len(ins) << 6 | len(outs))]
    return ws + [k(5, r) for r in res] + [k(5, t << 8 | s) for t, s in pairs] + [w for v in list(ins) + list(outs) for w in v]
def loc(n, var): return [k(12, n), k(13, var)]
def builtin(code, v): return [k(14, code << 24 | v)]
def pack(resources, entries): return close([0, k(2, len(resources) << 16 | len(entries))] + LIMITS + sum(resources, []) + sum(entries, []))
F32 = 2 << 4 | 4 << 6
buf = lambda g, b, code, size: [k(4, g << 23 | b), k(16, code), k(6, size)]
oth = lambda g, b, type, c: [k(4, g << 23 | b), k(16, type << 23 | c)]
RICH = pack([buf(0, 0, 9, 32), oth(0, 1, 2, 1), oth(0, 2, 1, 0), oth(1, 0, 3, 9), oth(1, 1, 4, 2 << 16 | 1), oth(1, 2, 5, 1), oth(2, 0, 6, 1)],
    [entry(0, b'vs', [0, 1, 2], [(1, 2)], [loc(0, F32 | 3)], [loc(0, F32 | 3 | 1 << 12), builtin(4, 5)]),
     entry(1, b'fs_on', [1, 3, 5, 2], [(1, 2), (3, 2), (5, 2)], [loc(0, F32 | 3 | 1 << 12), builtin(1, 1)], [loc(0, F32 | 3), builtin(3, 0)], dual=1),
     entry(4, b'vs', [4, 6], [], [builtin(2, 0)], [loc(1, F32 | 1 << 18)], mesh=(64, 32, 3), pay=1 << 26 | 16, size=(8, 4, 1))])
def answers(packs):
    lines = ''.join('name %s 0\n' % (','.join('%x' % w for w in p) or '-') for p in packs)
    out = subprocess.run([MODEL], input=lines, capture_output=True, text=True, check=True).stdout.split('\n')
    return [n if n in (1, 2) else 0 for n in (int(l.split()[0]) for l in out if l)]
def resum(p): return p[:-1] + [sum(p[:-1]) % 2**32]


def refitted(n):
    ws = (RICH + [0] * 13)[:n]
    ws[0] = k(1, 1 << 16 | n + 1)
    return ws + [sum(ws) % 2**32]


def flips(i):
    return [RICH[:i] + [RICH[i] ^ 1 << b] + RICH[i + 1:] for b in range(32)]


def counted(sort, i, packs):
    got = answers(packs)
    print(sort, i, *[got.count(n) for n in range(3)])


if __name__ == '__main__':
    for i in range(83):
        counted(0, i, flips(i))
    for i in range(82):
        counted(1, i, [resum(p) for p in flips(i)])
    for n, got in enumerate(answers([RICH[:n] for n in range(84)])):
        print(2, n, got)
    for n, got in enumerate(answers([refitted(n) for n in range(1, 90)]), 1):
        print(3, n, got)
