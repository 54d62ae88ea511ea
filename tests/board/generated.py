#!/usr/bin/env python3
"""Generated calls of the C functions on the emulated board, held to the answers of oracle/'s model: COUNT stage checks, a fifth as many
choices of an entry point and as many calls of populate, and every case of formats and types. Calls that are longer than the board's
memory are left out.

    tests/board/generated.py [COUNT [SEED]]        100000 and 11; needs oracle/ built, and target/board/replay.elf by tests/board/run"""
import os
import subprocess
import sys

ROOT = os.path.join(os.path.dirname(os.path.abspath(__file__)), '../..')
BOARD = os.path.join(ROOT, 'target/board')
sys.path[:0] = [os.path.join(ROOT, 'tools'), os.path.join(ROOT, 'tests/board')]
import calls
import header
import link_expected

AT_ONCE = 20000


def generated(sort, words):
    """Lines of calls with the model's answers."""
    cases = [line[2:] if line[1] == ' ' else line for line in link_expected.run('gen', sort, *words).splitlines()]
    answers = link_expected.run('model', text='\n'.join(cases) + '\n').splitlines()
    return ['%s = %s\n' % (link_expected.c_call(case), answer) for case, answer in zip(cases, answers)]


def differ(lines):
    """Whether the board answers some of the calls otherwise."""
    path = os.path.join(BOARD, 'generated.txt')
    open(path, 'w').writelines(lines)
    with open(os.path.join(BOARD, 'cases'), 'wb') as cases:
        subprocess.run([calls.__file__, 'cases', path, '0', '3'], stdout=cases, check=True)
    subprocess.run(['../../examples/board/run', 'replay', 'cases', 'written'], cwd=BOARD, check=True, capture_output=True)
    with open(os.path.join(BOARD, 'written'), 'rb') as written:
        return subprocess.run([calls.__file__, 'compare', path, '3'], stdin=written).returncode != 0


def parts(count, seed):
    """The words for gen that give so many cases, a part at a time."""
    return [['--count', str(min(AT_ONCE, count - at)), '--seed', str(seed), '--from', str(at)] for at in range(0, count, AT_ONCE)]


def main(count=100000, seed=11):
    functions = header.functions(calls.HEADER)
    wrong = 0
    for sort, of in [('stage', count), ('name', count // 5), ('populate', count // 5),
                     ('vertex', None), ('texture', None), ('format', None), ('subtype', None)]:
        for words in [[]] if of is None else parts(of, seed):
            lines = generated(sort, words)
            short = [line for line in lines if calls.Call(functions, line, 3).fits()]
            print('%s: %d generated, %d left out' % (sort, len(lines), len(lines) - len(short)))
            wrong += differ(short)
    return wrong > 0


if __name__ == '__main__':
    if len(sys.argv) > 3 or not all(word.isdigit() for word in sys.argv[1:]):
        sys.exit(__doc__)
    sys.exit(main(*map(int, sys.argv[1:])))
