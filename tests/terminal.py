#!/usr/bin/env python3
"""A program at a terminal: it must end with the first end of input, and print what a file has.

usage: terminal.py PROGRAM EXPECTED     types no line and then the end of input, which a terminal gives once and not again
"""
import os
import subprocess
import sys

SECONDS = 10


def main(program, expected):
    typing, terminal = os.openpty()
    process = subprocess.Popen([program], stdin=terminal, stdout=subprocess.PIPE)
    os.write(typing, b'\x04')
    try:
        printed, _ = process.communicate(timeout=SECONDS)
    except subprocess.TimeoutExpired:
        process.kill()
        process.wait()
        print('still waiting for input %d seconds after its end' % SECONDS)
        return 1
    with open(expected, 'rb') as file:
        wanted = file.read()
    if printed != wanted or process.returncode != 0:
        print('printed %r with status %d' % (printed, process.returncode))
        return 1
    return 0


if __name__ == '__main__':
    if len(sys.argv) != 3:
        sys.exit(__doc__)
    sys.exit(main(sys.argv[1], sys.argv[2]))
