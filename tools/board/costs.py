#!/usr/bin/env python3
"""What calls take on the board. A line of CALLS is a label, a tab and a call, as tests/expected/calls.txt has them, without an answer, or
as a case of oracle/README.md.

    costs.py < CALLS              a row for each call: armv6-m instructions, cycles of a Cortex-M0+, their milliseconds at 48 MHz, and the
                                  bytes of stack, with the frames of the program that makes the call
    costs.py TABLE < CALLS        TABLE as oracle/archive's program count prints it, with the first three columns for the first call of a
                                  label and the cycles of the second; CALLS as its program calls prints them

Instructions and cycles are those of the model of the processor (cortex_m0.c says what its cycles leave out). Where qemu-system-arm
is there it counts the instructions too, and must come to the same. target/board/replay.elf is there once tests/board/run was run."""
import os
import shutil
import struct
import subprocess
import sys

ROOT = os.path.join(os.path.dirname(os.path.abspath(__file__)), '../..')
BOARD = os.path.join(ROOT, 'target/board')
sys.path.insert(0, os.path.join(ROOT, 'tools'))
import link_expected

MODEL = os.path.join(BOARD, 'cortex_m0')


def write_cases(calls):
    """Writes what the program replay reads."""
    path = os.path.join(BOARD, 'counted.txt')
    with open(path, 'w') as text:
        text.writelines((link_expected.c_call(call) if call.split()[0] in link_expected.FUNCTIONS else call) + '\n' for _, call in calls)
    with open(os.path.join(BOARD, 'cases'), 'wb') as cases:
        subprocess.run([os.path.join(ROOT, 'tests/board/calls.py'), 'cases', path, '0', '3'], stdout=cases, check=True)


def measured(*program, clock=''):
    """For each call how far the clock counted, in instructions of one cycle, and the bytes of stack."""
    subprocess.run([*program, 'cases', 'written', 'costs'], cwd=BOARD, check=True, capture_output=True, env=dict(os.environ, BOARD_CLOCK=clock))
    (thousand, _), *costs = struct.iter_unpack('<2I', open(os.path.join(BOARD, 'costs'), 'rb').read())
    return [(round(1000 * ticks / thousand), stack) for ticks, stack in costs]


def costs(calls):
    """Instructions, cycles and bytes of stack of each call."""
    write_cases(calls)
    subprocess.run(['cc', '-O2', os.path.join(ROOT, 'tools/board/cortex_m0.c'), '-o', MODEL], check=True)
    instructions, cycles = measured(MODEL, '-i', 'replay.elf'), measured(MODEL, 'replay.elf')
    if shutil.which('qemu-system-arm') and measured(os.path.join(ROOT, 'examples/board/run'), 'replay', clock='-icount shift=8') != instructions:
        sys.exit('costs.py: qemu counts other instructions, or another stack, than the model')
    return [(count, cycle, stack) for (count, stack), (cycle, _) in zip(instructions, cycles)]


def three(count, cycle):
    return ' {:,} | {:,} | {:.2f} |'.format(count, cycle, cycle / 48e3)


def print_rows(calls, found):
    print('| call | armv6-m | cycles | ms at 48 MHz | stack |\n|---|---|---|---|---|')
    for (label, _), (count, cycle, stack) in zip(calls, found):
        print('| %s |%s %d |' % (label, three(count, cycle), stack))


def print_table(table, calls, found):
    by_label = {}
    for (label, _), cost in zip(calls, found):
        by_label.setdefault(label, []).append(cost)
    head, line, *rows = open(table).read().splitlines()
    print(head + ' armv6-m | cycles | ms at 48 MHz | `bokwingi_entry_point`, cycles |')
    print(line + '---|---|---|---|')
    for row in rows:
        (count, cycle, _), (_, choice, _) = by_label[row.split('|')[1].strip()]
        print('%s%s %s |' % (row, three(count, cycle), format(choice, ',')))


if __name__ == '__main__':
    if len(sys.argv) > 2:
        sys.exit(__doc__)
    given = [line.split('\t') for line in sys.stdin.read().splitlines()]
    if len(sys.argv) == 2:
        print_table(sys.argv[1], given, costs(given))
    else:
        print_rows(given, costs(given))
