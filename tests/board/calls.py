#!/usr/bin/env python3
"""Recorded calls of the C functions, for the program replay on the board. CALLS is a file of lines as tests/expected/calls.txt has
them (tools/link_expected.py says how); where a line has no answer, a call is made and nothing is compared.

    calls.py dispatch                    writes target/board/dispatch.c, which makes a call of any function of include/bokwingi.h
    calls.py recorded INPUT OUTPUT       writes the recorded cases of crates/test_stages as such lines
    calls.py cases CALLS PAINT [ROOM]    writes what replay reads: each call with ROOM words for details, or once for every room from none to
                                         one word more than the details that are recorded, on a stack of PAINT (hex)
    calls.py compare CALLS [ROOM]        reads what replay wrote, and ends with 1 where an answer or a word is not as recorded
    calls.py uncalled CALLS              writes the functions of the header of which CALLS has no call; ends with 1 if there are any"""
import os
import struct
import sys

ROOT = os.path.join(os.path.dirname(os.path.abspath(__file__)), '../..')
sys.path.insert(0, os.path.join(ROOT, 'tools/board'))
import header

HEADER = os.path.join(ROOT, 'include/bokwingi.h')
GUARD = 0x5eed5eed                              # stands around every list
UNWRITTEN = 0xdead0000                          # details before a call
MOST_WORDS = 12 * 1024                          # of all lists of a call with their guards: MOST_WORDS of replay.c
MAKES = {'words': 'WORDS(%d)', 'bytes': 'BYTES(%d)', 'written words': 'WORDS(%d)', 'number': 'NUMBER(%d)', 'double': 'DOUBLE(%d)'}


def arguments(function):
    """The parameters of a function but for the lengths."""
    return [p for p in function.parameters if p.sort != 'length']


def dispatch(functions):
    yield '/* Written by tests/board/calls.py from include/bokwingi.h. */\n#include "bokwingi.h"\n#include "../../tests/board/replay.h"\n\n'
    yield 'uint32_t replay_call(uint32_t function)\n{\n    switch (function) {\n'
    for number, function in enumerate(functions):
        made = []
        for at, parameter in enumerate(arguments(function)):
            made.append(MAKES[parameter.sort] % at)
            made += ['LENGTH(%d)' % at] if parameter.sort in header.LISTS else []
        yield '    case %d:\n        return %s(%s);\n' % (number, function.name, ', '.join(made))
    yield '    default:\n        return 0xffffffffu;\n    }\n}\n'


def words(text):
    return [] if text == '-' else [int(word, 16) for word in text.split(',')]


def listed(numbers):
    return ','.join('%x' % number for number in numbers) or '-'


def recorded(cases, answers):
    """The cases of crates/test_stages, whose form its main.rt has, as lines of calls."""
    at = 4
    for answer in answers.splitlines():
        sort, *rest = struct.unpack_from('<12I', cases, at)
        lengths, codes, at = rest[:5], rest[6:], at + 48
        lists = []
        for length in lengths:
            lists.append(list(struct.unpack_from('<%dI' % length, cases, at)))
            at += 4 * length
        name, at = cases[at:at + rest[5]], at + rest[5]
        said, *changes = answer.split(' ;')
        number, *details = said.split()
        fields = [number] + ['%x' % int(detail) for detail in details]
        if sort == 1:
            yield 'bokwingi_entry_point %s %x = %s' % (listed(lists[0]), codes[0], ' '.join(fields))
            continue
        before = 'bokwingi_check_stage %s %s %s' % (' '.join(map(listed, lists)), name.hex() or '-', ' '.join('%x' % code for code in codes))
        for changed, text in zip([lists[1], lists[2], lists[4]], changes):
            for change in text.split():
                position, word = change.split(':')
                changed[int(position)] = int(word, 16)
            fields.append(listed(changed))
        yield '%s = %s' % (before, ' '.join(fields))
    if at != len(cases):
        sys.exit('calls.py: the recorded cases are longer than their answers')


class Call:
    """A line of calls, with room for so many details."""

    def __init__(self, functions, line, room):
        text, _, answer = line.partition(' = ')
        name, *fields = text.split()
        names = [f.name for f in functions]
        if name not in names:
            sys.exit('calls.py: the header declares no function ' + name)
        self.number = names.index(name)
        self.parameters, self.answer = arguments(functions[self.number]), answer.split()
        self.block, self.pairs, self.spans = bytearray(), [], {}
        if len(fields) != len([p for p in self.parameters if p.name != 'details']):
            sys.exit('calls.py: a call of %s has %d arguments' % (name, len(fields)))
        for parameter in self.parameters:
            if parameter.name == 'details':
                self.lend(parameter.name, b''.join(struct.pack('<I', UNWRITTEN + i) for i in range(room)), 4)
            elif parameter.sort == 'bytes':
                field = fields.pop(0)
                self.lend(parameter.name, b'' if field == '-' else bytes.fromhex(field), 1)
            elif parameter.sort in header.LISTS:
                field = words(fields.pop(0))
                self.lend(parameter.name, struct.pack('<%dI' % len(field), *field), 4)
            else:
                value = int(fields.pop(0), 16)
                self.pairs.append((value % 2**32, value // 2**32))
        self.guard()

    def fits(self):
        return len(self.block) <= 4 * MOST_WORDS

    def guard(self):
        self.block += struct.pack('<I', GUARD)[:4 - len(self.block) % 4] + struct.pack('<I', GUARD)

    def lend(self, name, data, width):
        """Puts a list behind the others. Bytes begin one behind a word's start, so that nothing relies on their alignment."""
        self.guard()
        self.block += b'\xa5' if width == 1 else b''
        self.pairs.append((len(self.block), len(data) // width))
        self.spans[name] = len(self.block), len(data)
        self.block += data

    def case(self):
        flat = [number for pair in self.pairs for number in pair]
        return struct.pack('<%dI' % (3 + len(flat)), self.number, len(self.block) // 4, len(self.pairs), *flat) + self.block

    def written(self):
        """The names of the lists that are lent to be written, but for the details."""
        return [p.name for p in self.parameters if p.sort == 'written words' and p.name != 'details']

    def details(self):
        """The details that are recorded."""
        return [int(detail, 16) for detail in self.answer[1:len(self.answer) - len(self.written())]]

    def expected(self):
        """The answer's number and the block as they are to be after the call."""
        block, details = bytearray(self.block), self.details()
        lists = [('details', details)] if details else []
        lists += zip(self.written(), map(words, self.answer[1 + len(details):]))
        for name, after in lists:
            start, size = self.spans[name]
            data = struct.pack('<%dI' % len(after), *after)[:size]
            block[start:start + len(data)] = data
        return struct.pack('<I', int(self.answer[0])) + block

    def size(self):
        return 4 + len(self.block)


def calls(functions, path, only=None):
    """Each call of a file, with so much room for details or with every room."""
    for line_number, line in enumerate(open(path).read().splitlines(), 1):
        for room in range(len(Call(functions, line, 0).details()) + 2) if only is None else [only]:
            call = Call(functions, line, room)
            if not call.fits():
                sys.exit('calls.py: line %d is too long for the board' % line_number)
            yield line_number, room, call


def compare(functions, path, *rooms):
    data, at, differ, count = sys.stdin.buffer.read(), 0, 0, 0
    for line_number, room, call in calls(functions, path, *rooms):
        written, at, count = data[at:at + call.size()], at + call.size(), count + 1
        if call.answer and written != call.expected():
            differ += 1
            number = struct.unpack('<I', written[:4])[0] if len(written) >= 4 else None
            print('line %d, room for %d details: answered %s, recorded is %s%s' % (
                line_number, room, number, call.answer[0], '' if str(number) != call.answer[0] else '; a lent word differs'))
    print('%d calls, %d not as recorded' % (count, differ))
    return differ > 0 or count == 0 or at != len(data)


def main(command, *rest):
    functions = header.functions(HEADER)
    if command == 'dispatch':
        sys.stdout.writelines(dispatch(functions))
    elif command == 'recorded':
        for line in recorded(open(rest[0], 'rb').read(), open(rest[1]).read()):
            print(line)
    elif command == 'cases':
        made = [call.case() for _, _, call in calls(functions, rest[0], *map(int, rest[2:]))]
        sys.stdout.buffer.write(struct.pack('<2I', len(made), int(rest[1], 16)) + b''.join(made))
    elif command == 'compare':
        return compare(functions, rest[0], *map(int, rest[1:]))
    elif command == 'uncalled':
        called = {line.split()[0] for line in open(rest[0])}
        missing = [f.name for f in functions if f.name not in called]
        print(*missing, sep='\n', end='\n' if missing else '')
        return len(missing) > 0
    else:
        sys.exit(__doc__)
    return 0


if __name__ == '__main__':
    if len(sys.argv) < 2:
        sys.exit(__doc__)
    sys.exit(main(*sys.argv[1:]))
