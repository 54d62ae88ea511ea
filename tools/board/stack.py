#!/usr/bin/env python3
"""The most bytes of stack that each function of the header takes on the board: a bound, from the frames that the compiler states
and the calls of the compiled code.

    stack.py HEADER MODULE.ll RECURSION LIBRARY.o HELPERS.o      objects compiled with -fstack-size-section and -ffunction-sections

A function takes its frame and the most that one of the functions takes that it calls; a function of the header also what its
caller pushes, since only four words of arguments stand in registers. Functions that call themselves, also by way of others, are
told from the module; each must stand in the file RECURSION with the number of times that it is at most on the stack at once. A
function that no object has ends the run. There are no calls by pointer: retarget.py lets none in."""
import re
import struct
import sys

import header
import module

CALLS = (10, 30)                                # R_ARM_THM_CALL, R_ARM_THM_JUMP24
SYMBOLS, RELOCATIONS, FUNCTION = 2, 9, 2        # sorts of sections, and of a symbol
DEPTH = re.compile(r'(?P<name>.+?)\s+(?P<number>\d+)(?:\s+#.*)?')


def stop(text):
    sys.exit('stack.py: ' + text)


class Object:
    """The frames and the calls of an object file (ELF, 32 bits, low byte first)."""

    def __init__(self, path):
        self.data = open(path, 'rb').read()
        start, = struct.unpack_from('<I', self.data, 32)
        count, names = struct.unpack_from('<HH', self.data, 48)
        # name, type, flags, address, offset, size, link, info, alignment, entry size
        self.sections = [struct.unpack_from('<10I', self.data, start + 40 * i) for i in range(count)]
        self.names = [self.string(self.sections[names][4] + section[0]) for section in self.sections]
        self.symbols = self.read_symbols(next(s for s in self.sections if s[1] == SYMBOLS))
        self.within = {section: name for name, sort, section in self.symbols if sort == FUNCTION}      # a function for each section
        self.frames, self.calls = {}, {name: set() for name in self.within.values()}
        for section in self.sections:
            if section[1] == RELOCATIONS:
                self.read_relocations(section)

    def string(self, start):
        return self.data[start:self.data.index(b'\0', start)].decode()

    def read_symbols(self, table):
        found = []
        for at in range(table[4], table[4] + table[5], 16):
            name, _, _, info, _, section = struct.unpack_from('<IIIBBH', self.data, at)
            found.append((self.string(self.sections[table[6]][4] + name), info & 15, section))
        return found

    def frame(self, at):
        """A number in LEB128."""
        size = shift = 0
        while True:
            byte = self.data[at]
            size |= (byte & 127) << shift
            if byte < 128:
                return size
            at, shift = at + 1, shift + 7

    def read_relocations(self, section):
        where = section[7]
        for at in range(section[4], section[4] + section[5], 8):
            offset, info = struct.unpack_from('<II', self.data, at)
            name, _, home = self.symbols[info >> 8]
            target = self.within.get(home, name)
            if self.names[where] == '.stack_sizes':
                self.frames[target] = self.frame(self.sections[where][4] + offset + 4)
            elif where in self.within and info & 255 in CALLS:
                self.calls[self.within[where]].add(target)


def cycles(functions):
    """For each function that can come back to itself, the functions by way of which it does."""
    called = {name: module.calls(function) for name, function in functions.items()}
    below = {}
    for name in called:
        seen, left = set(), list(called[name])
        while left:
            other = left.pop()
            if other not in seen:
                seen.add(other)
                left += called[other]
        below[name] = seen
    return {name: {other for other in below[name] if name in below[other]} for name in called if name in below[name]}


def depths(path):
    """How often a function is at most on the stack at once, from lines of a name, a number and, if wanted, a comment; a line that
    begins with # is a comment. Spaces and # within a name are the name's, as in that of a generic function's instance."""
    found = {}
    for line in map(str.strip, open(path)):
        if line and not line.startswith('#'):
            match = DEPTH.fullmatch(line)
            if not match:
                stop('%s has a line that is no name and number: %s' % (path, line))
            found[match['name']] = int(match['number'])
    return found


class Stack:
    def __init__(self, objects, recursive, depth):
        self.frames, self.calls, self.recursive, self.depth = {}, {}, recursive, depth
        for each in objects:
            self.frames.update(each.frames)
            self.calls.update(each.calls)
        missing = {other for called in self.calls.values() for other in called} - self.frames.keys()
        if missing:
            stop('called, and no object has it: %s; tools/board/helpers.c is to have the run-time helpers' % ' '.join(sorted(missing)))

    def group(self, name):
        """The compiled functions that a function calls itself by way of; else the function alone."""
        return {other for other in self.recursive.get(name, ()) if other in self.frames} | {name}

    def most(self, name):
        """What a function takes with all that it calls."""
        group = self.group(name)
        own = 0
        for member in group:
            if member in self.recursive and member not in self.depth:
                stop('%s calls itself, and the file of recursions does not say how deep' % member)
            own += self.frames[member] * self.depth.get(member, 1)
        below = {other for member in group for other in self.calls[member]} - group
        return own + max((self.most(other) for other in below), default=0)


def pushed(function):
    """The bytes of arguments that a caller in C pushes: those behind the first four words. A double begins at an even word."""
    words = 0
    for parameter in function.parameters:
        words += words % 2 + 2 if parameter.sort == 'double' else 1
    bytes_pushed = 4 * max(words - 4, 0)
    return bytes_pushed + bytes_pushed % 8


def main(path, text, recursion, library, helpers):
    functions = module.functions(module.read(open(text).read()))
    recursive = {name.strip('"'): {other.strip('"') for other in others} for name, others in cycles(functions).items()}
    objects = [Object(library), Object(helpers)]
    unknown = objects[0].frames.keys() - {name.strip('"') for name in functions}
    if unknown:
        stop('the compiler made functions that the module does not have: ' + ' '.join(sorted(unknown)))
    stack = Stack(objects, recursive, depths(recursion))
    for function in header.functions(path):
        print(function.name, stack.most(function.name) + pushed(function))


if __name__ == '__main__':
    if len(sys.argv) != 6:
        sys.exit(__doc__)
    main(*sys.argv[1:])
