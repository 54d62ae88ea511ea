"""Whether a module keeps pointers and numbers apart in memory.

The code reserves 8 bytes for a pointer, a cell, of which the board fills 4. So no byte of a cell may be read, written or copied
but as the whole pointer, and a pointer may be read only from a cell that holds one. A variable may be filled with zeros, whole, before
anything else is done with it: a cell then holds the null pointer, whatever the width. What a pointer may point to is worked out for
all functions together: objects are the variables of functions and the buffers that callers lend, and neither the order of
instructions nor the callers of a function are told apart. So a finding need not be a fault; where there is
none there is no fault."""
import collections

import module

WIDTHS = {'i1': 1, 'i8': 1, 'i16': 2, 'i32': 4, 'i64': 8, 'float': 4, 'double': 8}
CELL = 8
# the operands by which a line reaches memory
REACHED_BY = {'load': ['at'], 'load pair': ['at'], 'store': ['at'], 'fill': ['at'], 'move': ['to', 'base']}
UNKNOWN = None                                  # an offset that is worked out only when the code runs


def pair_width(pair):
    """The bytes from the start of a pair of numbers to its end: the second lies at a multiple of its own width."""
    first, second = (WIDTHS[kind] for kind in pair.strip('{ }').split(', '))
    return -(-first // second) * second + second


def moved(offset, by):
    return UNKNOWN if offset is UNKNOWN or by is UNKNOWN else offset + by


class Pointers:
    """What each value that is a pointer may point to, as pairs of an object and an offset, and what each cell may hold."""

    def __init__(self, functions):
        self.functions = functions
        self.points = collections.defaultdict(set)
        self.cells = collections.defaultdict(lambda: collections.defaultdict(set))
        self.findings = {}
        self.cleared = set().union(*(module.cleared(function) for function in functions.values()))
        for function in functions.values():
            for kind, name in function.parameters:
                if function.exported and kind == 'ptr':
                    self.points[function.name, name].add((('lent', function.name, name), UNKNOWN))
        self.grown = True
        while self.grown:
            self.grown = False
            self.pass_over(self.flow)
        self.pass_over(self.judge)

    def pass_over(self, step):
        for function in self.functions.values():
            for line in function.body:
                step(function.name, line)

    def add(self, known, new):
        if not new <= known:
            known |= new
            self.grown = True

    def held(self, where, width):
        """The cells of which a byte lies among so many at a pointer: object, offset of the cell, offset of the access."""
        for thing, at in list(self.points[where]):
            for cell, what in list(self.cells[thing].items()):
                if what and (at is UNKNOWN or cell - width < at < cell + CELL):
                    yield thing, cell, at

    def flow(self, name, line):
        """What a line adds to what is known."""
        fields = line.fields
        if line.form == 'alloca':
            self.add(self.points[name, fields['to']], {((name, fields['to']), 0)})
        elif line.form == 'offset':
            by = UNKNOWN if fields['by'].startswith('%') else int(fields['by'])
            self.add(self.points[name, fields['to']], {(thing, moved(at, by)) for thing, at in self.points[name, fields['base']]})
        elif line.form == 'call':
            for (kind, value), (_, parameter) in zip(module.arguments(line), self.functions[fields['name']].parameters):
                if kind == 'ptr':
                    self.add(self.points[fields['name'], parameter], self.points[name, value])
        elif line.form == 'load' and fields['type'] == 'ptr':
            for thing, at in list(self.points[name, fields['at']]):
                if at is not UNKNOWN:
                    self.add(self.points[name, fields['to']], self.cells[thing][at])
        elif line.form == 'store' and fields['value'].startswith('ptr '):
            for thing, at in list(self.points[name, fields['at']]):
                if at is not UNKNOWN:
                    self.add(self.cells[thing][at], self.points[name, fields['value'].split()[1]])
        elif line.form == 'move':
            for thing, cell, start in list(self.held((name, fields['base']), int(fields['length']))):
                for to, at in list(self.points[name, fields['to']]):
                    if start is not UNKNOWN and at is not UNKNOWN:
                        self.add(self.cells[to][at + cell - start], self.cells[thing][cell])

    def find(self, name, line, text):
        self.findings.setdefault(line.number, 'line %d, in %s: %s: %s' % (line.number, name.strip('"'), text, line.text.strip()))

    def judge(self, name, line):
        """What is wrong with a line, once all is known."""
        fields, form = line.fields, line.form
        for operand in REACHED_BY.get(form, ()):
            if not self.points[name, fields[operand]]:
                self.find(name, line, 'nothing is known of where this points')
        if form in ('load', 'store'):
            kind = fields['type'] if form == 'load' else fields['value'].split()[0]
            if kind == 'ptr':
                self.judge_pointer(name, line)
            elif any(self.held((name, fields['at']), WIDTHS[kind])):
                self.find(name, line, 'a number in the cell of a pointer')
        elif form == 'load pair' and any(self.held((name, fields['at']), pair_width(fields['type']))):
            self.find(name, line, 'a number in the cell of a pointer')
        elif form == 'fill' and line.number not in self.cleared and any(self.held((name, fields['at']), int(fields['length']))):
            self.find(name, line, 'bytes filled in the cell of a pointer')
        elif form == 'null test' and not self.is_lent(name, fields['at']):
            self.find(name, line, 'a pointer of the code itself compared with null')
        elif form == 'move':
            self.judge_move(name, line)

    def is_lent(self, name, value):
        """Whether a value is a pointer as a caller of the library hands it over."""
        function = self.functions[name]
        return function.exported and ('ptr', value) in function.parameters

    def judge_pointer(self, name, line):
        for thing, at in list(self.points[name, line.fields['at']]):
            if at is UNKNOWN:
                self.find(name, line, 'a pointer at an offset that is not known')
            elif at % CELL != 0:
                self.find(name, line, 'a pointer off its cell')
            elif line.form == 'load' and not self.cells[thing][at]:
                self.find(name, line, 'a pointer read where none is stored')

    def judge_move(self, name, line):
        to, base, length = (name, line.fields['to']), (name, line.fields['base']), int(line.fields['length'])
        copied = list(self.held(base, length))
        for _, cell, start in copied:
            if start is UNKNOWN or not start <= cell <= start + length - CELL:
                self.find(name, line, 'a part of a pointer copied')
        if copied and any(at is UNKNOWN or at % CELL != 0 for _, at in self.points[to]):
            self.find(name, line, 'a pointer copied off a cell')
        from_cells = {cell - start for _, cell, start in copied if start is not UNKNOWN}
        if any(at is UNKNOWN or cell - at not in from_cells for _, cell, at in self.held(to, length)):
            self.find(name, line, 'numbers copied into the cell of a pointer')

    def count(self):
        return sum(1 for cells in self.cells.values() for what in cells.values() if what)


def check(functions):
    """Ends the program where pointers and numbers may meet; else the count of cells that hold pointers."""
    found = Pointers(functions)
    if found.findings:
        module.stop('\n'.join([found.findings[number] for number in sorted(found.findings)][:10]))
    return found.count()
