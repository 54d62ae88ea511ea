#!/usr/bin/env python3
"""Makes the module that the toolchain compiles for x86-64 over for a processor whose pointers have 32 bits.

    retarget.py HEADER DATALAYOUT TRIPLE < module.ll > board.ll

Changed are the target's two lines, the attributes of x86-64, and the first lines of the functions of HEADER: there a length is a
size_t of 32 bits, which is widened at once to the 64 bits that the code computes with. No instruction changes, and no offset: a
pointer keeps the 8 bytes that the code reserves for it. module.py and pointers.py see to it that this is enough: where the
module has a line that they do not know, or a pointer's bytes are used as a number, the run ends and nothing is written."""
import re
import sys

import header
import module
import pointers

LLVM_TYPES = {'words': 'ptr', 'bytes': 'ptr', 'written words': 'ptr', 'length': 'i64', 'number': 'i32', 'double': 'double'}


def check_header(declared, functions):
    """Whether the module exports just what the header declares."""
    exported = {name: [kind for kind, _ in f.parameters] for name, f in functions.items() if f.exported}
    wanted = {f.name: [LLVM_TYPES[p.sort] for p in f.parameters] for f in declared}
    for name in sorted(exported.keys() | wanted.keys()):
        if exported.get(name) != wanted.get(name):
            module.stop('%s takes %s in the header and %s in the module' % (name, wanted.get(name), exported.get(name)))


def exported_head(line):
    """The first line of an exported function with lengths of 32 bits, and the lines that widen them."""
    text, widened = line.text, []
    for kind, name in module.parameters(line):
        if kind == 'i64':
            text = re.sub(r'i64 noundef %s\b' % name, 'i32 noundef %s.short' % name, text)
            widened.append('  %s = zext i32 %s.short to i64' % (name, name))
    return text, widened


def attributes(line):
    """The line of attributes without those of x86-64."""
    text = line.text
    for attribute in module.OF_X86_64:
        text = text.replace(' ' + attribute, '')
    return text


def retargeted(lines, layout, triple):
    """The lines of the module for the board."""
    widened = []
    for line in lines:
        text = line.text
        if line.form == 'layout':
            text = 'target datalayout = "%s"' % layout
        elif line.form == 'triple':
            text = 'target triple = "%s"' % triple
        elif line.form == 'attributes':
            text = attributes(line)
        elif line.form == 'head' and not line.fields['internal']:
            text, widened = exported_head(line)
        yield text
        if line.form == 'label' and widened:
            yield from widened
            widened = []


def check_target(lines, layout):
    """Whether both processors have the low byte first and numbers of 64 bits at multiples of 8, and the one of the board pointers of
    32 bits."""
    given = [line.fields['layout'] for line in lines if line.form == 'layout']
    if len(given) != 1 or not given[0].startswith('e-') or '-p:' in given[0]:
        module.stop('it is not for a processor with pointers of 64 bits and the low byte first')
    if not layout.startswith('e-') or '-p:32:32' not in layout:
        module.stop('the board is to have pointers of 32 bits and the low byte first')
    if '-i64:64-' not in given[0] or '-i64:64-' not in layout:
        module.stop('numbers of 64 bits are to lie at multiples of 8, within a pair of numbers too')


def main(path, layout, triple):
    lines = module.read(sys.stdin.read())
    check_target(lines, layout)
    functions = module.functions(lines)
    check_header(header.functions(path), functions)
    cells = pointers.check(module.reached(functions))
    board = list(retargeted(lines, layout, triple))
    sys.stdout.write('\n'.join(board) + '\n')
    forms = len({line.form for line in lines})
    sys.stderr.write('%d lines of %d forms, %d functions, %d cells that hold pointers\n' % (len(lines), forms, len(functions), cells))


if __name__ == '__main__':
    if len(sys.argv) != 4:
        sys.exit(__doc__)
    main(*sys.argv[1:])
