#!/usr/bin/env python3
"""Plants into the library's module, one at a time, what a change of processor could alter, and asks that the module is then refused for
that very reason; the same of functions that call themselves, of which the bound of the stack has to be told how deep they go.

    foreign.py           ends with 1 where something was let through"""
import os
import re
import subprocess
import sys
import tempfile

ROOT = os.path.join(os.path.dirname(os.path.abspath(__file__)), '../..')
TOOLS = os.path.join(ROOT, 'tools/board')
sys.path.insert(0, TOOLS)
import stack

BOARD = os.path.join(ROOT, 'target/board')
HEADER = os.path.join(ROOT, 'include/bokwingi.h')
LAYOUT = 'e-m:e-p:32:32-Fi8-i64:64-v128:64:128-a:0:32-n32-S64'
NO_FORM = 'has no known form'

# a variable in memory, a number, and the cell of a pointer, each as it stands in a line of the module
VARIABLE = r'(?m)^  (?P<v>%r\d+) = alloca i64, align 8\n'
NUMBER = r'(?m)^  (?P<v>%r\d+) = load i64, ptr %r\d+, align 8.*\n'
CELL = r'(?m)^  store ptr %\w+, ptr (?P<v>%r\d+), align 8\n'
# a variable with such a cell, which is cleared behind that line
BEGUN = r'(?m)^  (?P<v>%r\d+) = alloca \[16 x i8\], align 8\n(?=  call void @llvm.memset.*\n  store ptr )'

# what is planted, behind which line, the planted lines, and what is to be said of them
PLANTED = [
    ('a pointer made a number', VARIABLE, '  %x = ptrtoint ptr {v} to i64', NO_FORM),
    ('a number made a pointer', NUMBER, '  %x = inttoptr i64 {v} to ptr', NO_FORM),
    ('pointers compared', VARIABLE, '  %x = icmp ult ptr {v}, {v}', NO_FORM),
    ('a pointer chosen', VARIABLE, '  %x = select i1 true, ptr {v}, ptr {v}', NO_FORM),
    ('a null pointer', VARIABLE, '  store ptr null, ptr {v}, align 8', NO_FORM),
    ('a pointer of the code compared with null', VARIABLE, '  %x = icmp eq ptr {v}, null', 'a pointer of the code itself compared with null'),
    ('a pointer with a number beside it', VARIABLE, '  %x = load {{ ptr, i64 }}, ptr {v}, align 8', NO_FORM),
    ('a record with a layout', VARIABLE, '  %x = alloca {{ ptr, i64 }}, align 8', NO_FORM),
    ('an offset by a type', VARIABLE, '  %x = getelementptr ptr, ptr {v}, i64 1', NO_FORM),
    ('a vector', NUMBER, '  %x = add <2 x i32> zeroinitializer, zeroinitializer', NO_FORM),
    ('a number of 128 bits', NUMBER, '  %x = zext i64 {v} to i128', NO_FORM),
    ('a float of x86-64', NUMBER, '  %x = uitofp i64 {v} to x86_fp80', NO_FORM),
    ('an atomic access', VARIABLE, '  %x = load atomic i64, ptr {v} seq_cst, align 8', NO_FORM),
    ('an unknown intrinsic', NUMBER, '  %x = call i64 @llvm.bswap.i64(i64 {v})', NO_FORM),
    ('a length that is not constant', VARIABLE, '  call void @llvm.memset.p0.i64(ptr {v}, i8 0, i64 %n, i1 false)', NO_FORM),
    ('a call by pointer', VARIABLE, '  call void {v}()', NO_FORM),
    ('inline assembly', VARIABLE, '  call void asm sideeffect "nop", ""()', NO_FORM),
    ('a function from outside', r'(?m)^!llvm.ident.*\n', 'declare i32 @getpid()', NO_FORM),
    ('a global', r'(?m)^!llvm.ident.*\n', '@state = global i32 0', NO_FORM),
    ('an unknown attribute', r'(?m)^attributes #1 .*\n', 'attributes #9 = {{ nounwind "target-features"="+sse4.2" }}', NO_FORM),
    ('a call of what is not there', VARIABLE, '  call void @"nowhere"()', 'is called and not defined'),
    ('a pointer read as a number', CELL, '  %x = load i64, ptr {v}, align 8', 'a number in the cell of a pointer'),
    ('half of a pointer read', CELL, '  %h = getelementptr i8, ptr {v}, i64 4\n  %x = load i32, ptr %h, align 4', 'a number in the cell of a pointer'),
    ('a pointer read as two numbers', CELL, '  %x = load {{ i8, i64 }}, ptr {v}, align 8', 'a number in the cell of a pointer'),
    ('a pointer overwritten', CELL, '  store i8 0, ptr {v}, align 1', 'a number in the cell of a pointer'),
    ('a pointer cleared', CELL, '  call void @llvm.memset.p0.i64(ptr {v}, i8 0, i64 8, i1 false)', 'bytes filled in the cell of a pointer'),
    ('a part of a variable cleared', BEGUN, '  call void @llvm.memset.p0.i64(ptr {v}, i8 0, i64 12, i1 false)', 'bytes filled in the cell of a pointer'),
    ('a variable filled with ones', BEGUN, '  call void @llvm.memset.p0.i64(ptr {v}, i8 1, i64 16, i1 false)', 'bytes filled in the cell of a pointer'),
    ('a part of a pointer copied', CELL, '  %x = alloca [8 x i8], align 8\n  call void @llvm.memmove.p0.p0.i64(ptr %x, ptr {v}, i64 4, i1 false)',
     'a part of a pointer copied'),
    ('numbers copied over a pointer', CELL, '  %x = alloca [8 x i8], align 8\n  call void @llvm.memmove.p0.p0.i64(ptr {v}, ptr %x, i64 8, i1 false)',
     'numbers copied into the cell of a pointer'),
    ('a pointer copied off a cell', CELL, '  %x = alloca [16 x i8], align 8\n  %h = getelementptr i8, ptr %x, i64 4\n'
     '  call void @llvm.memmove.p0.p0.i64(ptr %h, ptr {v}, i64 8, i1 false)', 'a pointer copied off a cell'),
    ('a number read as a pointer', VARIABLE, '  %x = load ptr, ptr {v}, align 8', 'a pointer read where none is stored'),
    ('a pointer stored anywhere', VARIABLE, '  %i = load i64, ptr {v}, align 8\n  %x = getelementptr i8, ptr {v}, i64 %i\n  store ptr {v}, ptr %x, align 8',
     'a pointer at an offset that is not known'),
    ('a length that is no length', r'(?m)^define noundef i32 @bokwingi_entry_point\(ptr noundef %a0, i64', None, 'bokwingi_entry_point takes'),
]


def run(program, words, text=None):
    done = subprocess.run([os.path.join(TOOLS, program)] + words, input=text, capture_output=True, text=True)
    return done.returncode, done.stderr


def planted(module, where, lines):
    """The module with lines behind the first that match."""
    match = re.search(where, module)
    if lines is None:
        return module.replace(match[0], match[0].replace('i64', 'i32'))
    return module[:match.end()] + lines.format(**match.groupdict()) + '\n' + module[match.end():]


def refused(status, said, wanted):
    return status == 1 and wanted in said


def foreign_lines(module):
    retarget = [HEADER, LAYOUT, 'thumbv6m-unknown-none-eabi']
    yield 'the module as it is', run('retarget.py', retarget, module)[0] == 0
    for name, where, lines, wanted in PLANTED:
        yield name, refused(*run('retarget.py', retarget, planted(module, where, lines)), wanted)
    yield 'pointers of 64 bits', refused(*run('retarget.py', [HEADER, LAYOUT.replace('-p:32:32', ''), 'x'], module), 'pointers of 32 bits')
    yield 'pairs laid out otherwise', refused(*run('retarget.py', [HEADER, LAYOUT.replace('-i64:64', '-i64:32'), 'x'], module), 'at multiples of 8')


def recursions(module, folder):
    """A function of the module that is made to call itself, with and without a line that says how deep."""
    known = os.path.join(TOOLS, 'recursion.txt')
    compiled = stack.Object(os.path.join(BOARD, 'bokwingi.o')).frames.keys() - stack.depths(known).keys()
    heads = re.finditer(r'(?m)^define internal .*?@"(?P<name>[^"]+)"\((?P<parameters>.*)\) #0 {\nstart:\n', module)
    function = next(head for head in heads if head['name'] in compiled)
    arguments = re.sub(r'noundef (?:zeroext )?', '', function['parameters'])
    text, told, untold = (os.path.join(folder, name) for name in ('module.ll', 'told', 'untold'))
    call = '  call void @"%s"(%s)\n' % (function['name'], arguments)
    open(text, 'w').write(module[:function.end()] + call + module[function.end():])
    open(untold, 'w').write(open(known).read())
    open(told, 'w').write('%s%s 3\n' % (open(known).read(), function['name']))
    objects = [os.path.join(BOARD, name) for name in ('bokwingi.o', 'helpers.o')]
    yield 'a function that calls itself', refused(*run('stack.py', [HEADER, text, untold] + objects), function['name'] + ' calls itself')
    yield 'the same with its depth', run('stack.py', [HEADER, text, told] + objects)[0] == 0
    yield 'helpers that no object has', refused(*run('stack.py', [HEADER, text, told] + 2 * objects[:1]), 'no object has it')
    yield 'a function that the module has not', refused(*run('stack.py', [HEADER, text, told] + objects[::-1]), 'the module does not have')


def main():
    module = open(os.path.join(BOARD, 'module.ll')).read()
    with tempfile.TemporaryDirectory() as folder:
        tried = list(foreign_lines(module)) + list(recursions(module, folder))
    wrong = [name for name, good in tried if not good]
    for name in wrong:
        print('not as it should be: ' + name)
    print('%d planted, %d not told' % (len(tried), len(wrong)))
    return len(wrong) > 0


if __name__ == '__main__':
    sys.exit(main())
