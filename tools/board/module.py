"""The LLVM module that the toolchain makes of the library, read from its text.

Every line must have one of the forms below. They are those whose meaning is the same whatever the width of a pointer: numbers
of a stated width and pairs of them, memory reached by a pointer and an offset in bytes, branches, calls by name, and whether a
pointer is null. A line of another form ends the reading: a pointer that becomes a number or is compared with another, a type with
a layout of LLVM's own that has a pointer, a vector, an atomic access, a global, and any attribute or intrinsic that is not named
here."""
import collections
import re
import sys

VALUE = r'%[\w.]+'
NUMBER = r'(?:i1|i8|i16|i32|i64|float|double)'
TYPE = rf'(?:{NUMBER}|ptr)'
LITERAL = r'(?:-?\d+(?:\.\d+e[+-]\d+)?|0x[0-9A-F]+|true|false)'
OPERAND = rf'(?:{VALUE}|{LITERAL})'
TYPED = rf'(?:ptr {VALUE}|{NUMBER} {OPERAND})'
# two numbers that a function returns: on both processors each lies at a multiple of its own width
PAIR = r'\{ (?:i8|i16|i32|i64|float|double), (?:i8|i16|i32|i64|float|double) \}'
RESULT = rf'(?:void|{NUMBER}|{PAIR})'
NAME = r'(?:"[\w:.<>(), &\'#{}+=*\[\]]+"|bokwingi_\w+)'
PARAMETER = rf'{TYPE} (?:noundef )?(?:zeroext |signext )?{VALUE}'
ARGUMENT = rf'(?:ptr|{NUMBER}) (?:noundef )?(?:zeroext |signext )?{OPERAND}'
COMPARISON = r'(?:icmp (?:eq|ne|[us](?:lt|le|gt|ge))|fcmp (?:o|u)(?:eq|ne|lt|le|gt|ge))'
ARITHMETIC = (r'(?:(?:add|sub|mul|shl)(?: nuw)?(?: nsw)?|(?:udiv|sdiv|lshr|ashr)(?: exact)?|urem|srem|and|or(?: disjoint)?|xor|'
              r'fadd|fsub|fmul|fdiv)')
CONVERSION = r'(?:zext(?: nneg)?|sext|trunc(?: nuw)?(?: nsw)?|bitcast|fpext|fptrunc|[us]itofp(?: nneg)?|fpto[us]i)'

# the attributes of functions: those that hold on any processor, and those of x86-64, which are left out for the board
ANYWHERE = ['nounwind', 'nocallback', 'nofree', 'willreturn', 'noreturn', 'cold', 'memory(argmem: readwrite)', 'memory(argmem: write)',
            'memory(inaccessiblemem: write)', 'noinline']
OF_X86_64 = ['"probe-stack"="inline-asm"', '"stack-probe-size"="3072"', '"target-cpu"="x86-64"']
ATTRIBUTE = '(?:%s)' % '|'.join(map(re.escape, ANYWHERE + OF_X86_64))

FORMS = {
    'empty': r'',
    'comment': r';.*',
    'source': r'source_filename = "\w+"',
    'layout': r'target datalayout = "(?P<layout>[\w:-]+)"',
    'triple': r'target triple = "(?P<triple>[\w-]+)"',
    'head': rf'define (?P<internal>internal )?(?:noundef )?(?:zeroext |signext )?(?P<result>{RESULT}) @(?P<name>{NAME})'
            rf'\((?P<parameters>(?:{PARAMETER}(?:, {PARAMETER})*)?)\) #\d+ {{',
    'end': r'}',
    'label': r'(?P<label>[\w.]+):(?: +; (?:preds = .*|No predecessors!))?',
    'alloca': rf'  (?P<to>{VALUE}) = alloca (?:{TYPE}|\[(?P<bytes>\d+) x i8\]), align [1248]',
    'load': rf'  (?P<to>{VALUE}) = load (?P<type>{TYPE}), ptr (?P<at>{VALUE}), align [1248](?:, !range !\d+)?(?:, !noundef !\d+)?',
    'load pair': rf'  {VALUE} = load (?P<type>{PAIR}), ptr (?P<at>{VALUE}), align [1248]',
    'of pair': rf'  {VALUE} = extractvalue {PAIR} {VALUE}, [01]',
    'store': rf'  store (?P<value>{TYPED}), ptr (?P<at>{VALUE}), align [1248]',
    'offset': rf'  (?P<to>{VALUE}) = getelementptr (?:inbounds )?(?:nuw )?i8, ptr (?P<base>{VALUE}), i64 (?P<by>{OPERAND})',
    'compute': rf'  {VALUE} = {ARITHMETIC} {NUMBER} {OPERAND}, {OPERAND}',
    'negate': rf'  {VALUE} = fneg {NUMBER} {OPERAND}',
    'compare': rf'  {VALUE} = {COMPARISON} {NUMBER} {OPERAND}, {OPERAND}',
    'null test': rf'  {VALUE} = icmp eq ptr (?P<at>{VALUE}), null',
    'convert': rf'  {VALUE} = {CONVERSION} {NUMBER} {OPERAND} to {NUMBER}',
    'jump': rf'  br label {VALUE}',
    'branch': rf'  br i1 {OPERAND}, label {VALUE}, label {VALUE}',
    'switch': rf'  switch i(?:8|16|32|64) {OPERAND}, label {VALUE} \[',
    'case': rf'    i(?:8|16|32|64) -?\d+, label {VALUE}',
    'cases end': r'  \]',
    'return': rf'  ret (?:void|{NUMBER} {OPERAND}|{PAIR} {VALUE})',
    'unreachable': r'  unreachable',
    'call': rf'  (?:{VALUE} = )?call (?:zeroext |signext )?{RESULT} @(?P<name>{NAME})\((?P<arguments>(?:{ARGUMENT}(?:, {ARGUMENT})*)?)\)',
    'move': rf'  call void @llvm\.mem(?:move|cpy)\.p0\.p0\.i64\(ptr (?P<to>{VALUE}), ptr (?P<base>{VALUE}), i64 (?P<length>\d+), i1 false\)',
    'fill': rf'  call void @llvm\.memset\.p0\.i64\(ptr (?P<at>{VALUE}), i8 (?P<byte>\d+), i64 (?P<length>\d+), i1 false\)',
    'trap': r'  call void @llvm\.trap\(\)',
    'intrinsic': r'declare void @llvm\.(?:mem(?:move|cpy)\.p0\.p0\.i64|memset\.p0\.i64|trap)\([^%@]*\) #\d+',
    'attributes': rf'attributes #\d+ = {{ (?P<attributes>{ATTRIBUTE}(?: {ATTRIBUTE})*) }}',
    'ident': r'!llvm\.ident = !{!\d+}',
    'metadata': r'!\d+ = !{(?:!"rattle logic=[0-9a-f]+"|i8 0, i8 2)?}',
}
PATTERNS = {form: re.compile(pattern) for form, pattern in FORMS.items()}

Line = collections.namedtuple('Line', 'number form fields text')
Function = collections.namedtuple('Function', 'name exported parameters body')      # parameters: pairs of type and name; body: lines


def stop(text):
    """Ends the program: the module is not one that can be made over."""
    sys.exit('the module cannot be made over for the board: ' + text)


def read_line(number, text):
    for form, pattern in PATTERNS.items():
        match = pattern.fullmatch(text)
        if match:
            return Line(number, form, match.groupdict(), text)
    return stop('line %d has no known form: %s' % (number, text.strip()))


def read(text):
    """The lines of a module, in order."""
    return [read_line(number, line) for number, line in enumerate(text.splitlines(), 1)]


def parameters(head):
    """Types and names of the parameters of a function's first line."""
    return [(words[0], words[-1]) for words in (p.split() for p in head.fields['parameters'].split(', ') if p)]


def arguments(call):
    """Types and values of what a call hands on."""
    return [(words[0], words[-1]) for words in (a.split() for a in call.fields['arguments'].split(', ') if a)]


def functions(lines):
    """The functions of a module by name."""
    found, body = {}, None
    for line in lines:
        if line.form == 'head':
            body = []
            name = line.fields['name']
            found[name] = Function(name, not line.fields['internal'], parameters(line), body)
        elif body is not None:
            body.append(line)
    return found


def cleared(function):
    """The lines that fill a whole variable with zeros before anything else names it: in the first block, which runs once a call."""
    sizes, named, found = {}, set(), set()
    for at, line in enumerate(function.body):
        if line.form == 'label' and at > 0:
            break
        if line.form == 'alloca':
            sizes[line.fields['to']] = line.fields['bytes']
            continue
        if line.form == 'fill' and line.fields['byte'] == '0':
            to = line.fields['at']
            if to not in named and sizes.get(to) == line.fields['length']:
                found.add(line.number)
        named.update(re.findall(VALUE, line.text))
    return found


def calls(function):
    """The names that a function calls."""
    return {line.fields['name'] for line in function.body if line.form == 'call'}


def reached(found):
    """The functions that those of the header reach, by name."""
    seen, left = {}, [name for name, function in found.items() if function.exported]
    while left:
        name = left.pop()
        if name not in seen:
            if name not in found:
                stop('%s is called and not defined' % name)
            seen[name] = found[name]
            left += calls(found[name])
    return seen
