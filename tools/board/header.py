"""The functions that include/bokwingi.h declares, with what each parameter is."""
import collections
import re
import sys

# what a parameter is, by its C type; a list is a pointer whose next parameter is its length
SORTS = {
    'const uint32_t *': 'words',
    'const uint8_t *': 'bytes',
    'uint32_t *': 'written words',
    'size_t': 'length',
    'uint32_t': 'number',
    'double': 'double',
}
LISTS = ('words', 'bytes', 'written words')

Parameter = collections.namedtuple('Parameter', 'name sort')
Function = collections.namedtuple('Function', 'name parameters')


def parameter(text, function):
    match = re.fullmatch(r'(\w[\w ]*?(?: \*|\b)) ?(\w+)', ' '.join(text.split()))
    if not match or match[1] not in SORTS:
        sys.exit('the header declares a parameter of no known type in %s: %s' % (function, text.strip()))
    return Parameter(match[2], SORTS[match[1]])


def functions(path):
    """The functions in the header's order. Ends the program where a declaration has another form than the others."""
    text = re.sub(r'/\*.*?\*/|^ *#.*?(?<!\\)$', '', open(path).read(), flags=re.S | re.M)
    found = []
    for name, declared in re.findall(r'^uint32_t (bokwingi_\w+)\(([^()]*)\);', text, re.M):
        function = Function(name, [parameter(p, name) for p in declared.split(',')])
        lists = [i for i, p in enumerate(function.parameters) if p.sort in LISTS]
        lengths = [i for i, p in enumerate(function.parameters) if p.sort == 'length']
        if lengths != [i + 1 for i in lists]:
            sys.exit('the header declares a list of no length, or a length of no list, in ' + name)
        found.append(function)
    missed = set(re.findall(r'\b(bokwingi_\w+)\s*\(', text)) - {f.name for f in found}
    if missed or not found:
        sys.exit('the header declares functions of another form: ' + ' '.join(sorted(missed)))
    return found
