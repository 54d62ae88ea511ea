#!/usr/bin/env python3
"""Builds a shader pack from a readable description, and prints a pack as such a description.

    tools/pack.py build DESCRIPTION > PACK             the pack's words, low byte first
    tools/pack.py show PACK > DESCRIPTION              a description that builds the same pack
    tools/pack.py varyings DESCRIPTION STRUCT          the varyings that a struct of the description gives, a line each
    tools/pack.py types DESCRIPTION STRUCT > TYPES     its structs as a type list, low byte first, for bokwingi_populate; the
                                                       number of STRUCT in it is told on standard error

A convenience for those who write packs, beside the product: nothing here is proved, and a pack that it builds is judged
by the product as any other. It sees to it that numbers fit their fields, flattens structs by the rule of populate and
refuses those that populate refuses, and leaves every other rule to the product. docs/PACKS.md has the form of a
description. Python 3, standard library only."""
import collections
import re
import sys

STAGES = ['vertex', 'fragment', 'compute', 'task', 'mesh']
TOPOLOGIES = ['points', 'lines', 'line-strip', 'triangles', 'triangle-strip']
SPACES = ['uniform', 'storage', 'other']
SORTS = ['buffer', 'sampler', 'sampled', 'depth', 'storage', 'external', 'acceleration']
DIMENSIONS = ['1d', '2d', '3d', 'cube']
SAMPLES = ['float', 'sint', 'uint']
ACCESSES = ['load', 'store', 'atomic']
SCALARS = ['i', 'u', 'f', 'b']
WIDTHS = {'8': 1, '16': 2, '32': 4, '64': 8}
BUILT_INS = ['other', 'primitive-index', 'draw-index', 'fragment-depth', 'clip-distances']
LIMITS = ['inter-stage', 'colour', 'compute-x', 'compute-y', 'compute-z', 'compute-total', 'task-dimension', 'task-total',
          'mesh-dimension', 'mesh-total', 'mesh-vertices', 'mesh-primitives', 'payload']
DEFAULTS = [16, 8, 256, 256, 64, 256, 128, 128, 128, 128, 256, 256, 16384]
PLAIN = set(range(33, 127)) - set(b'#%')
CONTENT = 1 << 27
TYPE = re.compile('(?:vec([234])|mat([234])x([234]))?([iufb])(8|16|32|64)')

# how many codes of interpolation and of sampling fit their fields, and how many there are
FITTING, EXISTING = (8, 8), (5, 6)

# of structs: how deep they nest, the varyings that one gives, and the types and words of a type list
MOST_NESTED, MOST_VARYINGS, MOST_TYPES, MOST_TYPE_WORDS = 8, 63, 256, 1024


class Bad(Exception):
    """What is wrong with a description or a pack, in words."""


# ---- a line's words, and the parts that both directions share

class Line:
    def __init__(self, text):
        self.fields = text.split('#')[0].split()

    def take(self, what):
        if not self.fields:
            raise Bad('%s is missing' % what)
        return self.fields.pop(0)

    def number(self, below, what):
        return number(self.take(what), below, what)

    def identifier(self, what):
        text = self.take(what)
        if not text.isidentifier() or TYPE.fullmatch(text):
            raise Bad('%s has letters, digits and _ and is no type, not %r' % (what, text))
        return text

    def code(self, names, what):
        text = self.take(what)
        if text not in names:
            raise Bad('%s is one of %s, not %r' % (what, ', '.join(names), text))
        return names.index(text)

    def flag(self, name):
        if name not in self.fields:
            return 0
        self.fields.remove(name)
        return 1

    def option(self, name, below):
        if name not in self.fields:
            return 0
        at = self.fields.index(name)
        rest = Line('')
        rest.fields = self.fields[at + 1:]
        value = rest.number(below, name)
        self.fields = self.fields[:at] + rest.fields
        return value

    def access(self):
        text = self.take('the access')
        parts = [] if text == 'none' else text.split('+')
        if any(part not in ACCESSES for part in parts) or len(set(parts)) < len(parts):
            raise Bad('the access is none, or some of load, store and atomic joined by +, not %r' % text)
        return sum(1 << ACCESSES.index(part) for part in parts)

    def end(self):
        if self.fields:
            raise Bad('%r is not expected here' % ' '.join(self.fields))


def number(text, below, what):
    if not re.fullmatch('[0-9]{1,10}', text) or int(text) >= below:
        raise Bad('%s is a number from 0 to %d, not %r' % (what, below - 1, text))
    return int(text)


def access_text(access):
    return '+'.join(name for i, name in enumerate(ACCESSES) if access >> i & 1) or 'none'


def type_code(text):
    match = TYPE.fullmatch(text)
    if not match:
        raise Bad('%r is no type: write one such as f32, vec3u16 or mat3x2f32 (columns, rows)' % text)
    size, columns, rows, scalar, width = match.groups()
    shape = int(size) - 1 if size else 4 + 3 * (int(columns) - 2) + int(rows) - 2 if columns else 0
    return shape | SCALARS.index(scalar) << 4 | WIDTHS[width] << 6


def type_text(w):
    shape, width = bits(w, 3, 0), bits(w, 9, 6)
    if shape > 12 or width not in WIDTHS.values():
        raise Bad('%08x is no type' % w)
    scalar = '%s%d' % (SCALARS[bits(w, 5, 4)], width * 8)
    if shape == 0:
        return scalar
    return 'vec%d%s' % (shape + 1, scalar) if shape < 4 else 'mat%dx%d%s' % ((shape - 4) // 3 + 2, (shape - 4) % 3 + 2, scalar)


def name_bytes(text):
    if not re.fullmatch('(?:[^%]|%[0-9a-fA-F]{2})*', text):
        raise Bad('a % in a name is followed by two hex digits')
    name = re.sub(rb'%(..)', lambda match: bytes([int(match.group(1), 16)]), text.encode())
    if not 1 <= len(name) <= 64:
        raise Bad('a name has 1 to 64 bytes, and this one %d' % len(name))
    return name


def name_text(name):
    return ''.join(chr(b) if b in PLAIN else '%%%02x' % b for b in name)


def word(kind, content):
    return kind << 27 | content


def bits(w, high, low):
    return w >> low & (1 << high - low + 1) - 1


# ---- from a description to words

def texture_words(line, sort):
    content = sort << 23 | line.code(DIMENSIONS, 'the dimension') | line.flag('arrayed') << 2
    if sort in (2, 3):
        content |= line.flag('multisampled') << 3
    if sort == 2:
        content |= line.code(SAMPLES, 'what it samples') << 4
    if sort == 4:
        content |= line.option('format', 128) << 8 | line.access() << 16
    return [word(16, content)]


def resource_words(line):
    place = word(4, line.number(16, 'the group') << 23 | line.number(1 << 23, 'the binding'))
    sort = line.code(SORTS, 'a resource')
    if sort == 0:
        space = line.code(SPACES, 'the address space')
        access = line.access() if space == 1 else 0
        words = [word(16, space << 3 | access), word(6, line.number(CONTENT, 'the size'))]
    elif sort == 1:
        words = [word(16, sort << 23 | line.flag('comparison'))]
    elif sort == 6:
        words = [word(16, sort << 23 | line.flag('vertex-return'))]
    else:
        words = texture_words(line, sort)
    line.end()
    return [place] + words


def built_in_word(code, line):
    return word(14, code << 24 | (line.number(256, 'the slots') if line.fields else 0))


def local_words(location, ty, line, codes):
    content = ty | line.option('interpolation', codes[0]) << 12 | line.option('sampling', codes[1]) << 15
    return [word(12, location), word(13, content | line.flag('per-primitive') << 18)]


def varying_words(line):
    what = line.code(['location'] + BUILT_INS, 'a varying')
    if what:
        words = [built_in_word(what - 1, line)]
    else:
        location = line.number(CONTENT, 'the location')
        words = local_words(location, type_code(line.take('the type')), line, FITTING)
    line.end()
    return words


# ---- structs. A type is the code of a scalar, vector or matrix, an Array or a Struct

F32 = type_code('f32')
CLIP_DISTANCES = word(14, BUILT_INS.index('clip-distances') << 24)
Array = collections.namedtuple('Array', 'element length')


def declared_type(text, structs):
    """A member's type: a scalar, vector or matrix, one of the structs, or an array of one of these."""
    name, *lengths = text.split('[')
    if name in structs:
        ty = structs[name]
    elif TYPE.fullmatch(name):
        ty = type_code(name)
    else:
        raise Bad('%r is no struct that is declared above, and no type such as f32, vec3u16, mat3x2f32 or f32[4]' % name)
    if len(lengths) >= MOST_TYPES:
        raise Bad('arrays nest at most %d deep' % (MOST_TYPES - 1))
    for length in lengths:
        if not length.endswith(']'):
            raise Bad('the length of an array stands in brackets, as in f32[4], not as in %r' % text)
        ty = Array(ty, number(length[:-1], CONTENT, 'the length of an array'))
    return ty


def binding_words(line):
    """A member's binding as a type list has it; no words where there is none."""
    if not line.fields:
        return []
    what = line.code(['location'] + BUILT_INS, 'a binding')
    if what == 0:
        return local_words(line.number(CONTENT, 'the location'), 0, line, EXISTING)
    if BUILT_INS[what - 1] == 'clip-distances':
        return [CLIP_DISTANCES]
    return [built_in_word(what - 1, line)]


def check_clip_distances(ty, binding):
    if binding != [CLIP_DISTANCES] or isinstance(ty, Struct):
        return
    if not isinstance(ty, Array) or ty.element != F32 or not 1 <= ty.length <= 255:
        raise Bad('clip distances stand on an array of 1 to 255 f32, and on nothing else')


def nesting(ty):
    """How deep structs nest in a type, also through arrays."""
    while isinstance(ty, Array):
        ty = ty.element
    return ty.nesting if isinstance(ty, Struct) else 0


def given(ty, binding):
    """The varyings, each as its words, that a type with this binding gives: the rule of populate."""
    if isinstance(ty, Struct):
        return ty.varyings
    if isinstance(ty, Array):
        return [[CLIP_DISTANCES | ty.length]] if binding == [CLIP_DISTANCES] else []
    if len(binding) == 2:
        return [[binding[0], binding[1] | ty]]
    return [binding] if binding else []


class Struct:
    """A struct, and the line that declares it: its members by name, how deep structs nest in it, and the varyings that it gives, no more
    of them than tell that they are too many."""

    def __init__(self, name, at):
        self.name, self.at, self.members, self.nesting, self.varyings = name, at, {}, 1, []

    def add(self, line, structs):
        name = line.identifier('the name of a member')
        if name in self.members:
            raise Bad('it has a member %s already' % name)
        ty, binding = declared_type(line.take('the type'), structs), binding_words(line)
        check_clip_distances(ty, binding)
        self.members[name] = ty, binding
        self.nesting = max(self.nesting, 1 + nesting(ty))
        self.varyings = (self.varyings + given(ty, binding))[:MOST_VARYINGS + 1]

    def check(self):
        """Whether it may be asked for its varyings."""
        if self.nesting > MOST_NESTED:
            raise Bad('struct %s of line %d: structs nest %d deep in it, and at most %d may' % (self.name, self.at, self.nesting, MOST_NESTED))
        if len(self.varyings) > MOST_VARYINGS:
            raise Bad('struct %s of line %d gives more than %d varyings' % (self.name, self.at, MOST_VARYINGS))


class TypeList:
    """A type list: the number of each type, and the records, each type once and behind those that it names."""

    def __init__(self, structs):
        self.numbers, self.records = {}, []
        for struct in structs:
            self.number(struct)
            if len(self.numbers) > MOST_TYPES or len(self.records) >= MOST_TYPE_WORDS:
                raise Bad('struct %s of line %d: with it the list has %d types and %d words, and at most %d and %d may stand in one' % (
                    struct.name, struct.at, len(self.numbers), 1 + len(self.records), MOST_TYPES, MOST_TYPE_WORDS))

    def number(self, ty):
        if ty not in self.numbers:
            record = self.record(ty)
            self.numbers[ty] = len(self.numbers)
            self.records += record
        return self.numbers[ty]

    def record(self, ty):
        if isinstance(ty, Struct):
            members = [[word(5, self.number(of))] + (binding or [word(6, 0)]) for of, binding in ty.members.values()]
            return [word(24, len(members))] + [w for member in members for w in member]
        if isinstance(ty, Array):
            return [word(23, self.number(ty.element)), word(6, ty.length)]
        return [word(22, ty)]

    def words(self):
        return [word(21, len(self.numbers))] + self.records


# ---- entry points and the whole

class Entry:
    def __init__(self, line):
        self.stage, self.name = line.code(STAGES, 'the stage'), name_bytes(line.take('the name'))
        self.dual, self.workgroup, self.payload, self.mesh = line.flag('dual-source'), [0, 0, 0], 0, []
        self.resources, self.pairs, self.inputs, self.outputs = [], [], [], []

    def add(self, key, line, structs):
        if key == 'workgroup':
            self.workgroup = [line.number(CONTENT, axis) for axis in 'xyz']
        elif key == 'payload':
            self.payload = 1 << 26 | line.number(1 << 26, 'the payload')
        elif key == 'mesh':
            self.mesh = [line.number(CONTENT, 'the vertices'), line.number(CONTENT, 'the primitives'), line.code(TOPOLOGIES, 'the topology')]
        elif key == 'uses':
            while line.fields:
                self.resources.append(line.number(CONTENT, 'a resource'))
        elif key == 'pair':
            self.pairs.append(line.number(256, 'the texture') << 8 | line.number(256, 'the sampler'))
        elif key == 'input':
            self.inputs.append(varying_words(line))
        elif key == 'output':
            self.outputs.append(varying_words(line))
        elif key == 'inputs':
            self.inputs += struct_varyings(line, structs)
        elif key == 'outputs':
            self.outputs += struct_varyings(line, structs)
        else:
            raise Bad('%r is no word of a description' % key)

    def words(self):
        padded = self.name + bytes(-len(self.name) % 4)
        words = [word(7, self.stage << 24 | len(self.name) << 16 | (2 if self.mesh else 0) | self.dual)]
        words += [int.from_bytes(padded[i:i + 4], 'little') for i in range(0, len(padded), 4)]
        words += [word(8, x) for x in self.workgroup] + [word(9, self.payload)] + [word(10, x) for x in self.mesh]
        counts = [len(x) for x in (self.resources, self.pairs, self.inputs, self.outputs)]
        if max(counts) > 63:
            raise Bad('entry point %s: at most 63 resources, pairs, inputs and outputs each' % name_text(self.name))
        words.append(word(15, counts[0] << 18 | counts[1] << 12 | counts[2] << 6 | counts[3]))
        words += [word(5, x) for x in self.resources + self.pairs]
        return words + [w for varying in self.inputs + self.outputs for w in varying]


def struct_named(name, structs):
    """A struct that may be asked for its varyings."""
    if name not in structs:
        raise Bad('there is no struct %s' % name)
    structs[name].check()
    return structs[name]


def struct_varyings(line, structs):
    if line.take("'of'") != 'of':
        raise Bad("'of' and the name of a struct are to follow")
    return struct_named(line.take('the name of a struct'), structs).varyings


class Description:
    """What the lines of a description say."""

    def __init__(self, text):
        self.limits, self.resources, self.structs, self.entries = list(DEFAULTS), [], {}, []
        self.last_struct = None
        for at, written in enumerate(text.split('\n'), 1):
            line = Line(written)
            if not line.fields:
                continue
            try:
                self.add(line, at)
                line.end()
            except Bad as bad:
                raise Bad('line %d: %s' % (at, bad))

    def add(self, line, at):
        key = line.take('a word')
        if key == 'limit':
            limit = line.code(LIMITS, 'a limit')
            self.limits[limit] = line.number(CONTENT, LIMITS[limit])
        elif key == 'resource':
            self.resources.append(resource_words(line))
        elif key == 'struct':
            self.add_struct(line, at)
        elif key == 'member':
            self.add_member(line)
        elif key == 'entry':
            self.entries.append(Entry(line))
        elif not self.entries:
            raise Bad('%r stands before the first entry point' % key)
        else:
            self.entries[-1].add(key, line, self.structs)

    def add_struct(self, line, at):
        name = line.identifier('the name of a struct')
        if self.entries:
            raise Bad('struct %s stands behind an entry point, and structs stand before all of them' % name)
        if name in self.structs:
            raise Bad('there is a struct %s already, of line %d' % (name, self.structs[name].at))
        self.structs[name] = self.last_struct = Struct(name, at)

    def add_member(self, line):
        struct = self.last_struct
        if struct is None or self.entries:
            raise Bad('a member stands behind its struct, and before the first entry point')
        try:
            struct.add(line, {name: other for name, other in self.structs.items() if other is not struct})
            line.end()
        except Bad as bad:
            raise Bad('struct %s: %s' % (struct.name, bad))

    def words(self):
        if len(self.resources) > 128 or len(self.entries) > 16:
            raise Bad('a pack has at most 128 resources and 16 entry points')
        words = [word(2, len(self.resources) << 16 | len(self.entries))] + [word(3, x) for x in self.limits]
        words += [w for r in self.resources for w in r] + [w for e in self.entries for w in e.words()]
        if len(words) + 2 > 4096:
            raise Bad('a pack has at most 4096 words, and this one %d' % (len(words) + 2))
        words.insert(0, word(1, 1 << 16 | len(words) + 2))
        return words + [sum(words) % (1 << 32)]


def build(text):
    return Description(text).words()


def types(text, name):
    """The words of the type list that has all structs, and the number of the one that is named."""
    structs = Description(text).structs
    struct = struct_named(name, structs)
    type_list = TypeList(structs.values())
    return type_list.words(), type_list.numbers[struct]


def varyings(text, name):
    """The varyings of a struct, each in the form of a description."""
    struct = struct_named(name, Description(text).structs)
    return text_of(varying_fields(Reader(words + [0])) for words in struct.varyings)


# ---- from words to a description

class Reader:
    def __init__(self, words):
        self.words, self.at = words, 0

    def raw(self):
        if self.at + 1 >= len(self.words):
            raise Bad('the words end in the middle of a record')
        self.at += 1
        return self.words[self.at - 1]

    def take(self, kind):
        w = self.raw()
        if w >> 27 != kind:
            raise Bad('word %d is of kind %d, not %d' % (self.at - 1, w >> 27, kind))
        return w % CONTENT

    def name(self, names, at):
        if at >= len(names):
            raise Bad('word %d has no such code: %d' % (self.at - 1, at))
        return names[at]


def resource_line(reader):
    place, w = reader.take(4), reader.take(16)
    sort = reader.name(SORTS, w >> 23)
    line = ['resource', bits(place, 26, 23), bits(place, 22, 0), sort]
    if sort == 'buffer':
        space = reader.name(SPACES, bits(w, 4, 3))
        line += [space] + ([access_text(bits(w, 2, 0))] if space == 'storage' else []) + [reader.take(6)]
    elif sort == 'sampler':
        line += ['comparison'] * (w & 1)
    elif sort == 'acceleration':
        line += ['vertex-return'] * (w & 1)
    else:
        line.append(DIMENSIONS[bits(w, 1, 0)])
        if sort == 'sampled':
            line.append(reader.name(SAMPLES, bits(w, 5, 4)))
        if sort == 'storage':
            line += [access_text(bits(w, 18, 16)), 'format', bits(w, 14, 8)]
        line += ['arrayed'] * bits(w, 2, 2) + ['multisampled'] * bits(w, 3, 3)
    return line


def varying_fields(reader):
    w = reader.raw()
    if w >> 27 == 14:
        return [reader.name(BUILT_INS, bits(w, 26, 24)), bits(w, 7, 0)]
    reader.at -= 1
    location, w = reader.take(12), reader.take(13)
    fields = ['location', location, type_text(w)]
    for option, value in (('interpolation', bits(w, 14, 12)), ('sampling', bits(w, 17, 15))):
        fields += [option, value] if value else []
    return fields + ['per-primitive'] * bits(w, 18, 18)


def entry_lines(reader):
    head = reader.take(7)
    count = bits(head, 22, 16)
    name = b''.join(reader.raw().to_bytes(4, 'little') for _ in range((count + 3) // 4))
    lines = [[], ['entry', reader.name(STAGES, bits(head, 26, 24)), name_text(name[:count])] + ['dual-source'] * (head & 1)]
    workgroup = [reader.take(8) for _ in range(3)]
    if any(workgroup):
        lines.append(['  workgroup'] + workgroup)
    payload = reader.take(9)
    if payload >> 26:
        lines.append(['  payload', bits(payload, 25, 0)])
    if head & 2:
        lines.append(['  mesh', reader.take(10), reader.take(10), reader.name(TOPOLOGIES, reader.take(10))])
    counts = reader.take(15)
    resources = [reader.take(5) for _ in range(bits(counts, 23, 18))]
    if resources:
        lines.append(['  uses'] + resources)
    for pair in [reader.take(5) for _ in range(bits(counts, 17, 12))]:
        lines.append(['  pair', pair >> 8, pair & 255])
    lines += [['  input'] + varying_fields(reader) for _ in range(bits(counts, 11, 6))]
    return lines + [['  output'] + varying_fields(reader) for _ in range(bits(counts, 5, 0))]


def text_of(lines):
    return ''.join(' '.join(str(field) for field in line) + '\n' for line in lines)


def description(words):
    reader = Reader(words)
    reader.take(1)
    totals = reader.take(2)
    lines = [['limit', limit, reader.take(3)] for limit in LIMITS] + [[]]
    lines += [resource_line(reader) for _ in range(totals >> 16)]
    lines += [line for _ in range(totals & 65535) for line in entry_lines(reader)]
    text = text_of(lines)
    if build(text) != words:
        raise Bad('a bit is set that has no meaning, or words are left over')
    return text


def show(data):
    if len(data) % 4:
        raise Bad('damaged: %d bytes are no whole number of words' % len(data))
    words = [int.from_bytes(data[i:i + 4], 'little') for i in range(0, len(data), 4)]
    if not 16 <= len(words) <= 4096:
        raise Bad('damaged: a pack has 16 to 4096 words, and this one %d' % len(words))
    if words[0] & 65535 != len(words):
        raise Bad('damaged: it says that it has %d words, and has %d' % (words[0] & 65535, len(words)))
    if sum(words[:-1]) % (1 << 32) != words[-1]:
        raise Bad('damaged: its words sum to %08x, and its closing word is %08x' % (sum(words[:-1]) % (1 << 32), words[-1]))
    try:
        return description(words)
    except Bad as bad:
        raise Bad('malformed: %s' % bad)


def stored(words):
    return b''.join(w.to_bytes(4, 'little') for w in words)


def read_text(path):
    with open(path, encoding='utf-8') as file:
        return file.read()


def run(command, path, *names):
    """What a command writes, in bytes, and what it tells beside that."""
    if command == 'show':
        with open(path, 'rb') as file:
            return show(file.read()).encode(), ''
    if command == 'varyings':
        return varyings(read_text(path), *names).encode(), ''
    if command == 'types':
        words, asked = types(read_text(path), *names)
        return stored(words), '%s is type %d\n' % (names[0], asked)
    return stored(build(read_text(path))), ''


def main():
    if len(sys.argv) != {'build': 3, 'show': 3, 'varyings': 4, 'types': 4}.get(''.join(sys.argv[1:2])):
        sys.exit(__doc__)
    path = sys.argv[2]
    try:
        data, told = run(*sys.argv[1:])
    except (Bad, UnicodeDecodeError) as bad:
        sys.exit('%s: %s' % (path, bad))
    except OSError as error:
        sys.exit('%s: %s' % (path, error.strerror))
    sys.stdout.buffer.write(data)
    sys.stderr.write(told)


if __name__ == '__main__':
    main()
