#!/usr/bin/env python3
"""Writes what tests/link and tests/board expect, from the programs gen and model of oracle/ (document 01's steps, no code of the
product): tests/expected/NAME.txt for each samples/NAME.pack, NAME_varyings.txt there for each samples/NAME.types, of which the last
type is asked, and tests/expected/calls.txt, the shortest generated call for each sort of call, number and mode, of accepted ones
also for each stage and for lists that change or not; and the calls of bokwingi_populate that are written out below.

A line of calls.txt is FUNCTION ARGUMENT... = NUMBER DETAIL... LIST... FUNCTION is the name in include/bokwingi.h. Its arguments
stand in the header's order, without lengths and details: lists and bytes as oracle/README.md has them in cases, numbers in hex.
The answer is the number, in decimal, the details in hex, and each list that is lent to be written, whole, as it is after the call.

    tools/link_expected.py
    tools/link_expected.py check        # the stored texts of the samples against the model and the Rust (program oracle), and the
                                        # samples against what tools/pack.py makes of their descriptions"""
import glob
import os
import subprocess
import sys

from pack import CLIP_DISTANCES, Description, TypeList, type_code, word

ROOT = os.path.join(os.path.dirname(os.path.abspath(__file__)), '..')
PROGRAMS = os.path.join(ROOT, 'oracle/target/release')
EXPECTED = os.path.join(ROOT, 'tests/expected')
ROOM = [0xfeedbeef] * 128                       # a list out before it is written

# the C function for each sort of case, and which fields of a case are decimal
FUNCTIONS = {
    'stage': ('bokwingi_check_stage', slice(6, None)),
    'name': ('bokwingi_entry_point', slice(1, None)),
    'vertex': ('bokwingi_vertex_format', slice(0, None)),
    'texture': ('bokwingi_texture_format', slice(0, None)),
    'format': ('bokwingi_check_texture_format', slice(0, 1)),
    'subtype': ('bokwingi_is_subtype_of', slice(0, 0)),
    'populate': ('bokwingi_populate', slice(1, 2)),
}


def run(program, *words, text=''):
    return subprocess.run([os.path.join(PROGRAMS, program), *words], input=text, capture_output=True, text=True, check=True).stdout


def listed(words):
    return ','.join('%x' % w for w in words) or '-'


def entry_points(pack):
    """Stage and name of each entry point of a pack that is well formed."""
    at = 15
    for _ in range(pack[1] >> 16 & 0x7ff):
        at += 3 if pack[at + 1] >> 23 & 15 == 0 else 2
    for _ in range(pack[1] & 0xffff):
        head, size = pack[at], pack[at] >> 16 & 127
        words = pack[at + 1:at + 1 + (size + 3) // 4]
        yield head >> 24 & 7, b''.join(w.to_bytes(4, 'little') for w in words)[:size].hex()
        at += 5 + len(words) + (3 if head & 2 else 0)
        counts = pack[at]
        at += 1 + (counts >> 18 & 63) + (counts >> 12 & 63)
        for _ in range((counts >> 6 & 63) + (counts & 63)):
            at += 2 if pack[at] >> 27 == 12 else 1


def program_text(pack, judge):
    """What document 01's program prints, each stage answered by a program of oracle/."""
    number = run(judge, text='name %s 0\n' % listed(pack)).split()[0]
    if number in ('1', '2'):
        return '9 %s 0 0 0\n' % number
    layout, fed, lines = listed([17 << 27 | 8 << 16] + [0] * 1023), listed([11 << 27, 9 << 27]), []
    for stage, name in entry_points(pack):
        case = 'stage %s %s %s %s %s %s %d 3 1 0 1\n' % (listed(pack), layout, listed([20 << 27]), fed, listed(ROOM), name, stage)
        number, first, second, third, layout, _, out = run(judge, text=case).split()
        lines.append('%d %s %d %d %d\n' % (stage, number, int(first, 16), int(second, 16), int(third, 16)))
        fed = out if number == '0' else fed
    words = [int(w, 16) for w in layout.split(',')]
    return ''.join(lines) + ''.join('%08x\n' % w for w in words[:1 + 4 * (words[0] & 0xffff)])


def c_call(case):
    """A case as calls.txt has it."""
    sort, *fields = case.split()
    function, decimal = FUNCTIONS[sort]
    fields[decimal] = ['%x' % int(field) for field in fields[decimal]]
    return ' '.join([function] + fields)


def sort_of(case, answer):
    """What tells one call from another when one of each is wanted."""
    case, answer = case.split(), answer.split()
    if case[0] != 'stage':
        return case[0], int(answer[0])
    if answer[0] != '0':
        return case[0], int(answer[0]), case[9]
    return case[0], 0, case[9], case[7], answer[4] != case[2], answer[5] != case[3], int(answer[6].split(',')[0], 16) % 2**16 > 0


def chosen_calls():
    """The shortest call of each sort."""
    best = {}
    for sort, words in [('stage', ['--count', '60000', '--seed', '5']), ('name', ['--count', '4000', '--seed', '5']),
                        ('vertex', []), ('texture', []), ('subtype', []), ('format', [])]:
        cases = [line[2:] if line[1] == ' ' else line for line in run('gen', sort, *words).splitlines()]
        for case, answer in zip(cases, run('model', text='\n'.join(cases) + '\n').splitlines()):
            key = sort_of(case, answer)
            if key not in best or len(case) < len(best[key][0]):
                best[key] = case, answer
    return [best[key] for key in sorted(best)]


# ---- calls of populate: type lists and bindings, one fault at a time

F32, U32, VEC4, MAT2X3 = (type_code(text) for text in ('f32', 'u32', 'vec4f32', 'mat2x3f16'))
NONE, CLIP = [word(6, 0)], [CLIP_DISTANCES]


def numeric(code):
    return [word(22, code)]


def array(element, length):
    return [word(23, element), word(6, length)]


def struct(*members):
    return [word(24, len(members))] + [w for of, binding in members for w in [word(5, of)] + binding]


def location(number, how=0):
    return [word(12, number), word(13, how)]


def built_in(code, slots=0):
    return [word(14, code << 24 | slots)]


def type_list(*records):
    return [word(21, len(records))] + [w for record in records for w in record]


def nested(depth, members=1, binding=NONE):
    """A scalar, and structs each of which has the type before it so many times as a member."""
    return type_list(numeric(F32), *[struct(*[(i, binding)] * members) for i in range(depth)])


ACCEPTED = [
    (type_list(numeric(F32)), 0, location(0), 2),
    (type_list(numeric(VEC4)), 0, location(2**27 - 1, 1 << 18 | 5 << 15 | 4 << 12), 4),
    (type_list(numeric(U32), numeric(MAT2X3)), 1, built_in(0, 7), 1),
    (type_list(numeric(F32)), 0, NONE, 0),
    (type_list(numeric(F32), array(0, 255)), 1, CLIP, 1),
    (type_list(numeric(F32), array(0, 4)), 1, location(0), 2),                          # any other array gives nothing
    (type_list(struct()), 0, location(0), 1),
    (type_list(numeric(F32), array(0, 1), struct((0, built_in(0)), (0, built_in(1, 1)), (0, built_in(2)), (0, built_in(3, 255)), (1, CLIP),
                                             (0, location(3)))), 2, NONE, 8),
    (type_list(numeric(F32), struct((0, location(1)), (0, NONE)), numeric(U32), struct((1, location(9)), (2, location(0)), (1, CLIP))), 3, CLIP, 6),
    (type_list(numeric(F32), array(0, 8), struct((1, CLIP), (0, location(5)), (1, CLIP), (0, location(5)))), 2, NONE, 9),
    (type_list(numeric(F32), struct((0, location(0))), array(1, 3), struct((2, location(1)), (0, location(2)))), 3, NONE, 2),
    (nested(8, binding=location(0)), 8, NONE, 2),
    (nested(8, members=9), 8, NONE, 3),                                             # 9 to the power 8 members, and nothing given
    (type_list(numeric(VEC4), struct(*[(0, location(i)) for i in range(63)])), 1, NONE, 126),
    (type_list(*[numeric(F32)] * 256), 255, built_in(3), 2),
    (type_list(numeric(F32), struct((0, location(0)))) + [15] * 1018, 1, NONE, 2),      # 1,024 words, most of them free room
]
BAD_TYPES = [
    ([], 0, NONE, 2),
    (type_list(), 0, NONE, 2),
    ([word(20, 1)] + numeric(F32), 0, NONE, 2),
    ([word(21, 1 << 16 | 1)] + numeric(F32), 0, NONE, 2),
    (type_list(*[numeric(F32)] * 257), 0, NONE, 2),
    (type_list(numeric(F32)) + [15] * 1023, 0, NONE, 2),
    (type_list(numeric(F32), struct((0, location(0))))[:-1], 0, NONE, 2),
    (type_list(numeric(3 << 6)), 0, NONE, 2),
    (type_list(numeric(1 << 12 | F32)), 0, NONE, 2),
    (type_list(numeric(F32), array(1, 4)), 0, NONE, 2),
    (type_list(numeric(F32), array(1 << 16, 4)), 0, NONE, 2),
    (type_list(struct((1, NONE)), numeric(F32)), 1, NONE, 2),
    (type_list(numeric(F32), [word(24, 1 << 16)]), 0, NONE, 2),
    (type_list(numeric(F32), struct((0, [word(6, 1)]))), 0, NONE, 2),
    (type_list(numeric(F32), struct((0, location(0, F32)))), 0, NONE, 2),
    (type_list(numeric(F32), struct((0, location(0, 5 << 12)))), 0, NONE, 2),
    (type_list(numeric(F32), struct((0, built_in(5)))), 0, NONE, 2),
    (type_list(numeric(F32), array(0, 4), struct((1, built_in(4, 4)))), 0, NONE, 2),
    (type_list(numeric(F32)), 1, NONE, 2),
    (type_list(numeric(F32)), 2**32 - 1, NONE, 2),
    (type_list(numeric(F32)), 0, [], 2),
    (type_list(numeric(F32)), 0, NONE * 2, 2),
    (type_list(numeric(F32)), 0, location(0)[:1], 2),
    (type_list(numeric(F32)), 0, CLIP, 2),
    (type_list(numeric(F32), struct((0, CLIP))), 0, NONE, 2),                           # not reached
    (type_list(numeric(U32), array(0, 4), struct((1, CLIP))), 2, NONE, 2),
    (type_list(numeric(F32), array(0, 0), struct((1, CLIP))), 2, NONE, 2),
    (type_list(numeric(F32), array(0, 256), struct((1, CLIP))), 2, NONE, 2),
    (type_list(numeric(F32), array(0, 4), array(1, 4)), 2, CLIP, 2),
    (nested(9), 9, NONE * 2, 2),                                                    # 90 comes before 91
]
REFUSED = [
    (nested(9), 9, NONE, 2),
    (type_list(numeric(F32), *[record for i in range(9) for record in (struct((2 * i, NONE)), array(2 * i + 1, 2))]), 18, NONE, 2),
    (nested(9, members=2, binding=location(0)), 9, NONE, 0),                        # 91 comes before 92
    (type_list(numeric(F32), struct(*[(0, built_in(0))] * 64)), 1, NONE, 64),
    (nested(6, members=2, binding=location(0)), 6, NONE, 0),                        # 92 comes before 4
    (type_list(numeric(F32), struct((0, location(0)), (0, built_in(0)))), 1, NONE, 2),
    (type_list(numeric(F32)), 0, built_in(0), 0),
]


def populate_case(of, asked, binding, room):
    return 'populate %s %d %s %s' % (listed(of), asked, listed(binding), listed(ROOM[:room]))


def populate_calls():
    """The calls written out above, with the model's answers."""
    cases = [populate_case(*call) for call in ACCEPTED + BAD_TYPES + REFUSED]
    return list(zip(cases, run('model', text='\n'.join(cases) + '\n').splitlines()))


def varyings_text(of, judge):
    """What examples/c/populate.c prints of the last type of a list."""
    answer = run(judge, text=populate_case(of, of[0] % 2**16 - 1, NONE, 126) + '\n').split()
    number, count, out = answer[0], int(answer[1], 16), [int(w, 16) for w in answer[4].split(',')]
    size = 0
    for _ in range(count):
        size += 2 if out[size] >> 27 == 12 else 1
    return '%s %d 0 0\n' % (number, count) + ''.join('%08x\n' % w for w in out[:size])


# ---- the samples

def stored(pattern):
    """The path and the words of each sample of this sort."""
    for path in sorted(glob.glob(os.path.join(ROOT, 'samples', pattern))):
        data = open(path, 'rb').read()
        yield path, [int.from_bytes(data[i:i + 4], 'little') for i in range(0, len(data), 4)]


def samples():
    """Each sample's words, what says what is printed of it, and the file that has this."""
    for pattern, printed, ending in [('*.pack', program_text, '.txt'), ('*.types', varyings_text, '_varyings.txt')]:
        for path, words in stored(pattern):
            yield words, printed, os.path.join(EXPECTED, os.path.splitext(os.path.basename(path))[0] + ending)


def made_otherwise():
    """The samples that are not what tools/pack.py makes of their descriptions."""
    for path, words in list(stored('*.pack')) + list(stored('*.types')):
        described, sort = os.path.splitext(path)[0] + '.txt', os.path.splitext(path)[1]
        if not os.path.exists(described):
            continue
        description = Description(open(described).read())
        if words != (description if sort == '.pack' else TypeList(description.structs.values())).words():
            yield path


def check():
    """Whether the stored texts are those of the model and of the Rust, and the samples those of their descriptions."""
    count = differ = 0
    for words, printed, path in samples():
        count += 1
        for judge in 'model', 'oracle':
            if open(path).read() != printed(words, judge):
                print('%s answers otherwise: %s' % (judge, os.path.relpath(path, ROOT)))
                differ += 1
    for path in made_otherwise():
        print('not what tools/pack.py makes of its description: ' + os.path.relpath(path, ROOT))
        differ += 1
    print('%d samples, %d differences' % (count, differ))
    return 1 if differ else 0


def write():
    for words, printed, path in samples():
        with open(path, 'w') as text:
            text.write(printed(words, 'model'))
    with open(os.path.join(EXPECTED, 'calls.txt'), 'w') as text:
        text.writelines('%s = %s\n' % (c_call(case), answer) for case, answer in chosen_calls() + populate_calls())


if __name__ == '__main__':
    if sys.argv[1:] not in ([], ['check']):
        sys.exit(__doc__)
    sys.exit(check() if sys.argv[1:] else write())
