#!/usr/bin/env python3
"""A model of the three lists, written from document 01's text as docs/DECISIONS.md reads it, and cases for the program test_lists: lists well
formed and damaged, and what is done to them. Writes the program's input and what it must print. Of the program it knows the form of its input and
of its lines, and when it prints `-` because it does not ask: for a list that is none, an argument out of range, or no room for another variable.

    tools/lists_expected.py            from the repository's root: writes crates/test_lists/stdin and stdout
    tools/lists_expected.py layout N   writes to standard output one case: the tests of a layout list of N entries, N at most 255
    tools/lists_expected.py damaged N  the same with the last entry damaged, or the head where there is none
    tools/lists_expected.py sizes N    the same as layout for a size list, N at most 511
    tools/lists_expected.py shared N   the same as sizes with places that all share one mark"""
import random, struct, sys

R = random.Random(20)
NEAR = random.Random(21)  # positions to try first: no answer depends on them
TESTS, LOOK_LAYOUT, JOIN, PUSH, RECORD, LOOK_STAGE, BEGIN, INSERT = range(8)
MOST = 1024
kind = lambda w: w >> 27
content = lambda w: w & 0x7ffffff
of = lambda k, c: k << 27 | c
field = lambda w, high, low: w >> low & (1 << high - low + 1) - 1
place_word = lambda group, binding: of(4, group << 23 | binding)


# ---- when words are a list; None where they are not

def type_good(w):
    """'Types 26–23 as above, without 3', with the bits that are not named zero"""
    code, c = field(w, 26, 23), field(w, 22, 0)
    if code == 0:
        return c < 8 and (c & 1 == 1 or c & 2 == 0)
    if code == 1:
        return c < 3
    if code == 2:
        return c < 128 and field(c, 2, 0) < 6 and field(c, 6, 4) < 5
    if code == 4:
        return c < 1 << 18 and field(c, 15, 15) == 0 and field(c, 7, 3) == 0 and field(c, 2, 0) < 6 and field(c, 14, 8) <= 76
    if code == 5:
        return c == 0
    return code == 6 and c < 2


def entry_good(place, ty, least, seen):
    return (kind(place) == 4 and kind(ty) == 18 and type_good(ty) and kind(least) == 6 and (field(ty, 26, 23) == 0 or content(least) == 0)
            and kind(seen) == 19 and content(seen) < 32)


def records(ws, at, width, n):
    return [ws[at + width * i:at + width * (i + 1)] for i in range(n)], ws[at + width * n:]


def layout(ws):
    if not ws or len(ws) > MOST or kind(ws[0]) != 17:
        return None
    groups, n = field(ws[0], 26, 16), field(ws[0], 15, 0)
    if groups > 8 or len(ws) < 1 + 4 * n:
        return None
    entries, room = records(ws, 1, 4, n)
    good = all(entry_good(*e) and field(e[0], 26, 23) < groups for e in entries) and len({e[0] for e in entries}) == n
    return (groups, entries, room) if good else None


def sizes(ws):
    if not ws or len(ws) > MOST or kind(ws[0]) != 20 or content(ws[0]) > 0xffff or len(ws) < 1 + 2 * content(ws[0]):
        return None
    sized, room = records(ws, 1, 2, content(ws[0]))
    good = all(kind(p) == 4 and kind(s) == 6 and content(s) >= 1 for p, s in sized) and len({p for p, s in sized}) == len(sized)
    return (sized, room) if good else None


def payload_good(w):
    return kind(w) == 9 and (field(w, 26, 26) == 1 or field(w, 25, 0) == 0)


def var_good(w):
    return (kind(w) == 13 and field(w, 3, 0) < 13 and field(w, 9, 6) in (1, 2, 4, 8) and field(w, 11, 10) == 0 and field(w, 14, 12) < 5
            and field(w, 17, 15) < 6 and field(w, 26, 19) == 0)


def stage(ws, most=MOST):
    if len(ws) < 2 or most and len(ws) > most or kind(ws[0]) != 11 or field(ws[0], 26, 25) == 3 or field(ws[0], 24, 16) or not payload_good(ws[1]):
        return None
    n = field(ws[0], 15, 0)
    if n > 63 or len(ws) < 2 + 2 * n:
        return None
    variables, room = records(ws, 2, 2, n)
    good = all(kind(l) == 12 and var_good(v) for l, v in variables) and all(a[0] < b[0] for a, b in zip(variables, variables[1:]))
    return (field(ws[0], 26, 25), ws[1], variables, room) if good else None


def layout_words(groups, entries, room):
    return [of(17, groups << 16 | len(entries))] + sum(map(list, entries), []) + room


def sizes_words(pairs, room):
    return [of(20, len(pairs))] + sum(map(list, pairs), []) + room


def stage_words(code, payload, variables, room):
    return [of(11, code << 25 | len(variables)), payload] + sum(map(list, variables), []) + room


# ---- what is answered, and the list behind it

NOTHING = ['-']


def tests(ws, *_):
    return [int(read(ws) is not None) for read in (layout, sizes, stage)], ws


def look_layout(ws, place, index, *_):
    if layout(ws) is None:
        return NOTHING, ws
    groups, entries, _ = layout(ws)
    at = [i for i, e in enumerate(entries) if content(e[0]) == content(place)]
    shown = NOTHING
    if index < len(entries):
        p, ty, least, seen = entries[index]
        shown = [field(p, 26, 23), field(p, 22, 0), content(ty), content(least)] + [field(seen, s, s) for s in range(5)]
    return [groups] + (at or NOTHING) + shown, ws


def join(ws, place, s, *_):
    if layout(ws) is None or s > 4:
        return NOTHING, ws
    groups, entries, room = layout(ws)
    for i, e in enumerate(entries):
        if content(e[0]) == content(place):
            e[3] |= 1 << s
            return [i], layout_words(groups, entries, room)
    return NOTHING, ws


def push(ws, *e):
    if layout(ws) is None or not entry_good(*e):
        return NOTHING, ws
    groups, entries, room = layout(ws)
    if field(e[0], 26, 23) >= groups or any(x[0] == e[0] for x in entries):
        return NOTHING, ws
    if len(room) < 4:
        return [0], ws
    return [1], layout_words(groups, entries + [e], room[4:])


def record(ws, place, size, *_):
    if sizes(ws) is None or not 1 <= size < 1 << 27:
        return NOTHING, ws
    pairs, room = sizes(ws)
    for p in pairs:
        if content(p[0]) == content(place):
            p[1] = of(6, max(content(p[1]), size))
            return [1], sizes_words(pairs, room)
    if len(room) < 2:
        return [0], ws
    return [1], sizes_words(pairs + [[of(4, content(place)), of(6, size)]], room[2:])


def look_stage(ws, location, *_):
    if stage(ws) is None:
        return NOTHING, ws
    code, payload, variables, _ = stage(ws)
    there = [[of(13, field(v, 9, 0)), field(v, 14, 12), field(v, 17, 15), field(v, 18, 18)] for l, v in variables if content(l) == location]
    return [['-', 0, 1][code], field(payload, 25, 0) if field(payload, 26, 26) else '-'] + (there[0] if there else NOTHING), ws


def begin(ws, code, payload, *_):
    if len(ws) < 2 or not payload_good(payload):
        return NOTHING, ws
    return [1], [of(11, min(code, 2) << 25), payload] + ws[2:]


def insert(ws, location, var, *_):
    if stage(ws, None) is None or location >= 1 << 27 or not var_good(var):
        return NOTHING, ws
    code, payload, variables, room = stage(ws, None)
    if len(variables) >= 63 or len(room) < 2:
        return NOTHING, ws
    there = {content(l): v for l, v in variables}
    room = room if location in there else room[2:]
    there[location] = var
    return [1], stage_words(code, payload, [[of(12, l), there[l]] for l in sorted(there)], room)


ANSWERS = [tests, look_layout, join, push, record, look_stage, begin, insert]


# ---- words at random

def some_type():
    code = R.choice([0, 0, 0, 1, 2, 4, 5, 6])
    texture = R.randrange(6) | R.randrange(2) << 3 | R.randrange(5) << 4
    storage = R.randrange(6) | R.randrange(77) << 8 | R.randrange(4) << 16
    return of(18, code << 23 | [R.choice([0, 1, 3, 4, 5, 7]), R.randrange(3), texture, 0, storage, 0, R.randrange(2)][code])


def some_entry(groups):
    ty = some_type()
    least = R.choice([0, 1, 64, 0x7ffffff]) if field(ty, 26, 23) == 0 else 0
    return [place_word(R.randrange(groups), R.choice([0, 1, 2, 3, 0x7fffff])), ty, of(6, least), of(19, R.randrange(32))]


def some_words(n):
    return [R.getrandbits(32) for _ in range(n)]


def some_layout(most=5):
    groups = R.choice([0, 1, 2, 8])
    entries = [some_entry(groups) for _ in range(R.randrange(most + 1))] if groups else []
    return layout_words(groups, list({e[0]: e for e in entries}.values()), some_words(R.choice([0, 3, 4, 9])))


def some_sizes():
    pairs = [[place_word(p % 4, p), of(6, R.choice([1, 16, 64, 0x7ffffff]))] for p in R.sample(range(8), R.randrange(5))]
    return sizes_words(pairs, some_words(R.choice([0, 1, 2, 5])))


def some_var():
    return of(13, R.randrange(13) | R.randrange(4) << 4 | R.choice([1, 2, 4, 8]) << 6 | R.randrange(5) << 12 | R.randrange(6) << 15 | R.randrange(2) << 18)


def some_payload():
    return of(9, R.choice([0, 1 << 26, 1 << 26 | 5, 1 << 26 | 0x3ffffff]))


LOCATIONS = [0, 1, 2, 3, 5, 8, 0x7ffffff]


def some_stage():
    variables = [[of(12, l), some_var()] for l in sorted(R.sample(LOCATIONS, R.randrange(6)))]
    return stage_words(R.randrange(3), some_payload(), variables, some_words(R.choice([0, 1, 2, 4, 7])))


def flip(w):
    return w ^ 1 << R.randrange(32)


def damaged(ws):
    """a bit, the end cut off, the count, or a word in place of another"""
    ws = list(ws)
    n = R.randrange(5)
    if n == 0:
        return ws[:R.randrange(len(ws))]
    if n == 1:
        ws[0] += R.choice([1, 2])
    elif n == 2:
        ws[R.randrange(len(ws))] = R.choice(ws)
    else:
        i = R.randrange(len(ws))
        ws[i] = flip(ws[i])
    return ws


def some_arguments(asked, ws):
    places = [w for w in ws if kind(w) == 4]
    place = R.choice(places) if places and R.random() < .8 else place_word(R.randrange(9), R.randrange(4))
    if asked == LOOK_LAYOUT:
        return place, R.randrange(6)
    if asked == JOIN:
        return place, R.randrange(6)
    if asked == PUSH:
        e = some_entry(8 if R.random() < .2 or not ws else max(1, min(field(ws[0], 26, 16), 8)))
        if R.random() < .2:
            i = R.randrange(4)
            e[i] = flip(e[i])
        return e
    if asked == RECORD:
        return place, R.choice([0, 1, 2, 63, 65, 0x7ffffff, 0x8000000])
    if asked == LOOK_STAGE:
        return [R.choice(LOCATIONS + [4])]
    if asked == BEGIN:
        return R.randrange(4), R.choice([some_payload(), some_payload(), of(9, 1), of(8, 0)])
    if asked == INSERT:
        return R.choice(LOCATIONS + [4, 0x8000000]), some_var() if R.random() < .8 else flip(some_var())
    return []


# ---- cases

cases, lines = [], []


def case(asked, ws, *arguments):
    arguments = (list(arguments) + [0] * 4)[:4]
    if asked in (RECORD, LOOK_STAGE):
        arguments[2 if asked == RECORD else 1] = NEAR.randrange(6)
    cases.append(struct.pack('<%dI' % (6 + len(ws)), asked, *arguments, len(ws), *ws))
    answer, after = ANSWERS[asked](list(ws), *arguments)
    changed = ['%d:%08x' % (i, w) for i, w in enumerate(after) if w != ws[i]]
    lines.append(''.join('%s ' % x for x in answer + changed) + '\n')
    return after


def bits(ws):
    """the list, and each bit of each word flipped"""
    case(TESTS, ws)
    for i in range(len(ws)):
        for b in range(32):
            case(TESTS, ws[:i] + [ws[i] ^ 1 << b] + ws[i + 1:])


def edges():
    """each value of a field, and those past its last"""
    one = lambda groups, group, ty: case(TESTS, layout_words(groups, [[place_word(group, 0), of(18, ty), of(6, 0), of(19, 0)]], []))
    for n in range(11):
        one(n, 0, 0)
        one(8, n, 0)
    for code in range(16):
        one(1, 0, code << 23)
    for c in range(9):
        one(1, 0, c)
        one(1, 0, 1 << 23 | c)
        one(1, 0, 2 << 23 | c)
        one(1, 0, 4 << 23 | c)
        one(1, 0, 2 << 23 | c << 4)
    for code in 0, 28, 31, 42, 43, 75, 76, 77, 78, 127:
        one(1, 0, 4 << 23 | code << 8)
    for code in range(4):
        one(1, 0, 4 << 23 | code << 16)
        case(TESTS, stage_words(code, of(9, 0), [], []))
    for low, most in (0, 16), (4, 4), (6, 16), (10, 4), (12, 8), (15, 8), (18, 4):
        for n in range(most):
            width = 0 if low == 6 else 4 << 6
            case(TESTS, stage_words(0, of(9, 0), [[of(12, 0), of(13, width | n << low)]], []))


def entry(i):
    return [place_word(i % 8, i), of(18, 0), of(6, 0), of(19, 1)]


def many_entries(n):
    return [entry(i) for i in range(n)]


def many_pairs(n):
    return [[place_word(i % 16, i), of(6, 1 + i)] for i in range(n)]


def many_variables(n):
    return [[of(12, 3 * i), of(13, 0x123)] for i in range(n)]


def long_lists():
    """as many records as a list can hold, one too many, two alike far apart, and a word too many"""
    full = many_entries(255)
    alike = full[:254] + [full[0]]
    for ws in (layout_words(8, full, [0] * 3), layout_words(8, alike, []), layout_words(7, full, []), layout_words(8, full[:9], [0] * 988)):
        case(TESTS, ws)
    case(LOOK_LAYOUT, layout_words(8, full, []), full[254][0], 254)
    case(JOIN, layout_words(8, full, []), full[254][0], 4)
    case(PUSH, layout_words(8, full[:254], [7] * 7), *full[254])
    case(PUSH, layout_words(8, full, [7] * 3), *entry(255))
    most = many_pairs(511)
    for ws in (sizes_words(most, [0]), sizes_words(most[:510] + [[most[0][0], of(6, 9)]], []), sizes_words(most[:3], [0] * 1018)):
        case(TESTS, ws)
    case(RECORD, sizes_words(most, [9]), most[510][0], 600)
    case(RECORD, sizes_words(most, [9]), place_word(3, 900), 1)
    for n, room in (63, 0), (64, 0), (63, 896), (63, 897):
        case(TESTS, stage_words(0, of(9, 0), many_variables(n), [0] * room))
    for n, room in (62, 2), (62, 1), (63, 9), (9, 1005):
        case(INSERT, stage_words(0, of(9, 0), many_variables(n), [5] * room), 1, some_var())


def steps(asked, ws, n):
    for _ in range(n):
        ws = case(asked, ws, *some_arguments(asked, ws))


def all_cases():
    for ty, least in (0, 64), (7, 0), (1 << 23 | 2, 0), (2 << 23 | 0x1d, 0), (4 << 23 | 0x20a01, 0), (5 << 23, 0), (6 << 23 | 1, 0):
        bits(layout_words(3, [[place_word(2, 5), of(18, ty), of(6, least), of(19, 9)]], [of(4, 0)]))
    bits(sizes_words([[place_word(1, 2), of(6, 16)], [place_word(1, 3), of(6, 1)]], [0]))
    bits(stage_words(1, of(9, 1 << 26 | 16), [[of(12, 1), of(13, 0x123)], [of(12, 3), of(13, 0x29117)]], []))
    edges()
    case(TESTS, [])
    for some in some_layout, some_sizes, some_stage:
        for _ in range(40):
            case(TESTS, some())
            case(TESTS, damaged(some()))
    makers = [(a, some_layout) for a in (LOOK_LAYOUT, JOIN, PUSH)] + [(RECORD, some_sizes)] + [(a, some_stage) for a in (LOOK_STAGE, BEGIN, INSERT)]
    for asked, some in makers:
        for _ in range(40):
            steps(asked, some(), 2)
            steps(asked, damaged(some()), 1)
    for n in 0, 9, 15, 40:
        steps(PUSH, layout_words(2, [], some_words(n)), 12)
        steps(RECORD, sizes_words([], some_words(n)), 12)
        steps(INSERT, begin(some_words(2 + n), 2, of(9, 0))[1], 16)
    for asked in range(1, 8):
        for n in range(3):
            case(asked, some_words(n))
    long_lists()


def one_case(sort, n):
    if sort in ('sizes', 'shared'):
        pairs = many_pairs(n) if sort == 'sizes' else [[place_word(0, 1024 * i), of(6, 1)] for i in range(n)]
        return case(TESTS, sizes_words(pairs, [0] * (MOST - 1 - 2 * n)))
    ws = layout_words(8, many_entries(n), [0] * (MOST - 1 - 4 * n))
    if sort == 'damaged':
        ws[4 * n] ^= 1 << 31
    case(TESTS, ws)


def whole():
    return struct.pack('<I', len(cases)) + b''.join(cases)


if len(sys.argv) == 3:
    one_case(sys.argv[1], int(sys.argv[2]))
    sys.stdout.buffer.write(whole())
else:
    all_cases()
    open('crates/test_lists/stdin', 'wb').write(whole())
    open('crates/test_lists/stdout', 'w').write(''.join(lines))
