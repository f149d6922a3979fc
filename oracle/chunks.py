"""Compiled Lua 5.1 chunks: words, writing, reading, and the chunks that the runs are made of."""
import itertools
import random
import struct

NAMES = ('MOVE LOADK LOADBOOL LOADNIL GETUPVAL GETGLOBAL GETTABLE SETGLOBAL SETUPVAL SETTABLE NEWTABLE SELF ADD SUB MUL DIV MOD '
         'POW UNM NOT LEN CONCAT JMP EQ LT LE TEST TESTSET CALL TAILCALL RETURN FORLOOP FORPREP TFORLOOP SETLIST CLOSE CLOSURE '
         'VARARG').split()
OPCODE = {name: number for number, name in enumerate(NAMES)}
WITH_BX = ('LOADK', 'GETGLOBAL', 'SETGLOBAL', 'CLOSURE')
WITH_SBX = ('JMP', 'FORLOOP', 'FORPREP')
TESTS = ('EQ', 'LT', 'LE', 'TEST', 'TESTSET', 'TFORLOOP')
HEADER = bytes.fromhex('1b4c75615100010404040800')
MOST_LINE = 999999


# ---- words

def word(name, a=0, b=0, c=0):
    """A word by its opcode's name and operands; with Bx or sBx the second operand is that."""
    if name in WITH_SBX:
        return OPCODE[name] | a << 6 | (b + 131071) << 14
    if name in WITH_BX:
        return OPCODE[name] | a << 6 | b << 14
    return OPCODE[name] | a << 6 | c << 14 | b << 23


def opcode_of(w):
    return w & 63


def name_of(w):
    return NAMES[opcode_of(w)] if opcode_of(w) < len(NAMES) else '?'


def a_of(w):
    return w >> 6 & 255


def b_of(w):
    return w >> 23


def c_of(w):
    return w >> 14 & 511


def bx_of(w):
    return w >> 14


def sbx_of(w):
    return (w >> 14) - 131071


# ---- writing

class Bits(int):
    """A number constant by its 64 bits."""


def constant(value):
    if value is None:
        return b'\0'
    if isinstance(value, bool):
        return bytes([1, value])
    if isinstance(value, Bits):
        return b'\3' + struct.pack('<Q', value)
    if isinstance(value, (int, float)):
        return b'\3' + struct.pack('<d', value)
    return b'\4' + struct.pack('<I', len(value) + 1) + value + b'\0'


def ints(values):
    return struct.pack('<%dI' % (len(values) + 1), len(values), *values)


def function(words, stack=2, parameters=0, upvalues=0, flags=0, constants=(), nested=(), lines=()):
    """The bytes of a function without names; words as numbers or as tuples for `word`."""
    words = [w if isinstance(w, int) else word(*w) for w in words]
    return (struct.pack('<III', 0, 0, 0) + bytes([upvalues, parameters, flags, stack]) + ints(words)
            + struct.pack('<I', len(constants)) + b''.join(map(constant, constants))
            + struct.pack('<I', len(nested)) + b''.join(nested) + ints(lines) + struct.pack('<II', 0, 0))


def chunk(*args, **named):
    return HEADER + function(*args, **named)


# ---- reading

class Function:
    """What a comparison has to know of a function: its words, where they stand, their lines, and its nested functions."""

    def __init__(self, number, at, words):
        self.number, self.at, self.words, self.lines, self.nested = number, at, words, (), []


def functions(data):
    """The functions of a chunk that was accepted, by number."""
    found = []

    def int_at(at):
        return struct.unpack_from('<I', data, at)[0]

    def strings(at, behind):
        for _ in range(int_at(at)):
            at += 4 + int_at(at + 4) + behind
        return at + 4

    def read(at):
        at += 4 + int_at(at) + 12
        count = int_at(at)
        f = Function(len(found), at + 4, struct.unpack_from('<%dI' % count, data, at + 4))
        found.append(f)
        at += 4 + 4 * count
        count, at = int_at(at), at + 4
        for _ in range(count):
            kind = data[at]
            at += {0: 1, 1: 2, 3: 9}[kind] if kind != 4 else 5 + int_at(at + 1)
        count, at = int_at(at), at + 4
        for _ in range(count):
            child, at = read(at)
            f.nested.append(child)
        count = int_at(at)
        f.lines = struct.unpack_from('<%dI' % count, data, at + 4)
        at += 4 + 4 * count
        return f, strings(strings(at, 8), 0)

    read(len(HEADER))
    return found


# ---- house tables

def tables(seed):
    """House tables without end: rotations, of which that by 19 is its own inverse, exchanges of two numbers, and any order."""
    r, own = random.Random('tables %d' % seed), list(range(len(NAMES)))
    while True:
        table, kind = own[:], r.random()
        if kind < .25:
            k = r.randrange(1, len(own))
            table = own[k:] + own[:k]
        elif kind < .35:
            i, j = r.sample(own, 2)
            table[i], table[j] = j, i
        else:
            r.shuffle(table)
        yield table


def table_lines(table):
    return b''.join(b'%7d\n' % number for number in table)


def with_opcodes(data, new):
    """A chunk whose words have new[o] in place of each opcode o to 37. Bytes that are no chunk have no words, and stay."""
    try:
        found = functions(data)
    except (struct.error, IndexError, KeyError):
        return data
    out = bytearray(data)
    for f in found:
        for at in range(f.at, f.at + 4 * len(f.words), 4):
            opcode = out[at] & 63
            if opcode < len(NAMES):
                out[at] = out[at] & 192 | new[opcode]
    return bytes(out)


def renumbered(data, table):
    """A chunk as the house's files have it: for Lua's opcode i the number at position i of the table."""
    return with_opcodes(data, table)


def put_back(data, table):
    """The same chunk in Lua's own numbers: for a number the position at which the table has it."""
    return with_opcodes(data, [table.index(number) for number in range(len(NAMES))])


def opcodes_above():
    """Chunks with each opcode from 38 to 63, at the last word and before it; and the numbers of the refusal of each."""
    R = word('RETURN', 0, 1)
    for opcode in range(len(NAMES), 64):
        yield chunk([opcode, R]), [9, 0, 0]
        yield chunk([R, opcode | 1 << 23]), [8, 0, 1]
        yield chunk([R], nested=[function([R, opcode, R])]), [9, 1, 1]


# ---- generated functions

def random_constant(r):
    kind = r.random()
    if kind < .12:
        return None
    if kind < .27:
        return r.random() < .5
    if kind < .60:
        return r.choice([0.0, -0.0, 1.0, 1.5, float('inf'), float('-inf'), 3.0, 1e300, 5e-324, r.uniform(-9, 9)])
    if kind < .64:
        return Bits(r.choice([0x7ff8000000000000, 0xfff8000000000000, 0x7ff0000000000001, 0x7ff8000000000001]))
    return bytes(r.choice(b'ab\0\xff"\\') for _ in range(r.choice([0, 1, 1, 2, 3])))


def random_lines(words):
    """Lines for three of four functions. They are drawn by the words alone, so that a seed gives the same words with and without."""
    r = random.Random(str(words))
    if r.random() < .25:
        return []
    few = r.random() < .5
    return [r.randrange(1, 9) if few else r.choice([0, 1, MOST_LINE - 1, MOST_LINE, r.randrange(100), r.randrange(MOST_LINE)])
            for _ in words]


class Random:
    """A function of random words that document 01 accepts: pieces of one or more words, between which jumps may lead."""

    KINDS = ('MOVE LOADK LOADBOOL LOADNIL GETUPVAL GETGLOBAL GETTABLE SETGLOBAL SETUPVAL SETTABLE NEWTABLE SELF arithmetic unary '
             'CONCAT JMP JMP compare compare TEST TESTSET CALL open open RETURN FORLOOP FORLOOP FORPREP TFORLOOP TFORLOOP SETLIST '
             'CLOSE CLOSURE VARARG').split()

    def __init__(self, r, depth, budget, most_words, small):
        self.r = r
        sizes = [1, 2, 3, 4, 5, 6, 7, 8, 8, 10, 12]
        self.stack = r.choice(sizes if small else sizes + [20, 250, r.randint(1, 250)])
        self.flags = r.choice([0, 0, 0, 2, 2, 2, 2, 3, 1, 7, 5])
        self.parameters = r.randint(0, min(self.stack - (self.flags & 1), r.choice([0, 1, 3, 255])))
        many = 3 if small else r.choice([60, 255])
        self.upvalues = r.choice([0, 0, 1, 2, 3, 5, many]) if depth else r.choice([0, 0, 1, 2])
        self.nested = []
        while budget[0] > 0 and depth < 4 and r.random() < .45:
            budget[0] -= 1
            self.nested.append(Random(r, depth + 1, budget, most_words, small))
        most = 2 if small or r.random() < .9 else 300
        self.constants = [random_constant(r) for _ in range(r.choice([0, 1, 3, 6, 6, 10, most]))]
        if self.constants and r.random() < .5:
            self.constants.append(r.choice(self.constants))
        self.strings = [i for i, c in enumerate(self.constants) if isinstance(c, bytes)]
        self.words = self.laid_out(self.pieces(r.randint(1, most_words)))
        self.lines = random_lines(self.words)

    # operands

    def register(self, below=None):
        below = below or self.stack
        return self.r.choice([0, below - 1, self.r.randrange(below), self.r.randrange(below)])

    def either(self):
        if self.constants and self.r.random() < .5:
            return 256 + self.r.randrange(min(len(self.constants), 256))
        return self.register()

    def unread(self):
        return self.r.choice([0, 1, 2, 255, 256, 257, 511, self.r.randrange(512)])

    def upvalue(self):
        return self.r.randrange(self.upvalues)

    def list_index(self, usual):
        return self.r.choice([255, 256, 257, 300, 511, self.r.randint(1, 511)]) if self.r.random() < .1 else self.r.choice(usual)

    # pieces

    def user(self, a):
        """Words that use the open results of an opener with this A."""
        r = self.r
        kind = r.choice(['RETURN'] + ['CALL', 'SETLIST'] * 2 * (a > 0))
        if kind == 'RETURN':
            return [word('RETURN', r.choice([a, r.randint(0, a)]), 0, self.unread())]
        x = r.choice([a - 1, r.randint(0, a - 1)])
        if kind == 'SETLIST':
            return [word('SETLIST', x, 0, self.list_index([1, 2, 3, 4]))]
        if r.random() < .25:
            return [word('TAILCALL', x, 0, self.unread()), word('RETURN', x, 0, self.unread())]
        if r.random() < .4:
            return [word('CALL', x, 0, 0)] + self.user(x)
        return [word('CALL', x, 0, r.randint(1, self.stack - x + 1))]

    def piece(self, kind):
        """Words of one kind; a jump is a tuple of its opcode's name and A, its target being chosen later. None where the function
        has not what the kind needs."""
        r, S, R, RK = self.r, self.stack, self.register, self.either
        if kind == 'MOVE':
            return [word(kind, R(), R(), self.unread())]
        if kind == 'LOADK' and self.constants:
            return [word(kind, R(), r.randrange(len(self.constants)))]
        if kind == 'LOADBOOL':
            return [('LOADBOOL', word(kind, R(), r.randint(0, 1), 0))]
        if kind == 'LOADNIL':
            a = R()
            return [word(kind, a, r.randint(a, min(S - 1, a + r.choice([0, 2, 250]))), self.unread())]
        if kind in ('GETUPVAL', 'SETUPVAL') and self.upvalues:
            return [word(kind, R(), self.upvalue(), self.unread())]
        if kind in ('GETGLOBAL', 'SETGLOBAL') and self.strings:
            return [word(kind, R(), r.choice(self.strings))]
        if kind == 'GETTABLE':
            return [word(kind, R(), R(), RK())]
        if kind == 'SETTABLE':
            return [word(kind, R(), RK(), RK())]
        if kind == 'NEWTABLE':
            return [word(kind, R(), self.unread(), self.unread())]
        if kind == 'SELF' and S > 1:
            return [word(kind, R(S - 1), R(), RK())]
        if kind == 'arithmetic':
            return [word(r.choice('ADD SUB MUL DIV MOD POW'.split()), R(), RK(), RK())]
        if kind == 'unary':
            return [word(r.choice('UNM NOT LEN'.split()), R(), R(), self.unread())]
        if kind == 'CONCAT' and S > 1:
            b = r.randrange(S - 1)
            return [word(kind, R(), b, r.choice([b + 1, r.randint(b + 1, S - 1)]))]
        if kind == 'JMP':
            return [('JMP', r.randrange(256))]
        if kind == 'compare':
            return [word(r.choice(['EQ', 'LT', 'LE']), r.randint(0, 1), RK(), RK()), ('JMP', r.randrange(256))]
        if kind == 'TEST':
            return [word(kind, R(), self.unread(), r.randint(0, 1)), ('JMP', 0)]
        if kind == 'TESTSET':
            return [word(kind, R(), R(), r.randint(0, 1)), ('JMP', 0)]
        if kind == 'CALL':
            a = R()
            return [word(kind, a, r.randint(1, S - a), r.choice([1, r.randint(1, S - a + 1)]))]
        if kind == 'open':
            a = R()
            if r.random() < .15:
                return [word('TAILCALL', a, r.randint(1, S - a), self.unread()), word('RETURN', a, 0, self.unread())]
            if r.random() < .5 and self.flags & 6 == 2:
                return [word('VARARG', a, 0, self.unread())] + self.user(a)
            return [word('CALL', a, r.randint(1, S - a), 0)] + self.user(a)
        if kind == 'RETURN':
            a = R()
            return [word(kind, a, r.randint(1, S - a + 1), self.unread())]
        if kind in ('FORLOOP', 'FORPREP') and S > 3:
            return [(kind, R(S - 3))]
        if kind == 'TFORLOOP' and S > 3:
            a = R(S - 3)
            return [word(kind, a, self.unread(), r.randint(1, S - 3 - a)), ('JMP', 0)]
        if kind == 'SETLIST' and S > 1:
            a = R(S - 1)
            return [word(kind, a, r.randint(1, S - 1 - a), self.list_index([1, 1, 2, 255]))]
        if kind == 'CLOSE':
            return [word(kind, R(), self.unread(), self.unread())]
        if kind == 'VARARG' and self.flags & 6 == 2:
            a = R()
            return [word(kind, a, r.randint(1, S - a + 1), self.unread())]
        if kind == 'CLOSURE' and self.nested:
            i = r.randrange(len(self.nested))
            captures = [word('GETUPVAL', R(), self.upvalue(), self.unread()) if self.upvalues and r.random() < .4
                        else word('MOVE', R(), R(), self.unread()) for _ in range(self.nested[i].upvalues)]
            return [word(kind, R(), i)] + captures
        return None

    def pieces(self, want):
        pieces, total = [], 0
        while total < want:
            kind = self.r.choice(self.KINDS)
            piece = self.piece(kind)
            if piece is None or len(piece) > 4 and total + len(piece) > want + 3:
                continue
            pieces.append((kind, piece))
            total += len(piece)
        pieces.append(('RETURN', [word('RETURN', self.register(), 1)]))
        return pieces

    def laid_out(self, pieces):
        """The words of the pieces, jumps with targets: starts of pieces, and the JMP behind a test other than TESTSET."""
        r, flat, starts = self.r, [], []
        for kind, piece in pieces:
            starts.append(len(flat))
            if kind in ('compare', 'TEST', 'TFORLOOP'):
                starts.append(len(flat) + 1)
            flat += piece
        allowed, words = set(starts), []
        for i, w in enumerate(flat):
            if isinstance(w, tuple) and w[0] == 'LOADBOOL':
                w = w[1]
                if i + 1 in allowed and i + 2 in allowed and r.random() < .5:
                    w |= 1 << 14
            elif isinstance(w, tuple):
                near = [t for t in range(i - 1, i + 4) if t in allowed]
                target = r.choice(near) if near and r.random() < .35 else r.choice(starts)
                w = word(w[0], w[1], target - i - 1)
            words.append(w)
        return words

    def bytes(self):
        return function(self.words, self.stack, self.parameters, self.upvalues, self.flags, self.constants,
                        [f.bytes() for f in self.nested], self.lines)


def random_chunk(seed, small=False):
    r = random.Random(seed)
    budget = [r.choice([0, 0, 1, 3] if small else [0, 0, 1, 3, 8])]
    most = r.choice([2, 4, 8, 8, 12] if small else [2, 4, 8, 8, 16, 40, 120])
    return HEADER + Random(r, 0, budget, most, small).bytes()


def at_the_edges(stacks=(250, 5, 1)):
    """Every opcode with operands at the edges of what stands, between the words that it needs to stand. Many are refused."""
    nested = [function([('RETURN', 0, 1)]), function([('RETURN', 0, 1)], upvalues=255)]
    constants = [None, True, 1.0, b's', b's']
    for S in stacks:
        As = sorted({x for x in (0, S - 4, S - 3, S - 2, S - 1) if 0 <= x < S})
        Bs = sorted({x for x in (0, 1, 2, S - 3, S - 2, S - 1, S, S + 1, 256, 259, 260, 511) if 0 <= x < 512})
        for name, a in itertools.product(NAMES, As):
            if name in WITH_BX:
                shapes = [[word(name, a, bx)] for bx in range(5)]
                if name == 'CLOSURE':
                    captures = [word('MOVE', 0, x % S) if x % 2 else word('GETUPVAL', 0, x) for x in range(255)]
                    shapes.append([word(name, a, 1)] + captures)
            elif name in WITH_SBX:
                shapes = [[word(name, a, s)] for s in (-2, -1, 0, 1)]
            else:
                shapes = [[word(name, a, b, c)] for b in Bs for c in Bs]
            for words in shapes:
                b, c = b_of(words[0]), c_of(words[0])
                before, behind = [], []
                if name in TESTS:
                    behind = [word('JMP', 0, 0)]
                if name in ('CALL', 'TAILCALL', 'SETLIST', 'RETURN') and b == 0:
                    before = [word('VARARG', S - 1, 0)]
                if name == 'TAILCALL' or name == 'CALL' and c == 0 or name == 'VARARG' and b == 0:
                    behind = [word('RETURN', a, 0)]
                if name == 'LOADBOOL' and c:
                    behind = [word('RETURN', 0, 1)]
                yield chunk(before + words + behind + [word('RETURN', 0, 1)], stack=S, flags=2, upvalues=255, constants=constants,
                            nested=nested if name == 'CLOSURE' else [])


def lines_at_the_edges():
    """Chunks with word lines at the highest that stands and above it, beside other refusals too; and the numbers of the refusal of
    each, or None."""
    R, most = ('RETURN', 0, 1), MOST_LINE
    open_call, testset = ('CALL', 0, 1, 0), [('TESTSET', 0, 1, 0), ('JMP', 0, -1)]
    child = function([R], upvalues=1)
    yield chunk([R], lines=[most]), None
    yield chunk([R], lines=[0]), None
    for line in (most + 1, most + 2, 1 << 20, 1 << 24, (1 << 31) - 1, 1 << 31, (1 << 32) - 1):
        yield chunk([R], lines=[line]), [15, 0, 0]
        yield chunk([('MOVE', 0, 1)] * 3 + [R], lines=[most, 1, line, most]), [15, 0, 2]
    yield chunk([('MOVE', 0, 1)] * 3 + [R], lines=[1, most + 1, 1, most + 1]), [15, 0, 1]
    yield chunk([R, ('MOVE', 0, 1), R], lines=[1, most + 1, 1]), [15, 0, 1]                         # a word that nothing leads to
    yield chunk([('CLOSURE', 0, 0), ('MOVE', 0, 0), R], lines=[1, most + 1, 1], nested=[child]), [15, 0, 1]     # a capture
    yield chunk([('CLOSURE', 0, 0), ('MOVE', 0, 0), R], lines=[5, most, 5], nested=[child]), None
    # of one function: 7 to 14 before 15, whatever the words
    high = [most + 1, 1, 1]
    yield chunk([R], lines=high), [7, 0, 0]
    yield chunk([R, R, ('MOVE', 0, 1)], lines=high), [8, 0, 2]
    yield chunk([R, ('MOVE', 2, 0), R], lines=high), [9, 0, 1]
    yield chunk([R, ('JMP', 0, 1), R], lines=high), [10, 0, 1]
    yield chunk([R, ('EQ', 0, 0, 0), R, R], lines=high + [1]), [11, 0, 1]
    yield chunk([R, open_call, R], lines=high), [12, 0, 1]
    yield chunk([R, ('CLOSURE', 0, 0), R], lines=high, nested=[child]), [13, 0, 1]
    yield chunk([R] + testset + [R], lines=high + [1]), [14, 0, 1]
    # of two functions: the first wholly before the second
    for words, rest, refusal in (([R], dict(stack=251), [7, 0]), ([], {}, [8, 0]), ([('MOVE', 0, 1)], {}, [8, 0]),
                                 ([('MOVE', 2, 0), R], {}, [9, 0]), ([('JMP', 0, 1), R], {}, [10, 0]),
                                 ([('EQ', 0, 0, 0), R, R], {}, [11, 0]), ([open_call, R], {}, [12, 0]),
                                 ([('CLOSURE', 0, 0), R], dict(nested=[child]), [13, 0]), (testset + [R], {}, [14, 0])):
        yield chunk([R], lines=[most + 1], nested=[function(words, **rest)]), [15, 0, 0]
        inner = function([R], lines=[most + 1])
        nested = rest.pop('nested', []) + [inner]
        yield chunk(words, nested=nested, **rest), [refusal[0], 0, refusal[1]]
    # lines in one of two functions, in both, and in the second of three
    for first, second, refusal in (([1], [], None), ([], [most], None), ([], [most + 1], [15, 1, 0]), ([most + 1], [1], [15, 0, 0]),
                                   ([1], [most + 1], [15, 1, 0]), ([most + 1], [most + 1], [15, 0, 0])):
        yield chunk([R], lines=first, nested=[function([R], lines=second)]), refusal
    yield chunk([R], nested=[function([R], lines=[most + 1]), function([R], lines=[most + 1])]), [15, 1, 0]
    yield chunk([R], lines=[most + 1]) + b'\0', [6, 0, len(chunk([R], lines=[1]))]


def short_runs(length):
    """Every run of so many words out of 46, then RETURN 0 1. Many are refused."""
    shapes = [word('MOVE', 0, 1), word('LOADK', 0, 1), word('LOADBOOL', 0, 1, 0), word('LOADBOOL', 0, 0, 1), word('LOADNIL', 0, 1),
              word('GETUPVAL', 1, 0), word('GETGLOBAL', 0, 0), word('EQ', 0, 0, 257), word('LT', 1, 0, 1), word('TEST', 0, 0, 0),
              word('TESTSET', 0, 1, 1), word('CALL', 0, 1, 1), word('CALL', 1, 2, 0), word('CALL', 0, 0, 0), word('CALL', 0, 0, 2),
              word('TAILCALL', 0, 1), word('TAILCALL', 0, 0), word('RETURN', 0, 0), word('RETURN', 0, 2), word('TFORLOOP', 0, 0, 1),
              word('SETLIST', 0, 1, 1), word('SETLIST', 0, 0, 2), word('CLOSURE', 0, 0), word('VARARG', 1, 0), word('VARARG', 0, 1),
              word('CLOSE', 1)]
    shapes += [word('JMP', 0, s) for s in range(-3, 4)]
    shapes += [word('FORLOOP', 0, s) for s in range(-3, 4)]
    shapes += [word('FORPREP', 0, s) for s in range(-3, 3)]
    nested = [function([('RETURN', 0, 1)], upvalues=1)]
    for words in itertools.product(shapes, repeat=length):
        yield chunk(list(words) + [word('RETURN', 0, 1)], stack=4, flags=2, upvalues=1, constants=[b's', None, True], nested=nested)


def changed(data, r):
    """An accepted chunk with some words changed. Many are refused."""
    out = bytearray(data)
    places = [f.at + 4 * i for f in functions(data) for i in range(len(f.words))]
    for _ in range(r.choice([1, 1, 2, 4])):
        at = r.choice(places)
        w = struct.unpack_from('<I', out, at)[0]
        how = r.random()
        if how < .25:
            w = w & ~63 | r.randrange(38)
        elif how < .5:
            w ^= 1 << r.randrange(32)
        elif how < .75:
            w = struct.unpack_from('<I', out, r.choice(places))[0]
        elif name_of(w) in WITH_SBX:
            w = w & 0x3fff | (r.randint(-3, 3) + 131071) << 14
        else:
            w = w & 0x7fffff | r.randrange(512) << 23
        struct.pack_into('<I', out, at, w & 0xffffffff)
    return bytes(out)
