#!/usr/bin/env python3
"""Chunks to measure with.

    python3 chunks.py DIRECTORY [WIDTH]

writes NAME.luac, with 4-byte string sizes, and NAME.wide.luac, the same chunk with string sizes of
WIDTH bytes (4 or 8, default 8), for a luac that expects those.

    mix-N       one function of N words: assignments, arithmetic, tests, calls, a numeric loop
    captures-N  one function of N words, nearly all of them captures of closures: 14 bytes of
                the listing each, and no kind of word takes less on average
    parts-N     N functions of 768 words, as in mix-768, in a main function
    many-256    256 functions, main included
    deep-32     functions nested 32 deep
    full        one function whose listing has 65,536 bytes
    NAME-lines  the same as NAME, with a source line for each word; the others have none
"""
import os
import struct
import sys

(MOVE, LOADK, LOADBOOL, LOADNIL, GETUPVAL, GETGLOBAL, GETTABLE, SETGLOBAL, SETUPVAL, SETTABLE, NEWTABLE, SELF, ADD, SUB,
 MUL, DIV, MOD, POW, UNM, NOT, LEN, CONCAT, JMP, EQ, LT, LE, TEST, TESTSET, CALL, TAILCALL, RETURN, FORLOOP, FORPREP,
 TFORLOOP, SETLIST, CLOSE, CLOSURE, VARARG) = range(38)


def abc(op, a, b=0, c=0):
    return op | a << 6 | c << 14 | b << 23


def abx(op, a, bx):
    return op | a << 6 | bx << 14


def jump(op, a, distance):
    return abx(op, a, distance + 131071)


class Function:
    def __init__(self, words, stack, constants=(), children=(), upvalues=0):
        self.words, self.stack, self.constants = list(words), stack, list(constants)
        self.children, self.upvalues, self.lines = list(children), upvalues, []


def string(text, width):
    return len(text + b"\0").to_bytes(width, "little") + text + b"\0"


def constant(value, width):
    if value is None:
        return b"\0"
    if isinstance(value, bytes):
        return b"\4" + string(value, width)
    return b"\3" + struct.pack("<d", value)


def function(f, width):
    count = struct.Struct("<I").pack
    return b"".join(
        [bytes(width), bytes(8), bytes([f.upvalues, 0, 0, f.stack]),
         count(len(f.words))] + [count(w) for w in f.words] +
        [count(len(f.constants))] + [constant(k, width) for k in f.constants] +
        [count(len(f.children))] + [function(c, width) for c in f.children] +
        [count(len(f.lines))] + [count(line) for line in f.lines] +
        [count(0), count(0)])


def chunk(main, width):
    return bytes([0x1B, 0x4C, 0x75, 0x61, 0x51, 0, 1, 4, width, 4, 8, 0]) + function(main, width)


CONSTANTS = [1.0, 16.0, b"place", b"note"]
STACK = 12


def unit(turn):
    """32 words: a numeric loop with two tests and a call in it, then straight code"""
    x, y = 4 + turn % 4, 8 + turn % 3
    return [
        abx(LOADK, 0, 0), abx(LOADK, 1, 1), abc(MOVE, 2, 0), jump(FORPREP, 0, 8),
        abc(MOVE, x, 3), abc(EQ, 1, x, 1), jump(JMP, 0, 1), abc(CALL, y, 1, 1),
        abc(ADD, x, x, 3), abc(TEST, x, 0, 1), jump(JMP, 0, 1), abc(UNM, y, x),
        jump(FORLOOP, 0, -9), abc(MOVE, y, x), abc(NEWTABLE, x), abc(GETTABLE, x, x, 258),
        abx(GETGLOBAL, y, 3), abc(CALL, y, 1, 1), abc(LOADNIL, x, x), abc(NEWTABLE, y),
        abc(CALL, x, 1, 1), abc(MOVE, x, y), abc(LOADBOOL, x, 1, 0), abc(NEWTABLE, 11),
        abc(CALL, y, 1, 1), abc(LOADNIL, y, y), abx(SETGLOBAL, x, 3), abc(CALL, 11, 1, 1),
        abc(NEWTABLE, x), abc(MOVE, 11, x), abc(CALL, 11, 1, 1), abc(LOADNIL, 11, 11),
    ]


def mix(words):
    body = []
    while len(body) + 32 < words:
        body += unit(len(body) // 32)
    body += [abc(MOVE, 4, 5)] * (words - 1 - len(body)) + [abc(RETURN, 0, 1)]
    return Function(body, STACK, CONSTANTS)


def leaf(upvalues=0):
    return Function([abc(RETURN, 0, 1)], 2, upvalues=upvalues)


def captures(words):
    body = []
    while len(body) + 256 < words:
        body += [abx(CLOSURE, 0, 0)] + [abc(MOVE, 0, r % 2) for r in range(255)]
    body += [abc(MOVE, 0, 1)] * (words - 1 - len(body)) if words - len(body) < 40 else (
        [abx(CLOSURE, 0, 1)] + [abc(MOVE, 0, r % 2) for r in range(words - 2 - len(body))])
    body += [abc(RETURN, 0, 1)]
    return Function(body, 2, (), [leaf(255), leaf((words - 2) % 256)])


def closures(children):
    """a main function that makes each of its children once"""
    return Function([abx(CLOSURE, 0, i) for i in range(len(children))] + [abc(RETURN, 0, 1)], 2, (), children)


def deep(depth):
    f = mix(33)
    for _ in range(depth - 1):
        f = closures([f])
    return f


def full(total=65536):
    """Straight code, and constants that fill the listing up. In bytes: F 30, B and the last B 44, the entry 44 and 58 for each
    register and 16 for its edge, the return 30, a MOVE 65, a nil 16, a string 23 and 7 for each of its bytes"""
    moves = 800
    left = total - (30 + 44 + 44 + 44 + 58 * 2 + 16 + 30 + 65 * moves)
    nils = next(n for n in range(7) if (left - 23 - 16 * n) % 7 == 0)
    text = bytes(97 + i % 26 for i in range((left - 23 - 16 * nils) // 7))
    return Function([abc(MOVE, 0, 1)] * moves + [abc(RETURN, 0, 1)], 2, [None] * nils + [text])


def with_lines(f):
    """a source line for each word, three words to a line, in f and in all functions below it"""
    f.lines = [1 + i // 3 for i in range(len(f.words))]
    for child in f.children:
        with_lines(child)
    return f


def all_chunks():
    for n in (768, 2048, 4096, 8192):
        yield "mix-%d" % n, mix(n)
    for n in (1024, 2048, 4096, 8192):
        yield "captures-%d" % n, captures(n)
    for n in (1, 2, 4, 8):
        yield "parts-%d" % n, closures([mix(768) for _ in range(n)])
    yield "many-256", closures([mix(33) for _ in range(255)])
    yield "deep-32", deep(32)
    yield "full", full()
    for n in (768, 4096):
        yield "mix-%d-lines" % n, with_lines(mix(n))
    yield "captures-4096-lines", with_lines(captures(4096))
    yield "parts-8-lines", with_lines(closures([mix(768) for _ in range(8)]))
    yield "full-lines", with_lines(full())


def main(directory, width="8"):
    for name, f in all_chunks():
        for suffix, size in ((".luac", 4), (".wide.luac", int(width))):
            with open(os.path.join(directory, name + suffix), "wb") as out:
                out.write(chunk(f, size))


if __name__ == "__main__":
    if len(sys.argv) not in (2, 3):
        sys.exit(__doc__)
    main(*sys.argv[1:])
