#!/usr/bin/env python3
"""Rewrite the string sizes of a Lua 5.1 chunk in 4 bytes; nothing else changes.

    python3 narrow.py [WIDTH] < chunk.luac > narrow.luac

luac5.1 writes string sizes as wide as its machine's size_t. Document 01's header has 4 there
(its ninth byte). A chunk that has 4 already comes out as it went in. With a WIDTH of 8 the sizes
are written in 8 bytes, for a luac that reads only these.
"""
import struct
import sys

HEADER = bytes([0x1B, 0x4C, 0x75, 0x61, 0x51, 0, 1, 4])     # then size_t, then 4 8 0
BEHIND = b"\x04\x08\x00"
WIDTHS = (4, 8)


def narrow(chunk, width=4, reworded=lambda word: word):
    """The chunk with string sizes of this width, and with each word w, of 4 bytes, as reworded(w)."""
    if chunk[:8] != HEADER or chunk[8:9] not in (b"\4", b"\x08") or chunk[9:12] != BEHIND:
        sys.exit("not a little-endian chunk of Lua 5.1")
    own, at, out = chunk[8], 12, [HEADER + bytes([width]) + BEHIND]

    def take(count):
        nonlocal at
        piece = chunk[at:at + count]
        if len(piece) != count:
            sys.exit("the chunk ends at %d" % at)
        at += count
        return piece

    def keep(count):
        out.append(take(count))
        return out[-1]

    def number():
        return struct.unpack("<I", keep(4))[0]

    def string():
        size = int.from_bytes(take(own), "little")
        out.append(size.to_bytes(width, "little"))
        keep(size)

    def constant():
        kind = keep(1)[0]
        if kind == 4:
            string()
        elif kind in (0, 1, 3):
            keep({0: 0, 1: 1, 3: 8}[kind])
        else:
            sys.exit("no kind of constant at %d" % (at - 1))

    def function():
        string()                                    # source
        keep(12)                                    # two lines; upvalues, parameters, flags, stack
        for _ in range(number()):                   # words
            out.append(reworded(take(4)))
        for _ in range(number()):
            constant()
        for _ in range(number()):                   # nested functions
            function()
        keep(4 * number())                          # word lines
        for _ in range(number()):                   # locals
            string()
            keep(8)
        for _ in range(number()):                   # upvalue names
            string()

    function()
    if at != len(chunk):
        sys.exit("bytes are left over at %d" % at)
    return b"".join(out)


if __name__ == "__main__":
    if sys.argv[1:] not in [[]] + [[str(width)] for width in WIDTHS]:
        sys.exit(__doc__)
    sys.stdout.buffer.write(narrow(sys.stdin.buffer.read(), *map(int, sys.argv[1:])))
