#!/usr/bin/env python3
"""Write a house table of opcode numbers, or renumber a chunk by one.

    python3 house.py < opcodes > house.table
    python3 house.py house.table < chunk.luac > house.luac

The opcodes are 38 numbers: the one that files of the house use for MOVE, Lua's opcode 0, then the
one for LOADK, and so on. Or they are the 38 names OP_MOVE .. OP_VARARG in the order of the house's
lopcodes.h. Blanks or line ends are between them.

The second call puts the house's numbers in place of Lua's; numbers above 37 stay.
"""
import sys

from narrow import narrow

NAMES = ["OP_" + name for name in """
    MOVE LOADK LOADBOOL LOADNIL GETUPVAL GETGLOBAL GETTABLE SETGLOBAL SETUPVAL SETTABLE NEWTABLE SELF
    ADD SUB MUL DIV MOD POW UNM NOT LEN CONCAT JMP EQ LT LE TEST TESTSET CALL TAILCALL RETURN FORLOOP
    FORPREP TFORLOOP SETLIST CLOSE CLOSURE VARARG""".split()]
OPCODE = 63                                         # the bits of a word's first byte that are its opcode


def table_of(opcodes):
    """The house's numbers for Lua's opcodes, in the order of Lua's."""
    if sorted(opcodes) == sorted(NAMES):
        return [opcodes.index(name) for name in NAMES]
    if all(opcode.isdecimal() for opcode in opcodes):
        numbers = [int(opcode) for opcode in opcodes]
        if sorted(numbers) == list(range(len(NAMES))):
            return numbers
    sys.exit("neither each number from 0 to 37 once nor each of the 38 names once")


def lines_of(table):
    return "".join("%7d\n" % number for number in table)


def renumbered(chunk, table):
    def reworded(word):
        opcode = word[0] & OPCODE
        number = table[opcode] if opcode < len(table) else opcode
        return bytes([word[0] - opcode + number]) + word[1:]
    return narrow(chunk, chunk[8], reworded)        # string sizes stay as wide as they are


if __name__ == "__main__":
    if len(sys.argv) == 1:
        sys.stdout.write(lines_of(table_of(sys.stdin.read().split())))
    elif len(sys.argv) == 2 and not sys.argv[1].startswith("-"):
        with open(sys.argv[1]) as file:
            house = table_of(file.read().split())
        sys.stdout.buffer.write(renumbered(sys.stdin.buffer.read(), house))
    else:
        sys.exit(__doc__)
