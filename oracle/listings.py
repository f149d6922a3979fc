"""Listings read back, and held to what the original answered. The numbers of the classes are those of docs/DIFFERENCES.md."""
import os
import re
import struct
import subprocess
import tempfile

import chunks

here = os.path.dirname(os.path.abspath(__file__))

# docs/DIFFERENCES.md's classes
LIST_INDEX, LIST_256, BOTH_EDGES, CONSTANTS, NESTED, ORDER = 1, 2, 3, 4, 5, 6

COLUMN = 7
NAMED = 2                                       # numbers of an S line before its statement: the word that it names, its opcode
HEAD = 4                                        # numbers of a B line before its lowest and its highest source line
CODE, ENTRY, BETWEEN = 0, 1, 2                  # the kinds of blocks
ENTRY_OPCODE = 99                               # what the entry's statements have for an opcode
ON_THEN = ('TESTSET', 'FORLOOP', 'TFORLOOP')    # words with an assignment that stands in another block

INDEX_PER_C = 50
TODO = 'not yet implemented'

LISTED, REFUSED = 0, 1                          # how `rigamel list` ends


class Other(Exception):
    """A difference that is in no class."""


def listed_classes():
    """Number, name and chunk of each class: the rows of docs/DIFFERENCES.md that end in a chunk."""
    found = {}
    with open(os.path.join(here, '..', 'docs', 'DIFFERENCES.md'), encoding='utf-8') as text:
        for row in text:
            cells = [cell.strip() for cell in row.strip().strip('|').split('|')]
            data = re.fullmatch('`([0-9a-f]+)`', cells[-1])
            if data and cells[0].isdigit():
                found[int(cells[0])] = (cells[1], bytes.fromhex(data.group(1)))
    return found


# ---- what the two programs write

def rigamel(program, data):
    """What the listing program writes for a chunk."""
    return subprocess.run([program], input=data, stdout=subprocess.PIPE, check=True).stdout.decode('ascii')


def desk(program):
    """What `rigamel list` prints for a chunk, under a table or, without one, under Lua's own: a function of table and chunk."""
    def printed(table, data):
        with tempfile.NamedTemporaryFile() as file:
            words = [program, 'list', '-']
            if table is not None:
                file.write(chunks.table_lines(table))
                file.flush()
                words[2:2] = ['--table', file.name]
            ended = subprocess.run(words, input=data, stdout=subprocess.PIPE, stderr=subprocess.PIPE)
        if ended.returncode not in (LISTED, REFUSED):
            raise Other('rigamel: %s' % ended.stderr.decode())
        return ended.stdout.decode('ascii')
    return printed


def by_table(program):
    """The same for the selftest's program, whose input is a table's lines and a chunk behind them."""
    own = range(len(chunks.NAMES))
    return lambda table, data: rigamel(program, chunks.table_lines(own if table is None else table) + data)


def line_of(letter, numbers):
    return letter + '%7d' * len(numbers) % tuple(numbers)


def numbers_of(line):
    """The numbers behind a line's letter, each in 7 columns."""
    try:
        numbers = [int(line[i:i + COLUMN]) for i in range(1, len(line), COLUMN)]
    except ValueError:
        numbers = []
    if '-' in line or line_of(line[:1], numbers) != line:
        raise Other('columns: %r' % line)
    return numbers


def as_told(line):
    """A line as the original's answers have it: an S line without the word that it names and that word's opcode, a B line without
    its two source lines."""
    if line[:1] == 'S':
        return 'S' + line[1 + NAMED * COLUMN:]
    return line[:1 + HEAD * COLUMN] if line[:1] == 'B' else line


class Listing:
    """The printed listing of one function: its F and K lines, and its B, S and E lines, as text; apart from them, of the S lines the
    words that they name, with their opcodes, and of the B lines the two source lines."""

    def __init__(self, first):
        self.head, self.body, self.named, self.spans = [first], [], [], []

    def add(self, line):
        numbers = numbers_of(line)
        if line[0] == 'S':
            if len(numbers) <= NAMED:
                raise Other('columns: %r' % line)
            self.named.append(tuple(numbers[:NAMED]))
        if line[0] == 'B':
            if len(numbers) != HEAD + 2:
                raise Other('columns: %r' % line)
            self.spans.append(tuple(numbers[HEAD:]))
        self.body.append(as_told(line))


def listings_of(text):
    """The listings in a listing program's output, and the X line's numbers or None."""
    if not text.endswith('\n'):
        raise Other('the output does not end in a line feed')
    out = []
    for line in text[:-1].split('\n'):
        letter = line[:1]
        if letter == 'X':
            if not text.endswith(line + '\n') or text.count('X') > 1:
                raise Other('a line behind X')
            return out, numbers_of(line)
        if letter == 'F':
            out.append(Listing(line))
        elif letter == 'K' and out and not out[-1].body:
            out[-1].head.append(line)
        elif letter in ('B', 'S', 'E') and out:
            out[-1].add(line)
        else:
            raise Other('line %r' % line)
    return out, None


class Answer:
    """What the original answered for one function: F and K lines; messages of lifts that did not come back; how many functions
    it lifted; and the lines by value, by index, and as found."""

    def __init__(self, first):
        self.head, self.messages, self.lifted, self.parts = [first], [], 0, {}

    by_value = property(lambda self: self.parts.get('V'))
    by_index = property(lambda self: self.parts.get('I'))
    as_found = property(lambda self: self.parts.get('W'))


def original(program, datas):
    """The original's answers for each of some chunks: a list by function, or a message where the chunk was not read."""
    given = b''.join(struct.pack('<I', len(data)) + data for data in datas)
    text = subprocess.run([program], input=given, stdout=subprocess.PIPE, check=True).stdout.decode()
    out, part = [], None
    for line in text.split('\n')[:-1]:
        letter = line[0]
        if letter == 'C':
            out.append([])
        elif letter == 'R':
            out[-1] = line[2:]
        elif letter == 'F':
            out[-1].append(Answer(line))
        elif letter == 'K':
            out[-1][-1].head.append(line)
        elif letter == 'L':
            out[-1][-1].lifted = numbers_of(line)[0]
        elif letter == 'P':
            out[-1][-1].messages.append(line[2:])
        elif letter in 'VIW':
            part = out[-1][-1].parts[letter] = []
        else:
            part.append(line)
    assert len(out) == len(datas)
    return out


def with_words(program, data, function):
    """Asks the original about a function of a chunk again, with some of its words replaced."""
    def again(words):
        changed = bytearray(data)
        for i, w in words.items():
            struct.pack_into('<I', changed, function.at + 4 * i, w)
        return original(program, [bytes(changed)])[0][function.number]
    return again


# ---- constants by value

def values_of(head):
    """For each constant, by the K lines, the run that stands for `2 k` where constants are matched by value: nil and booleans are
    the literals, numbers and strings show kind and value. And the lowest index with the same value."""
    values, lowest, first = [], [], {}
    for k, line in enumerate(head[1:]):
        numbers = numbers_of(line)
        if numbers[0] != k:
            raise Other('constant %d: %r' % (k, line))
        kind, value = numbers[1], numbers[2:]
        values.append({0: [3], 1: [4] + value}.get(kind, [2, kind] + value))
        lowest.append(first.setdefault(tuple(values[-1]), k))
    return values, lowest


class Run:
    """The numbers of a statement, read from left to right. `constant` and `name` say what is written for a constant and a global:
    each takes the numbers behind the 2 or the 6 from the run. `kinds` has the kinds of statement and expressions."""

    def __init__(self, numbers, constant, name):
        self.given, self.at, self.out, self.kinds, self.constant, self.name = numbers, 0, [], [], constant, name
        try:
            self.statement()
        except IndexError:
            raise Other('statement %s' % numbers) from None
        if self.at != len(numbers):
            raise Other('statement %s' % numbers)

    def take(self):
        self.at += 1
        return self.given[self.at - 1]

    def keep(self, count=1):
        for _ in range(count):
            self.out.append(self.take())
        return self.out[-1]

    def statement(self):
        kind = self.keep()
        self.kinds.append(kind)
        if kind == 1:
            self.expressions(self.keep() + self.keep())
        elif kind in (2, 3):
            self.expression()
        elif kind == 4:
            self.expressions(self.keep())
        elif kind in (5, 6):
            self.keep(3)
        elif kind == 7:
            self.keep(2)
            self.expressions(self.keep())
            self.expressions(self.keep())
        elif kind == 8:
            self.keep(self.keep())
        else:
            raise Other('statement %s' % self.given)

    def expressions(self, count):
        for _ in range(count):
            self.expression()

    def expression(self):
        kind = self.take()
        self.kinds.append(kind)
        if kind == 2:
            self.out.extend(self.constant(self))
            return
        if kind == 6:
            self.out.extend(self.name(self))
            return
        self.out.append(kind)
        if kind in (1, 4, 5):
            self.keep()
        elif kind == 7:
            self.expressions(2)
        elif kind in (8, 9):
            self.keep()
            self.expressions(kind - 7)
        elif kind in (10, 12):
            if kind == 10:
                self.expression()
            else:
                self.keep()
            self.expressions(self.keep())
        elif kind == 14:
            self.expression()
        elif kind not in (3, 11, 13):
            raise Other('expression in %s' % self.given)


class Block:
    def __init__(self, numbers):
        self.head, self.statements, self.edges = numbers, [], []


def blocks_of(lines, translate=list):
    out = []
    for line in lines:
        numbers = numbers_of(line)
        if line[0] == 'B':
            out.append(Block(numbers))
        elif not out:
            raise Other('a line before the first block')
        elif line[0] == 'S':
            if out[-1].edges:
                raise Other('a statement behind an edge')
            out[-1].statements.append(translate(numbers))
        else:
            out[-1].edges.append(numbers)
    return out


# ---- comparing

class Compared:
    """One listing held to the original's answer for its function. `classes` has the classes of docs/DIFFERENCES.md that it shows;
    `other` says what is in no class, or is None."""

    def __init__(self, function, listing, answer, again):
        """`again` asks the original about this function with some words replaced."""
        self.function, self.listing, self.answer, self.again = function, listing, answer, again
        self.classes, self.other = set(), None
        try:
            self.compare()
        except Other as other:
            self.other = str(other)

    equal = property(lambda self: self.other is None and not self.classes & {LIST_INDEX, LIST_256, BOTH_EDGES})

    def compare(self):
        listing, answer = self.listing, self.answer
        if listing.head != answer.head:
            raise Other('F and K lines: %s, original %s' % first_difference(listing.head, answer.head))
        self.values, self.lowest = values_of(listing.head)
        self.compare_named()
        self.compare_spans()
        self.compare_lifts()
        replaced = {}
        if answer.by_value is None:
            answer, replaced = self.without_256()
        self.compare_blocks(answer.by_value, self.by_value, replaced)
        # by index too: where no class of lines differs, equal means equal bytes
        self.compare_blocks(answer.by_index, list, replaced)
        if self.equal and listing.body != answer.by_index:
            raise Other('lines: %s, original %s' % first_difference(listing.body, answer.by_index))
        if answer.as_found != answer.by_index:
            self.classes.add(ORDER)

    def compare_named(self):
        """The words that statements name, of which the original tells nothing."""
        named = iter(self.listing.named)
        for block in blocks_of(self.listing.body):
            here = [next(named) for _ in block.statements]
            if not well_named(self.function.words, block.head, here):
                raise Other('block %d: its statements name %s' % (block.head[0], here))

    def compare_spans(self):
        """The lowest and the highest source line of blocks, of which the original tells nothing."""
        lines = self.function.lines
        if any(line > chunks.MOST_LINE for line in lines):
            raise Other('listed, with a word line above %d' % chunks.MOST_LINE)
        for block, span in zip(blocks_of(self.listing.body), self.listing.spans):
            if span != span_of(lines, block.head):
                raise Other('block %d: lines %s, not %s' % (block.head[0], span, span_of(lines, block.head)))

    def compare_lifts(self):
        """How many functions were lifted, and which did not come back."""
        f, answer = self.function, self.answer
        if not answer.messages:
            if answer.lifted != lifts(f):
                raise Other('%d functions lifted, not %d' % (answer.lifted, lifts(f)))
            if answer.lifted != len_of_tree(f):
                self.classes.add(NESTED)
            return
        if len(answer.messages) == 1:
            if TODO not in answer.messages[0] or not reaches_256(f):
                raise Other('original: %s' % answer.messages[0])
            self.classes.add(NESTED)

    def without_256(self):
        """The answer for the function with C 1 in place of each SETLIST's C 256, which the original does not take."""
        f, message = self.function, self.answer.messages[-1]
        places = {i: w for i, w in enumerate(f.words) if is_256(w)}
        if TODO not in message or not places:
            raise Other('original: %s' % message)
        self.classes.add(LIST_256)
        again = self.again({i: w & ~(511 << 14) | 1 << 14 for i, w in places.items()})
        if again.by_value is None:
            raise Other('original: %s' % again.messages[-1])
        return again, places

    def by_value(self, numbers):
        """A statement of the listing with its constants by value."""
        def constant(run):
            k = run.take()
            if k >= len(self.values):
                raise Other('constant %d' % k)
            if self.values[k][0] != 2 or self.lowest[k] != k:
                self.classes.add(CONSTANTS)
            return self.values[k]

        def name(run):
            value = constant(run)
            if value[:2] != [2, 4]:
                raise Other('global in %s' % numbers)
            return [6] + value[2:]

        return Run(numbers, constant, name).out

    def compare_blocks(self, lines, translate, replaced):
        self.lists = self.loops = 0
        mine, theirs = blocks_of(self.listing.body, translate), blocks_of(lines)
        if [b.head for b in mine] != [b.head for b in theirs]:
            raise Other('blocks: %s, original %s' % first_difference([b.head for b in mine], [b.head for b in theirs]))
        for m, t in zip(mine, theirs):
            if len(m.statements) != len(t.statements):
                raise Other('block %d: %d statements, original %d' % (m.head[0], len(m.statements), len(t.statements)))
            for s, o in zip(m.statements, t.statements):
                if s != o:
                    self.compare_lists(m, s, o, replaced)
            if m.edges != t.edges:
                self.compare_edges(mine, m, t)
        # each word that must make a difference has made one
        words = self.function.words
        lists = sum(chunks.name_of(w) == 'SETLIST' and chunks.c_of(w) > 255 for w in words)
        loops = sum(chunks.name_of(w) == 'FORLOOP' and chunks.sbx_of(w) == 0 for w in words)
        if (self.lists, self.loops) != (lists, loops):
            raise Other('as the original has it: %d of %d lists, %d of %d loops differ' % (self.lists, lists, self.loops, loops))

    def compare_lists(self, block, s, o, replaced):
        """Statements may differ in the index of a list alone, and only as SETLIST's C in 8 bits makes it."""
        _, first, end, _ = block.head
        different = Other('block %d: S %s, original %s' % (block.head[0], s, o))
        if s[0] != 7 or s[:2] + s[3:] != o[:2] + o[3:] or s[2] % INDEX_PER_C != 1:
            raise different
        c = s[2] // INDEX_PER_C + 1
        if not any(chunks.name_of(w) == 'SETLIST' and chunks.c_of(w) == c for w in self.function.words[first:end]):
            raise different
        self.lists += 1
        if c == 256 and replaced and o[2] == 1:
            return
        if not 256 < c < 512 or o[2] != (c % 256 - 1) * INDEX_PER_C + 1:
            raise different
        self.classes.add(LIST_INDEX)

    def compare_edges(self, mine, m, t):
        """Edges may differ in the Else edge of a FORLOOP to the next word, which the original leads through the between block."""
        number, first, end, kind = m.head
        different = Other('block %d: E %s, original %s' % (number, m.edges, t.edges))
        if kind != CODE or first == end or len(m.edges) != 2 or m.edges[0][0] != 1 or m.edges[0][1] >= len(mine):
            raise different
        last, between = self.function.words[end - 1], m.edges[0][1]
        if chunks.name_of(last) != 'FORLOOP' or chunks.sbx_of(last) != 0 or mine[between].head[3] != BETWEEN:
            raise different
        if m.edges[1] != [2, number + 1] or mine[between].edges != [[0, number + 1]] or t.edges != [[1, between], [2, between]]:
            raise different
        self.loops += 1
        self.classes.add(BOTH_EDGES)


def well_named(words, head, named):
    """Whether the statements of a block name words with their opcodes, those of the entry n and 99; and whether, behind what a word
    of ON_THEN has put at the block's front or into a between, they name words of its range that never fall."""
    _, first, end, kind = head
    if kind == ENTRY:
        return all(name == (len(words), ENTRY_OPCODE) for name in named)
    if not all(w < len(words) and opcode == chunks.opcode_of(words[w]) for w, opcode in named):
        return False
    own = [w for w, _ in named]
    if own and chunks.name_of(words[own[0]]) in ON_THEN:
        own = own[1:]
    return own == sorted(own) and all(first <= w < end for w in own)


def span_of(lines, head):
    """The lowest and the highest source line of a block's words, by the lines that the chunk has for its function's words."""
    _, first, end, kind = head
    own = lines[first:end] if kind == CODE else ()
    return (min(own), max(own)) if own else (0, 0)


def first_difference(mine, theirs):
    for m, t in zip(mine, theirs):
        if m != t:
            return m, t
    return '%d lines' % len(mine), '%d lines' % len(theirs)


def is_256(w):
    return chunks.name_of(w) == 'SETLIST' and chunks.c_of(w) == 256


def closures(f):
    """The nested function of each CLOSURE."""
    return [f.nested[chunks.bx_of(w)] for w in f.words if chunks.name_of(w) == 'CLOSURE']


def reaches_256(f):
    return any(any(map(is_256, g.words)) or reaches_256(g) for g in closures(f))


def lifts(f):
    """How many functions the original lifts: itself, and one at each CLOSURE, with what that one lifts."""
    return 1 + sum(map(lifts, closures(f)))


def len_of_tree(f):
    return 1 + sum(map(len_of_tree, f.nested))
