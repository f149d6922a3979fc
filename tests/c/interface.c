/* Holds include/rigamel.h to what the archive does: interface CHUNK LISTING TABLE RENUMBERED
 *
 * CHUNK is an accepted chunk of several functions, LISTING their listings; TABLE is a table that is not its own inverse, and
 * RENUMBERED the chunk in its numbers. Every output stands between guard bytes. */
#include <assert.h>
#include <stdio.h>
#include <stdlib.h>
#include <string.h>
#include "rigamel.h"

static_assert(offsetof(rigamel_reading, next) == 4 && offsetof(rigamel_reading, table) == 8, "two numbers and a table");
static_assert(sizeof(rigamel_reading) == 48, "a reading has 46 bytes, and two of padding");
static_assert(sizeof(rigamel_answer) == 32 && offsetof(rigamel_answer, length) == 24, "an answer is four numbers");

enum { GUARD = 64, FILL = 0xA5, MOST = RIGAMEL_CHUNK_MOST };

static int failures = 0;

#define CHECK(fact) \
    do { \
        if (!(fact)) { \
            fprintf(stderr, "%s:%d: not so: %s\n", __FILE__, __LINE__, #fact); \
            failures++; \
        } \
    } while (0)

/* ------------------------------------------------------------ outputs between guards */

typedef struct {
    uint8_t *whole;
    uint8_t *out;
    size_t size;
} lent;

static lent lend(size_t size)
{
    lent l;
    l.whole = (uint8_t *)malloc(size + 2 * GUARD);
    if (l.whole == NULL)
        exit(2);
    memset(l.whole, FILL, size + 2 * GUARD);
    l.out = l.whole + GUARD;
    l.size = size;
    return l;
}

/* Whether all bytes but the first `written` of the output are as they were; gives the output back. */
static int untouched_behind(lent l, size_t written)
{
    int same = 1;
    for (size_t i = 0; i < GUARD; i++)
        same = same && l.whole[i] == FILL;
    for (size_t i = GUARD + written; i < l.size + 2 * GUARD; i++)
        same = same && l.whole[i] == FILL;
    free(l.whole);
    return same;
}

/* ------------------------------------------------------------ answers and readings */

/* A closed reading with the table that is tried. Readings have it, and chunks are made in its numbers. */
static rigamel_reading house;

static rigamel_reading at(uint32_t opened, uint32_t next)
{
    rigamel_reading r = house;
    r.opened = opened;
    r.next = next;
    return r;
}

static int same(rigamel_reading r, rigamel_reading other)
{
    return memcmp(&r, &other, offsetof(rigamel_reading, table) + RIGAMEL_OPCODES) == 0;
}

/* Whether a reading stands there, with the table that is tried. */
static int is_at(rigamel_reading r, uint32_t opened, uint32_t next)
{
    return same(r, at(opened, next));
}

static int gives(rigamel_answer a, uint64_t length)
{
    return a.number == RIGAMEL_GIVEN && a.function == 0 && a.place == 0 && a.length == length;
}

static int refuses(rigamel_answer a, uint64_t number, uint64_t function, uint64_t place)
{
    return a.number == number && a.function == function && a.place == place && a.length == 0;
}

/* A delivery that is refused, into an output of `size` bytes: it leaves reading and output as they were. */
static void refused(const uint8_t *s, size_t n, size_t size, rigamel_reading before, uint64_t number, uint64_t function,
                    uint64_t place)
{
    lent l = lend(size);
    rigamel_reading r = before;
    CHECK(refuses(rigamel_deliver(s, n, l.out, l.size, &r), number, function, place));
    CHECK(same(r, before));
    CHECK(untouched_behind(l, 0));
}

/* A chunk that is refused: by an opening, which closes the reading, and by a delivery, before 32 and 33. */
static void refused_chunk(const uint8_t *s, size_t n, uint64_t number, uint64_t function, uint64_t place)
{
    rigamel_reading r = at(5, 6);
    CHECK(refuses(rigamel_open(s, n, &r), number, function, place));
    CHECK(is_at(r, 0, 0));
    refused(s, n, 4096, at(1, 0), number, function, place);
    refused(s, n, 0, at(UINT32_MAX, UINT32_MAX), number, function, place);
}

/* ------------------------------------------------------------ chunks */

enum { MOVE = 0, JMP = 22, EQ = 23, TESTSET = 27, CALL = 28, RETURN = 30, CLOSURE = 36, UNKNOWN = 38 };

/* The number for an opcode; one above 37 stays. */
static uint32_t number_of(uint32_t opcode)
{
    return opcode < RIGAMEL_OPCODES ? house.table[opcode] : opcode;
}

static uint32_t word(uint32_t opcode, uint32_t a, uint32_t b, uint32_t c)
{
    return number_of(opcode) | a << 6 | c << 14 | b << 23;
}

static uint32_t jump(int32_t distance)
{
    return number_of(JMP) | (uint32_t)(distance + 131071) << 14;
}

/* Where the parts of main stand, if it has one word: the chunk has END bytes, and NESTED is where nested functions begin. */
enum { FUNCTION = 12, FLAGS = 26, STACK = 27, WORDS = 28, NESTED = 44, END = 56, SIZE = END - FUNCTION };

static size_t put_count(uint8_t *s, size_t i, uint32_t x)
{
    for (int k = 0; k < 4; k++)
        s[i + k] = (uint8_t)(x >> 8 * k);
    return i + 4;
}

/* A function with these words, and `count` nested functions that end its chunk's bytes so far: `nested` bytes at `inner`. */
static size_t put_function(uint8_t *s, size_t i, uint8_t upvalues, uint8_t stack, const uint32_t *words, uint32_t n,
                           const uint8_t *inner, size_t nested, uint32_t count)
{
    memset(s + i, 0, 12);
    i += 12;
    s[i++] = upvalues;
    s[i++] = 0;
    s[i++] = 0;
    s[i++] = stack;
    i = put_count(s, i, n);
    for (uint32_t k = 0; k < n; k++)
        i = put_count(s, i, words[k]);
    i = put_count(s, i, 0);
    i = put_count(s, i, count);
    if (nested > 0)
        memcpy(s + i, inner, nested);
    i += nested;
    for (int k = 0; k < 3; k++)
        i = put_count(s, i, 0);
    return i;
}

static size_t put_chunk(uint8_t *s, uint8_t stack, const uint32_t *words, uint32_t n, const uint8_t *inner, size_t nested,
                        uint32_t count)
{
    static const uint8_t header[FUNCTION] = {0x1B, 0x4C, 0x75, 0x61, 0x51, 0, 1, 4, 4, 4, 8, 0};
    memcpy(s, header, FUNCTION);
    return put_function(s, FUNCTION, 0, stack, words, n, inner, nested, count);
}

/* Gives main source lines, in a chunk of n bytes without any: the counts of lines, locals and upvalue names end it. */
static size_t put_lines(uint8_t *s, size_t n, const uint32_t *lines, uint32_t count)
{
    size_t i = put_count(s, n - 12, count);
    for (uint32_t k = 0; k < count; k++)
        i = put_count(s, i, lines[k]);
    i = put_count(s, i, 0);
    return put_count(s, i, 0);
}

/* ------------------------------------------------------------ refusals of the input, 1 to 15 */

static void check_chunks(void)
{
    static uint8_t s[MOST + 1], inner[256 * SIZE];
    const uint32_t ret = word(RETURN, 0, 1, 0);
    size_t n, m;

    memset(s, 0, sizeof s);
    refused_chunk(s, MOST + 1, RIGAMEL_TOO_LONG, 0, 0);
    refused_chunk(s, MOST, RIGAMEL_HEADER, 0, 0);
    refused_chunk(NULL, 0, RIGAMEL_ENDED, 0, 0);

    n = put_chunk(s, 2, &ret, 1, NULL, 0, 0);
    CHECK(n == END);
    s[4] = 0x52;
    refused_chunk(s, n, RIGAMEL_HEADER, 0, 4);
    s[4] = 0x51;
    refused_chunk(s, WORDS + 2, RIGAMEL_ENDED, 0, WORDS);
    s[FLAGS] = 8;
    refused_chunk(s, n, RIGAMEL_OUT_OF_RANGE, 0, FLAGS);
    s[FLAGS] = 0;
    s[n] = 0;
    refused_chunk(s, n + 1, RIGAMEL_LEFT_OVER, 0, END);
    s[STACK] = 251;
    refused_chunk(s, n, RIGAMEL_HEAD, 0, 0);

    m = 0;
    for (int k = 0; k < 256; k++)
        m = put_function(inner, m, 0, 2, &ret, 1, NULL, 0, 0);
    n = put_chunk(s, 2, &ret, 1, inner, m, 256);
    refused_chunk(s, n, RIGAMEL_TOO_MANY_FUNCTIONS, 0, NESTED + 255 * SIZE);
    n = put_chunk(s, 2, &ret, 1, inner, 255 * SIZE, 255);
    rigamel_reading r = at(5, 6);
    CHECK(gives(rigamel_open(s, n, &r), 256) && is_at(r, 1, 0));
    m = put_function(inner, 0, 0, 251, &ret, 1, NULL, 0, 0);
    n = put_chunk(s, 2, &ret, 1, inner, m, 1);
    refused_chunk(s, n, RIGAMEL_HEAD, 1, 0);

    n = put_chunk(s, 2, NULL, 0, NULL, 0, 0);
    refused_chunk(s, n, RIGAMEL_LAST, 0, 0);

    const uint32_t unknown[] = {ret, word(UNKNOWN, 0, 0, 0), ret};
    n = put_chunk(s, 2, unknown, 3, NULL, 0, 0);
    refused_chunk(s, n, RIGAMEL_OPERAND, 0, 1);
    const uint32_t outside[] = {jump(1), ret};
    n = put_chunk(s, 2, outside, 2, NULL, 0, 0);
    refused_chunk(s, n, RIGAMEL_TARGET, 0, 0);
    const uint32_t no_jump[] = {word(EQ, 0, 0, 0), word(MOVE, 0, 1, 0), ret};
    n = put_chunk(s, 2, no_jump, 3, NULL, 0, 0);
    refused_chunk(s, n, RIGAMEL_JUMP, 0, 0);
    const uint32_t unused[] = {ret, word(CALL, 0, 1, 0), ret};
    n = put_chunk(s, 2, unused, 3, NULL, 0, 0);
    refused_chunk(s, n, RIGAMEL_RESULTS, 0, 1);
    const uint32_t closure[] = {word(CLOSURE, 0, 0, 0), ret};
    m = put_function(inner, 0, 1, 2, &ret, 1, NULL, 0, 0);
    n = put_chunk(s, 2, closure, 2, inner, m, 1);
    refused_chunk(s, n, RIGAMEL_CAPTURES, 0, 0);
    const uint32_t shared[] = {word(TESTSET, 0, 1, 0), jump(-1), ret};
    n = put_chunk(s, 2, shared, 3, NULL, 0, 0);
    refused_chunk(s, n, RIGAMEL_SHARED, 0, 0);
}

/* 15: the last line that stands, the first that does not, read as unsigned; behind 14 of any word, before 7 of the next function */
static void check_lines(void)
{
    static uint8_t s[256], inner[SIZE];
    const uint32_t words[] = {word(MOVE, 0, 1, 0), word(RETURN, 0, 1, 0)};
    const uint32_t stands[] = {0, 999999}, above[] = {999999, 1000000}, negative[] = {UINT32_MAX, 1};
    rigamel_reading r = at(5, 6);
    size_t n = put_chunk(s, 2, words, 2, NULL, 0, 0);
    CHECK(gives(rigamel_open(s, put_lines(s, n, stands, 2), &r), 1) && is_at(r, 1, 0));
    refused_chunk(s, put_lines(s, n, above, 2), RIGAMEL_LINE, 0, 1);
    refused_chunk(s, put_lines(s, n, negative, 2), RIGAMEL_LINE, 0, 0);
    refused_chunk(s, put_lines(s, n, above, 1), RIGAMEL_HEAD, 0, 0);

    const uint32_t shared[] = {word(MOVE, 0, 1, 0), word(TESTSET, 0, 1, 0), jump(-1), word(RETURN, 0, 1, 0)};
    const uint32_t first_above[] = {1000000, 1, 1, 1};
    n = put_chunk(s, 2, shared, 4, NULL, 0, 0);
    refused_chunk(s, put_lines(s, n, first_above, 4), RIGAMEL_SHARED, 0, 1);

    const size_t m = put_function(inner, 0, 0, 251, words + 1, 1, NULL, 0, 0);
    n = put_chunk(s, 2, words, 2, inner, m, 1);
    refused_chunk(s, n, RIGAMEL_HEAD, 1, 0);
    refused_chunk(s, put_lines(s, n, above, 2), RIGAMEL_LINE, 0, 1);
}

/* ------------------------------------------------------------ deliveries, and refusals of the state */

static void check_deliveries(const uint8_t *s, size_t n, const uint8_t *listing, size_t total)
{
    const uint8_t broken[1] = {0};
    size_t done = 0;
    rigamel_reading r = house;

    refused(s, n, total, r, RIGAMEL_NOT_OPENED, 0, 0);
    refused(broken, 1, total, at(0, UINT32_MAX), RIGAMEL_NOT_OPENED, UINT32_MAX, 0);

    rigamel_answer opened = rigamel_open(s, n, &r);
    const uint32_t count = (uint32_t)opened.length;
    CHECK(gives(opened, count) && is_at(r, 1, 0));
    for (uint32_t f = 0; f < count; f++) {
        /* an output with room for more */
        lent l = lend(total + 100);
        rigamel_answer a = rigamel_deliver(s, n, l.out, l.size, &r);
        const size_t length = (size_t)a.length;
        CHECK(gives(a, length) && is_at(r, 1, f + 1));
        CHECK(length <= total - done && memcmp(l.out, listing + done, length) == 0);
        CHECK(untouched_behind(l, length));

        /* one byte too short, empty, and no output at all; any number but 0 is open */
        refused(s, n, length - 1, at(1, f), RIGAMEL_OUTPUT_SHORT, f, 0);
        refused(s, n, 0, at(7, f), RIGAMEL_OUTPUT_SHORT, f, 0);
        rigamel_reading kept = at(UINT32_MAX, f);
        CHECK(refuses(rigamel_deliver(s, n, NULL, 0, &kept), RIGAMEL_OUTPUT_SHORT, f, 0) && is_at(kept, UINT32_MAX, f));

        /* an output that just holds it */
        l = lend(length);
        CHECK(gives(rigamel_deliver(s, n, l.out, l.size, &kept), length) && is_at(kept, UINT32_MAX, f + 1));
        CHECK(memcmp(l.out, listing + done, length) == 0);
        CHECK(untouched_behind(l, length));
        done += length;
    }
    CHECK(done == total);

    refused(s, n, 0, r, RIGAMEL_NO_FUNCTION, count, 0);
    refused(s, n, total, at(2, UINT32_MAX), RIGAMEL_NO_FUNCTION, UINT32_MAX, 0);
    refused(broken, 1, 0, r, RIGAMEL_HEADER, 0, 0);
    CHECK(gives(rigamel_open(s, n, &r), count) && is_at(r, 1, 0));
}

/* ------------------------------------------------------------ loads */

enum { LINE = 8, COUNT = RIGAMEL_OPCODES, LENGTH = RIGAMEL_TABLE_LENGTH, TURN = 5 };
static_assert(LINE * COUNT == LENGTH, "a table has a line for each opcode");

/* Loads these bytes, lent in memory that ends with them. */
static rigamel_answer load(const uint8_t *lines, size_t length, rigamel_reading *r)
{
    uint8_t *copy = (uint8_t *)malloc(length);
    if (copy == NULL)
        exit(2);
    memcpy(copy, lines, length);
    rigamel_answer a = rigamel_load(copy, length, r);
    free(copy);
    return a;
}

/* Puts a line of a table. */
static void put_line(uint8_t *lines, size_t i, uint32_t number)
{
    char line[32];
    snprintf(line, sizeof line, "%7lu\n", (unsigned long)number);
    memcpy(lines + LINE * i, line, LINE);
}

/* Puts the table whose line i is i + turn, with 0 behind 37. */
static void put_rotation(uint8_t *lines, uint32_t turn)
{
    for (uint32_t i = 0; i < COUNT; i++)
        put_line(lines, i, (i + turn) % COUNT);
}

/* A load that is refused leaves the reading as it was, closed or open, and with any table. */
static void refused_load(const uint8_t *lines, size_t length, uint64_t number, uint64_t place)
{
    const rigamel_reading before[] = {rigamel_closed(), at(1, 2), at(UINT32_MAX, UINT32_MAX)};
    for (size_t i = 0; i < sizeof before / sizeof before[0]; i++) {
        rigamel_reading r = before[i];
        CHECK(refuses(load(lines, length, &r), number, 0, place));
        CHECK(same(r, before[i]));
    }
}

/* Every rotation loads, and no load moves the reading. */
static void check_loads(void)
{
    uint8_t lines[LENGTH];
    for (uint32_t turn = 0; turn < COUNT; turn++) {
        rigamel_reading r = at(7, UINT32_MAX);
        put_rotation(lines, turn);
        CHECK(gives(load(lines, LENGTH, &r), 0) && r.opened == 7 && r.next == UINT32_MAX);
        for (uint32_t i = 0; i < COUNT; i++)
            CHECK(r.table[i] == (i + turn) % COUNT);
        CHECK(turn != 0 || memcmp(r.table, rigamel_closed().table, COUNT) == 0);
    }
}

/* 34: the length, whatever the lines are; then the first line of another form, whatever the numbers are */
static void check_table_form(void)
{
    static const char *const forms[] = {
        "       \n",  "0000005\n", "     05\n",  "5      \n", "     5 \n", "   1  2\n", "     +5\n", "     -1\n",
        "\t     5\n", "     \t5\n", "     5\r\n", "      5\r", "      5 ",  "     5\n\n", "\n      5", "      a\n",
        "    5.0\n",  "    0x5\n", "      :\n",  "      /\n", "     \0" "5\n"};
    uint8_t lines[LENGTH + LINE], whole[LENGTH];
    memset(lines, '\n', sizeof lines);
    put_rotation(lines, TURN);
    memcpy(whole, lines, LENGTH);
    rigamel_reading r = at(1, 2);
    CHECK(refuses(rigamel_load(NULL, 0, &r), RIGAMEL_TABLE_FORM, 0, 0) && same(r, at(1, 2)));
    const size_t lengths[] = {1, LINE, LENGTH - LINE, LENGTH - 1, LENGTH + 1, LENGTH + LINE};
    for (size_t k = 0; k < sizeof lengths / sizeof lengths[0]; k++)
        refused_load(lines, lengths[k], RIGAMEL_TABLE_FORM, 0);
    memcpy(lines + LINE, forms[0], LINE);
    refused_load(lines, LENGTH - 1, RIGAMEL_TABLE_FORM, 0);

    for (size_t i = 0; i < COUNT; i++)
        for (size_t k = 0; k < sizeof forms / sizeof forms[0]; k++) {
            memcpy(lines, whole, LENGTH);
            memcpy(lines + LINE * i, forms[k], LINE);
            refused_load(lines, LENGTH, RIGAMEL_TABLE_FORM, i);
            memcpy(lines + LINE * (COUNT - 1), forms[k], LINE); /* the first of two */
            refused_load(lines, LENGTH, RIGAMEL_TABLE_FORM, i);
            put_line(lines, 0, i == 0 ? 5 : 38); /* wholly before 35 */
            put_line(lines, 1, 9999999);
            refused_load(lines, LENGTH, RIGAMEL_TABLE_FORM, i < 2 ? COUNT - 1 : i);
        }

    memcpy(lines, whole, LENGTH); /* line 3 is one byte shorter, so that later lines stand one byte too early */
    memmove(lines + LINE * 3, lines + LINE * 3 + 1, LENGTH - LINE * 3 - 1);
    lines[LENGTH - 1] = '\n';
    refused_load(lines, LENGTH, RIGAMEL_TABLE_FORM, 3);
}

/* 35: the first line whose number is above 37, or in an earlier line */
static void check_table_numbers(void)
{
    static const uint32_t above[] = {38, 39, 63, 64, 99, 255, 256, 261, 65541, 9999999};
    uint8_t lines[LENGTH];
    for (uint32_t i = 0; i < COUNT; i++) {
        for (size_t k = 0; k < sizeof above / sizeof above[0]; k++) {
            put_rotation(lines, TURN);
            put_line(lines, i, above[k]);
            refused_load(lines, LENGTH, RIGAMEL_TABLE_NUMBER, i);
            put_line(lines, COUNT - 1, above[k]); /* of two above 37 the first, though they are equal */
            refused_load(lines, LENGTH, RIGAMEL_TABLE_NUMBER, i);
        }
        for (uint32_t j = i + 1; j < COUNT; j++) {
            put_rotation(lines, TURN);
            put_line(lines, i, (j + TURN) % COUNT);
            refused_load(lines, LENGTH, RIGAMEL_TABLE_NUMBER, j);
        }
    }
    put_rotation(lines, TURN); /* whichever comes first: a repeated number at line 4, one above 37 at line 6 or 3 */
    put_line(lines, 4, TURN);
    put_line(lines, 6, 38);
    refused_load(lines, LENGTH, RIGAMEL_TABLE_NUMBER, 4);
    put_line(lines, 3, 38);
    refused_load(lines, LENGTH, RIGAMEL_TABLE_NUMBER, 3);
    for (size_t i = 0; i < COUNT; i++)
        put_line(lines, i, 0);
    refused_load(lines, LENGTH, RIGAMEL_TABLE_NUMBER, 1);
}

/* ------------------------------------------------------------ loads between openings and deliveries */

/* A chunk with the table for it, as its lines. */
typedef struct {
    const uint8_t *s;
    size_t n;
    const uint8_t *lines;
} edition;

/* Loads a table: the reading stays where it is. */
static void loads(const uint8_t *lines, rigamel_reading *r)
{
    const rigamel_reading before = *r;
    CHECK(gives(load(lines, LENGTH, r), 0) && r->opened == before.opened && r->next == before.next);
}

/* An opening that is refused, and then a load: the table stays, and the reading stays closed. */
static void check_refused_opening(edition one, edition other, uint64_t place)
{
    rigamel_reading r = at(5, 6);
    loads(one.lines, &r);
    rigamel_reading closed = r;
    closed.opened = closed.next = 0;
    CHECK(refuses(rigamel_open(other.s, other.n, &r), RIGAMEL_LAST, 0, place) && same(r, closed));
    refused(one.s, one.n, 4096, r, RIGAMEL_NOT_OPENED, 0, 0);
    loads(other.lines, &r);
    refused(other.s, other.n, 4096, r, RIGAMEL_NOT_OPENED, 0, 0);
}

/* Two editions of one chunk, delivered by turns through one reading, which is opened with the first. By the table of the one the
 * other is refused, and a refused load alters nothing. */
static void check_turns(edition one, edition other, uint64_t place, const uint8_t *listing, size_t total)
{
    uint8_t wrong[LENGTH];
    put_rotation(wrong, TURN);
    put_line(wrong, COUNT - 1, 38);
    size_t done = 0;
    rigamel_reading r = at(5, 6);
    loads(one.lines, &r);
    const uint32_t count = (uint32_t)rigamel_open(one.s, one.n, &r).length;
    CHECK(count > 2);
    for (uint32_t f = 0; f < count; f++) {
        const edition now = f % 2 == 0 ? other : one, then = f % 2 == 0 ? one : other;
        loads(now.lines, &r);
        rigamel_reading moved = r;
        CHECK(refuses(load(wrong, LENGTH, &r), RIGAMEL_TABLE_NUMBER, 0, COUNT - 1) && same(r, moved));
        refused(then.s, then.n, total, r, RIGAMEL_LAST, 0, place);
        moved.next = f + 1;
        lent l = lend(total);
        const size_t length = (size_t)rigamel_deliver(now.s, now.n, l.out, l.size, &r).length;
        CHECK(r.opened == 1 && same(r, moved));
        CHECK(length <= total - done && memcmp(l.out, listing + done, length) == 0);
        CHECK(untouched_behind(l, length));
        done += length;
    }
    CHECK(done == total);
    loads(one.lines, &r);
    refused(one.s, one.n, total, r, RIGAMEL_NO_FUNCTION, count, 0);
}

/* The chunk in Lua's own numbers and in the house's: each ends main with a word that the other's table does not take for RETURN. */
static void check_sessions(const uint8_t *s, size_t n, const uint8_t *renumbered, size_t m, const uint8_t *lines,
                           const uint8_t *listing, size_t total)
{
    uint8_t luas[LENGTH];
    put_rotation(luas, 0);
    const edition own = {s, n, luas}, houses = {renumbered, m, lines};
    rigamel_reading r = rigamel_closed();
    const uint64_t last = rigamel_open(renumbered, m, &r).place;
    check_refused_opening(own, houses, last);
    check_refused_opening(houses, own, last);
    check_turns(own, houses, last, listing, total);
    check_turns(houses, own, last, listing, total);
}

/* ------------------------------------------------------------ tables that C made up */

/* By any table a chunk is opened to an answer, and the table is kept. */
static void answers(const uint8_t *s, size_t n, const uint8_t *table, uint64_t number, uint64_t place)
{
    rigamel_reading r = at(3, 4);
    memcpy(r.table, table, COUNT);
    const rigamel_answer a = rigamel_open(s, n, &r);
    CHECK(number == RIGAMEL_GIVEN ? gives(a, 1) : refuses(a, number, 0, place));
    CHECK(r.opened == (number == RIGAMEL_GIVEN) && r.next == 0 && memcmp(r.table, table, COUNT) == 0);
    r.opened = 3;
    if (number != RIGAMEL_GIVEN)
        refused(s, n, 4096, r, number, 0, place);
}

static void check_made_up(void)
{
    static uint8_t s[256], alone[256];
    uint8_t table[COUNT];
    const uint32_t close = 35, words[] = {word(MOVE, 0, 1, 0), word(close, 0, 0, 0), word(RETURN, 0, 1, 0)};
    const size_t n = put_chunk(s, 2, words, 3, NULL, 0, 0), m = put_chunk(alone, 2, words + 2, 1, NULL, 0, 0);

    memset(table, 0, COUNT); /* 0 stands for opcode 0, and 1 to 37 for none */
    answers(s, n, table, RIGAMEL_LAST, 2);
    answers(alone, m, table, RIGAMEL_LAST, 0);
    memset(table, 255, COUNT); /* no number stands for any */
    answers(s, n, table, RIGAMEL_LAST, 2);
    answers(alone, m, table, RIGAMEL_LAST, 0);

    for (uint32_t other = 0; other < 256; other++) { /* the number of MOVE is missing, or some other is it */
        memcpy(table, rigamel_closed().table, COUNT);
        table[MOVE] = (uint8_t)other;
        answers(alone, m, table, other == RETURN ? RIGAMEL_LAST : RIGAMEL_GIVEN, 0);
        if (other == RETURN)
            answers(s, n, table, RIGAMEL_LAST, 2);
        else if (other == MOVE)
            answers(s, n, table, RIGAMEL_GIVEN, 0);
        else
            answers(s, n, table, RIGAMEL_OPERAND, 0);
    }
    for (uint32_t other = 0; other < 256; other++) { /* the number of CLOSE too, behind RETURN: the first of two counts */
        memcpy(table, rigamel_closed().table, COUNT);
        table[close] = (uint8_t)other;
        answers(alone, m, table, RIGAMEL_GIVEN, 0);
        answers(s, n, table, other == close ? RIGAMEL_GIVEN : RIGAMEL_OPERAND, 1);
    }
    for (uint32_t above = COUNT; above < 64; above++) { /* a number above 37 stays, whatever the table has */
        const uint32_t last[] = {above}, first[] = {above, words[2]};
        memcpy(table, rigamel_closed().table, COUNT);
        table[RETURN] = (uint8_t)above;
        answers(s, put_chunk(s, 2, last, 1, NULL, 0, 0), table, RIGAMEL_LAST, 0);
        memcpy(table, rigamel_closed().table, COUNT);
        table[MOVE] = (uint8_t)above;
        answers(s, put_chunk(s, 2, first, 2, NULL, 0, 0), table, RIGAMEL_OPERAND, 0);
    }
}

/* ------------------------------------------------------------ printing */

static void check_printing(uint64_t number, uint64_t function, uint64_t place)
{
    char line[RIGAMEL_LINE_MOST + 1];
    const size_t length = (size_t)snprintf(line, sizeof line, "X%7llu%7llu%7llu\n", (unsigned long long)number,
                                           (unsigned long long)function, (unsigned long long)place);
    CHECK(rigamel_print_refusal(NULL, 0, number, function, place) == length);
    for (size_t size = 0; size <= RIGAMEL_LINE_MOST; size++) {
        const size_t written = size < length ? size : length;
        lent l = lend(size);
        CHECK(rigamel_print_refusal(l.out, l.size, number, function, place) == length);
        CHECK(memcmp(l.out, line, written) == 0);
        CHECK(untouched_behind(l, written));
    }
}

/* ------------------------------------------------------------ */

static uint8_t *read_file(const char *name, size_t *length)
{
    FILE *file = fopen(name, "rb");
    uint8_t *bytes = (uint8_t *)malloc(MOST);
    if (file != NULL && bytes != NULL) {
        *length = fread(bytes, 1, MOST, file);
        if (!ferror(file) && *length > 0) {
            fclose(file);
            return (uint8_t *)realloc(bytes, *length);
        }
    }
    fprintf(stderr, "interface: cannot read %s\n", name);
    exit(2);
}

int main(int argc, char **argv)
{
    if (argc != 5) {
        fprintf(stderr, "usage: interface CHUNK LISTING TABLE RENUMBERED\n");
        return 2;
    }
    size_t n, total, length, m;
    uint8_t *chunk = read_file(argv[1], &n);
    uint8_t *listing = read_file(argv[2], &total);
    uint8_t *lines = read_file(argv[3], &length);
    uint8_t *renumbered = read_file(argv[4], &m);

    house = rigamel_closed();
    CHECK(house.opened == 0 && house.next == 0);
    for (uint32_t i = 0; i < COUNT; i++)
        CHECK(house.table[i] == i);
    check_chunks();
    check_lines();
    check_deliveries(chunk, n, listing, total);
    check_made_up();
    check_sessions(chunk, n, renumbered, m, lines, listing, total);

    CHECK(gives(load(lines, length, &house), 0));
    check_chunks();
    check_lines();
    check_deliveries(renumbered, m, listing, total);
    check_loads();
    check_table_form();
    check_table_numbers();

    check_printing(RIGAMEL_TARGET, 3, 17);
    check_printing(RIGAMEL_NOT_OPENED, UINT32_MAX, 0);
    check_printing(0, 0, 0);
    check_printing(UINT64_MAX, UINT64_MAX, UINT64_MAX);
    free(chunk);
    free(listing);
    free(lines);
    free(renumbered);
    if (failures > 0) {
        fprintf(stderr, "interface: %d not so\n", failures);
        return 1;
    }
    return 0;
}
