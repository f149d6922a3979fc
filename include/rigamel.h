/* Rigamel: flow listings of the functions of a compiled Lua 5.1 chunk.
 *
 * A program opens a chunk, and then has the listings of its functions delivered one after the other into a buffer of its own,
 * which it makes longer where a listing does not fit:
 *
 *     size_t size = RIGAMEL_OUTPUT_FIRST;
 *     uint8_t *out = malloc(size);
 *     rigamel_reading reading = rigamel_closed();
 *     rigamel_answer answer = rigamel_open(chunk, length, &reading);
 *     while (answer.number == RIGAMEL_GIVEN || answer.number == RIGAMEL_OUTPUT_SHORT) {
 *         if (answer.number == RIGAMEL_OUTPUT_SHORT)
 *             out = realloc(out, size *= 2);        (33: the same function is asked for again)
 *         answer = rigamel_deliver(chunk, length, out, size, &reading);
 *         if (answer.number == RIGAMEL_GIVEN)
 *             ...                                   (the first answer.length bytes of out are the next function's listing)
 *     }
 *
 * Then answer.number is RIGAMEL_NO_FUNCTION, 32, where all functions were delivered. Any other number is 1 to 15: the opening
 * refused the chunk, and nothing was delivered. (31 comes only where no chunk is open. Whoever lends a delivery other bytes than
 * were opened, or loads a table in between, may meet 1 to 15 there, and 32 earlier or later.)
 *
 * Chunks of a program whose opcodes were renumbered are read by a house table: it says which number files use for each of Lua's
 * opcodes. It is loaded into the reading before the opening, from the bytes of its file, and stays there:
 *
 *     rigamel_reading reading = rigamel_closed();
 *     rigamel_answer answer = rigamel_load(lines, lines_length, &reading);
 *     if (answer.number != RIGAMEL_GIVEN)
 *         ...                                       (34 or 35: the table is refused, answer.place is its line, from 0)
 *     answer = rigamel_open(chunk, length, &reading);
 *
 * examples/c/listing.c is such a program; it also looks at what malloc, realloc, reading and writing answer. To begin with fewer
 * bytes costs time: a delivery that ends in 33 has judged the chunk and counted the listing, more than half of what a delivery
 * costs.
 *
 * A listing is lines: a letter, then decimal numbers in 7 columns each. A block's line is B, its number, its first word, one past
 * the last, its kind, and the lowest and the highest source line of its words, both 0 where the block has no words or the function
 * no lines. A statement's line is S, the word that gives it, that word's opcode, and the statement; in the entry block, to which no
 * word belongs, the function's count of words and 99 stand for the first two. README.md and rigamel(1) tell about all lines.
 *
 * Link librigamel.a (x86-64 Linux): `pkg-config --cflags --libs rigamel` where it is installed, else target/staticlib/librigamel.a.
 *
 * What holds of every call:
 *
 * - It works on what is lent to it until it returns, and keeps nothing: there is no state but the reading, no allocation, nothing
 *   to free. Calls on different memory may run at the same time.
 * - A slice of bytes is a pointer and a length. With length 0 the pointer may be NULL, and nothing is read or written through it.
 *   With another length it points to that many bytes. A length is at most PTRDIFF_MAX. A pointer to a reading is never NULL.
 * - Input, output and reading may not overlap, and no one else may write them while the call runs. The input is only read.
 * - There is an answer for every input, reading and output, whatever their length and content. A refusal is an answer.
 * - It takes at most some 240 KiB of stack (measured, not proved).
 *
 * What each function below is said to do its contract in crates/rigamel says too, and that is proved of its source. That this
 * header says the same, and that the compiled archive does what the source says, is not proved (docs/PROOF.md); tests/c/run tries
 * it. The numbers of the refusals are those of the scope document and of its change requests.
 */
#ifndef RIGAMEL_H
#define RIGAMEL_H

#include <stddef.h>
#include <stdint.h>

#ifdef __cplusplus
extern "C" {
#endif

/* The version of Rigamel. It is raised with what users or programs in C can see. 0.2: an S line begins with the word behind its
 * statement and that word's opcode. 0.3: a B line ends with the lowest and the highest source line of its block; refusal 15. 0.4:
 * house tables, rigamel_load, the table in a reading; refusals 34 and 35. A program that was compiled with an older header is
 * compiled again: a reading has become longer, and rigamel_open reads its table. */
#define RIGAMEL_VERSION "0.4"

/* The count of Lua's opcodes, 0 to 37: so many numbers a table has. */
#define RIGAMEL_OPCODES 38

/* The length of a table as rigamel_load takes it: a line of 8 bytes for each opcode. Who has read one byte more can stop: a table
 * of another length is refused by 34. */
#define RIGAMEL_TABLE_LENGTH 304

/* A reading of a chunk. The caller keeps it, may copy it, and lends it to each call, which alters it; it begins as rigamel_closed
 * gives it. `opened` is 0 where it is closed, and any other number where it is open; `next` is the function whose listing comes
 * next; table[i] is the number that files use for Lua's opcode i.
 *
 * Each word of a chunk is read with its opcode put back by the table, before anything else is judged of it: number table[i] stands
 * for opcode i, and a number above 37 stays. So a chunk is listed, or refused, as the same chunk in Lua's own numbers is by Lua's
 * own table; its listing has Lua's opcodes.
 *
 * Any numbers may stand in a reading, also in its table, though only rigamel_closed and rigamel_load put one there that has each
 * of 0 to 37 once. A number that several entries have stands for the first of them. A number to 37 that no entry has becomes 38,
 * which no opcode has: a word with it is refused by 9, and a function whose last word has it by 8. An entry above 37 stands for no
 * number. */
typedef struct rigamel_reading {
    uint32_t opened;
    uint32_t next;
    uint8_t table[RIGAMEL_OPCODES];
} rigamel_reading;

/* An answer. Where `number` is 0 (RIGAMEL_GIVEN) nothing is refused, and `length` is what is given, 0 for a load; `function` and
 * `place` are 0. Where it is not, it is the number of a refusal, with its function and place; `length` is 0. */
typedef struct rigamel_answer {
    uint64_t number;
    uint64_t function;
    uint64_t place;
    uint64_t length;
} rigamel_answer;

/* The numbers of the refusals. For 1 to 6 the function is 0, and the place an offset into the chunk. For 7 to 15 the function is
 * the one at fault, and the place a word of it, but 0 for 7 and where it has no words. For 31 to 33 the function is the reading's
 * next one, and the place 0. For 34 and 35 the function is 0, and the place a line of the table, the first being line 0; it is 0
 * for a wrong length. `rigamel help refusals` says what to do about each. */
enum rigamel_number {
    RIGAMEL_GIVEN = 0,              /* no refusal */
    RIGAMEL_TOO_LONG = 1,           /* over 65,536 bytes; place 0 */
    RIGAMEL_HEADER = 2,             /* a header byte differs */
    RIGAMEL_ENDED = 3,              /* bytes end inside a field */
    RIGAMEL_OUT_OF_RANGE = 4,       /* words above 8,192; another count or string size above 65,536; kind not listed; boolean
                                       above 1; flags above 7; absent constant string; string not ending in 0 */
    RIGAMEL_TOO_MANY_FUNCTIONS = 5, /* a 257th function, or depth 33 */
    RIGAMEL_LEFT_OVER = 6,          /* bytes left over */
    RIGAMEL_HEAD = 7,               /* stack above 250; parameters plus flag 1 above stack; flag 4 without flag 1; word lines
                                       neither 0 nor as many as words; more upvalue names than upvalues */
    RIGAMEL_LAST = 8,               /* no words, or the last is not RETURN */
    RIGAMEL_OPERAND = 9,            /* opcode above 37, or an operand outside */
    RIGAMEL_TARGET = 10,            /* target or skip outside the words */
    RIGAMEL_JUMP = 11,              /* a test or TFORLOOP whose next word is not JMP */
    RIGAMEL_RESULTS = 12,           /* open results not used by the next word of the same range, or a user with none before it, or
                                       with its first slot above the opener's A; TAILCALL not used by RETURN with the same A */
    RIGAMEL_CAPTURES = 13,          /* CLOSURE not followed in its range by a MOVE or GETUPVAL for each upvalue of its function */
    RIGAMEL_SHARED = 14,            /* the word after TESTSET is a jump target or skip of any word, itself included */
    RIGAMEL_LINE = 15,              /* a word's source line above 999,999 */
    RIGAMEL_NOT_OPENED = 31,        /* not opened: the reading is closed */
    RIGAMEL_NO_FUNCTION = 32,       /* the next function is not below the lent chunk's count: all of them are delivered */
    RIGAMEL_OUTPUT_SHORT = 33,      /* output shorter than the listing: lend a longer one */
    RIGAMEL_TABLE_FORM = 34,        /* a table of another length, or a line of it that is not a number in 7 columns */
    RIGAMEL_TABLE_NUMBER = 35       /* a number of a table above 37, or one that an earlier line has */
};

/* The most bytes that a chunk may have. Who has read one byte more can stop: the chunk is refused by 1. */
#define RIGAMEL_CHUNK_MOST 65536

/* With how many bytes of output to begin: only a function that the listing program refuses with 33 asks for more. */
#define RIGAMEL_OUTPUT_FIRST 65536

/* The most bytes that rigamel_print_refusal prints, whatever the numbers. */
#define RIGAMEL_LINE_MOST 62

/* A closed reading at function 0 with Lua's own table, as every reading begins: 0, 0, { 0, 1, .. 37 }. */
rigamel_reading rigamel_closed(void);

/* Loads the `length` bytes at `lines` as the table of *reading.
 *
 * They are 38 lines, 304 bytes. A line is a number as a listing prints it, that is blanks and then digits without a leading zero,
 * 7 columns in all, and a line feed. The line at position i, from 0, is the number that files use for Lua's opcode i: each of 0 to
 * 37 stands in one line. In this order:
 *   another length                      34, RIGAMEL_TABLE_FORM, place 0
 *   a line of another form              34, RIGAMEL_TABLE_FORM, the first such line
 *   a number above 37, or one that      35, RIGAMEL_TABLE_NUMBER, the first such line
 *   an earlier line has
 * and a refused load leaves *reading as it was.
 *
 * Else the answer gives 0, and reading->table has the numbers. No load moves the reading: reading->opened and reading->next are as
 * they were. Openings and deliveries from then on go by the new table, also a delivery of what was opened before. */
rigamel_answer rigamel_load(const uint8_t *lines, size_t length, rigamel_reading *reading);

/* Judges the `length` bytes at `chunk`, whole, by the table of *reading.
 *
 * Where the chunk is accepted the answer gives its count of functions, at most 256, and *reading is open at function 0: opened is
 * 1 and next 0. Where it is refused the answer is its first refusal, 1 to 15, and *reading is closed at function 0: both are 0.
 * An opening, refused or not, keeps the table; what else stood in *reading does not matter. */
rigamel_answer rigamel_open(const uint8_t *chunk, size_t length, rigamel_reading *reading);

/* Writes the listing of function reading->next of the chunk to the start of the output, and moves the reading on by one.
 *
 * The chunk is judged afresh, by the table of *reading: it need not be the one that was opened, or stand where it stood, nor need
 * the table be the same. In this order:
 *   a closed reading           31, RIGAMEL_NOT_OPENED
 *   a refused chunk            1 to 15
 *   no function of the number  32, RIGAMEL_NO_FUNCTION
 *   too short an output        33, RIGAMEL_OUTPUT_SHORT
 * and a refused delivery leaves *reading and every byte of the output as they were.
 *
 * Else the answer gives the length of the listing; that many bytes at `out` are the listing, the bytes behind them stay as they
 * were; reading->next is one more, and reading->opened and the table are as they were. */
rigamel_answer rigamel_deliver(const uint8_t *chunk, size_t length, uint8_t *out, size_t size, rigamel_reading *reading);

/* Prints the line of a refusal, `X` with the three numbers and a line feed, to the start of the output, and gives its length, at
 * most RIGAMEL_LINE_MOST. Where the output is shorter than that, its `size` bytes are the beginning of the line; the bytes behind
 * the line stay as they were. */
uint64_t rigamel_print_refusal(uint8_t *out, size_t size, uint64_t number, uint64_t function, uint64_t place);

#ifdef __cplusplus
}
#endif

#endif
