/* rigamel draw FILE FUNCTION [--table TABLE]: the graph of a function in Graphviz's language.
 *
 * It goes through the lines of the listing once: F, the K lines, then for each block its B, S and E lines. A B line begins a box,
 * the S lines are written into it, and each E line is an edge from it. */
#include <stdlib.h>
#include <string.h>
#include "desk.h"

enum {
    COLUMN = 7,    /* the width of a number in a line */
    NAMED = 2,     /* the numbers of an S line before the statement: its word and that word's opcode */
    IN_A_ROW = 16, /* the most numbers of an S line that stand side by side; the next row begins with .. */
    ROWS = 100     /* the rows behind which the statements of a box go on in its next column */
};

/* What is left of a listing. */
typedef struct {
    const char *line;
    const char *end;
} listing;

/* The letter of the next line; none behind the last. */
static char letter(const listing *l)
{
    return l->line < l->end ? l->line[0] : '\0';
}

/* Where the next line ends, at its line feed. */
static const char *line_end(const listing *l)
{
    return memchr(l->line, '\n', (size_t)(l->end - l->line));
}

static void next_line(listing *l)
{
    l->line = line_end(l) + 1;
}

/* Number i of the next line. */
static unsigned long number(const listing *l, size_t i)
{
    char digits[COLUMN + 1] = "";
    memcpy(digits, l->line + 1 + i * COLUMN, COLUMN);
    return strtoul(digits, NULL, 10);
}

/* The head of the drawing, by the F line. */
static void draw_function(const listing *l)
{
    unsigned long function = number(l, 0), parameters = number(l, 1), upvalues = number(l, 2), registers = number(l, 3);
    print("digraph function_%lu {\n"
          "  label=\"function %lu: parameters %lu, upvalues %lu, registers %lu\\n\\n\";\n"
          "  labelloc=t;\n"
          "  fontname=\"Courier,monospace\";\n"
          "  node [shape=record, fontname=\"Courier,monospace\", fontsize=12];\n"
          "  edge [fontname=\"Courier,monospace\", fontsize=10];\n",
          function, function, parameters, upvalues, registers);
}

/* One of what is counted, or several. */
static void put_span(const char *counted, unsigned long first, unsigned long last)
{
    if (first == last)
        print("%s %lu", counted, first);
    else
        print("%ss %lu to %lu", counted, first, last);
}

static void put_words(unsigned long first, unsigned long past)
{
    if (first == past)
        print("no words");
    else
        put_span("word", first, past - 1);
}

/* The source lines of a block, in a row of their own; nothing where both are 0. */
static void put_lines(unsigned long lowest, unsigned long highest)
{
    if (highest == 0)
        return;
    print("\\n");
    put_span("line", lowest, highest);
}

/* The head of a box, by a B line. In its label { | } make parts, \n ends a row, and \l one that is set to the left. */
static void put_head(const listing *l)
{
    enum { CODE, ENTRY, BETWEEN };
    static const char *const styles[] = {[CODE] = "solid", [ENTRY] = "bold", [BETWEEN] = "dashed"};
    static const char *const names[] = {[CODE] = "", [ENTRY] = "entry", [BETWEEN] = "between"};
    unsigned long block = number(l, 0), first = number(l, 1), past = number(l, 2), kind = number(l, 3);
    unsigned long lowest = number(l, 4), highest = number(l, 5);
    print("  %lu [style=%s, label=\"{block %lu: %s", block, styles[kind], block, names[kind]);
    if (kind == CODE)
        put_words(first, past);
    put_lines(lowest, highest);
}

/* What stands before number i of an S line. */
static const char *before(size_t i)
{
    if (i == 0)
        return "";
    if (i == NAMED)
        return ": ";
    return i % IN_A_ROW == 0 ? "\\l.. " : " ";
}

/* A statement is written into the box, by an S line. Gives the count of rows. */
static size_t put_statement(const listing *l)
{
    size_t count = (size_t)(line_end(l) - l->line - 1) / COLUMN;
    for (size_t i = 0; i < count; i++)
        print("%s%lu", before(i), number(l, i));
    print("\\l");
    return (count + IN_A_ROW - 1) / IN_A_ROW;
}

/* The statements of a box, below its head, in columns. */
static void put_statements(listing *l)
{
    size_t rows = 0;
    print("|{");
    for (; letter(l) == 'S'; next_line(l)) {
        if (rows >= ROWS) {
            print("|");
            rows = 0;
        }
        rows += put_statement(l);
    }
    print("}");
}

/* An edge from a block, by an E line. The blank before its name keeps that off the line. */
static void draw_edge(unsigned long block, const listing *l)
{
    enum { PLAIN, THEN, ELSE };
    static const char *const looks[] = {[PLAIN] = "label=\" plain\", fontcolor=gray40",
                                        [THEN] = "label=\" Then\"",
                                        [ELSE] = "label=\" Else\", style=dashed"};
    unsigned long kind = number(l, 0), target = number(l, 1);
    print("  %lu -> %lu [%s];\n", block, target, looks[kind]);
}

static void draw_block(listing *l)
{
    unsigned long block = number(l, 0);
    put_head(l);
    next_line(l);
    if (letter(l) == 'S')
        put_statements(l);
    print("}\"];\n");
    for (; letter(l) == 'E'; next_line(l))
        draw_edge(block, l);
}

static void draw_listing(const char *bytes, size_t length)
{
    listing l = {bytes, bytes + length};
    draw_function(&l);
    for (next_line(&l); letter(&l) == 'K'; next_line(&l))
        ;
    while (letter(&l) != '\0')
        draw_block(&l);
    print("}\n");
}

static status draw_file(const input_file *file, rigamel_reading reading, const void *asked)
{
    const uint32_t *function = asked;
    output out = {NULL, 0};
    rigamel_answer answer = rigamel_open(file->bytes, file->length, &reading);
    if (answer.number == RIGAMEL_GIVEN)
        answer = deliver(file, *function, &out, &reading);
    if (answer.number == RIGAMEL_GIVEN)
        draw_listing((const char *)out.bytes, answer.length);
    free(out.bytes);
    return answer.number == RIGAMEL_GIVEN ? WELL : tell_refusal(file, answer);
}

status run_draw(int count, char **arguments, rigamel_reading reading)
{
    (void)count;
    uint32_t function;
    if (read_function(arguments[1], &function) != WELL)
        return WRONG;
    return each_file(1, arguments, reading, draw_file, &function);
}
