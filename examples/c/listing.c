/* Prints the listings of a compiled chunk, or one line X: listing FILE [TABLE]
 *
 * TABLE is a house table of opcode numbers, by which the chunk is read.
 *
 * Exit status: 0 where all listings are printed, 1 where the chunk or the table is refused; of a refused table a line on standard
 * error says which line it is. Where a file cannot be read or the output not written whole, or memory runs out, it is 2, and a
 * line on standard error says why. */
#include <stdio.h>
#include <stdlib.h>
#include "rigamel.h"

#ifndef FIRST_SIZE
#define FIRST_SIZE RIGAMEL_OUTPUT_FIRST
#endif

static void fail(const char *what)
{
    perror(what);
    exit(2);
}

/* Reads the first `most` bytes of a file, or all if it has fewer, and gives their count. */
static size_t read_file(const char *name, uint8_t *bytes, size_t most)
{
    FILE *file = fopen(name, "rb");
    if (file == NULL)
        fail(name);
    size_t length = fread(bytes, 1, most, file);
    if (ferror(file))
        fail(name);
    fclose(file); /* it was only read: nothing can be lost here */
    return length;
}

static void print(const uint8_t *bytes, size_t length)
{
    if (fwrite(bytes, 1, length, stdout) != length)
        fail("standard output");
}

static uint8_t *resize(uint8_t *out, size_t size)
{
    out = (uint8_t *)realloc(out, size);
    if (out == NULL)
        fail("listing");
    return out;
}

/* Loads the table of a file. */
static void load_table(const char *name, rigamel_reading *reading)
{
    uint8_t lines[RIGAMEL_TABLE_LENGTH + 1]; /* with one byte more, a longer file is seen to be too long */
    size_t length = read_file(name, lines, sizeof lines);
    rigamel_answer answer = rigamel_load(lines, length, reading);
    if (answer.number != RIGAMEL_GIVEN) {
        fprintf(stderr, "%s: refusal %d, line %d of the table, the first being 0\n", name, (int)answer.number, (int)answer.place);
        exit(1);
    }
}

/* Prints all listings of a chunk into an output that grows as 33 asks. Gives the answer that ended them: 32, or the refusal. */
static rigamel_answer print_listings(const uint8_t *chunk, size_t length, rigamel_reading reading)
{
    size_t size = FIRST_SIZE;
    uint8_t *out = resize(NULL, size);
    rigamel_answer answer = rigamel_open(chunk, length, &reading);
    while (answer.number == RIGAMEL_GIVEN || answer.number == RIGAMEL_OUTPUT_SHORT) {
        if (answer.number == RIGAMEL_OUTPUT_SHORT) {
            size *= 2;
            out = resize(out, size);
        }
        answer = rigamel_deliver(chunk, length, out, size, &reading);
        if (answer.number == RIGAMEL_GIVEN)
            print(out, answer.length);
    }
    free(out);
    return answer;
}

int main(int argc, char **argv)
{
    static uint8_t chunk[RIGAMEL_CHUNK_MOST + 1]; /* with one byte more, a longer file is seen to be too long */
    if (argc != 2 && argc != 3) {
        fprintf(stderr, "usage: listing FILE [TABLE]\n");
        return 2;
    }
    rigamel_reading reading = rigamel_closed();
    if (argc == 3)
        load_table(argv[2], &reading);
    size_t length = read_file(argv[1], chunk, sizeof chunk);
    rigamel_answer end = print_listings(chunk, length, reading);
    int refused = end.number != RIGAMEL_NO_FUNCTION;
    if (refused) {
        uint8_t line[RIGAMEL_LINE_MOST];
        print(line, rigamel_print_refusal(line, sizeof line, end.number, end.function, end.place));
    }
    if (fclose(stdout) != 0) /* what stood in its buffer is written now */
        fail("standard output");
    return refused;
}
