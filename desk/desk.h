/* What the commands of the desk share.
 *
 * The desk reads files, lends buffers and writes what the library gives. What stands in a chunk only the library knows: every
 * listing, count and refusal comes from a function of rigamel.h. */
#ifndef DESK_H
#define DESK_H

#include <stdbool.h>
#include <stddef.h>
#include <stdint.h>
#include <stdio.h>
#include "rigamel.h"

/* How a run ends. Of several files the worst counts. */
typedef enum {
    WELL = 0,
    REFUSED = 1, /* a chunk, a function or a table was refused */
    WRONG = 2    /* a wrong call, a file that cannot be read, an output that cannot be written, no memory */
} status;

/* ------------------------------------------------------------ printing.c: what is printed, and messages */

/* Both print to standard output. Where that cannot be written, a message says why and the run ends. */
void print(const char *format, ...) __attribute__((format(printf, 1, 2)));
void print_bytes(const uint8_t *bytes, size_t length);

/* Writes what is left of standard output. */
void end_printing(void);

/* Says something on standard error, in one line. Gives WRONG. */
status complain(const char *format, ...) __attribute__((format(printf, 1, 2)));

/* ------------------------------------------------------------ files.c: files are read */

/* A chunk or a table as it stands in a file: all bytes, or one more than it may have, for which the library refuses it. */
typedef struct {
    const char *name; /* as messages and headings show it */
    uint8_t *bytes;
    size_t length;
} input_file;

/* Whether a name stands for standard input. */
bool is_standard_input(const char *name);

/* Reads at most so many bytes of a file to file->bytes, by its name. Gives WELL, or WRONG behind a message. */
status read_file(input_file *file, size_t most);

/* What a command does with one chunk, by what was asked. The reading is closed, and has the table by which the chunk is read. */
typedef status on_file(const input_file *file, rigamel_reading reading, const void *asked);

/* Reads one chunk after the other, and does with each what `each` does, always from the same reading. Gives the worst status; a
 * file that cannot be read is named on standard error and passed over. */
status each_file(int count, char **names, rigamel_reading reading, on_file *each, const void *asked);

/* ------------------------------------------------------------ tables.c: house tables are loaded */

/* Loads the table of a file. Gives WELL; REFUSED behind the refusal in words, on standard error; or WRONG behind a message. */
status load_table(const char *name, rigamel_reading *reading);

/* ------------------------------------------------------------ listings.c: listings are delivered */

/* A buffer that is lent for listings. It begins as { NULL, 0 }. */
typedef struct {
    uint8_t *bytes;
    size_t size;
} output;

/* Delivers the listing of a function, however long it is: the output grows, and the answer is never 33. Where there is no memory
 * for it the run ends. */
rigamel_answer deliver(const input_file *file, uint32_t function, output *out, rigamel_reading *reading);

/* ------------------------------------------------------------ refusals.c: refusals in words */

/* A row of refusals.def. */
typedef struct {
    uint64_t number;
    uint64_t first, last; /* the places that it is for; to ANY_PLACE where there is no last */
    const char *counted;  /* what places count */
    const char *meaning;
    const char *details;
    const char *advice;
} refusal;

#define ANY_PLACE UINT64_MAX

/* All rows; a row of number 0 ends them. */
const refusal *all_refusals(void);

/* Both say in one line why a file is refused: its name, the refusal's number, function and place, what it means and what to do.
 * The first prints it; the second says it on standard error. They give REFUSED. */
status print_refusal(const input_file *file, rigamel_answer answer);
status tell_refusal(const input_file *file, rigamel_answer answer);

/* ------------------------------------------------------------ commands.c: commands by name */

/* A row of commands.def. */
typedef struct {
    const char *name;
    const char *usage;
    int least, most;  /* how many arguments it takes */
    bool takes_table; /* whether it takes --table */
    const char *summary;
    const char *details;
    status (*run)(int count, char **arguments, rigamel_reading reading); /* chunks are opened from the reading */
} command;

#define COMMAND(name, usage, least, most, takes_table, summary, details) \
    status run_##name(int count, char **arguments, rigamel_reading reading);
#include "commands.def"
#undef COMMAND

/* All rows; a row without a name ends them. */
const command *all_commands(void);

/* The command of a name, or NULL. */
const command *find_command(const char *name);

/* ------------------------------------------------------------ arguments.c: options, and arguments that are numbers */

/* Takes the options out of the arguments of a command, wherever they stand, and puts the file behind --table, or NULL. Gives WELL,
 * or WRONG behind a message. */
status take_options(const command *called, int *count, char **arguments, const char **table);

/* Whether an argument has digits alone. */
bool is_number(const char *argument);

/* Puts the function that an argument names. Gives WELL, or WRONG behind a message. */
status read_function(const char *argument, uint32_t *function);

/* ------------------------------------------------------------ help.c */

/* Tells about a command. */
status help_with(const command *asked);

#endif
