/* rigamel list FILE [FUNCTION | FILE..] [--table TABLE]: the listings of all functions, or of one. */
#include <stdlib.h>
#include "desk.h"

/* What is listed. */
typedef struct {
    bool several;      /* several files, each under a heading */
    bool one;          /* one function alone */
    uint32_t function; /* that one, or the first */
} selection;

static status refused(const input_file *file, rigamel_answer answer)
{
    uint8_t line[RIGAMEL_LINE_MOST];
    print_bytes(line, rigamel_print_refusal(line, sizeof line, answer.number, answer.function, answer.place));
    return tell_refusal(file, answer);
}

static status list_file(const input_file *file, rigamel_reading reading, const void *asked)
{
    const selection *which = asked;
    if (which->several)
        print("==> %s <==\n", file->name);
    output out = {NULL, 0};
    rigamel_answer answer = rigamel_open(file->bytes, file->length, &reading);
    uint64_t past = which->one ? (uint64_t)which->function + 1 : answer.length;
    for (uint64_t f = which->function; f < past && answer.number == RIGAMEL_GIVEN; f++) {
        answer = deliver(file, (uint32_t)f, &out, &reading);
        print_bytes(out.bytes, answer.length);
    }
    free(out.bytes);
    return answer.number == RIGAMEL_GIVEN ? WELL : refused(file, answer);
}

status run_list(int count, char **arguments, rigamel_reading reading)
{
    selection which = {.one = count == 2 && is_number(arguments[1])};
    if (which.one && read_function(arguments[1], &which.function) != WELL)
        return WRONG;
    int files = which.one ? 1 : count;
    which.several = files > 1;
    return each_file(files, arguments, reading, list_file, &which);
}
