/* Listings are delivered into a buffer that grows. */
#include <errno.h>
#include <stdlib.h>
#include <string.h>
#include "desk.h"

static void lengthen(const input_file *file, output *out, size_t size)
{
    out->bytes = realloc(out->bytes, size);
    if (out->bytes == NULL)
        exit(complain("%s: %s", file->name, strerror(errno)));
    out->size = size;
}

rigamel_answer deliver(const input_file *file, uint32_t function, output *out, rigamel_reading *reading)
{
    reading->next = function;
    if (out->size == 0)
        lengthen(file, out, RIGAMEL_OUTPUT_FIRST);
    for (;;) {
        rigamel_answer answer = rigamel_deliver(file->bytes, file->length, out->bytes, out->size, reading);
        if (answer.number != RIGAMEL_OUTPUT_SHORT)
            return answer;
        lengthen(file, out, 2 * out->size);
    }
}
