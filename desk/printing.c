/* What is printed, and messages. */
#include <errno.h>
#include <stdarg.h>
#include <stdlib.h>
#include <string.h>
#include "desk.h"

/* Ends the run, since standard output cannot be written. */
static void unwritten(void)
{
    fprintf(stderr, "rigamel: standard output: %s\n", strerror(errno));
    exit(WRONG);
}

void print(const char *format, ...)
{
    va_list parts;
    va_start(parts, format);
    if (vprintf(format, parts) < 0)
        unwritten();
    va_end(parts);
}

void print_bytes(const uint8_t *bytes, size_t length)
{
    if (fwrite(bytes, 1, length, stdout) != length)
        unwritten();
}

static void flush(void)
{
    if (fflush(stdout) != 0)
        unwritten();
}

void end_printing(void)
{
    flush();
    if (fclose(stdout) != 0 && errno != EBADF) /* EBADF: it is not open, and nothing was printed */
        unwritten();
}

status complain(const char *format, ...)
{
    va_list parts;
    va_start(parts, format);
    flush(); /* a message stands behind what was printed before it, never inside a line */
    fputs("rigamel: ", stderr);
    vfprintf(stderr, format, parts);
    fputc('\n', stderr);
    va_end(parts);
    return WRONG;
}
