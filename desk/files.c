/* Files are read. */
#include <errno.h>
#include <stdlib.h>
#include <string.h>
#include "desk.h"

enum { ENOUGH = RIGAMEL_CHUNK_MOST + 1 }; /* the library refuses a chunk of so many bytes, whatever they are */

bool is_standard_input(const char *name)
{
    return strcmp(name, "-") == 0;
}

static status unreadable(const input_file *file)
{
    return complain("%s: %s", file->name, strerror(errno));
}

static status read_stream(input_file *file, size_t most, FILE *from)
{
    file->length = fread(file->bytes, 1, most, from);
    return ferror(from) ? unreadable(file) : WELL;
}

status read_file(input_file *file, size_t most)
{
    if (is_standard_input(file->name)) {
        file->name = "standard input";
        return read_stream(file, most, stdin);
    }
    FILE *from = fopen(file->name, "rb");
    if (from == NULL)
        return unreadable(file);
    status read = read_stream(file, most, from);
    fclose(from); /* it was only read: nothing can be lost here */
    return read;
}

static status one_file(const char *name, rigamel_reading reading, on_file *each, const void *asked)
{
    input_file file = {name, malloc(ENOUGH), 0};
    if (file.bytes == NULL)
        return unreadable(&file);
    status ended = read_file(&file, ENOUGH);
    if (ended == WELL)
        ended = each(&file, reading, asked);
    free(file.bytes);
    return ended;
}

status each_file(int count, char **names, rigamel_reading reading, on_file *each, const void *asked)
{
    status worst = WELL;
    for (int i = 0; i < count; i++) {
        status ended = one_file(names[i], reading, each, asked);
        if (ended > worst)
            worst = ended;
    }
    return worst;
}
