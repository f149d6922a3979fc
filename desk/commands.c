/* Commands by name. */
#include <limits.h>
#include <string.h>
#include "desk.h"

static const command commands[] = {
#define COMMAND(name, usage, least, most, takes_table, summary, details) \
    {#name, usage, least, most, takes_table, summary, details, run_##name},
#include "commands.def"
#undef COMMAND
    {NULL, NULL, 0, 0, false, NULL, NULL, NULL}};

const command *all_commands(void)
{
    return commands;
}

const command *find_command(const char *name)
{
    for (const command *row = commands; row->name != NULL; row++)
        if (strcmp(row->name, name) == 0)
            return row;
    return NULL;
}
