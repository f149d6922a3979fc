/* rigamel COMMAND ..: finds the command and runs it. */
#include <string.h>
#include "desk.h"

static bool asks_for_help(const char *argument)
{
    return strcmp(argument, "--help") == 0 || strcmp(argument, "-h") == 0;
}

/* Runs a command with the arguments behind its name. */
static status run(const command *called, int count, char **arguments)
{
    int standard = 0;
    for (int i = 0; i < count; i++) {
        if (asks_for_help(arguments[i]))
            return help_with(called);
        standard += is_standard_input(arguments[i]);
    }
    const char *table;
    if (take_options(called, &count, arguments, &table) != WELL)
        return WRONG;
    if (count < called->least)
        return complain("too few arguments; usage: rigamel %s", called->usage);
    if (count > called->most)
        return complain("too many arguments; usage: rigamel %s", called->usage);
    if (standard > 1)
        return complain("standard input can be read only once");
    rigamel_reading reading = rigamel_closed();
    status loaded = table == NULL ? WELL : load_table(table, &reading);
    return loaded == WELL ? called->run(count, arguments, reading) : loaded;
}

int main(int argc, char **argv)
{
    if (argc < 2)
        return complain("which command? 'rigamel help' shows them");
    const char *name = argv[1];
    if (asks_for_help(name))
        name = "help";
    if (strcmp(name, "--version") == 0)
        name = "version";
    const command *called = find_command(name);
    if (called == NULL)
        return complain("no command '%s'; 'rigamel help' shows them", name);
    status ended = run(called, argc - 2, argv + 2);
    end_printing();
    return ended;
}
