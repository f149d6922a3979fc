/* rigamel help [COMMAND | NUMBER | refusals]: what the tables of commands and refusals have to say. */
#include <inttypes.h>
#include <stdlib.h>
#include <string.h>
#include "desk.h"

static const char about_tables[] =
    "--table may stand anywhere behind the command, once: all files are read by the house table\n"
    "in TABLE, and listings have Lua's opcodes. It is 38 lines, each a number in 7 columns and a\n"
    "line feed; line i, from 0, gives the number that files use for Lua's opcode i. Where the\n"
    "table is refused nothing is printed: what is wrong goes to standard error.\n";

static status help_with_all(void)
{
    print("Flow listings of the functions of compiled Lua 5.1 chunks.\n\n");
    for (const command *row = all_commands(); row->name != NULL; row++)
        print("rigamel %s\n    %s\n", row->usage, row->summary);
    print("\nFILE is a compiled chunk; TABLE is a house table of opcode numbers, for chunks of a program that\n"
          "has its own; either may be - for standard input. FUNCTION is a number, and main is 0.\n"
          "The exit status is 0 where all is well, 1 where something is refused, and 2 for a wrong call,\n"
          "a file that cannot be read or an output that cannot be written.\n");
    return WELL;
}

status help_with(const command *asked)
{
    print("rigamel %s: %s\n\n%s", asked->usage, asked->summary, asked->details);
    if (asked->takes_table)
        print("\n%s", about_tables);
    return WELL;
}

static void put_places(const refusal *row)
{
    if (row->last == ANY_PLACE)
        print("%s", row->counted);
    else if (row->first == row->last)
        print("%s %" PRIu64, row->counted, row->first);
    else
        print("%s %" PRIu64 " to %" PRIu64, row->counted, row->first, row->last);
}

static void put_row(const refusal *row)
{
    print("%" PRIu64 ", ", row->number);
    put_places(row);
    print(": %s\n    in full: %s\n    to do: %s\n", row->meaning, row->details, row->advice);
}

/* All refusals, or those of a number. */
static status help_with_refusals(bool all, uint64_t number)
{
    bool found = false;
    for (const refusal *row = all_refusals(); row->number != 0; row++)
        if (all || row->number == number) {
            put_row(row);
            found = true;
        }
    return found ? WELL : complain("no refusal has that number; 'rigamel help refusals' tells about all");
}

status run_help(int count, char **arguments, rigamel_reading reading)
{
    (void)reading;
    if (count == 0)
        return help_with_all();
    const command *asked = find_command(arguments[0]);
    if (asked != NULL)
        return help_with(asked);
    if (strcmp(arguments[0], "refusals") == 0)
        return help_with_refusals(true, 0);
    if (is_number(arguments[0]))
        return help_with_refusals(false, strtoull(arguments[0], NULL, 10));
    return complain("nothing is known about '%s'; 'rigamel help' shows the commands", arguments[0]);
}
