/* Options, and arguments that are numbers. */
#include <stdlib.h>
#include <string.h>
#include "desk.h"

static bool is_option(const char *argument)
{
    return argument[0] == '-' && !is_standard_input(argument);
}

/* Puts the file behind a --table; `behind` is the argument there, or NULL. */
static status take_table(const command *called, const char *behind, const char **table)
{
    if (*table != NULL)
        return complain("'--table' is given twice; usage: rigamel %s", called->usage);
    if (behind == NULL || is_option(behind))
        return complain("'--table' has no file behind it; usage: rigamel %s", called->usage);
    *table = behind;
    return WELL;
}

status take_options(const command *called, int *count, char **arguments, const char **table)
{
    int left = 0;
    *table = NULL;
    for (int i = 0; i < *count; i++) {
        if (called->takes_table && strcmp(arguments[i], "--table") == 0) {
            i++;
            if (take_table(called, i < *count ? arguments[i] : NULL, table) != WELL)
                return WRONG;
        } else if (is_option(arguments[i])) {
            return complain("'%s' is no option (a file of that name is ./%s); usage: rigamel %s", arguments[i], arguments[i],
                            called->usage);
        } else {
            arguments[left++] = arguments[i];
        }
    }
    *count = left;
    return WELL;
}

bool is_number(const char *argument)
{
    return argument[0] != '\0' && argument[strspn(argument, "0123456789")] == '\0';
}

status read_function(const char *argument, uint32_t *function)
{
    unsigned long long number = strtoull(argument, NULL, 10); /* the greatest there is, where the argument is greater */
    if (!is_number(argument) || number > UINT32_MAX)
        return complain("'%s' is not the number of a function", argument);
    *function = (uint32_t)number;
    return WELL;
}
