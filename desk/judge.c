/* rigamel judge FILE.. [--table TABLE]: how many functions a file has, or why it is refused. */
#include <inttypes.h>
#include "desk.h"

static status judge_file(const input_file *file, rigamel_reading reading, const void *asked)
{
    (void)asked;
    rigamel_answer answer = rigamel_open(file->bytes, file->length, &reading);
    if (answer.number != RIGAMEL_GIVEN)
        return print_refusal(file, answer);
    print("%s: %" PRIu64 " %s\n", file->name, answer.length, answer.length == 1 ? "function" : "functions");
    return WELL;
}

status run_judge(int count, char **arguments, rigamel_reading reading)
{
    return each_file(count, arguments, reading, judge_file, NULL);
}
