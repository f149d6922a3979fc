/* House tables are loaded from files. */
#include "desk.h"

enum { ENOUGH = RIGAMEL_TABLE_LENGTH + 1 }; /* the library refuses a table of so many bytes, whatever they are */

status load_table(const char *name, rigamel_reading *reading)
{
    uint8_t lines[ENOUGH];
    input_file file = {name, lines, 0};
    if (read_file(&file, ENOUGH) != WELL)
        return WRONG;
    rigamel_answer answer = rigamel_load(file.bytes, file.length, reading);
    return answer.number == RIGAMEL_GIVEN ? WELL : tell_refusal(&file, answer);
}
