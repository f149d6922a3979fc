/* Refusals in words. */
#include <inttypes.h>
#include "desk.h"

enum { WORDS_MOST = 2048 }; /* more than the longest row has */

static const refusal refusals[] = {
#define NOT_FROM_LUAC "get the file again from where it came: it is damaged, or it is not from luac"
#define OTHER_OPCODES \
    "Scripts of a program with its own numbering of opcodes usually end here too: give its table with --table. So do scripts " \
    "under a table that is not theirs"
#define FROM_0 "(counted from 0: in an editor one higher)"
#define TABLE_FORM \
    "a table is 38 lines, 304 bytes; a line is a number as a listing prints it, blanks and then digits without a leading zero, 7 " \
    "columns in all, and a line feed, without a carriage return"
#define WRITE_TABLE "where the numbers are right, from the top of Rigamel's sources: python3 examples/house.py < TABLE > NEW"
#define REFUSAL(number, first, last, counted, meaning, details, advice) {number, first, last, counted, meaning, details, advice},
#include "refusals.def"
#undef REFUSAL
    {0, 0, ANY_PLACE, "place", "rigamel.h names this refusal", "", "read there"}}; /* for a number without a row: there is none */

const refusal *all_refusals(void)
{
    return refusals;
}

static const refusal *row_of(rigamel_answer answer)
{
    const refusal *row = refusals;
    while (row->number != 0 && (row->number != answer.number || answer.place < row->first || row->last < answer.place))
        row++;
    return row;
}

static void describe(char *words, rigamel_answer answer)
{
    const refusal *row = row_of(answer);
    snprintf(words, WORDS_MOST, "refusal %" PRIu64 ", function %" PRIu64 ", %s %" PRIu64 ": %s; to do: %s", answer.number,
             answer.function, row->counted, answer.place, row->meaning, row->advice);
}

status print_refusal(const input_file *file, rigamel_answer answer)
{
    char words[WORDS_MOST];
    describe(words, answer);
    print("%s: %s\n", file->name, words);
    return REFUSED;
}

status tell_refusal(const input_file *file, rigamel_answer answer)
{
    char words[WORDS_MOST];
    describe(words, answer);
    complain("%s: %s", file->name, words);
    return REFUSED;
}
