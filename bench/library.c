/* Has every function of the chunk on standard input delivered into 65,536 bytes, and prints only how many were: library < FILE
 *
 * Exit status: 0 where all functions were delivered, 1 where the chunk is refused or a listing does not fit, 2 where the input
 * cannot be read. */
#include <inttypes.h>
#include <stdio.h>
#include "rigamel.h"

int main(void)
{
    static uint8_t chunk[RIGAMEL_CHUNK_MOST + 1]; /* with one byte more, a longer one is seen to be too long */
    static uint8_t out[RIGAMEL_OUTPUT_FIRST];
    size_t length = fread(chunk, 1, sizeof chunk, stdin);
    if (ferror(stdin)) {
        perror("standard input");
        return 2;
    }
    rigamel_reading reading = rigamel_closed();
    rigamel_answer answer = rigamel_open(chunk, length, &reading);
    while (answer.number == RIGAMEL_GIVEN)
        answer = rigamel_deliver(chunk, length, out, sizeof out, &reading);
    printf("%" PRIu32 "\n", reading.next);
    return answer.number != RIGAMEL_NO_FUNCTION;
}
