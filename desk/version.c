/* rigamel version, rigamel --version */
#include "desk.h"

status run_version(int count, char **arguments, rigamel_reading reading)
{
    (void)count;
    (void)arguments;
    (void)reading;
    print("rigamel %s\n", RIGAMEL_VERSION);
    return WELL;
}
