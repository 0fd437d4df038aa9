/* Loaded before a program, it takes 24 to 72 bytes first, by the number in SHIFT, 0 to 3: so all that the program takes
   after that lies at another place in its cache lines. */
#include <stdlib.h>

static void *taken;

__attribute__((constructor)) static void shift(void)
{
    const char *number = getenv("SHIFT");

    if (number)
        taken = malloc(24 + 16 * (size_t)atoi(number));
}
