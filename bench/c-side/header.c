/*
 * A program in what C89, C11 and C++11 have in common, for compilers that read the header and link the library: it says
 * by its status whether the version is at least the header's, and the calls of a closed keeper say that it is closed.
 */
#include <bootkeep.h>

int main(void)
{
    struct bootkeep_keeper keeper = {0, 0};
    uint32_t number = 0;

    if (bootkeep_version() < BOOTKEEP_VERSION)
        return 1;
    if (bootkeep_keeper_next_number(&keeper, &number) != BOOTKEEP_CLOSED)
        return 1;
    return bootkeep_keeper_close(&keeper) != BOOTKEEP_CLOSED;
}
