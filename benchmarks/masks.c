/* Prints the cells of the mask table, which plain.c includes: cell 8 * t + j is the path of shape number t just after place j arrived. */
#include <stddef.h>
#include <stdio.h>

#include "ballot.h"

/* Place 0 is the most significant bit. A removal clears the lowest bit, and an arrival sets one below it. */
static unsigned path_mask(unsigned number, size_t end)
{
    size_t place = 0, removed = 0;
    unsigned path = 0;
    for (;;) {
        unsigned weight = ballot[7 - place][8 - removed];
        if (number >= weight) {
            number -= weight;
            removed++;
            path &= path - 1;
        } else {
            path |= 0x80u >> place;
            if (place == end)
                return path;
            place++;
        }
    }
}

int main(void)
{
    for (unsigned number = 0; number < 1430; number++)
        for (size_t end = 0; end < 8; end++)
            printf("%u,%s", path_mask(number, end), end == 7 ? "\n" : " ");
    return 0;
}
