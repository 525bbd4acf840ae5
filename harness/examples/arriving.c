/* Checks a record while it arrives on standard input, in parts of any length, and keeps none of it. */
#include <inttypes.h>
#include <stdio.h>
#include <unistd.h>

#include "lanternrung.h"

int main(void)
{
    uint8_t state[LR_CHECK_BYTES], part[4096];
    ssize_t length;
    lanternrung_check_start(state, sizeof state);
    while ((length = read(STDIN_FILENO, part, sizeof part)) > 0)
        lanternrung_check_feed(state, sizeof state, part, (size_t)length);
    if (length < 0) {
        perror("standard input");
        return 2;
    }

    /* What measure would answer for all of it, but for a repeated key. */
    lr_sizes need = lanternrung_check_finish(state, sizeof state);
    if (need.refused) {
        printf("refused %" PRIu32 " at %" PRIu64 "\n", need.refused, need.place);
        return 1;
    }
    printf("%" PRIu64 " records, %" PRIu64 " store bytes\n", need.records, need.bytes);
    return 0;
}
