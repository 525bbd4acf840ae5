/* Reads a run record, prints its numbers, and prints the record in canonical form. */
#include <inttypes.h>
#include <stdio.h>
#include <stdlib.h>
#include <string.h>

#include "lanternrung.h"

static int refused(uint32_t number, uint64_t place)
{
    printf("refused %" PRIu32 " at %" PRIu64 "\n", number, place);
    return 1;
}

int main(void)
{
    const char *record = "{ run: 0x1F, # melt\n  eta: NaN, t: [.5, 1250.5,], }";
    const uint8_t *text = (const uint8_t *)record;
    size_t text_length = strlen(record);

    /* How much room the record needs: 16 bytes of tape for each of its parts, and a store for its strings. */
    lr_sizes need = lanternrung_measure(text, text_length);
    if (need.refused)
        return refused(need.refused, need.place);
    size_t tape_length = need.records * 16, store_length = need.bytes;
    uint8_t *tape = malloc(tape_length), *store = malloc(store_length + 1);
    if (!tape || !store)
        return 1;

    lr_sizes got = lanternrung_read(text, text_length, tape, tape_length, store, store_length);
    if (got.refused)
        return refused(got.refused, got.place);

    /* A number is exact: a sign, a coefficient and a power of ten. */
    for (uint64_t i = 0; i < got.records; i++) {
        lr_record part = lanternrung_look(tape, tape_length, store, store_length, i);
        if (part.kind == LR_KY)
            printf("%.*s:\n", (int)part.length, (const char *)store + part.start);
        if (part.kind == LR_NB)
            printf("  %s%" PRIu64 " x 10^%" PRId32 "\n", part.flag ? "-" : "", part.coefficient, part.power);
        if (part.kind == LR_NX)
            printf("  not finite\n");
    }

    /* The canonical text: one record, one text, whatever it was written like. A write with no room answers its length. */
    lr_written room = lanternrung_write_jaxn(tape, tape_length, store, store_length, NULL, 0);
    if (room.refused != LR_OUTPUT_TOO_SHORT)
        return refused(room.refused, room.place);
    size_t out_length = room.place;
    uint8_t *out = malloc(out_length);
    if (!out)
        return 1;
    lr_written written = lanternrung_write_jaxn(tape, tape_length, store, store_length, out, out_length);
    if (written.refused)
        return refused(written.refused, written.place);
    printf("%.*s\n", (int)written.length, (const char *)out);
    free(tape);
    free(store);
    free(out);
    return 0;
}
