/* The calls that docs/REFUSALS.md shows, as it shows them; each must answer what is asserted. */
#undef NDEBUG
#include <assert.h>
#include <stdlib.h>
#include <string.h>

#include "lanternrung.h"

static uint8_t tape[256], store[64], out[64];

static const uint8_t *text(const char *s)
{
    return (const uint8_t *)s;
}

static lr_written jaxn_of(const char *s, uint8_t *into, size_t length)
{
    lr_sizes got = lanternrung_read(text(s), strlen(s), tape, sizeof tape, store, sizeof store);
    assert(got.refused == LR_DONE);
    return lanternrung_write_jaxn(tape, got.records * 16, store, got.bytes, into, length);
}

static lr_written json_of(const char *s)
{
    lr_sizes got = lanternrung_read(text(s), strlen(s), tape, sizeof tape, store, sizeof store);
    assert(got.refused == LR_DONE);
    return lanternrung_write_json(tape, got.records * 16, store, got.bytes, out, sizeof out);
}

/* A text that begins with a quote, holds a part so many times, and ends with a quote; its canonical text, without room for it. */
static lr_written jaxn_of_many(const char *begin, const char *part, size_t times, const char *end)
{
    size_t length = strlen(begin) + strlen(part) * times + strlen(end);
    uint8_t *many = malloc(length + 1), *held = malloc(length);
    assert(many && held);
    char *at = (char *)many;
    at = strcpy(at, begin) + strlen(begin);
    for (size_t i = 0; i < times; i++)
        at = strcpy(at, part) + strlen(part);
    strcpy(at, end);
    lr_sizes needed = lanternrung_measure(many, length);
    uint8_t *records = malloc(needed.records * 16);
    assert(needed.refused == LR_DONE && records);
    lr_sizes got = lanternrung_read(many, length, records, needed.records * 16, held, length);
    assert(got.refused == LR_DONE);
    lr_written answer = lanternrung_write_jaxn(records, got.records * 16, held, got.bytes, NULL, 0);
    free(many);
    free(held);
    free(records);
    return answer;
}

static void reading(void)
{
    static uint8_t big[16777217];
    lr_sizes long_text = lanternrung_measure(big, 16777217);
    assert(long_text.refused == LR_TEXT_TOO_LONG && long_text.place == 16777216);

    lr_sizes twice = lanternrung_measure(text("{a: 1, 'a': 2}"), 14);
    assert(twice.refused == LR_REPEATED_KEY && twice.place == 7);

    lr_sizes short_tape = lanternrung_read(text("[1, NaN]"), 8, tape, 32, NULL, 0);
    assert(short_tape.refused == LR_TAPE_TOO_SHORT && short_tape.place == 48);

    lr_sizes short_store = lanternrung_read(text("\"glass\""), 7, tape, 16, store, 4);
    assert(short_store.refused == LR_STORE_TOO_SHORT && short_store.place == 5);

    lr_sizes no_store = lanternrung_read(text("{melt: 1}"), 9, tape, 48, NULL, 0);
    assert(no_store.refused == LR_STORE_TOO_SHORT && no_store.place == 4);
}

static void repeating(void)
{
    lr_sizes twice = lanternrung_measure(text("{setpoint: 1, 'setpoint': 2}"), 28);
    assert(twice.refused == LR_REPEATED_KEY && twice.place == 14);

    lr_sizes pair = lanternrung_read(text("{a: 1, b: 2}"), 12, tape, sizeof tape, store, sizeof store);
    store[1] = 'a'; /* the second key is as the first */
    lr_written repeated = lanternrung_write_jaxn(tape, pair.records * 16, store, pair.bytes, out, sizeof out);
    assert(repeated.refused == LR_NOT_WELL_FORMED && repeated.place == 0);
}

static void writing(void)
{
    lr_written nan_as_json = json_of("[1, NaN]");
    assert(nan_as_json.refused == LR_NO_JSON_FORM && nan_as_json.place == 2);

    lr_written time_as_json = json_of("{at: 2021-03-04}");
    assert(time_as_json.refused == LR_NO_JSON_FORM && time_as_json.place == 2);

    lr_written no_room = jaxn_of("[1, NaN]", NULL, 0);
    assert(no_room.refused == LR_OUTPUT_TOO_SHORT && no_room.place == 7);

    lr_written many_lines = jaxn_of_many("'''", "\n", 8400001, "'''");
    assert(many_lines.refused == LR_WRITTEN_TOO_LONG && many_lines.place == 16800002);

    lr_written many_zeros = jaxn_of_many("\"", "\\0", 2800000, "\"");
    assert(many_zeros.refused == LR_WRITTEN_TOO_LONG && many_zeros.place == 16800002);

    lr_written many_powers = jaxn_of_many("[", "1e-20,", 730000, "]");
    assert(many_powers.refused == LR_WRITTEN_TOO_LONG && many_powers.place == 16790001);
}

static void looking(void)
{
    lr_sizes used = lanternrung_read(text("[1]"), 3, tape, sizeof tape, store, sizeof store);
    lr_written too_much = lanternrung_write_jaxn(tape, sizeof tape, store, sizeof store, out, sizeof out);
    assert(too_much.refused == LR_NOT_WELL_FORMED && too_much.place == 0);
    lr_written right = lanternrung_write_jaxn(tape, used.records * 16, store, used.bytes, out, sizeof out);
    assert(right.refused == LR_DONE && right.length == 3);

    tape[4] = 0; /* the count of the array, as in an older tape */
    lr_record older = lanternrung_look(tape, 32, store, 0, 0);
    assert(older.refused == LR_DONE && older.count == 0 && older.end == 2);
    lr_written uncounted = lanternrung_write_jaxn(tape, 32, store, 0, out, sizeof out);
    assert(uncounted.refused == LR_NOT_WELL_FORMED && uncounted.place == 0);

    tape[16] = 'x'; /* the mark of the second record, "nb" */
    lr_record damaged = lanternrung_look(tape, 32, store, 0, 1);
    assert(damaged.refused == LR_NOT_WELL_FORMED && damaged.place == 1);

    lr_record past = lanternrung_look(tape, 32, store, 0, 2);
    assert(past.refused == LR_NO_SUCH_RECORD && past.place == 2);

    lr_record of_nothing = lanternrung_look(NULL, 0, NULL, 0, 0);
    assert(of_nothing.refused == LR_NO_SUCH_RECORD && of_nothing.place == 0);
}

int main(void)
{
    reading();
    repeating();
    writing();
    looking();
    return 0;
}
