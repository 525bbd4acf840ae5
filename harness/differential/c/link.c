/* Links the archive from C by its header and makes each call. Prints each answer that is not as it should be; silent if none. */
#include <stdio.h>
#include <string.h>

#include "lanternrung.h"

static int wrong = 0;

static void same(const char *what, uint64_t got, uint64_t should) {
    if (got == should) return;
    printf("%s: %llu, should be %llu\n", what, (unsigned long long)got, (unsigned long long)should);
    wrong = 1;
}

static const char text[] = "{ run: 0x1F, # melt\n  eta: NaN, at: 2021-03-04 05:06:07.50-01:30, t: [.5, -1250.5,], }";
static const char canonical[] = "{\"run\":31,\"eta\":NaN,\"at\":2021-03-04T05:06:07.5-01:30,\"t\":[0.5,-1250.5]}";

static uint8_t tape[11 * 16], store[9], out[sizeof canonical];

static const uint8_t *bytes(const char *s) { return (const uint8_t *)s; }

static lr_record look(uint64_t index) { return lanternrung_look(tape, sizeof tape, store, sizeof store, index); }

static void reading(void) {
    lr_sizes m = lanternrung_measure(bytes(text), strlen(text));
    same("measure: refused", m.refused, 0);
    same("measure: place", m.place, 0);
    same("measure: records", m.records, 11);
    same("measure: bytes", m.bytes, 9);
    lr_sizes r = lanternrung_read(bytes(text), strlen(text), tape, sizeof tape - 1, store, sizeof store);
    same("read into a short tape: refused", r.refused, 8);
    same("read into a short tape: place", r.place, sizeof tape);
    r = lanternrung_read(bytes(text), strlen(text), tape, sizeof tape, store, sizeof store);
    same("read: refused", r.refused, 0);
    same("read: records", r.records, 11);
    same("read: bytes", r.bytes, 9);
    same("the store", (uint64_t)memcmp(store, "runetaatt", 9), 0);
}

static void looking(void) {
    lr_record key = look(3), number = look(10), time = look(6), array = look(8), other = look(4), object = look(0);
    same("a key: kind", key.kind, LR_KY);
    same("a key: start", key.start, 3);
    same("a key: length", key.length, 3);
    same("a number: kind", number.kind, LR_NB);
    same("a number: flag", number.flag, 1);
    same("a number: coefficient", number.coefficient, 12505);
    same("a number: power", (uint64_t)(number.power + 1), 0);
    same("a time: kind", time.kind, LR_OD);
    same("a time: year", time.year, 2021);
    same("a time: month", time.month, 3);
    same("a time: day", time.day, 4);
    same("a time: offset", (uint64_t)(time.offset + 90), 0);
    same("a time: time", time.time, 18367500000000);
    same("an array: kind", array.kind, LR_AR);
    same("an array: end", array.end, 11);
    same("an array: count", array.count, 2);
    same("an object: kind", object.kind, LR_OB);
    same("an object: end", object.end, 11);
    same("an object: count", object.count, 4);
    same("a key: count", key.count, 0);
    same("NaN: kind", other.kind, LR_NX);
    same("past the end: refused", look(11).refused, 14);
    same("past the end: place", look(11).place, 11);
}

static void writing(void) {
    lr_written w = lanternrung_write_jaxn(tape, sizeof tape, store, sizeof store, out, sizeof out);
    same("write_jaxn: refused", w.refused, 0);
    same("write_jaxn: length", w.length, strlen(canonical));
    same("what was written", (uint64_t)memcmp(out, canonical, sizeof canonical), 0);
    w = lanternrung_write_json(tape, sizeof tape, store, sizeof store, out, sizeof out);
    same("write_json: refused", w.refused, 11);
    same("write_json: place", w.place, 4);
    tape[8 * 16 + 4] = 0; /* the array's count, as in an older tape */
    same("an older tape: look", look(8).refused, 0);
    same("an older tape: count", look(8).count, 0);
    same("an older tape: write_jaxn", lanternrung_write_jaxn(tape, sizeof tape, store, sizeof store, out, sizeof out).refused, 10);
    tape[8 * 16 + 4] = 2;
}

/* The text in two parts, cut at each place. */
static void arriving(void) {
    static uint8_t state[LR_CHECK_BYTES];
    for (size_t cut = 0; cut <= strlen(text); cut++) {
        lanternrung_check_start(state, sizeof state);
        lanternrung_check_feed(state, sizeof state, bytes(text), cut);
        lanternrung_check_feed(state, sizeof state, bytes(text) + cut, strlen(text) - cut);
        lr_sizes c = lanternrung_check_finish(state, sizeof state);
        same("check: refused", c.refused, 0);
        same("check: records", c.records, 11);
        same("check: bytes", c.bytes, 9);
    }
    lanternrung_check_start(state, sizeof state);
    lanternrung_check_feed(state, sizeof state, bytes("[,"), 2);
    same("check of half a text: refused", lanternrung_check_finish(state, sizeof state).refused, 3);
    lanternrung_check_feed(state, sizeof state, bytes("\xff"), 1);
    same("check with a late fault: refused", lanternrung_check_finish(state, sizeof state).refused, 2);
    same("check with a late fault: place", lanternrung_check_finish(state, sizeof state).place, 2);
}

/* A key that repeats an earlier one, in a text and on a tape; a check in parts leaves it out. */
static void repeating(void) {
    static const char twice[] = "{setpoint: 1, \"set\" + 'point': 2}", once[] = "{a:1,b:2}";
    static uint8_t state[LR_CHECK_BYTES], held[5 * 16], keys[2], room[16];
    lr_sizes m = lanternrung_measure(bytes(twice), strlen(twice));
    same("a repeated key: refused", m.refused, LR_REPEATED_KEY);
    same("a repeated key: place", m.place, 14);
    same("a repeated key: read", lanternrung_read(bytes(twice), strlen(twice), NULL, 0, NULL, 0).refused, LR_REPEATED_KEY);
    lanternrung_check_start(state, sizeof state);
    lanternrung_check_feed(state, sizeof state, bytes(twice), strlen(twice));
    lr_sizes c = lanternrung_check_finish(state, sizeof state);
    same("a repeated key: check", c.refused, 0);
    same("a repeated key: records", c.records, 5);
    same("two keys: read", lanternrung_read(bytes(once), strlen(once), held, sizeof held, keys, sizeof keys).refused, 0);
    same("two keys: write_jaxn", lanternrung_write_jaxn(held, sizeof held, keys, sizeof keys, room, sizeof room).length, 13);
    keys[1] = 'a';
    same("a repeated key: look", lanternrung_look(held, sizeof held, keys, sizeof keys, 3).kind, LR_KY);
    same("a repeated key: write_jaxn", lanternrung_write_jaxn(held, sizeof held, keys, sizeof keys, room, sizeof room).refused, 10);
    same("a repeated key: write_json", lanternrung_write_json(held, sizeof held, keys, sizeof keys, room, sizeof room).refused, 10);
}

/* With a length of 0 a pointer is not looked through. */
static void nothing(void) {
    static uint8_t one[16];
    same("utf8 of nothing: refused", lanternrung_utf8(NULL, 0).refused, 0);
    same("measure of nothing: refused", lanternrung_measure(NULL, 0).refused, 3);
    same("read of nothing: refused", lanternrung_read(NULL, 0, NULL, 0, NULL, 0).refused, 3);
    same("read into nothing: refused", lanternrung_read(bytes("1"), 1, NULL, 0, NULL, 0).refused, 8);
    same("read of a string of nothing: refused", lanternrung_read(bytes("''"), 2, one, sizeof one, NULL, 0).refused, 0);
    same("look at a string of nothing: kind", lanternrung_look(one, sizeof one, NULL, 0, 0).kind, LR_ST);
    same("look at nothing: refused", lanternrung_look(NULL, 0, NULL, 0, 0).refused, 14);
    same("write_jaxn into nothing: refused", lanternrung_write_jaxn(one, sizeof one, NULL, 0, NULL, 0).refused, 12);
    same("write_json of nothing: refused", lanternrung_write_json(NULL, 0, NULL, 0, NULL, 0).refused, 10);
    lanternrung_check_start(NULL, 0);
    lanternrung_check_feed(NULL, 0, NULL, 0);
    same("check of nothing: refused", lanternrung_check_finish(NULL, 0).refused, 3);
}

int main(void) {
    reading();
    looking();
    writing();
    arriving();
    repeating();
    nothing();
    same("utf8: place", lanternrung_utf8(bytes("ab\xed\xa0\x80"), 5).place, 2);
    same("date: refused", lanternrung_date(2000, 2, 30).refused, 5);
    return wrong;
}
