/* The calls of lanternrung.h over a module that was compiled as a part of a program: there a call is given the address of an answer of over 16 bytes
   first, and does not hand that address back. harness/small names the module's calls unproved_NAME. */
#include "lanternrung.h"

lr_status unproved_utf8(const uint8_t *bytes, size_t length);
lr_status unproved_date(uint64_t year, uint64_t month, uint64_t day);
void unproved_measure(lr_sizes *answer, const uint8_t *text, size_t length);
void unproved_read(lr_sizes *answer, const uint8_t *text, size_t length, uint8_t *tape, size_t tape_length, uint8_t *store, size_t store_length);
void unproved_check_start(uint8_t *state, size_t length);
void unproved_check_feed(uint8_t *state, size_t length, const uint8_t *part, size_t part_length);
void unproved_check_finish(lr_sizes *answer, const uint8_t *state, size_t length);
void unproved_look(lr_record *answer, const uint8_t *tape, size_t tape_length, const uint8_t *store, size_t store_length, uint64_t index);
void unproved_write_jaxn(lr_written *answer, const uint8_t *tape, size_t tape_length, const uint8_t *store, size_t store_length, uint8_t *out,
                         size_t out_length);
void unproved_write_json(lr_written *answer, const uint8_t *tape, size_t tape_length, const uint8_t *store, size_t store_length, uint8_t *out,
                         size_t out_length);

lr_status lanternrung_utf8(const uint8_t *bytes, size_t length) { return unproved_utf8(bytes, length); }

lr_status lanternrung_date(uint64_t year, uint64_t month, uint64_t day) { return unproved_date(year, month, day); }

lr_sizes lanternrung_measure(const uint8_t *text, size_t length) {
    lr_sizes answer;
    unproved_measure(&answer, text, length);
    return answer;
}

lr_sizes lanternrung_read(const uint8_t *text, size_t length, uint8_t *tape, size_t tape_length, uint8_t *store, size_t store_length) {
    lr_sizes answer;
    unproved_read(&answer, text, length, tape, tape_length, store, store_length);
    return answer;
}

void lanternrung_check_start(uint8_t *state, size_t length) { unproved_check_start(state, length); }

void lanternrung_check_feed(uint8_t *state, size_t length, const uint8_t *part, size_t part_length) {
    unproved_check_feed(state, length, part, part_length);
}

lr_sizes lanternrung_check_finish(const uint8_t *state, size_t length) {
    lr_sizes answer;
    unproved_check_finish(&answer, state, length);
    return answer;
}

lr_record lanternrung_look(const uint8_t *tape, size_t tape_length, const uint8_t *store, size_t store_length, uint64_t index) {
    lr_record answer;
    unproved_look(&answer, tape, tape_length, store, store_length, index);
    return answer;
}

lr_written lanternrung_write_jaxn(const uint8_t *tape, size_t tape_length, const uint8_t *store, size_t store_length, uint8_t *out, size_t out_length) {
    lr_written answer;
    unproved_write_jaxn(&answer, tape, tape_length, store, store_length, out, out_length);
    return answer;
}

lr_written lanternrung_write_json(const uint8_t *tape, size_t tape_length, const uint8_t *store, size_t store_length, uint8_t *out, size_t out_length) {
    lr_written answer;
    unproved_write_json(&answer, tape, tape_length, store, store_length, out, out_length);
    return answer;
}
