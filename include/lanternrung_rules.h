/* UTF-8 and the calendar by themselves: target/native/librules.a and librules.so, made by `harness/archive rules` for Linux on x86-64.
 *
 * Every call ends, touches nothing, and answers done (refused 0, place 0) or one refusal with its place: 2, not UTF-8, or 5, no date.
 */
#ifndef LANTERNRUNG_RULES_H
#define LANTERNRUNG_RULES_H

#include <stddef.h>
#include <stdint.h>

#ifdef __cplusplus
extern "C" {
#endif

#ifndef LR_STATUS
#define LR_STATUS
typedef struct {
    uint32_t refused; /* 0: done; otherwise the refusal's number */
    uint64_t place;
} lr_status;
#endif

/* Is this UTF-8 (RFC 3629)? Refusal 2 at the first byte of the first ill-formed sequence. With length 0 no byte is read. */
lr_status lr_rules_utf8(const uint8_t *bytes, size_t length);

/* Is this a date in years 0000 to 9999 (RFC 3339)? Refusal 5 at 0 for any that is none. */
lr_status lr_rules_date(uint64_t year, uint64_t month, uint64_t day);

#ifdef __cplusplus
}
#endif

#endif
