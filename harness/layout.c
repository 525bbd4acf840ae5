/* Holds the headers to what the exports of crates/lanternrung and crates/rules hand over: the size of every struct and the place of every field,
 * the numbers of the kinds and of the refusals. Compiling it is the test; it is C11 and C++11. */
#include "lanternrung.h"
#include "lanternrung_rules.h"
#include "lanternrung.h"

#ifdef __cplusplus
#define HOLDS(what) static_assert(what, #what)
#else
#define HOLDS(what) _Static_assert(what, #what)
#endif
#define SIZE(type, bytes) HOLDS(sizeof(type) == (bytes))
#define FIELD(type, field, at, as) HOLDS(offsetof(type, field) == (at) && sizeof(((type *)0)->field) == sizeof(as))

HOLDS(LR_VERSION == 5);
HOLDS(LR_CHECK_BYTES == 640);
HOLDS(sizeof(size_t) == 8);

SIZE(lr_status, 16);
FIELD(lr_status, refused, 0, uint32_t);
FIELD(lr_status, place, 8, uint64_t);

SIZE(lr_sizes, 32);
FIELD(lr_sizes, refused, 0, uint32_t);
FIELD(lr_sizes, place, 8, uint64_t);
FIELD(lr_sizes, records, 16, uint64_t);
FIELD(lr_sizes, bytes, 24, uint64_t);

SIZE(lr_written, 24);
FIELD(lr_written, refused, 0, uint32_t);
FIELD(lr_written, place, 8, uint64_t);
FIELD(lr_written, length, 16, uint64_t);

SIZE(lr_record, 96);
FIELD(lr_record, refused, 0, uint32_t);
FIELD(lr_record, place, 8, uint64_t);
FIELD(lr_record, kind, 16, uint32_t);
FIELD(lr_record, flag, 20, uint32_t);
FIELD(lr_record, power, 24, int32_t);
FIELD(lr_record, coefficient, 32, uint64_t);
FIELD(lr_record, length, 40, uint64_t);
FIELD(lr_record, start, 48, uint64_t);
FIELD(lr_record, year, 56, uint32_t);
FIELD(lr_record, month, 60, uint32_t);
FIELD(lr_record, day, 64, uint32_t);
FIELD(lr_record, offset, 68, int32_t);
FIELD(lr_record, time, 72, uint64_t);
FIELD(lr_record, end, 80, uint64_t);
FIELD(lr_record, count, 88, uint64_t);

HOLDS(LR_NU == 1 && LR_BO == 2 && LR_NB == 3 && LR_NX == 4 && LR_ST == 5 && LR_KY == 6 && LR_BY == 7);
HOLDS(LR_LD == 8 && LR_LT == 9 && LR_DT == 10 && LR_OD == 11 && LR_AR == 12 && LR_OB == 13);

HOLDS(LR_DONE == 0 && LR_TEXT_TOO_LONG == 1 && LR_NOT_UTF8 == 2 && LR_NOT_GRAMMAR == 3 && LR_BAD_ESCAPE == 4);
HOLDS(LR_BAD_TIME == 5 && LR_BAD_NUMBER == 6 && LR_TOO_DEEP == 7 && LR_TAPE_TOO_SHORT == 8 && LR_STORE_TOO_SHORT == 9);
HOLDS(LR_NOT_WELL_FORMED == 10 && LR_NO_JSON_FORM == 11 && LR_OUTPUT_TOO_SHORT == 12 && LR_WRITTEN_TOO_LONG == 13);
HOLDS(LR_NO_SUCH_RECORD == 14);
