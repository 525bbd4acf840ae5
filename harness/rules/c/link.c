/* Links the archive from C and calls both functions. Prints each answer that is not as it should be; silent if none. */
#include <stdio.h>
#include <string.h>

#include "lanternrung_rules.h"

static int wrong = 0;

static void same(const char *what, lr_status got, uint32_t refused, uint64_t place) {
    if (got.refused == refused && got.place == place) return;
    printf("%s: refused %u at %llu, should be %u at %llu\n", what, (unsigned)got.refused, (unsigned long long)got.place,
           (unsigned)refused, (unsigned long long)place);
    wrong = 1;
}

static lr_status utf8(const char *s) { return lr_rules_utf8((const uint8_t *)s, strlen(s)); }

int main(void) {
    same("empty", lr_rules_utf8((const uint8_t *)"", 0), 0, 0);
    same("eta", utf8("\xce\xb7 = 10^12.5"), 0, 0);
    same("a surrogate", utf8("ab\xed\xa0\x80"), 2, 2);
    same("an overlong form", utf8("\xc0\xaf"), 2, 0);
    same("above 10FFFF", utf8("x\xf4\x90\x80\x80"), 2, 1);
    same("cut short", utf8("\xe2\x82"), 2, 0);
    same("29 February 2000", lr_rules_date(2000, 2, 29), 0, 0);
    same("30 February 2000", lr_rules_date(2000, 2, 30), 5, 0);
    same("29 February 1900", lr_rules_date(1900, 2, 29), 5, 0);
    same("year 10000", lr_rules_date(10000, 1, 1), 5, 0);
    return wrong;
}
