// jansson, in a shared object of its own: its names clash with json-c's.
#include <jansson.h>
#include <stdlib.h>
#include <string.h>

size_t peer_parse(const char *p, size_t n) {
    json_error_t e;
    json_t *v = json_loadb(p, n, 0, &e);
    json_decref(v);
    return v != 0;
}

size_t peer_round(const char *p, size_t n) {
    json_error_t e;
    json_t *v = json_loadb(p, n, 0, &e);
    if (!v) return 0;
    char *s = json_dumps(v, JSON_COMPACT);
    size_t k = s ? strlen(s) : 0;
    free(s);
    json_decref(v);
    return k;
}
