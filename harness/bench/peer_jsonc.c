// json-c, in a shared object of its own: its names clash with jansson's.
#include <json-c/json.h>
#include <stddef.h>

static json_object *load(const char *p, size_t n) {
    json_tokener *t = json_tokener_new_ex(1000);
    json_object *v = json_tokener_parse_ex(t, p, (int)n);
    if (json_tokener_get_error(t) != json_tokener_success) {
        json_object_put(v);
        v = 0;
    }
    json_tokener_free(t);
    return v;
}

size_t peer_parse(const char *p, size_t n) {
    json_object *v = load(p, n);
    json_object_put(v);
    return v != 0;
}

size_t peer_round(const char *p, size_t n) {
    json_object *v = load(p, n);
    if (!v) return 0;
    size_t k = 0;
    json_object_to_json_string_length(v, JSON_C_TO_STRING_PLAIN | JSON_C_TO_STRING_NOSLASHESCAPE, &k);
    json_object_put(v);
    return k;
}
