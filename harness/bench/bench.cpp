// Lanternrung beside what users would pick instead, in one process: measure, read, and read then write, on the same texts.
//   bench ROUNDS FOLDER FILE..
// FOLDER has the peers that stand in shared objects of their own, and takes the JSON text that Lanternrung writes. Every
// contestant takes a FILE.json; of a FILE.jaxn only Lanternrung is timed, of a FILE.txt only the UTF-8 checks and copying. A
// FILE.seq has many texts, each with its length before it, which three peers read one after the other in each round.
// Prints lines "file group name texts bytes median fastest" with tabs between, times in seconds; chart.py makes the tables and
// the chart. Interleaved: in each round every contestant runs once. Allocating and freeing a tree is part of a peer's time;
// simdjson keeps its parser, and Lanternrung its buffers, from round to round. A peer whose header is missing is left out.
// Where the environment names two shared libraries, BEFORE and AFTER, they run in the place of the archive that is linked, as
// "before" and "Lanternrung", and each first in every other round.
#include <algorithm>
#include <cstdint>
#include <cstdio>
#include <cstdlib>
#include <cstring>
#include <ctime>
#include <dlfcn.h>
#include <functional>
#include <string>
#include <vector>

#include "lanternrung.h"

#if __has_include(<simdjson.h>)
#define HAS_SIMDJSON
#include <simdjson.h>
#endif
#if __has_include(<rapidjson/document.h>)
#define HAS_RAPIDJSON
#if defined(__SSE4_2__)
#define RAPIDJSON_SSE42
#elif defined(__ARM_NEON)
#define RAPIDJSON_NEON
#endif
#include <rapidjson/document.h>
#include <rapidjson/stringbuffer.h>
#include <rapidjson/writer.h>
#endif
#if __has_include(<boost/json.hpp>)
#define HAS_BOOST
#include <boost/json.hpp>
#endif
#if __has_include(<nlohmann/json.hpp>)
#define HAS_NLOHMANN
#include <nlohmann/json.hpp>
#endif
#if __has_include(<cjson/cJSON.h>)
#define HAS_CJSON
#include <cjson/cJSON.h>
#endif

using Text = std::string;

struct Contestant {
    std::string group, name;
    std::function<size_t()> run; // 0: refused
    std::vector<double> times;
};

static std::vector<Contestant> contestants;
static volatile size_t sink;

// The thread's own processor time: every contestant has one thread, and other programs on the machine then count less.
static double now() {
    timespec t;
    clock_gettime(CLOCK_THREAD_CPUTIME_ID, &t);
    return t.tv_sec + t.tv_nsec * 1e-9;
}

static void add(const char *group, const std::string &name, std::function<size_t()> run) { contestants.push_back({group, name, run, {}}); }

static Text load(const char *file) {
    FILE *f = fopen(file, "rb");
    if (!f) { perror(file); exit(1); }
    fseek(f, 0, SEEK_END);
    Text text(ftell(f), 0);
    rewind(f);
    if (fread(&text[0], 1, text.size(), f) != text.size()) exit(1);
    fclose(f);
    return text;
}

using Texts = std::vector<Text>;

// The call on each text in turn; 0 where one is refused.
template <typename Call> static std::function<size_t()> each(const Texts &texts, Call call) {
    return [&texts, call] {
        size_t all = 0;
        for (auto &text : texts) {
            size_t one = call(text);
            if (!one) return one;
            all += one;
        }
        return all;
    };
}

static const uint8_t *bytes(const Text &text) { return (const uint8_t *)text.data(); }

// The library's calls, under the name that they are timed by.
struct Library {
    std::string name = "Lanternrung";
    decltype(&lanternrung_utf8) utf8 = lanternrung_utf8;
    decltype(&lanternrung_measure) measure = lanternrung_measure;
    decltype(&lanternrung_read) read = lanternrung_read;
    decltype(&lanternrung_write_jaxn) write_jaxn = lanternrung_write_jaxn;
    decltype(&lanternrung_write_json) write_json = lanternrung_write_json;
    decltype(&lanternrung_check_start) check_start = lanternrung_check_start;
    decltype(&lanternrung_check_feed) check_feed = lanternrung_check_feed;
    decltype(&lanternrung_check_finish) check_finish = lanternrung_check_finish;
};

// Those of a shared library.
static Library loaded(const char *name, const char *file) {
    void *so = dlopen(file, RTLD_NOW | RTLD_LOCAL | RTLD_DEEPBIND);
    if (!so) { fprintf(stderr, "%s\n", dlerror()); exit(1); }
    Library library;
    library.name = name;
    library.utf8 = (decltype(library.utf8))dlsym(so, "lanternrung_utf8");
    library.measure = (decltype(library.measure))dlsym(so, "lanternrung_measure");
    library.read = (decltype(library.read))dlsym(so, "lanternrung_read");
    library.write_jaxn = (decltype(library.write_jaxn))dlsym(so, "lanternrung_write_jaxn");
    library.write_json = (decltype(library.write_json))dlsym(so, "lanternrung_write_json");
    library.check_start = (decltype(library.check_start))dlsym(so, "lanternrung_check_start");
    library.check_feed = (decltype(library.check_feed))dlsym(so, "lanternrung_check_feed");
    library.check_finish = (decltype(library.check_finish))dlsym(so, "lanternrung_check_finish");
    return library;
}

// The archive's; or those of before and after, where the environment names them.
static std::vector<Library> libraries() {
    const char *before = getenv("BEFORE"), *after = getenv("AFTER");
    if (!before || !after) return {Library()};
    return {loaded("Lanternrung", after), loaded("before", before)};
}

// Lanternrung with lent buffers: no text needs more store bytes than its length. `json` says which of the two writers is meant.
struct Ours {
    Library library;
    std::vector<uint8_t> tape, store, out;
    lr_sizes sizes{};
    lr_written written{};
    decltype(&lanternrung_write_json) write;

    Ours(const Library &by, const Texts &texts, bool json) : library(by), write(json ? by.write_json : by.write_jaxn) {
        size_t records = 0, longest = 0;
        for (auto &text : texts) {
            records = std::max(records, (size_t)library.measure(bytes(text), text.size()).records);
            longest = std::max(longest, text.size());
        }
        tape.assign(16 * records, 1);
        store.assign(longest, 1);
        out.assign(2 * longest, 1);
    }
    size_t read(const Text &text) {
        sizes = library.read(bytes(text), text.size(), tape.data(), tape.size(), store.data(), store.size());
        return sizes.refused ? 0 : sizes.records;
    }
    // Fed in parts of `size` bytes.
    size_t checked(const Text &text, size_t size) {
        uint8_t state[LR_CHECK_BYTES];
        library.check_start(state, sizeof state);
        for (size_t at = 0; at < text.size(); at += size)
            library.check_feed(state, sizeof state, bytes(text) + at, std::min(size, text.size() - at));
        sizes = library.check_finish(state, sizeof state);
        return sizes.refused ? 0 : sizes.records;
    }
    size_t round(const Text &text) {
        if (!read(text)) return 0;
        written = write(tape.data(), 16 * sizes.records, store.data(), sizes.bytes, out.data(), out.size());
        return written.refused ? 0 : written.length;
    }
};

// Measured whole, and checked in parts of some sizes. A library from before has no such calls.
static void add_parts(Ours &ours, const Texts &texts) {
    if (!ours.library.check_feed) return;
    const std::string &name = ours.library.name;
    add("parts", name + " measure", each(texts, [&ours](const Text &text) { return (size_t)ours.library.measure(bytes(text), text.size()).records; }));
    for (size_t size : {(size_t)65536, (size_t)4096, (size_t)1024, (size_t)64, (size_t)1})
        add("parts", name + " check, parts of " + std::to_string(size), each(texts, [&ours, size](const Text &text) { return ours.checked(text, size); }));
}

static void add_ours(Ours &ours, const Texts &texts) {
    const std::string &name = ours.library.name;
    add("read", name + " measure", each(texts, [&ours](const Text &text) { return (size_t)ours.library.measure(bytes(text), text.size()).records; }));
    add("read", name + " read", each(texts, [&ours](const Text &text) { return ours.read(text); }));
    add("round", name, each(texts, [&ours](const Text &text) { return ours.round(text); }));
}

#ifdef HAS_SIMDJSON
static simdjson::dom::parser parser;

static size_t simd_read(const simdjson::padded_string &in) {
    simdjson::dom::element e;
    return !parser.parse(in).get(e);
}

static size_t simd_round(const simdjson::padded_string &in) {
    simdjson::dom::element e;
    return parser.parse(in).get(e) ? (size_t)0 : simdjson::minify(e).size();
}
#endif

// simdjson wants room behind a text: it is given its own copies, made before the time begins.
static void add_simdjson(const Texts &texts) {
#ifdef HAS_SIMDJSON
    static std::vector<simdjson::padded_string> padded;
    padded.clear();
    for (auto &text : texts) padded.emplace_back(text);
    auto all = [](size_t (*call)(const simdjson::padded_string &)) {
        return [call] {
            size_t done = 0;
            for (auto &in : padded) {
                size_t one = call(in);
                if (!one) return one;
                done += one;
            }
            return done;
        };
    };
    add("read", "simdjson", all(simd_read));
    add("round", "simdjson", all(simd_round));
#endif
}

#ifdef HAS_RAPIDJSON
template <unsigned flags> static size_t rapid_read(const Text &in) {
    rapidjson::Document d;
    return !d.Parse<flags>(in.data(), in.size()).HasParseError();
}

template <unsigned flags> static size_t rapid_round(const Text &in) {
    rapidjson::Document d;
    if (d.Parse<flags>(in.data(), in.size()).HasParseError()) return 0;
    rapidjson::StringBuffer b;
    rapidjson::Writer<rapidjson::StringBuffer> w(b);
    d.Accept(w);
    return b.GetSize();
}
#endif

// Numbers kept whole: their digits stay as text, so that none is lost; printed again they would be strings, so there is no
// round of these. Exact doubles: correctly rounded, where the plain ones may be off in the last place.
static void add_rapidjson(const Text &in) {
#ifdef HAS_RAPIDJSON
    using namespace rapidjson;
    constexpr unsigned checked = kParseValidateEncodingFlag;
    add("read", "RapidJSON, UTF-8 not checked", [&] { return rapid_read<kParseDefaultFlags>(in); });
    add("read", "RapidJSON, UTF-8 checked", [&] { return rapid_read<checked>(in); });
    add("read", "RapidJSON, UTF-8 checked, exact doubles", [&] { return rapid_read<checked | kParseFullPrecisionFlag>(in); });
    add("read", "RapidJSON, UTF-8 checked, numbers kept whole", [&] { return rapid_read<checked | kParseNumbersAsStringsFlag>(in); });
    add("round", "RapidJSON, UTF-8 not checked", [&] { return rapid_round<kParseDefaultFlags>(in); });
    add("round", "RapidJSON, UTF-8 checked", [&] { return rapid_round<checked>(in); });
    add("round", "RapidJSON, UTF-8 checked, exact doubles", [&] { return rapid_round<checked | kParseFullPrecisionFlag>(in); });
#endif
}

#ifdef HAS_BOOST
static boost::json::value boost_value(const Text &in, boost::system::error_code &e, boost::json::monotonic_resource &memory) {
    boost::json::parse_options options;
    options.max_depth = 1000;
    return boost::json::parse(in, e, &memory, options);
}
#endif

static void add_boost(const Texts &texts) {
#ifdef HAS_BOOST
    add("read", "Boost.JSON", each(texts, [](const Text &in) {
        boost::system::error_code e;
        boost::json::monotonic_resource memory;
        auto v = boost_value(in, e, memory);
        return (size_t)!e;
    }));
    add("round", "Boost.JSON", each(texts, [](const Text &in) {
        boost::system::error_code e;
        boost::json::monotonic_resource memory;
        auto v = boost_value(in, e, memory);
        return e ? (size_t)0 : boost::json::serialize(v).size();
    }));
#endif
}

static void add_nlohmann(const Text &in) {
#ifdef HAS_NLOHMANN
    add("read", "nlohmann", [&] { return (size_t)!nlohmann::json::parse(in, nullptr, false).is_discarded(); });
    add("round", "nlohmann", [&] {
        auto v = nlohmann::json::parse(in, nullptr, false);
        return v.is_discarded() ? (size_t)0 : v.dump().size();
    });
#endif
}

static void add_cjson(const Text &in) {
#ifdef HAS_CJSON
    add("read", "cJSON", [&] {
        cJSON *v = cJSON_ParseWithLength(in.data(), in.size());
        cJSON_Delete(v);
        return (size_t)(v != nullptr);
    });
    add("round", "cJSON", [&]() -> size_t {
        cJSON *v = cJSON_ParseWithLength(in.data(), in.size());
        if (!v) return 0;
        char *s = cJSON_PrintUnformatted(v);
        size_t k = s ? strlen(s) : 0;
        free(s);
        cJSON_Delete(v);
        return k;
    });
#endif
}

// A peer in a shared object: its functions take a text and answer 0 where it is refused.
static void add_shared(const Text &in, const std::string &folder, const char *group, const char *name, const char *file, const char *function) {
    void *peer = dlopen((folder + "/" + file).c_str(), RTLD_NOW | RTLD_LOCAL | RTLD_DEEPBIND);
    if (!peer) return;
    auto call = (size_t(*)(const char *, size_t))dlsym(peer, function);
    add(group, name, [&in, call] { return call(in.data(), in.size()); });
}

static void add_checks(const std::vector<Ours> &ours, const Text &in, Text &copy, const std::string &folder) {
    add("utf8", "memcpy", [&] { memcpy(&copy[0], in.data(), in.size()); return in.size(); });
    for (auto &one : ours) add("utf8", one.library.name + " utf8", [&] { return (size_t)!one.library.utf8(bytes(in), in.size()).refused; });
    add_shared(in, folder, "utf8", "Rust str::from_utf8", "peer_std.so", "peer_parse");
#ifdef HAS_SIMDJSON
    add("utf8", "simdjson::validate_utf8", [&] { return (size_t)simdjson::validate_utf8(in.data(), in.size()); });
#endif
}

static void add_peers(const Texts &texts, const std::string &folder) {
    const Text &in = texts[0];
    add_simdjson(texts);
    add_rapidjson(in);
    add_boost(texts);
    add_shared(in, folder, "read", "serde_json", "peer_serde.so", "peer_parse");
    add_shared(in, folder, "round", "serde_json", "peer_serde.so", "peer_round");
    add_nlohmann(in);
    add_shared(in, folder, "read", "json-c", "peer_jsonc.so", "peer_parse");
    add_shared(in, folder, "round", "json-c", "peer_jsonc.so", "peer_round");
    add_shared(in, folder, "read", "jansson", "peer_jansson.so", "peer_parse");
    add_shared(in, folder, "round", "jansson", "peer_jansson.so", "peer_round");
    add_cjson(in);
}

// The peers that a reader of small texts would take.
static void add_small_peers(const Texts &texts) {
    add_simdjson(texts);
#ifdef HAS_RAPIDJSON
    add("read", "RapidJSON, UTF-8 not checked", each(texts, rapid_read<rapidjson::kParseDefaultFlags>));
    add("round", "RapidJSON, UTF-8 not checked", each(texts, rapid_round<rapidjson::kParseDefaultFlags>));
#endif
    add_boost(texts);
}

static void time_all(const std::string &name, const Texts &texts, int rounds) {
    size_t length = 0;
    for (auto &text : texts) length += text.size();
    for (int r = 0; r < rounds; r++)
        for (size_t k = 0; k < contestants.size(); k++) {
            auto &c = contestants[r % 2 ? contestants.size() - 1 - k : k];
            double start = now();
            size_t result = c.run();
            c.times.push_back(now() - start);
            sink = result;
            if (!result) { fprintf(stderr, "%s refuses %s\n", c.name.c_str(), name.c_str()); exit(1); }
        }
    for (auto &c : contestants) {
        std::sort(c.times.begin(), c.times.end());
        printf("%s\t%s\t%s\t%zu\t%zu\t%.9f\t%.9f\n", name.c_str(), c.group.c_str(), c.name.c_str(), texts.size(), length,
               c.times[c.times.size() / 2], c.times[0]);
    }
    fflush(stdout);
}

static bool ends(const std::string &name, const std::string &with) {
    return name.size() >= with.size() && name.compare(name.size() - with.size(), with.size(), with) == 0;
}

static Texts cut(const Text &all) {
    Texts texts;
    for (size_t at = 0; at + 4 <= all.size();) {
        auto b = bytes(all) + at;
        size_t length = b[0] | b[1] << 8 | b[2] << 16 | (size_t)b[3] << 24;
        texts.push_back(all.substr(at + 4, length));
        at += 4 + length;
    }
    return texts;
}

static void run(const std::string &file, const std::string &folder, int rounds) {
    std::string name = file.substr(file.rfind('/') + 1);
    bool many = ends(name, ".seq"), json = ends(name, ".json"), jaxn = name.find("jaxn") != name.npos;
    Texts texts = many ? cut(load(file.c_str())) : Texts{load(file.c_str())};
    Text copy(texts[0].size(), 1);
    std::vector<Ours> ours;
    for (auto &library : libraries()) ours.emplace_back(library, texts, !jaxn);
    contestants.clear();
    if (!many && !jaxn && name != "indented.json") add_checks(ours, texts[0], copy, folder);
    if (!ends(name, ".txt"))
        for (auto &one : ours) add_ours(one, texts);
    if (!many && !ends(name, ".txt"))
        for (auto &one : ours) add_parts(one, texts);
    if (json) add_peers(texts, folder);
    if (many && !jaxn) add_small_peers(texts);
    time_all(name, texts, rounds);
    if (many) return;
    if (FILE *o = fopen((folder + "/" + name + ".written").c_str(), "wb")) {
        fwrite(ours[0].out.data(), 1, ours[0].written.length, o);
        fclose(o);
    }
}

int main(int argc, char **argv) {
    if (argc < 4) { fprintf(stderr, "bench ROUNDS FOLDER FILE..\n"); return 2; }
    for (int i = 3; i < argc; i++) run(argv[i], argv[2], atoi(argv[1]));
}
