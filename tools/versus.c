// Times the functions of several builds of the library in turn (tools/versus): versus ROUNDS BEFORE.so.. AFTER.so.., as many of each.
#define _GNU_SOURCE
#include <dlfcn.h>
#include <stdio.h>
#include <stdlib.h>
#include <string.h>
#include <time.h>

#include "berzhotun.h"

enum { MOST_BUILDS = 64, BATCH_NS = 20000 };

typedef struct {
    __typeof__(berzhotun_from_str) *from_str;
    __typeof__(berzhotun_from_start_of_str) *from_start_of_str;
    __typeof__(berzhotun_equivalent_to) *equivalent_to;
    __typeof__(berzhotun_eq) *eq;
    __typeof__(berzhotun_equivalent_to_str) *equivalent_to_str;
    __typeof__(berzhotun_size) *size;
    __typeof__(berzhotun_static_encoding_str_len) *len;
    __typeof__(berzhotun_static_encoding_str_array) *print;
    __typeof__(berzhotun_signature) *signature; // none in an archive from before it was there
    __typeof__(berzhotun_from_str_strict) *strict; // likewise
    __typeof__(berzhotun_reason_len) *reason_len, *reason_all_len; // likewise
    __typeof__(berzhotun_reason) *reason, *reason_all;
    __typeof__(berzhotun_layout) *layout; // likewise
} Build;

static const char *const whats[] = {"whole-text reading", "reading from the start", "tree against tree", "with all fields",
                                    "tree against text", "size", "size in row 2", "size in row 3", "length", "print", "strict reading", "signature",
                                    "layout", "layout in row 2"};
enum { TREE = 2, ALL, TEXT, SIZE, SIZE_ARM32, SIZE_GUIDE, LENGTH, PRINT, STRICT, SIGNATURE, LAYOUT, LAYOUT_ARM32, REASON_LEN, REASON_ALL_LEN, REASON, REASON_ALL, EXACT, EXACT_ALL };

static uint8_t text[BERZHOTUN_MAX_TEXT + 1], printed[BERZHOTUN_MAX_PRINT], output[BERZHOTUN_MAX_PRINT];
static size_t text_len, printed_len;
static size_t reason_len; // of the reason that is timed in an output of just its length
static uint64_t words[BERZHOTUN_MAX_WORDS], other_words[BERZHOTUN_MAX_WORDS];
static uint8_t names[BERZHOTUN_MAX_NAMES], other_names[BERZHOTUN_MAX_NAMES];
static uint64_t list[BERZHOTUN_MAX_SIGNATURE], offsets[BERZHOTUN_MAX_NODES];
static volatile uint64_t sink;

static void fail(const char *why) {
    fprintf(stderr, "versus: %s\n", why);
    exit(1);
}

static void *symbol(void *library, const char *name) {
    void *found = dlsym(library, name);
    if (!found) fail(dlerror());
    return found;
}

static Build load(const char *path) {
    void *library = dlopen(path, RTLD_NOW | RTLD_LOCAL);
    if (!library) fail(dlerror());
    return (Build){symbol(library, "berzhotun_from_str"),          symbol(library, "berzhotun_from_start_of_str"),
                   symbol(library, "berzhotun_equivalent_to"),     symbol(library, "berzhotun_eq"),
                   symbol(library, "berzhotun_equivalent_to_str"), symbol(library, "berzhotun_size"),
                   symbol(library, "berzhotun_static_encoding_str_len"), symbol(library, "berzhotun_static_encoding_str_array"),
                   dlsym(library, "berzhotun_signature"), dlsym(library, "berzhotun_from_str_strict"),
                   dlsym(library, "berzhotun_reason_len"), dlsym(library, "berzhotun_reason_all_len"),
                   dlsym(library, "berzhotun_reason"), dlsym(library, "berzhotun_reason_all"),
                   dlsym(library, "berzhotun_layout")};
}

#define SHEET words, words[3], names, words[2]
#define OTHER other_words, other_words[3], other_names, other_words[2]
#define LENT other_words, BERZHOTUN_MAX_WORDS, other_names, BERZHOTUN_MAX_NAMES

static uint64_t call(const Build *build, int what) {
    uint64_t answer[3];
    switch (what) {
    case 0: return build->from_str(text, text_len, LENT, answer);
    case 1: return build->from_start_of_str(text, text_len, LENT, answer);
    case TREE: return build->equivalent_to(SHEET, OTHER, answer) + answer[0];
    case ALL: return build->eq(SHEET, OTHER, answer) + answer[0];
    case TEXT: return build->equivalent_to_str(SHEET, printed, printed_len, answer) + answer[0];
    case SIZE: return build->size(SHEET, BERZHOTUN_ROW_APPLE_ARM64, answer) + answer[0];
    case SIZE_ARM32: return build->size(SHEET, BERZHOTUN_ROW_ARM32, answer) + answer[0];
    case SIZE_GUIDE: return build->size(SHEET, BERZHOTUN_ROW_GUIDE, answer) + answer[0];
    case LAYOUT: return build->layout(SHEET, BERZHOTUN_ROW_APPLE_ARM64, offsets, BERZHOTUN_MAX_NODES, answer) + answer[0];
    case LAYOUT_ARM32: return build->layout(SHEET, BERZHOTUN_ROW_ARM32, offsets, BERZHOTUN_MAX_NODES, answer) + answer[0];
    case LENGTH: return build->len(SHEET, answer) + answer[0];
    case PRINT: return build->print(SHEET, output, sizeof output, answer) + answer[0];
    case STRICT: return build->strict(text, text_len, LENT, answer);
    case REASON_LEN: return build->reason_len(SHEET, OTHER, answer) + answer[1];
    case REASON_ALL_LEN: return build->reason_all_len(SHEET, OTHER, answer) + answer[1];
    case REASON: return build->reason(SHEET, OTHER, output, sizeof output, answer) + answer[1];
    case REASON_ALL: return build->reason_all(SHEET, OTHER, output, sizeof output, answer) + answer[1];
    case EXACT: return build->reason(SHEET, OTHER, output, reason_len, answer) + answer[1];
    case EXACT_ALL: return build->reason_all(SHEET, OTHER, output, reason_len, answer) + answer[1];
    default: return build->signature(text, text_len, list, BERZHOTUN_MAX_SIGNATURE, answer) + answer[0];
    }
}

// How many rows a build has, 0 if its size takes none. Where a row number stands, such a build is lent the answer: given a place
// there, it writes yes or no to it.
static uint64_t rows_of(const Build *build) {
    uint64_t place[2] = {2, 2}, answer[2], rows = 0;
    build->size(SHEET, (uint64_t)(uintptr_t)place, answer);
    while (place[0] == 2 && build->size(SHEET, rows, answer) != BERZHOTUN_NO_SUCH_ROW) rows++;
    return rows;
}

// Whether builds with so many rows can be asked for it.
static int is_had(int what, uint64_t rows) {
    return what == SIZE         ? rows > BERZHOTUN_ROW_APPLE_ARM64
           : what == SIZE_ARM32 ? rows > BERZHOTUN_ROW_ARM32
           : what == SIZE_GUIDE ? rows > BERZHOTUN_ROW_GUIDE
                                : 1;
}

static double batch(const Build *build, int what, int calls) {
    struct timespec a, b;
    clock_gettime(CLOCK_MONOTONIC, &a);
    for (int i = 0; i < calls; i++) sink += call(build, what);
    clock_gettime(CLOCK_MONOTONIC, &b);
    return (double)(b.tv_sec - a.tv_sec) * 1e9 + (double)(b.tv_nsec - a.tv_nsec);
}

// The mean and the least of the builds' times.
static void summed(const double *times, int builds, double *mean, double *least) {
    *mean = 0, *least = times[0];
    for (int i = 0; i < builds; i++) {
        *mean += times[i] / builds;
        if (times[i] < *least) *least = times[i];
    }
}

// The least time of each build for each of some calls, all in turn.
static void timed(const Build *builds, int count, int rounds, const int *what, int kinds, double times[][MOST_BUILDS]) {
    int calls[4];
    for (int k = 0; k < kinds; k++) {
        for (calls[k] = 1; batch(&builds[0], what[k], calls[k]) < BATCH_NS;) calls[k] *= 2;
        for (int i = 0; i < count; i++) times[k][i] = 1e18;
    }
    for (int round = 0; round < rounds; round++) {
        for (int i = 0; i < count * kinds; i++) {
            int build = i / kinds, k = i % kinds;
            double took = batch(&builds[build], what[k], calls[k]) / calls[k];
            if (took < times[k][build]) times[k][build] = took;
        }
    }
}

static void row(const char *shape, const Build *builds, int each, int rounds, int what) {
    double times[1][MOST_BUILDS], mean[2], least[2];
    timed(builds, 2 * each, rounds, &what, 1, times);
    summed(times[0], each, &mean[0], &least[0]);
    summed(times[0] + each, each, &mean[1], &least[1]);
    printf("%-14s %-22s %9.1f %9.1f  %5.2f %5.2f\n", shape, whats[what], mean[0], mean[1], mean[1] / mean[0], least[1] / least[0]);
}

enum { SHAPES = 7 };

static void repeat(const char *part, int times) {
    for (int i = 0; i < times; i++) text_len += (size_t)sprintf((char *)text + text_len, "%s", part);
}

// A record of as many bytes as a text can have, of eleven fields in turn.
static void repeat_fields(const char *const *fields) {
    repeat("{R=", 1);
    for (int i = 0; text_len + strlen(fields[i % 11]) < BERZHOTUN_MAX_TEXT; i++) repeat(fields[i % 11], 1);
    repeat("i", (int)(BERZHOTUN_MAX_TEXT - 1 - text_len));
    repeat("}", 1);
}

// The benchmark's shapes (oracle/bench.rs) and wide bitfields; then some for reasons and layouts alone.
static const char *shape(int which) {
    static const char *const fields[] = {"i", "^v", "[4c]", "@", "b3", "{P=dd}", "*", "^{B}", "(U=if)", "b0i7", ":"};
    static const char *const laid_out[] = {"i", "^v", "[4c]", "@", "s", "{P=dd}", "*", "^{B}", "(U=if)", "Aq", ":"};
    text_len = 0;
    switch (which) {
    case 0: return repeat("i", 1), "a code";
    case 1: return repeat("{Rate=i^v{Point=dd}[4c]@\"NSDate\"^{Band=s}(U=if)b3*:#Bq^^{Q}}", 1), "25 nodes";
    case 2: return repeat_fields(fields), "1,188 nodes";
    case 3: return repeat("{R=", 1), repeat("i", 1996), repeat("}", 1), "1,997 codes";
    case 4: return repeat("^", 1000), repeat("i", 1), "1,001 pointers";
    case 5: return repeat("{R=", 499), repeat("i", 1), repeat("}", 499), "nested records";
    case 6: return repeat("{R=", 1), repeat("b200", 400), repeat("}", 1), "wide bitfields";
    case SHAPES: return repeat("{R=", 1), repeat("i", 1000), repeat("}", 1), "1,000 fields";
    case SHAPES + 1: return repeat("^", 2000), "2,000 pointers";
    case SHAPES + 2: return repeat("{R=", 332), repeat("i", 1), repeat("}i", 331), repeat("}", 1), "not the last"; // each record has a field behind it
    case SHAPES + 3: return repeat("{R=", 1), repeat("{P=dd}", 300), repeat("}", 1), "300 records";
    case SHAPES + 4: return repeat("{R=", 1), repeat("{P=}", 498), repeat("}", 1), "empty records";
    case SHAPES + 5: return repeat("{", 1), repeat("R", 1000), repeat("}", 1), "long names";
    case SHAPES + 6: return repeat("{Rate=i^v{Point=dd}[4c]@\"NSDate\"^{Band=s}(U=if)c*:#Bq^^{Q}}", 1), "25 laid out";
    case SHAPES + 7: return repeat_fields(laid_out), "1,310 laid out";
    default: return NULL;
    }
}

// The benchmark's signatures.
static const char *signature(int which) {
    static const char *const entries[] = {"v24", "@0", ":8", "{Rate=id}16", "q32", "^{Band=s}40", "@\"NSDate\"48", "r*56",
                                          "@?64", "{Point=dd}72", "^i88", "[4c]96", "B100", "^^{Q}104"};
    text_len = 0;
    switch (which) {
    case 0: return repeat("v24@0:8@16", 1), "4 types";
    case 1: return repeat("{Rate=id}72@0:8{Point=dd}16^{Band=s^v}32@\"NSDate\"40r*48@?56^@64", 1), "9 types";
    case 2:
        for (int i = 0; text_len + strlen(entries[i % 14]) + 2 <= BERZHOTUN_MAX_TEXT; i++) repeat(entries[i % 14], 1);
        repeat("i", 1);
        return repeat("0", (int)(BERZHOTUN_MAX_TEXT - text_len)), "330 types";
    case 3: return repeat("i0", 1000), "1,000 types";
    default: return NULL;
    }
}

// The trees whose comparison is held against its reason: small ones, the header's examples among them, by their texts.
static const char *const small[][2] = {{"i", "d"}, {"i", "^i"}, {"^i", "^d"}, {"b3", "b4"}, {"b0i3", "b1i3"}, {"[3c]", "[12c]"},
                                       {"{R=i}", "{S=i}"}, {"{R=ii}", "{R=i}"}, {"{R=i^v}", "{R=i^i}"}, {"{R=i}", "{R=i}"}};

// Lengths of so many digits that differ in the last; and the longest numbers where a walk comes to them otherwise.
enum { FEWEST_DIGITS = 3, MOST_DIGITS = 20 };
static const char digits[] = "18446744073709551615";
static const struct { const char *label, *before, *behind; } placed[] = {{"20 in a record", "{R=[", "c]}"}, {"20 behind ^", "^[", "c]"}, {"20 as offset", "b", "c7"}};

// Larger ones, by a shape and what is changed in it for the second.
enum { LAST, FIRST, NAME, COUNT, NOTHING };
static const char *const changes[] = {"another last", "another first", "another name", "another count", "equal"};
static const struct { int shape, change; } large[] = {{1, LAST}, {2, LAST}, {3, LAST}, {5, LAST}, {SHAPES, LAST}, {SHAPES, FIRST}, {SHAPES, COUNT}, {SHAPES + 1, LAST},
                                                      {SHAPES + 2, LAST}, {SHAPES + 3, LAST}, {SHAPES + 4, LAST},
                                                      {SHAPES + 5, NAME}, {1, NOTHING}, {2, NOTHING}};

static void read_into(const Build *build, uint64_t *to_words, uint8_t *to_names) {
    uint64_t answer[3];
    if (build->from_str(text, text_len, to_words, BERZHOTUN_MAX_WORDS, to_names, BERZHOTUN_MAX_NAMES, answer)) fail("a text that does not read");
}

static void lend_small(const Build *build, int which) {
    text_len = 0, repeat(small[which][0], 1), read_into(build, words, names);
    text_len = 0, repeat(small[which][1], 1), read_into(build, other_words, other_names);
}

static void lend_digits(const Build *build, const char *before, int count, const char *behind) {
    uint8_t *last = text + strlen(before) + count - 1;
    uint64_t answer[1];
    text_len = (size_t)sprintf((char *)text, "%s%.*s%s", before, count, digits, behind);
    read_into(build, words, names);
    *last = *last == '4' ? '3' : '4';
    read_into(build, other_words, other_names);
    if (build->equivalent_to(SHEET, OTHER, answer) || answer[0]) fail("two numbers that do not differ");
}

static void change(uint64_t *kind) {
    *kind = *kind == BERZHOTUN_STRUCT ? BERZHOTUN_UNION : *kind == BERZHOTUN_INT ? BERZHOTUN_DOUBLE : BERZHOTUN_INT;
}

static void lend_large(const Build *build, int which) {
    uint64_t *root = other_words + 4, answer[1];
    shape(large[which].shape);
    read_into(build, words, names);
    memcpy(other_words, words, sizeof words);
    memcpy(other_names, names, sizeof names);
    switch (large[which].change) {
    case LAST: change(other_words + other_words[3] - 4); break;
    case NAME: other_names[root[2] - 1] = 'S'; break;
    case COUNT: other_words[0]--, other_words[3] -= 4, root[3]--; // without its last field, and
    // fall through
    case FIRST: change(root + 4);
    }
    if (build->equivalent_to(SHEET, OTHER, answer) || answer[0] != (large[which].change == NOTHING)) fail("a pair that does not compare as it should");
}

// A comparison, the length of its reason, the reason in a long output and in one of just its length, all of the same two trees; and
// both reasons by the comparison.
static void reason_row(const char *first, const char *second, const Build *builds, int each, int rounds, const int what[4]) {
    double times[4][MOST_BUILDS], mean[4], least[4];
    reason_len = call(&builds[0], what[1]);
    timed(builds, each, rounds, what, 4, times);
    for (int k = 0; k < 4; k++) summed(times[k], each, &mean[k], &least[k]);
    printf("%-14s %-14s %-18s %9.1f %9.1f %9.1f %9.1f  %5.2f %5.2f  %5.2f %5.2f\n", first, second, whats[what[0]], mean[0], mean[1], mean[2], mean[3],
           mean[2] / mean[0], least[2] / least[0], mean[3] / mean[0], least[3] / least[0]);
}

static void reason_pair(const char *first, const char *second, const Build *builds, int each, int rounds) {
    reason_row(first, second, builds, each, rounds, (const int[]){TREE, REASON_LEN, REASON, EXACT});
    reason_row(first, second, builds, each, rounds, (const int[]){ALL, REASON_ALL_LEN, REASON_ALL, EXACT_ALL});
}

// Of the archive AFTER alone.
static void reason_rows(const Build *builds, int each, int rounds) {
    for (int i = 0; i < each; i++) {
        if (!builds[i].reason) {
            printf("the archive AFTER has no berzhotun_reason: reasons are left out\n");
            return;
        }
    }
    printf("\n%-14s %-14s %-18s %9s %9s %9s %9s  %5s %5s  %5s %5s\n", "first", "second", "comparison", "compare", "length", "reason", "exact", "mean", "least", "mean", "least");
    for (size_t which = 0; which < sizeof small / sizeof *small; which++) {
        lend_small(&builds[0], (int)which);
        reason_pair(small[which][0], small[which][1], builds, each, rounds);
    }
    for (int count = FEWEST_DIGITS; count <= MOST_DIGITS; count++) {
        char label[16];
        lend_digits(&builds[0], "[", count, "c]");
        sprintf(label, "%d digits", count);
        reason_pair(label, changes[LAST], builds, each, rounds);
    }
    for (size_t which = 0; which < sizeof placed / sizeof *placed; which++) {
        lend_digits(&builds[0], placed[which].before, MOST_DIGITS, placed[which].behind);
        reason_pair(placed[which].label, changes[LAST], builds, each, rounds);
    }
    for (size_t which = 0; which < sizeof large / sizeof *large; which++) {
        lend_large(&builds[0], (int)which);
        reason_pair(shape(large[which].shape), changes[large[which].change], builds, each, rounds);
    }
    printf("\n");
}

// Layouts before and after, where both have them; then, of the archive AFTER alone, beside the size of the same trees.
static void layout_rows(const Build *builds, int each, int rounds) {
    static const int shapes[] = {0, SHAPES + 6, SHAPES + 7, 3, 4, 5, SHAPES, SHAPES + 2, SHAPES + 3, 1};
    static const int what[] = {SIZE, LAYOUT};
    int is_before = 1;
    for (int i = 0; i < 2 * each; i++) {
        if (!builds[i].layout && i >= each) {
            printf("the archive AFTER has no berzhotun_layout: layouts are left out\n");
            return;
        }
        is_before = is_before && builds[i].layout;
    }
    for (size_t which = 0; is_before && which < sizeof shapes / sizeof *shapes; which++) {
        const char *name = shape(shapes[which]);
        read_into(&builds[0], words, names);
        row(name, builds, each, rounds, LAYOUT);
        row(name, builds, each, rounds, LAYOUT_ARM32);
    }
    printf("\n%-14s %9s %9s  %5s %5s\n", "tree", "size", "layout", "mean", "least");
    for (size_t which = 0; which < sizeof shapes / sizeof *shapes; which++) {
        double times[2][MOST_BUILDS], mean[2], least[2];
        const char *name = shape(shapes[which]);
        read_into(&builds[0], words, names);
        timed(builds + each, each, rounds, what, 2, times);
        for (int k = 0; k < 2; k++) summed(times[k], each, &mean[k], &least[k]);
        printf("%-14s %9.1f %9.1f  %5.2f %5.2f\n", name, mean[0], mean[1], mean[1] / mean[0], least[1] / least[0]);
    }
    printf("\n");
}

int main(int count, char **given) {
    static Build builds[MOST_BUILDS];
    int rounds = count > 1 ? atoi(given[1]) : 0, each = (count - 2) / 2;
    if (rounds < 1 || each < 1 || 2 * each > MOST_BUILDS) fail("ROUNDS BEFORE.so.. AFTER.so..");
    int last = STRICT;
    uint64_t rows = UINT64_MAX;
    for (int i = 0; i < 2 * each; i++) {
        builds[i] = load(given[2 + i]);
        if (!builds[i].strict) last = STRICT - 1;
        shape(0), read_into(&builds[i], words, names);
        uint64_t had = rows_of(&builds[i]);
        if (had < rows) rows = had;
    }
    if (last < STRICT) printf("one of the archives has no berzhotun_from_str_strict: strict reading is left out\n");
    if (rows == 0) printf("one of the archives has a berzhotun_size without rows: sizes are left out\n");
    if (rows > 0 && !is_had(SIZE_GUIDE, rows)) printf("one of the archives has no row 3: sizes in it are left out\n");
    printf("%-14s %-22s %9s %9s  %5s %5s\n", "tree", "what", "before", "after", "mean", "least");
    for (int which = 0; which < SHAPES; which++) {
        const char *name = shape(which);
        uint64_t answer[3];
        read_into(&builds[0], words, names);
        memcpy(other_words, words, sizeof words);
        memcpy(other_names, names, sizeof names);
        if (builds[0].print(SHEET, printed, sizeof printed, answer)) fail("a tree that does not print");
        printed_len = answer[0];
        for (int what = 0; what <= last; what++) {
            if (is_had(what, rows)) row(name, builds, each, rounds, what);
        }
    }
    // An empty record passes over the fields of these shapes.
    static const struct { int shape; const char *name; } passed[] = {{2, "1,188 passed"}, {3, "1,997 passed"}, {5, "nested passed"}};
    for (int i = 0; i < 3; i++) {
        text_len = 0;
        repeat("{R=}", 1);
        read_into(&builds[0], words, names);
        shape(passed[i].shape);
        printed_len = text_len;
        memcpy(printed, text, text_len);
        row(passed[i].name, builds, each, rounds, TEXT);
    }
    reason_rows(builds + each, each, rounds);
    layout_rows(builds, each, rounds);
    for (int i = 0; i < 2 * each; i++) {
        if (!builds[i].signature) return printf("one of the archives has no berzhotun_signature: signatures are left out\n"), 0;
    }
    for (int which = 0; signature(which); which++) {
        uint64_t answer[3];
        if (builds[0].signature(text, text_len, list, BERZHOTUN_MAX_SIGNATURE, answer)) fail("a signature that does not read");
        row(signature(which), builds, each, rounds, SIGNATURE);
    }
    return 0;
}
