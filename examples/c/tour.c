/* A tour of the library: each function once, and what a refusal looks like. */
#include <inttypes.h>
#include <stdio.h>
#include <string.h>

#include "berzhotun.h"

/* Room for any tree that a text can make. */
struct tree {
    uint64_t words[BERZHOTUN_MAX_WORDS];
    uint8_t names[BERZHOTUN_MAX_NAMES];
};

/* A struct tree as the two lists that the functions take. */
#define LENT(tree) (tree).words, BERZHOTUN_MAX_WORDS, (tree).names, BERZHOTUN_MAX_NAMES

static const char *const in_words[] = {
    "accepted",
    "the text has more than 2,000 bytes",
    "a lent list is too short",
    "the lists are no sheet",
    "a struct or union has a name that is none",
    "the output is too short",
    "the size or an offset is above 2^64 - 1, or on 32-bit ARM 2^32 - 1",
    "the text ends where something must follow",
    "no type starts with this byte, or nothing is open that it closes",
    "this byte does not make a complex number",
    "a number must stand here",
    "the number is too large",
    "the array is not closed",
    "the struct or union is not closed",
    "this is no name for a struct or union",
    "something follows the type",
    "a number must follow the type",
    "the number is above 4,294,967,295",
    "the signature has no byte",
    "the number starts with a surplus zero",
    "there is no such row of sizes",
    "a bitfield cannot be laid out",
};

static const char *yes_or_no(uint64_t answer) {
    return answer ? "yes" : "no";
}

/* The mark goes under the byte, which may stand right before the place. */
static void show_refusal(const char *text, uint64_t refusal, const uint64_t values[3], int is_behind) {
    printf("  %s\n  %*s^ refusal %" PRIu64 " at place %" PRIu64 ": %s\n", text, (int)values[0] - is_behind, "",
           refusal, values[0], in_words[refusal]);
}

/* Whether the text was read; what was wrong is printed. */
static int read_text(const char *text, struct tree *tree) {
    uint64_t values[3];
    uint64_t refusal = berzhotun_from_str((const uint8_t *)text, strlen(text), LENT(*tree), values);
    if (refusal != 0) {
        show_refusal(text, refusal, values, refusal == BERZHOTUN_UNKNOWN_BYTE);
    }
    return refusal == 0;
}

static void show_print(const struct tree *tree) {
    uint8_t out[256];
    uint64_t length[1], written[1];
    uint64_t refusal = berzhotun_static_encoding_str_len(LENT(*tree), length);
    if (refusal == 0) {
        refusal = berzhotun_static_encoding_str_array(LENT(*tree), out, sizeof out, written);
    }
    if (refusal != 0) {
        printf("  %s\n", in_words[refusal]);
    } else {
        printf("  prints %" PRIu64 " bytes: %.*s\n", length[0], (int)written[0], (const char *)out);
    }
}

static void show_size(const struct tree *tree) {
    uint64_t size[2];
    uint64_t refusal = berzhotun_size(LENT(*tree), BERZHOTUN_ROW_APPLE_ARM64, size);
    if (refusal != 0) {
        printf("  %s\n", in_words[refusal]);
    } else if (size[0] == 0) {
        printf("  has no size\n");
    } else {
        printf("  takes  %" PRIu64 " bytes\n", size[1]);
    }
}

static void show_words(const struct tree *tree) {
    uint64_t i;
    for (i = 0; i < tree->words[3]; i++) {
        printf(i % 4 == 0 ? "\n    %" PRIu64 : " %" PRIu64, tree->words[i]);
    }
    printf("\n");
}

static void read_print_size(void) {
    static const char *const texts[] = {"{R=i^v}", "^^{R=i}", "[12^f]", "(U=vi)", "b16i3", "rn@\"Rate\""};
    static struct tree tree;
    size_t i;
    for (i = 0; i < sizeof texts / sizeof texts[0]; i++) {
        printf("%s\n", texts[i]);
        if (read_text(texts[i], &tree)) {
            show_print(&tree);
            show_size(&tree);
        }
    }
    if (read_text("{R=i^v}", &tree)) {
        printf("\nThe words of {R=i^v}: the header, then each node's kind, two numbers, nodes below and itself");
        show_words(&tree);
    }
}

/* A type's size in one of the rows, as a column of a table. */
static void show_column(const struct tree *tree, uint64_t row) {
    uint64_t size[2];
    uint64_t refusal = berzhotun_size(LENT(*tree), row, size);
    if (refusal != 0) {
        printf("   refusal %2" PRIu64, refusal);
    } else if (size[0] == 0) {
        printf(" %12s", "none");
    } else {
        printf(" %12" PRIu64, size[1]);
    }
}

static void measure_some(void) {
    static const char *const texts[] = {
        "l", "L", "^v", "D", "{R=i^v}", "{R=lL}", "b0l3", "v", "[4294967296c]", "[1073741824l]", "[0[4294967296c]]"};
    static struct tree tree;
    size_t i;
    printf("\n%-18s %12s %12s %12s %12s %12s\n", "bytes", "Apple ARM64", "x86_64", "32-bit ARM", "the guide", "row 4");
    for (i = 0; i < sizeof texts / sizeof texts[0]; i++) {
        if (read_text(texts[i], &tree)) {
            printf("%-18s", texts[i]);
            show_column(&tree, BERZHOTUN_ROW_APPLE_ARM64);
            show_column(&tree, BERZHOTUN_ROW_X86_64);
            show_column(&tree, BERZHOTUN_ROW_ARM32);
            show_column(&tree, BERZHOTUN_ROW_GUIDE);
            show_column(&tree, 4);
            printf("\n");
        }
    }
    printf("  refusal %2u: %s\n", BERZHOTUN_SIZE_TOO_LARGE, in_words[BERZHOTUN_SIZE_TOO_LARGE]);
    printf("  refusal %2u: %s\n", BERZHOTUN_NO_SUCH_ROW, in_words[BERZHOTUN_NO_SUCH_ROW]);
}

/* Where each node's field lies in one of the rows: the numbers stand in the order of the nodes. */
static void show_layout(const struct tree *tree, const char *name, uint64_t row) {
    static uint64_t offsets[BERZHOTUN_MAX_NODES];
    uint64_t answer[3], i;
    uint64_t refusal = berzhotun_layout(LENT(*tree), row, offsets, BERZHOTUN_MAX_NODES, answer);
    if (refusal == BERZHOTUN_BIT_FIELD_IN_LAYOUT) {
        printf("  %-11s refusal 21, node %" PRIu64 ": %s\n", name, answer[0], in_words[refusal]);
    } else if (refusal != 0) {
        printf("  %-11s refusal %" PRIu64 ": %s\n", name, refusal, in_words[refusal]);
    } else if (answer[0] == 0) {
        printf("  %-11s has no layout\n", name);
    } else {
        printf("  %-11s %" PRIu64 " bytes, alignment %" PRIu64 ", offsets", name, answer[1], answer[2]);
        for (i = 0; i < tree->words[0]; i++) {
            printf(" %" PRIu64, offsets[i]);
        }
        printf("\n");
    }
}

static void lay_some_out(void) {
    static const char *const texts[] = {"{R=ci^v}", "[2{R=ic}]", "{R=cDc}", "{R=c{S=sq}(U=ic)}", "(U=vi)", "{R=^b3b3}",
                                        "{R=[4294967295c]i}"};
    static struct tree tree;
    size_t i;
    printf("\n");
    for (i = 0; i < sizeof texts / sizeof texts[0]; i++) {
        printf("%s\n", texts[i]);
        if (read_text(texts[i], &tree)) {
            show_layout(&tree, "Apple ARM64", BERZHOTUN_ROW_APPLE_ARM64);
            show_layout(&tree, "x86_64", BERZHOTUN_ROW_X86_64);
            show_layout(&tree, "32-bit ARM", BERZHOTUN_ROW_ARM32);
        }
    }
}

static void compare(const char *first, const char *second) {
    static struct tree a, b;
    uint64_t levels[1], all_fields[1], text[1];
    if (!read_text(first, &a) || !read_text(second, &b)) {
        return;
    }
    if (berzhotun_equivalent_to(LENT(a), LENT(b), levels) == 0 &&
        berzhotun_eq(LENT(a), LENT(b), all_fields) == 0 &&
        berzhotun_equivalent_to_str(LENT(a), (const uint8_t *)second, strlen(second), text) == 0) {
        printf("%-10s %-10s %-12s %-12s %s\n", first, second, yes_or_no(levels[0]), yes_or_no(all_fields[0]),
               yes_or_no(text[0]));
    }
}

static void compare_some(void) {
    printf("\n%-10s %-10s %-12s %-12s %s\n", "tree", "other", "equivalent", "all fields", "matches text");
    compare("i", "d");
    compare("{R=i}", "{R=i}");
    compare("{R=i}", "{R}");
    compare("{R=i}", "{R=}");
    compare("^^{R=i}", "^^{R=d}");
    compare("^^{R=i}", "^^{R}");
    compare("@", "@\"Rate\"");
    compare("@?", "@\"Rate\"");
}

/* Why the answer is no: the first difference, as bytes that a program can take apart. */
static void explain(const char *first, const char *second) {
    static struct tree a, b;
    static uint8_t levels[BERZHOTUN_MAX_REASON], all_fields[BERZHOTUN_MAX_REASON];
    uint64_t by_levels[2], by_all_fields[2];
    if (!read_text(first, &a) || !read_text(second, &b)) {
        return;
    }
    if (berzhotun_reason(LENT(a), LENT(b), levels, sizeof levels, by_levels) == 0 &&
        berzhotun_reason_all(LENT(a), LENT(b), all_fields, sizeof all_fields, by_all_fields) == 0) {
        printf("%-10s %-10s %-22.*s %.*s\n", first, second, by_levels[0] ? 3 : (int)by_levels[1],
               by_levels[0] ? "yes" : (const char *)levels, by_all_fields[0] ? 3 : (int)by_all_fields[1],
               by_all_fields[0] ? "yes" : (const char *)all_fields);
    }
}

static void explain_some(void) {
    static struct tree a, b;
    uint8_t out[12];
    uint64_t length[2], answer[2];
    printf("\n%-10s %-10s %-22s %s\n", "tree", "other", "equivalent", "all fields");
    explain("i", "d");
    explain("{R=i^v}", "{R=i^i}");
    explain("{R=i}", "{S=i}");
    explain("{R=ii}", "{R=i}");
    explain("{R=i}", "{R}");
    explain("[3c]", "[12c]");
    explain("b0i3", "b8i3");
    explain("b3", "b0i3");
    explain("^^{R=i}", "^^{R=d}");
    /* The length may be asked first; an output that is too short is left as it was. */
    if (read_text("i", &a) && read_text("d", &b) && berzhotun_reason_len(LENT(a), LENT(b), length) == 0) {
        uint64_t refusal = berzhotun_reason(LENT(a), LENT(b), out, sizeof out, answer);
        printf("  a reason of %" PRIu64 " bytes, an output of %d: %s\n", length[1], (int)sizeof out, in_words[refusal]);
    }
}

/* One type from the start of a text, and where the rest begins. */
static void read_start(const char *text) {
    static struct tree tree;
    uint64_t values[3];
    printf("\n%s\n", text);
    if (berzhotun_from_start_of_str((const uint8_t *)text, strlen(text), LENT(tree), values) == 0) {
        show_print(&tree);
        printf("  leaves %s\n", text + values[0]);
    }
}

/* A method's signature: one type after the other, each with a number behind it. */
static void take_apart(const char *signature) {
    static uint64_t list[BERZHOTUN_MAX_SIGNATURE];
    uint64_t values[3], i;
    uint64_t refusal = berzhotun_signature((const uint8_t *)signature, strlen(signature), list,
                                           BERZHOTUN_MAX_SIGNATURE, values);
    if (refusal != 0) {
        /* A digit where a type must begin is at its own place. */
        int is_digit = values[1] >= '0' && values[1] <= '9';
        show_refusal(signature, refusal, values, refusal == BERZHOTUN_UNKNOWN_BYTE && !is_digit);
        return;
    }
    printf("  %s\n", signature);
    for (i = 0; i < values[0]; i++) {
        printf("    %-12.*s from %2" PRIu64 ", %2" PRIu64 " bytes, number %" PRIu64 "\n", (int)list[3 * i + 1],
               signature + list[3 * i], list[3 * i], list[3 * i + 1], list[3 * i + 2]);
    }
}

static void take_some_apart(void) {
    static const char *const signatures[] = {"v24@0:8@16",    "d36@0:8d16r^{Rate=id}24i32", "b168",    "v24@0:8@",
                                             "v24@0:8{R=5}0", "v24@0:8@4294967296",         "v24@0:8x"};
    size_t i;
    printf("\n");
    for (i = 0; i < sizeof signatures / sizeof signatures[0]; i++) {
        take_apart(signatures[i]);
    }
}

/* For registration each number has one spelling, so that [7c] and [007c] are not two entries. */
static void register_text(const char *text) {
    static struct tree tree;
    uint64_t values[3];
    uint64_t refusal = berzhotun_from_str_strict((const uint8_t *)text, strlen(text), LENT(tree), values);
    if (refusal != 0) {
        show_refusal(text, refusal, values, refusal == BERZHOTUN_UNKNOWN_BYTE);
    } else {
        printf("  %s\n  is registered with %" PRIu64 " nodes\n", text, tree.words[0]);
    }
}

static void register_some(void) {
    static const char *const texts[] = {"[7c]", "[007c]", "{b01=b0i7}", "{R=b0i007}", "b0256", "[7c][007c]"};
    size_t i;
    printf("\n");
    for (i = 0; i < sizeof texts / sizeof texts[0]; i++) {
        register_text(texts[i]);
    }
}

static void refuse_some(void) {
    static const char *const texts[] = {"{R=ix}", "[3i", "{a-b=i}", "{R=i", "jx", "b256", "ii"};
    static struct tree tree;
    size_t i;
    printf("\n");
    for (i = 0; i < sizeof texts / sizeof texts[0]; i++) {
        read_text(texts[i], &tree);
    }
}

int main(void) {
    read_print_size();
    measure_some();
    lay_some_out();
    compare_some();
    explain_some();
    read_start("{R=i}16@0:8");
    take_some_apart();
    register_some();
    refuse_some();
    return 0;
}
