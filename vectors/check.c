/* Reads every text of the list, prints it again, measures it in the row of its target, for arm64 also in row 3,
   and compares with what the list says. A line of five words is one of the list of layouts: there its padded size, its
   alignment and the offsets of its fields are compared. */
#include <inttypes.h>
#include <stdio.h>
#include <stdlib.h>
#include <string.h>

#include "berzhotun.h"

#define LENT(tree) (tree).words, BERZHOTUN_MAX_WORDS, (tree).names, BERZHOTUN_MAX_NAMES

static struct {
    uint64_t words[BERZHOTUN_MAX_WORDS];
    uint8_t names[BERZHOTUN_MAX_NAMES];
} tree, strict_tree;

/* A line of the list, and the row of sizes of its target. */
static struct {
    char target[16], how[16], name[64], text[512], size[24], alignment[24], outcome[512];
    unsigned machine;
} row;

static const struct {
    const char *target;
    unsigned machine;
} targets[] = {
    {"arm64", BERZHOTUN_ROW_APPLE_ARM64},
    {"x86_64", BERZHOTUN_ROW_X86_64},
    {"armv7", BERZHOTUN_ROW_ARM32},
    {"armv7k", BERZHOTUN_ROW_ARM32},
    {"gnu", BERZHOTUN_ROW_X86_64},
};

static struct {
    int rows, same, otherwise, refused, sizes[4], layouts[4], offsets, signatures, types, differences;
} counts;

static void differs(const char *what) {
    printf("%s %s %s %s: %s\n", row.target, row.how, row.name, row.text, what);
    counts.differences++;
}

/* Reads a type from the start of `text`; how many bytes it has, or 0 if it was refused. */
static size_t read_start(const char *text) {
    uint64_t values[3];
    if (berzhotun_from_start_of_str((const uint8_t *)text, strlen(text), LENT(tree), values) != 0) {
        return 0;
    }
    return values[0];
}

/* A signature's types and numbers in the list's own form: `d,20|@,0|:,8|i,16`. Reading from the start takes as many
   bytes of each. */
static void take_apart(const uint64_t *list, uint64_t types, char *found, size_t room) {
    size_t length = 0;
    uint64_t i;
    for (i = 0; i < types && length < room; i++, list += 3) {
        if (read_start(row.text + list[0]) != list[1]) {
            differs("has a type of another length from its start");
        }
        length += (size_t)snprintf(found + length, room - length, "%s%.*s,%" PRIu64, i == 0 ? "" : "|", (int)list[1],
                                   row.text + list[0], list[2]);
    }
}

static void check_signature(void) {
    static uint64_t list[BERZHOTUN_MAX_SIGNATURE];
    char found[512] = "refused";
    uint64_t values[3];
    uint64_t refusal = berzhotun_signature((const uint8_t *)row.text, strlen(row.text), list, BERZHOTUN_MAX_SIGNATURE, values);
    counts.signatures++;
    if (refusal == 0) {
        counts.types += (int)values[0];
        take_apart(list, values[0], found, sizeof found);
    } else if (refusal == BERZHOTUN_EXPECTED_OFFSET) {
        snprintf(found, sizeof found, "refused,%" PRIu64, values[0]);
    } else if (refusal != BERZHOTUN_UNKNOWN_BYTE) {
        snprintf(found, sizeof found, "refused by %" PRIu64, refusal);
    }
    counts.refused += refusal != 0;
    if (strcmp(found, row.outcome) != 0) {
        differs(found);
    }
}

static void check_print(void) {
    const char *expected = strcmp(row.outcome, "same") == 0 ? row.text : row.outcome;
    char out[512];
    uint64_t length[1];
    *(expected == row.text ? &counts.same : &counts.otherwise) += 1;
    if (berzhotun_static_encoding_str_array(LENT(tree), (uint8_t *)out, sizeof out, length) != 0 ||
        length[0] != strlen(expected) || memcmp(out, expected, length[0]) != 0) {
        differs("prints otherwise");
    }
}

static void check_size_in(unsigned machine) {
    char what[40];
    uint64_t size[2];
    counts.sizes[machine]++;
    if (berzhotun_size(LENT(tree), machine, size) != 0 || size[0] != 1 || size[1] != strtoull(row.size, NULL, 10)) {
        snprintf(what, sizeof what, "has another size in row %u", machine);
        differs(what);
    }
}

/* For 64-bit Apple ARM clang writes a long as `q`: its sizes are those of rows 0 and 3, which differ in `l` alone. */
static void check_size(void) {
    if (strcmp(row.size, "-") == 0) {
        return;
    }
    check_size_in(row.machine);
    if (row.machine == BERZHOTUN_ROW_APPLE_ARM64) {
        check_size_in(BERZHOTUN_ROW_GUIDE);
    }
}

/* None of these texts has a surplus zero: strict reading refuses by the ordinary one's number or accepts, with the same lists. */
static void check_strict(uint64_t refusal) {
    size_t length = strlen(row.text);
    uint64_t values[3];
    if (berzhotun_from_str_strict((const uint8_t *)row.text, length, LENT(strict_tree), values) != refusal ||
        memcmp(strict_tree.words, tree.words, BERZHOTUN_WORDS_FOR(length) * sizeof(uint64_t)) != 0 ||
        memcmp(strict_tree.names, tree.names, BERZHOTUN_NAMES_FOR(length)) != 0) {
        differs("is read otherwise strictly");
    }
}

static void check_type(void) {
    uint64_t values[3];
    uint64_t refusal = berzhotun_from_str((const uint8_t *)row.text, strlen(row.text), LENT(tree), values);
    check_strict(refusal);
    if (strcmp(row.outcome, "refused") == 0) {
        counts.refused++;
        if (refusal != BERZHOTUN_UNKNOWN_BYTE) {
            differs("was not refused by 8");
        }
    } else if (refusal != 0) {
        differs("was refused");
    } else {
        check_print();
        check_size();
    }
}

/* The offset of each node by the library, and the list's own of the fields, of which the next is looked for. */
static uint64_t offsets[BERZHOTUN_MAX_NODES];
static const char *next_offset;

static uint64_t node_word(uint64_t node, unsigned word) {
    return tree.words[tree.words[1] + 4 * node + word];
}

/* Whether the nodes below `node` have what the list says: a field the next of its offsets, any other 0; what is behind a
   pointer has no fields there. */
static int offsets_below(uint64_t node) {
    uint64_t kind = node_word(node, 0), end = node + node_word(node, 3), child;
    for (child = node + 1; child < end; child += kind == BERZHOTUN_POINTER ? 1 : node_word(child, 3)) {
        uint64_t wanted = 0;
        if (kind == BERZHOTUN_STRUCT || kind == BERZHOTUN_UNION) {
            char *after;
            wanted = strtoull(next_offset, &after, 10);
            if (after == next_offset) {
                return 0;
            }
            next_offset = after + (*after == ',');
            counts.offsets++;
        }
        if (offsets[child] != wanted || (kind != BERZHOTUN_POINTER && !offsets_below(child))) {
            return 0;
        }
    }
    return 1;
}

static void check_layout_in(unsigned machine) {
    char what[40];
    uint64_t answer[3];
    counts.layouts[machine]++;
    next_offset = strcmp(row.outcome, "-") == 0 ? "" : row.outcome;
    if (berzhotun_layout(LENT(tree), machine, offsets, BERZHOTUN_MAX_NODES, answer) != 0 || answer[0] != 1 ||
        answer[1] != strtoull(row.size, NULL, 10) || answer[2] != strtoull(row.alignment, NULL, 10) ||
        offsets[0] != 0 || !offsets_below(0) || *next_offset != '\0') {
        snprintf(what, sizeof what, "is laid out otherwise in row %u", machine);
        differs(what);
    }
}

static void check_layout(void) {
    uint64_t values[3];
    if (berzhotun_from_str((const uint8_t *)row.text, strlen(row.text), LENT(tree), values) != 0) {
        differs("was refused");
        return;
    }
    check_layout_in(row.machine);
    if (row.machine == BERZHOTUN_ROW_APPLE_ARM64) {
        check_layout_in(BERZHOTUN_ROW_GUIDE);
    }
}

/* Whether the target is one that has a row of sizes. */
static int find_machine(void) {
    size_t i;
    for (i = 0; i < sizeof targets / sizeof targets[0]; i++) {
        if (strcmp(row.target, targets[i].target) == 0) {
            row.machine = targets[i].machine;
            return 1;
        }
    }
    return 0;
}

/* Takes a line of the list apart; 0 where it has not exactly the six words of a row, or an unknown target. */
static int parse_row(const char *line) {
    int end = 0;
    int words = sscanf(line, "%15s %15s %63s %511s %23s %511s %n", row.target, row.how, row.name, row.text, row.size,
                       row.outcome, &end);
    return words == 6 && line[end] == '\0' && find_machine();
}

/* The same of the list of layouts, whose lines have five words. */
static int parse_layout(const char *line) {
    int end = 0;
    int words = sscanf(line, "%15s %511s %23s %23s %511s %n", row.target, row.text, row.size, row.alignment, row.outcome, &end);
    strcpy(row.how, "layout");
    strcpy(row.name, "-");
    return words == 5 && line[end] == '\0' && find_machine();
}

int main(void) {
    static char line[2048];
    int unread = 0;
    while (fgets(line, sizeof line, stdin) != NULL) {
        if (parse_layout(line)) {
            check_layout();
            continue;
        }
        if (!parse_row(line)) {
            printf("not a row: %s", line);
            unread++;
            continue;
        }
        counts.rows++;
        if (strcmp(row.how, "method") == 0 || strcmp(row.how, "extended") == 0) {
            check_signature();
        } else {
            check_type();
        }
    }
    printf("%d texts of real compilers: %d print as they were, %d print otherwise, as expected, %d refused,\n",
           counts.rows, counts.same, counts.otherwise, counts.refused);
    printf("%d, %d, %d and %d layouts in rows 0 to 3 with %d offsets,\n", counts.layouts[0], counts.layouts[1],
           counts.layouts[2], counts.layouts[3], counts.offsets);
    printf("%d, %d, %d and %d sizes in rows 0 to 3, %d signatures with %d types; %d differences\n", counts.sizes[0],
           counts.sizes[1], counts.sizes[2], counts.sizes[3], counts.signatures, counts.types, counts.differences);
    return counts.differences != 0 || unread != 0 || counts.rows == 0 || counts.layouts[0] == 0;
}
