/* Answers the questions on standard input through the archive, a line each, as oracle/README.md has them. */
#include <inttypes.h>
#include <stdio.h>
#include <stdlib.h>
#include <string.h>

#include "berzhotun.h"

#define LENT(tree) (tree).words, BERZHOTUN_MAX_WORDS, (tree).names, BERZHOTUN_MAX_NAMES

struct text {
    uint8_t bytes[BERZHOTUN_MAX_TEXT + 1];
    size_t length;
};

struct tree {
    uint64_t words[BERZHOTUN_MAX_WORDS];
    uint8_t names[BERZHOTUN_MAX_NAMES];
};

static struct tree first, second;
static struct text text;
static uint64_t values[3], list[BERZHOTUN_MAX_SIGNATURE], offsets[BERZHOTUN_MAX_NODES];
static uint8_t out[BERZHOTUN_MAX_PRINT];

static void bad(const char *what) {
    fprintf(stderr, "answers: %s\n", what);
    exit(2);
}

/* Bytes in hex up to the end of the argument. */
static size_t decode(const char *hex, uint8_t *bytes, size_t room) {
    size_t n = 0;
    unsigned byte;
    for (; sscanf(hex, "%2x", &byte) == 1; hex += 2) {
        if (n == room) {
            bad("too many bytes");
        }
        bytes[n++] = (uint8_t)byte;
    }
    return n;
}

static void load_text(const char *argument) {
    if (argument == NULL || strncmp(argument, "t:", 2) != 0) {
        bad("a text begins with t:");
    }
    text.length = decode(argument + 2, text.bytes, sizeof text.bytes);
}

static void load_sheet(char *argument, struct tree *tree) {
    size_t n = 0;
    memset(tree, 0, sizeof *tree);
    while (*argument != ':') {
        if (n == BERZHOTUN_MAX_WORDS) {
            bad("too many words");
        }
        tree->words[n++] = strtoull(argument, &argument, 10);
        argument += *argument == ',';
    }
    decode(argument + 1, tree->names, BERZHOTUN_MAX_NAMES);
}

/* 0, or the refusal of a text that cannot be read. */
static uint64_t load_tree(char *argument, struct tree *tree) {
    if (argument != NULL && strncmp(argument, "s:", 2) == 0) {
        load_sheet(argument + 2, tree);
        return 0;
    }
    load_text(argument);
    return berzhotun_from_str(text.bytes, text.length, LENT(*tree), values);
}

static void say_hex(const uint8_t *bytes, size_t n) {
    while (n-- > 0) {
        printf("%02x", *bytes++);
    }
}

static void say_refusal(const char *word, uint64_t number) {
    printf("%s %" PRIu64 " %" PRIu64 " %" PRIu64 " %" PRIu64 "\n", word, number, values[0], values[1], values[2]);
}

static void say_sheet(const struct tree *tree) {
    uint64_t i;
    printf("ok s:");
    for (i = 0; i < tree->words[3]; i++) {
        printf(i == 0 ? "%" PRIu64 : ",%" PRIu64, tree->words[i]);
    }
    printf(":");
    say_hex(tree->names, (size_t)tree->words[2]);
}

static const char *yes_or_no(uint64_t refusal) {
    return refusal != 0 ? "refused" : values[0] == 1 ? "yes" : "no";
}

typedef uint64_t reader(const uint8_t *, size_t, uint64_t *, size_t, uint8_t *, size_t, uint64_t *);

static void read_question(const char *argument, reader *read) {
    uint64_t refusal;
    load_text(argument);
    refusal = read(text.bytes, text.length, LENT(first), values);
    if (refusal != 0) {
        say_refusal("no", refusal);
        return;
    }
    say_sheet(&first);
    if (read == berzhotun_from_start_of_str) {
        printf(" %" PRIu64, values[0]);
    }
    printf("\n");
}

static void signature_question(const char *argument) {
    uint64_t refusal, i;
    load_text(argument);
    refusal = berzhotun_signature(text.bytes, text.length, list, BERZHOTUN_MAX_SIGNATURE, values);
    if (refusal != 0) {
        say_refusal("no", refusal);
        return;
    }
    printf("ok");
    for (i = 0; i < 3 * values[0]; i++) {
        printf("%c%" PRIu64, i % 3 == 0 ? ' ' : ',', list[i]);
    }
    printf("\n");
}

typedef uint64_t reason(const uint64_t *, size_t, const uint8_t *, size_t, const uint64_t *, size_t, const uint8_t *, size_t,
                        uint8_t *, size_t, uint64_t *);

static void reason_question(reason *write) {
    uint64_t refusal = write(LENT(first), LENT(second), out, sizeof out, values);
    printf("%s", yes_or_no(refusal));
    if (values[1] != 0) {
        printf(" ");
        say_hex(out, (size_t)values[1]);
    }
    printf("\n");
}

static void pair_question(const char *question) {
    if (strcmp(question, "reason") == 0) {
        reason_question(berzhotun_reason);
    } else if (strcmp(question, "reason-all") == 0) {
        reason_question(berzhotun_reason_all);
    } else if (strcmp(question, "equal") == 0) {
        printf("%s ", yes_or_no(berzhotun_eq(LENT(first), LENT(second), values)));
        printf("%s\n", yes_or_no(berzhotun_eq(LENT(second), LENT(first), values)));
    } else if (strcmp(question, "equivalent") == 0) {
        printf("%s\n", yes_or_no(berzhotun_equivalent_to(LENT(first), LENT(second), values)));
    } else if (strcmp(question, "equivalent-box") == 0) {
        printf("%s\n", yes_or_no(berzhotun_equivalent_to_box(LENT(first), LENT(second), values)));
    } else {
        bad("no such question");
    }
}

static void say_size(void) {
    printf(values[0] == 0 ? "none\n" : "bytes %" PRIu64 "\n", values[1]);
}

static void size_question(const char *row, char *argument) {
    uint64_t refusal = load_tree(argument, &first);
    if (refusal != 0) {
        say_refusal("unread", refusal);
        return;
    }
    refusal = berzhotun_size(LENT(first), strtoull(row, NULL, 10), values);
    if (refusal != 0) {
        printf("no %" PRIu64 " 0 0 0\n", refusal);
    } else {
        say_size();
    }
}

static void layout_question(const char *row, char *argument) {
    uint64_t refusal = load_tree(argument, &first), i;
    if (refusal != 0) {
        say_refusal("unread", refusal);
        return;
    }
    refusal = berzhotun_layout(LENT(first), strtoull(row, NULL, 10), offsets, BERZHOTUN_MAX_NODES, values);
    if (refusal != 0) {
        say_refusal("no", refusal);
    } else if (values[0] == 0) {
        printf("none\n");
    } else {
        printf("ok %" PRIu64 " %" PRIu64 " ", values[1], values[2]);
        for (i = 0; i < first.words[0]; i++) {
            printf(i == 0 ? "%" PRIu64 : ",%" PRIu64, offsets[i]);
        }
        printf("\n");
    }
}

static void tree_question(const char *question) {
    uint64_t refusal;
    if (strcmp(question, "size") == 0) {
        if (berzhotun_size(LENT(first), BERZHOTUN_ROW_APPLE_ARM64, values) != 0) {
            printf("refused\n");
        } else {
            say_size();
        }
    } else if (strcmp(question, "length") == 0) {
        refusal = berzhotun_static_encoding_str_len(LENT(first), values);
        printf(refusal != 0 ? "refused\n" : "%" PRIu64 "\n", values[0]);
    } else if (strcmp(question, "print") == 0) {
        refusal = berzhotun_static_encoding_str_array(LENT(first), out, sizeof out, values);
        printf(refusal != 0 ? "refused" : "t:");
        say_hex(out, refusal != 0 ? 0 : (size_t)values[0]);
        printf("\n");
    } else {
        bad("no such question");
    }
}

static void answer(char *line) {
    char *question = strtok(line, " "), *one = strtok(NULL, " "), *two = strtok(NULL, " ");
    uint64_t refusal;
    if (question == NULL) {
        bad("an empty line");
    } else if (strcmp(question, "read") == 0) {
        read_question(one, berzhotun_from_str);
    } else if (strcmp(question, "read-strict") == 0) {
        read_question(one, berzhotun_from_str_strict);
    } else if (strcmp(question, "start") == 0) {
        read_question(one, berzhotun_from_start_of_str);
    } else if (strcmp(question, "signature") == 0) {
        signature_question(one);
    } else if (strcmp(question, "size-in") == 0) {
        size_question(one, two);
    } else if (strcmp(question, "layout") == 0) {
        layout_question(one, two);
    } else if ((refusal = load_tree(one, &first)) != 0) {
        say_refusal("unread", refusal);
    } else if (strcmp(question, "text") == 0) {
        load_text(two);
        printf("%s\n", yes_or_no(berzhotun_equivalent_to_str(LENT(first), text.bytes, text.length, values)));
    } else if (two == NULL) {
        tree_question(question);
    } else if ((refusal = load_tree(two, &second)) != 0) {
        say_refusal("unread", refusal);
    } else {
        pair_question(question);
    }
}

int main(void) {
    static char line[8192];
    while (fgets(line, sizeof line, stdin) != NULL) {
        line[strcspn(line, "\n")] = '\0';
        answer(line);
    }
    return 0;
}
