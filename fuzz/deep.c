/*
 * The deepest trees, texts and signatures through all sixteen functions, each call on a stack of its own with a page below it
 * that may not be touched. Prints the most stack that each function took.
 *
 *     deep [KIBIBYTES]    512 unless said otherwise
 */
#define _GNU_SOURCE
#include <inttypes.h>
#include <pthread.h>
#include <signal.h>
#include <stdio.h>
#include <stdlib.h>
#include <string.h>

#include "calls.h"
#include "lent.h"

static struct room stack;
static size_t most[FUNCTIONS];
static struct sheet tree, other, spare;
static struct text text, print;
static struct entries entries;
static uint64_t row;

/* One call of a function with what is lent; whether it was accepted. */
static uint64_t call(enum function function) {
    uint64_t answer, reason[2];
    struct size size;
    switch (function) {
    case FROM_STR:
    case FROM_STRICT:
    case FROM_START:
        return call_reader(function, BERZHOTUN_WORDS_FOR(text.length), BERZHOTUN_NAMES_FOR(text.length), &spare);
    case SIGNATURE:
        return call_signature(BERZHOTUN_SIGNATURE_FOR(text.length), &entries);
    case EQUIVALENT:
    case EQUIVALENT_BOX:
    case EQ:
        return call_pair(function, &answer);
    case REASON_LENGTH:
    case REASON_ALL_LENGTH:
        return call_reason_length(function, reason);
    case REASON:
    case REASON_ALL:
        return call_reason(function, BERZHOTUN_MAX_REASON, reason);
    case MATCHES:
        return call_matches(&answer);
    case SIZE:
        return call_size(row, &size);
    case LAYOUT:
        return call_layout(row, BERZHOTUN_MAX_NODES, &size);
    case LENGTH:
        return call_length(&answer);
    default:
        return call_print(BERZHOTUN_MAX_PRINT, &print);
    }
}

struct task {
    enum function function;
    uint64_t refusal;
};

static void *run_task(void *argument) {
    static uint8_t faults[1 << 16];
    stack_t on_fault = {.ss_sp = faults, .ss_size = sizeof faults};
    struct task *task = argument;
    sigaltstack(&on_fault, NULL);
    task->refusal = call(task->function);
    return NULL;
}

/* The call on a stack that was marked before; how far down the marks are gone is what it took. */
static uint64_t call_on_stack(enum function function) {
    struct task task = {function, 0};
    pthread_attr_t attributes;
    pthread_t thread;
    size_t untouched = 0;
    memset(stack.own, MARK, stack.bytes);
    pthread_attr_init(&attributes);
    if (pthread_attr_setstack(&attributes, stack.own, stack.bytes) != 0 ||
        pthread_create(&thread, &attributes, run_task, &task) != 0) {
        fprintf(stderr, "no thread with such a stack\n");
        exit(2);
    }
    pthread_join(thread, NULL);
    pthread_attr_destroy(&attributes);
    while (untouched < stack.bytes && stack.own[untouched] == MARK) {
        untouched++;
    }
    if (stack.bytes - untouched > most[function]) {
        most[function] = stack.bytes - untouched;
    }
    return task.refusal;
}

/* 2,001 nodes, one in the other: the kinds in turn, and None in the end. */
static void make_chain(const uint64_t *kinds, size_t count) {
    size_t i;
    tree.names_length = 0;
    for (i = 0; i < BERZHOTUN_MAX_NODES; i++) {
        uint64_t kind = i + 1 == BERZHOTUN_MAX_NODES ? BERZHOTUN_NONE : kinds[i % count];
        int is_container = kind == BERZHOTUN_STRUCT || kind == BERZHOTUN_UNION;
        uint64_t node[4] = {kind, is_container ? tree.names_length : 0, is_container, BERZHOTUN_MAX_NODES - i};
        memcpy(tree.words + 4 + 4 * i, node, sizeof node);
        if (is_container) {
            tree.names[tree.names_length++] = 'R';
        }
    }
    tree.words[0] = BERZHOTUN_MAX_NODES;
    tree.words[1] = 4;
    tree.words[2] = tree.names_length;
    tree.words[3] = tree.words_length = BERZHOTUN_MAX_WORDS;
}

/* 1,000 records, one in the other, with a field behind each, so that a walk must come back to every one of them. */
static void make_records(void) {
    size_t i;
    for (i = 0; i < BERZHOTUN_MAX_NODES; i++) {
        int is_record = i < 1000;
        uint64_t node[4] = {is_record ? BERZHOTUN_STRUCT : BERZHOTUN_INT, is_record ? i : 0, is_record,
                            is_record ? BERZHOTUN_MAX_NODES - 2 * i : 1};
        memcpy(tree.words + 4 + 4 * i, node, sizeof node);
    }
    memset(tree.names, 'R', 1000);
    tree.words[2] = tree.names_length = 1000;
}

/* The tree against itself and against one with another node at `at`: comparisons and their reasons. */
static void run_pair(size_t at) {
    static const enum function functions[] = {EQUIVALENT,        EQUIVALENT_BOX, EQ,        REASON_LENGTH,
                                              REASON_ALL_LENGTH, REASON,         REASON_ALL};
    size_t i;
    other = tree;
    other.words[4 + 4 * at] = BERZHOTUN_DOUBLE;
    lend_sheet(0, &tree);
    for (i = 0; i < 14; i++) {
        lend_sheet(1, i < 7 ? &tree : &other);
        if (call_on_stack(functions[i % 7]) != 0) {
            fail("refused a deep pair");
        }
    }
}

/* An int as its last node; or, if that is held by the one before it, an array of 2^31 chars as both. */
static void end_other(int with_array) {
    uint64_t *last = other.words + 4 * BERZHOTUN_MAX_NODES;
    uint64_t array[4] = {BERZHOTUN_ARRAY, UINT64_C(1) << 31, 0, 2};
    last[0] = BERZHOTUN_INT;
    if (!with_array || last[-1] != 2) {
        return;
    }
    last[0] = BERZHOTUN_CHAR;
    if (last[-4] == BERZHOTUN_STRUCT || last[-4] == BERZHOTUN_UNION) {
        other.words[2] = --other.names_length;
    }
    memcpy(last - 4, array, sizeof array);
}

/* As it is, and with other last nodes: None there has no layout, and a large array is laid out the longer way. Bitfields are
 * refused. */
static void run_layouts(void) {
    int ending;
    for (ending = 0; ending < 3; ending++) {
        other = tree;
        if (ending != 0) {
            end_other(ending == 2);
        }
        lend_sheet(0, &other);
        for (row = 0; row <= BERZHOTUN_ROW_GUIDE; row++) {
            uint64_t refusal = call_on_stack(LAYOUT);
            if (refusal != 0 && refusal != BERZHOTUN_BIT_FIELD_IN_LAYOUT) {
                fail("refused to lay out a deep tree");
            }
        }
    }
    lend_sheet(0, &tree);
}

/* Every function that takes trees, of two with another last node, and against as much of its print as a text can have. */
static void run_tree(void) {
    static const enum function functions[] = {LENGTH, PRINT, MATCHES};
    size_t i;
    run_pair(BERZHOTUN_MAX_NODES - 1);
    lend_sheet(0, &tree);
    for (row = 0; row <= BERZHOTUN_ROW_GUIDE; row++) {
        if (call_on_stack(SIZE) != 0) {
            fail("refused to measure a deep tree");
        }
    }
    run_layouts();
    for (i = 0; i < sizeof functions / sizeof functions[0]; i++) {
        if (functions[i] == MATCHES) {
            if (print.length > BERZHOTUN_MAX_TEXT) {
                print.length = BERZHOTUN_MAX_TEXT;
            }
            lend_text(&print);
        }
        if (call_on_stack(functions[i]) != 0) {
            fail("refused a deep tree");
        }
    }
}

static void run_chain(const uint64_t *kinds, size_t count) {
    make_chain(kinds, count);
    run_tree();
}

static void run_chains(void) {
    static const uint64_t kinds[] = {25, 26, 27, 28, 29, 30}, mixed[] = {29, 26, 30, 28}, rows[] = {28, 25, 27};
    size_t i;
    for (i = 0; i < 6; i++) {
        run_chain(&kinds[i], 1);
    }
    run_chain(mixed, 4);
    run_chain(rows, 3);
    make_records();
    run_pair(1000);
    run_tree();
}

static void repeat(const char *part, size_t times) {
    while (times-- > 0 && text.length + strlen(part) <= BERZHOTUN_MAX_TEXT) {
        memcpy(text.bytes + text.length, part, strlen(part));
        text.length += strlen(part);
    }
}

/* All readings, which may refuse; and, as the fields of a record, the text against a record without fields. */
static void run_text(const char *open, const char *middle, const char *close, size_t times) {
    static const struct sheet record = {
        .words = {1, 4, 1, 8, BERZHOTUN_STRUCT, 0, 1, 1}, .words_length = 8, .names = "R", .names_length = 1};
    text.length = 0;
    repeat("{R=", 1);
    repeat(open, times);
    repeat(middle, 1);
    repeat(close, times);
    repeat("}", 1);
    lend_text(&text);
    lend_sheet(0, &record);
    call_on_stack(FROM_STR);
    call_on_stack(FROM_STRICT);
    call_on_stack(FROM_START);
    call_on_stack(MATCHES);
}

static void run_texts(void) {
    run_text("^", "", "", 1996);
    run_text("A", "v", "", 1995);
    run_text("^", "", "", 2000);
    run_text("[1", "", "", 2000);
    run_text("[1", "", "]", 665);
    run_text("{R=", "", "", 2000);
    run_text("{R=", "i", "}", 499);
    run_text("(R=", "i", ")", 499);
    run_text("[1^", "i", "]", 499);
    run_text("{R=^", "i", "}", 399);
    text.length = 0;
    repeat("^", 2000);
    lend_text(&text);
    if (call_on_stack(FROM_STR) != 0 || call_on_stack(FROM_STRICT) != 0 || call_on_stack(FROM_START) != 0) {
        fail("refused 2,000 pointers");
    }
    text.length = 0;
    repeat("[1", 998);
    repeat("[00]", 1);
    lend_text(&text);
    if (call_on_stack(FROM_STRICT) != BERZHOTUN_SURPLUS_ZERO) {
        fail("took the deepest surplus zero");
    }
}

/* A signature of one type; it must be accepted if so said. */
static void run_signature(const char *open, const char *middle, const char *close, size_t times, int accepted) {
    text.length = 0;
    repeat(open, times);
    repeat(middle, 1);
    repeat(close, times);
    repeat("0", 1);
    lend_text(&text);
    if (call_on_stack(SIGNATURE) != 0 && accepted) {
        fail("refused a deep type");
    }
}

static void run_signatures(void) {
    run_signature("^", "i", "", 1998, 1);
    run_signature("A", "i", "", 1998, 1);
    run_signature("^", "", "", 1999, 0);
    run_signature("[1", "", "", 1000, 0);
    run_signature("[1", "i", "]", 666, 1);
    run_signature("{R=", "", "", 666, 0);
    run_signature("{R=", "i", "}", 499, 1);
    run_signature("(R=", "i", ")", 499, 1);
    run_signature("[1^", "i", "]", 499, 1);
    run_signature("{R=^", "i", "}", 399, 1);
    run_signature("{R=[1", "i", "]}", 285, 1);
}

int main(int count, char **arguments) {
    size_t kibibytes = count > 1 ? strtoul(arguments[1], NULL, 10) : 512;
    int function;
    if (count > 2 || kibibytes < 64) {
        fprintf(stderr, "usage: deep [KIBIBYTES]\n");
        return 2;
    }
    calls_begin();
    stack = room_to_write(kibibytes << 10);
    run_chains();
    run_texts();
    run_signatures();
    for (function = 0; function < FUNCTIONS; function++) {
        printf("%-26s %4zu KiB at most\n", function_names[function], (most[function] + 1023) >> 10);
    }
    printf("the deepest trees, texts and signatures: a stack of %zu KiB is enough for each\n", kibibytes);
    return 0;
}
