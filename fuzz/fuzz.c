/*
 * Random bytes, texts and sheets through all sixteen functions. The memory behind and before each lent list may not
 * be touched, lists that are only to be read cannot be written, and what each call wrote is looked at.
 *
 *     fuzz COUNT [SEED]    at least COUNT calls
 */
#include <inttypes.h>
#include <stdio.h>
#include <stdlib.h>
#include <string.h>

#include "calls.h"

enum { KEPT = 64 };

/* Trees that were read lately, and what stands there before. */
static struct sheet kept[KEPT];
static const struct sheet none = {.words = {1, 4, 0, 8, BERZHOTUN_NONE, 0, 0, 1}, .words_length = 8};

static struct text input, print;

static void copy_sheet(struct sheet *to, const struct sheet *from) {
    to->words_length = from->words_length;
    to->names_length = from->names_length;
    memcpy(to->words, from->words, from->words_length * sizeof(uint64_t));
    memcpy(to->names, from->names, from->names_length);
}

static int same_sheet(const struct sheet *a, const struct sheet *b) {
    return a->words_length == b->words_length && a->names_length == b->names_length &&
           memcmp(a->words, b->words, a->words_length * sizeof(uint64_t)) == 0 &&
           memcmp(a->names, b->names, a->names_length) == 0;
}

/* The tree as it is (half of the time), changed, spoilt, or no tree at all. */
static void lend_like(int which, const struct sheet *tree) {
    static struct sheet sheet;
    size_t form = random_below(16);
    if (form < 8) {
        lend_sheet(which, tree);
        return;
    }
    copy_sheet(&sheet, tree);
    if (form < 12) {
        vary(&sheet);
    } else if (form < 15) {
        damage(&sheet);
    } else {
        random_sheet(&sheet);
    }
    lend_sheet(which, &sheet);
}

/* Two trees, which are related more often than not. */
static void lend_two(void) {
    const struct sheet *first = &kept[random_below(KEPT)];
    lend_like(0, first);
    lend_like(1, random_below(3) == 0 ? &kept[random_below(KEPT)] : first);
}

/* A length a little or much too short, just enough, or to spare. */
static size_t length_around(size_t needed) {
    switch (random_below(16)) {
    case 0:
        return random_below(needed + 1);
    case 1:
        return needed == 0 ? 0 : needed - 1;
    case 2:
    case 3:
        return needed + 1 + random_below(4);
    default:
        return needed;
    }
}

/* Both whole-text readings, lent the same: the strict one has 19 beside the other's answers. */
static void read_whole(struct sheet *tree) {
    static struct sheet strict_tree;
    size_t lent_words = length_around(BERZHOTUN_WORDS_FOR(input.length));
    size_t lent_names = length_around(BERZHOTUN_NAMES_FOR(input.length));
    uint64_t ordinary = call_reader(FROM_STR, lent_words, lent_names, tree);
    uint64_t strict = call_reader(FROM_STRICT, lent_words, lent_names, &strict_tree);
    if (strict == BERZHOTUN_SURPLUS_ZERO) {
        return;
    }
    if (strict != ordinary || (strict == 0 && !same_sheet(tree, &strict_tree))) {
        fail("is neither refused by 19 nor what from_str says");
    }
}

/* All readings; a tree that was read takes the place of an older one, and is a sheet that nothing refuses. */
static void read_input(void) {
    struct sheet *tree = &kept[random_below(KEPT)];
    size_t lent_words = length_around(BERZHOTUN_WORDS_FOR(input.length));
    uint64_t length;
    lend_text(&input);
    call_reader(FROM_START, lent_words, length_around(BERZHOTUN_NAMES_FOR(input.length)), tree);
    read_whole(tree);
    lend_sheet(0, tree);
    if (call_length(&length) != 0) {
        fail("refused what a reading wrote");
    }
}

/* A signature; one of its types, cut out, is a text that whole-text reading takes. */
static void take_signature(void) {
    static struct entries entries;
    static struct text piece;
    static struct sheet tree;
    const uint64_t *entry;
    random_signature(&input);
    lend_text(&input);
    if (call_signature(length_around(BERZHOTUN_SIGNATURE_FOR(input.length)), &entries) != 0) {
        return;
    }
    entry = entries.numbers + 3 * random_below(entries.count);
    piece.length = entry[1];
    memcpy(piece.bytes, input.bytes + entry[0], piece.length);
    lend_text(&piece);
    if (call_reader(FROM_STR, BERZHOTUN_WORDS_FOR(piece.length), piece.length, &tree) != 0) {
        fail("refused a type of a signature");
    }
}

/* Mostly a row or the first number that is none. */
static uint64_t random_row(void) {
    return random_below(8) != 0 ? random_below(BERZHOTUN_ROW_GUIDE + 2) : random_word() >> random_below(64);
}

/* Row 3 is row 0 with `l` half as wide: of a tree without one the answer is the same, of any other the size is at most
   that in row 0 and at least half of it. */
static void check_guide(uint64_t refusal, struct size in_row_0, uint64_t there, struct size in_row_3) {
    int is_same = there == refusal && in_row_3.bytes == in_row_0.bytes;
    if (!first_has(BERZHOTUN_LONG) && !is_same) {
        fail("is not the size in row 0, though there is no l");
    }
    if ((there != 0 && refusal == 0) || in_row_3.bytes > in_row_0.bytes ||
        in_row_0.bytes - in_row_3.bytes > in_row_3.bytes) {
        fail("is more than the size in row 0, or less than half of it");
    }
}

/* In any row, and in row 0: 3 and 4 do not depend on the row, nor does whether there is a size. */
static void measure_first(void) {
    struct size size, size_there;
    uint64_t row = random_row(), refusal = call_size(BERZHOTUN_ROW_APPLE_ARM64, &size);
    uint64_t there = call_size(row, &size_there), due = refusal == BERZHOTUN_SIZE_TOO_LARGE ? 0 : refusal;
    int is_due = size.is_there;
    if (due == 0 && row > BERZHOTUN_ROW_GUIDE) {
        due = BERZHOTUN_NO_SUCH_ROW;
        is_due = 0;
    }
    if ((there == BERZHOTUN_SIZE_TOO_LARGE ? 0 : there) != due || size_there.is_there != is_due) {
        fail("does not go with the size in row 0");
    }
    if (row == BERZHOTUN_ROW_GUIDE && due == 0) {
        check_guide(refusal, size, there, size_there);
    }
}

/* Refused as the size in that row is, then by a list that is too short; a layout has at least the bytes of the size. */
static void lay_first_out(void) {
    struct size size, padded;
    uint64_t row = random_row(), refusal = call_size(row, &size), there;
    size_t nodes = first_nodes(), room = length_around(nodes);
    there = call_layout(row, room, &padded);
    if (refusal != 0 && refusal != BERZHOTUN_SIZE_TOO_LARGE) {
        if (there != refusal) {
            fail("does not go with the size");
        }
        return;
    }
    if ((there == BERZHOTUN_LIST_TOO_SHORT) != (room < nodes)) {
        fail("did not refuse by the length");
    }
    if (padded.is_there && (!size.is_there || padded.bytes < size.bytes)) {
        fail("has less than the size without padding");
    }
}

static void print_first(void) {
    uint64_t length, refusal = call_length(&length), printed;
    size_t room = length + random_below(3);
    if (random_below(4) == 0) {
        room = random_below(length + 1);
    }
    printed = call_print(room, &print);
    if (printed != (refusal != 0 ? refusal : room < length ? 5 : 0)) {
        fail("does not go with the printed length");
    }
    if (printed == 0 && print.length != (length < TEXT_ROOM ? length : TEXT_ROOM)) {
        fail("wrote another length");
    }
}

/* The reason goes with the comparison's answer, its length and the room that it has. */
static void explain(enum function length, enum function write, uint64_t refusal, uint64_t yes) {
    uint64_t needed[2], written[2], due = refusal;
    size_t room;
    if (call_reason_length(length, needed) != refusal || needed[0] != yes) {
        fail("does not go with the comparison");
    }
    room = length_around(needed[1]);
    if (refusal == 0 && room < needed[1]) {
        due = BERZHOTUN_OUTPUT_TOO_SHORT;
    }
    if (call_reason(write, room, written) != due) {
        fail("does not go with the reason's length");
    }
    if (due == 0 && (written[0] != needed[0] || written[1] != needed[1])) {
        fail("wrote another length");
    }
}

static void compare_both(void) {
    uint64_t levels, box, all;
    uint64_t refusal = call_pair(EQUIVALENT, &levels);
    if (call_pair(EQUIVALENT_BOX, &box) != refusal || box != levels) {
        fail("is not what equivalent_to says");
    }
    if (call_pair(EQ, &all) != refusal || all > levels) {
        fail("does not go with equivalent_to");
    }
    explain(REASON_LENGTH, REASON, refusal, levels);
    explain(REASON_ALL_LENGTH, REASON_ALL, refusal, all);
}

static void round_of_calls(void) {
    uint64_t answer;
    take_signature();
    random_text(&input);
    read_input();
    lend_two();
    measure_first();
    lay_first_out();
    print_first();
    compare_both();
    if (print.length > 0 && random_below(2) == 0) {
        lend_text(&print);
    }
    call_matches(&answer);
}

static uint64_t calls_made(void) {
    uint64_t sum = 0;
    int function, number;
    for (function = 0; function < FUNCTIONS; function++) {
        for (number = 0; number < NUMBERS; number++) {
            sum += counts[function][number];
        }
    }
    return sum;
}

static void report(void) {
    int function, number;
    printf("calls by returned number (0 accepted, else the refusal)\n");
    for (function = 0; function < FUNCTIONS; function++) {
        printf("%-26s", function_names[function]);
        for (number = 0; number < NUMBERS; number++) {
            if (counts[function][number] != 0) {
                printf("  %d: %" PRIu64, number, counts[function][number]);
            }
        }
        if (yeses[function] != 0) {
            printf("  yes: %" PRIu64, yeses[function]);
        }
        printf("\n");
    }
}

int main(int count, char **arguments) {
    uint64_t calls = count > 1 ? strtoull(arguments[1], NULL, 10) : 0;
    size_t i;
    if (count < 2 || count > 3 || calls == 0) {
        fprintf(stderr, "usage: fuzz COUNT [SEED]\n");
        return 2;
    }
    seed_random(count > 2 ? strtoull(arguments[2], NULL, 10) : 1);
    calls_begin();
    for (i = 0; i < KEPT; i++) {
        kept[i] = none;
    }
    while (calls_made() < calls) {
        for (i = 0; i < 1024; i++) {
            round_of_calls();
        }
    }
    report();
    printf("%" PRIu64 " calls, no byte touched that was not lent, no contract broken\n", calls_made());
    return 0;
}
