#define _GNU_SOURCE
#include "calls.h"

#include <inttypes.h>
#include <signal.h>
#include <stdio.h>
#include <string.h>
#include <unistd.h>

#include "lent.h"

enum { OUT_ROOM = 1 << 16 };

const char *const function_names[FUNCTIONS] = {
    "from_str", "from_str_strict", "from_start_of_str", "signature", "equivalent_to", "equivalent_to_box", "eq",
    "reason_len", "reason_all_len", "reason", "reason_all",
    "equivalent_to_str", "size", "layout", "static_encoding_str_len", "static_encoding_str_array",
};

/* What each refusal carries beside its number. A refusal more is a row here and, below, a bit at each function that
   returns it. */
enum { NOTHING = 0, PLACE = 1, BYTE = 2, CONTAINER = 4, NODE = 8 };

static const uint8_t carried[NUMBERS] = {
    [BERZHOTUN_TEXT_TOO_LONG] = NOTHING,
    [BERZHOTUN_LIST_TOO_SHORT] = NOTHING,
    [BERZHOTUN_BAD_SHEET] = NOTHING,
    [BERZHOTUN_BAD_NAME] = NOTHING,
    [BERZHOTUN_OUTPUT_TOO_SHORT] = NOTHING,
    [BERZHOTUN_SIZE_TOO_LARGE] = NOTHING,
    [BERZHOTUN_UNEXPECTED_END] = PLACE,
    [BERZHOTUN_UNKNOWN_BYTE] = PLACE | BYTE,
    [BERZHOTUN_UNKNOWN_AFTER_COMPLEX] = PLACE | BYTE,
    [BERZHOTUN_EXPECTED_INTEGER] = PLACE,
    [BERZHOTUN_INTEGER_TOO_LARGE] = PLACE,
    [BERZHOTUN_WRONG_END_ARRAY] = PLACE,
    [BERZHOTUN_WRONG_END_CONTAINER] = PLACE | CONTAINER,
    [BERZHOTUN_INVALID_IDENTIFIER] = PLACE | CONTAINER,
    [BERZHOTUN_NOT_ALL_CONSUMED] = PLACE,
    [BERZHOTUN_EXPECTED_OFFSET] = PLACE,
    [BERZHOTUN_OFFSET_TOO_LARGE] = PLACE,
    [BERZHOTUN_EMPTY_SIGNATURE] = NOTHING,
    [BERZHOTUN_SURPLUS_ZERO] = PLACE,
    [BERZHOTUN_NO_SUCH_ROW] = NOTHING,
    [BERZHOTUN_BIT_FIELD_IN_LAYOUT] = NODE,
};

/* The numbers that each function may return, a bit each. */
static const uint64_t returned[FUNCTIONS] = {
    [FROM_STR] = 0xff87,         /* 0, 1, 2, 7 to 15 */
    [FROM_STRICT] = 0x8ff87,     /* 0, 1, 2, 7 to 15, 19 */
    [FROM_START] = 0x7f87,       /* 0, 1, 2, 7 to 14 */
    [SIGNATURE] = 0x77f87,       /* 0, 1, 2, 7 to 14, 16 to 18 */
    [EQUIVALENT] = 0x19,         /* 0, 3, 4 */
    [EQUIVALENT_BOX] = 0x19,     /* 0, 3, 4 */
    [EQ] = 0x19,                 /* 0, 3, 4 */
    [REASON_LENGTH] = 0x19,      /* 0, 3, 4 */
    [REASON_ALL_LENGTH] = 0x19,  /* 0, 3, 4 */
    [REASON] = 0x39,             /* 0, 3, 4, 5 */
    [REASON_ALL] = 0x39,         /* 0, 3, 4, 5 */
    [MATCHES] = 0x1b,            /* 0, 1, 3, 4 */
    [SIZE] = 0x100059,           /* 0, 3, 4, 6, 20 */
    [LAYOUT] = 0x30005d,         /* 0, 2, 3, 4, 6, 20, 21 */
    [LENGTH] = 0x19,             /* 0, 3, 4 */
    [PRINT] = 0x39,              /* 0, 3, 4, 5 */
};

uint64_t counts[FUNCTIONS][NUMBERS], yeses[FUNCTIONS];

static struct room text_room, words_room[2], names_room[2], read_words_room, read_names_room, list_room, offsets_room,
    out_room, answer_room;

/* The lists as they are lent. */
static const uint8_t *text, *names[2];
static const uint64_t *words[2];
static size_t text_length, words_length[2], names_length[2];
static enum function running;
static uint64_t running_row;

static void show_sheet(int which) {
    size_t i;
    printf(" s:");
    for (i = 0; i < words_length[which]; i++) {
        printf("%s%" PRIu64, i == 0 ? "" : ",", words[which][i]);
    }
    printf(":");
    for (i = 0; i < names_length[which]; i++) {
        printf("%02x", names[which][i]);
    }
}

void fail(const char *what) {
    size_t i;
    printf("%s: %s\n", function_names[running], what);
    if (running == SIZE || running == LAYOUT) {
        printf(" %" PRIu64, running_row);
    }
    if (running <= SIGNATURE || running == MATCHES) {
        printf(" t:");
        for (i = 0; i < text_length; i++) {
            printf("%02x", text[i]);
        }
    }
    if (running > SIGNATURE) {
        show_sheet(0);
    }
    if (running >= EQUIVALENT && running <= REASON_ALL) {
        show_sheet(1);
    }
    printf("\n");
    fflush(stdout);
    _exit(1);
}

static void on_fault(int signal) {
    fail(signal == SIGSEGV || signal == SIGBUS ? "touched memory that was not lent to it" : "stopped the program");
}

void calls_begin(void) {
    static const int signals[] = {SIGSEGV, SIGBUS, SIGILL, SIGFPE, SIGABRT, SIGTRAP};
    static uint8_t for_faults[1 << 18];
    stack_t stack = {.ss_sp = for_faults, .ss_size = sizeof for_faults};
    struct sigaction action = {.sa_handler = on_fault, .sa_flags = SA_ONSTACK};
    size_t i;
    int which;
    sigaltstack(&stack, NULL);
    for (i = 0; i < sizeof signals / sizeof signals[0]; i++) {
        sigaction(signals[i], &action, NULL);
    }
    text_room = room_to_read(TEXT_ROOM);
    for (which = 0; which < 2; which++) {
        words_room[which] = room_to_read(WORDS_ROOM * sizeof(uint64_t));
        names_room[which] = room_to_read(NAMES_ROOM);
    }
    read_words_room = room_to_write((BERZHOTUN_WORDS_FOR(TEXT_ROOM) + 4) * sizeof(uint64_t));
    read_names_room = room_to_write(TEXT_ROOM + 4);
    list_room = room_to_write((BERZHOTUN_SIGNATURE_FOR(TEXT_ROOM) + 4) * sizeof(uint64_t));
    offsets_room = room_to_write((BERZHOTUN_MAX_NODES + 8) * sizeof(uint64_t));
    out_room = room_to_write(OUT_ROOM);
    answer_room = room_to_write(4 * sizeof(uint64_t));
}

static const void *lend(const struct room *room, const void *bytes, size_t length) {
    size_t offset = room_offset(room, length, random_word() & 1);
    memcpy(room->own + offset, bytes, length);
    return room->lent + offset;
}

static void *lend_marked(const struct room *room, size_t length) {
    uint8_t *lent = room->own + room_offset(room, length, random_word() & 1);
    memset(lent, MARK, length);
    return lent;
}

void lend_text(const struct text *input) {
    text_length = input->length;
    text = lend(&text_room, input->bytes, text_length);
}

void lend_sheet(int which, const struct sheet *sheet) {
    words_length[which] = sheet->words_length;
    names_length[which] = sheet->names_length;
    words[which] = lend(&words_room[which], sheet->words, sheet->words_length * sizeof(uint64_t));
    names[which] = lend(&names_room[which], sheet->names, sheet->names_length);
}

/* Whether all bytes of the list from `from` on are `byte`. */
static int all_are(const void *list, size_t from, size_t length, uint8_t byte) {
    const uint8_t *bytes = list;
    return from >= length ||
           (bytes[from] == byte && memcmp(bytes + from, bytes + from + 1, length - from - 1) == 0);
}

static uint64_t ends(uint64_t refusal) {
    if (refusal >= NUMBERS || (returned[running] >> refusal & 1) == 0) {
        fail("returned a number that it does not have");
    }
    counts[running][refusal]++;
    return refusal;
}

static void check_values(uint64_t refusal, const uint64_t *values) {
    /* Accepted, a place or a count of types. */
    size_t most = running == FROM_START ? text_length : running == SIGNATURE ? text_length / 2 : 0;
    if (refusal != 0) {
        most = carried[refusal] & PLACE ? text_length : 0;
    }
    if (values[0] > most) {
        fail("gave a place outside of the text");
    }
    if (values[1] > (carried[refusal] & BYTE ? 255 : 0)) {
        fail("gave a byte that is none");
    }
    if (carried[refusal] & CONTAINER ? values[2] != BERZHOTUN_STRUCT && values[2] != BERZHOTUN_UNION : values[2] != 0) {
        fail("gave a kind that is none");
    }
}

static int is_digit(size_t at) {
    return at < text_length && text[at] >= '0' && text[at] <= '9';
}

/* At the place a number begins, behind a byte, with a 0 that is not all of it. */
static void check_surplus_zero(size_t place) {
    if (place == 0 || is_digit(place - 1) || !is_digit(place) || text[place] != '0' || !is_digit(place + 1)) {
        fail("found a surplus zero where none is");
    }
}

/* The list: `kept` bytes of the tree, 0 up to `filled`, the mark beyond. */
static void check_written(const void *list, size_t kept, size_t filled, size_t length) {
    if (!all_are(list, kept, filled, 0)) {
        fail("left something where 0 must stand");
    }
    if (!all_are(list, filled, length, MARK)) {
        fail("wrote beyond its part of a list");
    }
}

static void check_tree(const uint64_t *tree_words) {
    uint64_t nodes = tree_words[0];
    if (nodes < 1 || nodes > text_length + 1 || tree_words[1] != 4 || tree_words[2] > text_length ||
        tree_words[3] != 4 + 4 * nodes || tree_words[7] != nodes) {
        fail("wrote a header that is none");
    }
}

static void keep_tree(struct sheet *tree, const uint64_t *tree_words, const uint8_t *tree_names) {
    tree->words_length = tree_words[3];
    tree->names_length = tree_words[2];
    memcpy(tree->words, tree_words, tree->words_length * sizeof(uint64_t));
    memcpy(tree->names, tree_names, tree->names_length);
}

uint64_t call_reader(enum function function, size_t lent_words, size_t lent_names, struct sheet *tree) {
    static __typeof__(berzhotun_from_str) *const readers[] = {
        [FROM_STR] = berzhotun_from_str,
        [FROM_STRICT] = berzhotun_from_str_strict,
        [FROM_START] = berzhotun_from_start_of_str,
    };
    size_t needed_words = BERZHOTUN_WORDS_FOR(text_length), needed_names = BERZHOTUN_NAMES_FOR(text_length);
    uint64_t *tree_words = lend_marked(&read_words_room, lent_words * sizeof(uint64_t));
    uint8_t *tree_names = lend_marked(&read_names_room, lent_names);
    uint64_t *values = lend_marked(&answer_room, 3 * sizeof(uint64_t));
    int is_short = lent_words < needed_words || lent_names < needed_names;
    uint64_t refusal, due = text_length > BERZHOTUN_MAX_TEXT ? 1 : is_short ? 2 : 0;
    size_t words_filled, names_filled;
    running = function;
    refusal = ends(readers[function](text, text_length, tree_words, lent_words, tree_names, lent_names, values));
    if (due != 0 ? refusal != due : refusal == 1 || refusal == 2) {
        fail("did not refuse by the lengths");
    }
    words_filled = due != 0 ? 0 : needed_words * sizeof(uint64_t);
    names_filled = due != 0 ? 0 : needed_names;
    check_values(refusal, values);
    if (refusal == BERZHOTUN_SURPLUS_ZERO) {
        check_surplus_zero(values[0]);
    }
    if (refusal == 0) {
        check_tree(tree_words);
        keep_tree(tree, tree_words, tree_names);
    }
    check_written(tree_words, refusal == 0 ? tree_words[3] * sizeof(uint64_t) : 0, words_filled,
                  lent_words * sizeof(uint64_t));
    check_written(tree_names, refusal == 0 ? tree_words[2] : 0, names_filled, lent_names);
    return refusal;
}

/* The types and the digits behind each follow each other from the first byte of the signature to its last. */
static void check_entries(const struct entries *entries) {
    size_t at = 0, i;
    for (i = 0; i < entries->count; i++) {
        const uint64_t *entry = entries->numbers + 3 * i;
        size_t digits;
        if (entry[0] != at || entry[1] == 0 || entry[1] > text_length - at || entry[2] > UINT32_MAX) {
            fail("gave a type that is not where the signature has one");
        }
        digits = at += entry[1];
        while (is_digit(at)) {
            at++;
        }
        if (at == digits) {
            fail("gave a type without a number");
        }
    }
    if (at != text_length || entries->count == 0) {
        fail("did not take the whole signature");
    }
}

uint64_t call_signature(size_t lent_numbers, struct entries *entries) {
    size_t needed = BERZHOTUN_SIGNATURE_FOR(text_length);
    uint64_t *list = lend_marked(&list_room, lent_numbers * sizeof(uint64_t));
    uint64_t *values = lend_marked(&answer_room, 3 * sizeof(uint64_t));
    uint64_t refusal;
    uint64_t due = text_length > BERZHOTUN_MAX_TEXT ? 1 : lent_numbers < needed ? 2 : text_length == 0 ? 18 : 0;
    running = SIGNATURE;
    refusal = ends(berzhotun_signature(text, text_length, list, lent_numbers, values));
    if (due != 0 ? refusal != due : refusal == 1 || refusal == 2 || refusal == 18) {
        fail("did not refuse by the lengths");
    }
    check_values(refusal, values);
    entries->count = refusal == 0 ? values[0] : 0;
    memcpy(entries->numbers, list, 3 * entries->count * sizeof(uint64_t));
    if (refusal == 0) {
        check_entries(entries);
    }
    check_written(list, 3 * entries->count * sizeof(uint64_t), due != 0 ? 0 : needed * sizeof(uint64_t),
                  lent_numbers * sizeof(uint64_t));
    return refusal;
}

static void check_yes_or_no(uint64_t refusal, uint64_t answer) {
    if (answer > (refusal == 0)) {
        fail("gave an answer that is neither yes nor no");
    }
    yeses[running] += answer;
}

uint64_t call_pair(enum function function, uint64_t *answer) {
    uint64_t *lent = lend_marked(&answer_room, sizeof(uint64_t));
    uint64_t refusal;
    running = function;
    refusal = ends((function == EQUIVALENT       ? berzhotun_equivalent_to
                    : function == EQUIVALENT_BOX ? berzhotun_equivalent_to_box
                                                 : berzhotun_eq)(words[0], words_length[0], names[0], names_length[0],
                                                                 words[1], words_length[1], names[1],
                                                                 names_length[1], lent));
    check_yes_or_no(refusal, *lent);
    *answer = *lent;
    return refusal;
}

#define BOTH words[0], words_length[0], names[0], names_length[0], words[1], words_length[1], names[1], names_length[1]

/* Yes and 0, no and the bytes of a reason, refused and 0. */
static void check_reason_answer(uint64_t refusal, const uint64_t *answer) {
    check_yes_or_no(refusal, answer[0]);
    if ((answer[1] != 0) != (refusal == 0 && answer[0] == 0) || answer[1] > BERZHOTUN_MAX_REASON) {
        fail("gave a count of bytes that no reason has");
    }
}

uint64_t call_reason_length(enum function function, uint64_t *answer) {
    uint64_t *lent = lend_marked(&answer_room, 2 * sizeof(uint64_t));
    uint64_t refusal;
    running = function;
    refusal = ends((function == REASON_LENGTH ? berzhotun_reason_len : berzhotun_reason_all_len)(BOTH, lent));
    check_reason_answer(refusal, lent);
    memcpy(answer, lent, 2 * sizeof(uint64_t));
    return refusal;
}

/* A number in decimal without a zero in front. Returns where its digits end. */
static size_t pass_number(const uint8_t *bytes, size_t at, size_t end, size_t *number) {
    size_t start = at;
    *number = 0;
    while (at < end && bytes[at] >= '0' && bytes[at] <= '9') {
        *number = 10 * *number + (bytes[at++] - '0');
    }
    if (at == start || at - start > 4 || (at - start > 1 && bytes[start] == '0')) {
        fail("wrote a number that is none");
    }
    return at;
}

/* A space, a count of bytes, a colon and so many bytes. Returns where they begin. */
static size_t pass_value(const uint8_t *bytes, size_t at, size_t end, size_t *length) {
    if (at == end || bytes[at] != ' ') {
        fail("wrote a reason without two values");
    }
    at = pass_number(bytes, at + 1, end, length);
    if (at == end || bytes[at] != ':' || *length > end - at - 1 || *length == 0) {
        fail("wrote a value that does not end");
    }
    return at + 1;
}

/* Item numbers, a colon, a word and two values that differ, and nothing more. */
static void check_reason(const uint8_t *bytes, size_t end) {
    static const char *const known[] = {"kind", "size", "offset", "length", "name", "count"};
    size_t at = 0, number, word, first, first_length, second, second_length;
    while (at < end && bytes[at] != ':') {
        at = pass_number(bytes, at + (at > 0 && bytes[at] == '.'), end, &number);
    }
    for (at++, word = 0; word < 6; word++) {
        if (at + strlen(known[word]) < end && memcmp(bytes + at, known[word], strlen(known[word])) == 0) {
            break;
        }
    }
    if (word == 6) {
        fail("wrote a reason without a word");
    }
    first = pass_value(bytes, at + strlen(known[word]), end, &first_length);
    second = pass_value(bytes, first + first_length, end, &second_length);
    if (second + second_length != end) {
        fail("wrote more than a reason");
    }
    if (first_length == second_length && memcmp(bytes + first, bytes + second, first_length) == 0) {
        fail("wrote a reason that is none");
    }
}

uint64_t call_reason(enum function function, size_t room, uint64_t *answer) {
    uint8_t *out = lend_marked(&out_room, room);
    uint64_t *lent = lend_marked(&answer_room, 2 * sizeof(uint64_t));
    uint64_t refusal;
    running = function;
    refusal = ends((function == REASON ? berzhotun_reason : berzhotun_reason_all)(BOTH, out, room, lent));
    check_reason_answer(refusal, lent);
    if (lent[1] > room) {
        fail("gave a length of what it did not write");
    }
    if (!all_are(out, lent[1], room, MARK)) {
        fail("wrote behind its reason");
    }
    if (lent[1] != 0) {
        check_reason(out, lent[1]);
    }
    memcpy(answer, lent, 2 * sizeof(uint64_t));
    return refusal;
}

uint64_t call_matches(uint64_t *answer) {
    uint64_t *lent = lend_marked(&answer_room, sizeof(uint64_t));
    uint64_t refusal;
    running = MATCHES;
    refusal = ends(berzhotun_equivalent_to_str(words[0], words_length[0], names[0], names_length[0], text,
                                               text_length, lent));
    if ((refusal == 1) != (text_length > BERZHOTUN_MAX_TEXT)) {
        fail("did not refuse by the length");
    }
    check_yes_or_no(refusal, *lent);
    *answer = *lent;
    return refusal;
}

static void check_row(uint64_t row, uint64_t refusal) {
    if (row > BERZHOTUN_ROW_GUIDE && refusal != BERZHOTUN_NO_SUCH_ROW && refusal != BERZHOTUN_BAD_SHEET &&
        refusal != BERZHOTUN_BAD_NAME) {
        fail("took a row that is none");
    }
    if (row <= BERZHOTUN_ROW_GUIDE && refusal == BERZHOTUN_NO_SUCH_ROW) {
        fail("refused a row");
    }
}

uint64_t call_size(uint64_t row, struct size *size) {
    uint64_t *lent = lend_marked(&answer_room, 2 * sizeof(uint64_t));
    uint64_t refusal;
    running = SIZE;
    running_row = row;
    refusal = ends(berzhotun_size(words[0], words_length[0], names[0], names_length[0], row, lent));
    check_yes_or_no(refusal, lent[0]);
    if (lent[0] == 0 && lent[1] != 0) {
        fail("gave bytes of what has no size");
    }
    check_row(row, refusal);
    if (row == BERZHOTUN_ROW_ARM32 && lent[1] > UINT32_MAX) {
        fail("gave a size that the row does not have");
    }
    size->is_there = refusal == BERZHOTUN_SIZE_TOO_LARGE || lent[0] == 1;
    size->bytes = refusal == BERZHOTUN_SIZE_TOO_LARGE ? UINT64_MAX : lent[1];
    return refusal;
}

size_t first_nodes(void) {
    return words_length[0] > 0 && words[0][0] <= BERZHOTUN_MAX_NODES ? words[0][0] : BERZHOTUN_MAX_NODES;
}

static uint64_t node_word(uint64_t node, size_t word) {
    return words[0][4 + 4 * node + word];
}

/* What the nodes right below `node`, behind a pointer all below it, have: fields of a struct do not go back, members of a union
   and all that is no field have 0. */
static void check_offsets_below(const uint64_t *offsets, uint64_t node, uint64_t limit) {
    uint64_t kind = node_word(node, 0), end = node + node_word(node, 3), child, before = 0;
    for (child = node + 1; child < end; child += kind == BERZHOTUN_POINTER ? 1 : node_word(child, 3)) {
        if (kind == BERZHOTUN_STRUCT ? offsets[child] < before || offsets[child] > limit : offsets[child] != 0) {
            fail("gave an offset that no field has");
        }
        before = offsets[child];
    }
}

/* A loop, so that the stack that is measured is the library's. */
static void check_offsets(const uint64_t *offsets, uint64_t limit) {
    uint64_t node = 0;
    while (node < words[0][0]) {
        check_offsets_below(offsets, node, limit);
        node += node_word(node, 0) == BERZHOTUN_POINTER ? node_word(node, 3) : 1;
    }
}

/* The answer of a layout: 1 with a size that is a multiple of the alignment, 0 0 0, or the node of a bitfield. */
static void check_layout(uint64_t row, uint64_t refusal, const uint64_t *answer, const uint64_t *offsets) {
    uint64_t limit = row == BERZHOTUN_ROW_ARM32 ? UINT32_MAX : UINT64_MAX;
    int is_there = refusal == 0 && answer[0] == 1;
    if (carried[refusal] & NODE) {
        uint64_t kind = answer[0] < words[0][0] ? node_word(answer[0], 0) : BERZHOTUN_NONE;
        if ((kind != BERZHOTUN_BITFIELD && kind != BERZHOTUN_BITFIELD_WITH_TYPE) || answer[1] != 0 || answer[2] != 0) {
            fail("refused a bitfield that is none");
        }
        return;
    }
    check_yes_or_no(refusal, answer[0]);
    if (!is_there) {
        if (answer[1] != 0 || answer[2] != 0) {
            fail("gave bytes of what has no layout");
        }
        return;
    }
    if (answer[2] == 0 || answer[2] > 16 || (answer[2] & (answer[2] - 1)) != 0 || answer[1] % answer[2] != 0 ||
        answer[1] > limit || offsets[0] != 0) {
        fail("gave a size and an alignment that do not go together");
    }
    check_offsets(offsets, limit);
}

uint64_t call_layout(uint64_t row, size_t room, struct size *padded) {
    uint64_t *offsets = lend_marked(&offsets_room, room * sizeof(uint64_t));
    uint64_t *lent = lend_marked(&answer_room, 3 * sizeof(uint64_t));
    uint64_t refusal;
    size_t written;
    running = LAYOUT;
    running_row = row;
    refusal = ends(berzhotun_layout(words[0], words_length[0], names[0], names_length[0], row, offsets, room, lent));
    written = refusal == 0 && lent[0] == 1 ? words[0][0] : 0;
    check_row(row, refusal);
    if (written > room || !all_are(offsets, written * sizeof(uint64_t), room * sizeof(uint64_t), MARK)) {
        fail("wrote beyond its part of a list");
    }
    check_layout(row, refusal, lent, offsets);
    padded->is_there = refusal == BERZHOTUN_SIZE_TOO_LARGE || written > 0;
    padded->bytes = refusal == BERZHOTUN_SIZE_TOO_LARGE ? UINT64_MAX : written > 0 ? lent[1] : 0;
    return refusal;
}

int first_has(uint64_t kind) {
    uint64_t node;
    for (node = 0; node < words[0][0]; node++) {
        if (words[0][4 + 4 * node] == kind) {
            return 1;
        }
    }
    return 0;
}

uint64_t call_length(uint64_t *answer) {
    uint64_t *lent = lend_marked(&answer_room, sizeof(uint64_t));
    uint64_t refusal;
    running = LENGTH;
    refusal = ends(berzhotun_static_encoding_str_len(words[0], words_length[0], names[0], names_length[0], lent));
    if (refusal != 0 && *lent != 0) {
        fail("gave a length of what it refused");
    }
    *answer = *lent;
    return refusal;
}

uint64_t call_print(size_t room, struct text *print) {
    uint8_t *out = lend_marked(&out_room, room);
    uint64_t *lent = lend_marked(&answer_room, sizeof(uint64_t));
    uint64_t refusal;
    running = PRINT;
    refusal = ends(berzhotun_static_encoding_str_array(words[0], words_length[0], names[0], names_length[0], out, room,
                                                       lent));
    if (*lent > (refusal == 0 ? room : 0)) {
        fail("gave a length of what it did not write");
    }
    if (!all_are(out, *lent, room, MARK)) {
        fail("wrote behind its print");
    }
    print->length = *lent <= TEXT_ROOM ? *lent : TEXT_ROOM;
    memcpy(print->bytes, out, print->length);
    return refusal;
}
