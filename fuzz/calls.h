/* The sixteen functions, each called in guarded memory and held to its contract. */
#ifndef CALLS_H
#define CALLS_H

#include "inputs.h"

/* Those up to SIGNATURE take a text alone, those from there up to REASON_ALL two sheets, the others a sheet first. */
enum function {
    FROM_STR, FROM_STRICT, FROM_START, SIGNATURE, EQUIVALENT, EQUIVALENT_BOX, EQ, REASON_LENGTH, REASON_ALL_LENGTH, REASON,
    REASON_ALL, MATCHES, SIZE, LAYOUT, LENGTH, PRINT, FUNCTIONS
};

extern const char *const function_names[FUNCTIONS];

/* Returned numbers are below this, so that a set of them is the bits of a word. */
enum { NUMBERS = 64 };

/* Calls of each function by returned number, and those answered by yes. */
extern uint64_t counts[FUNCTIONS][NUMBERS], yeses[FUNCTIONS];

/* Makes the guarded memory and catches faults, which are reported with the call that made them. */
void calls_begin(void);

/* Puts a text, or a sheet as the first (0) or second (1), into the lent memory for the calls below. */
void lend_text(const struct text *text);
void lend_sheet(int which, const struct sheet *sheet);

/* Each returns the refusal. A reading is lent so many words and name bytes; if accepted, its tree is put in `tree`. */
uint64_t call_reader(enum function function, size_t lent_words, size_t lent_names, struct sheet *tree);

/* A signature is lent so many numbers; if accepted, those of its types are put in `entries`. */
struct entries {
    uint64_t numbers[BERZHOTUN_MAX_SIGNATURE];
    size_t count;
};
uint64_t call_signature(size_t lent_numbers, struct entries *entries);

uint64_t call_pair(enum function function, uint64_t *answer);

/* A reason's length, with an answer of two numbers; and a reason written into an output of `room` bytes. */
uint64_t call_reason_length(enum function function, uint64_t *answer);
uint64_t call_reason(enum function function, size_t room, uint64_t *answer);

uint64_t call_matches(uint64_t *answer);

/* Whether there is a size, and its bytes: the most that a number can hold if it is too large, 0 if there is none. */
struct size {
    int is_there;
    uint64_t bytes;
};
uint64_t call_size(uint64_t row, struct size *size);

/* A layout in a list of `room` numbers. Whether there is one, and its bytes, as of a size; too large also by an offset. */
uint64_t call_layout(uint64_t row, size_t room, struct size *padded);

/* How many nodes the first sheet says that it has, as far as a sheet can have them. */
size_t first_nodes(void);

/* Whether the first sheet, which was accepted, has a node of that kind. */
int first_has(uint64_t kind);

uint64_t call_length(uint64_t *answer);

/* Prints into an output of `room` bytes; as much of the print as has room is copied to `print`. */
uint64_t call_print(size_t room, struct text *print);

/* Says what went wrong, shows the lent lists, and exits. */
void fail(const char *what);

#endif
