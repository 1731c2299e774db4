/* Random texts and sheets. */
#ifndef INPUTS_H
#define INPUTS_H

#include <stddef.h>
#include <stdint.h>

#include "berzhotun.h"

enum { TEXT_ROOM = 4096, WORDS_ROOM = BERZHOTUN_MAX_WORDS + 184, NAMES_ROOM = 4096 };

struct text {
    uint8_t bytes[TEXT_ROOM];
    size_t length;
};

struct sheet {
    uint64_t words[WORDS_ROOM];
    uint8_t names[NAMES_ROOM];
    size_t words_length, names_length;
};

void seed_random(uint64_t seed);
uint64_t random_word(void);

/* A number below `limit`, which is above 0. */
size_t random_below(size_t limit);

/* Any bytes, bytes that encodings use, well-formed texts and spoilt ones; one in 1,024 is long. */
void random_text(struct text *text);

/* Types with numbers behind them, well-formed and spoilt, and any text; one in 1,024 is long. */
void random_signature(struct text *text);

/* Changes a word, a name byte or a length. */
void damage(struct sheet *sheet);

/* Changes a node's kind or number so that a valid sheet stays one. */
void vary(struct sheet *sheet);

/* Words and names without any order. */
void random_sheet(struct sheet *sheet);

#endif
