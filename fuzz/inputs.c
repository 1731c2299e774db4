#include "inputs.h"

#include <stdio.h>
#include <string.h>

static uint64_t state;

void seed_random(uint64_t seed) {
    state = seed;
}

/* splitmix64 */
uint64_t random_word(void) {
    uint64_t z = state += 0x9e3779b97f4a7c15u;
    z = (z ^ (z >> 30)) * 0xbf58476d1ce4e5b9u;
    z = (z ^ (z >> 27)) * 0x94d049bb133111ebu;
    return z ^ (z >> 31);
}

size_t random_below(size_t limit) {
    return (size_t)((random_word() >> 32) * limit >> 32);
}

static void put(struct text *text, uint8_t byte) {
    if (text->length < TEXT_ROOM) {
        text->bytes[text->length++] = byte;
    }
}

static void put_all(struct text *text, const char *bytes) {
    while (*bytes != '\0') {
        put(text, (uint8_t)*bytes++);
    }
}

static void put_number(struct text *text) {
    static const char *const numbers[] = {
        "0", "1", "3", "7", "8", "12", "007", "255", "256", "65536", "18446744073709551615", "18446744073709551616",
    };
    put_all(text, numbers[random_below(random_below(8) == 0 ? 12 : 7)]);
}

static void put_type(struct text *text, int depth);

static void put_container(struct text *text, int depth, const char *brackets) {
    static const char *const names[] = {"R", "x", "?", "Rate", "a_1", "0", "", "a-b"};
    size_t fields = random_below(4);
    put(text, (uint8_t)brackets[0]);
    put_all(text, names[random_below(random_below(16) == 0 ? 8 : 5)]);
    if (random_below(4) != 0) {
        put(text, '=');
    }
    while (fields-- > 0) {
        put_type(text, depth - 1);
    }
    put(text, (uint8_t)brackets[1]);
}

static void put_leaf(struct text *text) {
    static const char *const leaves[] = {
        "c", "s", "i", "l", "q", "C", "S", "I", "L", "Q", "f", "d", "D", "jf", "jd", "jD",
        "B", "v", "*", "@", "@?", "#", ":", "?", "@\"Rate\"", "@\"\"", "",
    };
    put_all(text, leaves[random_below(27)]);
}

static void put_type(struct text *text, int depth) {
    size_t form = depth <= 0 ? 7 + random_below(9) : random_below(16);
    switch (form) {
    case 0:
        put(text, '[');
        put_number(text);
        put_type(text, depth - 1);
        put(text, ']');
        break;
    case 1:
    case 2:
        put_container(text, depth, "{}");
        break;
    case 3:
        put_container(text, depth, "()");
        break;
    case 4:
    case 5:
        put(text, '^');
        put_type(text, depth - 1);
        break;
    case 6:
        put(text, 'A');
        put_type(text, depth - 1);
        break;
    case 7:
        put(text, 'b');
        put_number(text);
        if (random_below(2) == 0) {
            put(text, (uint8_t) "csilqCSILQBfd"[random_below(13)]);
            put_number(text);
        }
        break;
    default:
        put_leaf(text);
    }
}

static void spoil(struct text *text) {
    size_t at = random_below(text->length + 1);
    switch (random_below(4)) {
    case 0:
        text->length = at;
        break;
    case 1:
        if (at < text->length) {
            text->bytes[at] = (uint8_t)random_word();
        }
        break;
    case 2:
        if (at < text->length) {
            memmove(text->bytes + at, text->bytes + at + 1, text->length - at - 1);
            text->length--;
        }
        break;
    default:
        if (text->length < TEXT_ROOM) {
            memmove(text->bytes + at + 1, text->bytes + at, text->length - at);
            text->bytes[at] = (uint8_t) "[]{}()=^A@?\"b17jrx"[random_below(18)];
            text->length++;
        }
    }
}

/* Around the limit of 2,000 bytes, and up to all the room. */
static void long_text(struct text *text) {
    static const char *const parts[] = {"^", "A", "[1", "{R", "{R=", "(U=", "i", "b0i3", "{R=i}", "@\"a\"", "9"};
    size_t limit = random_below(4) == 0 ? random_below(TEXT_ROOM + 1) : 1990 + random_below(20);
    size_t first = random_below(11), second = random_below(11);
    if (random_below(2) == 0) {
        put_all(text, "{R=");
    }
    while (text->length < limit) {
        put_all(text, parts[random_below(8) == 0 ? second : first]);
    }
    text->length = limit;
}

void random_text(struct text *text) {
    size_t form = random_below(1024), i;
    text->length = 0;
    if (form == 0) {
        long_text(text);
    } else if (form < 128) {
        text->length = random_below(16);
        for (i = 0; i < text->length; i++) {
            text->bytes[i] = (uint8_t)random_word();
        }
    } else if (form < 384) {
        text->length = random_below(20);
        for (i = 0; i < text->length; i++) {
            text->bytes[i] = (uint8_t) "csilqCSILQfdDjBv*@#:?bA^[]{}()=\"0123789rnNoORVxR_"[random_below(50)];
        }
    } else {
        if (random_below(8) == 0) {
            put(text, (uint8_t) "rnNoORV"[random_below(7)]);
        }
        put_type(text, 4);
        for (i = random_below(4); i < 2; i++) {
            spoil(text);
        }
    }
}

static void put_offset(struct text *text) {
    static const char *const numbers[] = {
        "0", "8", "16", "24", "136", "008", "", "+8", "4294967295", "4294967296", "00000000004294967295",
        "18446744073709551616",
    };
    put_all(text, numbers[random_below(random_below(32) == 0 ? 12 : 5)]);
}

/* A type as methods have it, or any, and its number. */
static void put_entry(struct text *text) {
    static const char *const types[] = {
        "v", "@", ":", "i", "d", "q", "B", "^v", "*", "#", "@?", "^{Rate=id}", "{Rate=id}", "@\"Rate\"", "(U=if)", "[4c]",
    };
    if (random_below(8) == 0) {
        put(text, (uint8_t) "rnNoORV"[random_below(7)]);
    }
    if (random_below(8) == 0) {
        put_type(text, 3);
    } else {
        put_all(text, types[random_below(16)]);
    }
    put_offset(text);
}

/* Around the limit of 2,000 bytes, of as many types as can be, or of any. */
static void long_signature(struct text *text) {
    size_t limit = 1990 + random_below(20);
    int shortest = random_below(2) == 0;
    while (text->length + 20 < limit) {
        if (shortest) {
            put_all(text, "i0");
        } else {
            put_entry(text);
        }
    }
    put(text, 'v');
    while (text->length < limit) {
        put(text, '0');
    }
}

void random_signature(struct text *text) {
    size_t form = random_below(1024), i;
    if (form < 128) {
        random_text(text);
        return;
    }
    text->length = 0;
    if (form == 128) {
        long_signature(text);
        return;
    }
    for (i = random_below(6); i < 6; i++) {
        put_entry(text);
    }
    if (random_below(3) == 0) {
        spoil(text);
    }
}

static uint64_t odd_number(uint64_t number) {
    static const uint64_t numbers[] = {0, 1, 4, 24, 25, 28, 29, 30, 31, 32, 255, 256, 2000, 2001, 8008, UINT64_MAX};
    switch (random_below(4)) {
    case 0:
        return number + 1;
    case 1:
        return number - 1;
    case 2:
        return numbers[random_below(16)];
    default:
        return random_word() >> random_below(64);
    }
}

void damage(struct sheet *sheet) {
    size_t times = 1 + random_below(3), at;
    while (times-- > 0) {
        switch (random_below(8)) {
        case 0:
            sheet->words_length = random_below(sheet->words_length + 1);
            break;
        case 1:
            sheet->names_length = random_below(sheet->names_length + 1);
            break;
        case 2:
            if (sheet->names_length > 0) {
                sheet->names[random_below(sheet->names_length)] = (uint8_t)random_word();
            }
            break;
        default:
            if (sheet->words_length > 0) {
                at = random_below(random_below(4) == 0 && sheet->words_length > 4 ? 4 : sheet->words_length);
                sheet->words[at] = odd_number(sheet->words[at]);
            }
        }
    }
}

void vary(struct sheet *sheet) {
    size_t node = 4 + 4 * random_below(sheet->words[0]);
    uint64_t *words = sheet->words + node;
    if (words[0] < BERZHOTUN_BITFIELD) {
        words[0] = random_below(BERZHOTUN_BITFIELD);
    } else if (words[0] <= BERZHOTUN_BITFIELD_WITH_TYPE) {
        words[2] = random_below(256);
    } else if (words[0] <= BERZHOTUN_ATOMIC) {
        words[0] = BERZHOTUN_POINTER + random_below(2);
    } else if (words[0] == BERZHOTUN_ARRAY) {
        words[1] = odd_number(words[1]);
    } else if (words[0] != BERZHOTUN_NONE) {
        words[0] = BERZHOTUN_STRUCT + random_below(2);
    }
}

void random_sheet(struct sheet *sheet) {
    size_t nodes = random_below(6), i;
    sheet->words_length = 4 + 4 * nodes;
    sheet->names_length = random_below(8);
    for (i = 0; i < sheet->words_length; i++) {
        sheet->words[i] = random_below(2) == 0 ? random_below(32) : odd_number(1);
    }
    for (i = 0; i < sheet->names_length; i++) {
        sheet->names[i] = (uint8_t)random_word();
    }
    if (random_below(4) != 0) {
        sheet->words[0] = nodes;
        sheet->words[1] = 4;
        sheet->words[2] = sheet->names_length;
        sheet->words[3] = sheet->words_length;
    }
}
