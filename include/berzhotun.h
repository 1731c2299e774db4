/*
 * Berzhotun: Objective-C type encodings read, compared, measured, laid out and printed.
 *
 * A proved port of the core of the Rust crate objc2-encode 4.1.0. `rt lib`, in the folder
 * crates/berzhotun, proves it and writes out/libberzhotun.a there, for x86-64 Linux on processors of
 * the level x86-64-v2 and above; `tools/handover FOLDER` writes archives for macOS and for Linux on
 * ARM from the same module.
 *
 *     cc -I include program.c crates/berzhotun/out/libberzhotun.a
 *
 * RETURNED NUMBER. Every function returns 0 if it accepts, and otherwise the number of the refusal
 * (BERZHOTUN_TEXT_TOO_LONG and so on). Where several reasons hold, the one that each function
 * names first is returned. No function fails in another way, whatever the lent lists contain.
 *
 * TEXT. Bytes, at most 2,000, without a final zero: any byte may stand in it. A place is a byte
 * index into it, from 0.
 *
 * TREE. Two lists of the caller, called a sheet: words and name bytes.
 *
 *     words[0]  count of nodes, 1 to 2,001         words[2]  count of name bytes, 0 to 2,000
 *     words[1]  4, where the nodes begin           words[3]  words used, 4 + 4 * count of nodes
 *
 * Then four words a node, parent first, children in order:
 *
 *     kind               BERZHOTUN_CHAR (0) to BERZHOTUN_NONE (31)
 *     first number       bitfield with type: offset; array: length; struct, union: where its name
 *                        begins in the name bytes; otherwise 0
 *     second number      bitfields: bits, 0 to 255; struct, union: length of its name; otherwise 0
 *     nodes in subtree   this node and all below it
 *
 * Bitfields with type, pointers, atomics and arrays have one child, structs and unions any count,
 * all others none. Names follow each other in node order without gaps. A name is `?`, or one or
 * more ASCII letters, digits and underscores. What stands in the lists beyond the words and name
 * bytes used is not looked at. So `{R=i^v}` is the name byte `R` and the words
 *
 *     4 4 1 20,  29 0 1 4,  2 0 0 1,  26 0 0 2,  17 0 0 1
 *
 * LEVELS. Printing, measuring, laying out and comparing start at the top level. A pointer leads
 * from top to within, and otherwise to bottom. An atomic leads to bottom. Arrays and bitfields keep
 * the level. The fields of a struct or union are within. At bottom a struct or union has only its
 * kind and name: its fields are neither printed nor compared, and its size is not known.
 *
 * WHAT THE CALLER MUST RESPECT. Nothing in C can test it, and the proof takes it as given:
 *  - each pointer is valid for the length that goes with it (or for the count in brackets), aligned
 *    for its type, and not NULL, even where the length is 0;
 *  - a list that is written (words, names, list and values of a reading, out, offsets, answer)
 *    overlaps no other list of the same call. Lists that are only read may: a tree can be compared
 *    with itself;
 *  - no other thread writes to a lent list during the call, nor reads one that is written. Beyond
 *    that any number of threads may call: the functions keep nothing from call to call;
 *  - 512 KiB of stack are free. The functions call themselves once for each level of nesting, of
 *    which there are at most 2,001, and allocate nothing.
 */
#ifndef BERZHOTUN_H
#define BERZHOTUN_H

#include <stddef.h>
#include <stdint.h>

#ifdef __cplusplus
extern "C" {
#endif

/* The most bytes of a text, and the most nodes, words and name bytes of a sheet. */
#define BERZHOTUN_MAX_TEXT 2000
#define BERZHOTUN_MAX_NODES 2001
#define BERZHOTUN_MAX_WORDS 8008
#define BERZHOTUN_MAX_NAMES 2000

/* The most bytes that any sheet prints: 2,000 bitfields with type around an empty struct with a
 * name of 2,000. */
#define BERZHOTUN_MAX_PRINT 50003

/* The most bytes of the reason for a no: 2,000 pointers around a struct with a name of 2,000, in
 * which two trees differ. */
#define BERZHOTUN_MAX_REASON 8016

/* The words and name bytes that reading a text of `text_len` bytes needs, and fills. */
#define BERZHOTUN_WORDS_FOR(text_len) (4 + 4 * ((size_t)(text_len) + 1))
#define BERZHOTUN_NAMES_FOR(text_len) ((size_t)(text_len))

/* The most numbers of a signature's list, and those that reading a signature of `text_len` bytes
 * needs, and fills: three a type, each of which has a byte and a digit at least. */
#define BERZHOTUN_MAX_SIGNATURE 3000
#define BERZHOTUN_SIGNATURE_FOR(text_len) (3 * ((size_t)(text_len) / 2))

/* The kinds of nodes, each with its code in a text. */
#define BERZHOTUN_CHAR 0u                 /* c */
#define BERZHOTUN_SHORT 1u                /* s */
#define BERZHOTUN_INT 2u                  /* i */
#define BERZHOTUN_LONG 3u                 /* l */
#define BERZHOTUN_LONG_LONG 4u            /* q */
#define BERZHOTUN_UCHAR 5u                /* C */
#define BERZHOTUN_USHORT 6u               /* S */
#define BERZHOTUN_UINT 7u                 /* I */
#define BERZHOTUN_ULONG 8u                /* L */
#define BERZHOTUN_ULONG_LONG 9u           /* Q */
#define BERZHOTUN_FLOAT 10u               /* f */
#define BERZHOTUN_DOUBLE 11u              /* d */
#define BERZHOTUN_LONG_DOUBLE 12u         /* D */
#define BERZHOTUN_FLOAT_COMPLEX 13u       /* jf */
#define BERZHOTUN_DOUBLE_COMPLEX 14u      /* jd */
#define BERZHOTUN_LONG_DOUBLE_COMPLEX 15u /* jD */
#define BERZHOTUN_BOOL 16u                /* B */
#define BERZHOTUN_VOID 17u                /* v */
#define BERZHOTUN_STRING 18u              /* * */
#define BERZHOTUN_OBJECT 19u              /* @, and @"Name" when read */
#define BERZHOTUN_BLOCK 20u               /* @? */
#define BERZHOTUN_CLASS 21u               /* # */
#define BERZHOTUN_SEL 22u                 /* : */
#define BERZHOTUN_UNKNOWN 23u             /* ? */
#define BERZHOTUN_BITFIELD 24u            /* b3: 3 bits */
#define BERZHOTUN_BITFIELD_WITH_TYPE 25u  /* b16i3: offset 16, type i, 3 bits */
#define BERZHOTUN_POINTER 26u             /* ^i */
#define BERZHOTUN_ATOMIC 27u              /* Ai */
#define BERZHOTUN_ARRAY 28u               /* [12i] */
#define BERZHOTUN_STRUCT 29u              /* {Name=ii}, or {Name} */
#define BERZHOTUN_UNION 30u               /* (Name=ii), or (Name) */
#define BERZHOTUN_NONE 31u                /* no type at all: no byte */

/* The rows of sizes: the widths that a type is measured and laid out with. Other numbers are refused,
   by 20. */
#define BERZHOTUN_ROW_APPLE_ARM64 0u /* 64-bit Apple ARM, as the Rust crate measures there */
#define BERZHOTUN_ROW_X86_64 1u      /* x86_64, as Intel Macs: long double is wider */
#define BERZHOTUN_ROW_ARM32 2u       /* 32-bit ARM: long, unsigned long and pointers are narrower */
#define BERZHOTUN_ROW_GUIDE 3u       /* row 0 after Apple's guide: long is narrower */

/* The refusals. Those up to 6, 18 and 20 carry only their number; 21 also a node's number; the
   others also a place, which is named. */

/* The text has more than 2,000 bytes. */
#define BERZHOTUN_TEXT_TOO_LONG 1u
/* A lent list is shorter than reading needs, or a list of offsets than the count of nodes. */
#define BERZHOTUN_LIST_TOO_SHORT 2u
/* The lists are no sheet as laid out above, or are shorter than its first four words say. */
#define BERZHOTUN_BAD_SHEET 3u
/* A struct or union, also one whose fields or itself no print shows, has a name that is none. */
#define BERZHOTUN_BAD_NAME 4u
/* The output is shorter than the printed length, or than the reason for a no. */
#define BERZHOTUN_OUTPUT_TOO_SHORT 5u
/* The size, or in a layout an offset, is above 2^64 - 1, or for 32-bit ARM above 2^32 - 1. */
#define BERZHOTUN_SIZE_TOO_LARGE 6u
/* A needed byte is missing after `j`, `b`, `[` or inside quotes. Place: the text's end. */
#define BERZHOTUN_UNEXPECTED_END 7u
/* No type starts with the byte, or it closes where a type, or another closing byte, must stand.
   Place: right behind the byte; but in a signature a digit's own. Byte: that byte. */
#define BERZHOTUN_UNKNOWN_BYTE 8u
/* A byte other than f, d and D after `j`. Place: that of the byte. Byte: that byte. */
#define BERZHOTUN_UNKNOWN_AFTER_COMPLEX 9u
/* Another byte where a digit must stand. Place: that of the byte. */
#define BERZHOTUN_EXPECTED_INTEGER 10u
/* A number above 2^64 - 1, or bits of a bitfield above 255. Place: right behind its digits. */
#define BERZHOTUN_INTEGER_TOO_LARGE 11u
/* The text ends where an array's item must begin, or no `]` follows the item. Place: there. */
#define BERZHOTUN_WRONG_END_ARRAY 12u
/* The text ends inside a struct or union. Place: the text's end. Kind: 29 or 30. */
#define BERZHOTUN_WRONG_END_CONTAINER 13u
/* What stands before `=` or the closing byte of a struct or union is no name. Place: that of the
   `=` or closing byte. Kind: 29 or 30. */
#define BERZHOTUN_INVALID_IDENTIFIER 14u
/* Bytes remain after the type. Place: where they begin. */
#define BERZHOTUN_NOT_ALL_CONSUMED 15u
/* In a signature another byte than a digit, or the end, follows a type. Place: there. */
#define BERZHOTUN_EXPECTED_OFFSET 16u
/* In a signature a number above 4,294,967,295 follows a type. Place: right behind its digits. */
#define BERZHOTUN_OFFSET_TOO_LARGE 17u
/* The signature has no byte. */
#define BERZHOTUN_EMPTY_SIGNATURE 18u
/* In a strict reading a number has more than one digit and starts with 0. Place: that of the 0. */
#define BERZHOTUN_SURPLUS_ZERO 19u
/* The number of the row of sizes is above 3. */
#define BERZHOTUN_NO_SUCH_ROW 20u
/* A bitfield is to be laid out. Node: the lowest number of such a node, from 0 for the root. */
#define BERZHOTUN_BIT_FIELD_IN_LAYOUT 21u

/*
 * Reads the whole text as one type. Leading bytes among r n N o O R V (const, in, inout and so on)
 * are passed over. The empty text is the tree None.
 *
 * Reads   text[0 .. text_len].
 * Writes  values[0 .. 3]; and, unless it refuses by 1 or 2, the first BERZHOTUN_WORDS_FOR(text_len)
 *         words and the first BERZHOTUN_NAMES_FOR(text_len) name bytes, all of them: those that the
 *         tree does not fill become 0. What lies beyond is left as it was.
 * 0       the tree stands in words and names; values are 0 0 0.
 * Refuses 1 if text_len is above 2,000; else 2 if words_len is below BERZHOTUN_WORDS_FOR(text_len)
 *         or names_len below BERZHOTUN_NAMES_FOR(text_len): both leave words and names as they
 *         were, and values are 0 0 0. Else 7 to 15, for the first reason that reading from left to
 *         right meets: words and names become 0 as far as above, and values are the place, the byte
 *         (refusals 8 and 9, otherwise 0) and the kind (refusals 13 and 14, otherwise 0).
 */
uint64_t berzhotun_from_str(const uint8_t *text, size_t text_len, uint64_t *words, size_t words_len,
                            uint8_t *names, size_t names_len, uint64_t values[3]);

/*
 * Reads the whole text as one type, and takes only one spelling of each number: for registration,
 * where `[7c]` and `[007c]` would else be two entries for one type. As berzhotun_from_str, but for
 * this:
 *
 * Refuses also by 19: a number (an array's length, a bitfield's offset or bits) has more than one
 *         digit and starts with 0. It is refused as soon as reading meets it, before 11 for that
 *         number and before all that reading would meet behind it; what reading meets before it
 *         goes first, and 15 is met behind the type. Words and names become 0 as by 7 to 15, and
 *         values are the place of the number's first digit, 0 and 0.
 *
 * So `[00c]` and `b0256` are refused by 19 at 1, `b0i007` by 19 at 3 and `{x=[007c` by 19 at 4, but
 * `j[007c]` by 9 at 1 and `[7c][007c]` by 15 at 4. The number 0 has one digit: `b0i0` is read. In a
 * name and between quotes digits are no number: `{b01=i}` and `@"[00"` are read.
 */
uint64_t berzhotun_from_str_strict(const uint8_t *text, size_t text_len, uint64_t *words,
                                   size_t words_len, uint8_t *names, size_t names_len,
                                   uint64_t values[3]);

/*
 * Reads one type from the start of the text, as of a method's signature, and says where the rest
 * begins. As berzhotun_from_str, but for this:
 *
 * 0       values are the place where the rest begins, 0 and 0.
 * Refuses never by 15.
 *
 * Where reading would be refused by 8 because of a digit, it accepts instead, with the tree None
 * and the place right behind that digit. So of `16@` the digit 1 is eaten, and of `{x=5c` all but
 * `c`: for a whole signature, with its numbers, ask berzhotun_signature.
 */
uint64_t berzhotun_from_start_of_str(const uint8_t *text, size_t text_len, uint64_t *words,
                                     size_t words_len, uint8_t *names, size_t names_len,
                                     uint64_t values[3]);

/*
 * Reads a whole method signature, as `v24@0:8@16`: a type, then a decimal number (its place in the
 * call's frame, or for the result the frame's size), in turn until the text ends. The list gets
 * three numbers for each type: where it begins, how many bytes it has, both with its leading bytes
 * among r n N o O R V, and its number.
 * So of `v24@0:8@16` the list is
 *
 *     0 1 24,  3 1 0,  5 1 8,  7 1 16,  and 0 three times
 *
 * The types' bytes are the caller's own text: each can be read as a whole text, or compared with a
 * tree by berzhotun_equivalent_to_str. Digits belong to the type as far as it takes them: of `b168`
 * all do, and no number follows. A number may have zeros in front.
 *
 * Reads   text[0 .. text_len].
 * Writes  values[0 .. 3]; and, unless it refuses by 1 or 2, the first
 *         BERZHOTUN_SIGNATURE_FOR(text_len) numbers of the list, all of them: those that the types
 *         do not fill become 0. What lies beyond is left as it was.
 * 0       values are the count of types, 1 or more, and 0 and 0.
 * Refuses 1 if text_len is above 2,000; else 2 if list_len is below
 *         BERZHOTUN_SIGNATURE_FOR(text_len): both leave the list as it was. Else 18 if text_len is
 *         0. In these three cases values are 0 0 0. Else 7 to 14, 16 or 17, for the first reason
 *         that reading from left to right meets: the list becomes 0 as far as above, and values are
 *         the place, the byte (refusals 8 and 9, otherwise 0) and the kind (refusals 13 and 14,
 *         otherwise 0).
 *
 * A digit where a type must begin, also behind a pointer, in an array or in a record, is refused by
 * 8, and of all bytes that 8 names it alone has its own place.
 */
uint64_t berzhotun_signature(const uint8_t *text, size_t text_len, uint64_t *list, size_t list_len,
                             uint64_t values[3]);

/*
 * Compares two trees by levels. Object, Block and Class are equivalent to each other, every other
 * kind to itself alone; bits, offsets, lengths and names must be equal. A struct or union without
 * fields is equivalent to any of its kind and name. This is not transitive.
 *
 * Reads   both sheets, a and b, as far as their first four words say.
 * Writes  answer[0].
 * 0       answer[0] is 1 for yes and 0 for no.
 * Refuses 3 if a is no sheet, then 3 if b is none, then 4 if a name of a, or one of b, is bad.
 *         answer[0] is then 0.
 */
uint64_t berzhotun_equivalent_to(const uint64_t *a_words, size_t a_words_len,
                                 const uint8_t *a_names, size_t a_names_len,
                                 const uint64_t *b_words, size_t b_words_len,
                                 const uint8_t *b_names, size_t b_names_len, uint64_t answer[1]);

/*
 * The same under the name that the crate has for a second tree that was read at run time. The
 * contract is that of berzhotun_equivalent_to.
 */
uint64_t berzhotun_equivalent_to_box(const uint64_t *a_words, size_t a_words_len,
                                     const uint8_t *a_names, size_t a_names_len,
                                     const uint64_t *b_words, size_t b_words_len,
                                     const uint8_t *b_names, size_t b_names_len,
                                     uint64_t answer[1]);

/*
 * Compares two trees with all fields: as berzhotun_equivalent_to, but that every node counts as
 * top, so that fields are compared behind any number of pointers and atomics too.
 */
uint64_t berzhotun_eq(const uint64_t *a_words, size_t a_words_len, const uint8_t *a_names,
                      size_t a_names_len, const uint64_t *b_words, size_t b_words_len,
                      const uint8_t *b_names, size_t b_names_len, uint64_t answer[1]);

/*
 * Measures the reason for a no: the first difference of two trees that are compared by levels. A
 * node is compared before its items, and these in order, from 0:
 *
 *     every node           its kind; Object, Block and Class do not differ, and a bitfield with a
 *                          type differs from one without
 *     bitfields            the size in bits; with a type, then the offset, then the type, item 0
 *     pointers, atomics    what they hold, item 0
 *     arrays               the length, then what they hold, item 0
 *     structs, unions      the name; then, if they are not at bottom and both have fields, the
 *                          count of fields, then the fields
 *
 * The reason is the item numbers from the root down, with dots between (none for the root itself),
 * a colon, one of the words kind, size, offset, length, name and count, then the value of a and that
 * of b. Each value is a space, its count of bytes, a colon and its bytes; a kind is its number, as
 * in a sheet, and all numbers are decimal. So the reason is
 *
 *     :kind 1:2 2:11       for `i` against `d`
 *     1.0:kind 2:17 1:2    for `{R=i^v}` against `{R=i^i}`
 *     :name 1:R 1:S        for `{R=i}` against `{S=i}`
 *     :length 1:3 2:12     for `[3c]` against `[12c]`
 *     :count 1:2 1:1       for `{R=ii}` against `{R=i}`
 *
 * Two different reasons never have the same bytes. A reason has at most BERZHOTUN_MAX_REASON.
 *
 * Reads   both sheets, a and b, as far as their first four words say.
 * Writes  answer[0 .. 2].
 * 0       answer is 1 and 0 for yes, which has no reason, and 0 and the reason's count of bytes for
 *         no. It is yes exactly when berzhotun_equivalent_to says yes.
 * Refuses 3 if a is no sheet, then 3 if b is none, then 4 if a name of a, or one of b, is bad.
 *         answer is then 0 0.
 */
uint64_t berzhotun_reason_len(const uint64_t *a_words, size_t a_words_len, const uint8_t *a_names,
                              size_t a_names_len, const uint64_t *b_words, size_t b_words_len,
                              const uint8_t *b_names, size_t b_names_len, uint64_t answer[2]);

/*
 * Writes the reason that berzhotun_reason_len measures. No zero byte is put behind it.
 *
 * Reads   both sheets, a and b, as far as their first four words say.
 * Writes  answer[0 .. 2]; and, for no, the first answer[1] bytes of out. What lies beyond is left
 *         as it was.
 * 0       answer is 1 and 0 for yes, whatever out_len is, and 0 and the reason's count of bytes for
 *         no.
 * Refuses 3 if a is no sheet, then 3 if b is none, then 4 if a name of a, or one of b, is bad, then
 *         5 if out_len is below the reason's count of bytes. answer is then 0 0 and out is left as
 *         it was.
 */
uint64_t berzhotun_reason(const uint64_t *a_words, size_t a_words_len, const uint8_t *a_names,
                          size_t a_names_len, const uint64_t *b_words, size_t b_words_len,
                          const uint8_t *b_names, size_t b_names_len, uint8_t *out, size_t out_len,
                          uint64_t answer[2]);

/*
 * The two for a comparison with all fields: as berzhotun_reason_len and berzhotun_reason, but that
 * every node counts as top, so that the first difference may stand behind any number of pointers
 * and atomics too. It is yes exactly when berzhotun_eq says yes. So `^^{R=i}` against `^^{R=d}` is
 * yes by levels, and here the reason is `0.0.0:kind 1:2 2:11`.
 */
uint64_t berzhotun_reason_all_len(const uint64_t *a_words, size_t a_words_len,
                                  const uint8_t *a_names, size_t a_names_len,
                                  const uint64_t *b_words, size_t b_words_len,
                                  const uint8_t *b_names, size_t b_names_len, uint64_t answer[2]);
uint64_t berzhotun_reason_all(const uint64_t *a_words, size_t a_words_len, const uint8_t *a_names,
                              size_t a_names_len, const uint64_t *b_words, size_t b_words_len,
                              const uint8_t *b_names, size_t b_names_len, uint8_t *out,
                              size_t out_len, uint64_t answer[2]);

/*
 * Compares a tree with a text by levels, without reading the text into a tree first. Leading bytes
 * among r n N o O R V are passed over. It is not the comparison with the text's tree: the tree of
 * `{R=i}` matches `{R=}` and not `{R}`, and that of `^^{R=i}` matches `^^{R}` and not `^^{R=i}`. An
 * Object matches also a class name in quotes, a Block does not.
 *
 * Reads   the sheet as far as its first four words say, and text[0 .. text_len].
 * Writes  answer[0].
 * 0       answer[0] is 1 for yes and 0 for no. A text that cannot be read is a no, or is matched by
 *         a tree that no text has; it is never refused.
 * Refuses 1 if text_len is above 2,000, then 3 if the lists are no sheet, then 4 if a name is bad.
 *         answer[0] is then 0.
 */
uint64_t berzhotun_equivalent_to_str(const uint64_t *words, size_t words_len, const uint8_t *names,
                                     size_t names_len, const uint8_t *text, size_t text_len,
                                     uint64_t answer[1]);

/*
 * Measures a tree in bytes, without padding, with the widths of the row that is named:
 *
 *     row                             long   unsigned   strings, objects, blocks,      long
 *                                            long       classes, selectors, pointers   double
 *     BERZHOTUN_ROW_APPLE_ARM64 (0)   8      8          8                              8
 *     BERZHOTUN_ROW_X86_64      (1)   8      8          8                              16
 *     BERZHOTUN_ROW_ARM32       (2)   4      4          4                              8
 *     BERZHOTUN_ROW_GUIDE       (3)   4      8          8                              8
 *
 * Rows 0 to 2 are those of machines. Row 3 is for a caller that follows Apple's guide, which states
 * 32 bits for `l` in 64-bit programs and nothing about `L`; in memory a long has the width that its
 * machine's row gives.
 *
 * In every row char and bool have 1; short 2; int and float 4; long long and double 8; a complex
 * number twice its part; a bitfield its bits rounded up to a power of two, at least 8, divided by 8, or
 * its type's size if that is larger; an atomic what it holds; an array its length times its item; a
 * struct the sum of its fields; a union the largest of those that have a size. Void, Unknown and
 * None have none; nor have an array or atomic of what has none, a struct with such a field, a union
 * without a member that has a size, and a container at bottom. A bitfield whose type has none takes
 * its bits alone.
 *
 * Reads   the sheet as far as its first four words say.
 * Writes  answer[0 .. 2].
 * 0       answer is 1 and the bytes, or 0 and 0 where the type has no size.
 * Refuses 3 if the lists are no sheet, then 4 if a name is bad, then 20 if row is above 3, then 6
 *         if the size is above 2^64 - 1, in row 2 above 2^32 - 1 (no size goes before too large,
 *         and 0 times too large is 0: only the whole tree's size must fit). answer is then 0 0.
 *
 * So `{R=i^v}` has 12 bytes in rows 0, 1 and 3, and 8 in row 2; `{R=lL}` has 16 in rows 0 and 1, 8
 * in row 2 and 12 in row 3; `[4294967296c]` has 4,294,967,296 in rows 0, 1 and 3, and is refused by
 * 6 in row 2, where `[0[4294967296c]]` has 0.
 */
uint64_t berzhotun_size(const uint64_t *words, size_t words_len, const uint8_t *names,
                        size_t names_len, uint64_t row, uint64_t answer[2]);

/*
 * Lays a tree out in memory, with padding, with the widths of the row that is named (see
 * berzhotun_size): where each field lies, and how many bytes and which alignment the whole has.
 *
 * A primitive's or pointer's alignment is its size in the row, a complex number's that of its part;
 * an array or atomic has that of what it holds. A struct's fields follow each other, each at the
 * next multiple of its alignment; a union's members all begin at 0. The alignment of a struct or
 * union is the largest of its fields', 1 for an empty struct, and its size is rounded up to it.
 * Laid out are the nodes that levels show and that are not behind a pointer, the root among them.
 *
 * The offsets are one number for each node of the sheet, in the order of its nodes: of a laid-out
 * field its offset from the start of its own struct or union, of every other node 0. So the root
 * has 0, and so have an array's item and all that is behind a pointer. BERZHOTUN_MAX_NODES numbers
 * are enough for every sheet.
 *
 * This is how clang lays out records without bitfields: row 0 for arm64 Macs, row 1 for x86_64 Macs,
 * row 2 for watchOS on armv7k. It does otherwise for iOS on armv7, where types of 8 bytes stand at
 * multiples of 4, and for atomic complex numbers of up to 16 bytes (armv7k: 8), which it aligns to
 * their whole size. What a text does not tell is not known: packed or further aligned records, and
 * fields that are vectors.
 *
 * Reads   the sheet as far as its first four words say.
 * Writes  answer[0 .. 3]; and, where answer[0] is 1, the first words[0] numbers of offsets. What
 *         lies beyond is left as it was.
 * 0       answer is 1, the padded size and the alignment; or 0 0 0, with offsets as they were, where
 *         a laid-out node has no size: void, Unknown, None, an empty union, a container at bottom,
 *         also as a member of a union or as the item of an array of length 0.
 * Refuses 3 if the lists are no sheet, then 4 if a name is bad, then 20 if row is above 3, then 2 if
 *         offsets_len is below the count of nodes, then 21 if a bitfield is laid out: answer is then
 *         the lowest number of such a node, 0 and 0. Then, if every laid-out node has a size, 6 if
 *         the padded size of the whole or any offset is above 2^64 - 1, in row 2 above 2^32 - 1 (0
 *         times too large is 0). Except by 21 answer is 0 0 0; offsets are left as they were.
 *
 * So of `{R=ci^v}` the offsets are 0 0 4 8 0, with size 16 and alignment 8; in row 2 the size is 12
 * and the alignment 4. `[2{R=ic}]` has 16 bytes, and its offsets are 0 0 0 4. `(U=vi)` has no layout,
 * though berzhotun_size has 4 bytes for it. `[0b3]` is refused by 21 with node 1, and `{R=^b3}` is
 * not: the bitfield is behind a pointer. `[0{R=[18446744073709551615q]i}]` is refused by 6, for the
 * offset of `i`; without that field it has 0 bytes.
 */
uint64_t berzhotun_layout(const uint64_t *words, size_t words_len, const uint8_t *names,
                          size_t names_len, uint64_t row, uint64_t *offsets, size_t offsets_len,
                          uint64_t answer[3]);

/*
 * Counts the bytes that berzhotun_static_encoding_str_array would write.
 *
 * Reads   the sheet as far as its first four words say.
 * Writes  answer[0].
 * 0       answer[0] is the printed length.
 * Refuses 3 if the lists are no sheet, then 4 if a name is bad. answer[0] is then 0.
 */
uint64_t berzhotun_static_encoding_str_len(const uint64_t *words, size_t words_len,
                                           const uint8_t *names, size_t names_len,
                                           uint64_t answer[1]);

/*
 * Prints a tree by levels: `{x}` is printed `{x=}`, and `^^{R=i}` is printed `^^{R}`. No zero byte
 * is put behind the text.
 *
 * Reads   the sheet as far as its first four words say.
 * Writes  answer[0]; and the first answer[0] bytes of out. What lies beyond is left as it was.
 * 0       answer[0] is the printed length.
 * Refuses 3 if the lists are no sheet, then 4 if a name is bad, then 5 if out_len is below the
 *         printed length. answer[0] is then 0 and out is left as it was.
 */
uint64_t berzhotun_static_encoding_str_array(const uint64_t *words, size_t words_len,
                                             const uint8_t *names, size_t names_len, uint8_t *out,
                                             size_t out_len, uint64_t answer[1]);

#ifdef __cplusplus
}
#endif

#endif
