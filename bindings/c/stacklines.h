/*
 * STACK lines from unwind data, for C on x86-64 Linux. Link libstacklines.a; `make lib` prints where it is. Of other libraries it
 * needs memcpy and memset alone; it takes no heap and makes no system call. docs/BOOK.md of the repository says what a book is.
 */
#ifndef STACKLINES_H
#define STACKLINES_H

#include <stddef.h>
#include <stdint.h>

#ifdef __cplusplus
extern "C" {
#endif

/* The version of this header and of the archive that it belongs to. */
#define STACKLINES_VERSION_MAJOR 0
#define STACKLINES_VERSION_MINOR 4
#define STACKLINES_VERSION_PATCH 0
#define STACKLINES_VERSION "0.4.0"

/* The bytes that the work area needs. */
#define STACKLINES_WORK 8192

/* A text buffer of so many bytes holds the text of any book: 16,384 words, and less than 64 bytes for each. */
#define STACKLINES_LARGEST_TEXT 1048576

/* The highest chain limit: no limit. */
#define STACKLINES_NO_LIMIT 32

/* Room of so many words holds any decoded x64 body: 32 parts of 255 operations. A book with a body of more than 16,380 is refused 3. */
#define STACKLINES_LARGEST_X64_BODY 24580

/* Room of so many words holds any decoded ARM64 body: 1,024 operations. */
#define STACKLINES_LARGEST_ARM64_BODY 4099

/*
 * What the calls return. stacklines_translate returns 0 to 9; 1 to 3 are about the call, 4 to 9 about the entry behind those done.
 * stacklines_decode_x64 returns 0, 4, 9, 10 or 11, stacklines_decode_arm64 0, 4, 9 or 12; no other call returns 10 to 12.
 */
enum {
    STACKLINES_DONE = 0,            /* every entry is done; the body is decoded */
    STACKLINES_WORK_SHORT = 1,      /* the work area is shorter than STACKLINES_WORK */
    STACKLINES_LIMIT = 2,           /* the limit is above STACKLINES_NO_LIMIT */
    STACKLINES_CONTENTS = 3,        /* the book breaks the contents rules */
    STACKLINES_LAYOUT = 4,          /* the entry's body breaks its layout or a range; the bytes have no part, or too many parts or codes */
    STACKLINES_CHAIN = 5,           /* an x64 entry has more infos than the limit */
    STACKLINES_REACH = 6,           /* a number is out of reach */
    STACKLINES_FRAME = 7,           /* an x64 entry sets a frame register twice */
    STACKLINES_LONG = 8,            /* the entry's text is longer than 8,192 bytes */
    STACKLINES_ROOM = 9,            /* the text buffer's rest is shorter than the entry's text; the room is shorter than the body */
    STACKLINES_UNWIND_VERSION = 10, /* the version of a part is not 1 */
    STACKLINES_UNWIND_SHORT = 11,   /* the bytes end before the four header bytes or the counted slots of a part */
    STACKLINES_CODE_SHORT = 12      /* the bytes end inside a code */
};

/*
 * Of all calls: the lengths count elements, that is bytes, words of 32 bits or numbers of 64. What is written to overlaps nothing else
 * that is given. A pointer whose length is 0 is not used, but is not null. Calls share no state.
 */

/*
 * Translates a book of book_len words under a chain limit of 0 to 32, and returns one of the numbers 0 to 9.
 *
 * 1 to 3 change no byte of work and text. Otherwise the first 8,192 bytes of work are zero afterwards, and text starts with the lines of
 * the entries done; the rest of both is as it was. Where counts_len is at least 2, counts[0] becomes the number of entries done, skipped
 * ones included, and counts[1] the length of their text in bytes; no other element of counts is changed.
 */
uint32_t stacklines_translate(const uint32_t *book, size_t book_len, uint32_t limit,
                              uint8_t *work, size_t work_len, uint8_t *text, size_t text_len,
                              uint64_t *counts, size_t counts_len);

/*
 * Decodes the UNWIND_INFO of one x64 function of a PE image, version 1, into the words of an x64 body, which a book holds as an entry.
 * begin, end and info_address become the body's first three words. The bytes are the parts of the function's chain, its own first, one
 * right behind the other: of each the four header bytes and the counted slots, without the padding slot and what stands behind it.
 * Flags are not read.
 *
 * Returns 0, or the first of these that applies: for each part in turn 10, then 11; then 4 for no part or more than 32; then 9 where
 * body_len is too small. An operation that cannot be decoded is no refusal: it is kind 8, the last one of its part, and lets the entry
 * be skipped.
 *
 * After 0 body starts with the words of the body, and its rest is as it was; after a refusal all of it is. Where count_len is at least 1,
 * count[0] becomes the number of words filled, 0 after a refusal; no other element of count is changed.
 */
uint32_t stacklines_decode_x64(const uint8_t *bytes, size_t bytes_len, uint32_t begin, uint32_t end, uint32_t info_address,
                               uint32_t *body, size_t body_len, uint64_t *count, size_t count_len);

/*
 * Decodes the unwind codes of one ARM64 function of a PE image into the words of an ARM64 body, which a book holds as an entry. address
 * and size become the body's first two words. The bytes are the code bytes of the function's .xdata record. They may be given whole: what
 * stands behind the first end, as codes of epilogs and padding, is not read.
 *
 * The list of codes ends with an end, with a code that is reserved or of a custom stack, or where the bytes end. Returns 0, or the first
 * of these that applies: 12 where the bytes end inside a code of the list, a reserved one included; then 4 for more than 1,024 operations;
 * then 9 where body_len is too small. A code that is reserved or of a custom stack is no refusal: it is kind 10, and lets the entry be
 * skipped.
 *
 * body and count are filled, or left as they were, as by stacklines_decode_x64.
 */
uint32_t stacklines_decode_arm64(const uint8_t *bytes, size_t bytes_len, uint32_t address, uint32_t size,
                                 uint32_t *body, size_t body_len, uint64_t *count, size_t count_len);

#ifdef __cplusplus
}
#endif

#endif
