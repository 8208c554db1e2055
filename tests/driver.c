/*
 * Calls the port's archive as a program in C does, and checks every refusal, the returned counts, all that is lent to the byte, and that
 * nothing beside it is touched. The last line is 'N passed, M failed'.
 */
#include <stdarg.h>
#include <stdio.h>
#include <string.h>

#include "stacklines.h"

#define GUARD 64
#define MOST_WORDS 24600
#define MOST_BYTES 20000
#define FILL 0x5c
#define FENCE 0xa5

static int passed, failed;

static void check(const char *name, const char *what, int ok)
{
    if (ok) {
        passed++;
    } else {
        failed++;
        printf("FAILED: %s: %s\n", name, what);
    }
}

/* ---- books */

struct book {
    uint32_t words[MOST_WORDS];
    size_t len;
};

static void put(struct book *b, int n, ...)
{
    va_list words;
    va_start(words, n);
    for (int i = 0; i < n; i++)
        b->words[b->len++] = va_arg(words, unsigned);
    va_end(words);
}

/* A book of n bodies with room for its contents; each body is put, then ended. */
static void start(struct book *b, uint32_t kind, uint32_t n)
{
    memset(b, 0, sizeof *b);
    put(b, 2, kind, n);
    b->len += 2 * n;
}

static void end(struct book *b, uint32_t i, size_t from)
{
    b->words[2 + 2 * i] = (uint32_t)from;
    b->words[3 + 2 * i] = (uint32_t)(b->len - from);
}

/* Push $rbx, allocate 32, from 1000h to 1040h: specimens/first.book. */
#define FIRST 13, 4096, 4160, 20480, 1, 0, 0, 2, 2, 0, 32, 1, 3, 0
#define FIRST_LINE "STACK CFI INIT 1000 40 .cfa: $rsp 48 + $rbx: .cfa 16 - ^ .ra: .cfa 8 - ^\n"

/* Entries that are refused by 4, 5 (limit 1), 6 and 7. */
#define REGISTER_16 10, 1, 2, 0, 1, 0, 0, 1, 1, 16, 0
#define TWO_INFOS 10, 1, 2, 0, 2, 0, 0, 0, 0, 0, 0
#define TOO_MUCH 10, 1, 2, 0, 1, 0, 0, 1, 2, 0, 0x7ffffff8u
#define SET_TWICE 13, 1, 2, 0, 1, 5, 0, 2, 5, 0, 0, 5, 0, 0
#define ALL_ZERO 7, 0, 0, 0, 1, 0, 0, 0

#define ONE(b, ...) (start(b, 1, 1), put(b, __VA_ARGS__), end(b, 0, 4))
#define BOTH(b, ...) (start(b, 1, 2), put(b, FIRST), end(b, 0, 6), put(b, __VA_ARGS__), end(b, 1, 19))

/*
 * A book of one entry with n pushes in infos of at most 255, the first `shorter` of $r8 and the others of $rbx, and its line.
 * The last push is stored first: infos are run last to first, and the operations of each backwards.
 */
static size_t pushes(struct book *b, char *line, int n, int shorter)
{
    int infos = (n + 254) / 255;
    size_t at = (size_t)sprintf(line, "STACK CFI INIT 1000 40 .cfa: $rsp %d +", 8 + 8 * n);
    start(b, 1, 1);
    put(b, 4, 4096, 4160, 0, infos);
    for (int i = 255 * (infos - 1); i >= 0; i -= 255) {
        int k = n - i < 255 ? n - i : 255;
        put(b, 3, 0, 0, k);
        for (int j = i + k - 1; j >= i; j--)
            put(b, 3, 1, j < shorter ? 8 : 3, 0);
    }
    for (int j = 0; j < n; j++)
        at += (size_t)sprintf(line + at, " %s: .cfa %d - ^", j < shorter ? "$r8" : "$rbx", 16 + 8 * j);
    at += (size_t)sprintf(line + at, " .ra: .cfa 8 - ^\n");
    end(b, 0, 4);
    return at;
}

/* ---- calls */

/* A buffer between two fences. */
struct fenced {
    uint8_t all[MOST_BYTES + 2 * GUARD];
    size_t len;
};

static uint8_t *inside(struct fenced *f, size_t len)
{
    memset(f->all, FENCE, sizeof f->all);
    memset(f->all + GUARD, FILL, len);
    f->len = len;
    return f->all + GUARD;
}

static int every(const uint8_t *p, size_t n, uint8_t byte)
{
    for (size_t i = 0; i < n; i++)
        if (p[i] != byte)
            return 0;
    return 1;
}

static int fences(const struct fenced *f)
{
    size_t behind = GUARD + f->len;
    return every(f->all, GUARD, FENCE) && every(f->all + behind, sizeof f->all - behind, FENCE);
}

struct lengths {
    size_t work, text, counts;
};

/* One call, held to its number, its entries and its text. */
static void expect(const char *name, const struct book *b, uint32_t limit, struct lengths n, uint32_t number, uint64_t entries, const char *text)
{
    static struct fenced work, lines;
    static struct book before;
    uint64_t counts[8];
    size_t length = strlen(text);
    uint8_t *w = inside(&work, n.work), *t = inside(&lines, n.text);
    memcpy(&before, b, sizeof before);
    memset(counts, FENCE, sizeof counts);
    uint32_t got = stacklines_translate(b->words, b->len, limit, w, n.work, t, n.text, counts + 2, n.counts);
    check(name, "number", got == number);
    if (n.counts >= 2) {
        check(name, "entries", counts[2] == entries);
        check(name, "length", counts[3] == length);
        check(name, "other counts", every((uint8_t *)counts, 16, FENCE) && every((uint8_t *)(counts + 4), 32, FENCE));
    } else {
        check(name, "counts unchanged", every((uint8_t *)counts, sizeof counts, FENCE));
    }
    check(name, "text", length <= n.text && memcmp(t, text, length) == 0);
    check(name, "rest of the text buffer", length <= n.text && every(t + length, n.text - length, FILL));
    if (number >= 1 && number <= 3) {
        check(name, "work area unchanged", every(w, n.work, FILL));
    } else {
        check(name, "work area zero", every(w, STACKLINES_WORK, 0));
        check(name, "rest of the work area", every(w + STACKLINES_WORK, n.work - STACKLINES_WORK, FILL));
    }
    check(name, "beside the buffers", fences(&work) && fences(&lines));
    check(name, "book", memcmp(&before, b, sizeof before) == 0);
}

static struct lengths with(size_t work, size_t text, size_t counts)
{
    struct lengths n = {work, text, counts};
    return n;
}

/* ---- unwind bytes */

#define BESIDE 8
#define MOST_PARTS 34
#define LARGEST_PART (4 + 2 * 255)

struct parts {
    uint8_t bytes[MOST_PARTS * LARGEST_PART];
    size_t len;
};

static void add(struct parts *p, int n, ...)
{
    va_list bytes;
    va_start(bytes, n);
    for (int i = 0; i < n; i++)
        p->bytes[p->len++] = (uint8_t)va_arg(bytes, int);
    va_end(bytes);
}

#define PARTS(p, ...) ((p)->len = 0, add(p, __VA_ARGS__))
#define ADDRESSES 4096, 4160, 20480
#define FUNCTION 4096, 156

/* A call of one of the two decoders, with the addresses above. */
typedef uint32_t decoder(const struct parts *p, uint32_t *body, size_t room, uint64_t *count, size_t places);

static uint32_t x64(const struct parts *p, uint32_t *body, size_t room, uint64_t *count, size_t places)
{
    return stacklines_decode_x64(p->bytes, p->len, ADDRESSES, body, room, count, places);
}

static uint32_t arm64(const struct parts *p, uint32_t *body, size_t room, uint64_t *count, size_t places)
{
    return stacklines_decode_arm64(p->bytes, p->len, FUNCTION, body, room, count, places);
}

/* One call, held to its number and its words. Room and count have other words around them, which stay as they are. */
static void decodes(decoder *decode, const char *name, const struct parts *p, size_t room, size_t places, uint32_t number, const struct book *due)
{
    static uint32_t body[STACKLINES_LARGEST_X64_BODY + 3 * BESIDE];
    static struct parts before;
    uint32_t *b = body + BESIDE;
    uint64_t count[4];
    size_t words = number == STACKLINES_DONE ? due->len : 0;
    memcpy(&before, p, sizeof before);
    memset(body, FENCE, sizeof body);
    memset(count, FENCE, sizeof count);
    uint32_t got = decode(p, b, room, count + 1, places);
    check(name, "number", got == number);
    if (places >= 1)
        check(name, "count", count[1] == words);
    check(name, "other counts", every((uint8_t *)count, 8, FENCE) && every((uint8_t *)(count + 1 + (places >= 1)), 16, FENCE));
    check(name, "words", memcmp(b, due->words, 4 * words) == 0);
    check(name, "rest of the room", every((uint8_t *)(b + words), sizeof body - 4 * (BESIDE + words), FENCE));
    check(name, "before the room", every((uint8_t *)body, 4 * BESIDE, FENCE));
    check(name, "bytes", memcmp(&before, p, sizeof before) == 0);
}

/* Refused whatever the room is: 9 comes last. */
static void refuses(decoder *decode, const char *name, const struct parts *p, uint32_t number)
{
    static const struct book none;
    decodes(decode, name, p, STACKLINES_LARGEST_X64_BODY, 1, number, &none);
    decodes(decode, name, p, 0, 1, number, &none);
}

/* A body of n words is due for the bytes, in a room of just as many. */
#define DECODES(decode, name, p, ...) (due.len = 0, put(&due, __VA_ARGS__), decodes(decode, name, p, due.len, 1, STACKLINES_DONE, &due))

static struct book due;

/* The bytes of specimens/first.book: push rbx; sub rsp, 20h. */
#define FIRST_BYTES 1, 5, 2, 0, 5, 0x32, 1, 0x30

/* 20 slots with every code. Of a part with frame register 0 saves are kind 3, else kind 4. */
#define PUSH_AND_ALLOCATE 0, 0xf0, 0, 0x01, 0xff, 0xff, 0, 0x11, 0x78, 0x56, 0x34, 0xf2, 0, 0xf2
#define SET_AND_SAVE 0, 0xf3, 0, 0x64, 3, 1, 0, 0x75, 4, 3, 2, 1
#define XMM_AND_MACHINE 0, 0x68, 1, 0, 0, 0x69, 1, 0, 0, 0, 0, 0x0a, 0, 0x1a
#define SLOTS PUSH_AND_ALLOCATE, SET_AND_SAVE, XMM_AND_MACHINE
#define OPERATIONS(save) 1, 15, 0, 2, 0, 0x7fff8, 2, 0, 0xf2345678u, 2, 0, 128, 5, 0, 0, \
    save, 6, 2072, save, 7, 0x01020304, 7, 0, 0, 7, 0, 0, 6, 0, 0, 6, 0, 1

static void codes(void)
{
    static struct parts p;
    PARTS(&p, 44, 1, 0, 20, 0x20, SLOTS);
    DECODES(x64, "every code", &p, 40, ADDRESSES, 1, 0, 32, 11, OPERATIONS(3));
    PARTS(&p, 44, 1, 0, 20, 0xfd, SLOTS);
    DECODES(x64, "with a frame register", &p, 40, ADDRESSES, 1, 13, 240, 11, OPERATIONS(4));
    PARTS(&p, 4, 0xf9, 0xff, 0, 0);
    DECODES(x64, "flags, no slots", &p, 7, ADDRESSES, 1, 0, 0, 0);
}

/* A code, an info or slots that there are not: kind 8 ends the part, and the next one stands where it would. Behind it are slots for any code. */
static void undecodable(void)
{
    static const uint8_t bad[] = {0x06, 0x07, 0x0b, 0x0c, 0x0d, 0x0e, 0x0f, 0x21, 0xf1, 0x2a, 0xfa};
    static const uint8_t past[] = {0x01, 0x11, 0x04, 0x05, 0x08, 0x09};
    static struct parts p;
    for (size_t i = 0; i < sizeof bad; i++) {
        PARTS(&p, 16, 1, 0, 4, 0, 0, 0x30, 0, bad[i], 0, 0x30, 0, 0x30, 1, 0, 0, 0);
        DECODES(x64, "undecodable", &p, 16, ADDRESSES, 2, 0, 0, 2, 1, 3, 0, 8, 0, 0, 0, 0, 0);
    }
    for (size_t i = 0; i < sizeof past; i++) {
        PARTS(&p, 12, 1, 0, 2, 0, 0, 0x30, 0, past[i], 1, 0, 0, 0);
        DECODES(x64, "slots past the count", &p, 16, ADDRESSES, 2, 0, 0, 2, 1, 3, 0, 8, 0, 0, 0, 0, 0);
    }
}

/* n parts of k pushes of $rbx, and the body that is due. */
static void many(struct parts *p, int n, int k)
{
    p->len = due.len = 0;
    put(&due, 4, ADDRESSES, n);
    for (int i = 0; i < n; i++) {
        add(p, 4, 1, 0, k, 0);
        put(&due, 3, 0, 0, k);
        for (int j = 0; j < k; j++) {
            add(p, 2, 0, 0x30);
            put(&due, 3, 1, 3, 0);
        }
    }
}

static void numbers_of_parts(void)
{
    static struct parts p;
    many(&p, 32, 0);
    decodes(x64, "32 parts", &p, 200, 1, 0, &due);
    many(&p, 33, 0);
    refuses(x64, "4: 33 parts", &p, 4);
    add(&p, 1, 0);
    refuses(x64, "10 before 4", &p, 10);
    many(&p, 33, 0);
    add(&p, 1, 1);
    refuses(x64, "11 before 4", &p, 11);
    p.len = 0;
    refuses(x64, "4: no bytes", &p, 4);
    many(&p, 32, 255);
    decodes(x64, "largest body", &p, STACKLINES_LARGEST_X64_BODY, 1, 0, &due);
    check("largest body", "its words", due.len == STACKLINES_LARGEST_X64_BODY);
    decodes(x64, "9: one word short of it", &p, STACKLINES_LARGEST_X64_BODY - 1, 1, 9, &due);
}

static void broken_parts(void)
{
    static const uint8_t versions[] = {0, 2, 3, 7, 0xf8};
    static struct parts p;
    for (size_t i = 0; i < sizeof versions; i++) {
        PARTS(&p, 8, FIRST_BYTES);
        p.bytes[0] = versions[i];
        refuses(x64, "10: version", &p, 10);
        p.len = 1;
        refuses(x64, "10: one byte", &p, 10);
        PARTS(&p, 9, FIRST_BYTES, versions[i]);
        refuses(x64, "10: second part", &p, 10);
    }
    for (size_t len = 1; len < 8; len++) {
        PARTS(&p, 8, FIRST_BYTES);
        p.len = len;
        refuses(x64, "11: cut", &p, 11);
        PARTS(&p, 16, FIRST_BYTES, FIRST_BYTES);
        p.len = 8 + len;
        refuses(x64, "11: second part cut", &p, 11);
    }
}

/* The specimen's bytes, in every room about the 13 words that they need. */
static void rooms(void)
{
    static struct parts p;
    PARTS(&p, 8, FIRST_BYTES);
    DECODES(x64, "first specimen", &p, FIRST);
    for (size_t room = 0; room < 16; room++)
        for (size_t places = 0; places < 3; places++)
            decodes(x64, "rooms", &p, room, places, room < 13 ? 9 : 0, &due);
}

/* From bytes to a line: the body is decoded into its place in the book. */
static void bytes_to_line(void)
{
    static struct parts p;
    static struct book b;
    uint64_t count = 0;
    PARTS(&p, 8, FIRST_BYTES);
    start(&b, 1, 1);
    check("bytes to a line", "number", x64(&p, b.words + 4, MOST_WORDS - 4, &count, 1) == 0);
    b.len += (size_t)count;
    end(&b, 0, 4);
    expect("bytes to a line", &b, 32, with(STACKLINES_WORK, 1000, 2), 0, 1, FIRST_LINE);
}

static void decoding(void)
{
    codes();
    undecodable();
    numbers_of_parts();
    broken_parts();
    rooms();
    bytes_to_line();
}

/* ---- ARM64 codes */

struct code {
    uint8_t len, bytes[5];
    uint32_t words[4];
};

#define WORDS(w) (w)[0], (w)[1], (w)[2], (w)[3]
#define OTHER {8, 0, 0, 0}
#define END {9, 0, 0, 0}
#define UNDECODABLE {10, 0, 0, 0}

/* Every code behind which the list goes on, with the least and the largest fields. */
static const struct code going_on[] = {
    /* alloc_s, save_r19r20_x, save_fplr, save_fplr_x, alloc_m */
    {1, {0x00}, {1, 0, 0, 0}}, {1, {0x1f}, {1, 0, 0, 496}}, {1, {0x20}, {5, 0, 19, 0}}, {1, {0x3f}, {5, 0, 19, 248}},
    {1, {0x40}, {4, 0, 29, 0}}, {1, {0x7f}, {4, 0, 29, 504}}, {1, {0x80}, {5, 0, 29, 8}}, {1, {0xbf}, {5, 0, 29, 512}},
    {2, {0xc0, 0x00}, {1, 0, 0, 0}}, {2, {0xc1, 0x02}, {1, 0, 0, 4128}}, {2, {0xc7, 0xff}, {1, 0, 0, 32752}},
    /* save_regp, save_regp_x, save_reg, save_reg_x, save_lrpair */
    {2, {0xc8, 0x00}, {4, 0, 19, 0}}, {2, {0xc9, 0x41}, {4, 0, 24, 8}}, {2, {0xcb, 0xff}, {4, 0, 34, 504}},
    {2, {0xcc, 0x00}, {5, 0, 19, 8}}, {2, {0xcd, 0x41}, {5, 0, 24, 16}}, {2, {0xcf, 0xff}, {5, 0, 34, 512}},
    {2, {0xd0, 0x00}, {2, 0, 19, 0}}, {2, {0xd1, 0x41}, {2, 0, 24, 8}}, {2, {0xd3, 0xff}, {2, 0, 34, 504}},
    {2, {0xd4, 0x00}, {3, 0, 19, 8}}, {2, {0xd5, 0x21}, {3, 0, 28, 16}}, {2, {0xd5, 0xff}, {3, 0, 34, 256}},
    {2, {0xd6, 0x00}, {6, 0, 19, 0}}, {2, {0xd7, 0x41}, {6, 0, 29, 8}}, {2, {0xd7, 0xff}, {6, 0, 33, 504}},
    /* save_fregp, save_fregp_x, save_freg, save_freg_x */
    {2, {0xd8, 0x00}, {4, 1, 8, 0}}, {2, {0xd9, 0x41}, {4, 1, 13, 8}}, {2, {0xd9, 0xff}, {4, 1, 15, 504}},
    {2, {0xda, 0x00}, {5, 1, 8, 8}}, {2, {0xdb, 0x41}, {5, 1, 13, 16}}, {2, {0xdb, 0xff}, {5, 1, 15, 512}},
    {2, {0xdc, 0x00}, {2, 1, 8, 0}}, {2, {0xdd, 0x41}, {2, 1, 13, 8}}, {2, {0xdd, 0xff}, {2, 1, 15, 504}},
    {2, {0xde, 0x00}, {3, 1, 8, 8}}, {2, {0xde, 0x21}, {3, 1, 9, 16}}, {2, {0xde, 0xff}, {3, 1, 15, 256}},
    /* alloc_z, alloc_l, set_fp, add_fp, nop, save_next, pac_sign_lr */
    {2, {0xdf, 0xff}, OTHER}, {4, {0xe0, 0x01, 0x02, 0x03}, {1, 0, 0, 0x102030}}, {4, {0xe0, 0xff, 0xff, 0xff}, {1, 0, 0, 0xffffff0}},
    {1, {0xe1}, OTHER}, {2, {0xe2, 0xff}, OTHER}, {1, {0xe3}, OTHER}, {1, {0xe6}, {7, 0, 0, 0}}, {1, {0xfc}, OTHER},
    /* save_any_reg: single, single pre-indexed, pair, pair pre-indexed; of x, d and q */
    {3, {0xe7, 0x00, 0x00}, {2, 0, 0, 0}}, {3, {0xe7, 0x1f, 0x3f}, {2, 0, 31, 504}}, {3, {0xe7, 0x21, 0x02}, {3, 0, 1, 48}},
    {3, {0xe7, 0x41, 0x02}, {4, 0, 1, 32}}, {3, {0xe7, 0x7f, 0x3f}, {5, 0, 31, 1024}}, {3, {0xe7, 0x08, 0x43}, {2, 1, 8, 24}},
    {3, {0xe7, 0x28, 0x43}, {3, 1, 8, 64}}, {3, {0xe7, 0x48, 0x43}, {4, 1, 8, 48}}, {3, {0xe7, 0x68, 0x43}, {5, 1, 8, 64}},
    {3, {0xe7, 0x0a, 0x83}, {2, 2, 10, 48}}, {3, {0xe7, 0x2a, 0x83}, {3, 2, 10, 64}}, {3, {0xe7, 0x4a, 0x83}, {4, 2, 10, 48}},
    {3, {0xe7, 0x6a, 0x80}, {5, 2, 10, 16}},
    /* save_zreg, save_preg of P4 to P15 */
    {3, {0xe7, 0x00, 0xc0}, OTHER}, {3, {0xe7, 0x6f, 0xff}, OTHER}, {3, {0xe7, 0x14, 0xc0}, OTHER}, {3, {0xe7, 0x7f, 0xff}, OTHER},
};

/* Every code that ends the list: the ends, custom stacks, and what is reserved. */
static const struct code ending[] = {
    {1, {0xe4}, END}, {1, {0xe5}, END}, {1, {0xe8}, UNDECODABLE}, {1, {0xe9}, UNDECODABLE}, {1, {0xea}, UNDECODABLE}, {1, {0xeb}, UNDECODABLE},
    {1, {0xec}, UNDECODABLE}, {1, {0xed}, UNDECODABLE}, {1, {0xee}, UNDECODABLE}, {1, {0xef}, UNDECODABLE}, {1, {0xf0}, UNDECODABLE},
    {1, {0xf1}, UNDECODABLE}, {1, {0xf2}, UNDECODABLE}, {1, {0xf3}, UNDECODABLE}, {1, {0xf4}, UNDECODABLE}, {1, {0xf5}, UNDECODABLE},
    {1, {0xf6}, UNDECODABLE}, {1, {0xf7}, UNDECODABLE}, {1, {0xfd}, UNDECODABLE}, {1, {0xfe}, UNDECODABLE}, {1, {0xff}, UNDECODABLE},
    {2, {0xf8}, UNDECODABLE}, {3, {0xf9}, UNDECODABLE}, {4, {0xfa}, UNDECODABLE}, {5, {0xfb}, UNDECODABLE},
    {3, {0xe7, 0x80, 0x00}, UNDECODABLE}, {3, {0xe7, 0xff, 0xff}, UNDECODABLE},
    {3, {0xe7, 0x10, 0xc0}, UNDECODABLE}, {3, {0xe7, 0x73, 0xff}, UNDECODABLE},
};

#define EACH(codes) (size_t i = 0; i < sizeof codes / sizeof *codes; i++)

static void add_code(struct parts *p, const struct code *c)
{
    memcpy(p->bytes + p->len, c->bytes, c->len);
    p->len += c->len;
}

/* Each by itself and before an end; all of them one behind the other. */
static void arm64_codes(void)
{
    static struct parts p;
    static struct parts all;
    static struct book body;
    all.len = body.len = 0;
    put(&body, 3, FUNCTION, sizeof going_on / sizeof *going_on);
    for EACH (going_on) {
        const struct code *c = &going_on[i];
        p.len = 0;
        add_code(&p, c);
        DECODES(arm64, "a code", &p, 7, FUNCTION, 1, WORDS(c->words));
        add(&p, 2, 0xe4, 0xe7);
        DECODES(arm64, "a code and end", &p, 11, FUNCTION, 2, WORDS(c->words), 9, 0, 0, 0);
        add_code(&all, c);
        put(&body, 4, WORDS(c->words));
    }
    decodes(arm64, "every ARM64 code", &all, body.len, 1, 0, &body);
    p.len = 0;
    DECODES(arm64, "no codes", &p, 3, FUNCTION, 0);
}

/* Nothing behind them is read, not even a code that is cut. */
static void arm64_ends(void)
{
    static struct parts p;
    for EACH (ending) {
        const struct code *c = &ending[i];
        PARTS(&p, 1, 0x04);
        add_code(&p, c);
        add(&p, 2, 0x04, 0xe0);
        DECODES(arm64, "an ending code", &p, 11, FUNCTION, 2, 1, 0, 0, 64, WORDS(c->words));
    }
}

/* Cut at each of its bytes, by itself and behind another code. */
static void arm64_cut(const struct code *codes, size_t n)
{
    static struct parts p;
    for (size_t i = 0; i < n; i++) {
        for (size_t len = 1; len < codes[i].len; len++) {
            p.len = 0;
            add_code(&p, &codes[i]);
            p.len = len;
            refuses(arm64, "12: cut", &p, 12);
            PARTS(&p, 1, 0xe3);
            add_code(&p, &codes[i]);
            p.len = 1 + len;
            refuses(arm64, "12: second code cut", &p, 12);
        }
    }
}

/* n allocations of 64, and the body that is due. */
static void allocations(struct parts *p, int n)
{
    p->len = due.len = 0;
    put(&due, 3, FUNCTION, n);
    for (int i = 0; i < n; i++) {
        add(p, 1, 0x04);
        put(&due, 4, 1, 0, 0, 64);
    }
}

static void arm64_numbers(void)
{
    static struct parts p;
    allocations(&p, 1024);
    decodes(arm64, "1,024 operations", &p, STACKLINES_LARGEST_ARM64_BODY, 1, 0, &due);
    check("1,024 operations", "their words", due.len == STACKLINES_LARGEST_ARM64_BODY);
    decodes(arm64, "9: one word short", &p, STACKLINES_LARGEST_ARM64_BODY - 1, 1, 9, &due);
    add(&p, 1, 0xe4);
    refuses(arm64, "4: an end too many", &p, 4);
    add(&p, 1, 0xe0);
    refuses(arm64, "4: nothing behind the end is read", &p, 4);
    allocations(&p, 1024);
    add(&p, 1, 0xf8);
    refuses(arm64, "12 before 4", &p, 12);
    allocations(&p, 3000);
    refuses(arm64, "4: 3,000 operations", &p, 4);
    add(&p, 2, 0xe7, 0);
    refuses(arm64, "12 far behind", &p, 12);
    allocations(&p, 1023);
    add(&p, 2, 0xe5, 0x04);
    put(&due, 4, 9, 0, 0, 0);
    due.words[2] = 1024;
    decodes(arm64, "1,023 operations and an end", &p, STACKLINES_LARGEST_ARM64_BODY, 1, 0, &due);
}

/* The first function of specimens/arm64.txt, its epilog's codes behind the end, and its lines. */
#define CODES 0x04, 0xd0, 0x84, 0xc8, 0x02, 0xe1, 0x85, 0xe4, 0xd0, 0x84, 0xe4, 0xe3
#define CODES_BODY 27, FUNCTION, 6, 1, 0, 0, 64, 2, 0, 21, 32, 4, 0, 19, 16, 8, 0, 0, 0, 5, 0, 29, 48, 9, 0, 0, 0
#define CODES_LINES \
    "STACK CFI INIT 1000 9c .cfa: .sp 48 + .x29: .cfa -48 + ^ .x30: .cfa -40 + ^ .ra: .cfa -40 + ^\n" \
    "STACK CFI      1004 .cfa: .sp 48 +\n" \
    "STACK CFI      1008 .x19: .cfa -32 + ^ .x20: .cfa -24 + ^\n" \
    "STACK CFI      100c .x21: .cfa -16 + ^\n" \
    "STACK CFI      1010 .cfa: .sp 112 +\n"

static void arm64_rooms(void)
{
    static struct parts p;
    PARTS(&p, 12, CODES);
    DECODES(arm64, "ARM64 specimen", &p, CODES_BODY);
    for (size_t room = 0; room < 30; room++)
        for (size_t places = 0; places < 3; places++)
            decodes(arm64, "ARM64 rooms", &p, room, places, room < 27 ? 9 : 0, &due);
}

static void codes_to_lines(void)
{
    static struct parts p;
    static struct book b;
    uint64_t count = 0;
    PARTS(&p, 12, CODES);
    start(&b, 2, 1);
    check("codes to lines", "number", arm64(&p, b.words + 4, MOST_WORDS - 4, &count, 1) == 0);
    b.len += (size_t)count;
    end(&b, 0, 4);
    expect("codes to lines", &b, 32, with(STACKLINES_WORK, 1000, 2), 0, 1, CODES_LINES);
}

static void arm64_decoding(void)
{
    arm64_codes();
    arm64_ends();
    arm64_cut(going_on, sizeof going_on / sizeof *going_on);
    arm64_cut(ending, sizeof ending / sizeof *ending);
    arm64_numbers();
    arm64_rooms();
    codes_to_lines();
}

int main(void)
{
    static struct book b;
    static char line[MOST_BYTES];
    struct lengths usual = with(STACKLINES_WORK, 1000, 2);

    start(&b, 1, 0);
    expect("no bodies", &b, 32, usual, 0, 0, "");
    expect("no bodies, no text buffer", &b, 0, with(9000, 0, 2), 0, 0, "");
    ONE(&b, FIRST);
    expect("first specimen", &b, 32, usual, 0, 1, FIRST_LINE);
    for (size_t n = 0; n <= 3; n++)
        expect("counts", &b, 1, with(8193, 200, n), 0, 1, FIRST_LINE);
    ONE(&b, ALL_ZERO);
    expect("skipped", &b, 0, usual, 0, 1, "");
    BOTH(&b, ALL_ZERO);
    expect("line and skipped", &b, 32, usual, 0, 2, FIRST_LINE);
    BOTH(&b, FIRST);
    expect("two lines", &b, 32, usual, 0, 2, FIRST_LINE FIRST_LINE);

    ONE(&b, FIRST);
    expect("1: one byte short", &b, 32, with(8191, 1000, 2), 1, 0, "");
    expect("1: no work area", &b, 32, with(0, 1000, 3), 1, 0, "");
    expect("1 before 2", &b, 33, with(8191, 1000, 2), 1, 0, "");
    expect("2: limit 33", &b, 33, usual, 2, 0, "");
    expect("2: largest limit", &b, UINT32_MAX, usual, 2, 0, "");
    for (uint32_t kind = 0; kind <= 5; kind += 5) {
        b.words[0] = kind;
        expect("3: kind", &b, 32, usual, 3, 0, "");
    }
    expect("2 before 3", &b, 33, usual, 2, 0, "");
    ONE(&b, FIRST);
    b.len--;
    expect("3: too short", &b, 32, usual, 3, 0, "");
    b.len += 2;
    expect("3: too long", &b, 32, usual, 3, 0, "");
    b.len = 0;
    expect("3: empty", &b, 32, usual, 3, 0, "");
    start(&b, 1, 1025);
    expect("3: count 1025", &b, 32, usual, 3, 0, "");
    start(&b, 1, 1);
    b.len = 16385;
    end(&b, 0, 4);
    expect("3: 16,385 words", &b, 32, usual, 3, 0, "");
    BOTH(&b, FIRST);
    b.words[4]++;
    expect("3: gap", &b, 32, usual, 3, 0, "");

    BOTH(&b, REGISTER_16);
    expect("4: register 16", &b, 32, usual, 4, 1, FIRST_LINE);
    start(&b, 1, 1);
    end(&b, 0, 4);
    expect("4: empty body", &b, 32, usual, 4, 0, "");
    BOTH(&b, TWO_INFOS);
    expect("5: two infos at limit 1", &b, 1, usual, 5, 1, FIRST_LINE);
    BOTH(&b, TOO_MUCH);
    expect("6: total 80000000h", &b, 32, usual, 6, 1, FIRST_LINE);
    BOTH(&b, SET_TWICE);
    expect("7: set twice", &b, 32, usual, 7, 1, FIRST_LINE);

    int n = 1, shorter;
    while (pushes(&b, line, n, 0) < 8193)
        n++;
    shorter = (int)pushes(&b, line, n, 0) - 8193;
    pushes(&b, line, n, shorter);
    expect("8: 8,193 bytes", &b, 32, with(8192, 9000, 2), 8, 0, "");
    expect("8 before 9", &b, 32, with(8192, 0, 2), 8, 0, "");
    pushes(&b, line, n, shorter + 1);
    expect("8,192 bytes", &b, 32, with(8192, 8192, 2), 0, 1, line);
    expect("9: 8,191 bytes of room", &b, 32, with(8192, 8191, 2), 9, 0, "");

    BOTH(&b, FIRST);
    expect("9: one byte short", &b, 32, with(8192, 2 * sizeof FIRST_LINE - 3, 2), 9, 1, FIRST_LINE);
    expect("just enough", &b, 32, with(8192, 2 * sizeof FIRST_LINE - 2, 2), 0, 2, FIRST_LINE FIRST_LINE);
    expect("9: no text buffer", &b, 32, with(8500, 0, 2), 9, 0, "");

    decoding();
    arm64_decoding();

    printf("%d passed, %d failed\n", passed, failed);
    return failed != 0;
}
