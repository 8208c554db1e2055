/*
 * How the time for one DWARF body grows with its rows, 64 to 1,024. Every row has a rule that differs from the one last seen, of a register
 * without a name: it is looked up among 64, remembered and not written, so that the text stays within 8,192 bytes.
 */
#include <stdio.h>
#include <string.h>
#include <time.h>

#include "stacklines.h"

#define HEAD 11
#define ROW 13
#define MOST_ROWS 1024
#define CALLS 200

static uint32_t book[HEAD + MOST_ROWS * ROW];
static uint8_t work[8192], text[8192];

static size_t fill(uint32_t rows)
{
    const uint32_t head[HEAD] = {3, 1, 4, 7 + rows * ROW, 2, 0, 0, 0, 0, 16, rows};
    memcpy(book, head, sizeof head);
    for (uint32_t i = 0; i < rows; i++) {
        const uint32_t row[ROW] = {i, 0, i + 1, 0, 0, 7, 8, 0, 1, 1000 + i % 64, 1, i, 0};
        memcpy(book + HEAD + i * ROW, row, sizeof row);
    }
    return HEAD + rows * ROW;
}

static double seconds(void)
{
    struct timespec t;
    clock_gettime(CLOCK_PROCESS_CPUTIME_ID, &t);
    return (double)t.tv_sec + (double)t.tv_nsec / 1e9;
}

int main(void)
{
    int status = 0;
    for (uint32_t rows = 64; rows <= MOST_ROWS; rows *= 2) {
        size_t words = fill(rows);
        uint64_t counts[2] = {0, 0};
        uint32_t number = 0;
        double from = seconds();
        for (int i = 0; i < CALLS; i++)
            number |= stacklines_translate(book, words, 32, work, sizeof work, text, sizeof text, counts, 2);
        double each = (seconds() - from) / CALLS;
        printf("%4u rows, %5zu words: %8.1f us, %5.1f ns a word\n", rows, words, each * 1e6, each * 1e9 / (double)words);
        if (number != 0 || counts[0] != 1)
            status = 1;
    }
    return status;
}
