// What the programs share that call a check of the library with sheets from standard input, and print a line with what each call answers.
// A sheet comes behind the count of its cells: 4 bytes, and 8 for each cell, low byte first.
#ifndef CHECKS_SHEETS_H
#define CHECKS_SHEETS_H

#include <inttypes.h>
#include <stdio.h>
#include <stdlib.h>
#include <string.h>

// the cells of the longest answer, and the cells before and behind an answer
#define MOST_ANSWER 3
#define BESIDE 4
#define UNTOLD UINT64_C(0xA5A5A5A5A5A5A5A5)

// A sheet, and a copy of it to be compared with afterwards.
typedef struct {
    int64_t *cells, *copy;
    size_t count;
} Sheet;

// An answer of any length, between cells that no call may change.
typedef struct {
    uint64_t cells[BESIDE + MOST_ANSWER + BESIDE];
} Lent;

static void *room_for(size_t cells) {
    // one cell more, so that a sheet without cells has an address too
    void *room = malloc((cells + 1) * sizeof(int64_t));
    if (!room) exit(2);
    return room;
}

// The next sheet; 0 where the input is over, and it ends only before a sheet.
static int read_sheet(Sheet *sheet) {
    uint32_t count;
    size_t got = fread(&count, 1, sizeof count, stdin);
    if (got == 0) return 0;
    if (got != sizeof count) exit(2);
    sheet->count = count;
    sheet->cells = room_for(count);
    sheet->copy = room_for(count);
    if (fread(sheet->cells, sizeof(int64_t), count, stdin) != count) exit(2);
    memcpy(sheet->copy, sheet->cells, count * sizeof(int64_t));
    return 1;
}

// Whether the sheet is as it was; it is given back.
static int is_kept(const Sheet *sheet) {
    int kept = !memcmp(sheet->cells, sheet->copy, sheet->count * sizeof(int64_t));
    free(sheet->cells);
    free(sheet->copy);
    return kept;
}

// Where an answer goes.
static uint64_t *lend(Lent *lent) {
    for (size_t i = 0; i < sizeof lent->cells / sizeof lent->cells[0]; i++) lent->cells[i] = UNTOLD;
    return lent->cells + BESIDE;
}

// Prints the numbers of an answer of so many cells, and says so where a cell beside it changed.
static void print_answer(const Lent *lent, size_t count) {
    const uint64_t *answer = lent->cells + BESIDE;
    int beside = 0;
    for (size_t i = 0; i < count; i++) printf("%s%" PRIu64, i ? " " : "", answer[i]);
    for (size_t i = 0; i < BESIDE; i++) beside += lent->cells[i] != UNTOLD || answer[count + i] != UNTOLD;
    if (beside) printf(" and a cell beside the answer changed");
}

#endif
