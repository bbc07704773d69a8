// What the programs of this folder share that check sheets written down cell by cell: a sheet, and that one which is a value is a message too.
#ifndef SHEETS_H
#define SHEETS_H

#include <string.h>

#include "expect.h"
#include "knotsaffron.h"

enum { ROOM = 420 };

struct sheet {
    size_t count;
    int64_t cells[ROOM];
};

#define SHEET(...) {sizeof((int64_t[]){__VA_ARGS__}) / sizeof(int64_t), {__VA_ARGS__}}
#define NO_CELLS {0, {0}}

// The library writes the sheet, and reads the same cells back.
static void try_there_and_back(const struct sheet *sheet)
{
    uint8_t bytes[KNOTSAFFRON_MOST_BYTES];
    int64_t back[ROOM];
    uint64_t written[4], read[8];
    knotsaffron_write(KNOTSAFFRON_FIRST_EDITION, KNOTSAFFRON_MESSAGE_FRAME, sheet->cells, sheet->count, bytes, sizeof bytes, written);
    knotsaffron_read(KNOTSAFFRON_MESSAGE_FRAME, bytes, written[3], back, ROOM, read);
    expect("there and back", written[0] == KNOTSAFFRON_DONE && read[0] == KNOTSAFFRON_DONE && read[3] == sheet->count
                                 && memcmp(back, sheet->cells, sheet->count * sizeof back[0]) == 0);
}

#endif
