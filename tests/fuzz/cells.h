// What the files with faults of a check share: a way through the cells of a sheet that is a value of a frame, the kind of a sheet, and whether
// its message is too long to be written.
#ifndef CELLS_H
#define CELLS_H

#include <stddef.h>
#include <stdint.h>

int fault(void);
void real_write(uint64_t, uint64_t, const int64_t *, size_t, uint8_t *, size_t, uint64_t *);

static const int64_t *cell;

static inline int64_t next(void) { return *cell++; }

static inline void skip(int64_t count) { cell += count; }

static inline void skip_if(int64_t present, int64_t count) {
    if (present) skip(count);
}

// So many presence cells, and a component for each that is 1.
static inline void skip_present(int components) {
    int64_t there = 0;
    for (int i = 0; i < components; i++) there += next();
    skip(there);
}

// An offset of any form is an index and two numbers; a height is an index and a number.
static inline void skip_offset(void) {
    int64_t height = next();
    skip(3 + 2 * height);
}

// A sheet without cells has no kind.
static inline int kind_of(const int64_t *sheet, size_t cells) { return cells > 0 ? (int)sheet[0] : -1; }

static inline int is_long(const int64_t *sheet, size_t cells) {
    uint64_t written[4];
    uint8_t none;
    real_write(1, 0, sheet, cells, &none, 0, written);
    return written[0] == 1;
}

#endif
