// What the functions of straight.py are made of: the window on a message, the store into one, and the refusals.
//
// Fields whose layout is fixed stand together in a run. A run is read from one window of 64 bits, or stored by one, and has one
// test: whether all of its bits or cells are there and all of its codes are in range. Only where that fails does a loop over the
// run's fields find which one is refused. It is for a processor that has the least significant byte first, as x86-64 has.
#ifndef STRAIGHT_PARTS_H
#define STRAIGHT_PARTS_H

#include <string.h>

#include "knotsaffron.h"
#include "straight.h"

#define BITS_OF_A_WINDOW 64
#define BYTES_OF_A_WINDOW 8
// as many bits as a run may have: in a window that begins within a byte, 57 are there, and a store has to reach into the byte
// where the next one begins
#define MOST_BITS_OF_A_RUN 56
#define REFUSED ((uint64_t)1 << 63)
#define NUMBER_AT 32
#define ROW_AT 40
#define LACKING_AT 52
#define MOST_NUMBER 0xFF
#define MOST_ROW 0xFFF
#define SELDOM(condition) __builtin_expect(!!(condition), 0)

// A field of a run, with the number and the row that tell a code outside its range. An extension bit gives no cell, and its code has
// to be 0.
typedef struct {
    unsigned width, gives_cell;
    uint64_t span;
    int64_t lowest;
    uint64_t number, row;
} Field;

// The message that is read, with zero bytes behind it, so that every window can be loaded whole.
typedef struct {
    uint8_t bytes[KNOTSAFFRON_MOST_BYTES + BYTES_OF_A_WINDOW];
    uint64_t bits;
} Reading;

// How far reading has come: the next bit and the next cell. Where it is refused, bit is REFUSED + lacking bits * 2^52 + row * 2^40 +
// number * 2^32 + place.
typedef struct {
    uint64_t bit;
    int64_t *cell;
} Went;

// The bytes that are written, with room for the stores behind the longest message, and the sheet that they come from.
typedef struct {
    uint8_t bytes[KNOTSAFFRON_MOST_BYTES + BYTES_OF_A_WINDOW];
    const int64_t *first, *end;
} Writing;

// How far writing has come: the next bit and the next cell. Where the sheet is no value, bit is REFUSED + the cell's place.
typedef struct {
    uint64_t bit;
    const int64_t *cell;
} Sent;

// The bits from a place on, the first of them the most significant; at least 57 of them are the message's.
static inline uint64_t window(const Reading *reading, uint64_t bit) {
    uint64_t word;
    memcpy(&word, reading->bytes + bit / 8, BYTES_OF_A_WINDOW);
    return __builtin_bswap64(word) << bit % 8;
}

// Stores a code behind the bits that are there, and zero bits behind it. Behind the longest message a store hits the bytes that
// are kept for it: a sheet is judged to its end, however long its message would be.
static inline void store(Writing *writing, uint64_t bit, uint64_t code, unsigned width) {
    uint64_t byte = bit / 8 < KNOTSAFFRON_MOST_BYTES ? bit / 8 : KNOTSAFFRON_MOST_BYTES;
    uint64_t begun = (uint64_t)writing->bytes[byte] << (BITS_OF_A_WINDOW - 8);
    uint64_t word = __builtin_bswap64(begun | code << (BITS_OF_A_WINDOW - width - bit % 8));
    memcpy(writing->bytes + byte, &word, BYTES_OF_A_WINDOW);
}

static inline Went refuse(Went at, uint64_t number, uint64_t row, uint64_t place) {
    at.bit = REFUSED | row << ROW_AT | number << NUMBER_AT | place;
    return at;
}

// The refusal of a field that begins within the message, or where it ends, and ends behind it.
static inline Went refuse_short(const Reading *reading, Went at, uint64_t place, unsigned width) {
    at.bit = REFUSED | (place + width - reading->bits) << LACKING_AT | (uint64_t)KNOTSAFFRON_SHORT << NUMBER_AT | place;
    return at;
}

static inline Sent refuse_cell(const Writing *writing, Sent at, const int64_t *cell) {
    at.bit = REFUSED | (uint64_t)(cell - writing->first);
    return at;
}

// The refusal of a run that can't be read: of its first field that is short, extended or outside.
static __attribute__((cold, noinline)) Went refused_run(const Reading *reading, Went at, const Field *fields) {
    uint64_t bit = at.bit;
    for (;; bit += fields->width, fields++) {
        if (bit + fields->width > reading->bits) return refuse_short(reading, at, bit, fields->width);
        if (window(reading, bit) >> (BITS_OF_A_WINDOW - fields->width) > fields->span)
            return refuse(at, fields->number, fields->row, bit);
    }
}

// The refusal of a run that can't be written: at its first cell that lacks or is wrong.
static __attribute__((cold, noinline)) Sent refused_cells(const Writing *writing, Sent at, const Field *fields) {
    for (const int64_t *cell = at.cell;; fields++) {
        if (!fields->gives_cell) continue;
        if (cell == writing->end || (uint64_t)*cell - (uint64_t)fields->lowest > fields->span) return refuse_cell(writing, at, cell);
        cell++;
    }
}

// Reads so many items of a string from one window.
static inline Went read_items(const Reading *reading, Went at, uint64_t count, unsigned width) {
    uint64_t word = window(reading, at.bit);
#pragma GCC unroll 8
    for (uint64_t i = 0; i < count; i++, word <<= width) at.cell[i] = (int64_t)(word >> (BITS_OF_A_WINDOW - width));
    at.bit += count * width, at.cell += count;
    return at;
}

// Reads a string, of whose items every code is one: as many at a time as a run may have, so that the loop is laid out, and the rest.
static inline Went read_string(const Reading *reading, Went at, uint64_t count, unsigned width) {
    const unsigned at_once = MOST_BITS_OF_A_RUN / width;
    if (SELDOM(at.bit + count * width > reading->bits))
        return refuse_short(reading, at, at.bit + (reading->bits - at.bit) / width * width, width);
    for (; count >= at_once; count -= at_once) at = read_items(reading, at, at_once, width);
    return count ? read_items(reading, at, count, width) : at;
}

// The refusal of a string that can't be written: at its first cell that is wrong, or behind those that are there.
static __attribute__((cold, noinline)) Sent refused_string(const Writing *writing, Sent at, unsigned width) {
    const int64_t *cell = at.cell;
    while (cell < writing->end && (uint64_t)*cell >> width == 0) cell++;
    return refuse_cell(writing, at, cell);
}

// Writes so many items of a string by one store.
static inline Sent write_items(Writing *writing, Sent at, uint64_t count, unsigned width) {
    uint64_t word = 0, all = 0;
#pragma GCC unroll 8
    for (uint64_t i = 0; i < count; i++) word = word << width | (uint64_t)at.cell[i], all |= (uint64_t)at.cell[i];
    if (SELDOM(all >> width)) return refused_string(writing, at, width);
    store(writing, at.bit, word, (unsigned)count * width);
    at.bit += count * width, at.cell += count;
    return at;
}

static inline Sent write_string(Writing *writing, Sent at, uint64_t count, unsigned width) {
    const unsigned at_once = MOST_BITS_OF_A_RUN / width;
    if (SELDOM((uint64_t)(writing->end - at.cell) < count)) return refused_string(writing, at, width);
    for (; count >= at_once && !(at.bit & REFUSED); count -= at_once) at = write_items(writing, at, at_once, width);
    return count && !(at.bit & REFUSED) ? write_items(writing, at, count, width) : at;
}

static inline void tell(uint64_t answer[], uint64_t number, uint64_t place, uint64_t bits, uint64_t count) {
    answer[0] = number, answer[1] = place, answer[2] = bits, answer[3] = count;
}

// Reads a message by the function of its type. The cells are made apart and copied, so that a refusal leaves the sheet as it was.
static inline void read_whole(Went (*read)(const Reading *, Went), const uint8_t *bytes, size_t bytes_len, int64_t *sheet,
                              size_t sheet_len, uint64_t answer[8]) {
    Reading reading;
    int64_t cells[KNOTSAFFRON_MOST_CELLS];
    answer[4] = answer[5] = 0;
    if (bytes_len > KNOTSAFFRON_MOST_BYTES) return tell(answer, KNOTSAFFRON_TOO_LONG, 0, 0, 0);
    memcpy(reading.bytes, bytes, bytes_len);
    memset(reading.bytes + bytes_len, 0, BYTES_OF_A_WINDOW);
    reading.bits = 8 * bytes_len;
    Went at = read(&reading, (Went){0, cells});
    if (at.bit & REFUSED) {
        answer[4] = at.bit >> ROW_AT & MOST_ROW, answer[5] = (at.bit & ~REFUSED) >> LACKING_AT;
        return tell(answer, at.bit >> NUMBER_AT & MOST_NUMBER, (uint32_t)at.bit, 0, 0);
    }
    if (reading.bits - at.bit >= 8 || window(&reading, at.bit)) return tell(answer, KNOTSAFFRON_SPARE_BITS, at.bit, 0, 0);
    size_t count = (size_t)(at.cell - cells);
    if (count > sheet_len) return tell(answer, KNOTSAFFRON_NO_ROOM, 0, 0, count);
    memcpy(sheet, cells, count * sizeof *cells);
    tell(answer, KNOTSAFFRON_DONE, 0, at.bit, count);
}

// Writes a sheet by the function of its type. The bytes are made apart and copied, so that a refusal leaves the lent ones as they were.
static inline void write_whole(Sent (*write)(Writing *, Sent), const int64_t *sheet, size_t sheet_len, uint8_t *bytes, size_t bytes_len,
                               uint64_t answer[4]) {
    Writing writing;
    writing.bytes[0] = 0, writing.first = sheet, writing.end = sheet + sheet_len;
    Sent at = write(&writing, (Sent){0, sheet});
    if (at.bit & REFUSED) return tell(answer, KNOTSAFFRON_NO_VALUE, at.bit & ~REFUSED, 0, 0);
    if (at.cell != writing.end) return tell(answer, KNOTSAFFRON_NO_VALUE, (uint64_t)(at.cell - sheet), 0, 0);
    uint64_t count = at.bit / 8 + (at.bit % 8 != 0);
    if (count > KNOTSAFFRON_MOST_BYTES) return tell(answer, KNOTSAFFRON_TOO_LONG, 0, 0, 0);
    if (count > bytes_len) return tell(answer, KNOTSAFFRON_NO_ROOM, 0, 0, count);
    memcpy(bytes, writing.bytes, count);
    tell(answer, KNOTSAFFRON_DONE, 0, at.bit, count);
}

#endif
