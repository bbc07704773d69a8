// Holds the codecs against each other before anything is timed: a mark that does less work than Knotsaffron would be none.
//
// The straight-line C has to answer as Knotsaffron does, number, place, bits, count, row, lacking bits, edition and type number, and
// to leave the lent memory alike: on every message of the benchmark; on the cases of tests/cases, which reach the ends of every type;
// and on messages and sheets that are cut, changed or lengthened by chance, with room enough and without. The other archive is held
// against Knotsaffron on the messages alone, since an older build may refuse otherwise.
#include "agree.h"

#include <stdio.h>
#include <string.h>

#include "messages.h"

#define CHANGED 20000
#define MOST_BYTES_OF_A_RECORD 65535
#define MOST_NUMBERS 45
// behind the longest message, so that it can be lengthened, and room for a MAP's sheet with its nodes twice
#define SPARE_BYTES 4
#define LONG_SHEET (2 * KNOTSAFFRON_MOST_CELLS)
#define MOST_NODES 32
// what lent memory holds before a call
#define MARK 0x5A

enum { READING, WRITING, WAYS };

static int64_t lent_cells[2][KNOTSAFFRON_MOST_CELLS];
static uint8_t lent_bytes[2][KNOTSAFFRON_MOST_BYTES];
// how often each number was answered
static int numbers[WAYS][MOST_NUMBERS];

// Numbers by chance that are the same every time (splitmix64): one below the limit.
static uint64_t chance(uint64_t limit) {
    static uint64_t state = 20201231;
    uint64_t mixed = state += 0x9E3779B97F4A7C15;
    mixed = (mixed ^ mixed >> 30) * 0xBF58476D1CE4E5B9;
    mixed = (mixed ^ mixed >> 27) * 0x94D049BB133111EB;
    return (mixed ^ mixed >> 31) % limit;
}

static void print_answer(const char *name, const uint64_t answer[ANSWER_CELLS]) {
    fprintf(stderr, "%s answers", name);
    for (int i = 0; i < ANSWER_CELLS; i++) fprintf(stderr, " %lu", answer[i]);
    fprintf(stderr, "\n");
}

// Counts the number that was answered, and ends the program where answers or lent memory differ.
static void compare(int way, const Codec *other, uint64_t answer[2][ANSWER_CELLS], const void *mine, const void *theirs, size_t size) {
    if (answer[0][0] < MOST_NUMBERS) numbers[way][answer[0][0]]++;
    if (!memcmp(answer[0], answer[1], sizeof answer[0]) && !memcmp(mine, theirs, size)) return;
    print_answer(ours.name, answer[0]);
    print_answer(other->name, answer[1]);
    stop("the codecs differ, so nothing is measured", way == READING ? "reading" : "writing");
}

static void read_both(const Codec *other, uint64_t type, const uint8_t *bytes, size_t length, size_t room) {
    uint64_t answer[2][ANSWER_CELLS] = {{0}};
    // an older build gives fewer cells, and leaves the others as they would be
    if (other == &base) answer[1][6] = EDITION, answer[1][7] = type;
    memset(lent_cells, MARK, sizeof lent_cells);
    ours.read(type, bytes, length, lent_cells[0], room, answer[0]);
    other->read(type, bytes, length, lent_cells[1], room, answer[1]);
    compare(READING, other, answer, lent_cells[0], lent_cells[1], sizeof lent_cells[0]);
}

static void write_both(const Codec *other, uint64_t edition, uint64_t type, const int64_t *sheet, size_t cells, size_t room) {
    uint64_t answer[2][ANSWER_CELLS] = {{0}}; // writing gives half as many cells as reading
    memset(lent_bytes, MARK, sizeof lent_bytes);
    ours.write(edition, type, sheet, cells, lent_bytes[0], room, answer[0]);
    other->write(edition, type, sheet, cells, lent_bytes[1], room, answer[1]);
    compare(WRITING, other, answer, lent_bytes[0], lent_bytes[1], sizeof lent_bytes[0]);
}

// Mostly all the room, and else less than is needed.
static size_t some_room(size_t most, size_t needed) {
    return chance(4) ? most : chance(needed + 1);
}

static uint64_t some_type(const Message *m) {
    return chance(50) ? m->type : chance(5);
}

// Mostly the one that is known, and else one near it, or far away with the same lowest bits.
static uint64_t some_edition(void) {
    return chance(20) ? EDITION : chance(2) ? chance(5) : EDITION + ((uint64_t)1 << chance(64));
}

static void read_changed(const Message *m) {
    static uint8_t bytes[KNOTSAFFRON_MOST_BYTES + SPARE_BYTES];
    size_t length = m->length;
    memcpy(bytes, m->bytes, length);
    switch (chance(5)) {
    case 0:  // cut
        length = chance(length + 1);
        break;
    case 1:  // lengthened a little, or to more than a message may have
        for (uint64_t more = 1 + chance(SPARE_BYTES); more > 0; more--) bytes[length++] = chance(2) ? 0 : (uint8_t)chance(256);
        if (chance(20) == 0) length = KNOTSAFFRON_MOST_BYTES + 1;
        break;
    case 2:  // other bytes from a place on
        for (size_t i = chance(length); i < length; i++) bytes[i] = (uint8_t)chance(256);
        break;
    case 3:  // some bits the other way
        for (uint64_t left = 1 + chance(3); left > 0; left--) bytes[chance(length)] ^= (uint8_t)(1 << chance(8));
        break;
    }
    read_both(&straight, some_type(m), bytes, length, some_room(KNOTSAFFRON_MOST_CELLS, m->cells));
}

// A number for a cell: near the one that is there, at the ends of a cell, small, or any.
static int64_t other_number(int64_t number) {
    switch (chance(5)) {
    case 0: return (int64_t)((uint64_t)number + (chance(2) ? 1 : UINT64_MAX));
    case 1: return chance(2) ? INT64_MIN : INT64_MAX;
    case 2: return (int64_t)chance(40) - 4;
    case 3: return (int64_t)((uint64_t)number ^ (uint64_t)1 << chance(64));
    default: return (int64_t)(chance(UINT64_MAX) + chance(2));
    }
}

static void write_changed(const Message *m) {
    static int64_t sheet[KNOTSAFFRON_MOST_CELLS + 1];
    size_t cells = m->cells;
    memcpy(sheet, m->sheet, cells * sizeof *sheet);
    switch (chance(4)) {
    case 0:  // cut
        cells = chance(cells + 1);
        break;
    case 1:  // lengthened
        sheet[cells++] = other_number(0);
        break;
    case 2:  // some cells with other numbers
        for (uint64_t left = 1 + chance(2); left > 0; left--) {
            size_t place = chance(cells);
            sheet[place] = other_number(sheet[place]);
        }
        break;
    }
    write_both(&straight, some_edition(), some_type(m), sheet, cells, some_room(KNOTSAFFRON_MOST_BYTES, m->length));
}

// The sheet of a MAP with all its nodes twice, which is a value, but too long to be written. In the sheet of a frame stand the
// choice, whether there is a time, the count, the time if so, and the number of nodes.
static void write_too_long(const Message *m) {
    static int64_t sheet[LONG_SHEET];
    if (strcmp(m->kind, "MAP")) return;
    size_t size_at = 3 + (size_t)m->sheet[1], nodes = m->cells - size_at - 1;
    if (m->sheet[size_at] > MOST_NODES / 2) return;
    memcpy(sheet, m->sheet, m->cells * sizeof *sheet);
    memcpy(sheet + m->cells, m->sheet + size_at + 1, nodes * sizeof *sheet);
    sheet[size_at] *= 2;
    write_both(&straight, EDITION, m->type, sheet, m->cells + nodes, KNOTSAFFRON_MOST_BYTES);
}

static uint64_t two_bytes(const uint8_t *bytes) {
    return (uint64_t)bytes[0] << 8 | bytes[1];
}

// Goes through a file of records, each behind its length in two bytes. How many there are; a few that are too short for what has to
// stand before a message or a sheet, which only a program can be asked, are left out.
static int each_record(const char *path, size_t least, void (*take)(const uint8_t *record, size_t length)) {
    static uint8_t record[MOST_BYTES_OF_A_RECORD];
    uint8_t head[2];
    int count = 0;
    FILE *file = fopen(path, "rb");
    if (!file) stop("no such file", path);
    while (fread(head, 1, 2, file) == 2) {
        size_t length = two_bytes(head);
        if (fread(record, 1, length, file) != length) stop("a record is cut", path);
        if (length < least) continue;
        take(record, length);
        count++;
    }
    fclose(file);
    return count;
}

// A type number, and the message.
#define LEAST_TO_READ 2
static void read_case(const uint8_t *record, size_t length) {
    read_both(&straight, two_bytes(record), record + LEAST_TO_READ, length - LEAST_TO_READ, KNOTSAFFRON_MOST_CELLS);
}

// An edition, a type number, and cells of eight bytes each, the most significant first.
#define LEAST_TO_WRITE 4
static void write_case(const uint8_t *record, size_t length) {
    static int64_t sheet[MOST_BYTES_OF_A_RECORD / 8];
    size_t cells = (length - LEAST_TO_WRITE) / 8;
    for (size_t i = 0; i < cells; i++) {
        uint64_t cell = 0;
        for (size_t byte = 0; byte < 8; byte++) cell = cell << 8 | record[LEAST_TO_WRITE + 8 * i + byte];
        sheet[i] = (int64_t)cell;
    }
    write_both(&straight, two_bytes(record), two_bytes(record + 2), sheet, cells, KNOTSAFFRON_MOST_BYTES);
}

// Prints how often each number was answered. Each that there is has to be among them.
static void print_numbers(int way, const char *name, const int *known, int count) {
    printf("  %s:", name);
    for (int i = 0; i < count; i++) {
        printf("%s number %d %d times", i ? "," : "", known[i], numbers[way][known[i]]);
        if (numbers[way][known[i]] == 0) stop("a number was never answered", name);
    }
    printf("\n");
}

void agree(const char *read_cases, const char *write_cases) {
    static const int of_reading[] = {0, 1, 2, 3, 5, 6, 8, 41, 42, 43, 44}, of_writing[] = {0, 1, 2, 7, 8, 26};
    for (const Message *m = messages; base.read && m < messages + message_count; m++) {
        read_both(&base, m->type, m->bytes, m->length, KNOTSAFFRON_MOST_CELLS);
        write_both(&base, EDITION, m->type, m->sheet, m->cells, KNOTSAFFRON_MOST_BYTES);
    }
    memset(numbers, 0, sizeof numbers);
    for (const Message *m = messages; m < messages + message_count; m++) {
        read_both(&straight, m->type, m->bytes, m->length, KNOTSAFFRON_MOST_CELLS);
        write_both(&straight, EDITION, m->type, m->sheet, m->cells, KNOTSAFFRON_MOST_BYTES);
        write_too_long(m);
    }
    int cases = each_record(read_cases, LEAST_TO_READ, read_case) + each_record(write_cases, LEAST_TO_WRITE, write_case);
    for (int i = 0; i < CHANGED; i++) {
        read_changed(&messages[chance((uint64_t)message_count)]);
        write_changed(&messages[chance((uint64_t)message_count)]);
    }
    printf("The straight-line C answers as Knotsaffron does on these, on %d cases of tests/cases, and on %d changed messages and sheets:\n", cases, 2 * CHANGED);
    print_numbers(READING, "reading", of_reading, sizeof of_reading / sizeof *of_reading);
    print_numbers(WRITING, "writing", of_writing, sizeof of_writing / sizeof *of_writing);
}
