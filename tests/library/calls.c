// Calls each function of document 01 on its cases, on positions at each end (document 02, A3), and on lent memory of every
// awkward length: the number, the place and the counts, what was read or written, and that everything else is as it was. Last line
// 'N passed, M failed'.
#include <inttypes.h>
#include <string.h>

#include "expect.h"
#include "knotsaffron.h"

// GIVEN is the longest message of the tables, SAID the cells of an answer of reading that they say; behind those stand the edition and the
// type number
enum { ROOM = 10, GIVEN = 9, MOST = 2049, SAID = 6, READ_ANSWER = 8 };

struct reading {
    const char *name;
    uint64_t type_number;
    size_t length, room;
    uint8_t bytes[GIVEN];
    uint64_t answer[SAID];
    int64_t cells[ROOM];
};

// number, place, bits, cells, row, lacking bits; the cells are compared where the number is 0
static const struct reading readings[] = {
    {"frame, index not there", 0, 1, ROOM, {0x50}, {43, 1, 0, 0, 413, 0}, {0}},
    {"frame, extension bit", 0, 1, ROOM, {0x80}, {5, 0, 0, 0, 0, 0}, {0}},
    {"frame, no bytes", 0, 0, ROOM, {0}, {3, 0, 0, 0, 0, 1}, {0}},
    {"frame, no bytes and no cells", 0, 0, 0, {0}, {3, 0, 0, 0, 0, 1}, {0}},
    {"type number 3", 3, 3, ROOM, {0x00, 0x20, 0x80}, {2, 0, 0, 0, 0, 0}, {0}},
    {"the largest type number", UINT64_MAX, 0, 0, {0}, {2, 0, 0, 0, 0, 0}, {0}},
    // known by its lower half or by its lowest byte, but not as a whole
    {"type number 2^32 + 1", (UINT64_C(1) << 32) + 1, 3, ROOM, {0x00, 0x20, 0x80}, {2, 0, 0, 0, 0, 0}, {0}},
    {"type number 257", 257, 3, ROOM, {0x00, 0x20, 0x80}, {2, 0, 0, 0, 0, 0}, {0}},
    {"type number 2^63", UINT64_C(1) << 63, 1, ROOM, {0x00}, {2, 0, 0, 0, 0, 0}, {0}},
    {"Description A", 1, 3, ROOM, {0x00, 0x20, 0x80}, {0, 0, 17, 3, 0, 0}, {0, 1, 65}},
    {"Description A, three cells lent", 1, 3, 3, {0x00, 0x20, 0x80}, {0, 0, 17, 3, 0, 0}, {0, 1, 65}},
    {"Description A, two cells lent", 1, 3, 2, {0x00, 0x20, 0x80}, {8, 0, 0, 3, 0, 0}, {0}},
    {"Description A, no cells lent", 1, 3, 0, {0x00, 0x20, 0x80}, {8, 0, 0, 3, 0, 0}, {0}},
    {"Description A, padding not zero", 1, 3, ROOM, {0x00, 0x20, 0x81}, {6, 17, 0, 0, 0, 0}, {0}},
    {"Description A, padding not zero and no cells lent", 1, 3, 0, {0x00, 0x20, 0x81}, {6, 17, 0, 0, 0, 0}, {0}},
    {"Description A, a byte too many", 1, 4, ROOM, {0x00, 0x20, 0x80, 0x00}, {6, 17, 0, 0, 0, 0}, {0}},
    // the character has the 7 bits 10 to 16, of which 10 to 15 are there
    {"Description A, a byte lacking", 1, 2, ROOM, {0x00, 0x20}, {3, 10, 0, 0, 0, 1}, {0}},
    // the size has the 9 bits 1 to 9, of which 1 to 7 are there; the choice's index is bit 0 alone
    {"Description A, two bytes lacking", 1, 1, ROOM, {0x00}, {3, 1, 0, 0, 0, 2}, {0}},
    {"Description A, all bytes lacking", 1, 0, ROOM, {0}, {3, 0, 0, 0, 0, 1}, {0}},
    {"Description GB2312", 1, 4, ROOM, {0x80, 0x2c, 0x28, 0x40}, {0, 0, 26, 4, 0, 0}, {1, 2, 0xb0, 0xa1}},
    // the second octet has the bits 18 to 25, the first 10 to 17: 18 to 23 are there, and 10 to 15
    {"Description GB2312, a byte lacking", 1, 3, ROOM, {0x80, 0x2c, 0x28}, {3, 18, 0, 0, 0, 2}, {0}},
    {"Description GB2312, two bytes lacking and no cells lent", 1, 2, 0, {0x80, 0x2c}, {3, 10, 0, 0, 0, 2}, {0}},
    {"Description GB2312, size code 511", 1, 2, ROOM, {0xff, 0xc0}, {44, 1, 0, 0, 126, 0}, {0}},
    {"PositionOffsetLLV", 2, 4, ROOM, {0x08, 0x00, 0x7f, 0xf0}, {0, 0, 28, 4, 0, 0}, {0, 0, 0, -1}},
    // bit 0 is a presence bit, 1 to 3 are the choice's index, 4 to 15 the first offset, and 16 to 27 the second
    {"PositionOffsetLLV, a byte lacking", 2, 3, ROOM, {0x08, 0x00, 0x7f}, {3, 16, 0, 0, 0, 4}, {0}},
    {"PositionOffsetLLV, two bytes lacking", 2, 2, ROOM, {0x08, 0x00}, {3, 16, 0, 0, 0, 12}, {0}},
    {"PositionOffsetLLV, three bytes lacking", 2, 1, ROOM, {0x08}, {3, 4, 0, 0, 0, 8}, {0}},
    // in form seven 4 to 35 are the longitude and 36 to 66 the latitude; all ones are outside, but a longitude of which bits lack is
    // not judged
    {"PositionOffsetLLV of form seven, one byte", 2, 1, ROOM, {0x6f}, {3, 4, 0, 0, 0, 28}, {0}},
    {"PositionOffsetLLV of form seven, four bytes", 2, 4, ROOM, {0x6f, 0xff, 0xff, 0xff}, {3, 4, 0, 0, 0, 4}, {0}},
    {"PositionOffsetLLV of form seven, longitude outside", 2, 5, ROOM, {0x6f, 0xff, 0xff, 0xff, 0xf0}, {41, 4, 0, 0, 45, 0}, {0}},
    {"PositionOffsetLLV of form seven, latitude lacking", 2, 5, ROOM, {0x60, 0x00, 0x00, 0x00, 0x0f}, {3, 36, 0, 0, 0, 27}, {0}},
    // the numbers for "no information" are read as any others, and written again further below
    {"PositionOffsetLLV of form seven, no information", 2, 9, ROOM, {0x6d, 0x69, 0x3a, 0x40, 0x0d, 0x69, 0x3a, 0x40, 0x20},
        {0, 0, 67, 4, 0, 0}, {0, 6, 1800000001, 900000001}},
    {"PositionOffsetLLV, index 7", 2, 1, ROOM, {0x70}, {43, 1, 0, 0, 225, 0}, {0}},
};

// A sheet that is recognised afterwards, with more cells than are lent.
static void mark_cells(int64_t *cells)
{
    for (size_t i = 0; i < ROOM + 2; i++)
        cells[i] = INT64_MIN + (int64_t)i;
}

// A whole answer of reading: with every number the edition and the type number that was asked for stand behind the rest.
static void label_answer(uint64_t answer[READ_ANSWER], const uint64_t said[SAID], uint64_t type_number)
{
    memcpy(answer, said, SAID * sizeof said[0]);
    answer[6] = 1;
    answer[7] = type_number;
}

static void try_reading(const struct reading *c)
{
    int64_t sheet[ROOM + 2], before[ROOM + 2];
    // behind the answer stand two cells that are no part of it
    uint64_t answer[READ_ANSWER + 2] = {99, 99, 99, 99, 99, 99, 99, 99, 99, 99}, wanted[READ_ANSWER];
    uint8_t bytes[GIVEN];
    label_answer(wanted, c->answer, c->type_number);
    memcpy(bytes, c->bytes, sizeof bytes);
    mark_cells(sheet);
    mark_cells(before);
    if (c->answer[0] == KNOTSAFFRON_DONE)
        memcpy(before, c->cells, c->answer[3] * sizeof before[0]);
    knotsaffron_read(c->type_number, bytes, c->length, sheet, c->room, answer);
    expect(c->name, memcmp(answer, wanted, sizeof wanted) == 0 && answer[8] == 99 && answer[9] == 99
                        && memcmp(sheet, before, sizeof sheet) == 0 && memcmp(bytes, c->bytes, sizeof bytes) == 0);
}

struct writing {
    const char *name;
    uint64_t edition, type_number;
    size_t count, room;
    int64_t cells[6];
    uint64_t answer[4];
    uint8_t bytes[ROOM];
};

// number, place, bits, bytes; the bytes are compared where the number is 0
static const struct writing writings[] = {
    {"write type number 3", 1, 3, 3, ROOM, {0, 1, 65}, {2, 0, 0, 0}, {0}},
    {"write Description A", 1, 1, 3, ROOM, {0, 1, 65}, {0, 0, 17, 3}, {0x00, 0x20, 0x80}},
    {"write Description A, three bytes lent", 1, 1, 3, 3, {0, 1, 65}, {0, 0, 17, 3}, {0x00, 0x20, 0x80}},
    {"write Description A, two bytes lent", 1, 1, 3, 2, {0, 1, 65}, {8, 0, 0, 3}, {0}},
    {"write Description A, no bytes lent", 1, 1, 3, 0, {0, 1, 65}, {8, 0, 0, 3}, {0}},
    {"write Description, character 128", 1, 1, 3, ROOM, {0, 1, 128}, {7, 2, 0, 0}, {0}},
    {"write Description, wrong cell and no bytes lent", 1, 1, 3, 0, {0, 1, 128}, {7, 2, 0, 0}, {0}},
    {"write Description, a cell lacking", 1, 1, 2, ROOM, {0, 1}, {7, 2, 0, 0}, {0}},
    {"write Description, a spare cell", 1, 1, 4, ROOM, {0, 1, 65, 0}, {7, 3, 0, 0}, {0}},
    {"write Description, no cells", 1, 1, 0, ROOM, {0}, {7, 0, 0, 0}, {0}},
    {"write Description, index 2", 1, 1, 3, ROOM, {2, 1, 65}, {7, 0, 0, 0}, {0}},
    {"write Description GB2312", 1, 1, 4, ROOM, {1, 2, 0xb0, 0xa1}, {0, 0, 26, 4}, {0x80, 0x2c, 0x28, 0x40}},
    {"write PositionOffsetLLV", 1, 2, 4, ROOM, {0, 0, 0, -1}, {0, 0, 28, 4}, {0x08, 0x00, 0x7f, 0xf0}},
    {"write PositionOffsetLLV, offset too low", 1, 2, 4, ROOM, {0, 0, 0, -2049}, {7, 3, 0, 0}, {0}},
    {"write PositionOffsetLLV, the lowest number", 1, 2, 4, ROOM, {INT64_MIN, 0, 0, 0}, {7, 0, 0, 0}, {0}},
    // an edition that is not known, whatever the sheet is; the type number is asked before it
    {"write edition 0", 0, 1, 3, ROOM, {0, 1, 65}, {26, 0, 0, 0}, {0}},
    {"write edition 2", 2, 1, 3, ROOM, {0, 1, 65}, {26, 0, 0, 0}, {0}},
    {"write edition 257", 257, 1, 3, ROOM, {0, 1, 65}, {26, 0, 0, 0}, {0}},
    {"write edition 2^32 + 1", (UINT64_C(1) << 32) + 1, 1, 3, ROOM, {0, 1, 65}, {26, 0, 0, 0}, {0}},
    {"write edition 2^63 + 1", (UINT64_C(1) << 63) + 1, 1, 3, ROOM, {0, 1, 65}, {26, 0, 0, 0}, {0}},
    {"write the largest edition", UINT64_MAX, 1, 3, ROOM, {0, 1, 65}, {26, 0, 0, 0}, {0}},
    {"write edition 2, no bytes lent", 2, 1, 3, 0, {0, 1, 65}, {26, 0, 0, 0}, {0}},
    {"write edition 2, wrong cell", 2, 1, 3, ROOM, {0, 1, 128}, {26, 0, 0, 0}, {0}},
    {"write edition 2, a cell lacking", 2, 1, 2, ROOM, {0, 1}, {26, 0, 0, 0}, {0}},
    {"write edition 2, a spare cell", 2, 2, 5, ROOM, {0, 0, 0, -1, 0}, {26, 0, 0, 0}, {0}},
    {"write edition 0, no cells", 0, 0, 0, ROOM, {0}, {26, 0, 0, 0}, {0}},
    {"write edition 2 and type number 3", 2, 3, 3, ROOM, {0, 1, 65}, {2, 0, 0, 0}, {0}},
    {"write edition 0 and the largest type number", 0, UINT64_MAX, 0, 0, {0}, {2, 0, 0, 0}, {0}},
};

static void mark_bytes(uint8_t *bytes)
{
    for (size_t i = 0; i < ROOM + 2; i++)
        bytes[i] = (uint8_t)(0xa5 + i);
}

static void try_writing(const struct writing *c)
{
    uint8_t bytes[ROOM + 2], before[ROOM + 2];
    uint64_t answer[5] = {99, 99, 99, 99, 99};
    int64_t cells[6];
    memcpy(cells, c->cells, sizeof cells);
    mark_bytes(bytes);
    mark_bytes(before);
    if (c->answer[0] == KNOTSAFFRON_DONE)
        memcpy(before, c->bytes, c->answer[3]);
    knotsaffron_write(c->edition, c->type_number, cells, c->count, bytes, c->room, answer);
    expect(c->name, memcmp(answer, c->answer, sizeof c->answer) == 0 && answer[4] == 99 && memcmp(bytes, before, sizeof bytes) == 0
                        && memcmp(cells, c->cells, sizeof cells) == 0);
}

// 2,049 bytes are too many for every named type, and the type number is asked before them.
static void try_long_input(void)
{
    static uint8_t bytes[MOST];
    for (uint64_t type_number = 0; type_number < 4; type_number++) {
        int64_t sheet[ROOM + 2], before[ROOM + 2];
        uint64_t answer[READ_ANSWER], wanted[READ_ANSWER], said[SAID] = {type_number < 3 ? 1 : 2, 0, 0, 0, 0, 0};
        label_answer(wanted, said, type_number);
        mark_cells(sheet);
        mark_cells(before);
        knotsaffron_read(type_number, bytes, MOST, sheet, ROOM, answer);
        expect("2,049 bytes", memcmp(answer, wanted, sizeof wanted) == 0 && memcmp(sheet, before, sizeof sheet) == 0);
    }
}

// A sheet above 2,048 bytes, an RSI with eight events of 512 octets each, is too long by the known edition alone.
static void try_long_sheet(void)
{
    // what stands before the octets: the RSI with its events, and in each event its presence cells, its numbers and the size
    static const int64_t head[] = {4, 0, 1, 0, 5, 1, 2, 3, 4, 5, 6, 7, 8, 0, 100, 200, 8};
    static const int64_t event[] = {0, 0, 1, 0, 0, 0, 0, 0, 9, 100, 0, 1, 512};
    enum { BEFORE = sizeof head / sizeof head[0], OF_EVENT = sizeof event / sizeof event[0] + 512, EVENTS = 8 };
    static int64_t sheet[BEFORE + EVENTS * OF_EVENT];
    static const uint64_t wanted[4][4] = {{26, 0, 0, 0}, {1, 0, 0, 0}, {26, 0, 0, 0}, {26, 0, 0, 0}};
    memcpy(sheet, head, sizeof head);
    for (size_t i = 0; i < EVENTS; i++)
        memcpy(sheet + BEFORE + i * OF_EVENT, event, sizeof event);
    for (uint64_t edition = 0; edition < 4; edition++) {
        uint8_t bytes[ROOM + 2], before[ROOM + 2];
        uint64_t answer[4];
        mark_bytes(bytes);
        mark_bytes(before);
        knotsaffron_write(edition, 0, sheet, sizeof sheet / sizeof sheet[0], bytes, ROOM, answer);
        expect("a sheet above 2,048 bytes", memcmp(answer, wanted[edition], sizeof answer) == 0 && memcmp(bytes, before, sizeof bytes) == 0);
    }
}

// What reading tells of the edition and the type number is what writing asks for.
static void try_there_and_back(const struct reading *c)
{
    int64_t sheet[ROOM];
    uint8_t bytes[ROOM];
    uint64_t read[READ_ANSWER], written[4];
    knotsaffron_read(c->type_number, c->bytes, c->length, sheet, ROOM, read);
    if (read[0] != KNOTSAFFRON_DONE)
        return;
    knotsaffron_write(read[6], read[7], sheet, read[3], bytes, ROOM, written);
    expect("there and back", written[0] == KNOTSAFFRON_DONE && written[2] == read[2] && written[3] == c->length
                                 && memcmp(bytes, c->bytes, c->length) == 0);
}

struct resolving {
    const char *name;
    int64_t latitude, longitude, form, first, second;
    int64_t answer[3];
};

// number, latitude, longitude
static const struct resolving resolvings[] = {
    {"form one", 100, 200, 1, 2047, -2048, {0, -1948, 2247}},
    {"form one, first too far", 100, 200, 1, 2048, 0, {4, 0, 0}},
    {"form one, second too far", 100, 200, 1, 0, -2049, {4, 0, 0}},
    {"form two", 0, 0, 2, -8192, 8191, {0, 8191, -8192}},
    {"form three", 0, 0, 3, -32768, 32767, {0, 32767, -32768}},
    {"form four", 0, 0, 4, -131072, 131071, {0, 131071, -131072}},
    {"form five", 0, 0, 5, -2097152, 2097151, {0, 2097151, -2097152}},
    {"form six", 0, 0, 6, -8388608, 8388607, {0, 8388607, -8388608}},
    {"form six, first too far", 0, 0, 6, 8388608, 0, {4, 0, 0}},
    {"form seven replaces", 100, 200, 7, -1799999999, 900000000, {0, 900000000, -1799999999}},
    {"form seven, the other ends", 100, 200, 7, 1800000000, -900000000, {0, -900000000, 1800000000}},
    {"form seven, longitude outside", 100, 200, 7, 1800000002, 0, {4, 0, 0}},
    {"form seven, latitude outside", 100, 200, 7, 0, -900000001, {4, 0, 0}},
    {"form seven, reference outside", 900000002, 0, 7, 0, 0, {4, 0, 0}},
    {"form 0", 0, 0, 0, 0, 0, {4, 0, 0}},
    {"form 8", 0, 0, 8, 0, 0, {4, 0, 0}},
    {"the lowest numbers", INT64_MIN, INT64_MIN, INT64_MIN, INT64_MIN, INT64_MIN, {4, 0, 0}},
    {"reference latitude outside", -900000001, 0, 1, 0, 0, {4, 0, 0}},
    {"reference longitude outside", 0, -1800000000, 1, 0, 0, {4, 0, 0}},
    // a latitude ends at its ends: 900000001 is in the type, and no latitude
    {"to the north end", 899999999, 0, 1, 0, 1, {0, 900000000, 0}},
    {"past the north end", 900000000, 0, 1, 0, 1, {9, 0, 0}},
    {"to the south end", -899999999, 0, 1, 0, -1, {0, -900000000, 0}},
    {"past the south end", -900000000, 0, 1, 0, -1, {9, 0, 0}},
    // a longitude goes round
    {"to the east end", 0, 1799999999, 1, 1, 0, {0, 0, 1800000000}},
    {"round to the east by one", 0, 1800000000, 1, 1, 0, {0, 0, -1799999999}},
    {"round to the east by the most", 0, 1800000000, 6, 8388607, 0, {0, 0, -1791611393}},
    {"to the west end", 0, -1799999998, 1, -1, 0, {0, 0, -1799999999}},
    {"round to the west by one", 0, -1799999999, 1, -1, 0, {0, 0, 1800000000}},
    {"round to the west by the most", 0, -1799999999, 6, -8388608, 0, {0, 0, 1791611393}},
    {"round to the east and past the north end", 900000000, 1800000000, 1, 1, 1, {9, 0, 0}},
    // what means "no information" is no place to start from, and none to be at
    {"no longitude", 0, 1800000001, 1, 0, 0, {10, 0, 0}},
    {"no longitude, back on the ring", 0, 1800000001, 6, -1, 0, {10, 0, 0}},
    {"no latitude", 900000001, 0, 1, 0, 0, {10, 0, 0}},
    {"no latitude, back on the axis", 900000001, 0, 6, 0, -1, {10, 0, 0}},
    {"form seven, no longitude", 0, 0, 7, 1800000001, 0, {10, 0, 0}},
    {"form seven, no latitude", 0, 0, 7, 0, 900000001, {10, 0, 0}},
    {"form seven replaces no information", 900000001, 1800000001, 7, 2, -1, {0, -1, 2}},
    {"no longitude, and first too far", 0, 1800000001, 1, 2048, 0, {4, 0, 0}},
    {"no latitude, and second too far", 900000001, 0, 1, 0, -2049, {4, 0, 0}},
    {"form seven, no longitude and latitude outside", 0, 0, 7, 1800000001, 900000002, {4, 0, 0}},
    {"no longitude, past the north end", 900000000, 1800000001, 1, 0, 1, {10, 0, 0}},
};

static void try_resolving(const struct resolving *c)
{
    int64_t answer[4] = {99, 99, 99, 99};
    knotsaffron_resolve(c->latitude, c->longitude, c->form, c->first, c->second, answer);
    expect(c->name, memcmp(answer, c->answer, sizeof c->answer) == 0 && answer[3] == 99);
}

// Document 01's cases, and then every pair of bytes by its formula.
static void try_counting(void)
{
    expect("127, then 0", knotsaffron_missed(127, 0) == 0);
    expect("5, then 5", knotsaffron_missed(5, 5) == 127);
    unsigned wrong = 0;
    for (int old_count = 0; old_count < 256; old_count++)
        for (int new_count = 0; new_count < 256; new_count++) {
            uint64_t missed = (uint64_t)(new_count - old_count - 1 + 256) % 128;
            uint64_t wanted = old_count > 127 || new_count > 127 ? 4 * 256 : missed;
            wrong += knotsaffron_missed((uint8_t)old_count, (uint8_t)new_count) != wanted;
        }
    expect("every pair of counts", wrong == 0);
}

// An RSI: which of its two lists are there, then the message count, the identity and the reference position.
#define RSI(events, signs) 4, 0, events, signs, 5, 1, 2, 3, 4, 5, 6, 7, 8, 0, 100, 200
// An offset of form one; a text; a list of one link between two nodes.
#define OFFSET 0, 0, 0, 0
#define TEXT 0, 1, 65
#define LINKS 1, 0, 0, 7, 0, 8
// A whole event with a radius, and a whole sign with a link: presence cells, then the components that are there.
#define EVENT 1, 1, 0, 0, 0, 0, 0, 0, 9, 100, 0, OFFSET, 50
#define SIGN 1, 1, 0, 0, 0, 1, 9, 100, OFFSET, TEXT, LINKS

struct ruling {
    const char *name;
    size_t count;
    uint64_t answer[2];
    int64_t cells[128];
};

#define CELLS(...) sizeof((int64_t[]){__VA_ARGS__}) / sizeof(int64_t)
#define RULING(name, number, place, ...) {name, CELLS(__VA_ARGS__), {number, place}, {__VA_ARGS__}}

static const struct ruling rulings[] = {
    RULING("RSI with neither list", 0, 0, RSI(0, 0)),
    RULING("RSI with two events and two signs", 0, 0, RSI(1, 1), 2, EVENT, EVENT, 2, SIGN, SIGN),
    RULING("event by links", 0, 0, RSI(1, 0), 1, 1, 0, 0, 0, 0, 0, 1, 0, 9, 100, 0, OFFSET, LINKS),
    RULING("RSI with a wrong cell", 7, 4, 4, 0, 0, 0, 128, 1, 2, 3, 4, 5, 6, 7, 8, 0, 100, 200),
    RULING("RSI with a spare cell", 7, 16, RSI(0, 0), 0),
    RULING("RSI without its events", 7, 16, RSI(1, 0)),
    RULING("map", 11, 0, 1, 0, 5, 1, 0, 0, 0, 7, 0, 100, 200),
    RULING("second event without a position", 12, 1, RSI(1, 0), 2, EVENT, 0, 1, 0, 0, 0, 0, 0, 0, 9, 100, 0, 50),
    RULING("event with a position alone", 13, 0, RSI(1, 1), 1, 1, 0, 0, 0, 0, 0, 0, 0, 9, 100, 0, OFFSET, 1, SIGN),
    RULING("sign without a position", 14, 0, RSI(0, 1), 1, 0, 1, 0, 0, 0, 1, 9, 100, TEXT, LINKS),
    RULING("second sign without a description", 15, 1, RSI(1, 1), 1, EVENT, 2, SIGN, 1, 0, 0, 0, 0, 1, 9, 100, OFFSET, LINKS),
    RULING("sign without paths or links", 16, 0, RSI(0, 1), 1, 1, 1, 0, 0, 0, 0, 9, 100, OFFSET, TEXT),
    {"no cells", 0, {7, 0}, {0}},
};

static void try_ruling(const struct ruling *c)
{
    uint64_t answer[3] = {99, 99, 99};
    struct ruling before = *c;
    knotsaffron_check_rsi(before.cells, c->count, answer);
    expect(c->name, memcmp(answer, c->answer, sizeof c->answer) == 0 && answer[2] == 99
                        && memcmp(before.cells, c->cells, sizeof before.cells) == 0);
}

int main(void)
{
    for (size_t i = 0; i < sizeof readings / sizeof readings[0]; i++)
        try_reading(&readings[i]);
    for (size_t i = 0; i < sizeof readings / sizeof readings[0]; i++)
        try_there_and_back(&readings[i]);
    for (size_t i = 0; i < sizeof writings / sizeof writings[0]; i++)
        try_writing(&writings[i]);
    try_long_input();
    try_long_sheet();
    for (size_t i = 0; i < sizeof resolvings / sizeof resolvings[0]; i++)
        try_resolving(&resolvings[i]);
    try_counting();
    for (size_t i = 0; i < sizeof rulings / sizeof rulings[0]; i++)
        try_ruling(&rulings[i]);
    return tell();
}
