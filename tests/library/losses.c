// Calls the functions over a loss table (document 02, A4 and A10): a history worked by hand, full rows, rows that are free again, ids and
// kinds that nearly agree, the end of received, rows of wild bytes, for each party beside rows of the other that are free or held; what is
// no party; senders that both hold; and thousands of calls of both, held against a model of each party that knows of no other, and against
// a table to which that party alone calls. Each call is held to its answer, to every byte of the table, and to what stands around all that
// is lent. Last line 'N passed, M failed'.
#include <inttypes.h>
#include <stddef.h>
#include <string.h>

#include "expect.h"
#include "knotsaffron.h"

enum {
    PARTIES = KNOTSAFFRON_LOSS_PARTIES,
    ROWS = KNOTSAFFRON_LOSS_ROWS,
    ID = 8,
    AROUND = 16,
    MARK = 0xc3,
    MAP = 1,
    SPAT = 3,
    TABLES = 400,
    CALLS = 50,
    TURNS = 20000
};

#define MARKED UINT64_C(0xc3c3c3c3c3c3c3c3)

typedef knotsaffron_loss_sender sender;
typedef knotsaffron_loss_table table;

// Lent memory, with bytes before and behind it that are no part of it.
struct lent {
    uint8_t before[AROUND];
    table table;
    uint8_t behind[AROUND];
};

static struct lent lent;

// The party that calls are made by, and the byte with which the other's rows are filled.
static uint64_t party;
static uint8_t others;

static int is_filled(const void *memory, uint8_t byte, size_t count)
{
    const uint8_t *bytes = memory;
    for (size_t i = 0; i < count; i++)
        if (bytes[i] != byte)
            return 0;
    return 1;
}

// Lends a table in which the party's own rows are filled with a byte.
static void lend(uint8_t byte)
{
    memset(&lent, MARK, sizeof lent);
    memset(&lent.table, others, sizeof lent.table);
    memset(lent.table.senders[party], byte, sizeof lent.table.senders[party]);
}

// Whether nothing around the lent table was touched.
static int is_kept_around(void)
{
    return is_filled(lent.before, MARK, AROUND) && is_filled(lent.behind, MARK, AROUND);
}

// ---- a model of one party's rows, which knows of no other: what a report and a drop make of them, and what they answer

// The lowest row that holds a sender, or with no id the lowest free one; ROWS where there is none.
static size_t find(const sender rows[ROWS], uint64_t kind, const uint8_t *id)
{
    size_t row = 0;
    for (; row < ROWS; row++) {
        const sender *s = &rows[row];
        if (id == NULL ? s->received == 0 : s->received != 0 && s->kind == kind && memcmp(s->id, id, ID) == 0)
            break;
    }
    return row;
}

static int has_sender(uint64_t kind)
{
    return kind == KNOTSAFFRON_BSM || kind == KNOTSAFFRON_RSM || kind == KNOTSAFFRON_RSI;
}

// The number of a report, by the row of its sender and the row that it would take.
static uint64_t model_number(const sender rows[ROWS], uint64_t kind, uint8_t count, size_t known, size_t row)
{
    if (count > 127)
        return KNOTSAFFRON_OUTSIDE;
    if (!has_sender(kind))
        return KNOTSAFFRON_NO_SENDER;
    if (known < ROWS && rows[known].received == UINT32_MAX)
        return KNOTSAFFRON_COUNT_FULL;
    return row == ROWS ? KNOTSAFFRON_TABLE_FULL : KNOTSAFFRON_DONE;
}

static void model_report(sender rows[ROWS], uint64_t kind, const uint8_t *id, uint8_t count, uint64_t answer[2])
{
    size_t known = find(rows, kind, id), row = known < ROWS ? known : find(rows, kind, NULL);
    answer[0] = model_number(rows, kind, count, known, row);
    answer[1] = answer[0] == KNOTSAFFRON_DONE ? row : 0;
    if (answer[0] != KNOTSAFFRON_DONE)
        return;
    sender *s = &rows[row];
    if (known == ROWS) {
        *s = (sender){.kind = (uint16_t)kind, .first = count, .last = count, .received = 1};
        memcpy(s->id, id, ID);
        return;
    }
    // a last count above 127 is no report's: nothing is missed behind it
    s->missed += s->last > 127 ? 0 : (uint64_t)(count - s->last - 1 + 128) % 128;
    s->last = count;
    s->received++;
}

static void model_drop(sender rows[ROWS], uint64_t kind, const uint8_t *id, uint64_t answer[2])
{
    size_t row = has_sender(kind) ? find(rows, kind, id) : ROWS;
    answer[0] = row < ROWS ? KNOTSAFFRON_DONE : KNOTSAFFRON_NOT_HELD;
    answer[1] = row < ROWS ? row : 0;
    if (row < ROWS)
        memset(&rows[row], 0, sizeof(sender));
}

// ---- one call, held to all that it promises

enum call { REPORT, DROP };

// Makes a call on the lent table. Whether its answer is the wanted one, and nothing but the table and the answer changed.
static int call(enum call which, uint64_t kind, const uint8_t id[ID], uint8_t count, const uint64_t wanted[2])
{
    uint8_t given[ID];
    uint64_t answer[4] = {MARKED, MARKED, MARKED, MARKED};
    memcpy(given, id, ID);
    if (which == REPORT)
        knotsaffron_losses_report(&lent.table, party, kind, given, count, answer + 1);
    else
        knotsaffron_losses_drop(&lent.table, party, kind, given, answer + 1);
    return answer[1] == wanted[0] && answer[2] == wanted[1] && answer[0] == MARKED && answer[3] == MARKED && memcmp(given, id, ID) == 0
           && is_kept_around();
}

// Whether a call gives this number and leaves every byte of the lent table as it was.
static int refuses(enum call which, uint64_t kind, const uint8_t id[ID], uint8_t count, uint64_t number)
{
    table before = lent.table;
    uint64_t wanted[2] = {number, 0};
    return call(which, kind, id, count, wanted) && memcmp(&before, &lent.table, sizeof before) == 0;
}

// Whether a call is done in this row of the party, and leaves every byte of all other rows as it was.
static int does(enum call which, uint64_t kind, const uint8_t id[ID], uint8_t count, uint64_t row)
{
    table before = lent.table;
    uint64_t wanted[2] = {0, row};
    if (!call(which, kind, id, count, wanted))
        return 0;
    before.senders[party][row] = lent.table.senders[party][row];
    return memcmp(&before, &lent.table, sizeof before) == 0;
}

// Whether a row of the party is shown with these cells, and with this id, or with no id at all; the table is only read.
static int shows(uint64_t row, const uint8_t *id, const uint64_t cells[6])
{
    table before = lent.table;
    uint8_t told[ID + 2 * AROUND];
    uint64_t answer[8] = {MARKED, MARKED, MARKED, MARKED, MARKED, MARKED, MARKED, MARKED};
    memset(told, MARK, sizeof told);
    knotsaffron_losses_row(&lent.table, party, row, told + AROUND, answer + 1);
    return memcmp(answer + 1, cells, 6 * sizeof cells[0]) == 0 && answer[0] == MARKED && answer[7] == MARKED
           && (id == NULL ? is_filled(told + AROUND, MARK, ID) : memcmp(told + AROUND, id, ID) == 0) && is_filled(told, MARK, AROUND)
           && is_filled(told + AROUND + ID, MARK, AROUND) && memcmp(&before, &lent.table, sizeof before) == 0 && is_kept_around();
}

static const uint64_t nothing[6] = {28, 0, 0, 0, 0, 0}, no_party[6] = {29, 0, 0, 0, 0, 0};

// An id that two numbers tell apart, in its first and in its last byte.
static void make_id(uint8_t id[ID], uint8_t first, uint8_t last)
{
    const uint8_t made[ID] = {first, 0x22, 0x33, 0x44, 0x55, 0x66, 0x77, last};
    memcpy(id, made, ID);
}

// ---- a history worked by hand, from empty rows

struct step {
    const char *name;
    enum call call;
    uint64_t kind;
    uint8_t id, count;
    uint64_t answer[2];
    // first, last, received, missed of the row behind a report that is done
    uint64_t row[4];
};

static const struct step steps[] = {
    {"a new sender", REPORT, 0, 1, 5, {0, 0}, {5, 5, 1, 0}},
    {"three missed", REPORT, 0, 1, 9, {0, 0}, {5, 9, 2, 3}},
    {"equal counts", REPORT, 0, 1, 9, {0, 0}, {5, 9, 3, 130}},
    {"round the ring", REPORT, 0, 1, 0, {0, 0}, {5, 0, 4, 248}},
    {"the next count", REPORT, 0, 1, 1, {0, 0}, {5, 1, 5, 248}},
    {"the same id with another kind", REPORT, 2, 1, 7, {0, 1}, {7, 7, 1, 0}},
    {"the same id with the third kind", REPORT, 4, 1, 127, {0, 2}, {127, 127, 1, 0}},
    {"127, then 0", REPORT, 4, 1, 0, {0, 2}, {127, 0, 2, 0}},
    {"the first kind still counts alone", REPORT, 0, 1, 2, {0, 0}, {5, 2, 6, 248}},
    {"count 128", REPORT, 0, 1, 128, {4, 0}, {0}},
    {"count 255", REPORT, 0, 9, 255, {4, 0}, {0}},
    {"count 128 of MAP", REPORT, MAP, 1, 128, {4, 0}, {0}},
    {"MAP", REPORT, MAP, 1, 127, {25, 0}, {0}},
    {"SPAT", REPORT, SPAT, 1, 0, {25, 0}, {0}},
    {"kind 5", REPORT, 5, 1, 0, {25, 0}, {0}},
    // known by its lowest byte or by its lower half, but not as a whole
    {"kind 256", REPORT, 256, 1, 0, {25, 0}, {0}},
    {"kind 2^16", REPORT, UINT64_C(1) << 16, 1, 0, {25, 0}, {0}},
    {"kind 2^32 + 2", REPORT, (UINT64_C(1) << 32) + 2, 1, 0, {25, 0}, {0}},
    {"kind 2^63 + 4", REPORT, (UINT64_C(1) << 63) + 4, 1, 0, {25, 0}, {0}},
    {"the largest kind", REPORT, UINT64_MAX, 1, 0, {25, 0}, {0}},
    {"drop of MAP", DROP, MAP, 1, 0, {28, 0}, {0}},
    {"drop of kind 2^16", DROP, UINT64_C(1) << 16, 1, 0, {28, 0}, {0}},
    {"drop of the largest kind", DROP, UINT64_MAX, 1, 0, {28, 0}, {0}},
    {"drop of an id that is not held", DROP, 0, 2, 0, {28, 0}, {0}},
    {"drop of the second kind", DROP, 2, 1, 0, {0, 1}, {0}},
    {"drop of what was dropped", DROP, 2, 1, 0, {28, 0}, {0}},
    {"drop of the first kind", DROP, 0, 1, 0, {0, 0}, {0}},
    {"the lowest free row", REPORT, 0, 3, 1, {0, 0}, {1, 1, 1, 0}},
    {"the next free row", REPORT, 2, 3, 1, {0, 1}, {1, 1, 1, 0}},
    {"what was dropped comes as new", REPORT, 0, 1, 100, {0, 3}, {100, 100, 1, 0}},
    {"the row between still counts", REPORT, 4, 1, 5, {0, 2}, {127, 5, 3, 4}},
};

static void try_step(const struct step *s)
{
    uint8_t id[ID];
    uint64_t cells[6] = {0, s->kind, s->row[0], s->row[1], s->row[2], s->row[3]};
    make_id(id, s->id, 0x88);
    if (s->answer[0] != KNOTSAFFRON_DONE)
        expect(s->name, refuses(s->call, s->kind, id, s->count, s->answer[0]));
    else if (s->call == DROP)
        expect(s->name, does(DROP, s->kind, id, 0, s->answer[1]) && shows(s->answer[1], NULL, nothing)
                            && is_filled(&lent.table.senders[party][s->answer[1]], 0, sizeof(sender)));
    else
        expect(s->name, does(REPORT, s->kind, id, s->count, s->answer[1]) && shows(s->answer[1], id, cells));
}

static void try_history(void)
{
    lend(0);
    for (size_t i = 0; i < sizeof steps / sizeof steps[0]; i++)
        try_step(&steps[i]);
}

// ---- rows of each sort

// The layout that the library has, which callers in other languages have to repeat.
static void try_layout(void)
{
    expect("24 bytes for a sender", sizeof(sender) == 24);
    expect("1,536 bytes for a table", sizeof(table) == 1536);
    expect("where each party's rows stand", offsetof(table, senders[0]) == 0 && offsetof(table, senders[1]) == 768);
    expect("where the members stand", offsetof(sender, id) == 0 && offsetof(sender, kind) == 8 && offsetof(sender, first) == 10
                                          && offsetof(sender, last) == 11 && offsetof(sender, received) == 12
                                          && offsetof(sender, missed) == 16);
}

static void try_start(void)
{
    static const uint8_t bytes[] = {0x00, 0xff, 0xa5};
    for (size_t i = 0; i < sizeof bytes; i++) {
        others = bytes[i];
        lend(bytes[i]);
        knotsaffron_losses_start(&lent.table);
        expect("a table that is started", is_filled(&lent.table, 0, sizeof lent.table) && is_kept_around());
    }
}

static void try_empty(void)
{
    uint8_t id[ID] = {0};
    unsigned wrong = 0;
    lend(0);
    for (uint64_t row = 0; row < ROWS; row++)
        wrong += !shows(row, NULL, nothing);
    expect("empty rows", wrong == 0);
    // a free row's bytes are those of an id of zeros
    expect("drop from empty rows", refuses(DROP, 0, id, 0, 28));
    expect("the id of zeros", does(REPORT, 0, id, 0, 0) && shows(0, id, (uint64_t[6]){0, 0, 0, 0, 1, 0}));
    expect("drop of the id of zeros",
           does(DROP, 0, id, 0, 0) && is_filled(lent.table.senders[party], 0, sizeof lent.table.senders[party]));
}

// Ids that differ in one byte, or in one bit of it, are different senders: half of the bits of an id at a time, as there are rows.
static void try_ids(void)
{
    uint8_t id[ID];
    for (size_t half = 0; half < 2; half++) {
        unsigned wrong = 0;
        lend(0);
        for (uint64_t row = 0; row < ROWS; row++) {
            size_t bit = half * ROWS + row;
            memset(id, 0x5a, ID);
            id[bit / 8] ^= (uint8_t)(1u << bit % 8);
            wrong += !does(REPORT, 0, id, (uint8_t)row, row);
        }
        expect("ids that differ in one bit", wrong == 0);
        memset(id, 0x5a, ID);
        expect("an id that differs from all in one bit", refuses(REPORT, 0, id, 0, 20) && refuses(DROP, 0, id, 0, 28));
    }
}

static const uint64_t kinds[] = {0, 2, 4};

// Fills the party's rows, three kinds of each id. Whether each sender took the next row.
static int fill(void)
{
    uint8_t id[ID];
    unsigned wrong = 0;
    for (uint64_t row = 0; row < ROWS; row++) {
        make_id(id, 1, (uint8_t)(row / 3));
        wrong += !does(REPORT, kinds[row % 3], id, (uint8_t)row, row);
    }
    return wrong == 0;
}

static void try_full(void)
{
    uint8_t id[ID], other[ID];
    unsigned wrong = 0;
    lend(0);
    expect("32 senders in 32 rows", fill());
    for (uint64_t row = 0; row < ROWS; row++) {
        make_id(id, 1, (uint8_t)(row / 3));
        wrong += !does(REPORT, kinds[row % 3], id, 127, row) || !shows(row, id, (uint64_t[6]){0, kinds[row % 3], row, 127, 2, 126 - row});
    }
    expect("known senders of full rows", wrong == 0);
    make_id(other, 2, 0);
    expect("a new sender and full rows", refuses(REPORT, 0, other, 0, 20));
    expect("a known id with a new kind and full rows", refuses(REPORT, 4, id, 0, 20));
    expect("full rows: 4 before 20", refuses(REPORT, 0, other, 128, 4));
    expect("full rows: 25 before 20", refuses(REPORT, MAP, other, 0, 25));
    expect("full rows: drop of a new sender", refuses(DROP, 0, other, 0, 28));
    expect("full rows: drop of the last row", does(DROP, kinds[31 % 3], id, 0, 31));
    make_id(id, 1, 6);
    expect("full rows: drop of row 20", does(DROP, kinds[20 % 3], id, 0, 20));
    expect("the lower of two free rows", does(REPORT, 0, other, 0, 20));
    expect("the last free row", does(REPORT, 2, other, 0, 31));
    expect("full again", refuses(REPORT, 4, other, 0, 20));
}

static void try_most_received(void)
{
    uint8_t id[ID];
    lend(0);
    make_id(id, 1, 1);
    for (int count = 0; count < 6; count++)
        expect("the first reports", does(REPORT, 4, id, (uint8_t)count, 0));
    lent.table.senders[party][0].received = UINT32_MAX - 1;
    expect("the last report that is counted", does(REPORT, 4, id, 7, 0) && shows(0, id, (uint64_t[6]){0, 4, 0, 7, UINT32_MAX, 1}));
    expect("one report more", refuses(REPORT, 4, id, 8, 21));
    expect("4 before 21", refuses(REPORT, 4, id, 128, 4));
    expect("another kind is another sender", does(REPORT, 2, id, 8, 1));
    expect("drop of the most received", does(DROP, 4, id, 0, 0));
    expect("from the beginning", does(REPORT, 4, id, 8, 0) && shows(0, id, (uint64_t[6]){0, 4, 8, 8, 1, 0}));
}

static void try_rows_that_are_not_there(void)
{
    static const uint64_t rows[] = {32, 33, 63, 64, 128, 256, UINT64_C(1) << 16, UINT64_C(1) << 32, UINT64_C(1) << 63, UINT64_MAX};
    lend(0xff);
    for (size_t i = 0; i < sizeof rows / sizeof rows[0]; i++)
        expect("a row that is not there", shows(rows[i], NULL, nothing));
}

// Every byte 0xff: 32 rows that are held, by a kind that has no senders.
static void try_all_ones(void)
{
    uint8_t ones[ID];
    sender *rows = lent.table.senders[party];
    memset(ones, 0xff, ID);
    lend(0xff);
    expect("all ones: row 0", shows(0, ones, (uint64_t[6]){0, 65535, 255, 255, UINT32_MAX, UINT64_MAX}));
    expect("all ones: the last row", shows(31, ones, (uint64_t[6]){0, 65535, 255, 255, UINT32_MAX, UINT64_MAX}));
    expect("all ones: a report", refuses(REPORT, 0, ones, 5, 20));
    expect("all ones: a report of kind 65535", refuses(REPORT, 65535, ones, 5, 25));
    expect("all ones: a drop of kind 65535", refuses(DROP, 65535, ones, 0, 28));
    expect("all ones: a drop", refuses(DROP, 0, ones, 0, 28));
    rows[31].kind = 0;
    expect("all ones: the most received", refuses(REPORT, 0, ones, 5, 21));
    rows[31].received = 1;
    expect("nothing is missed behind a last count above 127",
           does(REPORT, 0, ones, 5, 31) && shows(31, ones, (uint64_t[6]){0, 0, 255, 5, 2, UINT64_MAX}));
    expect("missed goes on from 0", does(REPORT, 0, ones, 9, 31) && shows(31, ones, (uint64_t[6]){0, 0, 255, 9, 3, 2}));
    rows[7] = rows[31];
    expect("the lower of two rows with one sender", does(REPORT, 0, ones, 10, 7));
    expect("its drop", does(DROP, 0, ones, 0, 7));
    expect("the other one is left", does(DROP, 0, ones, 0, 31) && refuses(DROP, 0, ones, 0, 28));
    rows[20].received = 0;
    expect("a free row of wild bytes", shows(20, NULL, nothing));
}

// ---- two parties

// What is no party is 29, before all that could be said of its call besides; nothing is touched, whatever the table holds.
static void try_no_party(void)
{
    // known by the lowest byte or by the lower half, but not as a whole
    static const uint64_t none[] = {2, 3, 255, 256, 257, UINT64_C(1) << 32, (UINT64_C(1) << 32) + 1, UINT64_C(1) << 63, UINT64_MAX};
    static const uint8_t bytes[] = {0x00, 0xff};
    uint8_t id[ID];
    make_id(id, 1, 0);
    for (size_t i = 0; i < sizeof bytes; i++)
        for (size_t j = 0; j < sizeof none / sizeof none[0]; j++) {
            party = KNOTSAFFRON_LOGGER;
            others = bytes[i];
            lend(bytes[i]);
            party = none[j];
            expect("no party: a report", refuses(REPORT, 0, id, 0, 29));
            expect("no party: 29 before 4", refuses(REPORT, 0, id, 128, 29));
            expect("no party: 29 before 25", refuses(REPORT, MAP, id, 0, 29));
            expect("no party: a drop", refuses(DROP, 0, id, 0, 29));
            expect("no party: rows", shows(0, NULL, no_party) && shows(31, NULL, no_party) && shows(32, NULL, no_party));
        }
}

// The room of one party is no room of the other's: each in turn is full, with the other's rows free, and then both are.
static void try_room_at_the_other(void)
{
    uint8_t id[ID];
    make_id(id, 2, 0);
    others = 0;
    for (uint64_t full = 0; full < PARTIES; full++) {
        party = full;
        lend(0);
        expect("one party is full", fill() && refuses(REPORT, 0, id, 0, 20));
        party = 1 - full;
        expect("the other has room", does(REPORT, 0, id, 5, 0) && shows(0, id, (uint64_t[6]){0, 0, 5, 5, 1, 0}));
        party = full;
        expect("what the other holds is new, and there is no room", refuses(REPORT, 0, id, 6, 20) && refuses(DROP, 0, id, 0, 28));
        party = 1 - full;
        expect("a drop at the other", does(DROP, 0, id, 0, 0) && fill());
        for (party = 0; party < PARTIES; party++)
            expect("both are full", refuses(REPORT, 0, id, 0, 20));
    }
}

// A sender stands once for each party, in a row of each, and counts there alone; a drop does not reach the other's.
static void try_sender_of_both(void)
{
    uint8_t first[ID], both[ID];
    make_id(first, 1, 0);
    make_id(both, 2, 0);
    others = 0;
    party = KNOTSAFFRON_LOGGER;
    lend(0);
    expect("a sender of the logger alone", does(REPORT, 0, first, 0, 0));
    expect("the logger's row of a sender of both", does(REPORT, 2, both, 10, 1) && does(REPORT, 2, both, 14, 1));
    party = KNOTSAFFRON_MAP_DISPLAY;
    expect("the display does not hold it", refuses(DROP, 2, both, 0, 28) && shows(1, NULL, nothing));
    expect("the display's row of it", does(REPORT, 2, both, 100, 0) && shows(0, both, (uint64_t[6]){0, 2, 100, 100, 1, 0}));
    party = KNOTSAFFRON_LOGGER;
    expect("it counts on from its own count", does(REPORT, 2, both, 15, 1) && shows(1, both, (uint64_t[6]){0, 2, 10, 15, 3, 3}));
    expect("the logger drops it", does(DROP, 2, both, 0, 1) && shows(1, NULL, nothing));
    expect("and does not hold it", refuses(DROP, 2, both, 0, 28));
    party = KNOTSAFFRON_MAP_DISPLAY;
    expect("the display holds it still", does(REPORT, 2, both, 101, 0) && shows(0, both, (uint64_t[6]){0, 2, 100, 101, 2, 0}));
    expect("the display drops it", does(DROP, 2, both, 0, 0) && refuses(DROP, 2, both, 0, 28));
    expect("a sender of the logger alone is none of the display's", refuses(DROP, 0, first, 0, 28));
}

// The last row of a party, and the number behind it, which is no row of the other's.
static void try_last_rows(void)
{
    uint8_t id[ID];
    others = 0;
    party = KNOTSAFFRON_LOGGER;
    lend(0);
    for (party = 0; party < PARTIES; party++)
        expect("both parties are filled", fill());
    make_id(id, 1, 10);
    for (party = 0; party < PARTIES; party++) {
        expect("row 31 is the last", shows(31, id, (uint64_t[6]){0, 2, 31, 31, 1, 0}));
        expect("row 32 is none", shows(32, NULL, nothing) && shows(63, NULL, nothing));
    }
}

// ---- wild tables, held against the model

// Numbers that look wild, the same in every run.
static uint64_t wild(void)
{
    static uint64_t state = 1;
    state = state * UINT64_C(6364136223846793005) + UINT64_C(1442695040888963407);
    return state >> 33;
}

// Makes the rows of a party ones of random bytes, of which some are free and some are of senders that calls will name.
static void make_wild(sender rows[ROWS])
{
    uint8_t *bytes = (uint8_t *)rows;
    for (size_t i = 0; i < ROWS * sizeof(sender); i++)
        bytes[i] = (uint8_t)wild();
    unsigned free_rows = (unsigned)wild() % 3;
    for (size_t row = 0; row < ROWS; row++) {
        sender *s = &rows[row];
        if (wild() % 2 == 0) {
            s->kind = (uint16_t)(wild() % 6);
            make_id(s->id, (uint8_t)(wild() % 3), (uint8_t)(wild() % 4));
            s->received = wild() % 4 == 0 ? UINT32_MAX - (uint32_t)(wild() % 3) : s->received;
        }
        if (free_rows == 1 ? wild() % 2 == 0 : free_rows == 2 && wild() % 20 == 0)
            s->received = 0;
    }
}

// A call that the wild numbers choose, by one of the parties or, now and then, by none.
struct wild_call {
    enum call which;
    uint64_t party, kind;
    uint8_t id[ID], count;
};

static struct wild_call wild_call(void)
{
    struct wild_call c = {.which = wild() % 4 == 0 ? DROP : REPORT, .kind = wild() % 6, .count = (uint8_t)(wild() % 140)};
    c.party = wild() % 16 == 0 ? 2 + wild() : wild() % 2;
    make_id(c.id, (uint8_t)(wild() % 3), (uint8_t)(wild() % 8));
    return c;
}

// What the model of the call's party makes of its rows in a table, and answers.
static void model_call(table *t, const struct wild_call *c, uint64_t answer[2])
{
    answer[0] = KNOTSAFFRON_UNKNOWN_PARTY;
    answer[1] = 0;
    if (c->party >= PARTIES)
        return;
    if (c->which == REPORT)
        model_report(t->senders[c->party], c->kind, c->id, c->count, answer);
    else
        model_drop(t->senders[c->party], c->kind, c->id, answer);
}

// Whether the answer to a call, and every byte of the table behind it, are the models'.
static int is_as_the_models(unsigned met[30])
{
    table wanted = lent.table;
    uint64_t answer[2];
    struct wild_call c = wild_call();
    model_call(&wanted, &c, answer);
    met[answer[0]]++;
    party = c.party;
    return call(c.which, c.kind, c.id, c.count, answer) && memcmp(&wanted, &lent.table, sizeof wanted) == 0;
}

static int is_shown_as_it_stands(uint64_t row)
{
    const sender *s = &lent.table.senders[party][row];
    const uint64_t cells[6] = {0, s->kind, s->first, s->last, s->received, s->missed};
    return s->received == 0 ? shows(row, NULL, nothing) : shows(row, s->id, cells);
}

static void try_wild(void)
{
    unsigned met[30] = {0}, wrong_calls = 0, wrong_rows = 0;
    for (int i = 0; i < TABLES; i++) {
        party = KNOTSAFFRON_LOGGER;
        lend(0);
        for (size_t j = 0; j < PARTIES; j++)
            make_wild(lent.table.senders[j]);
        for (int j = 0; j < CALLS; j++)
            wrong_calls += !is_as_the_models(met);
        for (party = 0; party < PARTIES; party++)
            for (uint64_t row = 0; row < ROWS; row++)
                wrong_rows += !is_shown_as_it_stands(row);
    }
    expect("calls on wild tables", wrong_calls == 0);
    expect("rows of wild tables", wrong_rows == 0);
    expect("every number was met on wild tables", met[0] && met[4] && met[20] && met[21] && met[25] && met[28] && met[29]);
}

// ---- both parties on one table, and each alone on a table of its own

// Makes a call by a party on a table to which no other calls.
static void call_alone(table *alone, const struct wild_call *c, uint64_t answer[2])
{
    if (c->which == REPORT)
        knotsaffron_losses_report(alone, c->party, c->kind, c->id, c->count, answer);
    else
        knotsaffron_losses_drop(alone, c->party, c->kind, c->id, answer);
}

// Whether a row is shown to the party as it is on its own table.
static int is_shown_as_alone(const table *alone, uint64_t row)
{
    uint8_t id[ID];
    uint64_t cells[6];
    knotsaffron_losses_row(alone, party, row, id, cells);
    return shows(row, cells[0] == KNOTSAFFRON_DONE ? id : NULL, cells);
}

// Calls of both parties, one among the other: each answer, and now and then each row, is that of the party's own calls alone.
static void try_turns(void)
{
    static table alone[PARTIES];
    unsigned met[30] = {0}, wrong_calls = 0, wrong_rows = 0;
    uint64_t answer[2] = {29, 0};
    party = KNOTSAFFRON_LOGGER;
    others = 0;
    lend(0);
    for (int i = 0; i < TURNS; i++) {
        struct wild_call c = wild_call();
        answer[0] = KNOTSAFFRON_UNKNOWN_PARTY;
        answer[1] = 0;
        if (c.party < PARTIES)
            call_alone(&alone[c.party], &c, answer);
        met[answer[0]]++;
        party = c.party;
        wrong_calls += !call(c.which, c.kind, c.id, c.count, answer);
        if (i % 100 == 0)
            for (party = 0; party < PARTIES; party++)
                for (uint64_t row = 0; row <= ROWS; row++)
                    wrong_rows += !is_shown_as_alone(&alone[party], row);
    }
    expect("calls of both parties are answered as to each alone", wrong_calls == 0);
    expect("rows of both parties are shown as to each alone", wrong_rows == 0);
    expect("every number but 21 was met in turn", met[0] && met[4] && met[20] && met[25] && met[28] && met[29]);
}

// What holds for each party, beside rows of the other that are free, that are held with every byte 1, or with every byte 0xff.
static void try_each_party(void)
{
    static const uint8_t bytes[] = {0x00, 0x01, 0xff};
    for (uint64_t own = 0; own < PARTIES; own++)
        for (size_t i = 0; i < sizeof bytes; i++) {
            party = own;
            others = bytes[i];
            try_history();
            try_empty();
            try_ids();
            try_full();
            try_most_received();
            try_rows_that_are_not_there();
            try_all_ones();
        }
}

int main(void)
{
    try_layout();
    try_start();
    try_each_party();
    try_no_party();
    try_room_at_the_other();
    try_sender_of_both();
    try_last_rows();
    try_wild();
    try_turns();
    return tell();
}
