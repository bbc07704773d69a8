// Calls the check of a plan and the planner (document 02, A9) on entries and plans that were written down cell by cell, with lengths worked out
// by hand: the numbers, the places and the cells of a plan, and that what is only read, the cells beside it, and with every refusal the lent
// plan, are as they were. Then holds plans for every limit against what the writer says of their messages. Last line 'N passed, M failed'.
#include "sheets.h"

enum { CHECK_ANSWER = 2, MAKE_ANSWER = 3, MOST_ANSWER = 3, BEHIND = 2, BESIDE = 3, MARK = -99, MOST_LENT = 4000, UNTOLD = 99 };

// A header: an RSI with neither list; the message count, the id of the unit, its position without a height. It takes 143 bits, and with a list
// of signs, whose count takes 4, it takes 147; with one of events, whose count takes 3, 146.
#define BODY 5, 1, 2, 3, 4, 5, 6, 7, 8, 0, 399042000, 1164074000
#define HEADER KNOTSAFFRON_RSI, 0, 0, 0, BODY
// The same with a time and a height, which take 20 bits and 16 more.
#define FULL_HEADER KNOTSAFFRON_RSI, 1, 0, 0, 5, 527040, 1, 2, 3, 4, 5, 6, 7, 8, 1, 399042000, 1164074000, 435

// A sign with nothing that is optional: its number and its type. It has 8 cells and takes 31 bits. And one that says "0123456789", which has 20
// cells and takes 31 + 10 + 70 bits.
#define SIGN(id) 0, 0, 0, 0, 0, 0, id, 0
#define LONG_SIGN(id) 0, 1, 0, 0, 0, 0, id, 0, 0, 10, '0', '1', '2', '3', '4', '5', '6', '7', '8', '9'
#define FOUR_SIGNS SIGN(1), SIGN(2), SIGN(3), SIGN(4)
#define SIXTEEN_SIGNS FOUR_SIGNS, FOUR_SIGNS, FOUR_SIGNS, FOUR_SIGNS

// An event with nothing that is optional: its number, its type and its source. It has 11 cells and takes 37 bits.
#define EVENT(id) 0, 0, 0, 0, 0, 0, 0, 0, id, 707, 5
#define THREE_EVENTS EVENT(1), EVENT(2), EVENT(3)
#define NINE_EVENTS THREE_EVENTS, THREE_EVENTS, THREE_EVENTS

// The numbers of the entries that a full message has.
#define EIGHT_NUMBERS 0, 1, 2, 3, 4, 5, 6, 7
#define SIXTEEN_NUMBERS EIGHT_NUMBERS, 8, 9, 10, 11, 12, 13, 14, 15

// A number whose lower half is 0.
#define FAR INT64_C(4294967296)

// Messages by hand, and how many bytes they have.
struct message {
    const char *name;
    uint64_t bytes;
    struct sheet sheet;
};

static const struct message messages[] = {
    {"one sign, 178 bits", 23, SHEET(KNOTSAFFRON_RSI, 0, 0, 1, BODY, 1, SIGN(1))},
    {"two signs, 209 bits", 27, SHEET(KNOTSAFFRON_RSI, 0, 0, 1, BODY, 2, SIGN(1), SIGN(2))},
    {"three signs, 240 bits", 30, SHEET(KNOTSAFFRON_RSI, 0, 0, 1, BODY, 3, SIGN(1), SIGN(2), SIGN(3))},
    {"a long sign, 258 bits", 33, SHEET(KNOTSAFFRON_RSI, 0, 0, 1, BODY, 1, LONG_SIGN(1))},
    {"a sign and a long one, 289 bits", 37, SHEET(KNOTSAFFRON_RSI, 0, 0, 1, BODY, 2, SIGN(1), LONG_SIGN(2))},
    {"sixteen signs, 643 bits", 81, SHEET(KNOTSAFFRON_RSI, 0, 0, 1, BODY, 16, SIXTEEN_SIGNS)},
    {"one event, 183 bits", 23, SHEET(KNOTSAFFRON_RSI, 0, 1, 0, BODY, 1, EVENT(1))},
    {"six events, 368 bits", 46, SHEET(KNOTSAFFRON_RSI, 0, 1, 0, BODY, 6, THREE_EVENTS, THREE_EVENTS)},
    {"eight events, 442 bits", 56, SHEET(KNOTSAFFRON_RSI, 0, 1, 0, BODY, 8, THREE_EVENTS, THREE_EVENTS, EVENT(7), EVENT(8))},
    {"three signs behind a full header, 276 bits", 35,
        SHEET(KNOTSAFFRON_RSI, 1, 0, 1, 5, 527040, 1, 2, 3, 4, 5, 6, 7, 8, 1, 399042000, 1164074000, 435, 3, SIGN(1), SIGN(2), SIGN(3))},
};

// A plan that is checked: number and place.
struct checked {
    const char *name;
    uint64_t answer[CHECK_ANSWER];
    uint64_t kind, limit;
    struct sheet header, entries, plan;
};

#define OF_SIGNS(number, place, limit) {number, place}, KNOTSAFFRON_SIGNS, limit, SHEET(HEADER)
#define OF_EVENTS(number, place, limit) {number, place}, KNOTSAFFRON_EVENTS, limit, SHEET(HEADER)
#define NO_ENTRIES SHEET(0)
#define THREE SHEET(3, SIGN(1), SIGN(2), SIGN(3))
#define SIXTEEN SHEET(16, SIXTEEN_SIGNS)
#define SEVENTEEN SHEET(17, SIXTEEN_SIGNS, SIGN(5))
#define NINE SHEET(9, NINE_EVENTS)
// three signs in one message, for which 30 bytes are enough
#define GOOD SHEET(1, 3, 0, 1, 2)
#define ENOUGH 30

static const struct checked plans[] = {
    {"no signs, no messages", OF_SIGNS(0, 0, 2048), NO_ENTRIES, SHEET(0)},
    {"no events, no messages", OF_EVENTS(0, 0, 2048), NO_ENTRIES, SHEET(0)},
    {"no messages at the lowest limit", OF_SIGNS(0, 0, 1), NO_ENTRIES, SHEET(0)},
    {"no entries, an empty message", OF_SIGNS(71, 0, 2048), NO_ENTRIES, SHEET(1, 0)},
    {"no entries, and a message that names one", OF_SIGNS(71, 0, 2048), NO_ENTRIES, SHEET(1, 1, 0)},
    {"at the limit", OF_SIGNS(0, 0, ENOUGH), THREE, GOOD},
    {"a byte above the limit", OF_SIGNS(71, 0, 29), THREE, GOOD},
    {"at the highest limit", OF_SIGNS(0, 0, 2048), THREE, GOOD},
    {"at the lowest limit", OF_SIGNS(71, 0, 1), THREE, GOOD},
    {"each alone", OF_SIGNS(0, 0, 23), THREE, SHEET(3, 1, 0, 1, 1, 1, 2)},
    {"each alone, a byte above the limit", OF_SIGNS(71, 0, 22), THREE, SHEET(3, 1, 0, 1, 1, 1, 2)},
    {"order is not asked for across messages", OF_SIGNS(0, 0, 27), THREE, SHEET(2, 1, 2, 2, 0, 1)},
    {"the second message a byte above the limit", OF_SIGNS(71, 1, 26), THREE, SHEET(2, 1, 2, 2, 0, 1)},
    {"messages that take turns", OF_SIGNS(0, 0, 27), THREE, SHEET(2, 2, 0, 2, 1, 1)},
    {"a long sign alone", OF_SIGNS(0, 0, 33), SHEET(2, SIGN(1), LONG_SIGN(2)), SHEET(2, 1, 0, 1, 1)},
    {"a long sign beside another", OF_SIGNS(71, 0, 36), SHEET(2, SIGN(1), LONG_SIGN(2)), SHEET(1, 2, 0, 1)},
    {"sixteen signs", OF_SIGNS(0, 0, 81), SIXTEEN, SHEET(1, 16, SIXTEEN_NUMBERS)},
    {"sixteen signs, a byte above the limit", OF_SIGNS(71, 0, 80), SIXTEEN, SHEET(1, 16, SIXTEEN_NUMBERS)},
    {"seventeen signs in a message", OF_SIGNS(71, 0, 2048), SEVENTEEN, SHEET(1, 17, SIXTEEN_NUMBERS, 16)},
    {"seventeen signs in two", OF_SIGNS(0, 0, 2048), SEVENTEEN, SHEET(2, 16, SIXTEEN_NUMBERS, 1, 16)},
    {"six events at the limit", OF_EVENTS(0, 0, 46), SHEET(6, THREE_EVENTS, THREE_EVENTS), SHEET(1, 6, 0, 1, 2, 3, 4, 5)},
    {"six events, a byte above the limit", OF_EVENTS(71, 0, 45), SHEET(6, THREE_EVENTS, THREE_EVENTS), SHEET(1, 6, 0, 1, 2, 3, 4, 5)},
    {"eight events and one", OF_EVENTS(0, 0, 56), NINE, SHEET(2, 8, EIGHT_NUMBERS, 1, 8)},
    {"nine events in a message", OF_EVENTS(71, 0, 2048), NINE, SHEET(1, 9, EIGHT_NUMBERS, 8)},
    {"a full header at the limit", {0, 0}, KNOTSAFFRON_SIGNS, 35, SHEET(FULL_HEADER), THREE, GOOD},
    {"a full header, a byte above the limit", {71, 0}, KNOTSAFFRON_SIGNS, 34, SHEET(FULL_HEADER), THREE, GOOD},
    {"the first entry lacks", OF_SIGNS(70, 0, 2048), THREE, SHEET(1, 2, 1, 2)},
    {"the last entry lacks", OF_SIGNS(70, 2, 2048), THREE, SHEET(1, 2, 0, 1)},
    {"the first of two that lack", OF_SIGNS(70, 1, 2048), THREE, SHEET(1, 1, 0)},
    {"all entries lack", OF_SIGNS(70, 0, 2048), THREE, SHEET(0)},
    {"an entry in two messages", OF_SIGNS(70, 1, 2048), THREE, SHEET(2, 2, 0, 1, 2, 1, 2)},
    {"an entry twice in a message", OF_SIGNS(70, 1, 2048), THREE, SHEET(1, 4, 0, 1, 1, 2)},
    {"an entry three times", OF_SIGNS(70, 2, 2048), THREE, SHEET(3, 3, 0, 1, 2, 1, 2, 1, 2)},
    {"one twice before one that lacks", OF_SIGNS(70, 0, 2048), THREE, SHEET(1, 3, 0, 0, 2)},
    {"an entry by its lower half", OF_SIGNS(70, 0, 2048), THREE, SHEET(1, 3, FAR, 1, 2)},
    {"70 before an empty message", OF_SIGNS(70, 2, 2048), THREE, SHEET(2, 0, 2, 0, 1)},
    {"70 before an entry that is not there", OF_SIGNS(70, 2, 2048), THREE, SHEET(1, 3, 0, 1, 3)},
    {"70 before a wrong order", OF_SIGNS(70, 2, 2048), THREE, SHEET(1, 2, 1, 0)},
    {"70 before a message that is too long", OF_SIGNS(70, 2, 1), THREE, SHEET(1, 2, 0, 1)},
    {"the first message empty", OF_SIGNS(71, 0, 2048), THREE, SHEET(2, 0, 3, 0, 1, 2)},
    {"one in the middle empty", OF_SIGNS(71, 1, 2048), THREE, SHEET(3, 2, 0, 1, 0, 1, 2)},
    {"the last message empty", OF_SIGNS(71, 1, 2048), THREE, SHEET(2, 3, 0, 1, 2, 0)},
    {"an entry behind the last", OF_SIGNS(71, 0, 2048), THREE, SHEET(1, 4, 0, 1, 2, 3)},
    {"an entry below 0", OF_SIGNS(71, 1, 2048), THREE, SHEET(2, 3, 0, 1, 2, 1, -1)},
    {"the lowest cell", OF_SIGNS(71, 0, 2048), THREE, SHEET(1, 4, INT64_MIN, 0, 1, 2)},
    {"the highest cell", OF_SIGNS(71, 0, 2048), THREE, SHEET(1, 4, 0, 1, 2, INT64_MAX)},
    {"a number whose lower half is 0", OF_SIGNS(71, 1, 2048), THREE, SHEET(2, 3, 0, 1, 2, 1, FAR)},
    {"two neighbours out of order", OF_SIGNS(71, 0, 2048), THREE, SHEET(1, 3, 0, 2, 1)},
    {"the first behind the last", OF_SIGNS(71, 0, 2048), THREE, SHEET(1, 3, 1, 2, 0)},
    {"the second message out of order", OF_SIGNS(71, 1, 2048), THREE, SHEET(2, 1, 0, 2, 2, 1)},
    {"the first of two wrong messages", OF_SIGNS(71, 1, 2048), THREE, SHEET(4, 1, 1, 0, 2, 0, 2, 1, 3)},
    {"a limit of 0", OF_SIGNS(4, 0, 0), THREE, GOOD},
    {"a limit of 2,049", OF_SIGNS(4, 0, 2049), THREE, GOOD},
    {"a limit whose lower half is enough", OF_SIGNS(4, 0, FAR + ENOUGH), THREE, GOOD},
    {"the highest number as a limit", OF_SIGNS(4, 0, UINT64_MAX), THREE, GOOD},
    {"4 where there are no entries", OF_SIGNS(4, 0, 0), NO_ENTRIES, SHEET(0)},
    {"4 before 70", OF_SIGNS(4, 0, 0), THREE, SHEET(1, 1, 0)},
    {"4 before 71", OF_SIGNS(4, 0, 2049), THREE, SHEET(2, 3, 0, 1, 2, 0)},
    {"kind 2", {7, 0}, 2, ENOUGH, SHEET(HEADER), THREE, GOOD},
    {"a kind whose lower half is that of signs", {7, 0}, FAR + KNOTSAFFRON_SIGNS, ENOUGH, SHEET(HEADER), THREE, GOOD},
    {"the highest kind", {7, 0}, UINT64_MAX, ENOUGH, SHEET(HEADER), THREE, GOOD},
    {"signs as events", OF_EVENTS(7, 0, 2048), THREE, GOOD},
    {"events as signs", OF_SIGNS(7, 0, 2048), SHEET(1, EVENT(1)), SHEET(1, 1, 0)},
    {"no cells for the header", {7, 0}, KNOTSAFFRON_SIGNS, ENOUGH, NO_CELLS, THREE, GOOD},
    {"a map for the header", {7, 0}, KNOTSAFFRON_SIGNS, ENOUGH, SHEET(KNOTSAFFRON_MAP, 0, 5, 1, 0, 0, 0, 7, 0, 399042000, 1164074000), THREE, GOOD},
    {"a header with events", {7, 0}, KNOTSAFFRON_SIGNS, ENOUGH, SHEET(KNOTSAFFRON_RSI, 0, 1, 0, BODY, 1, EVENT(1)), THREE, GOOD},
    {"a header with signs", {7, 0}, KNOTSAFFRON_SIGNS, ENOUGH, SHEET(KNOTSAFFRON_RSI, 0, 0, 1, BODY, 1, SIGN(1)), THREE, GOOD},
    {"a header that has a list and none of its cells", {7, 0}, KNOTSAFFRON_SIGNS, ENOUGH, SHEET(KNOTSAFFRON_RSI, 0, 0, 1, BODY), THREE, GOOD},
    {"a header with a cell too many", {7, 0}, KNOTSAFFRON_SIGNS, ENOUGH, SHEET(HEADER, 0), THREE, GOOD},
    {"a header with a message count of 128", {7, 0}, KNOTSAFFRON_SIGNS, ENOUGH,
        SHEET(KNOTSAFFRON_RSI, 0, 0, 0, 128, 1, 2, 3, 4, 5, 6, 7, 8, 0, 399042000, 1164074000), THREE, GOOD},
    {"no cells for the entries", OF_SIGNS(7, 0, 2048), NO_CELLS, SHEET(0)},
    {"a count of entries below 0", OF_SIGNS(7, 0, 2048), SHEET(-1), SHEET(0)},
    {"a count of entries whose lower half is 0", OF_SIGNS(7, 0, 2048), SHEET(FAR), SHEET(0)},
    {"a cell behind no entries", OF_SIGNS(7, 0, 2048), SHEET(0, 0), SHEET(0)},
    {"an entry too few", OF_SIGNS(7, 0, 2048), SHEET(3, SIGN(1), SIGN(2)), GOOD},
    {"an entry too many", OF_SIGNS(7, 0, 2048), SHEET(3, FOUR_SIGNS), GOOD},
    {"an entry with number 256", OF_SIGNS(7, 0, 2048), SHEET(3, SIGN(1), SIGN(256), SIGN(3)), GOOD},
    {"no cells for the plan", OF_SIGNS(7, 0, 2048), THREE, NO_CELLS},
    {"a count of messages below 0", OF_SIGNS(7, 0, 2048), NO_ENTRIES, SHEET(-1)},
    {"a count of messages whose lower half is 1", OF_SIGNS(7, 0, 2048), THREE, SHEET(FAR + 1, 3, 0, 1, 2)},
    {"a cell behind the plan", OF_SIGNS(7, 0, 2048), THREE, SHEET(1, 3, 0, 1, 2, 0)},
    {"a message too few", OF_SIGNS(7, 0, 2048), THREE, SHEET(2, 3, 0, 1, 2)},
    {"a message that is cut", OF_SIGNS(7, 0, 2048), THREE, SHEET(1, 3, 0, 1)},
    {"a message with a count below 0", OF_SIGNS(7, 0, 2048), THREE, SHEET(1, -3, 0, 1, 2)},
    {"a message with a count whose lower half is 3", OF_SIGNS(7, 0, 2048), THREE, SHEET(1, FAR + 3, 0, 1, 2)},
    {"a message with the highest count", OF_SIGNS(7, 0, 2048), THREE, SHEET(1, INT64_MAX, 0, 1, 2)},
    {"7 before 4", OF_SIGNS(7, 0, 0), THREE, SHEET(1, 3, 0, 1)},
    {"7 before 70", OF_SIGNS(7, 0, 2048), THREE, SHEET(2, 1, 0)},
    {"7 before 71", OF_SIGNS(7, 0, 2048), THREE, SHEET(3, 3, 0, 1, 2, 0)},
};

// A plan that is made: number, place and cells, and the plan where it is 0.
struct made {
    const char *name;
    uint64_t answer[MAKE_ANSWER];
    uint64_t kind, limit;
    struct sheet header, entries, plan;
};

#define SIGNS_MADE(number, place, cells, limit) {number, place, cells}, KNOTSAFFRON_SIGNS, limit, SHEET(HEADER)
#define EVENTS_MADE(number, place, cells, limit) {number, place, cells}, KNOTSAFFRON_EVENTS, limit, SHEET(HEADER)
// a long sign between two others, and behind them
#define LONG_BETWEEN SHEET(3, SIGN(1), LONG_SIGN(2), SIGN(3))
#define LONG_BEHIND SHEET(3, SIGN(1), SIGN(2), LONG_SIGN(3))

static const struct made mades[] = {
    {"made for no signs", SIGNS_MADE(0, 0, 1, 2048), NO_ENTRIES, SHEET(0)},
    {"made for no events at the lowest limit", EVENTS_MADE(0, 0, 1, 1), NO_ENTRIES, SHEET(0)},
    {"three signs at the limit", SIGNS_MADE(0, 0, 5, 30), THREE, GOOD},
    {"three signs a byte above the limit", SIGNS_MADE(0, 0, 6, 29), THREE, SHEET(2, 2, 0, 1, 1, 2)},
    {"two signs at the limit", SIGNS_MADE(0, 0, 6, 27), THREE, SHEET(2, 2, 0, 1, 1, 2)},
    {"two signs a byte above the limit", SIGNS_MADE(0, 0, 7, 26), THREE, SHEET(3, 1, 0, 1, 1, 1, 2)},
    {"one sign at the limit", SIGNS_MADE(0, 0, 7, 23), THREE, SHEET(3, 1, 0, 1, 1, 1, 2)},
    {"one sign a byte above the limit", SIGNS_MADE(72, 0, 0, 22), THREE, NO_CELLS},
    {"a sign does not go back to a message with room", SIGNS_MADE(0, 0, 7, 33), LONG_BETWEEN, SHEET(3, 1, 0, 1, 1, 1, 2)},
    {"a long sign fits beside another", SIGNS_MADE(0, 0, 6, 37), LONG_BETWEEN, SHEET(2, 2, 0, 1, 1, 2)},
    {"the sign in the middle is too long", SIGNS_MADE(72, 1, 0, 32), LONG_BETWEEN, NO_CELLS},
    {"the last sign is too long", SIGNS_MADE(72, 2, 0, 32), LONG_BEHIND, NO_CELLS},
    {"the first of two that are too long", SIGNS_MADE(72, 1, 0, 32), SHEET(3, SIGN(1), LONG_SIGN(2), LONG_SIGN(3)), NO_CELLS},
    {"sixteen signs in a message", SIGNS_MADE(0, 0, 18, 81), SIXTEEN, SHEET(1, 16, SIXTEEN_NUMBERS)},
    {"fifteen signs and one", SIGNS_MADE(0, 0, 19, 80), SIXTEEN, SHEET(2, 15, EIGHT_NUMBERS, 8, 9, 10, 11, 12, 13, 14, 1, 15)},
    {"sixteen signs and one", SIGNS_MADE(0, 0, 20, 2048), SEVENTEEN, SHEET(2, 16, SIXTEEN_NUMBERS, 1, 16)},
    {"eight events and another", EVENTS_MADE(0, 0, 12, 2048), NINE, SHEET(2, 8, EIGHT_NUMBERS, 1, 8)},
    {"six events and three", EVENTS_MADE(0, 0, 12, 46), NINE, SHEET(2, 6, 0, 1, 2, 3, 4, 5, 3, 6, 7, 8)},
    {"five events and four", EVENTS_MADE(0, 0, 12, 45), NINE, SHEET(2, 5, 0, 1, 2, 3, 4, 4, 5, 6, 7, 8)},
    {"behind a full header at the limit", {0, 0, 5}, KNOTSAFFRON_SIGNS, 35, SHEET(FULL_HEADER), THREE, GOOD},
    {"behind a full header a byte above it", {0, 0, 6}, KNOTSAFFRON_SIGNS, 34, SHEET(FULL_HEADER), THREE, SHEET(2, 2, 0, 1, 1, 2)},
    {"made for a limit of 0", SIGNS_MADE(4, 0, 0, 0), THREE, NO_CELLS},
    {"made for a limit of 2,049", SIGNS_MADE(4, 0, 0, 2049), THREE, NO_CELLS},
    {"made for a limit whose lower half is enough", SIGNS_MADE(4, 0, 0, FAR + ENOUGH), THREE, NO_CELLS},
    {"4 where no entries are packed", SIGNS_MADE(4, 0, 0, 0), NO_ENTRIES, NO_CELLS},
    {"4 before 72", SIGNS_MADE(4, 0, 0, 0), LONG_BETWEEN, NO_CELLS},
    {"made for kind 2", {7, 0, 0}, 2, ENOUGH, SHEET(HEADER), THREE, NO_CELLS},
    {"made for a kind whose lower half is that of signs", {7, 0, 0}, FAR + KNOTSAFFRON_SIGNS, ENOUGH, SHEET(HEADER), THREE, NO_CELLS},
    {"made for signs as events", EVENTS_MADE(7, 0, 0, 2048), THREE, NO_CELLS},
    {"made without a header", {7, 0, 0}, KNOTSAFFRON_SIGNS, ENOUGH, NO_CELLS, THREE, NO_CELLS},
    {"made behind a header with signs", {7, 0, 0}, KNOTSAFFRON_SIGNS, ENOUGH, SHEET(KNOTSAFFRON_RSI, 0, 0, 1, BODY, 1, SIGN(1)), THREE, NO_CELLS},
    {"made behind a header with events", {7, 0, 0}, KNOTSAFFRON_SIGNS, ENOUGH, SHEET(KNOTSAFFRON_RSI, 0, 1, 0, BODY, 1, EVENT(1)), THREE, NO_CELLS},
    {"made without entries", SIGNS_MADE(7, 0, 0, 2048), NO_CELLS, NO_CELLS},
    {"made for a cell behind the entries", SIGNS_MADE(7, 0, 0, 2048), SHEET(1, SIGN(1), 0), NO_CELLS},
    {"made for entries that are cut", SIGNS_MADE(7, 0, 0, 2048), SHEET(2, SIGN(1), 0), NO_CELLS},
    {"7 before 4 in making", SIGNS_MADE(7, 0, 0, 0), SHEET(2, SIGN(1)), NO_CELLS},
    {"7 before 72", SIGNS_MADE(7, 0, 0, 1), SHEET(2, SIGN(1)), NO_CELLS},
};

// ---- calls with memory that is lent among marks

// Cells that are lent, and what they and the cells beside them were.
struct lent {
    int64_t cells[BESIDE + MOST_LENT + BESIDE], before[BESIDE + MOST_LENT + BESIDE];
};

static int64_t *lend(struct lent *lent, const int64_t *cells, size_t count)
{
    for (size_t i = 0; i < BESIDE + MOST_LENT + BESIDE; i++)
        lent->before[i] = MARK;
    memcpy(lent->before + BESIDE, cells, count * sizeof cells[0]);
    memcpy(lent->cells, lent->before, sizeof lent->before);
    return lent->cells + BESIDE;
}

static int is_kept(const struct lent *lent)
{
    return memcmp(lent->cells, lent->before, sizeof lent->cells) == 0;
}

// Where nothing is lent, or no plan is wanted.
static const int64_t nothing[1];

// What both functions take before the plan.
struct input {
    uint64_t kind, limit;
    const int64_t *header, *entries;
    size_t header_count, entries_count;
};

static struct lent header_lent, entries_lent, plan_lent;

static void start_answer(uint64_t answer[MOST_ANSWER + BEHIND])
{
    for (size_t i = 0; i < MOST_ANSWER + BEHIND; i++)
        answer[i] = UNTOLD;
}

// Whether the answer has these numbers, and the cells behind it are as they were.
static int is_told(const uint64_t told[MOST_ANSWER + BEHIND], const uint64_t *wanted, size_t count)
{
    int right = memcmp(told, wanted, count * sizeof told[0]) == 0;
    for (size_t i = count; i < MOST_ANSWER + BEHIND; i++)
        right = right && told[i] == UNTOLD;
    return right;
}

static int checks(const struct input *in, const int64_t *plan, size_t count, uint64_t number, uint64_t place)
{
    uint64_t answer[MOST_ANSWER + BEHIND], wanted[CHECK_ANSWER] = {number, place};
    start_answer(answer);
    const int64_t *header = lend(&header_lent, in->header, in->header_count);
    const int64_t *entries = lend(&entries_lent, in->entries, in->entries_count);
    knotsaffron_check_plan(in->kind, header, in->header_count, entries, in->entries_count, lend(&plan_lent, plan, count), count, in->limit,
                           answer);
    return is_told(answer, wanted, CHECK_ANSWER) && is_kept(&header_lent) && is_kept(&entries_lent) && is_kept(&plan_lent);
}

// The plan has so many cells where the number is 0, and then it is put where the marks were before.
static int makes(const struct input *in, size_t room, const uint64_t wanted[MAKE_ANSWER], const int64_t *plan)
{
    uint64_t answer[MOST_ANSWER + BEHIND];
    start_answer(answer);
    const int64_t *header = lend(&header_lent, in->header, in->header_count);
    const int64_t *entries = lend(&entries_lent, in->entries, in->entries_count);
    knotsaffron_make_plan(in->kind, header, in->header_count, entries, in->entries_count, in->limit, lend(&plan_lent, nothing, 0), room, answer);
    if (wanted[0] == KNOTSAFFRON_DONE)
        memcpy(plan_lent.before + BESIDE, plan, wanted[2] * sizeof plan[0]);
    return is_told(answer, wanted, MAKE_ANSWER) && is_kept(&header_lent) && is_kept(&entries_lent) && is_kept(&plan_lent);
}

// ---- the cases

static void try_message(const struct message *c)
{
    uint64_t written[4];
    uint8_t none;
    const struct sheet *sheet = &c->sheet;
    try_there_and_back(sheet);
    knotsaffron_write(KNOTSAFFRON_FIRST_EDITION, KNOTSAFFRON_MESSAGE_FRAME, sheet->cells, sheet->count, &none, 0, written);
    expect(c->name, written[0] == KNOTSAFFRON_NO_ROOM && written[3] == c->bytes);
}

static void try_checked(const struct checked *c)
{
    struct input in = {c->kind, c->limit, c->header.cells, c->entries.cells, c->header.count, c->entries.count};
    expect(c->name, checks(&in, c->plan.cells, c->plan.count, c->answer[0], c->answer[1]));
}

// With the room that is needed, with more, and with less, down to none, which changes the answer only where there is a plan.
static void try_made(const struct made *c)
{
    struct input in = {c->kind, c->limit, c->header.cells, c->entries.cells, c->header.count, c->entries.count};
    const uint64_t lacking[MAKE_ANSWER] = {KNOTSAFFRON_NO_ROOM, 0, c->answer[2]};
    int right = makes(&in, MOST_LENT, c->answer, c->plan.cells) && makes(&in, c->plan.count, c->answer, c->plan.cells);
    for (size_t room = 0; room < c->plan.count; room++)
        right = right && makes(&in, room, lacking, nothing);
    expect(c->name, right);
    if (c->answer[0] == KNOTSAFFRON_DONE)
        expect("the check passes what was made", checks(&in, c->plan.cells, c->plan.count, KNOTSAFFRON_DONE, 0));
}

// Every shorter part of the header, of the entries and of a plan is none.
static void try_cut(void)
{
    static const struct sheet header = SHEET(FULL_HEADER), entries = SHEET(2, SIGN(1), LONG_SIGN(2)), plan = SHEET(2, 1, 1, 1, 0);
    static const uint64_t refused[MAKE_ANSWER] = {KNOTSAFFRON_NO_VALUE, 0, 0};
    int right = 1;
    for (size_t count = 0; count < header.count; count++) {
        struct input in = {KNOTSAFFRON_SIGNS, 2048, header.cells, entries.cells, count, entries.count};
        right = right && checks(&in, plan.cells, plan.count, KNOTSAFFRON_NO_VALUE, 0) && makes(&in, MOST_LENT, refused, nothing);
    }
    expect("every part of a header", right);
    for (size_t count = 0; count < entries.count; count++) {
        struct input in = {KNOTSAFFRON_SIGNS, 2048, header.cells, entries.cells, header.count, count};
        right = right && checks(&in, plan.cells, plan.count, KNOTSAFFRON_NO_VALUE, 0) && makes(&in, MOST_LENT, refused, nothing);
    }
    expect("every part of the entries", right);
    struct input in = {KNOTSAFFRON_SIGNS, 2048, header.cells, entries.cells, header.count, entries.count};
    for (size_t count = 0; count < plan.count; count++)
        right = right && checks(&in, plan.cells, count, KNOTSAFFRON_NO_VALUE, 0);
    expect("every part of a plan", right && checks(&in, plan.cells, plan.count, KNOTSAFFRON_DONE, 0));
}

// ---- as many entries as there can be

static const struct sheet plain_header = SHEET(HEADER);

// So many entries of equal cells behind their count; the answer is how many cells they are.
static size_t put_entries(int64_t *to, size_t entries, const int64_t *cells, size_t count)
{
    to[0] = (int64_t)entries;
    for (size_t i = 0; i < entries; i++)
        memcpy(to + 1 + i * count, cells, count * sizeof cells[0]);
    return 1 + entries * count;
}

// The plan of so many entries with so many in each message; the answer is how many cells it has.
static size_t put_plan(int64_t *to, size_t entries, size_t in_message)
{
    size_t at = 1, messages = 0;
    for (size_t next = 0; next < entries; messages++) {
        size_t count = entries - next < in_message ? entries - next : in_message;
        to[at++] = (int64_t)count;
        for (size_t i = 0; i < count; i++)
            to[at++] = (int64_t)next++;
    }
    to[0] = (int64_t)messages;
    return at;
}

// 64 entries of a kind are planned and checked with so many in each message, for which the limit is just enough; 65 are refused.
static void try_most(const char *name, uint64_t kind, const int64_t *entry, size_t count, uint64_t limit, size_t in_message)
{
    static int64_t entries[1 + (KNOTSAFFRON_MOST_ENTRIES + 1) * 11];
    int64_t plan[KNOTSAFFRON_MOST_PLAN_CELLS];
    size_t cells = put_plan(plan, KNOTSAFFRON_MOST_ENTRIES, in_message);
    const uint64_t done[MAKE_ANSWER] = {KNOTSAFFRON_DONE, 0, cells}, lacking[MAKE_ANSWER] = {KNOTSAFFRON_NO_ROOM, 0, cells};
    static const uint64_t refused[MAKE_ANSWER] = {KNOTSAFFRON_NO_VALUE, 0, 0};
    struct input in = {kind, limit, plain_header.cells, entries, plain_header.count, 0};
    in.entries_count = put_entries(entries, KNOTSAFFRON_MOST_ENTRIES, entry, count);
    expect(name, makes(&in, cells, done, plan) && makes(&in, cells - 1, lacking, nothing) && checks(&in, plan, cells, KNOTSAFFRON_DONE, 0));
    in.entries_count = put_entries(entries, KNOTSAFFRON_MOST_ENTRIES + 1, entry, count);
    expect(name, makes(&in, MOST_LENT, refused, nothing) && checks(&in, plan, cells, KNOTSAFFRON_NO_VALUE, 0));
}

static void try_full(void)
{
    static const int64_t sign[] = {SIGN(7)}, event[] = {EVENT(7)};
    try_most("64 signs, each alone", KNOTSAFFRON_SIGNS, sign, sizeof sign / sizeof sign[0], 23, 1);
    try_most("64 signs, three in a message", KNOTSAFFRON_SIGNS, sign, sizeof sign / sizeof sign[0], 30, 3);
    try_most("64 signs, sixteen in a message", KNOTSAFFRON_SIGNS, sign, sizeof sign / sizeof sign[0], 2048, 16);
    try_most("64 events, each alone", KNOTSAFFRON_EVENTS, event, sizeof event / sizeof event[0], 23, 1);
    try_most("64 events, eight in a message", KNOTSAFFRON_EVENTS, event, sizeof event / sizeof event[0], 2048, 8);
}

// ---- messages that no bytes which are written can hold

// Five signs of 512 octets each, of which 147 + 4 * 4,137 bits are 2,087 bytes and 147 + 3 * 4,137 are 1,570.
static void try_long_messages(void)
{
    enum { OCTETS = 512, CELLS = 10 + OCTETS, SIGNS = 5 };
    static int64_t sign[CELLS] = {0, 1, 0, 0, 0, 0, 7, 0, 1, OCTETS}, entries[1 + SIGNS * CELLS];
    static const int64_t all[] = {1, 5, 0, 1, 2, 3, 4}, four[] = {2, 1, 0, 4, 1, 2, 3, 4}, three[] = {2, 3, 0, 1, 2, 2, 3, 4};
    static const uint64_t done[MAKE_ANSWER] = {KNOTSAFFRON_DONE, 0, sizeof three / sizeof three[0]};
    struct input in = {KNOTSAFFRON_SIGNS, 2048, plain_header.cells, entries, plain_header.count, put_entries(entries, SIGNS, sign, CELLS)};
    expect("five long signs in a message", checks(&in, all, sizeof all / sizeof all[0], KNOTSAFFRON_WRONG_MESSAGE, 0));
    expect("four long signs in a message", checks(&in, four, sizeof four / sizeof four[0], KNOTSAFFRON_WRONG_MESSAGE, 1));
    expect("three long signs in a message", checks(&in, three, sizeof three / sizeof three[0], KNOTSAFFRON_DONE, 0));
    expect("the plan for five long signs", makes(&in, MOST_LENT, done, three));
    in.limit = 1570;
    expect("three long signs at the limit", makes(&in, MOST_LENT, done, three));
}

// A sign with 8 paths of 32 points, of which each takes 68 bits: it alone has more than 2,048 bytes.
static void try_long_entry(void)
{
    enum { PATHS = 8, POINTS = 32, POINT_CELLS = 4, PATH_CELLS = 2 + POINTS * POINT_CELLS, CELLS = 9 + PATHS * PATH_CELLS };
    static int64_t entries[1 + 2 * CELLS], sign[CELLS] = {0, 0, 0, 0, 1, 0, 7, 0, PATHS};
    static const int64_t plan[] = {2, 1, 0, 1, 1};
    static const uint64_t refused[MAKE_ANSWER] = {KNOTSAFFRON_ENTRY_TOO_LONG, 0, 0};
    for (size_t path = 0; path < PATHS; path++) {
        int64_t *own = sign + 9 + path * PATH_CELLS;
        own[0] = POINTS;
        // no height, and the seventh form
        for (size_t point = 0; point < POINTS; point++)
            own[1 + point * POINT_CELLS + 1] = 6;
    }
    struct input in = {KNOTSAFFRON_SIGNS, 2048, plain_header.cells, entries, plain_header.count, put_entries(entries, 2, sign, CELLS)};
    expect("no plan for a sign above 2,048 bytes", makes(&in, MOST_LENT, refused, nothing));
    expect("a sign above 2,048 bytes alone", checks(&in, plan, sizeof plan / sizeof plan[0], KNOTSAFFRON_WRONG_MESSAGE, 0));
}

// ---- plans for every limit, by the writer's own length

enum { SPREAD = 12 };

// Signs with texts of different lengths, and where each begins and the last one ends.
static int64_t spread[1 + SPREAD * 60];
static size_t starts[SPREAD + 1];

static void put_spread(void)
{
    static const int64_t lengths[SPREAD] = {5, 1, 40, 3, 3, 48, 2, 9, 17, 33, 1, 1};
    size_t at = 1;
    spread[0] = SPREAD;
    for (size_t i = 0; i < SPREAD; i++) {
        const int64_t head[] = {0, 1, 0, 0, 0, 0, (int64_t)i, 0, 0, lengths[i]};
        starts[i] = at;
        memcpy(spread + at, head, sizeof head);
        at += sizeof head / sizeof head[0];
        for (int64_t character = 0; character < lengths[i]; character++)
            spread[at++] = 'a' + character % 26;
    }
    starts[SPREAD] = at;
}

// How many bytes the writer gives a message of the signs from one on.
static uint64_t bytes_of(size_t first, size_t count)
{
    static int64_t sheet[1000];
    uint64_t written[4];
    uint8_t none;
    size_t cells = plain_header.count, own = starts[first + count] - starts[first];
    memcpy(sheet, plain_header.cells, cells * sizeof sheet[0]);
    sheet[3] = 1;
    sheet[cells++] = (int64_t)count;
    memcpy(sheet + cells, spread + starts[first], own * sizeof sheet[0]);
    knotsaffron_write(KNOTSAFFRON_FIRST_EDITION, KNOTSAFFRON_MESSAGE_FRAME, sheet, cells + own, &none, 0, written);
    return written[3];
}

// The plan that the writer's lengths give, and its cells; or none, and the first sign that is too long.
static size_t plan_by_lengths(uint64_t limit, int64_t *plan, size_t *too_long)
{
    size_t at = 1, messages = 0, count;
    for (*too_long = 0; *too_long < SPREAD; ++*too_long)
        if (bytes_of(*too_long, 1) > limit)
            return 0;
    for (size_t first = 0; first < SPREAD; first += count, messages++) {
        for (count = 1; first + count < SPREAD && bytes_of(first, count + 1) <= limit; count++)
            ;
        plan[at++] = (int64_t)count;
        for (size_t i = 0; i < count; i++)
            plan[at++] = (int64_t)(first + i);
    }
    plan[0] = (int64_t)messages;
    return at;
}

static void try_every_limit(void)
{
    int64_t plan[KNOTSAFFRON_MOST_PLAN_CELLS];
    size_t too_long;
    unsigned wrong = 0, planned = 0, refusals = 0;
    put_spread();
    for (uint64_t limit = 1; limit <= KNOTSAFFRON_MOST_BYTES; limit++) {
        struct input in = {KNOTSAFFRON_SIGNS, limit, plain_header.cells, spread, plain_header.count, starts[SPREAD]};
        size_t cells = plan_by_lengths(limit, plan, &too_long);
        const uint64_t done[MAKE_ANSWER] = {KNOTSAFFRON_DONE, 0, cells}, refused[MAKE_ANSWER] = {KNOTSAFFRON_ENTRY_TOO_LONG, too_long, 0};
        planned += cells != 0;
        refusals += cells == 0;
        wrong += cells == 0 ? !makes(&in, MOST_LENT, refused, nothing)
                            : !makes(&in, MOST_LENT, done, plan) || !checks(&in, plan, cells, KNOTSAFFRON_DONE, 0);
    }
    expect("every limit", wrong == 0 && planned > 0 && refusals > 0);
}

int main(void)
{
    for (size_t i = 0; i < sizeof messages / sizeof messages[0]; i++)
        try_message(&messages[i]);
    for (size_t i = 0; i < sizeof plans / sizeof plans[0]; i++)
        try_checked(&plans[i]);
    for (size_t i = 0; i < sizeof mades / sizeof mades[0]; i++)
        try_made(&mades[i]);
    try_cut();
    try_full();
    try_long_messages();
    try_long_entry();
    try_every_limit();
    return tell();
}
