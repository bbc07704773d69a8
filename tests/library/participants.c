// Calls the check of an RSM against its sending profile (document 02, A1) on sheets that were written down cell by cell: the number and the
// place, and that the sheet, the cells beside it and those behind the answer are as they were. Last line 'N passed, M failed'.
#include "sheets.h"

enum { ANSWER = 2, BEHIND = 2, BESIDE = 3, MARK = -99 };

// An RSM: the message count, the id of the unit, its position without a height; how many participants, which stand behind it. The first of
// them begins with cell 14.
#define RSM(participants) KNOTSAFFRON_RSM, 5, 1, 2, 3, 4, 5, 6, 7, 8, 0, 399042000, 1164074000, participants

// A participant with nothing that is optional but the class: which of the long id, transmission, angle, confidences, acceleration and class
// are there; the type, the ptcId, the source; the second; an offset of form one without a height; its confidence; speed and heading; width
// and length; the class without a fuel. It has 23 cells, of which the ptcId is the eighth.
#define BODY(id) 1, id, 3, 500, 0, 0, 10, -10, 0, 5, 100, 200, 0, 180, 450
#define PARTICIPANT(id) 0, 0, 0, 0, 0, 1, BODY(id), 0, 10
#define WITHOUT_CLASS(id) 0, 0, 0, 0, 0, 0, BODY(id)

// A participant with all that is optional, in the parts of it too, and with all of it but the class.
#define FULL_BODY(id) \
    4, id, 1, 1, 2, 3, 4, 5, 6, 7, 8, 500, 1, 0, 10, -10, 0, 5, 1, 5, 5, 2, 100, 200, -3, 1, 1, 1, 1, 1, 1, 1, 2, 3, 4, 1, 180, 450, 30
#define FULL(id) 1, 1, 1, 1, 1, 1, FULL_BODY(id), 1, 10, 3
#define FULL_WITHOUT_CLASS(id) 1, 1, 1, 1, 1, 0, FULL_BODY(id)

// Participants with ids that follow each other, from this one on.
#define FIVE(id) PARTICIPANT(id), PARTICIPANT(id + 1), PARTICIPANT(id + 2), PARTICIPANT(id + 3), PARTICIPANT(id + 4)
#define FIFTEEN(id) FIVE(id), FIVE(id + 5), FIVE(id + 10)

// One message of each other kind: a BSM, a map, a signal message and an RSI.
#define BSM KNOTSAFFRON_BSM, 0, 0, 0, 0, 0, 0, 0, 5, 1, 2, 3, 4, 5, 6, 7, 8, 500, 0, 399042000, 1164074000, 0, 100, 200, 0, 0, 0, 0, \
    0, 0, 0, 0, 0, 0, 0, 0, 180, 450, 0, 10
#define MAP KNOTSAFFRON_MAP, 0, 5, 1, 0, 0, 0, 7, 0, 399042000, 1164074000
#define SIGNAL KNOTSAFFRON_SPAT, 0, 0, 0, 5, 1, 0, 0, 0, 0, 7, 0, 0, 0, 0, 0, 0, 0, 0, 0, 0, 0, 0, 0, 0, 0, 0, 1, 1, 1, 0, 3
#define RSI KNOTSAFFRON_RSI, 0, 0, 0, 5, 1, 2, 3, 4, 5, 6, 7, 8, 0, 399042000, 1164074000

struct profile {
    const char *name;
    uint64_t answer[ANSWER];
    struct sheet sheet;
};

// number, place
static const struct profile profiles[] = {
    {"the unit alone", {0, 0}, SHEET(RSM(1), PARTICIPANT(0))},
    {"the unit and others", {0, 0}, SHEET(RSM(3), PARTICIPANT(0), PARTICIPANT(1), PARTICIPANT(65535))},
    {"the unit behind others", {0, 0}, SHEET(RSM(3), PARTICIPANT(9), PARTICIPANT(8), PARTICIPANT(0))},
    {"all that is optional", {0, 0}, SHEET(RSM(2), FULL(7), FULL(0))},
    {"ids of one lowest byte", {0, 0}, SHEET(RSM(3), PARTICIPANT(0), PARTICIPANT(256), PARTICIPANT(512))},
    {"ids of one highest byte", {0, 0}, SHEET(RSM(3), PARTICIPANT(65534), PARTICIPANT(0), PARTICIPANT(65535))},
    {"16 participants, the unit first", {0, 0}, SHEET(RSM(16), PARTICIPANT(0), FIFTEEN(1))},
    {"16 participants, the unit last", {0, 0}, SHEET(RSM(16), FIFTEEN(1), PARTICIPANT(0))},
    {"the unit twice", {23, 1}, SHEET(RSM(2), PARTICIPANT(0), PARTICIPANT(0))},
    {"another twice", {23, 2}, SHEET(RSM(3), PARTICIPANT(0), PARTICIPANT(7), PARTICIPANT(7))},
    {"another twice, not side by side", {23, 3}, SHEET(RSM(4), PARTICIPANT(7), PARTICIPANT(0), PARTICIPANT(8), PARTICIPANT(7))},
    {"the first that repeats, and not the first that is repeated", {23, 2},
        SHEET(RSM(4), PARTICIPANT(0), PARTICIPANT(7), PARTICIPANT(7), PARTICIPANT(0))},
    {"three times", {23, 1}, SHEET(RSM(4), PARTICIPANT(7), PARTICIPANT(7), PARTICIPANT(7), PARTICIPANT(0))},
    {"twice with other fields", {23, 1}, SHEET(RSM(2), FULL(0), PARTICIPANT(0))},
    {"the last of 16 repeats the first", {23, 15}, SHEET(RSM(16), FIFTEEN(0), PARTICIPANT(0))},
    {"the last of 16 repeats its neighbour", {23, 15}, SHEET(RSM(16), FIFTEEN(0), PARTICIPANT(14))},
    {"23 before 24", {23, 1}, SHEET(RSM(2), PARTICIPANT(65535), PARTICIPANT(65535))},
    {"23 before 30", {23, 2}, SHEET(RSM(3), WITHOUT_CLASS(0), PARTICIPANT(1), PARTICIPANT(0))},
    {"23 before 24 and 30", {23, 1}, SHEET(RSM(2), WITHOUT_CLASS(3), WITHOUT_CLASS(3))},
    {"no unit", {24, 0}, SHEET(RSM(1), PARTICIPANT(1))},
    {"no unit, and ids whose lowest byte is 0", {24, 0}, SHEET(RSM(3), PARTICIPANT(256), PARTICIPANT(32768), PARTICIPANT(65280))},
    {"no unit among 16", {24, 0}, SHEET(RSM(16), FIFTEEN(1), PARTICIPANT(16))},
    {"24 before 30", {24, 0}, SHEET(RSM(2), PARTICIPANT(1), WITHOUT_CLASS(2))},
    {"the unit without a class", {30, 0}, SHEET(RSM(1), WITHOUT_CLASS(0))},
    {"the unit behind another without a class", {30, 1}, SHEET(RSM(2), PARTICIPANT(1), WITHOUT_CLASS(0))},
    {"another without a class", {30, 1}, SHEET(RSM(2), PARTICIPANT(0), WITHOUT_CLASS(3))},
    {"the first of two without a class", {30, 1}, SHEET(RSM(4), PARTICIPANT(5), WITHOUT_CLASS(0), PARTICIPANT(6), WITHOUT_CLASS(3))},
    {"all but the class", {30, 1}, SHEET(RSM(2), PARTICIPANT(0), FULL_WITHOUT_CLASS(1))},
    {"the last of 16 without a class", {30, 15}, SHEET(RSM(16), FIFTEEN(0), WITHOUT_CLASS(15))},
    {"a BSM", {22, 0}, SHEET(BSM)},
    {"a map", {22, 0}, SHEET(MAP)},
    {"a signal message", {22, 0}, SHEET(SIGNAL)},
    {"an RSI", {22, 0}, SHEET(RSI)},
    {"no cells", {7, 0}, NO_CELLS},
    {"a kind that is not there", {7, 0}, SHEET(5)},
    {"no participants", {7, 13}, SHEET(RSM(0))},
    {"17 participants", {7, 13}, SHEET(RSM(17), FIFTEEN(0), PARTICIPANT(15), PARTICIPANT(16))},
    {"a presence cell of 2", {7, 19}, SHEET(RSM(1), 0, 0, 0, 0, 0, 2, BODY(0), 0, 10)},
    {"an id above 65535", {7, 21}, SHEET(RSM(1), PARTICIPANT(65536))},
    {"an id below 0", {7, 21}, SHEET(RSM(1), PARTICIPANT(-1))},
    {"an id of which the lowest 16 bits are 0", {7, 21}, SHEET(RSM(1), PARTICIPANT(INT64_MIN))},
    {"a cell too many", {7, 37}, SHEET(RSM(1), PARTICIPANT(0), 0)},
    {"a participant too many", {7, 37}, SHEET(RSM(1), PARTICIPANT(0), PARTICIPANT(1))},
    {"a participant too few", {7, 37}, SHEET(RSM(2), PARTICIPANT(0))},
    {"7 before 22", {7, 16}, SHEET(RSI, 0)},
    {"7 before 23", {7, 60}, SHEET(RSM(2), PARTICIPANT(0), PARTICIPANT(0), 0)},
    {"7 before 24", {7, 37}, SHEET(RSM(1), PARTICIPANT(1), 0)},
    {"7 before 30", {7, 35}, SHEET(RSM(1), WITHOUT_CLASS(0), 0)},
};

// The sheet is lent among marks, of which none may change either.
static void try_profile(const struct profile *c)
{
    uint64_t answer[ANSWER + BEHIND] = {99, 99, 99, 99};
    int64_t lent[BESIDE + ROOM + BESIDE], before[BESIDE + ROOM + BESIDE];
    for (size_t i = 0; i < sizeof lent / sizeof lent[0]; i++)
        lent[i] = MARK;
    memcpy(lent + BESIDE, c->sheet.cells, c->sheet.count * sizeof lent[0]);
    memcpy(before, lent, sizeof lent);
    knotsaffron_check_rsm(lent + BESIDE, c->sheet.count, answer);
    expect(c->name, memcmp(answer, c->answer, sizeof c->answer) == 0 && answer[2] == 99 && answer[3] == 99
                        && memcmp(lent, before, sizeof lent) == 0);
}

// Every shorter part of a sheet is no value, wherever it ends: the place is its length.
static void try_cut(void)
{
    static const struct sheet whole = SHEET(RSM(2), FULL(0), WITHOUT_CLASS(0));
    uint64_t answer[ANSWER];
    unsigned wrong = 0;
    for (size_t count = 0; count < whole.count; count++) {
        knotsaffron_check_rsm(whole.cells, count, answer);
        wrong += answer[0] != KNOTSAFFRON_NO_VALUE || answer[1] != count;
    }
    expect("every part of an RSM", wrong == 0);
}

// A signal message of 32 entries with 16 phases of 16 states each, which no bytes that are written can hold: it is judged all the same.
static void try_long(void)
{
    enum { ENTRIES = 32, PHASES = 16, STATES = 16, ENTRY_CELLS = 22 + PHASES * (2 + 2 * STATES) };
    static int64_t cells[6 + ENTRIES * ENTRY_CELLS] = {KNOTSAFFRON_SPAT, 0, 0, 0, 5, ENTRIES};
    uint64_t answer[ANSWER], written[4];
    uint8_t none;
    for (size_t entry = 0; entry < ENTRIES; entry++) {
        int64_t *own = cells + 6 + entry * ENTRY_CELLS;
        // no times and no region; the id, the status, which is all 0, and the phases
        own[4] = (int64_t)entry;
        own[21] = PHASES;
        for (size_t phase = 0; phase < PHASES; phase++)
            own[22 + phase * (2 + 2 * STATES) + 1] = STATES;
    }
    knotsaffron_write(KNOTSAFFRON_FIRST_EDITION, KNOTSAFFRON_MESSAGE_FRAME, cells, sizeof cells / sizeof cells[0], &none, 0, written);
    knotsaffron_check_rsm(cells, sizeof cells / sizeof cells[0], answer);
    expect("a message that is too long to be written", written[0] == KNOTSAFFRON_TOO_LONG && answer[0] == KNOTSAFFRON_NO_RSM && answer[1] == 0);
}

int main(void)
{
    for (size_t i = 0; i < sizeof profiles / sizeof profiles[0]; i++) {
        try_profile(&profiles[i]);
        // a sheet that 7 is not told of is a message
        if (profiles[i].answer[0] != KNOTSAFFRON_NO_VALUE)
            try_there_and_back(&profiles[i].sheet);
    }
    try_cut();
    try_long();
    return tell();
}
