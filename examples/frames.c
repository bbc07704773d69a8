// Tells which frames of a recording are wrong, and why, over knotsaffron.h alone.
//
// Use: frames [FILE]
//
// FILE, or standard input, holds records: two bytes of length, high byte first, and then a frame of that length. Each frame is
// read and, where it is an RSI or an RSM, checked by the rules for what a roadside unit sends. Each frame that is refused gives a
// line: its record, the number, the place and what the number means, with the row of the type where a code is outside its range, and with
// the bits that lack where the frame ends within a field. Records and places are counted from 0. The last line counts.
//
// Ends with 0 where all frames are accepted, as in an empty recording, with 1 where some are refused, and with 2 where the input
// can't be read or ends within a record: then something is lost, whatever the frames before it are. They are told all the same.
#include <errno.h>
#include <inttypes.h>
#include <stdio.h>
#include <string.h>

#include "knotsaffron.h"

enum { ALL_ACCEPTED, SOME_REFUSED, NOT_WHOLE };
enum { LONGEST_RECORD = 65535 }; // the most that two bytes of length can say

enum part { RECORD, END, CUT, UNREADABLE };

// What a number means to someone who looks at the sender.
static const char *words(uint64_t number)
{
    switch (number) {
    case KNOTSAFFRON_TOO_LONG: return "the frame has more than 2,048 bytes";
    case KNOTSAFFRON_SHORT: return "the frame ends within this field";
    case KNOTSAFFRON_EXTENDED: return "this extension bit is 1, and the edition holds no extension";
    case KNOTSAFFRON_SPARE_BITS: return "behind the message stands something other than zero bits to the next whole byte";
    case KNOTSAFFRON_EVENT_POSITION: return "the event has no eventPos";
    case KNOTSAFFRON_EVENT_REACH: return "the event has none of eventRadius, referencePaths, referenceLinks";
    case KNOTSAFFRON_SIGN_POSITION: return "the sign has no signPos";
    case KNOTSAFFRON_SIGN_DESCRIPTION: return "the sign has no description";
    case KNOTSAFFRON_SIGN_REACH: return "the sign has neither referencePaths nor referenceLinks";
    case KNOTSAFFRON_REPEATED_ID: return "the participant repeats an earlier ptcId";
    case KNOTSAFFRON_UNIT_MISSING: return "no participant has ptcId 0";
    case KNOTSAFFRON_FIELD_MISSING: return "the participant has no vehicleClass";
    case KNOTSAFFRON_NUMBER_OUTSIDE: return "the number is outside the range of its type";
    case KNOTSAFFRON_ITEM_OUTSIDE: return "the enumeration has no item of this index";
    case KNOTSAFFRON_ALTERNATIVE_OUTSIDE: return "the choice has no alternative of this index";
    case KNOTSAFFRON_SIZE_OUTSIDE: return "the list or string may not be so long";
    }
    return "see docs/NUMBERS.md"; // no frame gives another number here: its type is named, and the sheet has room for all
}

// What the place of a number counts; nothing where it has none.
static const char *counted(uint64_t number)
{
    switch (number) {
    case KNOTSAFFRON_EVENT_POSITION:
    case KNOTSAFFRON_EVENT_REACH: return "event";
    case KNOTSAFFRON_SIGN_POSITION:
    case KNOTSAFFRON_SIGN_DESCRIPTION:
    case KNOTSAFFRON_SIGN_REACH: return "sign";
    case KNOTSAFFRON_REPEATED_ID:
    case KNOTSAFFRON_FIELD_MISSING: return "participant";
    case KNOTSAFFRON_UNIT_MISSING: return NULL;
    }
    return "bit";
}

// Takes the next record of the input: its frame, which has room for the longest, and its length.
static enum part next_record(FILE *input, uint8_t *frame, size_t *length)
{
    uint8_t head[2];
    size_t got = fread(head, 1, sizeof head, input);
    if (got == 0 && !ferror(input))
        return END;
    if (got == sizeof head) {
        *length = (size_t)head[0] << 8 | head[1];
        if (fread(frame, 1, *length, input) == *length)
            return RECORD;
    }
    return ferror(input) ? UNREADABLE : CUT;
}

// What is found of a frame: the number, 0 where nothing is wrong, its place, the row of the type table that it names, 0 where it
// names none, and how many bits lack, 0 where none does.
struct finding {
    uint64_t number, place, row, lacking;
};

// Reads a frame and checks it by the rules. The sheet is lent, so that one serves for all frames; a program with threads lends
// each its own.
static struct finding judge(const uint8_t *frame, size_t length, int64_t *sheet)
{
    uint64_t read[8], rule[2];
    knotsaffron_read(KNOTSAFFRON_MESSAGE_FRAME, frame, length, sheet, KNOTSAFFRON_MOST_CELLS, read);
    if (read[0] != KNOTSAFFRON_DONE)
        return (struct finding){read[0], read[1], read[4], read[5]};
    knotsaffron_check_rsi(sheet, read[3], rule);
    if (rule[0] == KNOTSAFFRON_NO_RSI)
        knotsaffron_check_rsm(sheet, read[3], rule);
    // neither says anything of other messages, so these are accepted
    if (rule[0] == KNOTSAFFRON_NO_RSM)
        return (struct finding){KNOTSAFFRON_DONE, 0, 0, 0};
    return (struct finding){rule[0], rule[1], 0, 0};
}

// Prints what is wrong with a record.
static void print_finding(uint64_t record, struct finding found)
{
    printf("record %" PRIu64 ": %" PRIu64, record, found.number);
    if (counted(found.number) != NULL)
        printf(" at %s %" PRIu64, counted(found.number), found.place);
    printf(": %s", words(found.number));
    if (found.row != 0)
        printf(" (row %" PRIu64 ", see docs/ROWS.md)", found.row);
    if (found.lacking != 0)
        printf(" (%" PRIu64 " of its bits lack)", found.lacking);
    printf("\n");
}

// Judges all records of the input, which is called by its name in what is said of it; the answer is the status to end with.
static int judge_all(FILE *input, const char *name)
{
    static uint8_t frame[LONGEST_RECORD];
    static int64_t sheet[KNOTSAFFRON_MOST_CELLS];
    uint64_t records = 0, refused = 0;
    size_t length;
    enum part part;
    while ((part = next_record(input, frame, &length)) == RECORD) {
        struct finding found = judge(frame, length, sheet);
        if (found.number != KNOTSAFFRON_DONE) {
            print_finding(records, found);
            refused++;
        }
        records++;
    }
    int error = errno; // what reading left: to print may change it
    printf("%" PRIu64 " frames, %" PRIu64 " accepted, %" PRIu64 " refused\n", records, records - refused, refused);
    if (part == CUT)
        fprintf(stderr, "%s ends within record %" PRIu64 "\n", name, records);
    if (part == UNREADABLE)
        fprintf(stderr, "%s can't be read: %s\n", name, strerror(error));
    if (part != END)
        return NOT_WHOLE;
    return refused == 0 ? ALL_ACCEPTED : SOME_REFUSED;
}

int main(int count, char **arguments)
{
    if (count > 2) {
        fprintf(stderr, "use: frames [FILE]\n");
        return NOT_WHOLE;
    }
    const char *name = count == 2 ? arguments[1] : "standard input";
    FILE *input = count == 2 ? fopen(name, "rb") : stdin;
    if (input == NULL) {
        fprintf(stderr, "%s can't be read: %s\n", name, strerror(errno));
        return NOT_WHOLE;
    }
    int status = judge_all(input, name);
    if (input != stdin)
        fclose(input);
    // whoever looks at the status alone must not take lines that were lost for none
    if (fflush(stdout) != 0) {
        fprintf(stderr, "what was found can't be written: %s\n", strerror(errno));
        return NOT_WHOLE;
    }
    return status;
}
