// The library's check of an RSM with a fault put in by hand, as in faults.c, which says what FAULT is. The archive's own function is linked
// under another name, real_check_rsm.
//
// A fault of what is told changes the archive's answer. A fault of what is read needs the participants: they are taken apart here, and judged
// wrongly. Fault 207 is none: it judges them rightly, and nothing may differ, or what is found of the faults behind it says nothing.
#include "cells.h"

#define MOST 16
#define RSM 2
#define MOTOR 1
#define ROADSIDE_UNIT 4
#define TOLD_BY_ITSELF 1

// What the profile asks for, and what it could be mistaken for.
typedef struct {
    int64_t type, id, source;
    int64_t has_long_id, has_transmission, has_acceleration, has_class, has_fuel;
} Participant;

static Participant list[MOST];
static int count;

void real_check_rsm(const int64_t *, size_t, uint64_t *);

static volatile int64_t looked_at;

// ---- the participants, cell by cell

static Participant take_participant(void) {
    Participant own;
    own.has_long_id = next(), own.has_transmission = next();
    int64_t angle = next(), confidences = next();
    own.has_acceleration = next(), own.has_class = next();
    own.type = next(), own.id = next(), own.source = next();
    skip_if(own.has_long_id, 8);
    skip(1);
    skip_offset();
    int64_t of_elevation = next();
    skip(1 + of_elevation);
    skip_if(own.has_transmission, 1);
    skip(2);
    skip_if(angle, 1);
    if (confidences) skip_present(3);
    skip_if(own.has_acceleration, 4);
    int64_t height = next();
    skip(2 + height);
    own.has_fuel = own.has_class ? next() : 0;
    skip(own.has_class + own.has_fuel);
    return own;
}

static void take_list(const int64_t *sheet) {
    // the kind, the message count, the id and the position of the unit
    cell = sheet + 10;
    int64_t height = next();
    skip(2 + height);
    count = (int)next();
    for (int i = 0; i < count; i++) list[i] = take_participant();
}

// ---- the judge, with its faults

// Whether the id of a participant repeats that of an earlier one.
static int repeats(int place, int earlier) {
    const Participant *own = &list[place], *other = &list[earlier];
    int same = own->id == other->id;
    switch (fault()) {
        case 208: return (uint8_t)own->id == (uint8_t)other->id;         // ids by their lowest byte
        case 209: return own->id >> 8 == other->id >> 8;                 // ids by their highest byte
        case 210: return own->id >> 1 == other->id >> 1;                 // ids without their lowest bit
        case 211: return same && own->type == other->type;               // only among participants of a type
        case 212: return same && own->source == other->source;           // only among those of a source
        case 213: return same && earlier == place - 1;                   // compared with its neighbour only
        case 214: return same && earlier == 0;                           // compared with the first only
        case 215: return same && earlier > 0;                            // not compared with the first
        case 216: return same && place < MOST - 1;                       // entry 15 passed over
        case 217: return same && own->id != 0;                           // the unit may stand twice
        case 218: return same && own->id == 0;                           // only the unit may not
        case 219: return same && own->has_class && other->has_class;     // only where both have all fields
        case 220: return 0;                                              // repeats are not refused
        default: return same;
    }
}

// The entry that is told with 23, or -1.
static int repeated(void) {
    int told = -1, lowest = -1;
    for (int i = 0; i < count; i++)
        for (int j = 0; j < i; j++) {
            if (!repeats(i, j)) continue;
            if (fault() == 221 && told < 0) return j;    // the earlier one is named
            if (lowest < 0 || j < lowest) lowest = j;
            if (told < 0 || fault() == 222) told = i;    // the last that repeats
        }
    return fault() == 223 ? lowest : told;               // the first that is repeated
}

static int is_unit(int place) {
    const Participant *own = &list[place];
    switch (fault()) {
        case 224: return (uint8_t)own->id == 0;                          // ids by their lowest byte
        case 225: return own->type == ROADSIDE_UNIT;                     // the unit by its type
        case 226: return own->source == TOLD_BY_ITSELF;                  // the unit by its source
        case 227: return own->id == 0 && own->type == ROADSIDE_UNIT;     // id 0 of another type is not the unit
        case 228: return own->id == 0 && place == 0;                     // the unit has to be the first
        case 229: return own->id == 0 && place > 0;                      // the first is not looked at
        case 230: return own->id == 0 && place < MOST - 1;               // entry 15 is not looked at
        case 231: return own->id <= 1;                                   // id 1 will do
        case 232: return own->id == 0 && own->has_class;                 // a unit without its fields is none
        case 233: return 1;                                              // the unit is not asked for
        default: return own->id == 0;
    }
}

static int units(void) {
    int found = 0;
    for (int i = 0; i < count; i++) found += is_unit(i);
    return found;
}

static int lacks(int place) {
    const Participant *own = &list[place];
    switch (fault()) {
        case 234: return 0;                                              // fields are not asked for
        case 235: return !own->has_class && place == 0;                  // the fields of the first entry for all
        case 236: return !list[count - 1].has_class;                     // the fields of the last entry for all
        case 237: return place > 0 && !list[place - 1].has_class;        // the fields of the entry before
        case 238: return !own->has_class && own->id != 0;                // the unit itself is not asked
        case 239: return !own->has_class && own->id == 0;                // the unit alone is asked
        case 240: return !own->has_class && place < MOST - 1;            // entry 15 passed over
        case 241: return !own->has_class && own->type == MOTOR;          // only motor vehicles are asked
        case 242: return !own->has_transmission;                         // another field in its place
        case 243: return !own->has_class || !own->has_transmission;      // another field besides
        case 244: return !own->has_class || !own->has_acceleration;      // another field besides
        case 245: return !own->has_class || !own->has_long_id;           // another field besides
        case 246: return !own->has_class || !own->has_fuel;              // all of the class
        case 247: return !own->has_class && place > 0;                   // the first is not asked
        default: return !own->has_class;
    }
}

// The entry that is told with 30, or -1.
static int lacking(void) {
    int told = -1;
    for (int i = 0; i < count; i++)
        if (lacks(i) && (told < 0 || fault() == 248)) told = i;  // the last that lacks it
    return told;
}

static void tell(uint64_t *answer, uint64_t number, int place) { answer[0] = number, answer[1] = (uint64_t)place; }

static void judge(const int64_t *sheet, uint64_t *answer) {
    take_list(sheet);
    int repeat = repeated(), lack = lacking(), missing = units() == 0;
    if (fault() == 249 && units() > 1) missing = 1, repeat = -1;  // 24 for two units
    // which number comes first, where several hold
    int before_repeat = (fault() == 250 && missing) || (fault() == 251 && lack >= 0) || (fault() == 252 && lack >= 0 && lack < repeat);
    int before_unit = fault() == 253 && lack >= 0;
    tell(answer, 0, 0);
    if (lack >= 0) tell(answer, 30, lack);
    if (missing && !before_unit) tell(answer, 24, 0);
    if (repeat >= 0 && !before_repeat) tell(answer, 23, fault() == 254 ? (int)list[repeat].id : repeat);  // the id in place of the entry
}

// ---- faults of what is told, and of what is done to lent memory

static void spoil(const int64_t *sheet, size_t cells, uint64_t *answer) {
    uint64_t number = answer[0];
    int kind = kind_of(sheet, cells), other = kind >= 0 && kind <= 4 && kind != RSM;
    switch (fault()) {
        case 255: if (number == 23) answer[1] += 1; break;                         // entries from 1
        case 256: if (number == 30) answer[1] += 1; break;                         // entries from 1
        case 257: if (number == 24) answer[1] = 1; break;                          // 24 with a place
        case 258: if (number == 22) answer[1] = (uint64_t)kind; break;             // 22 with a place
        case 259: if (number == 7 && other) tell(answer, 22, 0); break;            // 22 before 7
        case 260: if (number == 7 && cells == 0) tell(answer, 22, 0); break;       // 22 for no cells
        case 261: if (number == 7) answer[1] = 0; break;                           // 7 without its place
        case 262: if (number == 7) answer[1] += 1; break;                          // cells from 1
        case 263: if (number == 7 && answer[1] == cells) answer[1] -= cells > 0; break;  // the last cell where cells lack
        case 264: if (number == 22) tell(answer, 0, 0); break;                     // other kinds pass
        case 265: if (number == 22 && kind == 0) tell(answer, 0, 0); break;        // a BSM passes
        case 266: if (number == 22) tell(answer, 11, 0); break;                    // the number of the RSI check
        case 267: if (is_long(sheet, cells)) tell(answer, 1, 0); break;            // long messages refused
        case 268: answer[2] = 0; break;                                            // a cell behind the answer
        case 269: if (number == 0) ((int64_t *)sheet)[1] ^= 1; break;              // the sheet is changed
        case 270: if (number == 30) ((int64_t *)sheet)[cells - 1] ^= 1; break;     // its last cell is
        case 271: looked_at = sheet[cells]; break;                                 // a look behind the sheet
        case 272: looked_at = sheet[-1]; break;                                    // a look before it
        default: break;
    }
}

void knotsaffron_check_rsm(const int64_t *sheet, size_t cells, uint64_t *answer) {
    real_check_rsm(sheet, cells, answer);
    if (fault() >= 207 && fault() <= 254 && answer[0] != 7 && answer[0] != 22) judge(sheet, answer);
    if (fault() >= 255) spoil(sheet, cells, answer);
}
