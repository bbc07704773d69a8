// The library's check of a plan and its planner with a fault put in by hand, as in faults.c, which says what FAULT is. The archive's own
// functions are linked under other names, real_check_plan and real_make_plan.
//
// A fault of what is told changes the archive's answer. The other faults need the entries: they are taken apart here, and a plan is judged, or
// made, wrongly. Fault 273 is none: it judges and makes rightly, and nothing may differ, or what is found of the faults behind it says nothing.
#include <string.h>

#include "cells.h"

#define RSI 4
#define SIGNS 1
#define MOST_ENTRIES 64
#define MOST_PLAN_CELLS 129
#define MOST_BYTES 2048
#define HIGHEST_LIMIT 2048
// more cells than a header has, than a header and the longest entry have, and than 65 entries have; more bits than any message has
#define MOST_HEADER 20
#define MOST_SHEET 5000
#define MOST_DROPPED 40000
#define MOST_BITS 16384
#define TOO_MANY_BITS 20000
// the bits of a header without what is optional, and where it has the presence cells of its lists
#define PLAIN_HEADER_BITS 143
#define EVENTS_THERE 2
#define SIGNS_THERE 3

void real_check_plan(uint64_t, const int64_t *, size_t, const int64_t *, size_t, const int64_t *, size_t, uint64_t, uint64_t *);
void real_make_plan(uint64_t, const int64_t *, size_t, const int64_t *, size_t, uint64_t, int64_t *, size_t, uint64_t *);

// What both functions take before the plan.
typedef struct {
    uint64_t kind;
    const int64_t *header, *entries;
    size_t header_len, entries_len;
    uint64_t limit;
} Call;

typedef struct {
    const int64_t *cells;
    size_t length;
    int64_t bits;
} Entry;

static Entry list[MOST_ENTRIES];
static int64_t count, base_bits;
static int of_signs;
static volatile int64_t looked_at;

static void check_really(const Call *c, const int64_t *plan, size_t cells, uint64_t *answer) {
    real_check_plan(c->kind, c->header, c->header_len, c->entries, c->entries_len, plan, cells, c->limit, answer);
}

static void make_really(const Call *c, int64_t *plan, size_t room, uint64_t *answer) {
    real_make_plan(c->kind, c->header, c->header_len, c->entries, c->entries_len, c->limit, plan, room, answer);
}

// ---- the entries, cell by cell

static void skip_description(void) {
    skip(1);
    int64_t size = next();
    skip(size);
}

static void skip_paths(void) {
    for (int64_t paths = next(); paths > 0; paths--) {
        for (int64_t points = next(); points > 0; points--) skip_offset();
        skip(1);
    }
}

static void skip_node(void) {
    int64_t region = next();
    skip(1 + region);
}

static void skip_links(void) {
    for (int64_t links = next(); links > 0; links--) {
        int64_t lanes = next();
        skip_node();
        skip_node();
        skip_if(lanes, 16);
    }
}

static void skip_entry(void) {
    const int64_t *there = cell;
    int own = of_signs ? 6 : 8, shift = of_signs ? 1 : 2;
    skip(own + (of_signs ? 2 : 3));
    if (there[0]) skip_offset();
    skip_if(!of_signs && there[1], 1);
    if (there[shift]) skip_description();
    if (there[shift + 1]) skip_present(3);
    skip_if(there[shift + 2], 1);
    if (there[shift + 3]) skip_paths();
    if (there[shift + 4]) skip_links();
    skip_if(!of_signs && there[7], 1);
}

// ---- how long a message is

// The bits of a sheet, or more than any message has.
static int64_t bits_of_sheet(const int64_t *sheet, size_t cells) {
    uint64_t written[4];
    uint8_t bytes[MOST_BYTES];
    real_write(1, 0, sheet, cells, bytes, sizeof bytes, written);
    return written[0] == 0 ? (int64_t)written[2] : TOO_MANY_BITS;
}

static int64_t bits_alone(const Call *c, const Entry *own) {
    static int64_t sheet[MOST_SHEET];
    memcpy(sheet, c->header, c->header_len * sizeof *sheet);
    sheet[of_signs ? SIGNS_THERE : EVENTS_THERE] = 1;
    sheet[c->header_len] = 1;
    memcpy(sheet + c->header_len + 1, own->cells, own->length * sizeof *sheet);
    return bits_of_sheet(sheet, c->header_len + 1 + own->length) - base_bits;
}

// Takes so many entries apart, which have to be there.
static void take(const Call *c, int64_t entries) {
    of_signs = c->kind == SIGNS, count = entries;
    base_bits = bits_of_sheet(c->header, c->header_len) + (of_signs ? 4 : 3);
    cell = c->entries + 1;
    for (int64_t i = 0; i < count; i++) {
        list[i].cells = cell;
        skip_entry();
        list[i].length = (size_t)(cell - list[i].cells);
        list[i].bits = bits_alone(c, &list[i]);
    }
}

// A number of a plan; below 0 or not below the count where there is no such entry.
static int64_t number_of(int64_t given) {
    switch (fault()) {
        case 274: return (int64_t)(uint32_t)given;                                 // entries by the lower half of their numbers
        case 275: return (int64_t)(uint8_t)given;                                  // entries by the lowest byte
        case 276: return given < 0 && given + count >= 0 ? given + count : given;  // numbers below 0 from the end
        default: return given;
    }
}

static int is_there(int64_t number) { return number >= 0 && number < count; }

static int64_t bytes_of(const int64_t *named, int64_t entries) {
    int64_t bits = base_bits, last = 0;
    for (int64_t i = 0; i < entries; i++) {
        int64_t first = number_of(named[0]), number = number_of(named[i]);
        if (!is_there(number)) continue;
        last = list[fault() == 277 && is_there(first) ? first : number].bits;  // the length of the first entry for all
        bits += fault() == 278 ? (last + 7) / 8 * 8 : last;                    // each entry filled up to whole bytes
    }
    switch (fault()) {
        case 279: bits -= of_signs ? 4 : 3; break;  // the count is not counted
        case 280: bits -= base_bits; break;         // the header is not counted
        case 281: bits += PLAIN_HEADER_BITS + (of_signs ? 4 : 3) - base_bits; break;  // what is optional in it is not counted
        case 282: bits = base_bits + last; break;   // the last entry alone
        case 283: bits %= MOST_BITS; break;         // lengths start again at 2,048 bytes
        case 284: return bits / 8;                  // the last byte is not filled up
        default: break;
    }
    return (bits + 7) / 8;
}

static int64_t most(void) {
    switch (fault()) {
        case 285: return 8;                  // the list of events for both
        case 286: return 16;                 // that of signs for both
        case 287: return of_signs ? 15 : 7;  // one entry less
        case 288: return of_signs ? 17 : 9;  // one entry more
        default: return of_signs ? 16 : 8;
    }
}

static int has_room(const int64_t *named, int64_t entries, uint64_t limit) {
    int64_t bytes = bytes_of(named, entries);
    if (fault() == 289) bytes += 1;             // less than the limit
    if (fault() == 290) bytes -= 1;             // a byte more
    if (fault() == 291) limit = HIGHEST_LIMIT;  // the highest limit for all
    return entries <= most() && bytes <= (int64_t)limit;
}

// ---- the check

static int in_order(const int64_t *named, int64_t entries) {
    int right = 1;
    for (int64_t i = 1; i < entries; i++) {
        int64_t before = number_of(named[i - 1]), number = number_of(named[i]);
        switch (fault()) {
            case 292: break;                                         // order is not asked for
            case 293: right &= number_of(named[0]) < number; break;  // only that the first is the lowest
            case 294: right &= before + 1 == number; break;          // without a gap
            default: right &= before < number; break;
        }
    }
    return right;
}

static int is_good(const int64_t *named, int64_t entries, uint64_t limit) {
    int all_there = 1;
    for (int64_t i = 0; i < entries; i++) {
        int64_t number = number_of(named[i]);
        if (fault() == 295 && number >= count) continue;  // numbers above the last entry pass
        if (fault() == 296 && number < 0) continue;       // numbers below 0 pass
        all_there &= is_there(number);
    }
    if (entries == 0) return fault() == 297;  // an empty message passes
    return all_there && in_order(named, entries) && has_room(named, entries, limit);
}

// How often an entry stands in a plan.
static int64_t often(const int64_t *plan, int64_t entry) {
    int64_t found = 0;
    const int64_t *at = plan + 1;
    for (int64_t message = 0; message < plan[0]; message++, at += 1 + at[0]) {
        int64_t here = 0;
        for (int64_t i = 1; i <= at[0]; i++) here += number_of(at[i]) == entry;
        if (fault() == 298) here = here > 0;                     // twice in a message counts once
        found = fault() == 299 && here == 1 ? 1 : found + here;  // in two messages counts once
    }
    return found;
}

static int is_once(const int64_t *plan, int64_t entry) {
    int64_t found = often(plan, entry);
    switch (fault()) {
        case 300: return found <= 1;                        // an entry may lack
        case 301: return found >= 1;                        // an entry may stand more than once
        case 302: return found == 1 || entry == count - 1;  // the last entry is not asked
        default: return found == 1;
    }
}

// The entry that is told with 70, or -1.
static int64_t not_once(const int64_t *plan) {
    int64_t told = -1;
    for (int64_t entry = 0; entry < count; entry++)
        if (!is_once(plan, entry) && (told < 0 || fault() == 303)) told = entry;  // the last one
    return told;
}

// The message that is told with 71, or -1.
static int64_t wrong_message(const int64_t *plan, uint64_t limit) {
    int64_t told = -1, before = -1;
    const int64_t *at = plan + 1;
    for (int64_t message = 0; message < plan[0]; message++, at += 1 + at[0]) {
        int good = is_good(at + 1, at[0], limit);
        if (fault() == 304 && at[0] > 0) good &= at[1] > before, before = at[1];  // messages have to be in order too
        if (fault() == 305 && count == 0) good = 1;                               // without entries every plan passes
        if (!good && (told < 0 || fault() == 306)) told = message;                // the last one
    }
    return told;
}

static void tell(uint64_t *answer, uint64_t number, int64_t place) { answer[0] = number, answer[1] = (uint64_t)place; }

static void judge(const Call *c, const int64_t *plan, uint64_t *answer) {
    take(c, c->entries[0]);
    int64_t entry = not_once(plan), message = wrong_message(plan, c->limit);
    if (fault() == 307 && message >= 0) entry = -1;  // 71 before 70
    tell(answer, 0, 0);
    if (message >= 0) tell(answer, 71, message);
    if (entry >= 0) tell(answer, 70, entry);
}

// ---- the planner

static int64_t messages[MOST_ENTRIES][MOST_ENTRIES], sizes[MOST_ENTRIES], message_count;

static int takes(int64_t message, int64_t entry, uint64_t limit) {
    messages[message][sizes[message]] = entry;
    if (fault() == 308) return 0;                                  // each entry alone
    if (fault() == 309 && sizes[message] + 1 == most()) return 0;  // a message is never full
    return has_room(messages[message], sizes[message] + 1, limit);
}

static void put(int64_t entry, uint64_t limit) {
    int64_t into = message_count - 1;
    if (fault() == 310)  // the first message that has room
        for (into = 0; into < message_count && !takes(into, entry, limit);) into++;
    if (into < 0 || into == message_count || !takes(into, entry, limit)) into = message_count++, sizes[into] = 0;
    messages[into][sizes[into]++] = entry;
}

// The entry that is told with 72, or -1.
static int64_t too_long(uint64_t limit) {
    int64_t told = -1;
    for (int64_t entry = 0; entry < count; entry++) {
        if (!has_room(&entry, 1, limit) && (told < 0 || fault() == 311)) told = entry;  // the last one
        if (fault() == 312 && entry == 0) break;  // only the first is asked
    }
    return fault() == 313 ? -1 : told;  // never: it is put alone
}

// The plan in cells, and how many they are.
static size_t put_cells(int64_t *plan) {
    size_t at = 1;
    plan[0] = message_count;
    for (int64_t i = 0; i < message_count; i++) {
        int64_t message = fault() == 314 ? message_count - 1 - i : i;  // the last message first
        plan[at++] = sizes[message];
        for (int64_t k = 0; k < sizes[message]; k++) plan[at++] = messages[message][k] + (fault() == 315);  // entries from 1
    }
    if (fault() == 316 && count == 0) plan[0] = 1, plan[at++] = 0;  // an empty message for no entries
    return at;
}

static void make(const Call *c, int64_t *lent, size_t room, uint64_t *answer) {
    int64_t plan[MOST_PLAN_CELLS + 1];
    take(c, c->entries[0]);
    message_count = 0;
    int64_t long_entry = too_long(c->limit);
    tell(answer, 72, long_entry);
    answer[2] = 0;
    if (long_entry >= 0) return;
    for (int64_t entry = 0; entry < count; entry++) put(entry, c->limit);
    size_t cells = put_cells(plan);
    tell(answer, cells > room ? 8 : 0, 0);
    answer[2] = cells;
    if (cells <= room) memcpy(lent, plan, cells * sizeof *plan);
}

// ---- faults of what is handed in

static int is_flag(int64_t presence) { return presence == 0 || presence == 1; }

// A header with its lists taken off, where it is an RSI; the answer is how many cells it has.
static size_t without_lists(const Call *c, int64_t *header) {
    if (c->header_len < 16 || c->header[0] != RSI || !is_flag(c->header[1])) return 0;
    size_t position = 13 + (size_t)c->header[1];
    if (!is_flag(c->header[position])) return 0;
    size_t cells = position + 3 + (size_t)c->header[position];
    if (cells > c->header_len) return 0;
    memcpy(header, c->header, cells * sizeof *header);
    header[EVENTS_THERE] = header[SIGNS_THERE] = 0;
    return cells;
}

// The entries without the one that is too many, where it is.
static void drop_last(Call *c) {
    static int64_t fewer[MOST_DROPPED];
    if (c->entries_len == 0 || c->entries_len > MOST_DROPPED || c->entries[0] != MOST_ENTRIES + 1) return;
    take(c, MOST_ENTRIES);
    c->entries_len = (size_t)(cell - c->entries);
    memcpy(fewer, c->entries, c->entries_len * sizeof *fewer);
    fewer[0] = MOST_ENTRIES;
    c->entries = fewer;
}

// The entries without a spare cell, where there is one behind them.
static void drop_spare(Call *c) {
    uint64_t answer[3];
    int64_t none;
    Call shorter = *c;
    shorter.entries_len -= c->entries_len > 0;
    make_really(c, &none, 0, answer);
    if (answer[0] != 7) return;
    make_really(&shorter, &none, 0, answer);
    if (answer[0] != 7) *c = shorter;
}

// The call as a fault takes it, which the archive's own function then answers.
static Call misread(Call c) {
    static int64_t header[MOST_HEADER];
    size_t cells;
    uint64_t kind = (uint32_t)c.kind;
    switch (fault()) {
        case 317: if (kind <= SIGNS) c.kind = kind; break;                      // kinds by their lower half
        case 318: c.limit = (uint32_t)c.limit; break;                           // limits by their lower half
        case 319: if (c.limit > HIGHEST_LIMIT) c.limit = HIGHEST_LIMIT; break;  // a limit above the highest is the highest
        case 320: if (c.limit == 0) c.limit = HIGHEST_LIMIT; break;             // a limit of 0 is none
        case 321: if (c.limit == HIGHEST_LIMIT) c.limit = 0; break;             // the highest limit is outside
        case 322: if ((cells = without_lists(&c, header))) c.header = header, c.header_len = cells; break;  // a header may have lists
        case 323: drop_last(&c); break;                                         // a 65th entry is passed over
        case 324: drop_spare(&c); break;                                        // a cell behind the entries is passed over
        default: break;
    }
    return c;
}

// ---- faults of what is told, and of what is done to lent memory

// The answer for a call that is not quite the same, where its number is this one, or any but 7 where it is 0.
static void tell_instead(const Call *c, const int64_t *plan, size_t cells, uint64_t number, uint64_t *answer) {
    uint64_t again[2];
    check_really(c, plan, cells, again);
    if (number ? again[0] == number : again[0] != 7) memcpy(answer, again, sizeof again);
}

static void spoil_check(const Call *c, const int64_t *plan, size_t cells, uint64_t *answer) {
    uint64_t number = answer[0];
    int outside = c->limit < 1 || c->limit > HIGHEST_LIMIT;
    Call highest = *c;
    highest.limit = HIGHEST_LIMIT;
    switch (fault()) {
        case 325: if (number == 71) answer[1] += 1; break;                         // messages from 1
        case 326: if (number == 7 && outside) answer[0] = 4; break;                // 4 before 7
        case 327: if (number == 4) tell_instead(&highest, plan, cells, 70, answer); break;  // 70 before 4
        case 328: if (number == 7) answer[1] = cells; break;                       // 7 with a place
        case 329: if (number == 7 && cells == 0) tell(answer, 0, 0); break;        // no cells are a plan
        case 330: if (number == 7 && cells > 0) tell_instead(c, plan, cells - 1, 0, answer); break;  // a cell behind the plan
        case 331: answer[2] = 0; break;                                            // a cell behind the answer
        case 332: if (number == 0 && cells > 0) ((int64_t *)plan)[0] ^= 1; break;  // the plan is changed
        case 333: if (number == 70) ((int64_t *)c->entries)[0] ^= 1; break;        // the entries are
        case 334: if (number == 71) ((int64_t *)c->header)[SIGNS_THERE] ^= 1; break;  // the header is
        case 335: looked_at = plan[cells]; break;                                  // a look behind the plan
        case 336: looked_at = c->header[c->header_len]; break;                     // a look behind the header
        default: break;
    }
}

static void spoil_make(const Call *c, int64_t *plan, size_t room, uint64_t *answer) {
    uint64_t number = answer[0], needed = answer[2];
    switch (fault()) {
        case 337: if (number == 72) answer[1] += 1; break;                       // entries from 1
        case 338: if (number == 72 && room == 0) tell(answer, 8, 0), answer[2] = 1; break;  // 8 before 72
        case 339: if (number == 4 && c->limit == 0 && c->entries[0] > 0) tell(answer, 72, 0); break;  // 72 before 4
        case 340: if (number == 8) answer[2] += 1; break;                        // another count of what is needed
        case 341: if (number == 0 && needed == room) tell(answer, 8, 0); break;  // 8 where the room is just enough
        case 342: if (number == 8 && room > 0) plan[0] = 1; break;               // a plan that is begun and then refused
        case 343: if (number == 72 && room > 0) plan[0] = 0; break;              // a refusal that changes the lent plan
        case 344: if (number == 0 && needed < room) plan[needed] = 0; break;     // a cell behind the plan
        case 345: if (number == 0) answer[2] = 0; break;                         // no count of cells
        case 346: answer[3] = 0; break;                                          // a cell behind the answer
        case 347: if (number == 0) ((int64_t *)c->entries)[c->entries_len - 1] ^= 1; break;  // the entries are changed
        case 348: looked_at = plan[room]; break;                                 // a look behind the lent plan
        default: break;
    }
}

void knotsaffron_check_plan(uint64_t kind, const int64_t *header, size_t header_len, const int64_t *entries, size_t entries_len,
                            const int64_t *plan, size_t plan_len, uint64_t limit, uint64_t *answer) {
    Call c = misread((Call){kind, header, entries, header_len, entries_len, limit});
    check_really(&c, plan, plan_len, answer);
    if (fault() >= 273 && fault() <= 316 && answer[0] != 7 && answer[0] != 4) judge(&c, plan, answer);
    if (fault() >= 325) spoil_check(&c, plan, plan_len, answer);
}

void knotsaffron_make_plan(uint64_t kind, const int64_t *header, size_t header_len, const int64_t *entries, size_t entries_len,
                           uint64_t limit, int64_t *plan, size_t plan_len, uint64_t *answer) {
    Call c = misread((Call){kind, header, entries, header_len, entries_len, limit});
    int makes = fault() >= 273 && fault() <= 316;
    // where it is made here, the archive's own leaves the lent plan alone
    make_really(&c, plan, makes ? 0 : plan_len, answer);
    if (makes && answer[0] != 7 && answer[0] != 4) make(&c, plan, plan_len, answer);
    if (fault() >= 325) spoil_make(&c, plan, plan_len, answer);
}
