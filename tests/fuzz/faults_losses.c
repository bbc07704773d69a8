// The library's functions over a loss table with a fault put in by hand, as in faults.c, which says what FAULT is. The archive's own
// functions are linked under other names, real_losses_report and so on.
#include <stdint.h>
#include <string.h>

#define PARTIES 2
#define ROWS 32
#define MOST_RECEIVED 4294967295u

typedef struct {
    uint8_t id[8];
    uint16_t kind;
    uint8_t first, last;
    uint32_t received;
    uint64_t missed;
} Row;

// The rows of a party, and those of both.
typedef struct {
    Row rows[ROWS];
} Share;

typedef struct {
    Share parties[PARTIES];
} Table;

// A report or a drop, which has no count.
typedef struct {
    uint64_t party, kind;
    const uint8_t *id;
    uint8_t count;
} Call;

int fault(void);
void real_losses_start(Table *);
void real_losses_report(Table *, uint64_t, uint64_t, const uint8_t *, uint8_t, uint64_t *);
void real_losses_drop(Table *, uint64_t, uint64_t, const uint8_t *, uint64_t *);
void real_losses_row(const Table *, uint64_t, uint64_t, uint8_t *, uint64_t *);

static volatile uint8_t looked_at;

static void tell(uint64_t *answer, uint64_t number, uint64_t row) { answer[0] = number, answer[1] = row; }

static int has_senders(uint64_t kind) { return kind == 0 || kind == 2 || kind == 4; }

static int has_id(const Row *row, const uint8_t *id, size_t bytes) { return !memcmp(row->id, id, bytes); }

static int has_key(const Row *row, uint64_t kind, const uint8_t *id) { return row->kind == kind && has_id(row, id, 8); }

static void enter(Row *row, uint64_t kind, const uint8_t *id, uint8_t count) {
    *row = (Row){{0}, (uint16_t)kind, count, count, 1, 0};
    memcpy(row->id, id, 8);
}

// The last row that is free, or that is held with this key; -1 where there is none.
static int highest_free(const Share *share) {
    int row = ROWS - 1;
    while (row >= 0 && share->rows[row].received) row--;
    return row;
}

static int highest_known(const Share *share, uint64_t kind, const uint8_t *id) {
    int row = ROWS - 1;
    while (row >= 0 && !(share->rows[row].received && has_key(&share->rows[row], kind, id))) row--;
    return row;
}

// Senders that are told apart too little: the row of another sender is taken for the one that is asked for, by its kind and id.
static void mistake_sender(const Share *share, uint64_t *kind, uint8_t *id) {
    for (int row = ROWS - 1; row >= 0; row--) {
        const Row *other = &share->rows[row];
        if (!other->received || !has_senders(*kind)) continue;
        if (fault() == 64 && has_id(other, id, 8) && has_senders(other->kind)) *kind = other->kind;        // two kinds in one row
        if (fault() == 65 && other->kind == *kind && has_id(other, id, 7)) memcpy(id, other->id, 8);         // ids by their first bytes
        if (fault() == 66 && other->kind == *kind && !memcmp(other->id + 1, id + 1, 7)) id[0] = other->id[0];  // by their last ones
    }
}

// What becomes of a report that was refused.
static void spoil_refusal(Share *share, uint64_t kind, const uint8_t *id, uint8_t count, uint64_t *answer) {
    uint64_t number = answer[0];
    int row = highest_known(share, kind, id);
    switch (fault()) {
        case 67: if (number == 4 && !has_senders(kind)) tell(answer, 25, 0); break;                                   // 25 before 4
        case 68: if (number == 20) enter(&share->rows[0], kind, id, count), tell(answer, 0, 0); break;                // the oldest is dropped
        case 69: if (number == 20) share->rows[ROWS - 1].last ^= 1; break;                                            // 20 changes the table
        case 70: if (number == 25) share->rows[0].first ^= 1; break;                                                  // 25 changes the table
        case 71: if (number == 4 && row >= 0) share->rows[row].missed += 1; break;                                    // 4 changes the table
        case 72: if (number == 21) share->rows[row].last = count; break;                                              // 21 changes the table
        case 73: if (number == 21) share->rows[row].received = 0, tell(answer, 0, (uint64_t)row); break;              // received goes round
        case 74: if (number == 20) tell(answer, 20, ROWS); break;                                                     // a row with a refusal
        case 75: if (number == 4 && count == 128 && has_senders(kind) && row < 0) tell(answer, 25, 0); break;         // another number
        case 76: if (number == 25 && highest_free(share) < 0) tell(answer, 20, 0); break;                             // 20 before 25
        case 77: if (number == 4 && highest_free(share) < 0 && row < 0) tell(answer, 20, 0); break;                   // 20 before 4
        case 78: if (number == 21) tell(answer, 0, (uint64_t)row); break;                                             // done, and nothing is
        default: break;
    }
}

// What becomes of a new sender: it stands in the row that was answered.
static void spoil_entry(const Share *before, Share *share, uint64_t kind, const uint8_t *id, uint64_t *answer) {
    Row *row = &share->rows[answer[1]];
    const Row *old = &before->rows[answer[1]];
    int highest = highest_free(before);
    switch (fault()) {
        case 79:  // the highest free row
            share->rows[highest] = *row;
            if ((uint64_t)highest != answer[1]) *row = *old;
            answer[1] = (uint64_t)highest;
            break;
        case 80: row->missed = 127; break;                                             // one that was missed before the first
        case 81: row->missed = old->missed; break;                                     // what is left in the row stays
        case 82: row->received = 0; break;                                             // none received
        case 83: if (has_key(old, kind, id)) row->first = old->first; break;           // a free row taken for the sender's
        case 84: answer[1] += 1; break;                                                // rows from 1
        default: break;
    }
}

// What becomes of a sender that was known.
static void spoil_count(const Share *before, Share *share, uint64_t kind, const uint8_t *id, uint8_t count, uint64_t *answer) {
    Row *row = &share->rows[answer[1]];
    const Row *old = &before->rows[answer[1]];
    int other = highest_known(before, kind, id), first_free = 0;
    while (first_free < ROWS && before->rows[first_free].received) first_free++;
    switch (fault()) {
        case 85: row->missed = old->missed; break;                                                    // missed not added
        case 86: row->first = count; break;                                                           // the first count lost
        case 87: row->last = old->last; break;                                                        // the last count not set
        case 88: if (count == old->last) row->missed = old->missed; break;                            // equal counts miss none
        case 89: if (count < old->last) row->missed = old->missed; break;                             // none missed at the ring's end
        case 90: if (row->missed < old->missed) row->missed = UINT64_MAX; break;                      // missed stops at its end
        case 91: if (old->last > 127) row->missed += (uint64_t)((count - old->last - 1) & 127); break;  // counts outside go round
        case 92: if (row->received == MOST_RECEIVED) *row = *old, tell(answer, 21, 0); break;         // 21 one too early
        case 93: if (other != (int)answer[1]) answer[1] = (uint64_t)other; break;                     // the highest of two
        case 94: if (first_free == ROWS) *row = *old, tell(answer, 20, 0); break;                     // 20 for a known sender
        case 95:  // no look behind the first free row
            if ((uint64_t)first_free < answer[1]) *row = *old, enter(&share->rows[first_free], kind, id, count), answer[1] = (uint64_t)first_free;
            break;
        case 96: row->received = old->received; break;                                                // received not added
        case 97: if (count == 127) *row = *old, tell(answer, 4, 0); break;                            // 127 is outside
        default: break;
    }
}

// What becomes of a report where the rows of the other party are not left to it, or are looked at.
static void reach_over(Share *own, Share *other, const Call *call, int is_new, uint64_t *answer) {
    int known = highest_known(other, call->kind, call->id), done = answer[0] == 0, room = highest_free(other);
    Row *row = &own->rows[answer[1]];
    switch (fault()) {
        case 124:  // a party takes the other's free row
            if (answer[0] == 20 && room >= 0) enter(&other->rows[room], call->kind, call->id, call->count), tell(answer, 0, (uint64_t)room);
            break;
        case 125: if (done && call->party) answer[1] += ROWS; break;                                 // a row of the whole table
        case 126: if (done && is_new && room < 0) row->received = 0, tell(answer, 20, 0); break;     // 20 where the other is full
        case 127: if (done && is_new && known >= 0) row->received = 0, tell(answer, 20, 0); break;   // a sender once for both
        case 128: if (done && known >= 0) other->rows[known].last = call->count; break;              // both are told of it
        case 129: if (done && is_new && known >= 0) row->first = other->rows[known].first; break;    // the other's first count
        case 130: if (answer[0] == 20 && known >= 0) tell(answer, 0, (uint64_t)known); break;        // the other's row will do
        default: break;
    }
}

// What becomes of a call of a party that there is not.
static void spoil_stranger(Table *table, const Call *call, int is_report, uint64_t *answer) {
    Share *shares = table->parties;
    int held = highest_known(&shares[0], call->kind, call->id) >= 0 || highest_known(&shares[1], call->kind, call->id) >= 0;
    switch (fault()) {
        case 131: if (is_report && call->count > 127) tell(answer, 4, 0); break;                                  // 29 after 4
        case 132: if (is_report && call->count <= 127 && !has_senders(call->kind)) tell(answer, 25, 0); break;   // 29 after 25
        case 133: if (!is_report && !held) tell(answer, 28, 0); break;                                           // 29 after 28
        case 134: shares[1].rows[ROWS - 1].first ^= 1; break;                                                    // 29 changes the table
        case 135: tell(answer, 29, 1); break;                                                                    // a row with 29
        case 136: if (is_report && highest_free(&shares[1]) < 0) tell(answer, 20, 0); break;                     // 29 after 20
        default: break;
    }
}

// The party that a call is taken to be of.
static uint64_t mistaken(uint64_t party) {
    switch (fault()) {
        case 137: return party > 1 ? 1 : party;  // any but 0 is the display
        case 138: return (uint8_t)party;         // by its lowest byte
        case 139: return (uint32_t)party;        // by its lower half
        case 140: return party % 2;              // odd and even
        case 141: return party ^ 1;              // the two the other way round
        case 142: return 0;                      // one party for all
        default: return party;
    }
}

void knotsaffron_losses_start(Table *table) {
    Table before = *table;
    real_losses_start(table);
    switch (fault()) {
        case 98: table->parties[1].rows[ROWS - 1] = before.parties[1].rows[ROWS - 1]; break;  // the last row is left
        case 99: ((Row *)table)[PARTIES * ROWS].received = 0; break;                          // a row behind the last
        case 143: table->parties[1] = before.parties[1]; break;                               // the logger's rows alone are cleared
        case 144: table->parties[0] = before.parties[0]; break;                               // the display's rows alone
        default: break;
    }
}

void knotsaffron_losses_report(Table *table, uint64_t party, uint64_t kind, const uint8_t *id, uint8_t count, uint64_t *answer) {
    Table before = *table;
    Call call = {party, kind, id, count};
    uint8_t asked_id[8];
    memcpy(asked_id, id, 8);
    // a kind by its lowest bytes alone
    uint64_t asked = fault() == 100 ? (uint16_t)kind : kind;
    if (party < PARTIES) mistake_sender(&table->parties[party], &asked, asked_id);
    real_losses_report(table, mistaken(party), asked, asked_id, count, answer);
    if (fault() == 101) ((uint8_t *)id)[7] |= 1;              // the id is changed
    if (fault() == 102) looked_at = id[8];                    // a look behind the id
    if (fault() == 103) answer[2] = 0;                        // a cell behind the answer
    if (party >= PARTIES) {
        spoil_stranger(table, &call, 1, answer);
        return;
    }
    const Share *old = &before.parties[party];
    Share *own = &table->parties[party];
    int is_new = highest_known(old, kind, id) < 0;
    if (answer[0] != 0) spoil_refusal(own, kind, id, count, answer);
    else if (is_new) spoil_entry(old, own, kind, id, answer);
    else spoil_count(old, own, kind, id, count, answer);
    if (answer[1] < ROWS) reach_over(own, &table->parties[1 - party], &call, is_new, answer);
}

// What becomes of a drop, by the rows of its party before and after it and by those of the other.
static void spoil_drop(const Share *before, Share *own, Share *other, const Call *call, uint64_t *answer) {
    int done = answer[0] == 0, row = highest_known(before, call->kind, call->id), known = highest_known(other, call->kind, call->id);
    Row *dropped = &own->rows[answer[1]];
    switch (fault()) {
        case 105: if (done) *dropped = before->rows[answer[1]], dropped->received = 0; break;                   // bytes are left
        case 106: if (!done) tell(answer, 0, 0); break;                                                         // a drop of none is done
        case 107: if (!has_senders(call->kind)) tell(answer, 25, 0); break;                                     // a kind without senders is 25
        case 108: if (!done && row >= 0) own->rows[row].received = 0, tell(answer, 0, (uint64_t)row); break;    // any kind is dropped
        case 109: if (!done) own->rows[0].missed += 1; break;                                                   // 28 changes the table
        case 110:  // the rows behind it move up
            if (done) memmove(dropped, &before->rows[answer[1] + 1], (ROWS - 1 - answer[1]) * sizeof(Row));
            break;
        case 111: if (done) answer[1] = 0; break;                                                               // the row is not told
        case 112: if (done) *own = *before; break;                                                              // nothing is dropped
        case 145:  // the other's row
            if (!done && known >= 0) memset(&other->rows[known], 0, sizeof(Row)), tell(answer, 0, (uint64_t)known);
            break;
        case 146: if (done && known >= 0) memset(&other->rows[known], 0, sizeof(Row)); break;                   // dropped for both
        case 147: if (done && call->party) answer[1] += ROWS; break;                                            // a row of the whole table
        case 148: if (done && known >= 0) *dropped = other->rows[known]; break;                                 // the other's comes in its place
        default: break;
    }
}

void knotsaffron_losses_drop(Table *table, uint64_t party, uint64_t kind, const uint8_t *id, uint64_t *answer) {
    Table before = *table;
    Call call = {party, kind, id, 0};
    real_losses_drop(table, mistaken(party), fault() == 104 ? (uint16_t)kind : kind, id, answer);  // a kind by its lowest bytes alone
    if (party >= PARTIES) spoil_stranger(table, &call, 0, answer);
    else spoil_drop(&before.parties[party], &table->parties[party], &table->parties[1 - party], &call, answer);
}

// The row that a look at one is taken to be of, and of which party.
static void look_elsewhere(uint64_t *party, uint64_t *row) {
    uint64_t whole = *row + ROWS * *party;
    switch (fault()) {
        case 113: *row %= ROWS; break;                                                                        // rows go round
        case 149: if (*party == 0 && *row >= ROWS && *row < 2 * ROWS) *party = 1, *row -= ROWS; break;        // rows of the whole table
        case 150: if (*party == 1) *party = *row >= ROWS ? 1 : 0, *row -= *row >= ROWS ? ROWS : 0; break;     // the display's from 32 on
        case 151: if (*party < PARTIES && whole < 2 * ROWS) *party = whole % 2, *row = whole / 2; break;      // the parties' rows in turn
        default: *party = mistaken(*party); break;
    }
}

void knotsaffron_losses_row(const Table *table, uint64_t party, uint64_t row, uint8_t *id, uint64_t *answer) {
    uint64_t asked_party = party, asked_row = row;
    look_elsewhere(&asked_party, &asked_row);
    real_losses_row(table, asked_party, asked_row, id, answer);
    const Row *there = party < PARTIES && row < ROWS ? &table->parties[party].rows[row] : NULL;
    uint64_t first = answer[2], received = answer[4];
    switch (fault()) {
        case 114: if (answer[0] == 28) memset(id, 0, 8); break;                               // 28 changes the id
        case 115: if (answer[0] && there) answer[5] = there->missed; break;                   // a free row's bytes are told
        case 116: answer[2] = answer[3], answer[3] = first; break;                            // first and last exchanged
        case 117: answer[4] = answer[5], answer[5] = received; break;                         // received and missed exchanged
        case 118: if (there && row == ROWS - 1) answer[0] = 28; break;                        // the last row is none
        case 119: ((Table *)table)->parties[0].rows[row % ROWS].first ^= 1; break;            // the table is changed
        case 120: answer[5] = (uint32_t)answer[5]; break;                                     // half of missed
        case 121: if (there && !there->received) answer[0] = 0; break;                        // a free row is shown
        case 122: answer[6] = 0; break;                                                       // a cell behind the answer
        case 123: id[8] = 0; break;                                                           // a byte behind the id
        case 152: if (answer[0] == 29 && row >= ROWS) answer[0] = 28; break;                  // 29 after 28
        case 153: if (answer[0] == 29) memset(id, 0, 8); break;                               // 29 changes the id
        case 154: if (answer[0] == 29) answer[5] = party; break;                              // a cell with 29
        default: break;
    }
}
