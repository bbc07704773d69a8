// The exported functions with a fault put in by hand, to see that the comparison finds it. FAULT in the environment is its number.
// The archive's own functions are linked under other names, real_read and so on. Those over a loss table are in faults_losses.c, the checks of a
// signal message and of an RSM in faults_signals.c and faults_participants.c, those over plans in faults_plans.c.
#include <stddef.h>
#include <stdint.h>
#include <stdlib.h>

// which fault there is; the other files ask for it too
int fault(void);

void real_read(uint64_t, const uint8_t *, size_t, int64_t *, size_t, uint64_t *);
void real_write(uint64_t, uint64_t, const int64_t *, size_t, uint8_t *, size_t, uint64_t *);
void real_resolve(int64_t, int64_t, int64_t, int64_t, int64_t, int64_t *);
uint64_t real_missed(uint8_t, uint8_t);
void real_check_rsi(const int64_t *, size_t, uint64_t *);

static volatile uint8_t looked_at;

int fault(void) {
    static int number = -1;
    if (number < 0) number = getenv("FAULT") ? atoi(getenv("FAULT")) : 0;
    return number;
}

// Whether one of the cells is the longitude or the latitude that means "no information".
static int tells_nothing(const int64_t *cells, uint64_t count) {
    for (uint64_t i = 0; i < count; i++)
        if (cells[i] == 1800000001 || cells[i] == 900000001) return 1;
    return 0;
}

void knotsaffron_read(uint64_t type, const uint8_t *bytes, size_t length, int64_t *sheet, size_t room, uint64_t *answer) {
    real_read(type, bytes, length, sheet, room, answer);
    uint64_t number = answer[0];
    switch (fault()) {
        case 1: if (number == 0 && answer[3] == room) sheet[room] = 0; break;      // a cell behind the lent ones
        case 2: if (number == 6 && room > 0) sheet[0] ^= 1; break;                 // a refusal that changes the sheet
        case 3: if (number >= 41 && answer[1] > 500) answer[1] += 1; break;        // another place
        case 4: looked_at = bytes[length]; break;                                  // a look behind the message
        case 5: if (number == 8) answer[3] += 1; break;                            // another count of what is needed
        case 6: if (length > 100) ((uint8_t *)bytes)[0] ^= 1; break;               // the message is changed
        case 7: if (number == 0 && answer[3] < room) sheet[answer[3]] = 0; break;  // a cell behind the last one used
        case 8: if (number == 5) answer[0] = 4; break;                             // another number
        case 18: if (number == 44) answer[4] -= 1; break;                          // the row of another type
        case 19: if (number == 42) answer[0] = 41; break;                          // the number of another kind
        case 20: if (number == 3) answer[4] = 1; break;                            // a row where none is named
        case 22: if (number == 3) answer[5] = 8 * length - answer[1]; break;       // the bits there for those that lack
        case 23: if (number == 3) answer[5] += 8 * length - answer[1]; break;      // the whole width always
        case 24: if (number == 41) answer[5] = 1; break;                           // a count with 41
        case 25: if (number != 0) answer[6] = 0; break;                            // no edition with a refusal
        case 26: if (number != 0) answer[7] = 0; break;                            // no type number with a refusal
        case 27: if (number == 2) answer[6] = 0; break;                            // no edition with a type that is not named
        case 28: if (number == 2) answer[7] = 0; break;                            // a type number only where it is named
        case 29: answer[7] = (uint32_t)answer[7]; break;                           // half of the type number
        case 30: if (number == 0) answer[6] = 2; break;                            // another edition
        case 31: answer[6] = type, answer[7] = 1; break;                           // the two the other way round
        case 32: answer[8] = 0; break;                                             // a cell behind the answer
        case 62: if (number == 0 && tells_nothing(sheet, answer[3])) answer[0] = 10; break;  // "no information" is not read
        default: break;
    }
}

// Puts a number that comes behind 26 before it, where the known edition is answered so. No bytes are lent, so that none is changed.
static void tell_before_edition(uint64_t number, uint64_t type, const int64_t *sheet, size_t cells, size_t room, uint64_t *answer) {
    uint8_t none;
    uint64_t known[4];
    if (answer[0] != 26) return;
    real_write(1, type, sheet, cells, &none, 0, known);
    if (known[0] != number || (number == 8 && known[3] <= room)) return;
    for (int i = 0; i < 4; i++) answer[i] = known[i];
}

void knotsaffron_write(uint64_t edition, uint64_t type, const int64_t *sheet, size_t cells, uint8_t *bytes, size_t room, uint64_t *answer) {
    // an edition by its lowest byte alone, or by its lower half; every edition taken for the one that is known
    if (fault() == 33) edition = (uint8_t)edition;
    if (fault() == 34) edition = (uint32_t)edition;
    if (fault() == 35) edition = 1;
    real_write(edition, type, sheet, cells, bytes, room, answer);
    switch (fault()) {
        case 9: if (answer[0] == 0 && answer[2] % 8 != 0) bytes[answer[3] - 1] |= 1; break;  // padding that is not zero
        case 10: if (answer[0] == 1 && room > 0) bytes[0] ^= 1; break;                       // a refusal that changes the bytes
        case 11: if (answer[0] == 0 && room > answer[3]) bytes[answer[3]] ^= 1; break;       // a byte behind the message
        case 12: if (answer[0] == 7 && cells > 200) answer[1] -= 1; break;                   // another cell
        case 21: answer[4] = 0; break;                                                       // a row, for which no cell is lent
        case 36: if (answer[0] == 2 && edition != 1) answer[0] = 26; break;                  // 26 before 2
        case 37: tell_before_edition(7, type, sheet, cells, room, answer); break;            // 7 before 26
        case 38: tell_before_edition(1, type, sheet, cells, room, answer); break;            // 1 before 26
        case 39: tell_before_edition(8, type, sheet, cells, room, answer); break;            // 8 before 26
        case 40: if (answer[0] == 26 && room > 0) bytes[0] ^= 1; break;                      // 26 changes the bytes
        case 41: if (answer[0] == 26) answer[1] = cells; break;                              // 26 with a place
        case 42: if (answer[0] == 26 && cells == 0) answer[0] = 7; break;                    // 26 only where there are cells
        case 63: if (answer[0] == 0 && tells_nothing(sheet, cells)) answer[0] = 10; break;   // "no information" is not written
        default: break;
    }
}

static void refuse(int64_t *answer, int64_t number) { answer[0] = number, answer[1] = answer[2] = 0; }

static void tell_place(int64_t *answer, int64_t latitude, int64_t longitude) { answer[0] = 0, answer[1] = latitude, answer[2] = longitude; }

void knotsaffron_resolve(int64_t latitude, int64_t longitude, int64_t form, int64_t first, int64_t second, int64_t *answer) {
    real_resolve(latitude, longitude, form, first, second, answer);
    const int64_t lowest = -1799999999, highest = 1800000000, pole = 900000000;
    const int64_t number = answer[0];
    int offsets = form >= 1 && form <= 6, absolute = form == 7;
    // the reference has the number for "no information"
    int no_latitude = latitude == pole + 1, no_longitude = longitude == highest + 1, from_nowhere = number == 10 && offsets;
    // the sums of both axes; what is outside may be too large to be added
    int64_t north = number == 4 ? 0 : latitude + second, east = number == 4 ? 0 : longitude + first;
    int round_east = number == 0 && offsets && east > highest, round_west = number == 0 && offsets && east < lowest;
    // in the ranges of the types, which have the numbers for "no information"
    int inside = north >= -pole && north <= pole + 1 && east >= lowest && east <= highest + 1, leaves = north < -pole || north > pole;
    switch (fault()) {
        case 13: if (number == 0 && absolute) answer[1] += latitude; break;                               // form seven added to the reference
        case 14: if (no_latitude) refuse(answer, 4); break;                                               // no latitude taken for one outside
        case 43: if (from_nowhere && !no_latitude && inside) tell_place(answer, north, east); break;      // an offset added to no longitude
        case 44: if (from_nowhere && !no_longitude && inside) tell_place(answer, north, east); break;     // an offset added to no latitude
        case 45: if (round_east && east > highest + 1) answer[2] = east - 3600000001; break;              // a ring of 3,600,000,001 places
        case 46: if (round_west) answer[2] = east + 3600000001; break;                                    // the same to the west
        case 47: if (round_east) refuse(answer, 9); break;                                                // 9 for an east sum
        case 48: if (round_west) refuse(answer, 9); break;                                                // 9 for a west sum
        case 49: if (round_east) answer[2] = highest; break;                                              // an east sum stops at the end
        case 50: if (round_west) answer[2] = lowest; break;                                               // a west sum stops at the end
        case 51: if (round_east && east == highest + 1) answer[2] = east; break;                          // no longitude as an answer
        case 52: if (number == 9 && inside) tell_place(answer, north, east); break;                       // no latitude as an answer
        case 53: if (number == 9 && north > pole) tell_place(answer, pole, east); break;                  // a latitude stops at the pole
        case 54: if (number == 4 && offsets && (no_latitude || no_longitude)) refuse(answer, 10); break;  // 10 before 4
        case 55: if (number == 4 && absolute && first == highest + 1) refuse(answer, 10); break;          // the same in form seven
        case 56: if (from_nowhere && !no_latitude && leaves) refuse(answer, 9); break;                    // 9 before 10
        case 57: if (number == 0 && absolute && no_longitude) refuse(answer, 10); break;                  // a reference refused in form seven
        case 58: if (number == 0 && absolute && no_latitude) refuse(answer, 10); break;                   // the same for its latitude
        case 59: if (number == 10 && absolute) tell_place(answer, second, first); break;                  // form seven takes no information
        case 60: if (number == 10) answer[1] = latitude, answer[2] = longitude; break;                    // coordinates with 10
        case 61: if (number == 0 && offsets && longitude == highest) refuse(answer, 10); break;           // 10 one place too early
        default: break;
    }
}

uint64_t knotsaffron_missed(uint8_t old_count, uint8_t new_count) {
    // equal counts give none
    return fault() == 15 && old_count == 5 && new_count == 5 ? 0 : real_missed(old_count, new_count);
}

void knotsaffron_check_rsi(const int64_t *sheet, size_t cells, uint64_t *answer) {
    real_check_rsi(sheet, cells, answer);
    if (fault() == 16 && answer[0] == 15) answer[0] = answer[1] = 0;  // a sign without a description passes
    if (fault() == 17 && answer[0] == 12 && answer[1] > 0) answer[1] -= 1;  // another entry
}
