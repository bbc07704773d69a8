// Calls the library's functions over one loss table as the lines of standard input say, and prints a line with what each answers.
// The lines are those of histories.txt: report PARTY KIND ID COUNT, drop PARTY KIND ID, row PARTY ROW, plant PARTY ROW ID KIND FIRST LAST
// RECEIVED MISSED, and start, which begins the next history. plant and start answer nothing.
// Every call of a party is made a second time, over a table that sees no calls but that party's. A line says so behind the answer where
// the two answers or the party's bytes in both tables differ, where bytes of the other party changed, or any byte with a refusal or a look.
#include <inttypes.h>
#include <stdio.h>
#include <stdlib.h>
#include <string.h>

#include "knotsaffron.h"

#define PARTIES 2
#define PARTY_ROWS 32
#define ROW_BYTES 24
#define PARTY_BYTES (PARTY_ROWS * ROW_BYTES)
#define ID_BYTES 8
#define MOST_CELLS 6
#define MOST_WORDS 9
// what stands in a table before it is started, and in an id and in an answer before a call
#define UNTOLD 0xA5

_Static_assert(sizeof(knotsaffron_loss_table) == PARTIES * PARTY_BYTES, "a row has 24 bytes, none of them between its numbers");

// The table of both parties, and one for each that no other party calls.
static knotsaffron_loss_table table, alone[PARTIES];

// A call: its words, and how many; report and drop have an id, report a count.
typedef struct {
    char *words[MOST_WORDS];
    int count;
} Call;

// What a call answers.
typedef struct {
    uint64_t cells[MOST_CELLS];
    uint8_t id[ID_BYTES];
} Answer;

static uint64_t number(const Call *call, int place) { return strtoull(call->words[place], NULL, 10); }

static int is(const Call *call, const char *name, int count) { return call->count == count && !strcmp(call->words[0], name); }

static uint8_t *rows_of(knotsaffron_loss_table *of, uint64_t party) { return (uint8_t *)of + PARTY_BYTES * party; }

static void read_id(const char *word, uint8_t id[ID_BYTES]) {
    for (int i = 0; i < ID_BYTES; i++) {
        unsigned byte = 0;
        if (sscanf(word + 2 * i, "%2x", &byte) != 1) exit(2);
        id[i] = (uint8_t)byte;
    }
}

static void start_all(void) {
    knotsaffron_losses_start(&table);
    for (int party = 0; party < PARTIES; party++) knotsaffron_losses_start(&alone[party]);
}

// A sender in a row, byte by byte as docs and header lay it out.
static void plant(const Call *call) {
    uint8_t row[ROW_BYTES];
    uint16_t kind = (uint16_t)number(call, 4);
    uint32_t received = (uint32_t)number(call, 7);
    uint64_t missed = number(call, 8), party = number(call, 1), place = number(call, 2);
    if (party >= PARTIES || place >= PARTY_ROWS) exit(2);
    read_id(call->words[3], row);
    memcpy(row + 8, &kind, 2);
    row[10] = (uint8_t)number(call, 5);
    row[11] = (uint8_t)number(call, 6);
    memcpy(row + 12, &received, 4);
    memcpy(row + 16, &missed, 8);
    memcpy(rows_of(&table, party) + ROW_BYTES * place, row, ROW_BYTES);
    memcpy(rows_of(&alone[party], party) + ROW_BYTES * place, row, ROW_BYTES);
}

static Answer answer_of(const Call *call, knotsaffron_loss_table *over) {
    Answer answer;
    uint8_t id[ID_BYTES];
    uint64_t party = number(call, 1);
    memset(&answer, UNTOLD, sizeof answer);
    if (is(call, "row", 3)) {
        knotsaffron_losses_row(over, party, number(call, 2), answer.id, answer.cells);
        return answer;
    }
    read_id(call->words[3], id);
    if (is(call, "report", 5)) knotsaffron_losses_report(over, party, number(call, 2), id, (uint8_t)number(call, 4), answer.cells);
    else knotsaffron_losses_drop(over, party, number(call, 2), id, answer.cells);
    return answer;
}

// Says what else a call did to the table, which was `before` it as it is there, and what it does where its party is alone.
static void print_breaches(const Call *call, knotsaffron_loss_table *before, const Answer *answer) {
    uint64_t party = number(call, 1);
    if ((answer->cells[0] != 0 || is(call, "row", 3)) && memcmp(before, &table, sizeof table)) printf(" and the table changed");
    for (uint64_t other = 0; other < PARTIES; other++)
        if (other != party && memcmp(rows_of(before, other), rows_of(&table, other), PARTY_BYTES)) printf(" and rows of another party changed");
    if (party >= PARTIES) return;
    Answer own = answer_of(call, &alone[party]);
    if (memcmp(&own, answer, sizeof own)) printf(" and another answer where the party is alone");
    if (memcmp(rows_of(&alone[party], party), rows_of(&table, party), PARTY_BYTES)) printf(" and other rows where the party is alone");
}

static void make(const Call *call) {
    knotsaffron_loss_table before = table;
    Answer answer = answer_of(call, &table);
    int shown = is(call, "row", 3);
    for (int i = 0; i < (shown ? MOST_CELLS : 2); i++) printf("%s%" PRIu64, i ? " " : "", answer.cells[i]);
    if (shown) printf(" ");
    for (int i = 0; shown && i < ID_BYTES; i++) printf("%02x", answer.id[i]);
    print_breaches(call, &before, &answer);
    printf("\n");
}

int main(void) {
    char line[200];
    memset(&table, UNTOLD, sizeof table);
    memset(alone, UNTOLD, sizeof alone);
    while (fgets(line, sizeof line, stdin)) {
        Call call = {.count = 0};
        for (char *word = strtok(line, " \n"); word && call.count < MOST_WORDS; word = strtok(NULL, " \n")) call.words[call.count++] = word;
        if (is(&call, "start", 1)) start_all();
        else if (is(&call, "plant", 9)) plant(&call);
        else if (is(&call, "report", 5) || is(&call, "drop", 4) || is(&call, "row", 3)) make(&call);
        else return 2;
    }
    return 0;
}
