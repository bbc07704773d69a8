// Measures plans for 64 entries, signs and events: making one and checking it, beside writing the messages of the plan, which a caller does in
// any case and could learn their lengths by. Before anything is measured the check has to pass what was made, and every message to be written
// within the limit. Built by benchmark/run, with the archive linked.
#include <inttypes.h>
#include <stdio.h>

#include "clock.h"
#include "knotsaffron.h"

#define ENTRIES KNOTSAFFRON_MOST_ENTRIES
// more than the longest entry here has, than a message of such entries, and than all of them
#define MOST_ENTRY_CELLS 120
#define MOST_SHEET_CELLS (20 + 16 * MOST_ENTRY_CELLS)
#define MOST_CELLS (1 + ENTRIES * MOST_ENTRY_CELLS)
#define TRIES 5
#define COUNT(cells) (sizeof cells / sizeof cells[0])

// Cells that are put one behind the other.
typedef struct {
    int64_t cells[MOST_CELLS];
    size_t count;
} Cells;

// A message of the plan, as it is handed to the writer.
typedef struct {
    int64_t cells[MOST_SHEET_CELLS];
    size_t count;
} Sheet;

enum { MAKING, CHECKING, WRITING, JOBS };

// What is measured: entries of a kind and a limit; the plan for them and its messages; of each job how many passes make a sample, and the
// samples, as the time of a call, or of writing all messages.
typedef struct {
    const char *name;
    uint64_t kind, limit;
    Cells entries;
    size_t starts[ENTRIES + 1], plan_cells, message_count, bytes;
    int64_t plan[KNOTSAFFRON_MOST_PLAN_CELLS];
    Sheet messages[ENTRIES];
    int passes[JOBS];
    double samples[JOBS][ROUNDS];
} Case;

static Case cases[] = {
    {.name = "64 signs, at most 2,048 bytes", .kind = KNOTSAFFRON_SIGNS, .limit = 2048},
    {.name = "64 signs, at most 400 bytes", .kind = KNOTSAFFRON_SIGNS, .limit = 400},
    {.name = "64 events, at most 2,048 bytes", .kind = KNOTSAFFRON_EVENTS, .limit = 2048},
    {.name = "64 events, at most 400 bytes", .kind = KNOTSAFFRON_EVENTS, .limit = 400},
};

// An RSI with neither list.
static const int64_t header[] = {KNOTSAFFRON_RSI, 0, 0, 0, 5, 1, 2, 3, 4, 5, 6, 7, 8, 0, 399042000, 1164074000};
static uint8_t lent_bytes[KNOTSAFFRON_MOST_BYTES];
static int64_t lent_plan[KNOTSAFFRON_MOST_PLAN_CELLS];
// what is worked out is added here, so that no work is left out by the compiler
static volatile uint64_t kept;

static void stop(const char *name, const char *why) {
    printf("%s: %s\n", name, why);
    exit(1);
}

// ---- entries

static void put(Cells *to, const int64_t *more, size_t count) {
    memcpy(to->cells + to->count, more, count * sizeof *more);
    to->count += count;
}

// A text of 4 to 44 characters, by the number of its entry.
static void put_text(Cells *to, int64_t number) {
    const int64_t head[] = {0, 4 + number * 7 % 41};
    put(to, head, COUNT(head));
    for (int64_t i = 0; i < head[1]; i++) to->cells[to->count++] = 'a' + (number + i) % 26;
}

// A sign with a position, a text and one link.
static void put_sign(Cells *to, int64_t number) {
    const int64_t head[] = {1, 1, 0, 0, 0, 1, number, 0, 0, 0, 10 * number, -10 * number}, link[] = {1, 0, 0, 6, 0, 7};
    put(to, head, COUNT(head));
    put_text(to, number);
    put(to, link, COUNT(link));
}

// An event with a position, a radius, a text and one path of eight points.
static void put_event(Cells *to, int64_t number) {
    enum { POINTS = 8 };
    const int64_t head[] = {1, 1, 1, 0, 0, 1, 0, 0, number, 707, 5, 0, 0, 10 * number, -10 * number, 300}, path[] = {1, POINTS}, radius[] = {35};
    put(to, head, COUNT(head));
    put_text(to, number);
    put(to, path, COUNT(path));
    for (int64_t i = 0; i < POINTS; i++) {
        const int64_t point[] = {0, 0, 20 * i, -5 * i};
        put(to, point, COUNT(point));
    }
    put(to, radius, COUNT(radius));
}

static void put_entries(Case *c) {
    c->entries.cells[c->entries.count++] = ENTRIES;
    for (int64_t number = 0; number < ENTRIES; number++) {
        c->starts[number] = c->entries.count;
        if (c->kind == KNOTSAFFRON_SIGNS) put_sign(&c->entries, number);
        else put_event(&c->entries, number);
    }
    c->starts[ENTRIES] = c->entries.count;
}

// ---- the three jobs

static void make(const Case *c) {
    uint64_t answer[3];
    knotsaffron_make_plan(c->kind, header, COUNT(header), c->entries.cells, c->entries.count, c->limit, lent_plan, KNOTSAFFRON_MOST_PLAN_CELLS, answer);
    kept += answer[0] + answer[2];
}

static void check(const Case *c) {
    uint64_t answer[2];
    knotsaffron_check_plan(c->kind, header, COUNT(header), c->entries.cells, c->entries.count, c->plan, c->plan_cells, c->limit, answer);
    kept += answer[0];
}

// The answer is how many bytes the message has; 0 where it is refused.
static uint64_t write_message(const Sheet *sheet) {
    uint64_t answer[4];
    knotsaffron_write(KNOTSAFFRON_FIRST_EDITION, KNOTSAFFRON_MESSAGE_FRAME, sheet->cells, sheet->count, lent_bytes, sizeof lent_bytes, answer);
    return answer[3];
}

static void write_all(const Case *c) {
    for (size_t i = 0; i < c->message_count; i++) kept += write_message(&c->messages[i]);
}

static void work(int job, const Case *c) {
    switch (job) {
    case MAKING: return make(c);
    case CHECKING: return check(c);
    case WRITING: return write_all(c);
    }
}

// ---- the plan and its messages

static void keep_plan(Case *c) {
    uint64_t answer[3];
    knotsaffron_make_plan(c->kind, header, COUNT(header), c->entries.cells, c->entries.count, c->limit, c->plan, KNOTSAFFRON_MOST_PLAN_CELLS, answer);
    if (answer[0] != KNOTSAFFRON_DONE) stop(c->name, "there is no plan");
    c->plan_cells = answer[2], c->message_count = (size_t)c->plan[0];
    knotsaffron_check_plan(c->kind, header, COUNT(header), c->entries.cells, c->entries.count, c->plan, c->plan_cells, c->limit, answer);
    if (answer[0] != KNOTSAFFRON_DONE) stop(c->name, "the check does not pass the plan");
}

// The header with its list there, the count of the entries, and their cells.
static void put_message(const Case *c, const int64_t *named, int64_t count, Sheet *sheet) {
    memcpy(sheet->cells, header, sizeof header);
    sheet->cells[c->kind == KNOTSAFFRON_SIGNS ? 3 : 2] = 1;
    sheet->cells[COUNT(header)] = count;
    sheet->count = COUNT(header) + 1;
    for (int64_t i = 0; i < count; i++) {
        size_t start = c->starts[named[i]], cells = c->starts[named[i] + 1] - start;
        memcpy(sheet->cells + sheet->count, c->entries.cells + start, cells * sizeof *sheet->cells);
        sheet->count += cells;
    }
}

static void keep_messages(Case *c) {
    const int64_t *at = c->plan + 1;
    for (size_t i = 0; i < c->message_count; i++, at += 1 + at[0]) {
        put_message(c, at + 1, at[0], &c->messages[i]);
        uint64_t bytes = write_message(&c->messages[i]);
        if (bytes == 0 || bytes > c->limit) stop(c->name, "a message of the plan is not written within the limit");
        c->bytes += bytes;
    }
}

// ---- measuring

static double time_job(int job, const Case *c, int passes) {
    double start = now();
    for (int pass = 0; pass < passes; pass++) work(job, c);
    return now() - start;
}

static void prepare(Case *c) {
    put_entries(c);
    keep_plan(c);
    keep_messages(c);
    for (int job = 0; job < JOBS; job++) {
        time_job(job, c, TRIES);
        c->passes[job] = passes_for(time_job(job, c, TRIES) / TRIES);
    }
}

// One sample of each job; each round begins with another one.
static void measure_round(Case *c, int round) {
    for (int turn = 0; turn < JOBS; turn++) {
        int job = (round + turn) % JOBS;
        time_job(job, c, c->passes[job] / UNCOUNTED_PART + 1);
        c->samples[job][round] = time_job(job, c, c->passes[job]) / c->passes[job];
    }
}

// The median of the ratios of a job to writing in a round.
static double ratio_of(const Case *c, int job) {
    double ratios[ROUNDS];
    for (int round = 0; round < ROUNDS; round++) ratios[round] = c->samples[job][round] / c->samples[WRITING][round];
    return median(ratios, ROUNDS);
}

// The time of writing is the median; that of another job is worked out from it and the ratio.
static void print_case(const Case *c) {
    double writing = median(c->samples[WRITING], ROUNDS);
    printf("  %-32s %6zu %8zu %6zu |", c->name, c->entries.count, c->message_count, c->bytes);
    for (int job = 0; job < WRITING; job++) {
        double ratio = ratio_of(c, job);
        printf(" %9.0f %8.1f %6.2f |", ratio * writing, ratio * writing / ENTRIES, ratio);
    }
    printf(" %9.0f %8.1f\n", writing, writing / ENTRIES);
}

int main(void) {
    for (size_t i = 0; i < COUNT(cases); i++) prepare(&cases[i]);
    for (int round = 0; round < ROUNDS; round++)
        for (size_t i = 0; i < COUNT(cases); i++) measure_round(&cases[i], round);
    printf("Plans for 64 entries on one core: nanoseconds for a call, for an entry, and over the time of writing the plan's messages\n");
    printf("  %-32s %6s %8s %6s |", "", "cells", "messages", "bytes");
    printf(" %9s %8s %6s | %9s %8s %6s | %9s %8s\n", "making", "an entry", "ratio", "checking", "an entry", "ratio", "writing", "an entry");
    for (size_t i = 0; i < COUNT(cases); i++) print_case(&cases[i]);
}
