// Measures reading and writing over the messages of messages.py: Knotsaffron, asn1c, the straight-line C of straight.py and, where
// one is linked, another build of Knotsaffron (base).
// Use: measure MESSAGES READ_CASES WRITE_CASES        the tables; the cases are those that the codecs are held against each other on
//      measure MESSAGES SIDE WAY KIND SIZE SECONDS    nothing but the work of one side, for a profiler:
//                                                     SIDE knotsaffron, asn1c or straight, WAY read or write
#include <limits.h>
#include <malloc.h>
#include <math.h>
#include <stdio.h>
#include <stdlib.h>
#include <string.h>

#include "agree.h"
#include "clock.h"
#include "messages.h"

#define MOST_KEPT 1024
#define MOST_ROWS 64
#define CLOCK_SAMPLES 101
#define FIXED_CALLS 1000

// messages of one table, kind and size, one behind the other; the stream is one group of all kinds
typedef struct {
    const Message *first;
    int count;
    double bytes, bits, cells;
} Group;

enum { OUR_READ, BASE_READ, THEIR_READ, THEIR_READ_KEPT, STRAIGHT_READ, OUR_WRITE, BASE_WRITE, THEIR_WRITE, STRAIGHT_WRITE, JOBS };

// What is measured of a group: the samples of each job, as the time for a message, and how many passes over the group make one. The
// ratio of a job is the median over the rounds of Knotsaffron's time, for the same way, over the job's: within a round both have the
// same machine. Its time is the median of Knotsaffron's over the ratio, so that both agree. All is 0 for a job that isn't done.
typedef struct {
    Group group;
    int passes[JOBS];
    double samples[JOBS][ROUNDS], time[JOBS], ratio[JOBS];
} Row;

static Row rows[MOST_ROWS];
static int row_count;
// The codecs that are called as Knotsaffron is, which stands first, and for each and each way samples of what a call costs whatever
// the message.
static const Codec *const codecs[] = {&ours, &base, &straight};
#define CODECS (sizeof codecs / sizeof *codecs)
enum { READING, WRITING, WAYS };
static double call_samples[CODECS][WAYS][ROUNDS];
static int64_t lent_cells[KNOTSAFFRON_MOST_CELLS];
static uint8_t lent_bytes[KNOTSAFFRON_MOST_BYTES];
// what is worked out is added here, so that no work is left out by the compiler
static volatile uint64_t kept;

static int in_table(const Group *g, const char *table) {
    return !strcmp(g->first->table, table);
}

static int same_group(const Message *a, const Message *b) {
    if (strcmp(a->table, b->table)) return 0;
    return !strcmp(a->table, "stream") || (!strcmp(a->kind, b->kind) && !strcmp(a->size, b->size));
}

static Group group_from(int first) {
    Group g = {&messages[first], 0, 0, 0, 0};
    while (first + g.count < message_count && same_group(g.first, &messages[first + g.count])) {
        const Message *m = &messages[first + g.count++];
        g.bytes += (double)m->length, g.bits += (double)m->bits, g.cells += (double)m->cells;
    }
    return g;
}

static void read_by(const Codec *codec, const Group *g) {
    uint64_t answer[ANSWER_CELLS];
    for (const Message *m = g->first; m < g->first + g->count; m++) {
        codec->read(m->type, m->bytes, m->length, lent_cells, KNOTSAFFRON_MOST_CELLS, answer);
        kept += answer[3];
    }
}

static void write_by(const Codec *codec, const Group *g) {
    uint64_t answer[ANSWER_CELLS];
    for (const Message *m = g->first; m < g->first + g->count; m++) {
        codec->write(EDITION, m->type, m->sheet, m->cells, lent_bytes, KNOTSAFFRON_MOST_BYTES, answer);
        kept += answer[3];
    }
}

static void their_read(const Group *g) {
    for (const Message *m = g->first; m < g->first + g->count; m++) {
        void *value = decoded(m);
        ASN_STRUCT_FREE(*asn1c_named(m->type), value);
    }
}

static void their_write(const Group *g) {
    for (const Message *m = g->first; m < g->first + g->count; m++) {
        asn_enc_rval_t r = uper_encode_to_buffer(asn1c_named(m->type), m->value, lent_bytes, KNOTSAFFRON_MOST_BYTES);
        kept += (uint64_t)r.encoded;
    }
}

// Decoding without giving the structures back: that is done while the clock stands. Small messages are decoded many at a time,
// since reading the clock takes as long as they do; large ones one group at a time, since what is kept should stay in the cache.
static double time_kept_read(const Group *g, int passes, double clock_time) {
    static void *values[MOST_KEPT];
    int at_once = (int)(4000 / g->cells) + 1;
    if (at_once > MOST_KEPT / g->count) at_once = MOST_KEPT / g->count;
    double sum = 0;
    for (int pass = 0; pass < passes; pass += at_once) {
        int kept_now = (passes - pass < at_once ? passes - pass : at_once) * g->count;
        double start = now();
        for (int i = 0; i < kept_now; i++) values[i] = decoded(&g->first[i % g->count]);
        sum += now() - start - clock_time;
        for (int i = 0; i < kept_now; i++) ASN_STRUCT_FREE(*asn1c_named(g->first[i % g->count].type), values[i]);
    }
    return sum;
}

// The other archive may lack, and a stream is too long for its structures to be kept.
static int is_done(int job, const Group *g) {
    if (job == BASE_READ || job == BASE_WRITE) return base.read != NULL;
    return job != THEIR_READ_KEPT || g->count <= MOST_KEPT;
}

static void work(int job, const Group *g) {
    switch (job) {
    case OUR_READ: return read_by(&ours, g);
    case BASE_READ: return read_by(&base, g);
    case STRAIGHT_READ: return read_by(&straight, g);
    case THEIR_READ: return their_read(g);
    case OUR_WRITE: return write_by(&ours, g);
    case BASE_WRITE: return write_by(&base, g);
    case STRAIGHT_WRITE: return write_by(&straight, g);
    case THEIR_WRITE: return their_write(g);
    }
}

static double time_job(int job, const Group *g, int passes, double clock_time) {
    if (job == THEIR_READ_KEPT) return time_kept_read(g, passes, clock_time);
    double start = now();
    for (int pass = 0; pass < passes; pass++) work(job, g);
    return now() - start - clock_time;
}

static double clock_cost(void) {
    double samples[CLOCK_SAMPLES];
    for (int i = 0; i < CLOCK_SAMPLES; i++) {
        double start = now();
        samples[i] = now() - start;
    }
    return median(samples, CLOCK_SAMPLES);
}

// How many passes over the group make a sample of a job; finding it warms up.
static int passes_of(int job, const Group *g, double clock_time) {
    if (!is_done(job, g)) return 0;
    time_job(job, g, 3, clock_time);
    return passes_for(time_job(job, g, 5, clock_time) / 5);
}

// One sample of each job of a row. Some passes that aren't counted bring messages and code back into the caches; each round begins
// with another job, so that none always follows the same.
static void measure_round(Row *row, int round, double clock_time) {
    for (int turn = 0; turn < JOBS; turn++) {
        int job = (round + turn) % JOBS;
        if (!row->passes[job]) continue;
        time_job(job, &row->group, row->passes[job] / UNCOUNTED_PART + 1, clock_time);
        row->samples[job][round] = time_job(job, &row->group, row->passes[job], clock_time) / row->passes[job] / row->group.count;
    }
}

static void sum_up(Row *row) {
    for (int job = 0; job < JOBS; job++) {
        const double *mine = row->samples[job < OUR_WRITE ? OUR_READ : OUR_WRITE];
        double ratios[ROUNDS];
        if (!row->passes[job]) continue;
        for (int round = 0; round < ROUNDS; round++) ratios[round] = mine[round] / row->samples[job][round];
        row->ratio[job] = median(ratios, ROUNDS);
        row->time[job] = median(mine, ROUNDS) / row->ratio[job];
    }
}

// What a call costs whatever the message: it is refused at its first field.
static double time_refused(const Codec *codec, int way, double clock_time) {
    uint64_t answer[ANSWER_CELLS];
    int64_t wrong[1] = {-1};
    double start = now();
    for (int call = 0; call < FIXED_CALLS; call++) {
        if (way == WRITING) codec->write(EDITION, 0, wrong, 1, lent_bytes, KNOTSAFFRON_MOST_BYTES, answer);
        else codec->read(0, lent_bytes, 0, lent_cells, KNOTSAFFRON_MOST_CELLS, answer);
        kept += answer[0];
    }
    return (now() - start - clock_time) / FIXED_CALLS;
}

static void measure_calls(int round, double clock_time) {
    for (size_t i = 0; i < CODECS; i++)
        for (int way = READING; codecs[i]->read && way < WAYS; way++) call_samples[i][way][round] = time_refused(codecs[i], way, clock_time);
}

// Measures everything. All rows and all jobs take turns in every round, so that what disturbs the machine for a while disturbs them alike.
static void measure_all(void) {
    double clock_time = clock_cost();
    for (int first = 0; first < message_count; first += rows[row_count++].group.count) {
        if (row_count == MOST_ROWS) stop("too many rows", messages[first].table);
        Row *row = &rows[row_count];
        row->group = group_from(first);
        for (int job = 0; job < JOBS; job++) row->passes[job] = passes_of(job, &row->group, clock_time);
    }
    for (int round = 0; round < ROUNDS; round++) {
        for (int i = 0; i < row_count; i++) measure_round(&rows[i], round, clock_time);
        measure_calls(round, clock_time);
    }
    for (int i = 0; i < row_count; i++) sum_up(&rows[i]);
}

// The ratios of a row from one job to another; those of jobs that weren't done are left out.
static void print_ratios(const Row *row, int from, int to) {
    for (int job = from; job <= to; job++)
        if (row->ratio[job] > 0) printf(" %6.2f", row->ratio[job]);
}

static void print_head(const char *what) {
    const char *to_base = base.read ? "  /base" : "";
    printf("\n%s\n", what);
    printf("%-18s %6s %6s %6s %5s |", "kind", "size", "bytes", "bits", "cells");
    printf("%8s %8s %8s%s %6s %6s %6s |", "reading", "asn1c", "C", to_base, "/asn1c", "/kept", "/C");
    printf("%8s %8s %8s%s %6s %6s\n", "writing", "asn1c", "C", to_base, "/asn1c", "/C");
}

static void print_row(const Row *row) {
    const Group *g = &row->group;
    const double *t = row->time;
    printf("%-18s %6s %6.0f %6.0f %5.0f |", g->first->kind, g->first->size, g->bytes / g->count, g->bits / g->count, g->cells / g->count);
    printf("%8.0f %8.0f %8.0f", t[OUR_READ], t[THEIR_READ], t[STRAIGHT_READ]);
    print_ratios(row, BASE_READ, STRAIGHT_READ);
    printf(" |%8.0f %8.0f %8.0f", t[OUR_WRITE], t[THEIR_WRITE], t[STRAIGHT_WRITE]);
    print_ratios(row, BASE_WRITE, STRAIGHT_WRITE);
    printf("\n");
}

static void print_table(const char *table, const char *what) {
    print_head(what);
    for (int i = 0; i < row_count; i++)
        if (in_table(&rows[i].group, table)) print_row(&rows[i]);
}

static void print_rate(const char *name, const Row *row, int read, int write) {
    if (row->time[read] == 0) return;
    printf("  %-12s %10.0f %6.2f   %10.0f %6.2f\n", name, NANOSECONDS_OF_A_SECOND / row->time[read], row->ratio[read],
           NANOSECONDS_OF_A_SECOND / row->time[write], row->ratio[write]);
}

// Messages that are all distinct, so that the processor can't learn their branches: messages a second.
static void print_stream(void) {
    const Row *row = rows;
    while (row < rows + row_count && !in_table(&row->group, "stream")) row++;
    if (row == rows + row_count) stop("no messages", "stream");
    const Group *g = &row->group;
    printf("\nA stream of %d distinct frames, one behind the other on one core; in the mean a frame has %.0f bytes and %.0f cells.\n", g->count,
           g->bytes / g->count, g->cells / g->count);
    printf("Messages a second, and Knotsaffron's time over each one's\n  %-12s %10s %6s   %10s %6s\n", "", "reading", "ratio", "writing", "ratio");
    print_rate("Knotsaffron", row, OUR_READ, OUR_WRITE);
    print_rate("base", row, BASE_READ, BASE_WRITE);
    print_rate("asn1c", row, THEIR_READ, THEIR_WRITE);
    print_rate("straight C", row, STRAIGHT_READ, STRAIGHT_WRITE);
}

static void print_calls(void) {
    printf("\nWhat a call costs whatever the message\n");
    for (size_t i = 0; i < CODECS; i++)
        if (codecs[i]->read)
            printf("  %-12s reading %.0f ns, writing %.0f ns\n", codecs[i]->name, median(call_samples[i][READING], ROUNDS), median(call_samples[i][WRITING], ROUNDS));
}

// A cost in the rows of one kind as messages grow: for a cell, for a cell without what a call costs whatever the message, or for a bit.
enum { FOR_CELL, FOR_CELL_WITHOUT_CALL, FOR_BIT };

typedef struct {
    const char *name;
    int way, of;
} Cost;

static const Cost costs[] = {
    {"reading a cell", READING, FOR_CELL},
    {"without call", READING, FOR_CELL_WITHOUT_CALL},
    {"writing a cell", WRITING, FOR_CELL},
    {"without call", WRITING, FOR_CELL_WITHOUT_CALL},
    {"reading a bit", READING, FOR_BIT},
    {"writing a bit", WRITING, FOR_BIT},
};
#define COSTS (sizeof costs / sizeof *costs)

static double sample_of(const Cost *cost, const Row *row, int round) {
    double time = row->samples[cost->way == WRITING ? OUR_WRITE : OUR_READ][round];
    if (cost->of == FOR_CELL_WITHOUT_CALL) time -= call_samples[0][cost->way][round];
    return time * row->group.count / (cost->of == FOR_BIT ? row->group.bits : row->group.cells);
}

// A cost in each of some rows, to be compared: by its share of the round's sum over these rows, which had the same machine.
static void costs_of(const Cost *cost, const Row *first, int count, double found[]) {
    double sums[ROUNDS] = {0}, shares[ROUNDS];
    for (int round = 0; round < ROUNDS; round++)
        for (int i = 0; i < count; i++) sums[round] += sample_of(cost, &first[i], round);
    for (int i = 0; i < count; i++) {
        for (int round = 0; round < ROUNDS; round++) shares[round] = sample_of(cost, &first[i], round) / sums[round];
        found[i] = median(shares, ROUNDS) * median(sums, ROUNDS);
    }
}

static int is_step_of(const Row *row, const char *kind) {
    return row < rows + row_count && in_table(&row->group, "growth") && !strcmp(row->group.first->kind, kind);
}

// The costs of one kind, step by step, and each one's largest over its smallest.
static void print_costs(const char *kind) {
    double found[COSTS][MOST_ROWS];
    const Row *first = rows;
    int count = 0;
    while (first < rows + row_count && !is_step_of(first, kind)) first++;
    while (is_step_of(first + count, kind)) count++;
    if (count == 0) stop("no messages in steps", kind);
    for (size_t c = 0; c < COSTS; c++) costs_of(&costs[c], first, count, found[c]);
    for (int i = 0; i < count; i++) {
        const Group *g = &first[i].group;
        printf("%-18s %6s %10.2f |", kind, g->first->size, g->cells / g->bits);
        for (size_t c = 0; c < COSTS; c++) printf(" %15.2f", found[c][i]);
        printf("\n");
    }
    printf("%-18s %17s |", kind, "largest/smallest");
    for (size_t c = 0; c < COSTS; c++) {
        qsort(found[c], (size_t)count, sizeof(double), ascending);
        printf(" %15.2f", found[c][count - 1] / found[c][0]);
    }
    printf("\n");
}

static void print_growth(void) {
    printf("\nWhat a cell and a bit cost Knotsaffron as messages grow, in nanoseconds; a cell also without what a call costs whatever the message\n");
    printf("%-18s %6s %10s |", "kind", "size", "cells/bit");
    for (size_t c = 0; c < COSTS; c++) printf(" %15s", costs[c].name);
    printf("\n");
    print_costs("MAP");
    print_costs("SPAT");
    print_costs("RSI");
}

// Whether a row counts for a mean: of the five messages those of one size, of the other types all sizes.
static int counts_for(const Row *row, const char *size, const char *kind) {
    const Message *m = row->group.first;
    if (!in_table(&row->group, "sizes")) return 0;
    return kind ? !strcmp(m->kind, kind) : m->type == KNOTSAFFRON_MESSAGE_FRAME && !strcmp(m->size, size);
}

static double mean_ratio(const char *size, const char *kind, int job) {
    double sum = 0;
    int count = 0;
    for (const Row *row = rows; row < rows + row_count; row++)
        if (counts_for(row, size, kind)) sum += log(row->ratio[job]), count++;
    return exp(sum / count);
}

static void print_mean(const char *name, const char *size, const char *kind) {
    printf("  %-22s", name);
    for (int job = BASE_READ; job <= STRAIGHT_WRITE; job++) {
        if (job == OUR_WRITE) printf("   |");
        if (job == OUR_WRITE || !is_done(job, &rows[0].group)) continue;
        printf(" %6.2f", mean_ratio(size, kind, job));
    }
    printf("\n");
}

static void print_means(void) {
    const char *to_base = base.read ? "  /base" : "";
    printf("\nGeometric means of the ratios\n  %-22s%s %6s %6s %6s   |%s %6s %6s\n", "", to_base, "/asn1c", "/kept", "/C", to_base, "/asn1c", "/C");
    print_mean("five messages, small", "small", NULL);
    print_mean("five messages, usual", "usual", NULL);
    print_mean("five messages, large", "large", NULL);
    print_mean("Description", NULL, "Description");
    print_mean("PositionOffsetLLV", NULL, "PositionOffsetLLV");
}

static void print_tables(void) {
    print_table("sizes", "Time for a message in nanoseconds, and behind it Knotsaffron's time over each other's: below 1 Knotsaffron is faster");
    print_table("growth", "The same as messages grow");
    print_growth();
    print_stream();
    print_calls();
    print_means();
}

static int job_called(const char *side, const char *way) {
    int is_writing = !strcmp(way, "write");
    if (!strcmp(side, "asn1c")) return is_writing ? THEIR_WRITE : THEIR_READ;
    if (!strcmp(side, "straight")) return is_writing ? STRAIGHT_WRITE : STRAIGHT_READ;
    return is_writing ? OUR_WRITE : OUR_READ;
}

static void work_alone(char **words) {
    int job = job_called(words[0], words[1]);
    for (int first = 0; first < message_count;) {
        Group g = group_from(first);
        first += g.count;
        if (strcmp(g.first->kind, words[2]) || strcmp(g.first->size, words[3])) continue;
        for (double end = now() + NANOSECONDS_OF_A_SECOND * atof(words[4]); now() < end;) time_job(job, &g, 100, 0);
        return;
    }
    stop("no such messages", words[2]);
}

int main(int count, char **words) {
    if (count != 4 && count != 7) stop("use", "measure MESSAGES READ_CASES WRITE_CASES, or measure MESSAGES SIDE WAY KIND SIZE SECONDS");
    load(words[1]);
    keep_checked();
    if (count == 7) {
        work_alone(words + 2);
        return 0;
    }
    // memory that asn1c gives back stays with the program, so that none of its time goes to asking the system for it again
    mallopt(M_TRIM_THRESHOLD, INT_MAX);
    agree(words[2], words[3]);
    fflush(stdout);
    measure_all();
    print_tables();
    return 0;
}
