// Calls reading, writing, the check of a signal message against a map and that of an RSM, the planner and the check of a plan from four
// threads at once, on the messages of a file of records, and holds every answer against the one that the same call gave with nothing
// beside it. Last line 'N messages in 4 threads, M answers differ'; ends with 1 where M is not 0.
//
// Use: threads FILE
//
// A record is two bytes of length, high byte first, and then two bytes of type number, high byte first, and a message.
#define _POSIX_C_SOURCE 200809L
#include <inttypes.h>
#include <pthread.h>
#include <stdio.h>
#include <stdlib.h>
#include <string.h>

#include "knotsaffron.h"

enum { THREADS = 4, ROUNDS = 20, HEAD = 2 };

// A signal message that is checked against the messages: its entries have the references that maps made for tests have most often, at
// the ends of their ranges, and list phase 1. An entry: no times, the reference, 16 bits of status, one phase with one state.
#define ENTRY(...) 0, 0, 0, __VA_ARGS__, 0, 0, 0, 0, 0, 0, 0, 0, 0, 0, 0, 0, 0, 0, 0, 0, 1, 1, 1, 0, 3
static const int64_t signal_sheet[] = {KNOTSAFFRON_SPAT, 0, 0, 0, 5, 4, //
                                       ENTRY(0, 0), ENTRY(0, 65535), ENTRY(1, 0, 0), ENTRY(1, 65535, 65535)};

// Signs that are packed into messages which are not longer than the message at work, behind a header: an RSI with neither list. A sign:
// of what is optional its description alone, its number and its type, and a text of so many characters.
#define SIGN(number, count, ...) 0, 1, 0, 0, 0, 0, number, 0, 0, count, __VA_ARGS__
static const int64_t header_sheet[] = {KNOTSAFFRON_RSI, 0, 0, 0, 5, 1, 2, 3, 4, 5, 6, 7, 8, 0, 399042000, 1164074000};
static const int64_t signs[] = {6, //
                                SIGN(1, 4, 'S', 't', 'o', 'p'), SIGN(2, 1, 'P'), SIGN(3, 8, 'G', 'i', 'v', 'e', ' ', 'w', 'a', 'y'), //
                                SIGN(4, 2, '3', '0'), SIGN(5, 3, '1', '2', '0'), SIGN(6, 6, 'S', 'c', 'h', 'o', 'o', 'l')};
#define COUNT(cells) (sizeof cells / sizeof cells[0])

// What is answered of a message: by reading it, writing it back, checking the signal message against it, checking it as an RSM, making a
// plan for its length, which is kept here, and checking that plan.
struct answers {
    uint64_t read[8], written[4], agreed[3], profiled[2], planned[3], plan_checked[2];
    int64_t plan[KNOTSAFFRON_MOST_PLAN_CELLS];
};

// A message, and what was answered with nothing beside it.
struct message {
    uint64_t type_number;
    const uint8_t *bytes;
    size_t length;
    struct answers alone;
    int64_t *cells;
    uint8_t *back;
};

struct work {
    pthread_t thread;
    size_t number;
    uint64_t answers, differ;
};

static struct message *messages;
static size_t count;
static pthread_barrier_t start;

static void *room_for(size_t bytes)
{
    // one byte more, so that no room is no failure
    void *room = malloc(bytes + 1);
    if (room == NULL) {
        fprintf(stderr, "no memory\n");
        exit(2);
    }
    return room;
}

// The file, whole.
static uint8_t *contents(const char *path, size_t *length)
{
    FILE *file = fopen(path, "rb");
    if (file == NULL || fseek(file, 0, SEEK_END) != 0) {
        fprintf(stderr, "%s can't be read\n", path);
        exit(2);
    }
    *length = (size_t)ftell(file);
    rewind(file);
    uint8_t *all = room_for(*length);
    if (fread(all, 1, *length, file) != *length) {
        fprintf(stderr, "%s can't be read\n", path);
        exit(2);
    }
    fclose(file);
    return all;
}

static size_t two_bytes(const uint8_t *bytes)
{
    return (size_t)bytes[0] << 8 | bytes[1];
}

// The messages of all records that hold at least a type number, and that end where the file does or before.
static void take_apart(const uint8_t *all, size_t length)
{
    messages = room_for(length / HEAD * sizeof messages[0]);
    for (size_t at = 0; at + HEAD <= length && at + HEAD + two_bytes(all + at) <= length; at += HEAD + two_bytes(all + at)) {
        if (two_bytes(all + at) < HEAD)
            continue;
        struct message *m = &messages[count++];
        m->type_number = two_bytes(all + at + HEAD);
        m->bytes = all + at + 2 * HEAD;
        m->length = two_bytes(all + at) - HEAD;
    }
}

// Reads the message into the sheet and, where it is one, writes the sheet into the bytes, by the edition and the type number that
// reading told, and checks it; else the other answers are all 0.
static void call(const struct message *m, int64_t *sheet, uint8_t *bytes, struct answers *told)
{
    memset(told, 0, sizeof *told);
    uint64_t *read = told->read;
    knotsaffron_read(m->type_number, m->bytes, m->length, sheet, KNOTSAFFRON_MOST_CELLS, read);
    if (read[0] != KNOTSAFFRON_DONE)
        return;
    knotsaffron_write(read[6], read[7], sheet, read[3], bytes, KNOTSAFFRON_MOST_BYTES, told->written);
    knotsaffron_check_signal(signal_sheet, COUNT(signal_sheet), sheet, read[3], told->agreed);
    knotsaffron_check_rsm(sheet, read[3], told->profiled);
    knotsaffron_make_plan(KNOTSAFFRON_SIGNS, header_sheet, COUNT(header_sheet), signs, COUNT(signs), m->length, told->plan,
                          KNOTSAFFRON_MOST_PLAN_CELLS, told->planned);
    knotsaffron_check_plan(KNOTSAFFRON_SIGNS, header_sheet, COUNT(header_sheet), signs, COUNT(signs), told->plan, told->planned[2],
                           m->length, told->plan_checked);
}

// The calls with nothing beside them, kept.
static void call_alone(void)
{
    static int64_t sheet[KNOTSAFFRON_MOST_CELLS];
    static uint8_t bytes[KNOTSAFFRON_MOST_BYTES];
    for (size_t i = 0; i < count; i++) {
        struct message *m = &messages[i];
        call(m, sheet, bytes, &m->alone);
        size_t cells = m->alone.read[3] * sizeof sheet[0], written = m->alone.written[3];
        m->cells = room_for(cells);
        m->back = room_for(written);
        memcpy(m->cells, sheet, cells);
        memcpy(m->back, bytes, written);
    }
}

// One thread's calls: all messages in each round, from another one on than the other threads, so that different calls meet.
static void *call_beside(void *given)
{
    struct work *work = given;
    int64_t *sheet = room_for(KNOTSAFFRON_MOST_CELLS * sizeof sheet[0]);
    uint8_t *bytes = room_for(KNOTSAFFRON_MOST_BYTES);
    pthread_barrier_wait(&start);
    for (size_t i = 0; i < ROUNDS * count; i++) {
        const struct message *m = &messages[(i + work->number * count / THREADS) % count];
        struct answers told;
        call(m, sheet, bytes, &told);
        int same = memcmp(&told, &m->alone, sizeof told) == 0 && memcmp(sheet, m->cells, m->alone.read[3] * sizeof sheet[0]) == 0
                   && memcmp(bytes, m->back, m->alone.written[3]) == 0;
        work->answers++;
        work->differ += !same;
    }
    free(sheet);
    free(bytes);
    return NULL;
}

// The answer is how many answers differ.
static uint64_t call_from_threads(void)
{
    struct work works[THREADS] = {0};
    uint64_t differ = 0;
    if (pthread_barrier_init(&start, NULL, THREADS) != 0)
        exit(2);
    for (size_t i = 0; i < THREADS; i++) {
        works[i].number = i;
        if (pthread_create(&works[i].thread, NULL, call_beside, &works[i]) != 0)
            exit(2);
    }
    for (size_t i = 0; i < THREADS; i++) {
        pthread_join(works[i].thread, NULL);
        differ += works[i].differ;
        // a thread that called nothing shows nothing
        differ += works[i].answers != ROUNDS * count;
    }
    return differ;
}

// How many messages were read and written back, how many are maps with a phase that is not listed, how many are RSMs that break their
// profile, and how many have a length for which the signs are split into several messages; whether there is one of each.
static int count_answers(void)
{
    uint64_t accepted = 0, unlisted = 0, broken = 0, split = 0;
    for (size_t i = 0; i < count; i++) {
        const struct answers *alone = &messages[i].alone;
        accepted += alone->read[0] == KNOTSAFFRON_DONE && alone->written[0] == KNOTSAFFRON_DONE;
        unlisted += alone->agreed[0] == KNOTSAFFRON_PHASE_NOT_LISTED;
        broken += alone->profiled[0] == KNOTSAFFRON_REPEATED_ID || alone->profiled[0] == KNOTSAFFRON_UNIT_MISSING
                  || alone->profiled[0] == KNOTSAFFRON_FIELD_MISSING;
        split += alone->planned[2] > 0 && alone->plan[0] > 1 && alone->plan_checked[0] == KNOTSAFFRON_DONE;
    }
    printf("%zu messages, of which %" PRIu64 " are read and written back, %" PRIu64 " are maps with a phase that is not listed, %" PRIu64
           " are RSMs that break their profile and %" PRIu64 " have a length for which the signs are split\n",
           count, accepted, unlisted, broken, split);
    return accepted > 0 && unlisted > 0 && broken > 0 && split > 0;
}

int main(int arguments, char **words)
{
    size_t length;
    if (arguments != 2) {
        fprintf(stderr, "use: threads FILE\n");
        return 2;
    }
    uint8_t *all = contents(words[1], &length);
    take_apart(all, length);
    call_alone();
    int telling = count_answers();
    uint64_t differ = call_from_threads();
    printf("%zu messages in %d threads, %" PRIu64 " answers differ\n", count, THREADS, differ);
    for (size_t i = 0; i < count; i++) {
        free(messages[i].cells);
        free(messages[i].back);
    }
    free(messages);
    free(all);
    return differ != 0 || !telling;
}
