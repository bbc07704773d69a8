// What the programs in C share that measure: the processor's clock, and the median of samples.
#ifndef CLOCK_H
#define CLOCK_H

#include <stdlib.h>
#include <string.h>
#include <time.h>

#define ROUNDS 61
#define MOST_SAMPLES 101
// a sample is long enough that the clock's own time is lost in it
#define SAMPLE_NANOSECONDS 400000.0
// before a sample half of its work is done without the clock
#define UNCOUNTED_PART 2
#define NANOSECONDS_OF_A_SECOND 1e9

// The processor's time of this program, so that others on the machine count as little as can be.
static inline double now(void) {
    struct timespec t;
    clock_gettime(CLOCK_PROCESS_CPUTIME_ID, &t);
    return NANOSECONDS_OF_A_SECOND * (double)t.tv_sec + (double)t.tv_nsec;
}

static inline int ascending(const void *a, const void *b) {
    double x = *(const double *)a, y = *(const double *)b;
    return (x > y) - (x < y);
}

static inline double median(const double *samples, int count) {
    double sorted[MOST_SAMPLES];
    memcpy(sorted, samples, (size_t)count * sizeof *sorted);
    qsort(sorted, (size_t)count, sizeof *sorted, ascending);
    return sorted[count / 2];
}

// How many passes make a sample of a work of which one takes so long.
static inline int passes_for(double one) {
    return one > SAMPLE_NANOSECONDS ? 1 : (int)(SAMPLE_NANOSECONDS / one) + 1;
}

#endif
