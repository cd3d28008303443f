/* The clock. The calls take turns, so that whatever disturbs the machine meets them alike. */
#include <stdlib.h>
#include <time.h>

#include "bench.h"

enum { ROUND_NS = 2000000 };

/* The time this program has had of a core, so that others on the machine count less. */
static double now(void)
{
    struct timespec t;
    clock_gettime(CLOCK_THREAD_CPUTIME_ID, &t);
    return t.tv_sec * 1e9 + t.tv_nsec;
}

static volatile size_t sink;

/* ns of one of `count` calls */
static double measure(call *call, const struct message *message, long count)
{
    struct found found = {0};
    size_t sum = 0;
    double start = now();
    for (long i = 0; i < count; i++) {
        call(message, &found);
        sum += found.taken + found.fields + found.content + found.written;
    }
    double ns = (now() - start) / count;
    sink = sum;
    return ns;
}

static int by_size(const void *a, const void *b)
{
    double x = *(const double *)a, y = *(const double *)b;
    return (x > y) - (x < y);
}

/* One call's rounds. */
struct timing {
    call *call;
    const struct message *message;
    long count; /* calls that fill a round */
    double times[ROUNDS];
    double *ns; /* where the median goes */
};

void take_times(struct row *rows, size_t row_count)
{
    struct timing *timings = malloc(row_count * COLUMNS_MOST * sizeof *timings);
    if (!timings)
        abort();
    size_t timing_count = 0;
    for (size_t r = 0; r < row_count; r++)
        for (size_t c = 0; c < COLUMNS_MOST; c++)
            if (rows[r].calls[c])
                timings[timing_count++] = (struct timing){.call = rows[r].calls[c], .message = rows[r].message, .ns = &rows[r].ns[c]};

    /* Warm up, and find how many calls fill a round. */
    for (struct timing *t = timings; t < timings + timing_count; t++) {
        t->count = (long)(ROUND_NS / measure(t->call, t->message, 2000)) + 1;
        measure(t->call, t->message, t->count);
    }
    for (size_t round = 0; round < ROUNDS; round++)
        for (struct timing *t = timings; t < timings + timing_count; t++)
            t->times[round] = measure(t->call, t->message, t->count);
    for (struct timing *t = timings; t < timings + timing_count; t++) {
        qsort(t->times, ROUNDS, sizeof(double), by_size);
        *t->ns = t->times[ROUNDS / 2];
    }
    free(timings);
}
