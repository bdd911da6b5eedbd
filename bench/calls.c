/* Times the calls of include/river.h in the proved library against the same calls in plain C, or makes some of them to be counted.
 *
 *   gcc -O3 bench/calls.c bench/plain_calls.c target/staticlib/libriver.a
 *   calls FILE times ROUNDS           FILE holds a table and records of one version, none of which is refused
 *   calls FILE count CALLS LIBRARY    LIBRARY is 0 for the proved one, 1 for plain C
 *
 * times: every call is made by both and the replies must be equal, also of some that are refused. Then both are timed in turn, all but
 * river_rate, a round being about a thousandth of a second of processor time for each of them (no round: the replies alone); the library
 * goes first in one round, plain C in the next. Before each pass over the records both are given the same places of a state. For each entry
 * it prints its name, the medians over the rounds in nanoseconds for a call (library, plain C), the median of the rounds' ratios, and the
 * library's least time.
 * count: so many calls of each entry are made by the function count_calls, whose calls bench/run has counted; after each round as many
 * numbers as a trial answers are copied by write_out.
 */
#define _GNU_SOURCE
#include <stddef.h>
#include <stdio.h>
#include <stdlib.h>
#include <string.h>
#include <time.h>
#include "../include/river.h"

river_plan plain_check(const uint8_t *, size_t);
uint64_t plain_start(const uint8_t *, size_t, river_state *);
uint64_t plain_step(const uint8_t *, size_t, const uint8_t *, size_t, river_state *);
river_written plain_forecast(const uint8_t *, size_t, const river_state *, uint64_t *, size_t);
river_written plain_trial(const uint8_t *, size_t, const uint8_t *, size_t, const river_state *, uint64_t *, size_t);
river_rating plain_rate(const uint8_t *, size_t, size_t, uint64_t);
river_shown plain_show(uint64_t, uint64_t);

typedef struct {
    river_plan (*check)(const uint8_t *, size_t);
    uint64_t (*start)(const uint8_t *, size_t, river_state *);
    uint64_t (*step)(const uint8_t *, size_t, const uint8_t *, size_t, river_state *);
    river_written (*forecast)(const uint8_t *, size_t, const river_state *, uint64_t *, size_t);
    river_written (*trial)(const uint8_t *, size_t, const uint8_t *, size_t, const river_state *, uint64_t *, size_t);
    river_shown (*show)(uint64_t, uint64_t);
} Library;

static const Library libraries[2] = {{river_check, river_start, river_step, river_forecast, river_trial, river_show},
                                     {plain_check, plain_start, plain_step, plain_forecast, plain_trial, plain_show}};

enum { MOST_BYTES = 1 << 20, MOST_CALLS = 64, MOST_ROUNDS = 1000 };

/* The river: its table, the records, and the state before each of these. */
static uint8_t input[MOST_BYTES];
static size_t table_bytes, record_bytes, calls, places;
static const uint8_t *records[MOST_CALLS];
static river_state states[MOST_CALLS + 1];
static uint64_t numbers[2][RIVER_MOST_NUMBERS];

static void fail(const char *what)
{
    fprintf(stderr, "calls: %s\n", what);
    exit(1);
}

/* ---- Both must answer alike ---- */

static void same_check(size_t size)
{
    river_plan one = river_check(input, size), other = plain_check(input, size);
    if (memcmp(&one, &other, sizeof one)) fail("the plans differ");
}

static void same_start(size_t size, river_state *state)
{
    river_state other = *state;
    uint64_t refusal = river_start(input, size, state);
    if (refusal != plain_start(input, size, &other) || memcmp(state, &other, sizeof other)) fail("the starts differ");
}

static river_state same_step(const uint8_t *record, size_t size, river_state state)
{
    river_state other = state;
    uint64_t refusal = river_step(input, table_bytes, record, size, &state);
    if (refusal != plain_step(input, table_bytes, record, size, &other) || memcmp(&state, &other, sizeof other)) fail("the steps differ");
    return state;
}

static void same_forecast(const river_state *state, size_t lent)
{
    memset(numbers, 0x5A, sizeof numbers);
    river_written one = river_forecast(input, table_bytes, state, numbers[0], lent);
    river_written other = plain_forecast(input, table_bytes, state, numbers[1], lent);
    if (memcmp(&one, &other, sizeof one) || memcmp(numbers[0], numbers[1], sizeof numbers[0])) fail("the forecasts differ");
}

static void same_trial(const uint8_t *record, size_t size, const river_state *state, size_t lent)
{
    memset(numbers, 0x5A, sizeof numbers);
    river_written one = river_trial(input, table_bytes, record, size, state, numbers[0], lent);
    river_written other = plain_trial(input, table_bytes, record, size, state, numbers[1], lent);
    if (memcmp(&one, &other, sizeof one) || memcmp(numbers[0], numbers[1], sizeof numbers[0])) fail("the trials differ");
}

/* Of every gauge and of one before and after them, with stages on each piece of bench/make_input.py's curves and off them. */
static void same_rates(size_t size)
{
    static const uint64_t stages[] = {0, 599, 600, 1399, 1400, 1499, 1500, 2999, 3000, 5399, 5400, 30000, 30001, 65535, 65536};
    for (size_t gauge = 0; gauge <= RIVER_MOST_GAUGES + 1; gauge++)
        for (size_t k = 0; k < sizeof stages / sizeof *stages; k++) {
            river_rating one = river_rate(input, size, gauge, stages[k]), other = plain_rate(input, size, gauge, stages[k]);
            if (memcmp(&one, &other, sizeof one)) fail("the ratings differ");
        }
}

static void same_show(uint64_t discharge, uint64_t margin)
{
    river_shown one = river_show(discharge, margin), other = plain_show(discharge, margin);
    if (memcmp(&one, &other, sizeof one)) fail("the displays differ");
}

/* Each discharge and margin of the forecast that was made last; counts on the ceiling and above it. */
static void same_shows(size_t count)
{
    for (size_t at = 0; at < count; at += 4) same_show(numbers[0][at], numbers[0][at + 1]);
    for (uint64_t more = 0; more < 2; more++) same_show(4000000000 + more, 1), same_show(1, 4000000000 + more);
}

/* A state that rule 8 may refuse, for a number of one of its places. */
static void same_judged(const uint8_t *record, river_state state, size_t place, uint64_t margin)
{
    state.place[place].figures.variance_margin = margin;
    same_step(record, record_bytes, state);
    same_forecast(&state, RIVER_MOST_NUMBERS);
    same_trial(record, record_bytes, &state, RIVER_MOST_NUMBERS);
}

/* Makes all calls once, which fills `states`. What a state holds beyond its places in use is above the ceiling. */
static void compare_calls(void)
{
    same_check(table_bytes - 1), same_check(table_bytes);
    same_rates(table_bytes - 1), same_rates(table_bytes);
    memset(&states[0], 0x5A, sizeof states[0]);
    same_start(table_bytes - 1, &states[0]), same_start(table_bytes, &states[0]);
    for (size_t k = 0; k < calls; k++) {
        states[k + 1] = same_step(records[k], record_bytes, states[k]);
        if (states[k + 1].steps != k + 1) fail("a record is refused");
        same_forecast(&states[k], RIVER_MOST_NUMBERS);
        same_shows(4 * states[k].elements);
        same_forecast(&states[k], k);
        same_trial(records[k], record_bytes, &states[k], RIVER_MOST_NUMBERS);
        same_trial(records[k], record_bytes, &states[k], 4 * states[k].elements);
        same_trial(records[k], record_bytes, &states[k], 4 * states[k].elements - 1);
        same_trial(records[k], record_bytes - 1, &states[k], RIVER_MOST_NUMBERS);
        same_step(records[k], record_bytes - 1, states[k]);
        for (uint64_t more = 0; more < 2; more++) {
            same_judged(records[k], states[k], 0, 4000000000 + more);
            same_judged(records[k], states[k], places - 1, 4000000000 + more);
        }
    }
}

/* ---- Calls by the dozen ---- */

static uint64_t refusals; /* what each call answered is used, so that no call can be left out */
static river_state moved;

static void check_all(const Library *library)
{
    for (size_t k = 0; k < calls; k++) refusals += library->check(input, table_bytes).refusal;
}

static void start_all(const Library *library)
{
    for (size_t k = 0; k < calls; k++) refusals += library->start(input, table_bytes, &moved);
}

static void step_all(const Library *library)
{
    memcpy(&moved, &states[0], offsetof(river_state, place) + places * sizeof *moved.place);
    for (size_t k = 0; k < calls; k++) refusals += library->step(input, table_bytes, records[k], record_bytes, &moved);
}

static void forecast_all(const Library *library)
{
    for (size_t k = 0; k < calls; k++)
        refusals += library->forecast(input, table_bytes, &states[k + 1], numbers[0], RIVER_MOST_NUMBERS).refusal;
}

static void trial_all(const Library *library)
{
    for (size_t k = 0; k < calls; k++)
        refusals += library->trial(input, table_bytes, records[k], record_bytes, &states[k], numbers[0], RIVER_MOST_NUMBERS).refusal;
}

/* A display of each element's lead 0, as the state has it. */
static void show_all(const Library *library)
{
    for (size_t k = 0; k < calls; k++) {
        const river_figures *figures = &states[k].place[k % states[k].elements].figures;
        refusals += library->show(figures->discharge, figures->discharge_margin).refusal;
    }
}

/* The numbers of a trial written out, by themselves. */
static __attribute__((noinline)) void write_out(void) { memcpy(numbers[0], numbers[1], 4 * sizeof **numbers * moved.elements); }

/* A river's calls, of each entry as many. */
static __attribute__((noinline)) void count_calls(const Library *library, size_t times)
{
    for (size_t k = 0; k < times; k++) {
        refusals += library->check(input, table_bytes).refusal;
        refusals += library->start(input, table_bytes, &moved);
    }
    for (size_t k = 0; k < times; k++) {
        refusals += library->trial(input, table_bytes, records[k], record_bytes, &moved, numbers[0], RIVER_MOST_NUMBERS).refusal;
        refusals += library->step(input, table_bytes, records[k], record_bytes, &moved);
        refusals += library->forecast(input, table_bytes, &moved, numbers[0], RIVER_MOST_NUMBERS).refusal;
        refusals += library->show(numbers[0][0], numbers[0][1]).refusal;
        write_out();
    }
}

/* ---- Times ---- */

static double seconds(void)
{
    struct timespec now;
    clock_gettime(CLOCK_PROCESS_CPUTIME_ID, &now);
    return (double)now.tv_sec + 1e-9 * (double)now.tv_nsec;
}

/* Nanoseconds for one call. */
static double timed(void (*all)(const Library *), const Library *library, int passes)
{
    double started = seconds();
    for (int pass = 0; pass < passes; pass++) all(library);
    return 1e9 * (seconds() - started) / (double)((size_t)passes * calls);
}

static int by_size(const void *one, const void *other)
{
    double x = *(const double *)one, y = *(const double *)other;
    return (x > y) - (x < y);
}

static double median(double *each, int count)
{
    qsort(each, (size_t)count, sizeof *each, by_size);
    return count % 2 ? each[count / 2] : (each[count / 2 - 1] + each[count / 2]) / 2;
}

static void print_times(const char *entry, void (*all)(const Library *), int rounds)
{
    static double times[2][MOST_ROUNDS], ratios[MOST_ROUNDS];
    double once = timed(all, &libraries[1], 3) * (double)calls;
    int passes = once > 1e6 ? 1 : (int)(1e6 / once) + 1;
    for (int round = 0; round < rounds; round++) {
        for (int k = 0; k < 2; k++) {
            int which = (round + k) % 2;
            times[which][round] = timed(all, &libraries[which], passes);
        }
        ratios[round] = times[0][round] / times[1][round];
    }
    printf("%s %.0f %.0f %.3f", entry, median(times[0], rounds), median(times[1], rounds), median(ratios, rounds));
    printf(" %.0f\n", times[0][0]); /* median has sorted them */
}

/* ---- The input ---- */

static size_t big_endian(const uint8_t *from, int bytes)
{
    size_t value = 0;
    for (int k = 0; k < bytes; k++) value = value << 8 | from[k];
    return value;
}

static void read_river(const char *path)
{
    FILE *file = fopen(path, "rb");
    if (!file) fail("no such file");
    size_t size = fread(input, 1, MOST_BYTES, file);
    fclose(file);
    if (size < 12) fail("no table and record");
    table_bytes = 4 + big_endian(input, 4);
    if (table_bytes + 2 > size) fail("the table is cut");
    record_bytes = 2 + big_endian(input + table_bytes, 2);
    for (size_t at = table_bytes; at + record_bytes <= size && calls < MOST_CALLS; at += record_bytes) records[calls++] = input + at;
    places = river_check(input, table_bytes).places;
    if (!places) fail("the table is refused");
}

int main(int argc, char **argv)
{
    int counted = argc == 5 && !strcmp(argv[2], "count"), times = argc > 3 ? atoi(argv[3]) : -1;
    if ((!counted && (argc != 4 || strcmp(argv[2], "times"))) || times < 0 || times > MOST_ROUNDS) fail("usage: see bench/calls.c");
    read_river(argv[1]);
    if (counted && (size_t)times > calls) fail("too few records");
    if (counted)
        count_calls(&libraries[atoi(argv[4]) == 1], (size_t)times);
    else
        compare_calls();
    if (!counted && times > 0) {
        print_times("check", check_all, times);
        print_times("start", start_all, times);
        print_times("step", step_all, times);
        print_times("forecast", forecast_all, times);
        print_times("trial", trial_all, times);
        print_times("show", show_all, times);
    }
    if (refusals) fail("a call is refused");
    return 0;
}
