/* The calls of include/river.h in plain C, for bench/calls.c: each judges the table's bytes and works out all it needs of them, as the
 * proved ones do.
 *
 *   gcc -O3 -c '-DNAMED(call)=river_##call' -o target/plain.o bench/plain_calls.c && python3 tests/calls.py target/plain.o
 *
 * tries them in the place of the library.
 */
#include "river_in_c.h"

#ifndef NAMED
#define NAMED(call) plain_##call
#endif

uint64_t NAMED(version)(void) { return RIVER_VERSION; }

river_plan NAMED(check)(const uint8_t *table, size_t table_bytes)
{
    Table t;
    u32 refusal = read_table(&t, table, table_bytes);
    if (refusal) return (river_plan){.refusal = refusal};
    return (river_plan){0, t.count, t.leads, t.gauge_count, t.basin_count, t.dam_count, t.inner_count, t.count + t.inner_count,
                        3 + 2 * t.basin_count + 4 * t.dam_count + 2 * t.gauge_count, 4 * t.count * (t.leads + 1), t.step_minutes};
}

uint64_t NAMED(start)(const uint8_t *table, size_t table_bytes, river_state *state)
{
    Table t;
    u32 refusal = read_table(&t, table, table_bytes);
    if (!refusal) set_first_values(&t, state);
    return refusal;
}

/* All that a step and a trial are refused by before rules 15 and 16. */
static INLINE u32 judge_step(Table *t, const u8 *table, size_t table_bytes, const u8 *record, size_t record_bytes, const river_state *state,
                             Reading *readings)
{
    u32 refusal = read_table(t, table, table_bytes);
    if (!refusal) refusal = judge_state(t, state);
    if (!refusal && state->steps == MOST_STEPS) refusal = 9;
    if (!refusal) refusal = judge_record(t, record, record_bytes, readings);
    return refusal;
}

/* The working out of a step and a trial, and the same for a river with tanks. */
static INLINE int work(const Table *t, const u8 *record, const Reading *readings, const river_state *state, Figures *space, int with_tanks)
{
    u64 weights[MOST_ELEMENTS];
    weigh(t, weights);
    return step_elements(t, weights, record + 3, readings, state, space, with_tanks);
}

static APART u64 step_tanks(const Table *t, const u8 *record, const Reading *readings, river_state *state)
{
    Figures space[MOST_IN_USE + 1];
    if (work(t, record, readings, state, space, 1)) return 16;
    set_next_values(t, record + 3, space, state);
    set_next_tanks(t, space, state);
    return 0;
}

uint64_t NAMED(step)(const uint8_t *table, size_t table_bytes, const uint8_t *record, size_t record_bytes, river_state *state)
{
    Table t;
    Reading readings[MOST_GAUGES + 1];
    Figures space[MOST_ELEMENTS + 1];
    u32 refusal = judge_step(&t, table, table_bytes, record, record_bytes, state, readings);
    if (refusal) return refusal;
    if (t.inner_count) return step_tanks(&t, record, readings, state);
    if (work(&t, record, readings, state, space, 0)) return 16;
    set_next_values(&t, record + 3, space, state);
    return 0;
}

static APART river_written try_tanks(const Table *t, const u8 *record, const Reading *readings, const river_state *state, u64 *numbers)
{
    Figures space[MOST_IN_USE + 1];
    if (work(t, record, readings, state, space, 1)) return (river_written){16, 0};
    memcpy(numbers, space + 1, sizeof *space * t->count);
    return (river_written){0, 4 * t->count};
}

river_written NAMED(trial)(const uint8_t *table, size_t table_bytes, const uint8_t *record, size_t record_bytes, const river_state *state,
                           uint64_t *numbers, size_t numbers_lent)
{
    Table t;
    Reading readings[MOST_GAUGES + 1];
    Figures space[MOST_ELEMENTS + 1];
    u32 refusal = judge_step(&t, table, table_bytes, record, record_bytes, state, readings);
    if (refusal) return (river_written){refusal, 0};
    size_t count = 4 * t.count;
    if (numbers_lent < count) return (river_written){15, 0};
    if (t.inner_count) return try_tanks(&t, record, readings, state, numbers);
    if (work(&t, record, readings, state, space, 0)) return (river_written){16, 0};
    memcpy(numbers, space + 1, sizeof *numbers * count);
    return (river_written){0, count};
}

river_written NAMED(forecast)(const uint8_t *table, size_t table_bytes, const river_state *state, uint64_t *numbers, size_t numbers_lent)
{
    Table t;
    u64 weights[MOST_ELEMENTS];
    Figures space[(MOST_ELEMENTS + 1) * (MOST_LEADS + 1)];
    u32 refusal = read_table(&t, table, table_bytes);
    if (!refusal) refusal = judge_state(&t, state);
    if (refusal) return (river_written){refusal, 0};
    size_t count = 4 * t.count * (t.leads + 1);
    if (numbers_lent < count) return (river_written){15, 0};
    weigh(&t, weights);
    refusal = forecast_elements(&t, weights, NULL, state, space);
    if (refusal) return (river_written){refusal, 0};
    memcpy(numbers, space + t.leads + 1, sizeof *numbers * count);
    return (river_written){0, count};
}

river_rating NAMED(rate)(const uint8_t *table, size_t table_bytes, size_t gauge, uint64_t stage)
{
    Table t;
    u32 refusal = read_table(&t, table, table_bytes);
    if (!refusal && stage > HIGHEST_STAGE && stage != GAP) refusal = 13;
    if (refusal || stage == GAP || gauge < 1 || gauge > t.gauge_count) return (river_rating){refusal, 0, 0, 0};
    river_rating found = look(&t, t.gauges + t.gauge_bytes * (gauge - 1), (u32)stage);
    return found.noise > CEILING ? (river_rating){16, 0, 0, found.pieces} : found;
}

/* A count of at most C, which is exact as a float, in m3/s. */
static inline double in_cubic_metres(u64 grains) { return (double)(int64_t)grains / 1000000.0; }

river_shown NAMED(show)(uint64_t discharge, uint64_t margin)
{
    if (discharge > CEILING || margin > CEILING) return (river_shown){16, 0, 0};
    return (river_shown){0, in_cubic_metres(discharge), in_cubic_metres(margin)};
}
