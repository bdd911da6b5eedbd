/* The proved engine of the river cabinet for programs in C: the entries of documents 01 and 02 on memory that the host owns.
 *
 *   tools/build library                                     writes target/staticlib/libriver.a
 *   gcc -Iinclude program.c target/staticlib/libriver.a      links it (x86-64 Linux)
 *
 * Every call checks all that it is given and answers 0 where it is accepted, else the first number for no, in checking order, that applies.
 * A refused call leaves the state and the lent numbers as they were. No call keeps anything or allocates memory, so any number of rivers
 * and threads can call at a time; a call takes up to 72 KB of its thread's stack.
 * A pointer must be valid for as many bytes or numbers as the length after it says, must not be null (also where the length is 0), and
 * what a call writes (the state of a start or a step, the numbers of a forecast or a trial) must not overlap anything else that it is given.
 *
 * Discharges and their margins are in grains of 0.000001 m3/s, variances and theirs in 0.001 (m3/s)^2.
 */
#ifndef RIVER_H
#define RIVER_H

#include <stddef.h>
#include <stdint.h>

#ifdef __cplusplus
extern "C" {
#endif

/* The version of this header. At its start a host compares it with the library's own, river_version(), and makes no other call where they
 * differ: an object compiled with an old header would hand a new library its memory in another shape. A stored state belongs to the version
 * that moved it, or to a later one that this header names. Version 6 has reaches made of tanks (M-107): a state has 1,000 places where that
 * of version 5 has 64, and river_plan tells tanks and places. It moves a state of a table that version 5 accepts as versions 4 and 5 do: the
 * 450 numbers of a state that one of these has moved may be given to it as the first 450 of a state, whatever the others hold. Those that
 * version 3 has moved may not (M-103): start anew and send the records again. */
#define RIVER_VERSION 6

enum { RIVER_MOST_ELEMENTS = 64, RIVER_MOST_PLACES = 1000, RIVER_MOST_LEADS = 12, RIVER_MOST_GAUGES = 16 };
enum { RIVER_MOST_NUMBERS = 4 * RIVER_MOST_ELEMENTS * (RIVER_MOST_LEADS + 1) };

/* The numbers for no of documents 01 and 02, in checking order. C is 4,000,000,000, the ceiling of every figure. */
enum {
    RIVER_ACCEPTED = 0,
    RIVER_REFUSED_TABLE_LENGTH = 1,     /* the table has under 10 bytes, or its length field is not the count of bytes after it */
    RIVER_REFUSED_TABLE_VERSION = 2,    /* the table's version is neither 1 nor 2 */
    RIVER_REFUSED_TABLE_COUNTS = 3,     /* T, L, N or M is out of range */
    RIVER_REFUSED_TABLE_SIZE = 4,       /* the table's length field does not fit its version, N and M */
    RIVER_REFUSED_ELEMENT_FIELD = 5,    /* an element's kind or any field but down is out of range */
    RIVER_REFUSED_ELEMENT_DOWN = 6,     /* a down is neither 0 nor a later element, or it names a basin */
    RIVER_REFUSED_GAUGE_FIELD = 7,      /* a gauge field is out of range or out of order, or the gauge stands on a dam */
    RIVER_REFUSED_STATE_RANGE = 8,      /* the state has another N, a step count above 10,000, a figure (of a tank too) above C or a rain above 3,000 */
    RIVER_REFUSED_STEP_LIMIT = 9,       /* the state's step count is 10,000 already */
    RIVER_REFUSED_RECORD_LENGTH = 10,   /* the record's bytes, its length field or both do not fit the table */
    RIVER_REFUSED_RECORD_VERSION = 11,  /* the record's version is neither 1 nor 2 */
    RIVER_REFUSED_RAIN_RANGE = 12,      /* a rain is above 3,000 */
    RIVER_REFUSED_RELEASE_RANGE = 17,   /* a release is above C; judged after 12 and before 13 */
    RIVER_REFUSED_STAGE_RANGE = 13,     /* a stage of version 1 is above 30,000 and not 65535, which is a gap */
    RIVER_REFUSED_FLOAT_RANGE = 18,     /* a float of version 2 is infinite, not a number (but for the gap's pattern), below zero as sent
                                           or above 30,000 mm once rounded; judged after 13 and before 14 */
    RIVER_REFUSED_READING_RANGE = 14,   /* a stage lies below its curve, or the curve gives more than C */
    RIVER_REFUSED_ANSWER_SPACE = 15,    /* fewer numbers are lent than the forecast or the trial has */
    RIVER_REFUSED_ABOVE_CEILING = 16    /* some figure of this call, a number on the way to it or the noise of a reading would pass C */
};

/* What a figure is and how far it may lie from the run in exact fractions. */
typedef struct {
    uint64_t discharge, discharge_margin, variance, variance_margin;
} river_figures;

/* One element, or one tank above the last of an element of tanks: its figures and, of a basin, its last three rains, the latest first. */
typedef struct {
    river_figures figures;
    uint64_t rain[3];
} river_place;

/* A river's state, 7,002 numbers: N, accepted steps, and a place for each element; place[0] is element 1. Of an element of k tanks this is the
 * place of the last tank, whose figures are the element's; its k - 1 others stand after the N elements, those of all such elements in
 * element order, the uppermost of each first: from place[N] on. Before a start the state may hold anything. Places beyond those in use,
 * N + tanks of river_plan, and all rains but those of basins are neither read nor changed.
 * A state may be stored and given back later with the same table, to the same RIVER_VERSION or one that takes it: the run then goes on, also
 * in another process after a power cut. */
typedef struct {
    uint64_t elements, steps;
    river_place place[RIVER_MOST_PLACES];
} river_state;

#if defined(__cplusplus) && __cplusplus >= 201103L
static_assert(sizeof(river_state) == 8 * (2 + 7 * RIVER_MOST_PLACES), "a state is 7,002 numbers of 8 bytes");
#elif defined(__STDC_VERSION__) && __STDC_VERSION__ >= 201112L
_Static_assert(sizeof(river_state) == 8 * (2 + 7 * RIVER_MOST_PLACES), "a state is 7,002 numbers of 8 bytes");
#else
typedef char river_state_is_7002_numbers[sizeof(river_state) == 8 * (2 + 7 * RIVER_MOST_PLACES) ? 1 : -1];
#endif

/* What a table asks the host to lend: its counts, tanks being those above the last of their elements and places the elements and these, the
 * places of a state that are in use; the bytes of a step record of version 1, the numbers of a forecast, and T, the minutes of a
 * step; all 0 but the refusal where the table is refused. A record of version 2, which has the bits of a 32-bit float in metres for each
 * gauge where version 1 has a stage in millimetres, has record_bytes + 2 * gauges bytes; records of both versions may follow one another. */
typedef struct {
    uint64_t refusal;
    size_t elements, leads, gauges, basins, dams, tanks, places, record_bytes, forecast_numbers;
    uint64_t step_minutes;
} river_plan;

/* How many numbers a forecast or a trial has written; 0 where it is refused. */
typedef struct {
    uint64_t refusal;
    size_t count;
} river_written;

/* What the curve of a gauge gives for a stage: the discharge and the noise of a reading there, both 0 where it is refused, and how many
 * pieces were read, from the first on: the number (from 1) of the piece that the discharge, the 14 or the 16 is of. It is 0 where no curve
 * is looked along: at any other refusal, for a gap (65535) and for a gauge that the table does not have; discharge and noise then are 0 too.
 * The noise is R, and with a table of version 2 as much more as beta makes of the discharge. */
typedef struct {
    uint64_t refusal, discharge, noise;
    size_t pieces;
} river_rating;

/* A discharge and its margin in m3/s, for a display; both 0 where the call is refused. */
typedef struct {
    uint64_t refusal;
    double discharge, margin;
} river_shown;

/* The version of the library that is linked: RIVER_VERSION of its own header. */
uint64_t river_version(void);

/* Judges a table by rules 1 to 7 and tells what it asks for. */
river_plan river_check(const uint8_t *table, size_t table_bytes);

/* Starts a river, whatever its state held: rules 1 to 7. */
uint64_t river_start(const uint8_t *table, size_t table_bytes, river_state *state);

/* A step of the state on a record: rules 1 to 14 and 16 to 18. */
uint64_t river_step(const uint8_t *table, size_t table_bytes, const uint8_t *record, size_t record_bytes, river_state *state);

/* A forecast from the state, which stays: rules 1 to 8, 15 and 16. By element, then lead 0 (the state) to L, it writes discharge, margin,
 * variance and variance margin: those of element e (from 1) at lead l (from 0) begin at numbers[4 * ((e - 1) * (leads + 1) + l)]. What
 * lies after the last of them stays. */
river_written river_forecast(const uint8_t *table, size_t table_bytes, const river_state *state, uint64_t *numbers, size_t numbers_lent);

/* A trial of a step on a record: what the step would leave in the state, which stays. It refuses as the step would, with 15 (fewer than
 * 4 N numbers lent) after 14 and before 16: rules 1 to 12, 17, 13, 18, 14, 15, 16. By element it writes discharge, margin, variance and
 * variance margin, as a forecast of lead 0 alone: those of element e (from 1) begin at numbers[4 * (e - 1)]. What lies after the last of
 * them stays. */
river_written river_trial(const uint8_t *table, size_t table_bytes, const uint8_t *record, size_t record_bytes, const river_state *state,
                          uint64_t *numbers, size_t numbers_lent);

/* Looks along the curve of a gauge (from 1, in the table's order) with a stage in millimetres, as a step does with a reading: rules 1 to 7,
 * 13, 14, and 16 for a noise above C. */
river_rating river_rate(const uint8_t *table, size_t table_bytes, size_t gauge, uint64_t stage);

/* A discharge and its margin, as a forecast or a trial hands them out, as floats in m3/s: each count divided once by 1,000,000, so that it
 * is the double nearest to the figure. Rule 16: a count above C, which no call hands out. The display's rounding is not part of the margin:
 * compare counts, not floats. */
river_shown river_show(uint64_t discharge, uint64_t margin);

/* The figures of an element (from 1) at a lead (from 0) in the numbers of a forecast; of a trial with leads 0 and lead 0. */
static inline river_figures river_figures_at(const uint64_t *numbers, size_t leads, size_t element, size_t lead)
{
    const uint64_t *at = numbers + 4 * ((element - 1) * (leads + 1) + lead);
    river_figures figures = {at[0], at[1], at[2], at[3]};
    return figures;
}

#ifdef __cplusplus
}
#endif

#endif
