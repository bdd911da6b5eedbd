/* Follows a river's outlet through a flood: for each accepted step one line for the last element, with its highest forecast.
 *
 *   outlet FILE      FILE holds a table and its records, as the printing program reads them from standard input
 * A refused call prints its number (river.h). The exit status is 0 where nothing was refused, else 1.
 */
#include <inttypes.h>
#include <stdio.h>
#include "river.h"

static uint8_t input[1 << 24];
static uint64_t numbers[RIVER_MOST_NUMBERS]; /* lent to each forecast */
static river_state river;                    /* before the start it may hold anything */

/* As a display shows them: floats in m3/s, which with six places have the digits of the counts. What is compared is the counts. */
static void print_discharge(river_figures figures)
{
    river_shown shown = river_show(figures.discharge, figures.discharge_margin); /* no forecast has a count that it refuses */
    printf("%.6f m3/s +- %.6f", shown.discharge, shown.margin);
}

static int refused(uint64_t number)
{
    if (number) printf("step %" PRIu64 " refused %" PRIu64 "\n", river.steps, number);
    return number != RIVER_ACCEPTED;
}

static river_figures outlet_at(const river_plan *plan, size_t lead)
{
    return river_figures_at(numbers, plan->leads, plan->elements, lead);
}

/* The last element's line: its figures now, which are lead 0, and the highest of its leads. */
static void print_outlet(const river_plan *plan)
{
    size_t highest = 1;
    for (size_t lead = 2; lead <= plan->leads; lead++)
        if (outlet_at(plan, lead).discharge > outlet_at(plan, highest).discharge) highest = lead;
    printf("step %" PRIu64 ": ", river.steps);
    print_discharge(outlet_at(plan, 0));
    printf(", highest ");
    print_discharge(outlet_at(plan, highest));
    printf(" at lead %zu\n", highest);
}

/* How many of the bytes left belong to a table or record that begins with a length field of so many bytes. */
static size_t whole(const uint8_t *from, size_t left, size_t field)
{
    size_t size = 0;
    if (left < field) return left;
    for (size_t k = 0; k < field; k++) size = size << 8 | from[k];
    return size + field < left ? size + field : left;
}

int main(int argc, char **argv)
{
    if (river_version() != RIVER_VERSION) {
        fprintf(stderr, "outlet: the library is of version %" PRIu64 ", river.h of %d\n", river_version(), RIVER_VERSION);
        return 1;
    }
    FILE *file = argc == 2 ? fopen(argv[1], "rb") : NULL;
    if (!file) {
        fprintf(stderr, "usage: outlet FILE\n");
        return 1;
    }
    size_t size = fread(input, 1, sizeof input, file), table_bytes = whole(input, size, 4), bytes;
    int refusals = 0;
    fclose(file);
    if (refused(river_start(input, table_bytes, &river))) return 1;
    river_plan plan = river_check(input, table_bytes);
    printf("%zu elements, %zu gauges, %zu leads, records of %zu bytes or, with floats, %zu\n", plan.elements, plan.gauges, plan.leads,
           plan.record_bytes, plan.record_bytes + 2 * plan.gauges);
    for (size_t at = table_bytes; at < size; at += bytes) {
        bytes = whole(input + at, size - at, 2);
        uint64_t number = river_step(input, table_bytes, input + at, bytes, &river); /* a refused step leaves the state as it was */
        refusals += refused(number);
        if (number && number <= RIVER_REFUSED_RECORD_LENGTH) return 1; /* what follows can no longer be told apart */
        if (number) continue;
        river_written ahead = river_forecast(input, table_bytes, &river, numbers, RIVER_MOST_NUMBERS);
        refusals += refused(ahead.refusal);
        if (!ahead.refusal) print_outlet(&plan);
    }
    return refusals != 0;
}
