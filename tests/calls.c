/* Makes the calls of include/river.h that tests/calls.py sends on standard input and writes what comes back.
 *
 *   gcc -O2 -Iinclude tests/calls.c target/staticlib/libriver.a
 *
 * A call: eight numbers of 8 bytes in the machine's order (entry, side, bytes of table, bytes of record, numbers lent, two that are asked
 * about, and places of the state), then the table's bytes, the record's bytes, N, the step count and so many places of the state, and the
 * lent numbers. The state's other places, up to 1,000, get numbers far above C, and no call may change them. Asked about are a gauge and a
 * stage (rate) or a discharge and a margin (show). A reply: refusal, count, whether all that the host keeps stayed as it was, how many
 * numbers follow, and these: what was sent of the state, as it is afterwards (start, step), all that were lent (forecast, trial), the plan's
 * ten after its refusal (check), the library's version and the header's (version), discharge, noise and pieces (rate), or the bits of two
 * floats (show).
 *
 * Table, record, state and lent numbers each end where a page without access begins (side 0) or begin where one ends (side 1), so that a
 * read or write past that end ends this program by a signal; so does a write into what a call is given to read alone.
 */
#define _GNU_SOURCE
#include <stdio.h>
#include <stdlib.h>
#include <string.h>
#include <sys/mman.h>
#include "river.h"

enum { START = 1, STEP = 2, FORECAST = 3, CHECK = 4, VERSION = 5, RATE = 6, TRIAL = 7, SHOW = 8 };
enum { PAGE = 4096, ROOM = 128 * 1024, MARK = 0xA5, STATE_NUMBERS = 7002 };
_Static_assert(sizeof(river_state) == 8 * STATE_NUMBERS, "a state is 7,002 numbers");
_Static_assert(sizeof(river_shown) == 24, "a number and two floats of 8 bytes");

/* ROOM bytes between two pages without access; `copy` is what they held before the call. */
typedef struct {
    uint8_t *room, *at, copy[ROOM];
    size_t size;
} Lent;

static void make_room(Lent *lent)
{
    uint8_t *all = mmap(NULL, ROOM + 2 * PAGE, PROT_READ | PROT_WRITE, MAP_PRIVATE | MAP_ANONYMOUS, -1, 0);
    if (all == MAP_FAILED || mprotect(all, PAGE, PROT_NONE) || mprotect(all + PAGE + ROOM, PAGE, PROT_NONE)) exit(2);
    lent->room = all + PAGE;
}

static void allow(const Lent *lent, int access)
{
    if (mprotect(lent->room, ROOM, access)) exit(2);
}

static void read_whole(void *into, size_t size)
{
    if (size && fread(into, 1, size, stdin) != size) exit(2);
}

/* Fills the room with marks and puts the next `sent` bytes of standard input, and numbers far above C up to `size` bytes, at one end of it;
 * `access` is what the call may do there. */
static void take(Lent *lent, size_t sent, size_t size, int side, int access)
{
    if (size > ROOM || sent > size) exit(2);
    allow(lent, PROT_READ | PROT_WRITE);
    lent->size = size;
    lent->at = side ? lent->room : lent->room + ROOM - size;
    memset(lent->room, MARK, ROOM);
    read_whole(lent->at, sent);
    for (size_t at = sent; at < size; at += 8) memcpy(lent->at + at, &(uint64_t){UINT64_MAX - at * at}, 8);
    memcpy(lent->copy, lent->room, ROOM);
    allow(lent, access);
}

/* Whether all of the room is as before, or all but the first `size` bytes of the lent part. */
static int stayed(const Lent *lent) { return !memcmp(lent->room, lent->copy, ROOM); }

static int stayed_around(const Lent *lent, size_t size)
{
    size_t before = (size_t)(lent->at - lent->room), after = before + size;
    return !memcmp(lent->room, lent->copy, before) && !memcmp(lent->room + after, lent->copy + after, ROOM - after);
}

static void reply(uint64_t refusal, uint64_t count, uint64_t kept, uint64_t size, const void *numbers)
{
    uint64_t head[4] = {refusal, count, kept, size};
    fwrite(head, 8, 4, stdout);
    fwrite(numbers, 8, size, stdout);
    fflush(stdout);
}

static Lent table, record, state, numbers;

static int inputs_stayed(void) { return stayed(&table) && stayed(&record); }

static void state_call(uint64_t entry, size_t sent)
{
    river_state *at = (river_state *)state.at;
    uint64_t refusal = entry == START ? river_start(table.at, table.size, at)
                                      : river_step(table.at, table.size, record.at, record.size, at);
    reply(refusal, 0, inputs_stayed() && stayed_around(&state, sent) && stayed(&numbers), sent / 8, at);
}

static void writing_call(uint64_t entry)
{
    const river_state *from = (const river_state *)state.at;
    uint64_t *into = (uint64_t *)numbers.at;
    size_t lent = numbers.size / 8;
    river_written got = entry == FORECAST ? river_forecast(table.at, table.size, from, into, lent)
                                          : river_trial(table.at, table.size, record.at, record.size, from, into, lent);
    reply(got.refusal, got.count, inputs_stayed() && stayed(&state) && stayed_around(&numbers, numbers.size), numbers.size / 8, numbers.at);
}

static void check_call(void)
{
    river_plan got = river_check(table.at, table.size);
    uint64_t plan[10] = {got.elements, got.leads, got.gauges, got.basins, got.dams, got.tanks, got.places, got.record_bytes,
                         got.forecast_numbers, got.step_minutes};
    reply(got.refusal, 0, inputs_stayed() && stayed(&state) && stayed(&numbers), 10, plan);
}

static void version_call(void)
{
    uint64_t versions[2] = {river_version(), RIVER_VERSION};
    reply(0, 0, inputs_stayed() && stayed(&state) && stayed(&numbers), 2, versions);
}

static void rate_call(uint64_t gauge, uint64_t stage)
{
    river_rating got = river_rate(table.at, table.size, gauge, stage);
    uint64_t rating[3] = {got.discharge, got.noise, got.pieces};
    reply(got.refusal, 0, inputs_stayed() && stayed(&state) && stayed(&numbers), 3, rating);
}

static void show_call(uint64_t discharge, uint64_t margin)
{
    river_shown got = river_show(discharge, margin);
    double shown[2] = {got.discharge, got.margin};
    reply(got.refusal, 0, inputs_stayed() && stayed(&state) && stayed(&numbers), 2, shown);
}

int main(void)
{
    uint64_t head[8];
    make_room(&table), make_room(&record), make_room(&state), make_room(&numbers);
    while (fread(head, 8, 8, stdin) == 8) {
        int side = head[1] == 1, moves = head[0] == START || head[0] == STEP, answers = head[0] == FORECAST || head[0] == TRIAL;
        int writes = PROT_READ | PROT_WRITE;
        size_t sent = sizeof(uint64_t) * 2 + sizeof(river_place) * head[7];
        take(&table, head[2], head[2], side, PROT_READ);
        take(&record, head[3], head[3], side, PROT_READ);
        take(&state, sent, sizeof(river_state), side, moves ? writes : PROT_READ);
        take(&numbers, 8 * head[4], 8 * head[4], side, answers ? writes : PROT_READ);
        switch (head[0]) {
        case START: case STEP: state_call(head[0], sent); break;
        case FORECAST: case TRIAL: writing_call(head[0]); break;
        case CHECK: check_call(); break;
        case VERSION: version_call(); break;
        case RATE: rate_call(head[5], head[6]); break;
        case SHOW: show_call(head[5], head[6]); break;
        default: return 2;
        }
    }
    return 0;
}
