// What a period costs through C, as a table: bench/host-period builds and runs this.
#include "sbus.h"

#include <stdbool.h>
#include <stdio.h>
#include <string.h>
#include <time.h>

enum { PERIODS = 400000, TIMES = 5 };

// A bus with room for notes. Where terminals have bodies of so many octets, each is given its next frame as soon as one is completed; 0: no frames.
struct bench {
    uint8_t bus[SBUS_BUS_LENGTH];
    uint8_t notes[SBUS_NOTES_LENGTH];
    size_t body_length;
};

static uint32_t low_first(const uint8_t *octets)
{
    return octets[0] | (uint32_t)octets[1] << 8 | (uint32_t)octets[2] << 16 | (uint32_t)octets[3] << 24;
}

// The periods run; a bus that is refused has run none.
static uint32_t periods_run(const struct bench *b)
{
    uint8_t counts[SBUS_COUNTS_LENGTH];
    return sbus_counts(b->bus, sizeof b->bus, counts, sizeof counts) == SBUS_OK ? low_first(counts) : 0;
}

static bool give(struct bench *b, uint32_t unit, uint32_t event, const uint8_t *value, size_t length)
{
    return sbus_event(b->bus, sizeof b->bus, b->notes, sizeof b->notes, unit, event, value, length) == SBUS_OK;
}

// A frame for a terminal: the odd ones send class 1, the even ones class 2.
static bool give_frame(struct bench *b, uint32_t unit)
{
    uint8_t body[SBUS_BODY_MOST];
    memset(body, (int)(0x10 + unit), sizeof body);
    return give(b, unit, unit % 2 == 1 ? SBUS_D1 : SBUS_D2, body, b->body_length);
}

// Every terminal whose frame is completed is given the next. The notes are read before anything is given: an event writes its own there.
static bool answer(struct bench *b)
{
    bool is_done[SBUS_TERMINALS + 1] = {false};
    const uint8_t *note = b->notes;
    while (note[0] != SBUS_NOTES_END) {
        if (note[0] == SBUS_DONE1 || note[0] == SBUS_DONE2) {
            is_done[note[1]] = true;
        }
        note += SBUS_NOTE_HEAD_LENGTH + (note[2] | (size_t)note[3] << 8);
    }
    for (uint32_t unit = 1; unit <= SBUS_TERMINALS; unit++) {
        if (is_done[unit] && !give_frame(b, unit)) {
            return false;
        }
    }
    return true;
}

// The two ways: period by period, and by runs.
static bool by_periods(struct bench *b, uint32_t until)
{
    for (uint32_t period = periods_run(b); period < until; period++) {
        if (sbus_period(b->bus, sizeof b->bus, b->notes, sizeof b->notes) != SBUS_OK || !answer(b)) {
            return false;
        }
    }
    return true;
}

static bool by_runs(struct bench *b, uint32_t until)
{
    while (periods_run(b) < until) {
        if (sbus_run(b->bus, sizeof b->bus, b->notes, sizeof b->notes, until) != SBUS_OK || !answer(b)) {
            return false;
        }
    }
    return true;
}

// A bus with so many terminals, all active, each with its first frame where bodies have octets.
static bool make(struct bench *b, uint32_t terminals, size_t body_length)
{
    bool well = sbus_fresh(b->bus, sizeof b->bus) == SBUS_OK;
    b->body_length = body_length;
    for (uint32_t unit = 1; unit <= terminals; unit++) {
        well = well && give(b, unit, SBUS_ON, NULL, 0);
    }
    well = well && by_runs(b, 1) && (terminals == 0 || give(b, 0, SBUS_AR, NULL, 0)) && by_runs(b, 20);
    for (uint32_t unit = 1; body_length > 0 && unit <= terminals; unit++) {
        well = well && give_frame(b, unit);
    }
    return well;
}

// Nanoseconds a period, the least of some times, from a copy of the bus each time; what it has become is left in `after`. Negative: a call was refused.
static double cost(bool (*run)(struct bench *, uint32_t), const struct bench *from, struct bench *after)
{
    double least = -1;
    for (int i = 0; i < TIMES; i++) {
        *after = *from;
        uint32_t first = periods_run(after);
        clock_t began = clock();
        if (!run(after, first + PERIODS)) {
            return -1;
        }
        double took = (double)(clock() - began) / CLOCKS_PER_SEC * 1e9 / PERIODS;
        least = least < 0 || took < least ? took : least;
    }
    return least;
}

// One line of the table. Both ways must leave the same bus.
static bool measure(const char *name, uint32_t terminals, size_t body_length)
{
    struct bench from;
    struct bench periods;
    struct bench runs;
    if (!make(&from, terminals, body_length)) {
        return false;
    }
    double single = cost(by_periods, &from, &periods);
    double together = cost(by_runs, &from, &runs);
    if (single < 0 || together <= 0 || memcmp(periods.bus, runs.bus, sizeof runs.bus) != 0) {
        return false;
    }
    /* A run leaps over the periods of a still bus: a ratio would only say how many there are. */
    if (together < 1)
        return printf("| %s | %.0f | under 1 | |\n", name, single) >= 0;
    return printf("| %s | %.0f | %.0f | %.1f |\n", name, single, together, single / together) >= 0;
}

int main(void)
{
    bool well = printf("| Bus, %d periods | ns a period, `sbus_period` | ns a period, `sbus_run` | Ratio |\n|---|---|---|---|\n", PERIODS) >= 0
                && measure("idle, no terminal powered", 0, 0) && measure("eight terminals active", 8, 0)
                && measure("traffic of all eight, bodies of 266 octets", 8, SBUS_BODY_MOST) && measure("traffic of all eight, bodies of 8 octets", 8, 8);
    return well && fflush(stdout) == 0 ? 0 : 1;
}
