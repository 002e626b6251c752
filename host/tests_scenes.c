// A bus at work: document 01's own book as calls, runs against single periods, timers, hits, frames on D, copies of a bus.
#include "tests.h"

#include <string.h>

// ---- Document 01's book

// The report's lines behind its first one.
static const char document_01[] = "0 1 MPH-II connected\n"
                                  "7 0 PH-ACT -\n"
                                  "7 0 MPH-ACT -\n"
                                  "8 1 PH-ACT -\n"
                                  "8 1 MPH-ACT -\n"
                                  "8 1 MPH-EI2 -\n"
                                  "16 0 heard 00\n"
                                  "16 1 done1 -\n";

// The book's lines that fall into a period.
static void lines_of(struct scene *s, uint32_t period)
{
    static const uint8_t body[] = {0x00};
    if (period == 0) {
        CHECK(s->t, give(s, 1, SBUS_ON) == SBUS_OK);
    }
    if (period == 1) {
        CHECK(s->t, give(s, 1, SBUS_AR) == SBUS_OK);
    }
    if (period == 9) {
        CHECK(s->t, give_value(s, 1, SBUS_D1, body, sizeof body) == SBUS_OK);
    }
}

// What the units are doing as each period's frame goes: the states of both, whether they are aligned, the class of the frame held, and the bits
// of it that have left. The frame of body 00 has 24 bits.
struct moment {
    uint8_t network;
    uint8_t network_aligned;
    uint8_t terminal;
    uint8_t terminal_aligned;
    uint8_t held;
    uint8_t sent;
};

static const struct moment moments[20] = {
    {1, 0, 2, 0, 0, 0},  {1, 0, 4, 0, 0, 0},  {2, 0, 4, 0, 0, 0},  {2, 0, 5, 0, 0, 0},  {2, 0, 5, 0, 0, 0},
    {2, 0, 6, 1, 0, 0},  {2, 0, 6, 1, 0, 0},  {2, 0, 6, 1, 0, 0},  {3, 1, 6, 1, 0, 0},  {3, 1, 7, 1, 1, 0},
    {3, 1, 7, 1, 1, 0},  {3, 1, 7, 1, 1, 1},  {3, 1, 7, 1, 1, 5},  {3, 1, 7, 1, 1, 9},  {3, 1, 7, 1, 1, 13},
    {3, 1, 7, 1, 1, 17}, {3, 1, 7, 1, 1, 21}, {3, 1, 7, 1, 0, 0},  {3, 1, 7, 1, 0, 0},  {3, 1, 7, 1, 0, 0},
};

static void moment_is(struct scene *s, const struct moment *m)
{
    uint8_t seen[SBUS_SEEN_LENGTH] = {0};
    const uint8_t network[SBUS_SEEN_LENGTH] = {m->network, m->network_aligned, 0};
    const uint8_t terminal[SBUS_SEEN_LENGTH] = {m->terminal, m->terminal_aligned, m->held, m->held == 0 ? 0 : 24, 0, m->sent, 0};
    const uint8_t unpowered[SBUS_SEEN_LENGTH] = {1, 0};
    CHECK(s->t, try_unit(s->t, s->bus, sizeof s->bus, 0, seen, sizeof seen) == SBUS_OK);
    CHECK(s->t, memcmp(seen, network, sizeof seen) == 0);
    CHECK(s->t, try_unit(s->t, s->bus, sizeof s->bus, 1, seen, sizeof seen) == SBUS_OK);
    CHECK(s->t, memcmp(seen, terminal, sizeof seen) == 0);
    CHECK(s->t, try_unit(s->t, s->bus, sizeof s->bus, 2, seen, sizeof seen) == SBUS_OK);
    CHECK(s->t, memcmp(seen, unpowered, sizeof seen) == 0);
}

// 20 periods run, 12 of them in G3.
static void counts_are(struct scene *s, uint32_t periods, uint32_t opportunities)
{
    uint8_t counts[SBUS_COUNTS_LENGTH] = {0};
    CHECK(s->t, try_counts(s->t, s->bus, sizeof s->bus, counts, sizeof counts) == SBUS_OK);
    CHECK(s->t, number(counts, 4) == periods && number(counts + 4, 4) == opportunities);
}

static void test_document_01(struct tests *t, struct scene *by_periods)
{
    struct scene s;
    begin(t, "document 01's book by events and periods, with every state on the way");
    scene_open(by_periods, t);
    for (uint32_t period = 0; period < 20; period++) {
        lines_of(by_periods, period);
        moment_is(by_periods, &moments[period]);
        CHECK(t, run_one(by_periods) == SBUS_OK);
    }
    CHECK(t, text_is(&by_periods->told, document_01, strlen(document_01)));
    counts_are(by_periods, 20, 48);
    end(t);
    begin(t, "document 01's book by events and runs");
    scene_open(&s, t);
    lines_of(&s, 0);
    CHECK(t, run_to(&s, 1) == SBUS_OK);
    lines_of(&s, 1);
    CHECK(t, run_to(&s, 9) == SBUS_OK);
    lines_of(&s, 9);
    CHECK(t, run_to(&s, 20) == SBUS_OK);
    CHECK(t, text_is(&s.told, document_01, strlen(document_01)));
    counts_are(&s, 20, 48);
    CHECK(t, memcmp(s.bus, by_periods->bus, sizeof s.bus) == 0);
    end(t);
}

// ---- Runs

// Where a run stops: at the first period with notes, at the number asked for, and at once where it is there already.
static void test_run(struct tests *t)
{
    struct scene s;
    uint8_t before[SBUS_BUS_LENGTH];
    begin(t, "a run stops at a period with notes, and at the number asked for");
    scene_open(&s, t);
    CHECK(t, try_run(t, s.bus, sizeof s.bus, s.notes, sizeof s.notes, 100) == SBUS_OK && s.notes[0] == SBUS_NOTES_END);
    CHECK(t, periods_run(&s) == 100);
    CHECK(t, give(&s, 1, SBUS_ON) == SBUS_OK);
    CHECK(t, try_run(t, s.bus, sizeof s.bus, s.notes, sizeof s.notes, UINT32_MAX) == SBUS_OK);
    CHECK(t, s.notes[0] == SBUS_MPH_II_CONNECTED && s.notes[1] == 1 && number(s.notes + 4, 4) == 100 && s.notes[8] == SBUS_NOTES_END);
    CHECK(t, periods_run(&s) == 101);
    memcpy(before, s.bus, sizeof before);
    for (uint32_t until = 0; until <= 101; until++) {
        CHECK(t, try_run(t, s.bus, sizeof s.bus, s.notes, sizeof s.notes, until) == SBUS_OK && s.notes[0] == SBUS_NOTES_END);
    }
    CHECK(t, memcmp(s.bus, before, sizeof before) == 0);
    end(t);
}

// Eight terminals with frames of all lengths in both classes: the k-th hand-over.
static void hand_over(struct scene *s, uint32_t k)
{
    uint8_t body[SBUS_BODY_MOST];
    size_t length = 1 + k * 37 % SBUS_BODY_MOST;
    for (size_t i = 0; i < length; i++) {
        body[i] = (uint8_t)(k * 29 + i * (k % 7));
    }
    uint32_t reply = give_value(s, 1 + k % SBUS_TERMINALS, k % 3 == 0 ? SBUS_D2 : SBUS_D1, body, length);
    CHECK(s->t, reply == SBUS_OK || reply == SBUS_FRAME_HELD);
}

static void test_run_is_periods(struct tests *t, struct scene *a, struct scene *b)
{
    begin(t, "3,000 periods of traffic: a run is as many single periods");
    scene_open(a, t);
    scene_open(b, t);
    activate(a, SBUS_TERMINALS);
    activate(b, SBUS_TERMINALS);
    for (uint32_t k = 0; k < 300; k++) {
        hand_over(a, k);
        hand_over(b, k);
        for (uint32_t i = 0; i < 10; i++) {
            CHECK(t, run_one(a) == SBUS_OK);
        }
        CHECK(t, run_to(b, 20 + 10 * (k + 1)) == SBUS_OK);
        CHECK(t, memcmp(a->bus, b->bus, sizeof a->bus) == 0);
    }
    CHECK(t, a->told.length > 0 && a->told.length < a->told.room);
    CHECK(t, text_is(&a->told, b->told.octets, b->told.length));
    end(t);
}

// ---- Timers

static void test_timers(struct tests *t)
{
    static const char t1_told[] = "120000 0 PH-DEACT -\n";
    static const char t3_told[] = "0 1 MPH-II connected\n";
    struct scene s;
    begin(t, "a timer's note carries the period at whose start it was due");
    scene_open(&s, t);
    CHECK(t, give(&s, 0, SBUS_AR) == SBUS_OK);
    CHECK(t, run_to(&s, 119999) == SBUS_OK);
    CHECK(t, s.told.length == 0 && state_of(&s, 0) == 2);
    CHECK(t, run_one(&s) == SBUS_OK);
    CHECK(t, text_is(&s.told, t1_told, strlen(t1_told)));
    CHECK(t, periods_run(&s) == 120000 && state_of(&s, 0) == 4);
    end(t);
    begin(t, "T3 runs from ar, and power off stops it");
    scene_open(&s, t);
    CHECK(t, give(&s, 1, SBUS_ON) == SBUS_OK);
    CHECK(t, run_one(&s) == SBUS_OK);
    CHECK(t, text_is(&s.told, t3_told, strlen(t3_told)));
    CHECK(t, give(&s, 1, SBUS_AR) == SBUS_OK);
    CHECK(t, number(s.bus + TERMINALS_AT, 4) == 120001);
    CHECK(t, give(&s, 1, SBUS_OFF) == SBUS_OK);
    CHECK(t, number(s.bus + TERMINALS_AT, 4) == 0);
    end(t);
}

// ---- Hits

// One silent period: terminals fall back to F3, and the network end follows in the next.
static void test_silence(struct tests *t)
{
    static const char told[] = "20 1 MPH-DEACT -\n20 1 PH-DEACT -\n20 2 dropped2 -\n20 2 MPH-DEACT -\n20 2 PH-DEACT -\n"
                               "21 0 MPH-DEACT -\n21 0 MPH-EI -\n";
    static const uint8_t body[] = {1, 2, 3};
    uint8_t silence[SBUS_SYMBOLS_LENGTH];
    struct scene s;
    begin(t, "a hit of 48 nones silences one period; a held frame is dropped");
    scene_open(&s, t);
    activate(&s, 2);
    memset(silence, SBUS_PUT_NONE, sizeof silence);
    CHECK(t, give_value(&s, 2, SBUS_D2, body, sizeof body) == SBUS_OK);
    CHECK(t, give_value(&s, 0, SBUS_HIT, silence, sizeof silence) == SBUS_OK);
    CHECK(t, run_one(&s) == SBUS_OK);
    CHECK(t, state_of(&s, 1) == 3 && state_of(&s, 2) == 3 && state_of(&s, 0) == 3);
    CHECK(t, run_one(&s) == SBUS_OK);
    CHECK(t, state_of(&s, 0) == 2);
    CHECK(t, text_is(&s.told, told, strlen(told)));
    end(t);
}

// A second hit replaces the first, a refused one replaces nothing, and each is for one period.
static void test_hits(struct tests *t)
{
    uint8_t letters[SBUS_SYMBOLS_LENGTH];
    struct scene s;
    begin(t, "a second hit replaces the first, a refused one does not");
    scene_open(&s, t);
    activate(&s, 1);
    memset(letters, SBUS_PUT_NONE, sizeof letters);
    CHECK(t, give_value(&s, 0, SBUS_HIT, letters, sizeof letters) == SBUS_OK);
    memset(letters, SBUS_KEEP, sizeof letters);
    CHECK(t, give_value(&s, 0, SBUS_HIT, letters, sizeof letters) == SBUS_OK);
    letters[47] = 4;
    CHECK(t, give_value(&s, 0, SBUS_HIT, letters, sizeof letters) == SBUS_WRONG_SLICE);
    CHECK(t, run_to(&s, 30) == SBUS_OK);
    CHECK(t, s.told.length == 0 && state_of(&s, 1) == 7);
    end(t);
    begin(t, "two periods without framing lose alignment: F8, MPH-EI1");
    memset(letters, SBUS_KEEP, sizeof letters);
    letters[0] = SBUS_PUT_MINUS;
    for (uint32_t i = 0; i < 2; i++) {
        CHECK(t, state_of(&s, 1) == 7);
        CHECK(t, give_value(&s, 0, SBUS_HIT, letters, sizeof letters) == SBUS_OK);
        CHECK(t, run_one(&s) == SBUS_OK);
    }
    CHECK(t, state_of(&s, 1) == 8);
    CHECK(t, text_is(&s.told, "31 1 MPH-EI1 -\n", 15));
    end(t);
}

// ---- Frames on D

// The longest body comes through whole: the notes of its period take the most room that a body asks for.
static void test_longest(struct tests *t)
{
    struct scene s;
    uint8_t body[SBUS_BODY_MOST];
    char line[2 * SBUS_BODY_MOST + 1];
    static const char digits[] = "0123456789abcdef";
    begin(t, "a body of 266 octets is heard as it was given");
    scene_open(&s, t);
    activate(&s, 1);
    for (size_t i = 0; i < sizeof body; i++) {
        body[i] = (uint8_t)(255 - i * 3);
        line[2 * i] = digits[body[i] / 16];
        line[2 * i + 1] = digits[body[i] % 16];
    }
    line[2 * sizeof body] = '\0';
    CHECK(t, give_value(&s, 1, SBUS_D1, body, sizeof body) == SBUS_OK);
    CHECK(t, run_to(&s, 2000) == SBUS_OK);
    char *value = memchr(s.room, 'h', s.told.length);
    CHECK(t, value != NULL && (size_t)(s.room + s.told.length - value) > 6 + 2 * sizeof body);
    CHECK(t, value != NULL && memcmp(value, "heard ", 6) == 0 && memcmp(value + 6, line, 2 * sizeof body) == 0);
    CHECK(t, value != NULL && value[6 + 2 * sizeof body] == '\n');
    end(t);
}

// Bodies 00 and 01 begin together: 00 goes through, 01 starts over.
static void test_contention(struct tests *t)
{
    static const uint8_t low[] = {0x00};
    static const uint8_t high[] = {0x01};
    static const char told[] = "25 0 heard 00\n26 2 done1 -\n33 0 heard 01\n34 1 done1 -\n";
    struct scene s;
    begin(t, "bodies 00 and 01 begun together: 00 is completed first");
    scene_open(&s, t);
    activate(&s, 2);
    CHECK(t, give_value(&s, 1, SBUS_D1, high, sizeof high) == SBUS_OK);
    CHECK(t, give_value(&s, 2, SBUS_D1, low, sizeof low) == SBUS_OK);
    CHECK(t, run_to(&s, 60) == SBUS_OK);
    CHECK(t, text_is(&s.told, told, strlen(told)));
    end(t);
}

// ---- Copies

// A copy of the octets is a bus of its own, and calls on other buses in between change nothing.
static void test_copies(struct tests *t, struct scene *a, struct scene *b)
{
    static const uint8_t body[] = {0xfc, 0xff, 0x03};
    struct scene other;
    begin(t, "a copy of a bus goes on like the bus, whatever is called in between");
    scene_open(a, t);
    scene_open(&other, t);
    activate(a, 3);
    CHECK(t, give_value(a, 3, SBUS_D1, body, sizeof body) == SBUS_OK);
    CHECK(t, run_to(a, 23) == SBUS_OK);
    scene_open(b, t);
    memcpy(b->bus, a->bus, sizeof b->bus);
    a->told.length = 0;
    for (uint32_t i = 0; i < 40; i++) {
        CHECK(t, run_one(a) == SBUS_OK);
        CHECK(t, give(&other, 1 + i % 8, i % 16 < 8 ? SBUS_ON : SBUS_OFF) == SBUS_OK);
        CHECK(t, run_one(&other) == SBUS_OK);
    }
    CHECK(t, run_to(b, 63) == SBUS_OK);
    CHECK(t, a->told.length > 0 && text_is(&a->told, b->told.octets, b->told.length));
    CHECK(t, memcmp(a->bus, b->bus, sizeof a->bus) == 0);
    end(t);
}

// Octets behind the end of notes are as they were: what stood in the room before does not matter.
static void test_old_notes(struct tests *t)
{
    struct scene s;
    begin(t, "notes end with their octet 0, whatever stood in their room");
    scene_open(&s, t);
    memset(s.notes, 0xff, sizeof s.notes);
    CHECK(t, give(&s, 1, SBUS_ON) == SBUS_OK);
    CHECK(t, s.notes[0] == SBUS_NOTES_END && s.notes[1] == 0xff && s.notes[sizeof s.notes - 1] == 0xff);
    CHECK(t, run_one(&s) == SBUS_OK);
    CHECK(t, s.notes[0] == SBUS_MPH_II_CONNECTED && s.notes[8] == SBUS_NOTES_END && s.notes[9] == 0xff);
    end(t);
}

void test_scenes(struct tests *t)
{
    struct scene a;
    struct scene b;
    test_document_01(t, &a);
    test_run(t);
    test_run_is_periods(t, &a, &b);
    test_timers(t);
    test_silence(t);
    test_hits(t);
    test_longest(t);
    test_contention(t);
    test_copies(t, &a, &b);
    test_old_notes(t);
}
