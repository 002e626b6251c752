// Numbers, notes and text; a bus and what it has told; random numbers.
#include "tests.h"

#include <stdarg.h>
#include <stdio.h>
#include <string.h>

uint64_t number(const uint8_t *octets, size_t n)
{
    uint64_t value = 0;
    while (n > 0) {
        n--;
        value = value << 8 | octets[n];
    }
    return value;
}

void put_number(uint8_t *octets, size_t n, uint64_t value)
{
    for (size_t i = 0; i < n; i++) {
        octets[i] = (uint8_t)(value >> 8 * i);
    }
}

// ---- Notes

size_t note_length(const uint8_t *note)
{
    return SBUS_NOTE_HEAD_LENGTH + (size_t)number(note + 2, 2);
}

// A note of which so many octets may be read: its code and unit are some, a body has 1 to 266 octets, and no other note has a value.
static bool note_formed(const uint8_t *note, size_t room)
{
    if (room < SBUS_NOTE_HEAD_LENGTH || note[0] > SBUS_DROPPED2 || note[1] > SBUS_TERMINALS) {
        return false;
    }
    uint64_t value = number(note + 2, 2);
    bool of_unit_0 = note[0] == SBUS_HEARD || note[0] == SBUS_TORN || note[0] == SBUS_MPH_EI;
    bool of_terminal = (note[0] >= SBUS_MPH_EI1 && note[0] <= SBUS_MPH_II_DISCONNECTED) || note[0] >= SBUS_DONE1;
    if ((of_unit_0 && note[1] != 0) || (of_terminal && note[1] == 0)) {
        return false;
    }
    return note[0] == SBUS_HEARD ? value >= 1 && value <= SBUS_BODY_MOST : value == 0;
}

bool notes_formed(const uint8_t *notes, size_t room, size_t *end_at)
{
    size_t at = 0;
    *end_at = 0;
    while (at < room && notes[at] != SBUS_NOTES_END) {
        if (!note_formed(notes + at, room - at) || note_length(notes + at) > room - at) {
            return false;
        }
        at += note_length(notes + at);
    }
    *end_at = at < room ? at : 0;
    return at < SBUS_NOTES_LENGTH && at < room;
}

// ---- Text

void add(struct text *text, const char *octets, size_t length)
{
    size_t left = text->room - text->length;
    size_t n = length < left ? length : left;
    memcpy(text->octets + text->length, octets, n);
    text->length += n;
}

void add_line(struct text *text, const char *format, ...)
{
    char line[700];
    va_list arguments;
    va_start(arguments, format);
    int length = vsnprintf(line, sizeof line, format, arguments);
    va_end(arguments);
    if (length >= 0 && (size_t)length < sizeof line) {
        add(text, line, (size_t)length);
        add(text, "\n", 1);
    }
}

static void add_note(struct text *text, const uint8_t *note)
{
    static const char *const names[] = {
        [SBUS_PH_ACT] = "PH-ACT -",
        [SBUS_PH_DEACT] = "PH-DEACT -",
        [SBUS_MPH_ACT] = "MPH-ACT -",
        [SBUS_MPH_DEACT] = "MPH-DEACT -",
        [SBUS_MPH_EI] = "MPH-EI -",
        [SBUS_MPH_EI1] = "MPH-EI1 -",
        [SBUS_MPH_EI2] = "MPH-EI2 -",
        [SBUS_MPH_II_CONNECTED] = "MPH-II connected",
        [SBUS_MPH_II_DISCONNECTED] = "MPH-II disconnected",
        [SBUS_HEARD] = "heard ",
        [SBUS_TORN] = "torn -",
        [SBUS_DONE1] = "done1 -",
        [SBUS_DONE2] = "done2 -",
        [SBUS_DROPPED1] = "dropped1 -",
        [SBUS_DROPPED2] = "dropped2 -",
    };
    char body[2 * SBUS_BODY_MOST + 1] = "";
    for (size_t i = SBUS_NOTE_HEAD_LENGTH; i < note_length(note); i++) {
        if (snprintf(body + 2 * (i - SBUS_NOTE_HEAD_LENGTH), 3, "%02x", note[i]) != 2) {
            return;
        }
    }
    add_line(text, "%lu %u %s%s", (unsigned long)number(note + 4, 4), note[1], names[note[0]], body);
}

void add_notes(struct text *text, const uint8_t *notes)
{
    size_t end_at;
    if (!notes_formed(notes, SBUS_NOTES_LENGTH, &end_at)) {
        add_line(text, "notes of wrong form");
    }
    for (size_t at = 0; at < end_at; at += note_length(notes + at)) {
        add_note(text, notes + at);
    }
}

bool text_is(const struct text *text, const char *octets, size_t length)
{
    return text->length == length && memcmp(text->octets, octets, length) == 0;
}

// ---- A bus and what it has told

void scene_open(struct scene *s, struct tests *t)
{
    s->t = t;
    memset(s->bus, 0, sizeof s->bus);
    memset(s->notes, 0x55, sizeof s->notes);
    s->told.octets = s->room;
    s->told.length = 0;
    s->told.room = sizeof s->room;
    CHECK(t, try_fresh(t, s->bus, sizeof s->bus) == SBUS_OK);
}

uint32_t give_value(struct scene *s, uint32_t unit, uint32_t event, const uint8_t *value, size_t length)
{
    uint32_t reply = try_event(s->t, s->bus, sizeof s->bus, s->notes, sizeof s->notes, unit, event, value, length);
    if (reply == SBUS_OK) {
        add_notes(&s->told, s->notes);
    }
    return reply;
}

uint32_t give(struct scene *s, uint32_t unit, uint32_t event)
{
    return give_value(s, unit, event, NULL, 0);
}

uint32_t run_one(struct scene *s)
{
    uint32_t reply = try_period(s->t, s->bus, sizeof s->bus, s->notes, sizeof s->notes);
    if (reply == SBUS_OK) {
        add_notes(&s->told, s->notes);
    }
    return reply;
}

uint32_t run_to(struct scene *s, uint32_t until)
{
    uint32_t reply = SBUS_OK;
    while (reply == SBUS_OK && periods_run(s) < until) {
        reply = try_run(s->t, s->bus, sizeof s->bus, s->notes, sizeof s->notes, until);
        if (reply == SBUS_OK) {
            add_notes(&s->told, s->notes);
        }
    }
    return reply;
}

uint32_t periods_run(struct scene *s)
{
    uint8_t counts[SBUS_COUNTS_LENGTH] = {0};
    CHECK(s->t, try_counts(s->t, s->bus, sizeof s->bus, counts, sizeof counts) == SBUS_OK);
    return (uint32_t)number(counts, 4);
}

uint8_t state_of(struct scene *s, uint32_t unit)
{
    uint8_t seen[SBUS_SEEN_LENGTH] = {0};
    CHECK(s->t, try_unit(s->t, s->bus, sizeof s->bus, unit, seen, sizeof seen) == SBUS_OK);
    return seen[0];
}

void activate(struct scene *s, uint32_t terminals)
{
    for (uint32_t unit = 1; unit <= terminals; unit++) {
        CHECK(s->t, give(s, unit, SBUS_ON) == SBUS_OK);
    }
    CHECK(s->t, run_one(s) == SBUS_OK);
    CHECK(s->t, give(s, 1, SBUS_AR) == SBUS_OK);
    CHECK(s->t, run_to(s, 20) == SBUS_OK);
    for (uint32_t unit = 1; unit <= terminals; unit++) {
        CHECK(s->t, state_of(s, unit) == 7);
    }
    s->told.length = 0;
}

// ---- Random numbers: xorshift64*

uint64_t random_next(struct random *r)
{
    r->state ^= r->state >> 12;
    r->state ^= r->state << 25;
    r->state ^= r->state >> 27;
    return r->state * UINT64_C(2685821657736338717);
}

uint32_t random_below(struct random *r, uint32_t n)
{
    return (uint32_t)((random_next(r) >> 32) * n >> 32);
}

void random_fill(struct random *r, uint8_t *octets, size_t length)
{
    for (size_t i = 0; i < length; i += 8) {
        size_t n = length - i < 8 ? length - i : 8;
        put_number(octets + i, n, random_next(r));
    }
}
