// What the tests of the library share: random numbers, counting, calls on guarded octets, notes as text.
#ifndef SBUS_TESTS_H
#define SBUS_TESTS_H

#include "sbus.h"

#include <stdbool.h>
#include <stddef.h>
#include <stdint.h>

// ---- Random numbers: the same ones from the same seed (tests_text.c)

struct random {
    uint64_t state; // not 0
};
uint64_t random_next(struct random *r);
// A number below n.
uint32_t random_below(struct random *r, uint32_t n);
void random_fill(struct random *r, uint8_t *octets, size_t length);

// ---- Counting (tests.c)

// A place for octets that a call is lent, between pages that nobody may touch (tests_guard.c).
struct slot {
    uint8_t *pages; // the pages that may be touched
    size_t room;    // their octets
    uint8_t *octets;
    size_t length;
};

enum { SLOTS = 4 };

struct tests {
    unsigned long passed;
    unsigned long failed;
    char name[160];
    bool holds; // whether every check of the test under way has held
    struct slot slots[SLOTS];
    struct random sides; // where octets that are lent lie: at the start of their pages, or at their end
};

// A test begins under a name, and ends: it is passed if every check in between has held. The first that does not hold is printed.
void begin(struct tests *t, const char *format, ...) __attribute__((format(printf, 2, 3)));
void end(struct tests *t);
void check_at(struct tests *t, bool holds, const char *what, const char *file, int line);
#define CHECK(t, what) check_at((t), (what), #what, __FILE__, __LINE__)

// Every group of tests.
void test_frames(struct tests *t);
void test_bus(struct tests *t);
void test_scenes(struct tests *t);
void test_books(struct tests *t, int count, char **names);
void test_random(struct tests *t, uint64_t seed);

// ---- Guarded octets (tests_guard.c)

bool slots_open(struct tests *t);
bool slots_close(struct tests *t);

// Room for so many octets in a slot, flush with a page that nobody may touch; on the other side of them is a margin of known octets.
uint8_t *slot_lend(struct tests *t, int slot, size_t length);
// Whether that margin is as it was.
bool slot_kept(const struct tests *t, int slot);

// The library's calls, on copies of the octets in guarded slots. They check what holds of every call: nothing outside the lent octets is read or
// written, nothing const is written, a refused call changes no octet, notes have the form that sbus.h says.
uint32_t try_read_frame(struct tests *t, uint32_t up, const uint8_t *symbols, size_t symbols_length, uint8_t *fields, size_t fields_length);
uint32_t try_write_frame(struct tests *t, uint32_t up, const uint8_t *fields, size_t fields_length, uint8_t *symbols, size_t symbols_length);
uint32_t try_fresh(struct tests *t, uint8_t *bus, size_t bus_length);
uint32_t try_event(struct tests *t, uint8_t *bus, size_t bus_length, uint8_t *notes, size_t notes_length, uint32_t unit, uint32_t event,
                   const uint8_t *value, size_t value_length);
uint32_t try_period(struct tests *t, uint8_t *bus, size_t bus_length, uint8_t *notes, size_t notes_length);
uint32_t try_run(struct tests *t, uint8_t *bus, size_t bus_length, uint8_t *notes, size_t notes_length, uint32_t until);
uint32_t try_counts(struct tests *t, const uint8_t *bus, size_t bus_length, uint8_t *counts, size_t counts_length);
uint32_t try_unit(struct tests *t, const uint8_t *bus, size_t bus_length, uint32_t unit, uint8_t *seen, size_t seen_length);
uint32_t try_book_fresh(struct tests *t, uint8_t *book, size_t book_length);
uint32_t try_book_go_on(struct tests *t, uint8_t *book, size_t book_length, const uint8_t *text, size_t text_length, uint32_t whole, uint8_t *report,
                        size_t report_length, uint8_t *went, size_t went_length);

// ---- Frames (tests_frames.c)

// Whether a frame of a direction has a field: upward there is no E, A, M or S.
bool has_field(uint32_t up, size_t field);

// ---- The layout of a bus (sbus.h, at its end)

// How many octets the record and a terminal have, and how many of them are fields; where the terminals, the letters of the hit and the
// octets of the reader begin.
enum {
    RECORD_FIELDS = 32,
    RECORD_LENGTH = 112,
    TERMINAL_FIELDS = 16,
    TERMINAL_LENGTH = 24,
    TERMINALS_AT = 112,
    LETTERS_AT = 304,
    OCTETS_AT = 352
};

// ---- Numbers, notes and text (tests_text.c)

// A number of n octets, the low-order one first; and such a number put.
uint64_t number(const uint8_t *octets, size_t n);
void put_number(uint8_t *octets, size_t n, uint64_t value);

// The octets of a note with its value.
size_t note_length(const uint8_t *note);
// Whether notes in so much room are of right form, and where their end stands.
bool notes_formed(const uint8_t *notes, size_t room, size_t *end_at);

// Text that grows up to its room. What does not fit is left off, and the text is then as long as its room.
struct text {
    char *octets;
    size_t length;
    size_t room;
};
void add(struct text *text, const char *octets, size_t length);
void add_line(struct text *text, const char *format, ...) __attribute__((format(printf, 2, 3)));
// Notes as lines of a report.
void add_notes(struct text *text, const uint8_t *notes);
bool text_is(const struct text *text, const char *octets, size_t length);

// ---- A bus and what it has told (tests_text.c)

struct scene {
    struct tests *t;
    uint8_t bus[SBUS_BUS_LENGTH];
    uint8_t notes[SBUS_NOTES_LENGTH];
    struct text told;
    char room[16384];
};

// A fresh bus that has told nothing.
void scene_open(struct scene *s, struct tests *t);
// Calls on it; their notes are added to what was told.
uint32_t give(struct scene *s, uint32_t unit, uint32_t event);
uint32_t give_value(struct scene *s, uint32_t unit, uint32_t event, const uint8_t *value, size_t length);
uint32_t run_one(struct scene *s);
// Runs until so many periods are run, through as many calls of sbus_run as it takes; the last reply.
uint32_t run_to(struct scene *s, uint32_t until);
uint32_t periods_run(struct scene *s);
uint8_t state_of(struct scene *s, uint32_t unit);
// Powers so many terminals, and activates them from the first: everybody is in F7 then, and nothing is counted as told.
void activate(struct scene *s, uint32_t terminals);

#endif
