// Calls on guarded octets. The library is not built with a sanitizer, so octets outside the lent ones are watched by the machine and by margins: the
// lent octets lie flush with a page that nobody may touch, at its one side or the other by chance, and beside them stand known octets.
#define _DEFAULT_SOURCE
#include "tests.h"

#include <string.h>
#include <sys/mman.h>

enum { PAGE = 4096, MARGIN = 256, MARGIN_OCTET = 0xa7 };

// The pages of each slot: a bus or a book; notes, counts, .. or a book's text; a value or the room of a report; what a book went.
static const size_t pages_of[SLOTS] = {2, 48, 80, 1};

static bool slot_open(struct slot *s, size_t pages)
{
    size_t length = (pages + 2) * PAGE;
    uint8_t *all = mmap(NULL, length, PROT_NONE, MAP_PRIVATE | MAP_ANONYMOUS, -1, 0);
    if (all == MAP_FAILED) {
        return false;
    }
    s->pages = all + PAGE;
    s->room = pages * PAGE;
    return mprotect(s->pages, s->room, PROT_READ | PROT_WRITE) == 0;
}

bool slots_open(struct tests *t)
{
    for (int i = 0; i < SLOTS; i++) {
        if (!slot_open(&t->slots[i], pages_of[i])) {
            return false;
        }
    }
    return true;
}

bool slots_close(struct tests *t)
{
    bool closed = true;
    for (int i = 0; i < SLOTS; i++) {
        closed = munmap(t->slots[i].pages - PAGE, t->slots[i].room + 2 * PAGE) == 0 && closed;
    }
    return closed;
}

// The margin before the octets, or behind them.
static uint8_t *margin_of(const struct slot *s, size_t *length)
{
    size_t rest = s->room - s->length;
    *length = rest < MARGIN ? rest : MARGIN;
    return s->octets == s->pages ? s->octets + s->length : s->octets - *length;
}

uint8_t *slot_lend(struct tests *t, int slot, size_t length)
{
    struct slot *s = &t->slots[slot];
    size_t margin_length;
    CHECK(t, length <= s->room);
    s->length = length <= s->room ? length : s->room;
    s->octets = random_below(&t->sides, 2) == 0 ? s->pages : s->pages + s->room - s->length;
    uint8_t *margin = margin_of(s, &margin_length);
    memset(margin, MARGIN_OCTET, margin_length);
    return s->octets;
}

bool slot_kept(const struct tests *t, int slot)
{
    size_t length;
    const uint8_t *margin = margin_of(&t->slots[slot], &length);
    return length == 0 || (margin[0] == MARGIN_OCTET && memcmp(margin, margin + 1, length - 1) == 0);
}

// ---- Lending a copy, and taking it back

// A copy of the octets in a slot; NULL stays NULL.
static uint8_t *lend(struct tests *t, int slot, const uint8_t *octets, size_t length)
{
    if (octets == NULL) {
        return NULL;
    }
    uint8_t *copy = slot_lend(t, slot, length);
    memcpy(copy, octets, length);
    return copy;
}

// The copy must be as it was lent.
static void untouched(struct tests *t, int slot, const uint8_t *octets, size_t length)
{
    if (octets != NULL) {
        CHECK(t, slot_kept(t, slot));
        CHECK(t, memcmp(t->slots[slot].octets, octets, length) == 0);
    }
}

// After a refusal the copy must be as it was lent; else it is what the call has left.
static void take_back(struct tests *t, int slot, uint32_t reply, uint8_t *octets, size_t length)
{
    if (reply != SBUS_OK) {
        untouched(t, slot, octets, length);
    } else if (octets != NULL) {
        CHECK(t, slot_kept(t, slot));
        memcpy(octets, t->slots[slot].octets, length);
    }
}

// The same of octets of which a call writes only the first `told`: those behind are as they were.
static void take_first(struct tests *t, int slot, uint32_t reply, uint8_t *octets, size_t length, uint64_t told)
{
    if (reply == SBUS_OK && octets != NULL) {
        CHECK(t, told <= length);
        CHECK(t, told > length || memcmp(t->slots[slot].octets + told, octets + told, length - (size_t)told) == 0);
    }
    take_back(t, slot, reply, octets, length);
}

// The same of notes: they are of right form, octets behind their end are as they were, and they have the number of the period that comes, or,
// where periods were run, of the last one run.
static void take_notes(struct tests *t, int slot, uint32_t reply, uint8_t *notes, size_t length, const uint8_t *bus, bool ran)
{
    size_t end_at;
    const uint8_t *copy = t->slots[slot].octets;
    if (reply == SBUS_OK) {
        CHECK(t, notes_formed(copy, length, &end_at));
        CHECK(t, memcmp(copy + end_at + 1, notes + end_at + 1, length - end_at - 1) == 0);
        for (size_t at = 0; at < end_at; at += note_length(copy + at)) {
            uint64_t period = number(copy + at + 4, 4);
            uint64_t coming = number(bus + 5, 4);
            CHECK(t, period == coming || (ran && period + 1 == coming));
        }
    }
    take_back(t, slot, reply, notes, length);
}

// ---- The calls

uint32_t try_read_frame(struct tests *t, uint32_t up, const uint8_t *symbols, size_t symbols_length, uint8_t *fields, size_t fields_length)
{
    const uint8_t *s = lend(t, 0, symbols, symbols_length);
    uint8_t *f = lend(t, 1, fields, fields_length);
    uint32_t reply = sbus_read_frame(up, s, symbols_length, f, fields_length);
    untouched(t, 0, symbols, symbols_length);
    take_back(t, 1, reply, fields, fields_length);
    return reply;
}

uint32_t try_write_frame(struct tests *t, uint32_t up, const uint8_t *fields, size_t fields_length, uint8_t *symbols, size_t symbols_length)
{
    const uint8_t *f = lend(t, 0, fields, fields_length);
    uint8_t *s = lend(t, 1, symbols, symbols_length);
    uint32_t reply = sbus_write_frame(up, f, fields_length, s, symbols_length);
    untouched(t, 0, fields, fields_length);
    take_back(t, 1, reply, symbols, symbols_length);
    return reply;
}

uint32_t try_fresh(struct tests *t, uint8_t *bus, size_t bus_length)
{
    uint8_t *b = lend(t, 0, bus, bus_length);
    uint32_t reply = sbus_fresh(b, bus_length);
    take_back(t, 0, reply, bus, bus_length);
    return reply;
}

uint32_t try_event(struct tests *t, uint8_t *bus, size_t bus_length, uint8_t *notes, size_t notes_length, uint32_t unit, uint32_t event,
                   const uint8_t *value, size_t value_length)
{
    uint8_t *b = lend(t, 0, bus, bus_length);
    uint8_t *n = lend(t, 1, notes, notes_length);
    const uint8_t *v = lend(t, 2, value, value_length);
    uint32_t reply = sbus_event(b, bus_length, n, notes_length, unit, event, v, value_length);
    untouched(t, 2, value, value_length);
    take_back(t, 0, reply, bus, bus_length);
    take_notes(t, 1, reply, notes, notes_length, bus, false);
    return reply;
}

uint32_t try_period(struct tests *t, uint8_t *bus, size_t bus_length, uint8_t *notes, size_t notes_length)
{
    uint8_t *b = lend(t, 0, bus, bus_length);
    uint8_t *n = lend(t, 1, notes, notes_length);
    uint32_t reply = sbus_period(b, bus_length, n, notes_length);
    take_back(t, 0, reply, bus, bus_length);
    take_notes(t, 1, reply, notes, notes_length, bus, true);
    return reply;
}

uint32_t try_run(struct tests *t, uint8_t *bus, size_t bus_length, uint8_t *notes, size_t notes_length, uint32_t until)
{
    uint8_t *b = lend(t, 0, bus, bus_length);
    uint8_t *n = lend(t, 1, notes, notes_length);
    uint32_t reply = sbus_run(b, bus_length, n, notes_length, until);
    take_back(t, 0, reply, bus, bus_length);
    take_notes(t, 1, reply, notes, notes_length, bus, true);
    return reply;
}

uint32_t try_counts(struct tests *t, const uint8_t *bus, size_t bus_length, uint8_t *counts, size_t counts_length)
{
    const uint8_t *b = lend(t, 0, bus, bus_length);
    uint8_t *c = lend(t, 1, counts, counts_length);
    uint32_t reply = sbus_counts(b, bus_length, c, counts_length);
    untouched(t, 0, bus, bus_length);
    take_first(t, 1, reply, counts, counts_length, SBUS_COUNTS_LENGTH);
    return reply;
}

uint32_t try_unit(struct tests *t, const uint8_t *bus, size_t bus_length, uint32_t unit, uint8_t *seen, size_t seen_length)
{
    const uint8_t *b = lend(t, 0, bus, bus_length);
    uint8_t *s = lend(t, 1, seen, seen_length);
    uint32_t reply = sbus_unit(b, bus_length, unit, s, seen_length);
    untouched(t, 0, bus, bus_length);
    take_first(t, 1, reply, seen, seen_length, SBUS_SEEN_LENGTH);
    return reply;
}

uint32_t try_book_fresh(struct tests *t, uint8_t *book, size_t book_length)
{
    uint8_t *b = lend(t, 0, book, book_length);
    uint32_t reply = sbus_book_fresh(b, book_length);
    take_back(t, 0, reply, book, book_length);
    return reply;
}

uint32_t try_book_go_on(struct tests *t, uint8_t *book, size_t book_length, const uint8_t *text, size_t text_length, uint32_t whole, uint8_t *report,
                        size_t report_length, uint8_t *went, size_t went_length)
{
    uint8_t *b = lend(t, 0, book, book_length);
    const uint8_t *x = lend(t, 1, text, text_length);
    uint8_t *r = lend(t, 2, report, report_length);
    uint8_t *w = lend(t, 3, went, went_length);
    uint32_t reply = sbus_book_go_on(b, book_length, x, text_length, whole, r, report_length, w, went_length);
    untouched(t, 1, text, text_length);
    take_back(t, 0, reply, book, book_length);
    take_first(t, 2, reply, report, report_length, reply == SBUS_OK ? number(w + 8, 8) : 0);
    take_first(t, 3, reply, went, went_length, SBUS_WENT_LENGTH);
    return reply;
}
