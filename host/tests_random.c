// A million random octet strings as symbols, buses and events, the same ones from the same seed, and more as fields and books. Some are garbage; most
// are a few octets away from something real, which is where a wrong check would show. What holds of every call is checked by the calls themselves
// (tests_guard.c); here it is what each call replies, and what it leaves.
#include "tests.h"

#include <stdio.h>
#include <string.h>

enum {
    SYMBOL_STRINGS = 250000,
    GARBAGE_BUSES = 150000,
    MUTANT_BUSES = 350000,
    EVENTS = 250000,
    FIELD_STRINGS = 50000,
    GARBAGE_BOOKS = 30000,
    MUTANT_BOOKS = 40000,
    TEXTS = 30000,
    REAL_BUSES = 64
};

// One to three octets become something else: any octet, or one near what it was. They are in the first `most` octets.
static void mutate(struct random *r, uint8_t *octets, size_t most)
{
    for (uint32_t n = 1 + random_below(r, 3); n > 0; n--) {
        uint8_t *o = octets + random_below(r, (uint32_t)most);
        uint8_t any = (uint8_t)random_next(r);
        uint32_t how = random_below(r, 4);
        *o = how == 0 ? any : how == 1 ? (uint8_t)(*o + 1) : how == 2 ? (uint8_t)(*o - 1) : (uint8_t)(*o ^ 1u << any % 8);
    }
}

// ---- Frames

// Symbols: octets of any number; 48 symbols; a frame; a frame with some symbols changed.
static size_t some_symbols(struct random *r, struct tests *t, uint32_t up, uint8_t *symbols)
{
    uint8_t fields[SBUS_FIELDS_LENGTH];
    uint32_t how = random_below(r, 8);
    if (how == 0) {
        random_fill(r, symbols, 64);
        return random_below(r, 65);
    }
    if (how == 1) {
        for (size_t i = 0; i < SBUS_SYMBOLS_LENGTH; i++) {
            symbols[i] = (uint8_t)random_below(r, 3);
        }
        return SBUS_SYMBOLS_LENGTH;
    }
    random_fill(r, fields, sizeof fields);
    for (size_t i = SBUS_D12; i < sizeof fields; i++) {
        fields[i] = has_field(up, i) ? fields[i] & 1 : 0;
    }
    CHECK(t, try_write_frame(t, up, fields, sizeof fields, symbols, SBUS_SYMBOLS_LENGTH) == SBUS_OK);
    for (uint32_t n = how == 2 ? 0 : random_below(r, 4); n > 0; n--) {
        symbols[random_below(r, SBUS_SYMBOLS_LENGTH)] = (uint8_t)random_below(r, how == 3 ? 4 : 3);
    }
    return SBUS_SYMBOLS_LENGTH;
}

static void try_symbols(struct tests *t, struct random *r)
{
    uint8_t symbols[64] = {0};
    uint8_t again[SBUS_SYMBOLS_LENGTH] = {0};
    uint8_t fields[SBUS_FIELDS_LENGTH];
    uint32_t up = random_below(r, 2);
    size_t length = some_symbols(r, t, up, symbols);
    bool is_line = length == SBUS_SYMBOLS_LENGTH;
    for (size_t i = 0; i < length; i++) {
        is_line = is_line && symbols[i] <= SBUS_MINUS;
    }
    random_fill(r, fields, sizeof fields);
    uint32_t reply = try_read_frame(t, up, symbols, length, fields, sizeof fields);
    CHECK(t, is_line ? reply == SBUS_OK || reply == SBUS_NO_FRAME : reply == SBUS_WRONG_SLICE);
    if (reply == SBUS_OK) {
        CHECK(t, try_write_frame(t, up, fields, sizeof fields, again, sizeof again) == SBUS_OK);
        CHECK(t, memcmp(again, symbols, sizeof again) == 0);
    }
}

static void try_fields(struct tests *t, struct random *r)
{
    uint8_t fields[2 * SBUS_FIELDS_LENGTH];
    uint8_t again[SBUS_FIELDS_LENGTH] = {0};
    uint8_t symbols[SBUS_SYMBOLS_LENGTH] = {0};
    uint32_t up = random_below(r, 2);
    size_t length = random_below(r, 8) == 0 ? random_below(r, sizeof fields + 1) : SBUS_FIELDS_LENGTH;
    bool fits = length == SBUS_FIELDS_LENGTH;
    uint32_t limit = random_below(r, 2) == 0 ? 2 : 3;
    random_fill(r, fields, sizeof fields);
    for (size_t i = SBUS_D12; i < SBUS_FIELDS_LENGTH; i++) {
        fields[i] = has_field(up, i) ? (uint8_t)random_below(r, limit) : (uint8_t)(random_below(r, 40) == 0);
        fits = fits && fields[i] <= (has_field(up, i) ? 1 : 0);
    }
    CHECK(t, try_write_frame(t, up, fields, length, symbols, sizeof symbols) == (fits ? SBUS_OK : SBUS_WRONG_SLICE));
    if (fits) {
        CHECK(t, try_read_frame(t, up, symbols, sizeof symbols, again, sizeof again) == SBUS_OK);
        CHECK(t, memcmp(again, fields, sizeof again) == 0);
    }
}

// ---- Real buses

// Random octets of a body, short ones mostly.
static size_t some_body(struct random *r, uint8_t *body)
{
    size_t length = random_below(r, 10) == 0 ? 1 + random_below(r, SBUS_BODY_MOST) : 1 + random_below(r, 12);
    random_fill(r, body, length);
    if (random_below(r, 3) == 0) {
        memset(body, random_below(r, 2) == 0 ? 0xff : 0x00, length);
    }
    return length;
}

// Letters of a hit: all of one kind, or some, or few.
static void some_letters(struct random *r, uint8_t *letters)
{
    uint32_t keep = random_below(r, 3) * 20;
    for (size_t i = 0; i < SBUS_SYMBOLS_LENGTH; i++) {
        letters[i] = random_below(r, keep + 1) != 0 ? SBUS_KEEP : (uint8_t)random_below(r, 4);
    }
    if (random_below(r, 4) == 0) {
        memset(letters, SBUS_PUT_NONE, SBUS_SYMBOLS_LENGTH);
    }
}

// An event that a bench may give, or one with wrong numbers or a wrong value.
static uint32_t some_event(struct tests *t, struct random *r, uint8_t *bus, uint8_t *notes)
{
    uint8_t value[300] = {0};
    uint32_t event = random_below(r, 50) == 0 ? (uint32_t)random_next(r) : random_below(r, 9);
    uint32_t unit = random_below(r, 50) == 0 ? (uint32_t)random_next(r) : random_below(r, 10);
    size_t length = some_body(r, value);
    if (event == SBUS_HIT) {
        some_letters(r, value);
        length = SBUS_SYMBOLS_LENGTH;
        unit = random_below(r, 4) == 0 ? unit : 0;
    }
    if (random_below(r, 20) == 0) {
        random_fill(r, value, sizeof value);
        length = random_below(r, sizeof value + 1);
    }
    return try_event(t, bus, SBUS_BUS_LENGTH, notes, SBUS_NOTES_LENGTH, unit, event, value, length);
}

// A bus that has gone through something: powered terminals, most of them active, frames held and under way, hits, timers running.
static void make_real(struct tests *t, struct random *r, uint8_t *bus)
{
    uint8_t notes[SBUS_NOTES_LENGTH] = {0};
    CHECK(t, try_fresh(t, bus, SBUS_BUS_LENGTH) == SBUS_OK);
    for (uint32_t unit = 1; unit <= SBUS_TERMINALS; unit++) {
        if (random_below(r, 4) != 0) {
            CHECK(t, try_event(t, bus, SBUS_BUS_LENGTH, notes, sizeof notes, unit, SBUS_ON, NULL, 0) == SBUS_OK);
        }
    }
    CHECK(t, try_period(t, bus, SBUS_BUS_LENGTH, notes, sizeof notes) == SBUS_OK);
    CHECK(t, try_event(t, bus, SBUS_BUS_LENGTH, notes, sizeof notes, 0, SBUS_AR, NULL, 0) == SBUS_OK);
    for (uint32_t n = 10 + random_below(r, 100); n > 0; n--) {
        uint32_t unit = 1 + random_below(r, SBUS_TERMINALS);
        uint8_t body[SBUS_BODY_MOST];
        size_t length = some_body(r, body);
        CHECK(t, try_event(t, bus, SBUS_BUS_LENGTH, notes, sizeof notes, unit, SBUS_D1 + random_below(r, 2), body, length) != SBUS_NO_BUS);
        if (random_below(r, 40) == 0) {
            CHECK(t, some_event(t, r, bus, notes) != SBUS_NO_BUS);
        }
        CHECK(t, try_period(t, bus, SBUS_BUS_LENGTH, notes, sizeof notes) == SBUS_OK);
    }
}

// ---- Buses

// Whether every call refuses the octets with 1; some of them are asked.
static void refused_by_all(struct tests *t, struct random *r, uint8_t *bus, size_t length)
{
    uint8_t notes[SBUS_NOTES_LENGTH] = {0};
    uint8_t told[SBUS_COUNTS_LENGTH] = {0};
    CHECK(t, try_period(t, bus, length, notes, sizeof notes) == SBUS_NO_BUS);
    CHECK(t, try_run(t, bus, length, notes, sizeof notes, random_below(r, 100)) == SBUS_NO_BUS);
    CHECK(t, try_event(t, bus, length, notes, sizeof notes, random_below(r, 9), random_below(r, 8), told, 1) == SBUS_NO_BUS);
    CHECK(t, try_unit(t, bus, length, random_below(r, 9), told, sizeof told) == SBUS_NO_BUS);
    CHECK(t, try_counts(t, bus, length, told, sizeof told) == SBUS_NO_BUS);
}

// Any octets: of any number; as many as a bus has; with the right letters and version; with fields that are all alike as well, and a letter
// of a hit that is none. They are a bus only by a chance that never comes.
static void try_garbage(struct tests *t, struct random *r)
{
    uint8_t bus[SBUS_BUS_LENGTH + 50];
    uint32_t how = random_below(r, 4);
    size_t length = how == 0 ? random_below(r, sizeof bus + 1) : SBUS_BUS_LENGTH;
    random_fill(r, bus, sizeof bus);
    if (how >= 2) {
        memcpy(bus, "SBUS", 4);
        bus[4] = SBUS_VERSION;
    }
    if (how == 3) {
        memset(bus + 5, (int)random_below(r, 256), LETTERS_AT - 5);
        bus[LETTERS_AT + random_below(r, SBUS_SYMBOLS_LENGTH)] = 4;
    }
    refused_by_all(t, r, bus, length);
}

enum step { AN_EVENT, A_RUN, A_PERIOD };

// A call that is not refused with 1 leaves a bus that is not refused with 1.
static void step_on(struct tests *t, struct random *r, uint8_t *bus, enum step what)
{
    uint8_t notes[SBUS_NOTES_LENGTH];
    uint8_t told[SBUS_COUNTS_LENGTH] = {0};
    uint32_t periods = (uint32_t)number(bus + 5, 4);
    random_fill(r, notes, 16);
    memset(notes + 16, 0x33, sizeof notes - 16);
    if (what == AN_EVENT) {
        CHECK(t, some_event(t, r, bus, notes) <= SBUS_FRAME_HELD);
    } else if (what == A_RUN) {
        uint32_t reply = try_run(t, bus, SBUS_BUS_LENGTH, notes, sizeof notes, periods + random_below(r, 20));
        CHECK(t, reply == SBUS_OK || (reply == SBUS_ALL_RUN && periods == SBUS_PERIODS_MOST));
    } else {
        uint32_t reply = try_period(t, bus, SBUS_BUS_LENGTH, notes, sizeof notes);
        CHECK(t, reply == (periods == SBUS_PERIODS_MOST ? SBUS_ALL_RUN : SBUS_OK));
        CHECK(t, number(bus + 5, 4) == periods + (reply == SBUS_OK));
    }
    CHECK(t, try_counts(t, bus, SBUS_BUS_LENGTH, told, sizeof told) == SBUS_OK);
    CHECK(t, number(told, 4) == number(bus + 5, 4) && number(told + 4, 4) == number(bus + 9, 4));
}

static void try_mutant(struct tests *t, struct random *r, const uint8_t *real, unsigned long *accepted)
{
    uint8_t bus[SBUS_BUS_LENGTH];
    uint8_t told[SBUS_COUNTS_LENGTH] = {0};
    memcpy(bus, real, sizeof bus);
    mutate(r, bus, random_below(r, 4) == 0 ? sizeof bus : OCTETS_AT);
    uint32_t reply = try_counts(t, bus, sizeof bus, told, sizeof told);
    if (reply != SBUS_OK) {
        CHECK(t, reply == SBUS_NO_BUS);
        refused_by_all(t, r, bus, sizeof bus);
        return;
    }
    ++*accepted;
    for (uint32_t n = 1 + random_below(r, 3); n > 0; n--) {
        uint32_t what = random_below(r, 4);
        step_on(t, r, bus, what == 0 ? AN_EVENT : what == 1 ? A_RUN : A_PERIOD);
    }
}

// Events on real buses, one after the other, with a period or a run behind every second one.
static void try_steps(struct tests *t, struct random *r, uint8_t real[][SBUS_BUS_LENGTH])
{
    uint8_t bus[SBUS_BUS_LENGTH];
    for (unsigned n = 0; n < EVENTS; n++) {
        if (n % 500 == 0) {
            memcpy(bus, real[random_below(r, REAL_BUSES)], sizeof bus);
        }
        step_on(t, r, bus, AN_EVENT);
        if (random_below(r, 2) == 0) {
            step_on(t, r, bus, random_below(r, 3) == 0 ? A_RUN : A_PERIOD);
        }
    }
}

// ---- Books

// Random octets of a book with the right letters or without: refused, or it comes to its end like any other.
static void try_garbage_book(struct tests *t, struct random *r)
{
    uint8_t book[SBUS_BOOK_LENGTH + 20];
    uint8_t report[SBUS_REPORT_ROOM + 100] = {0};
    uint8_t went[SBUS_WENT_LENGTH] = {0};
    uint8_t text[100];
    size_t length = random_below(r, 4) == 0 ? random_below(r, sizeof book + 1) : SBUS_BOOK_LENGTH;
    random_fill(r, book, sizeof book);
    random_fill(r, text, sizeof text);
    if (random_below(r, 2) == 0) {
        memcpy(book, "SBUS", 4);
        book[4] = SBUS_VERSION;
    }
    CHECK(t, try_book_go_on(t, book, length, text, random_below(r, sizeof text + 1), random_below(r, 2), report, sizeof report, went, sizeof went)
                 == SBUS_NO_BUS);
}

// Lines of a book, with short times between them; some of them faulty after a few octets have been changed.
static size_t some_text(struct random *r, char *text, size_t room)
{
    static const char *const events[] = {"on", "off", "ar", "dr", "d1", "d2", "hit", "end"};
    struct text x = {text, 0, room - 1};
    uint32_t period = 0;
    add_line(&x, "period unit event value");
    for (uint32_t n = 3 + random_below(r, 25); n > 0; n--) {
        uint32_t event = random_below(r, 7);
        char value[64] = "-";
        period += random_below(r, 6) == 0 ? random_below(r, 60) : random_below(r, 4);
        if (event == 4 || event == 5) {
            (void)snprintf(value, sizeof value, "%02x%02x", (unsigned)random_below(r, 256), (unsigned)random_below(r, 256));
        }
        for (size_t i = 0; event == 6 && i < SBUS_SYMBOLS_LENGTH; i++) {
            value[i] = "kkkkkpmn"[random_below(r, 8)];
            value[i + 1] = '\0';
        }
        add_line(&x, "%u %u %s %s", (unsigned)period, (unsigned)(event == 3 || event == 6 ? 0 : random_below(r, 10)), events[event], value);
    }
    add_line(&x, "%u 0 %s -", (unsigned)period + 30, events[7]);
    if (random_below(r, 2) == 0) {
        mutate(r, (uint8_t *)text, x.length);
    }
    return x.length;
}

// The text in parts of any size, with room of any size: what was written, put together. Less than `room` says that it came to its end.
static size_t report_of(struct tests *t, struct random *r, const uint8_t *fresh, const uint8_t *text, size_t length, char *whole_report, size_t room)
{
    uint8_t book[SBUS_BOOK_LENGTH];
    uint8_t lent[2 * SBUS_REPORT_ROOM] = {0};
    uint8_t went[SBUS_WENT_LENGTH] = {0};
    struct text report = {whole_report, 0, room};
    size_t taken = 0;
    size_t given = 0;
    bool whole = false;
    uint32_t calls = 0;
    memcpy(book, fresh, sizeof book);
    do {
        size_t lent_length = random_below(r, 3) == 0 ? SBUS_REPORT_ROOM : random_below(r, sizeof lent);
        if (went[16] != SBUS_NEEDS_ROOM || random_below(r, 8) == 0) {
            size_t left = length - given;
            size_t part = random_below(r, 4) == 0 ? left : random_below(r, 90);
            whole = left == 0 || (part >= left && random_below(r, 2) == 0);
            given += part < left ? part : left;
        }
        CHECK(t, try_book_go_on(t, book, sizeof book, text + taken, given - taken, whole, lent, lent_length, went, sizeof went) == SBUS_OK);
        CHECK(t, number(went, 8) <= given - taken && number(went + 8, 8) <= lent_length && went[16] >= 1 && went[16] <= 3);
        CHECK(t, lent_length >= SBUS_REPORT_ROOM || number(went + 8, 8) == 0);
        CHECK(t, went[16] != SBUS_NEEDS_TEXT || !whole);
        calls++;
        if (!t->holds || calls > 100000) {
            return room;
        }
        taken += (size_t)number(went, 8);
        add(&report, (const char *)lent, (size_t)number(went + 8, 8));
    } while (went[16] != SBUS_FINISHED);
    return report.length;
}

// A text through two ways of cutting it: the reports are equal.
static void try_text(struct tests *t, struct random *r, const uint8_t *fresh, bool garbage)
{
    enum { TEXT = 3000, REPORT = 60000 };
    static char reports[2][REPORT];
    char text[TEXT];
    size_t length;
    if (garbage) {
        length = random_below(r, 200);
        random_fill(r, (uint8_t *)text, length);
        if (random_below(r, 2) == 0 && length >= 24) {
            memcpy(text, "period unit event value\n", 24);
        }
    } else {
        length = some_text(r, text, sizeof text);
    }
    size_t first = report_of(t, r, fresh, (const uint8_t *)text, length, reports[0], REPORT);
    size_t second = report_of(t, r, fresh, (const uint8_t *)text, length, reports[1], REPORT);
    CHECK(t, first >= 23 && first < REPORT && first == second);
    CHECK(t, memcmp(reports[0], "period unit note value\n", 23) == 0);
    CHECK(t, memcmp(reports[0], reports[1], first) == 0);
}

// A real bus in a book, a few octets changed: refused, or it goes on, and what it leaves is not refused.
static void try_mutant_book(struct tests *t, struct random *r, const uint8_t *real)
{
    uint8_t book[SBUS_BOOK_LENGTH];
    uint8_t report[2 * SBUS_REPORT_ROOM] = {0};
    uint8_t went[SBUS_WENT_LENGTH] = {0};
    char text[200];
    uint32_t period = (uint32_t)number(real + 5, 4) + random_below(r, 10);
    memcpy(book, real, SBUS_BUS_LENGTH);
    book[SBUS_BUS_LENGTH] = 1;
    book[SBUS_BUS_LENGTH + 1] = 1;
    book[SBUS_BUS_LENGTH + 2] = 0;
    if (random_below(r, 2) == 0) {
        mutate(r, book, OCTETS_AT);
    } else {
        mutate(r, book + SBUS_BUS_LENGTH, 3);
    }
    // with fewer periods run than the bus had, the lines would be far ahead: a long run
    if (number(book + 5, 4) < number(real + 5, 4)) {
        memcpy(book + 5, real + 5, 4);
    }
    const char *last = random_below(r, 2) == 0 ? "" : "no line\n";
    int length = snprintf(text, sizeof text, "%u 1 on -\n%u 0 dr -\n%s", (unsigned)period, (unsigned)period + 2, last);
    CHECK(t, length > 0 && (size_t)length < sizeof text);
    for (uint32_t n = 0; n < 3; n++) {
        uint32_t reply = try_book_go_on(t, book, sizeof book, (const uint8_t *)text, (size_t)length, n % 2, report, sizeof report, went, sizeof went);
        uint32_t again = try_book_go_on(t, book, sizeof book, NULL, 0, 0, NULL, 0, went, sizeof went);
        CHECK(t, reply == SBUS_OK || reply == SBUS_NO_BUS);
        CHECK(t, again == reply);
    }
}

// ---- All

static void test_strings(struct tests *t, struct random *r)
{
    begin(t, "%u random strings of symbols", SYMBOL_STRINGS);
    for (unsigned n = 0; n < SYMBOL_STRINGS; n++) {
        try_symbols(t, r);
    }
    end(t);
    begin(t, "%u random fields", FIELD_STRINGS);
    for (unsigned n = 0; n < FIELD_STRINGS; n++) {
        try_fields(t, r);
    }
    end(t);
    begin(t, "%u strings of octets that are no bus", GARBAGE_BUSES);
    for (unsigned n = 0; n < GARBAGE_BUSES; n++) {
        try_garbage(t, r);
    }
    end(t);
}

static void test_mutants(struct tests *t, struct random *r, uint8_t real[][SBUS_BUS_LENGTH])
{
    unsigned long accepted = 0;
    begin(t, "%u buses in work", REAL_BUSES);
    for (unsigned n = 0; n < REAL_BUSES; n++) {
        make_real(t, r, real[n]);
    }
    end(t);
    begin(t, "%u events on them, with periods between", EVENTS);
    try_steps(t, r, real);
    end(t);
    begin(t, "%u buses with one to three octets changed", MUTANT_BUSES);
    for (unsigned n = 0; n < MUTANT_BUSES; n++) {
        try_mutant(t, r, real[random_below(r, REAL_BUSES)], &accepted);
    }
    CHECK(t, accepted > MUTANT_BUSES / 10 && accepted < MUTANT_BUSES);
    end(t);
    (void)printf("of %u changed buses %lu were accepted\n", MUTANT_BUSES, accepted);
}

static void test_texts(struct tests *t, struct random *r, uint8_t real[][SBUS_BUS_LENGTH])
{
    uint8_t fresh[SBUS_BOOK_LENGTH] = {0};
    begin(t, "%u strings of octets that are no book", GARBAGE_BOOKS);
    CHECK(t, try_book_fresh(t, fresh, sizeof fresh) == SBUS_OK);
    for (unsigned n = 0; n < GARBAGE_BOOKS; n++) {
        try_garbage_book(t, r);
    }
    end(t);
    begin(t, "%u books with one to three octets changed", MUTANT_BOOKS);
    for (unsigned n = 0; n < MUTANT_BOOKS; n++) {
        try_mutant_book(t, r, real[random_below(r, REAL_BUSES)]);
    }
    end(t);
    begin(t, "%u random texts of books, each cut in two ways", TEXTS);
    for (unsigned n = 0; n < TEXTS; n++) {
        try_text(t, r, fresh, n % 3 != 0);
    }
    end(t);
}

void test_random(struct tests *t, uint64_t seed)
{
    static uint8_t real[REAL_BUSES][SBUS_BUS_LENGTH];
    struct random r = {seed};
    test_strings(t, &r);
    test_mutants(t, &r, real);
    test_texts(t, &r, real);
}
