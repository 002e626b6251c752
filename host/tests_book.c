// Books: sbus_book_fresh and sbus_book_go_on, and the stored books in parts, in little room and in much, and as calls on a bus.
#include "tests.h"

#include <stdio.h>
#include <stdlib.h>
#include <string.h>

enum { MUCH_ROOM = 300000 };

// ---- Arguments

static void test_book_fresh(struct tests *t)
{
    uint8_t book[SBUS_BOOK_LENGTH + 1];
    uint8_t bus[SBUS_BUS_LENGTH] = {0};
    begin(t, "sbus_book_fresh: refusal 1 for a length, and the octets of a fresh book");
    memset(book, 0xff, sizeof book);
    CHECK(t, try_book_fresh(t, book, SBUS_BOOK_LENGTH - 1) == SBUS_NO_BUS);
    CHECK(t, try_book_fresh(t, book, SBUS_BOOK_LENGTH + 1) == SBUS_NO_BUS);
    CHECK(t, try_book_fresh(t, book, SBUS_BUS_LENGTH) == SBUS_NO_BUS);
    CHECK(t, try_book_fresh(t, book, 0) == SBUS_NO_BUS);
    CHECK(t, try_book_fresh(t, NULL, 0) == SBUS_NO_BUS);
    CHECK(t, try_book_fresh(t, book, SBUS_BOOK_LENGTH) == SBUS_OK);
    CHECK(t, try_fresh(t, bus, sizeof bus) == SBUS_OK);
    CHECK(t, memcmp(book, bus, sizeof bus) == 0);
    CHECK(t, book[SBUS_BUS_LENGTH] == 0 && book[SBUS_BUS_LENGTH + 1] == 0 && book[SBUS_BUS_LENGTH + 2] == 0);
    end(t);
}

static void test_book_lengths(struct tests *t)
{
    uint8_t book[SBUS_BOOK_LENGTH + 1] = {0};
    uint8_t went[SBUS_WENT_LENGTH + 1] = {0};
    begin(t, "sbus_book_go_on: refusals 1 and 2 for lengths");
    CHECK(t, try_book_fresh(t, book, SBUS_BOOK_LENGTH) == SBUS_OK);
    CHECK(t, try_book_go_on(t, book, SBUS_BOOK_LENGTH - 1, NULL, 0, 1, NULL, 0, went, SBUS_WENT_LENGTH) == SBUS_NO_BUS);
    CHECK(t, try_book_go_on(t, book, SBUS_BOOK_LENGTH + 1, NULL, 0, 1, NULL, 0, went, SBUS_WENT_LENGTH) == SBUS_NO_BUS);
    CHECK(t, try_book_go_on(t, book, SBUS_BUS_LENGTH, NULL, 0, 1, NULL, 0, went, SBUS_WENT_LENGTH) == SBUS_NO_BUS);
    CHECK(t, try_book_go_on(t, NULL, 0, NULL, 0, 1, NULL, 0, went, SBUS_WENT_LENGTH) == SBUS_NO_BUS);
    CHECK(t, try_book_go_on(t, NULL, 0, NULL, 0, 1, NULL, 0, NULL, 0) == SBUS_NO_BUS);
    CHECK(t, try_book_go_on(t, book, SBUS_BOOK_LENGTH, NULL, 0, 1, NULL, 0, NULL, 0) == SBUS_WRONG_SLICE);
    for (size_t n = 0; n < SBUS_WENT_LENGTH; n++) {
        CHECK(t, try_book_go_on(t, book, SBUS_BOOK_LENGTH, NULL, 0, 1, NULL, 0, went, n) == SBUS_WRONG_SLICE);
    }
    went[SBUS_WENT_LENGTH] = 0xee;
    CHECK(t, try_book_go_on(t, book, SBUS_BOOK_LENGTH, NULL, 0, 1, NULL, 0, went, SBUS_WENT_LENGTH + 1) == SBUS_OK);
    CHECK(t, went[SBUS_WENT_LENGTH] == 0xee);
    end(t);
}

// The three octets behind the bus: any stage, and two that are 0 or 1.
static void test_book_ranges(struct tests *t)
{
    uint8_t fresh[SBUS_BOOK_LENGTH] = {0};
    uint8_t went[SBUS_WENT_LENGTH] = {0};
    begin(t, "refusal 1: the octets of a book behind its bus");
    CHECK(t, try_book_fresh(t, fresh, sizeof fresh) == SBUS_OK);
    for (size_t at = SBUS_BUS_LENGTH; at < SBUS_BOOK_LENGTH; at++) {
        for (unsigned value = 0; value < 256; value++) {
            uint8_t book[SBUS_BOOK_LENGTH];
            memcpy(book, fresh, sizeof book);
            book[at] = (uint8_t)value;
            uint32_t expected = at == SBUS_BUS_LENGTH || value <= 1 ? SBUS_OK : SBUS_NO_BUS;
            CHECK(t, try_book_go_on(t, book, sizeof book, NULL, 0, 0, NULL, 0, went, sizeof went) == expected);
        }
    }
    end(t);
}

// Whether a call took and wrote so many octets, and stopped for this.
static bool went_is(const uint8_t *went, uint64_t taken, uint64_t written, uint8_t why)
{
    return number(went, 8) == taken && number(went + 8, 8) == written && went[16] == why;
}

static void test_room(struct tests *t)
{
    static const uint8_t text[] = "period unit event value\n0 0 end -\n";
    static const size_t rooms[] = {0, 1, 23, 24, SBUS_REPORT_ROOM - 1};
    uint8_t fresh[SBUS_BOOK_LENGTH] = {0};
    uint8_t book[SBUS_BOOK_LENGTH];
    uint8_t went[SBUS_WENT_LENGTH] = {0};
    uint8_t report[SBUS_REPORT_ROOM] = {0};
    begin(t, "with less than 4,248 octets of room a book does not go on");
    CHECK(t, try_book_fresh(t, fresh, sizeof fresh) == SBUS_OK);
    memcpy(book, fresh, sizeof book);
    for (size_t i = 0; i < sizeof rooms / sizeof rooms[0]; i++) {
        CHECK(t, try_book_go_on(t, book, sizeof book, text, sizeof text - 1, 1, report, rooms[i], went, sizeof went) == SBUS_OK);
        CHECK(t, went_is(went, 0, 0, SBUS_NEEDS_ROOM));
    }
    CHECK(t, try_book_go_on(t, book, sizeof book, text, sizeof text - 1, 1, NULL, 0, went, sizeof went) == SBUS_OK);
    CHECK(t, went_is(went, 0, 0, SBUS_NEEDS_ROOM));
    CHECK(t, memcmp(book, fresh, sizeof book) == 0);
    CHECK(t, try_book_go_on(t, book, sizeof book, text, sizeof text - 1, 1, report, sizeof report, went, sizeof went) == SBUS_OK);
    CHECK(t, went_is(went, 0, 23, SBUS_NEEDS_ROOM));
    CHECK(t, memcmp(report, "period unit note value\n", 23) == 0);
    end(t);
}

// A book without text needs some, or, where that is all, is faulty: 11. A finished book stays finished.
static void test_ends(struct tests *t)
{
    static const uint32_t wholes[] = {1, 2, 256, 0x80000000u, UINT32_MAX};
    static const char report_11[] = "period unit note value\n- - stopped 11\n";
    static const uint8_t text[] = "period unit event value\n7 0 end -\n";
    uint8_t report[2 * SBUS_REPORT_ROOM] = {0};
    begin(t, "where a book ends, and that it is finished then");
    for (size_t i = 0; i < sizeof wholes / sizeof wholes[0]; i++) {
        uint8_t book[SBUS_BOOK_LENGTH] = {0};
        uint8_t finished[SBUS_BOOK_LENGTH];
        uint8_t went[SBUS_WENT_LENGTH] = {0};
        CHECK(t, try_book_fresh(t, book, sizeof book) == SBUS_OK);
        CHECK(t, try_book_go_on(t, book, sizeof book, NULL, 0, 0, report, sizeof report, went, sizeof went) == SBUS_OK);
        CHECK(t, went_is(went, 0, 23, SBUS_NEEDS_TEXT));
        CHECK(t, try_book_go_on(t, book, sizeof book, text, 23, 0, report, sizeof report, went, sizeof went) == SBUS_OK);
        CHECK(t, went_is(went, 0, 0, SBUS_NEEDS_TEXT));
        CHECK(t, try_book_go_on(t, book, sizeof book, NULL, 0, wholes[i], report + 23, sizeof report - 23, went, sizeof went) == SBUS_OK);
        CHECK(t, went_is(went, 0, 15, SBUS_FINISHED));
        CHECK(t, memcmp(report, report_11, sizeof report_11 - 1) == 0);
        memcpy(finished, book, sizeof finished);
        CHECK(t, try_book_go_on(t, book, sizeof book, text, sizeof text - 1, 0, report, sizeof report, went, sizeof went) == SBUS_OK);
        CHECK(t, went_is(went, 0, 0, SBUS_FINISHED));
        CHECK(t, try_book_go_on(t, book, sizeof book, text, sizeof text - 1, 1, NULL, 0, went, sizeof went) == SBUS_OK);
        CHECK(t, went_is(went, 0, 0, SBUS_FINISHED));
        CHECK(t, memcmp(book, finished, sizeof book) == 0);
    }
    end(t);
}

// The bus of a book can be looked at.
static void test_book_bus(struct tests *t)
{
    static const uint8_t text[] = "period unit event value\n0 1 on -\n1 1 ar -\n30 1 d2 00ff\n30 0 end -\n";
    uint8_t book[SBUS_BOOK_LENGTH] = {0};
    uint8_t went[SBUS_WENT_LENGTH] = {0};
    uint8_t report[2 * SBUS_REPORT_ROOM] = {0};
    uint8_t counts[SBUS_COUNTS_LENGTH] = {0};
    uint8_t seen[SBUS_SEEN_LENGTH] = {0};
    static const uint8_t holds[SBUS_SEEN_LENGTH] = {7, 1, 2, 33, 0, 0, 0};
    begin(t, "sbus_counts and sbus_unit on the bus of a book");
    CHECK(t, try_book_fresh(t, book, sizeof book) == SBUS_OK);
    CHECK(t, try_book_go_on(t, book, sizeof book, text, sizeof text - 1, 1, report, sizeof report, went, sizeof went) == SBUS_OK);
    CHECK(t, number(went, 8) == sizeof text - 1 && went[16] == SBUS_FINISHED);
    CHECK(t, try_counts(t, book, SBUS_BUS_LENGTH, counts, sizeof counts) == SBUS_OK);
    CHECK(t, number(counts, 4) == 30 && number(counts + 4, 4) == 88);
    CHECK(t, try_unit(t, book, SBUS_BUS_LENGTH, 1, seen, sizeof seen) == SBUS_OK);
    CHECK(t, memcmp(seen, holds, sizeof seen) == 0);
    CHECK(t, try_counts(t, book, sizeof book, counts, sizeof counts) == SBUS_NO_BUS);
    end(t);
}

// ---- Stored books

// A file's octets, with a 0 behind them.
struct file {
    char *octets;
    size_t length;
};

static bool file_read(const char *name, struct file *f)
{
    FILE *file = fopen(name, "rb");
    long length = -1;
    f->octets = NULL;
    f->length = 0;
    if (file == NULL) {
        return false;
    }
    if (fseek(file, 0, SEEK_END) == 0) {
        length = ftell(file);
    }
    if (length >= 0 && fseek(file, 0, SEEK_SET) == 0) {
        f->octets = malloc((size_t)length + 1);
    }
    if (f->octets != NULL) {
        f->length = fread(f->octets, 1, (size_t)length, file);
        f->octets[f->length] = '\0';
    }
    return fclose(file) == 0 && f->octets != NULL && f->length == (size_t)length;
}

// The text of a book as it is handed over: what is in hand is from `taken` to `given`.
struct handing {
    const struct file *book;
    size_t part; // 0: the whole book at once
    size_t given;
    size_t taken;
    bool whole;
};

static void hand_on(struct handing *h)
{
    size_t left = h->book->length - h->given;
    size_t n = h->part == 0 || left < h->part ? left : h->part;
    h->whole = h->part == 0 || n == 0;
    h->given += n;
}

// One call on guarded octets that are lent for the whole book; only the text is another each time. Why it stopped; 0 where something is wrong.
static uint8_t book_call(struct tests *t, struct handing *h, size_t room, const struct file *report, size_t *written)
{
    size_t length = h->given - h->taken;
    uint8_t *text = slot_lend(t, 1, length);
    uint8_t *went = t->slots[3].octets;
    memcpy(text, h->book->octets + h->taken, length);
    uint32_t reply = sbus_book_go_on(t->slots[0].octets, SBUS_BOOK_LENGTH, text, length, h->whole, t->slots[2].octets, room, went, SBUS_WENT_LENGTH);
    uint64_t taken = number(went, 8);
    uint64_t wrote = number(went + 8, 8);
    uint8_t why = went[16];
    CHECK(t, reply == SBUS_OK && taken <= length && wrote <= room && wrote <= report->length - *written);
    CHECK(t, slot_kept(t, 0) && slot_kept(t, 1) && slot_kept(t, 2) && slot_kept(t, 3));
    CHECK(t, memcmp(text, h->book->octets + h->taken, length) == 0);
    CHECK(t, why == SBUS_NEEDS_ROOM || why == SBUS_FINISHED || (why == SBUS_NEEDS_TEXT && !h->whole));
    CHECK(t, why != SBUS_NEEDS_ROOM || room - wrote < SBUS_REPORT_ROOM);
    if (!t->holds) {
        return 0;
    }
    CHECK(t, memcmp(t->slots[2].octets, report->octets + *written, (size_t)wrote) == 0);
    h->taken += (size_t)taken;
    *written += (size_t)wrote;
    return t->holds ? why : 0;
}

static void test_stored(struct tests *t, const char *name, size_t part, size_t room, const struct file *book, const struct file *report)
{
    struct handing h = {book, part, 0, 0, false};
    size_t written = 0;
    uint8_t why = SBUS_NEEDS_TEXT;
    begin(t, "%s, %zu octets at a time, room for %zu", name, part, room);
    CHECK(t, sbus_book_fresh(slot_lend(t, 0, SBUS_BOOK_LENGTH), SBUS_BOOK_LENGTH) == SBUS_OK);
    (void)slot_lend(t, 2, room);
    (void)slot_lend(t, 3, SBUS_WENT_LENGTH);
    while (t->holds && (why == SBUS_NEEDS_TEXT || why == SBUS_NEEDS_ROOM)) {
        if (why == SBUS_NEEDS_TEXT) {
            hand_on(&h);
        }
        why = book_call(t, &h, room, report, &written);
    }
    CHECK(t, why == SBUS_FINISHED && written == report->length);
    end(t);
}

// ---- A book as calls on a bus

static uint32_t event_of(const char *name)
{
    static const char *const names[] = {"", "on", "off", "ar", "dr", "d1", "d2", "hit", "end"};
    for (uint32_t event = SBUS_ON; event < sizeof names / sizeof names[0]; event++) {
        if (strcmp(name, names[event]) == 0) {
            return event;
        }
    }
    return 0;
}

static uint8_t place(char c, const char *among)
{
    const char *at = strchr(among, c);
    return at == NULL ? 255 : (uint8_t)(at - among);
}

// The octets that a value of right form says.
static size_t value_of(uint32_t event, const char *text, uint8_t *value)
{
    static const char digits[] = "0123456789abcdef";
    if (event == SBUS_HIT) {
        for (size_t i = 0; i < SBUS_SYMBOLS_LENGTH; i++) {
            value[i] = place(text[i], "kpmn");
        }
        return SBUS_SYMBOLS_LENGTH;
    }
    size_t length = strcmp(text, "-") == 0 ? 0 : strlen(text) / 2;
    for (size_t i = 0; i < length; i++) {
        value[i] = (uint8_t)(16 * place(text[2 * i], digits) + place(text[2 * i + 1], digits));
    }
    return length;
}

// A line of a book without fault; whether the book goes on behind it.
static bool carry_out_line(struct scene *s, const char *line)
{
    unsigned period;
    unsigned unit;
    char name[4];
    char text[SBUS_LINE_MOST];
    uint8_t value[SBUS_LINE_MOST];
    if (sscanf(line, "%7u %7u %3s %599s", &period, &unit, name, text) != 4) {
        CHECK(s->t, !"a line has four fields");
        return false;
    }
    uint32_t event = event_of(name);
    CHECK(s->t, run_to(s, period) == SBUS_OK);
    if (strcmp(name, "end") == 0 && unit == 0) {
        return false;
    }
    uint32_t reply = give_value(s, unit, event, value, value_of(event, text, value));
    if (reply != SBUS_OK) {
        add_line(&s->told, "%u %u refused %u", period, unit, (unsigned)reply);
    }
    return true;
}

static void test_as_calls(struct tests *t, const char *name, const struct file *book, const struct file *report)
{
    static const char first[] = "period unit note value";
    struct scene s;
    const char *line = book->octets;
    begin(t, "%s as calls on a bus", name);
    scene_open(&s, t);
    s.told.octets = malloc(report->length + 1);
    s.told.room = report->length + 1;
    CHECK(t, s.told.octets != NULL);
    if (s.told.octets != NULL) {
        add_line(&s.told, "%s", first);
        do {
            line = strchr(line, '\n') + 1;
        } while (t->holds && carry_out_line(&s, line));
        CHECK(t, text_is(&s.told, report->octets, report->length));
        free(s.told.octets);
    }
    end(t);
}

// ---- All stored books

static void test_book(struct tests *t, const char *name, const struct file *book, const struct file *report)
{
    static const size_t parts[] = {0, 1, 7, 599};
    for (size_t i = 0; i < sizeof parts / sizeof parts[0]; i++) {
        test_stored(t, name, parts[i], SBUS_REPORT_ROOM, book, report);
        test_stored(t, name, parts[i], MUCH_ROOM, book, report);
    }
    if (strstr(report->octets, "stopped") == NULL) {
        test_as_calls(t, name, book, report);
    }
}

// The name without the folder, and with .report for .book.
static const char *short_name(const char *name)
{
    const char *slash = strrchr(name, '/');
    return slash == NULL ? name : slash + 1;
}

static bool report_name(const char *book, char *name, size_t room)
{
    size_t length = strlen(book);
    if (length < 5 || strcmp(book + length - 5, ".book") != 0) {
        return false;
    }
    int n = snprintf(name, room, "%.*s.report", (int)(length - 5), book);
    return n >= 0 && (size_t)n < room;
}

static void test_named(struct tests *t, const char *name)
{
    char of_report[1000];
    struct file book = {NULL, 0};
    struct file report = {NULL, 0};
    if (report_name(name, of_report, sizeof of_report) && file_read(name, &book) && file_read(of_report, &report)) {
        test_book(t, short_name(name), &book, &report);
    } else {
        begin(t, "%.100s", name);
        CHECK(t, !"book and report can be read");
        end(t);
    }
    free(book.octets);
    free(report.octets);
}

void test_books(struct tests *t, int count, char **names)
{
    test_book_fresh(t);
    test_book_lengths(t);
    test_book_ranges(t);
    test_room(t);
    test_ends(t);
    test_book_bus(t);
    begin(t, "there are stored books");
    CHECK(t, count > 0);
    end(t);
    for (int i = 0; i < count; i++) {
        test_named(t, names[i]);
    }
}
