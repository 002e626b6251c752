// The calls on a bus: lengths, the layout of its octets, every argument right and wrong, every refusal.
#include "tests.h"

#include <string.h>

// ---- Lengths and layout

static void test_length_calls(struct tests *t)
{
    begin(t, "the lengths of the header are the library's");
    CHECK(t, sbus_bus_length() == SBUS_BUS_LENGTH);
    CHECK(t, sbus_notes_length() == SBUS_NOTES_LENGTH);
    CHECK(t, sbus_book_length() == SBUS_BOOK_LENGTH);
    end(t);
}

// Where a terminal's octets begin.
static size_t terminal_at(uint32_t unit)
{
    return TERMINALS_AT + TERMINAL_LENGTH * ((size_t)unit - 1);
}

// The octets of a fresh bus by the layout of version 2: what is not named here is 0.
static void fresh_by_layout(uint8_t *bus)
{
    memset(bus, 0, SBUS_BUS_LENGTH);
    memcpy(bus, "SBUS", 4);
    bus[4] = SBUS_VERSION;
    bus[21] = 1; // G1
    bus[26] = 7; // no 0 has been read
    bus[30] = 1; // the last D heard
    for (uint32_t unit = 1; unit <= SBUS_TERMINALS; unit++) {
        bus[terminal_at(unit) + 12] = 1; // the bit that left last
        bus[terminal_at(unit) + 13] = 1; // F1
    }
}

static void test_fresh(struct tests *t)
{
    uint8_t bus[SBUS_BUS_LENGTH + 1];
    uint8_t expected[SBUS_BUS_LENGTH];
    begin(t, "sbus_fresh: refusal 1 for a length, and the octets of a fresh bus");
    memset(bus, 0xff, sizeof bus);
    CHECK(t, try_fresh(t, bus, SBUS_BUS_LENGTH - 1) == SBUS_NO_BUS);
    CHECK(t, try_fresh(t, bus, SBUS_BUS_LENGTH + 1) == SBUS_NO_BUS);
    CHECK(t, try_fresh(t, bus, 0) == SBUS_NO_BUS);
    CHECK(t, try_fresh(t, NULL, 0) == SBUS_NO_BUS);
    CHECK(t, try_fresh(t, bus, SBUS_BUS_LENGTH) == SBUS_OK);
    fresh_by_layout(expected);
    CHECK(t, memcmp(bus, expected, sizeof expected) == 0);
    end(t);
}

// Every call that is lent a bus gives the same reply for it: 0, or 1. The book's is asked about its own bus.
static void all_calls_say(struct tests *t, const uint8_t *bus, size_t length, uint32_t reply)
{
    uint8_t own[SBUS_BOOK_LENGTH + 1] = {0};
    uint8_t notes[SBUS_NOTES_LENGTH] = {0};
    uint8_t seen[SBUS_COUNTS_LENGTH] = {0};
    size_t most = length < sizeof own ? length : sizeof own;
    if (bus == NULL) {
        CHECK(t, try_event(t, NULL, 0, notes, sizeof notes, 0, SBUS_AR, NULL, 0) == reply);
        CHECK(t, try_period(t, NULL, 0, notes, sizeof notes) == reply);
        CHECK(t, try_run(t, NULL, 0, notes, sizeof notes, 0) == reply);
        CHECK(t, try_counts(t, NULL, 0, seen, sizeof seen) == reply);
        CHECK(t, try_unit(t, NULL, 0, 0, seen, sizeof seen) == reply);
        return;
    }
    memcpy(own, bus, most);
    uint32_t given = try_event(t, own, most, notes, sizeof notes, 0, SBUS_AR, NULL, 0);
    CHECK(t, given == reply || (reply == SBUS_OK && given == SBUS_BARRED));
    memcpy(own, bus, most);
    uint32_t ran = try_period(t, own, most, notes, sizeof notes);
    CHECK(t, ran == reply || (reply == SBUS_OK && ran == SBUS_ALL_RUN));
    memcpy(own, bus, most);
    CHECK(t, try_run(t, own, most, notes, sizeof notes, 0) == reply);
    CHECK(t, memcmp(own, bus, most) == 0);
    CHECK(t, try_counts(t, bus, length, seen, sizeof seen) == reply);
    CHECK(t, try_unit(t, bus, length, 8, seen, sizeof seen) == reply);
}

// The same of the book's call, with the bus in a book.
static void book_says(struct tests *t, const uint8_t *bus, uint32_t reply)
{
    uint8_t book[SBUS_BOOK_LENGTH] = {0};
    uint8_t went[SBUS_WENT_LENGTH] = {0};
    memcpy(book, bus, SBUS_BUS_LENGTH);
    CHECK(t, try_book_go_on(t, book, sizeof book, NULL, 0, 0, NULL, 0, went, sizeof went) == reply);
}

static void test_no_bus(struct tests *t)
{
    uint8_t bus[SBUS_BUS_LENGTH + 1] = {0};
    begin(t, "refusal 1 at every call: the length of a bus, its letters, its version");
    CHECK(t, try_fresh(t, bus, SBUS_BUS_LENGTH) == SBUS_OK);
    all_calls_say(t, bus, SBUS_BUS_LENGTH, SBUS_OK);
    all_calls_say(t, bus, SBUS_BUS_LENGTH - 1, SBUS_NO_BUS);
    all_calls_say(t, bus, SBUS_BUS_LENGTH + 1, SBUS_NO_BUS);
    all_calls_say(t, bus, 0, SBUS_NO_BUS);
    all_calls_say(t, NULL, 0, SBUS_NO_BUS);
    for (size_t i = 0; i < 5; i++) {
        uint8_t was = bus[i];
        for (unsigned value = 0; value < 256; value++) {
            bus[i] = (uint8_t)value;
            if (value != was) {
                all_calls_say(t, bus, SBUS_BUS_LENGTH, SBUS_NO_BUS);
                book_says(t, bus, SBUS_NO_BUS);
            }
        }
        bus[i] = was;
    }
    end(t);
}

// A fresh bus of version 1, which had no reserved octets: 3,050 octets, the terminals from 32 on, 16 each. It is refused as it was stored,
// and with as many octets as a bus has now. A bus that is as it must be but for the version is refused as well.
static void test_version_1(struct tests *t)
{
    uint8_t bus[SBUS_BUS_LENGTH] = "SBUS\001";
    begin(t, "refusal 1 at every call: a bus of version 1");
    bus[21] = 1;
    bus[26] = 7;
    bus[30] = 1;
    for (size_t at = 32; at < 160; at += 16) {
        bus[at + 12] = 1;
        bus[at + 13] = 1;
    }
    all_calls_say(t, bus, 3050, SBUS_NO_BUS);
    all_calls_say(t, bus, sizeof bus, SBUS_NO_BUS);
    book_says(t, bus, SBUS_NO_BUS);
    fresh_by_layout(bus);
    bus[4] = 1;
    all_calls_say(t, bus, sizeof bus, SBUS_NO_BUS);
    book_says(t, bus, SBUS_NO_BUS);
    end(t);
}

// ---- Reserved octets

// With a reserved octet that is 1 or 255, every call refuses a bus with 1 and changes nothing.
static void reserved(struct tests *t, uint8_t *bus, size_t from, size_t to)
{
    for (size_t i = from; i < to; i++) {
        CHECK(t, bus[i] == 0);
        for (unsigned value = 1; value < 256; value += 254) {
            bus[i] = (uint8_t)value;
            all_calls_say(t, bus, SBUS_BUS_LENGTH, SBUS_NO_BUS);
            book_says(t, bus, SBUS_NO_BUS);
        }
        bus[i] = 0;
    }
    all_calls_say(t, bus, SBUS_BUS_LENGTH, SBUS_OK);
    book_says(t, bus, SBUS_OK);
}

// On a bus in work: all terminals active, each with a frame.
static void test_reserved(struct tests *t)
{
    static const uint8_t body[] = {0xfc, 0xff, 0x03};
    struct scene s;
    begin(t, "refusal 1: each of the 80 reserved octets of the record");
    scene_open(&s, t);
    activate(&s, SBUS_TERMINALS);
    for (uint32_t unit = 1; unit <= SBUS_TERMINALS; unit++) {
        CHECK(t, give_value(&s, unit, SBUS_D1, body, sizeof body) == SBUS_OK);
    }
    CHECK(t, run_to(&s, 30) == SBUS_OK);
    reserved(t, s.bus, RECORD_FIELDS, RECORD_LENGTH);
    end(t);
    for (uint32_t unit = 1; unit <= SBUS_TERMINALS; unit++) {
        begin(t, "refusal 1: each of the 8 reserved octets of terminal %u", (unsigned)unit);
        reserved(t, s.bus, terminal_at(unit) + TERMINAL_FIELDS, terminal_at(unit) + TERMINAL_LENGTH);
        end(t);
    }
}

// ---- The range of every field

struct field {
    size_t at;
    size_t octets;
    uint32_t least;
    uint32_t most;
};

// A field at an end of its range, or just outside: accepted, or refused by every call.
static void field_is(struct tests *t, const uint8_t *bus, const struct field *f, uint64_t value, uint32_t reply)
{
    uint8_t changed[SBUS_BUS_LENGTH];
    memcpy(changed, bus, sizeof changed);
    put_number(changed + f->at, f->octets, value);
    all_calls_say(t, changed, sizeof changed, reply);
    book_says(t, changed, reply);
}

static void test_field(struct tests *t, const uint8_t *bus, const struct field *f)
{
    field_is(t, bus, f, f->least, SBUS_OK);
    field_is(t, bus, f, f->most, SBUS_OK);
    field_is(t, bus, f, (uint64_t)f->most + 1, SBUS_NO_BUS);
    field_is(t, bus, f, (UINT64_C(1) << 8 * f->octets) - 1, SBUS_NO_BUS);
    if (f->least > 0) {
        field_is(t, bus, f, f->least - 1, SBUS_NO_BUS);
    }
}

static void test_ranges(struct tests *t)
{
    static const struct field of_network[] = {
        {5, 4, 0, 4000000}, {13, 4, 0, 4120000}, {17, 4, 0, 4000200}, {21, 1, 1, 4}, {22, 1, 0, 1}, {23, 1, 0, 2},
        {24, 2, 0, 2136},   {26, 1, 0, 7},       {28, 1, 0, 1},       {29, 1, 0, 1}, {30, 1, 0, 1}, {31, 1, 0, 1},
    };
    static const struct field of_terminal[] = {
        {0, 4, 0, 4120000}, {4, 2, 0, 2569}, {6, 2, 0, 2569}, {8, 1, 0, 11}, {9, 1, 0, 2},  {10, 1, 0, 1},
        {11, 1, 0, 1},      {12, 1, 0, 1},   {13, 1, 1, 8},   {14, 1, 0, 1}, {15, 1, 0, 2},
    };
    uint8_t bus[SBUS_BUS_LENGTH];
    begin(t, "refusal 1: the range of every field of the bus and the network end");
    fresh_by_layout(bus);
    for (size_t i = 0; i < sizeof of_network / sizeof of_network[0]; i++) {
        test_field(t, bus, &of_network[i]);
    }
    end(t);
    for (uint32_t unit = 1; unit <= SBUS_TERMINALS; unit++) {
        begin(t, "refusal 1: the range of every field of terminal %u", (unsigned)unit);
        for (size_t i = 0; i < sizeof of_terminal / sizeof of_terminal[0]; i++) {
            struct field f = of_terminal[i];
            f.at += terminal_at(unit);
            test_field(t, bus, &f);
        }
        end(t);
    }
    begin(t, "refusal 1: the letters of a hit");
    for (size_t i = 0; i < SBUS_SYMBOLS_LENGTH; i++) {
        struct field f = {LETTERS_AT + i, 1, 0, 3};
        test_field(t, bus, &f);
    }
    end(t);
}

// D opportunities are at most four times the periods; octets read and images are any octets.
static void test_free_fields(struct tests *t)
{
    static const struct field opportunities = {9, 4, 0, 0};
    uint8_t bus[SBUS_BUS_LENGTH];
    begin(t, "refusal 1: D opportunities against periods");
    fresh_by_layout(bus);
    put_number(bus + 5, 4, 1000);
    field_is(t, bus, &opportunities, 4000, SBUS_OK);
    field_is(t, bus, &opportunities, 4001, SBUS_NO_BUS);
    put_number(bus + 5, 4, 4000000);
    field_is(t, bus, &opportunities, 16000000, SBUS_OK);
    field_is(t, bus, &opportunities, 16000001, SBUS_NO_BUS);
    field_is(t, bus, &opportunities, UINT32_MAX, SBUS_NO_BUS);
    end(t);
    begin(t, "octets of a bus that may be anything");
    fresh_by_layout(bus);
    bus[27] = 0xff;
    memset(bus + OCTETS_AT, 0xff, SBUS_BUS_LENGTH - OCTETS_AT);
    all_calls_say(t, bus, sizeof bus, SBUS_OK);
    end(t);
}

// ---- Lent octets beside the bus

static void test_notes_room(struct tests *t)
{
    struct scene s;
    uint8_t notes[SBUS_NOTES_LENGTH + 1];
    begin(t, "refusal 2: notes under 979 octets");
    for (size_t n = 0; n <= SBUS_NOTES_LENGTH + 1; n += n == 0 ? SBUS_NOTES_LENGTH - 2 : 1) {
        uint32_t reply = n < SBUS_NOTES_LENGTH ? SBUS_WRONG_SLICE : SBUS_OK;
        memset(notes, 0xee, sizeof notes);
        scene_open(&s, t);
        CHECK(t, try_event(t, s.bus, sizeof s.bus, notes, n, 1, SBUS_ON, NULL, 0) == reply);
        CHECK(t, try_period(t, s.bus, sizeof s.bus, notes, n) == reply);
        CHECK(t, try_run(t, s.bus, sizeof s.bus, notes, n, 10) == reply);
    }
    scene_open(&s, t);
    CHECK(t, try_event(t, s.bus, sizeof s.bus, NULL, 0, 1, SBUS_ON, NULL, 0) == SBUS_WRONG_SLICE);
    CHECK(t, try_period(t, s.bus, sizeof s.bus, NULL, 0) == SBUS_WRONG_SLICE);
    CHECK(t, try_run(t, s.bus, sizeof s.bus, NULL, 0, 10) == SBUS_WRONG_SLICE);
    end(t);
}

static void test_told_room(struct tests *t)
{
    struct scene s;
    uint8_t told[SBUS_COUNTS_LENGTH + 2];
    begin(t, "refusal 2: counts under 8 octets, seen under 7");
    scene_open(&s, t);
    for (size_t n = 0; n <= sizeof told; n++) {
        memset(told, 0xee, sizeof told);
        CHECK(t, try_counts(t, s.bus, sizeof s.bus, told, n) == (n < SBUS_COUNTS_LENGTH ? SBUS_WRONG_SLICE : SBUS_OK));
        CHECK(t, n <= SBUS_COUNTS_LENGTH || told[SBUS_COUNTS_LENGTH] == 0xee);
        memset(told, 0xee, sizeof told);
        CHECK(t, try_unit(t, s.bus, sizeof s.bus, 1, told, n) == (n < SBUS_SEEN_LENGTH ? SBUS_WRONG_SLICE : SBUS_OK));
        CHECK(t, n <= SBUS_SEEN_LENGTH || told[SBUS_SEEN_LENGTH] == 0xee);
    }
    CHECK(t, try_counts(t, s.bus, sizeof s.bus, NULL, 0) == SBUS_WRONG_SLICE);
    CHECK(t, try_unit(t, s.bus, sizeof s.bus, 1, NULL, 0) == SBUS_WRONG_SLICE);
    end(t);
}

// ---- Units and events

static const uint32_t no_units[] = {9, 10, 255, 256, 257, 65536, 0x80000000u, UINT32_MAX};
static const uint32_t no_events[] = {0, 8, 9, 255, 256, 257, 259, 65537, 0x80000003u, UINT32_MAX};

static void test_units(struct tests *t)
{
    struct scene s;
    uint8_t seen[SBUS_SEEN_LENGTH];
    begin(t, "refusal 3: a unit above 8");
    scene_open(&s, t);
    for (uint32_t unit = 0; unit <= SBUS_TERMINALS; unit++) {
        static const uint8_t at_rest[SBUS_SEEN_LENGTH] = {1, 0};
        memset(seen, 0xee, sizeof seen);
        CHECK(t, try_unit(t, s.bus, sizeof s.bus, unit, seen, sizeof seen) == SBUS_OK);
        CHECK(t, memcmp(seen, at_rest, sizeof seen) == 0);
    }
    for (size_t i = 0; i < sizeof no_units / sizeof no_units[0]; i++) {
        CHECK(t, try_unit(t, s.bus, sizeof s.bus, no_units[i], seen, sizeof seen) == SBUS_NO_UNIT);
        for (uint32_t event = 0; event <= 8; event++) {
            static const uint8_t keep[SBUS_SYMBOLS_LENGTH] = {0};
            CHECK(t, give_value(&s, no_units[i], event, keep, sizeof keep) == SBUS_NO_UNIT);
        }
    }
    end(t);
}

static void test_events(struct tests *t)
{
    // the replies of a fresh bus to the events on, off, ar, dr, d1, d2, hit, for unit 0 and for a terminal
    static const uint32_t replies[2][7] = {{4, 4, 0, 5, 4, 4, 0}, {0, 5, 5, 4, 6, 6, 4}};
    static const uint8_t keep[SBUS_SYMBOLS_LENGTH] = {0};
    struct scene s;
    begin(t, "every event for every unit of a fresh bus");
    for (uint32_t unit = 0; unit <= SBUS_TERMINALS; unit++) {
        for (uint32_t event = SBUS_ON; event <= SBUS_HIT; event++) {
            scene_open(&s, t);
            CHECK(t, give_value(&s, unit, event, keep, sizeof keep) == replies[unit > 0][event - 1]);
            CHECK(t, s.told.length == 0);
        }
    }
    end(t);
    begin(t, "refusal 4: numbers that are no event");
    scene_open(&s, t);
    for (uint32_t unit = 0; unit <= SBUS_TERMINALS; unit++) {
        for (size_t i = 0; i < sizeof no_events / sizeof no_events[0]; i++) {
            CHECK(t, give_value(&s, unit, no_events[i], keep, sizeof keep) == SBUS_NOT_FOR_UNIT);
            CHECK(t, give(&s, unit, no_events[i]) == SBUS_NOT_FOR_UNIT);
        }
    }
    end(t);
}

// A value is not looked at where the event takes none, whatever it is.
static void test_values_not_taken(struct tests *t)
{
    uint8_t value[600];
    struct scene with;
    struct scene without;
    begin(t, "a value where none belongs");
    memset(value, 0xff, sizeof value);
    scene_open(&with, t);
    scene_open(&without, t);
    CHECK(t, give_value(&with, 3, SBUS_ON, value, sizeof value) == SBUS_OK);
    CHECK(t, give(&without, 3, SBUS_ON) == SBUS_OK);
    CHECK(t, give_value(&with, 0, SBUS_AR, value, 1) == SBUS_OK);
    CHECK(t, give_value(&without, 0, SBUS_AR, value, 0) == SBUS_OK);
    CHECK(t, memcmp(with.bus, without.bus, sizeof with.bus) == 0);
    end(t);
}

// ---- States that bar an event

// A bus on which a unit is in a state. Nothing else fits that state: what is asked is the reply alone.
static void put_in_state(struct scene *s, uint32_t unit, uint8_t state)
{
    s->bus[unit == 0 ? 21 : terminal_at(unit) + 13] = state;
}

static void state_says(struct tests *t, uint32_t unit, uint8_t state, uint32_t event, bool barred)
{
    struct scene s;
    scene_open(&s, t);
    put_in_state(&s, unit, state);
    CHECK(t, state_of(&s, unit) == state);
    CHECK(t, give(&s, unit, event) == (barred ? SBUS_BARRED : SBUS_OK));
}

static void test_barred(struct tests *t)
{
    begin(t, "refusal 5: on outside F1, off in F1, ar in F1, F2, F4, F5, F7");
    for (uint32_t unit = 1; unit <= SBUS_TERMINALS; unit++) {
        for (uint8_t state = 1; state <= 8; state++) {
            state_says(t, unit, state, SBUS_ON, state != 1);
            state_says(t, unit, state, SBUS_OFF, state == 1);
            state_says(t, unit, state, SBUS_AR, state != 3 && state != 6 && state != 8);
        }
    }
    end(t);
    begin(t, "refusal 5: ar in G2 and G3, dr in G1 and G4");
    for (uint8_t state = 1; state <= 4; state++) {
        state_says(t, 0, state, SBUS_AR, state == 2 || state == 3);
        state_says(t, 0, state, SBUS_DR, state == 1 || state == 4);
    }
    end(t);
}

// ---- Frames for a terminal

static void test_frames_given(struct tests *t)
{
    uint8_t body[SBUS_BODY_MOST + 1] = {0};
    struct scene s;
    begin(t, "refusal 6: a frame outside F7, whatever its length");
    for (uint8_t state = 1; state <= 8; state++) {
        for (uint32_t event = SBUS_D1; event <= SBUS_D2; event++) {
            scene_open(&s, t);
            put_in_state(&s, 2, state);
            CHECK(t, give_value(&s, 2, event, body, sizeof body) == (state == 7 ? SBUS_BODY_LENGTH : SBUS_OUTSIDE_F7));
            CHECK(t, give(&s, 2, event) == (state == 7 ? SBUS_BODY_LENGTH : SBUS_OUTSIDE_F7));
            CHECK(t, give_value(&s, 2, event, body, 1) == (state == 7 ? SBUS_OK : SBUS_OUTSIDE_F7));
        }
    }
    end(t);
    begin(t, "refusal 7: a body of 0 or 267 octets; 1 and 266 are taken");
    for (size_t length = 0; length <= sizeof body; length++) {
        scene_open(&s, t);
        put_in_state(&s, 8, 7);
        bool fits = length >= 1 && length <= SBUS_BODY_MOST;
        CHECK(t, give_value(&s, 8, SBUS_D2, body, length) == (fits ? SBUS_OK : SBUS_BODY_LENGTH));
    }
    end(t);
    begin(t, "refusal 8: a second frame; 7 comes before it");
    for (uint32_t event = SBUS_D1; event <= SBUS_D2; event++) {
        scene_open(&s, t);
        put_in_state(&s, 1, 7);
        CHECK(t, give_value(&s, 1, event, body, 1) == SBUS_OK);
        CHECK(t, give_value(&s, 1, SBUS_D1, body, 1) == SBUS_FRAME_HELD);
        CHECK(t, give_value(&s, 1, SBUS_D2, body, SBUS_BODY_MOST) == SBUS_FRAME_HELD);
        CHECK(t, give_value(&s, 1, SBUS_D1, body, sizeof body) == SBUS_BODY_LENGTH);
        CHECK(t, give(&s, 1, SBUS_D2) == SBUS_BODY_LENGTH);
    }
    end(t);
}

// What sbus_unit says of a frame: the bits of its image, by hand.
static void test_images(struct tests *t)
{
    static const uint8_t octets[] = {0x00, 0xff, 0x1f, 0xff};
    uint8_t longest[SBUS_BODY_MOST];
    uint8_t seen[SBUS_SEEN_LENGTH];
    struct scene s;
    memset(longest, 0xff, sizeof longest);
    begin(t, "the bits of an image: body 00 has 24, ff 25, 1fff 34, the longest 2,569");
    scene_open(&s, t);
    for (uint32_t unit = 1; unit <= 4; unit++) {
        put_in_state(&s, unit, 7);
    }
    CHECK(t, give_value(&s, 1, SBUS_D1, octets, 1) == SBUS_OK);
    CHECK(t, give_value(&s, 2, SBUS_D2, octets + 1, 1) == SBUS_OK);
    CHECK(t, give_value(&s, 3, SBUS_D1, octets + 2, 2) == SBUS_OK);
    CHECK(t, give_value(&s, 4, SBUS_D2, longest, sizeof longest) == SBUS_OK);
    for (uint32_t unit = 1; unit <= 5; unit++) {
        static const uint8_t class_of[] = {1, 2, 1, 2, 0};
        static const uint16_t bits_of[] = {24, 25, 34, 2569, 0};
        CHECK(t, try_unit(t, s.bus, sizeof s.bus, unit, seen, sizeof seen) == SBUS_OK);
        CHECK(t, seen[2] == class_of[unit - 1] && number(seen + 3, 2) == bits_of[unit - 1] && number(seen + 5, 2) == 0);
    }
    end(t);
}

// ---- Hits

static void test_hit_letters(struct tests *t)
{
    uint8_t letters[SBUS_SYMBOLS_LENGTH + 1] = {0};
    struct scene s;
    begin(t, "refusal 2: a hit that is not 48 letters");
    scene_open(&s, t);
    for (size_t length = 0; length <= sizeof letters; length++) {
        CHECK(t, give_value(&s, 0, SBUS_HIT, letters, length) == (length == SBUS_SYMBOLS_LENGTH ? SBUS_OK : SBUS_WRONG_SLICE));
    }
    CHECK(t, give(&s, 0, SBUS_HIT) == SBUS_WRONG_SLICE);
    for (size_t i = 0; i < SBUS_SYMBOLS_LENGTH; i++) {
        for (unsigned letter = 0; letter < 256; letter += letter < 5 ? 1 : 25) {
            letters[i] = (uint8_t)letter;
            CHECK(t, give_value(&s, 0, SBUS_HIT, letters, SBUS_SYMBOLS_LENGTH) == (letter <= SBUS_PUT_NONE ? SBUS_OK : SBUS_WRONG_SLICE));
        }
        letters[i] = SBUS_KEEP;
    }
    end(t);
}

// ---- The order of the checks

static void test_order(struct tests *t)
{
    uint8_t letters[SBUS_SYMBOLS_LENGTH] = {4};
    uint8_t seen[SBUS_SEEN_LENGTH] = {0};
    struct scene s;
    begin(t, "the first check that holds gives the number");
    scene_open(&s, t);
    CHECK(t, try_event(t, s.bus, 0, s.notes, 0, 9, SBUS_HIT, letters, 0) == SBUS_NO_BUS);
    CHECK(t, try_period(t, s.bus, 0, s.notes, 0) == SBUS_NO_BUS);
    CHECK(t, try_run(t, s.bus, 0, s.notes, 0, UINT32_MAX) == SBUS_NO_BUS);
    CHECK(t, try_counts(t, s.bus, 0, seen, 0) == SBUS_NO_BUS);
    CHECK(t, try_unit(t, s.bus, 0, 9, seen, 0) == SBUS_NO_BUS);
    CHECK(t, try_unit(t, s.bus, sizeof s.bus, 9, seen, 0) == SBUS_WRONG_SLICE);
    CHECK(t, try_event(t, s.bus, sizeof s.bus, s.notes, 978, 9, SBUS_ON, NULL, 0) == SBUS_WRONG_SLICE);
    CHECK(t, give_value(&s, 9, SBUS_HIT, letters, sizeof letters) == SBUS_WRONG_SLICE);
    CHECK(t, give_value(&s, 1, SBUS_HIT, letters, sizeof letters) == SBUS_WRONG_SLICE);
    CHECK(t, give(&s, 9, 0) == SBUS_NO_UNIT);
    CHECK(t, give(&s, 9, SBUS_DR) == SBUS_NO_UNIT);
    CHECK(t, give(&s, 0, SBUS_OFF) == SBUS_NOT_FOR_UNIT);
    put_number(s.bus + 5, 4, SBUS_PERIODS_MOST);
    CHECK(t, try_period(t, s.bus, sizeof s.bus, s.notes, 978) == SBUS_WRONG_SLICE);
    CHECK(t, try_run(t, s.bus, sizeof s.bus, s.notes, 978, UINT32_MAX) == SBUS_WRONG_SLICE);
    end(t);
}

// ---- The last period

static void test_all_run(struct tests *t)
{
    struct scene s;
    begin(t, "refusal 9: 4,000,000 periods have been run");
    scene_open(&s, t);
    put_number(s.bus + 5, 4, SBUS_PERIODS_MOST - 1);
    CHECK(t, give(&s, 1, SBUS_ON) == SBUS_OK);
    CHECK(t, run_one(&s) == SBUS_OK);
    CHECK(t, periods_run(&s) == SBUS_PERIODS_MOST);
    CHECK(t, text_is(&s.told, "3999999 1 MPH-II connected\n", 27));
    CHECK(t, run_one(&s) == SBUS_ALL_RUN);
    CHECK(t, try_run(t, s.bus, sizeof s.bus, s.notes, sizeof s.notes, SBUS_PERIODS_MOST + 1) == SBUS_ALL_RUN);
    CHECK(t, try_run(t, s.bus, sizeof s.bus, s.notes, sizeof s.notes, UINT32_MAX) == SBUS_ALL_RUN);
    CHECK(t, try_run(t, s.bus, sizeof s.bus, s.notes, sizeof s.notes, SBUS_PERIODS_MOST) == SBUS_OK && s.notes[0] == SBUS_NOTES_END);
    CHECK(t, try_run(t, s.bus, sizeof s.bus, s.notes, sizeof s.notes, 0) == SBUS_OK && s.notes[0] == SBUS_NOTES_END);
    CHECK(t, give(&s, 2, SBUS_ON) == SBUS_OK);
    CHECK(t, give(&s, 0, SBUS_AR) == SBUS_OK);
    CHECK(t, run_one(&s) == SBUS_ALL_RUN);
    end(t);
    begin(t, "a run to more than 4,000,000 stops there");
    scene_open(&s, t);
    put_number(s.bus + 5, 4, SBUS_PERIODS_MOST - 5);
    CHECK(t, try_run(t, s.bus, sizeof s.bus, s.notes, sizeof s.notes, UINT32_MAX) == SBUS_OK && s.notes[0] == SBUS_NOTES_END);
    CHECK(t, periods_run(&s) == SBUS_PERIODS_MOST);
    end(t);
}

void test_bus(struct tests *t)
{
    test_length_calls(t);
    test_fresh(t);
    test_no_bus(t);
    test_version_1(t);
    test_reserved(t);
    test_ranges(t);
    test_free_fields(t);
    test_notes_room(t);
    test_told_room(t);
    test_units(t);
    test_events(t);
    test_values_not_taken(t);
    test_barred(t);
    test_frames_given(t);
    test_images(t);
    test_hit_letters(t);
    test_order(t);
    test_all_run(t);
}
