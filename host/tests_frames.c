// Frames: sbus_read_frame and sbus_write_frame, against tables 5-1 and 5-2 as document 01 has them.
#include "tests.h"

#include <string.h>

// The positions 1 to 48 of a frame: F; L; 1 and 2 for B1 and B2, D, E, A, f for FA, N for its inverse, M, S.
static const char *const layouts[] = {
    "FL11111111EDAfN22222222EDM11111111EDS22222222EDL", // down, table 5-2
    "FL11111111LDLfL22222222LDL11111111LDL22222222LDL", // up, table 5-1
};

// ---- Frames by the tables alone, to hold the library to

// The field that a position carries, and for a B octet its bit; -1 for one that carries none. `seen` counts each letter's positions.
static int field_at(char letter, unsigned seen[256], unsigned *bit)
{
    unsigned n = seen[(unsigned char)letter]++;
    *bit = 0;
    switch (letter) {
    case '1':
        *bit = 7 - n % 8;
        return n < 8 ? SBUS_B1_FIRST : SBUS_B1_SECOND;
    case '2':
        *bit = 7 - n % 8;
        return n < 8 ? SBUS_B2_FIRST : SBUS_B2_SECOND;
    case 'D':
        return SBUS_D12 + (int)n;
    case 'E':
        return SBUS_E11 + (int)n;
    case 'A':
        return SBUS_A;
    case 'f':
        return SBUS_FA;
    case 'M':
        return SBUS_M;
    case 'S':
        return SBUS_S;
    default:
        return -1;
    }
}

// The symbols of a frame. The L at 48, or of a group, makes the number of 0s since the last L even.
static void table_writes(uint32_t up, const uint8_t *fields, uint8_t *symbols)
{
    const char *layout = layouts[up != 0];
    unsigned seen[256] = {0};
    unsigned zeros = 0;
    uint8_t pulse = SBUS_MINUS;
    symbols[0] = SBUS_PLUS;
    symbols[1] = SBUS_MINUS;
    for (size_t i = 2; i < SBUS_SYMBOLS_LENGTH; i++) {
        unsigned place;
        int field = field_at(layout[i], seen, &place);
        unsigned bit = field >= 0 ? fields[field] >> place & 1u : layout[i] == 'N' ? !fields[SBUS_FA] : zeros % 2 == 0;
        zeros = layout[i] == 'L' ? 0 : zeros + !bit;
        symbols[i] = bit ? SBUS_NONE : pulse;
        pulse = bit ? pulse : (uint8_t)(SBUS_PLUS + SBUS_MINUS - pulse);
    }
}

// The fields that the symbols have at their positions.
static void table_reads(uint32_t up, const uint8_t *symbols, uint8_t *fields)
{
    const char *layout = layouts[up != 0];
    unsigned seen[256] = {0};
    memset(fields, 0, SBUS_FIELDS_LENGTH);
    for (size_t i = 2; i < SBUS_SYMBOLS_LENGTH; i++) {
        unsigned place;
        int field = field_at(layout[i], seen, &place);
        if (field >= 0 && symbols[i] == SBUS_NONE) {
            fields[field] |= (uint8_t)(1u << place);
        }
    }
}

// Whether some frame is written as the symbols.
static bool table_has(uint32_t up, const uint8_t *symbols)
{
    uint8_t fields[SBUS_FIELDS_LENGTH];
    uint8_t again[SBUS_SYMBOLS_LENGTH];
    table_reads(up, symbols, fields);
    table_writes(up, fields, again);
    return memcmp(again, symbols, sizeof again) == 0;
}

// ---- Tests

// Writes the fields, compares with the table, and reads them back.
static void there_and_back(struct tests *t, uint32_t up, const uint8_t *fields)
{
    uint8_t symbols[SBUS_SYMBOLS_LENGTH];
    uint8_t expected[SBUS_SYMBOLS_LENGTH];
    uint8_t again[SBUS_FIELDS_LENGTH];
    memset(symbols, 9, sizeof symbols);
    memset(again, 9, sizeof again);
    table_writes(up, fields, expected);
    CHECK(t, try_write_frame(t, up, fields, SBUS_FIELDS_LENGTH, symbols, sizeof symbols) == SBUS_OK);
    CHECK(t, memcmp(symbols, expected, sizeof symbols) == 0);
    CHECK(t, try_read_frame(t, up, symbols, sizeof symbols, again, sizeof again) == SBUS_OK);
    CHECK(t, memcmp(again, fields, sizeof again) == 0);
}

// Reads any 48 symbols: a frame exactly where the table has one, and then writing its fields gives the symbols back.
static void read_any(struct tests *t, uint32_t up, const uint8_t *symbols)
{
    uint8_t fields[SBUS_FIELDS_LENGTH];
    uint8_t again[SBUS_SYMBOLS_LENGTH];
    memset(fields, 9, sizeof fields);
    memset(again, 9, sizeof again);
    uint32_t reply = try_read_frame(t, up, symbols, SBUS_SYMBOLS_LENGTH, fields, sizeof fields);
    CHECK(t, reply == (table_has(up, symbols) ? SBUS_OK : SBUS_NO_FRAME));
    if (reply == SBUS_OK) {
        CHECK(t, try_write_frame(t, up, fields, sizeof fields, again, sizeof again) == SBUS_OK);
        CHECK(t, memcmp(again, symbols, sizeof again) == 0);
    }
}

bool has_field(uint32_t up, size_t field)
{
    return up == 0 || field < SBUS_E11 || field == SBUS_FA;
}

// Random fields of a direction.
static void some_fields(struct random *r, uint32_t up, uint8_t *fields)
{
    random_fill(r, fields, SBUS_FIELDS_LENGTH);
    for (size_t i = SBUS_D12; i < SBUS_FIELDS_LENGTH; i++) {
        fields[i] = has_field(up, i) ? fields[i] & 1 : 0;
    }
}

static void test_bits(struct tests *t)
{
    begin(t, "downward frames with every D, E, A, FA, M and S");
    for (unsigned bits = 0; bits < 4096; bits++) {
        uint8_t fields[SBUS_FIELDS_LENGTH] = {0xa5, 0x0f, 0x01, 0xff, 0};
        for (unsigned i = 0; i < 12; i++) {
            fields[SBUS_D12 + i] = bits >> i & 1;
        }
        there_and_back(t, SBUS_DOWN, fields);
    }
    end(t);
    begin(t, "upward frames with every D and FA");
    for (unsigned bits = 0; bits < 32; bits++) {
        uint8_t fields[SBUS_FIELDS_LENGTH] = {0xa5, 0x07, 0x80, 0x00, 0};
        for (unsigned i = 0; i < 4; i++) {
            fields[SBUS_D12 + i] = bits >> i & 1;
        }
        fields[SBUS_FA] = bits >> 4 & 1;
        there_and_back(t, SBUS_UP, fields);
    }
    end(t);
}

static void test_octets(struct tests *t, uint32_t up)
{
    begin(t, "frames with every octet in each B, %s", up != 0 ? "up" : "down");
    for (unsigned place = 0; place < 4; place++) {
        for (unsigned octet = 0; octet < 256; octet++) {
            uint8_t fields[SBUS_FIELDS_LENGTH] = {0x3c, 0xff, 0x00, 0x81, 1, 0, 1, 1, 0};
            fields[place] = (uint8_t)octet;
            there_and_back(t, up, fields);
        }
    }
    end(t);
}

static void test_fields(struct tests *t, uint32_t up, struct random *r)
{
    begin(t, "20,000 random frames, %s", up != 0 ? "up" : "down");
    for (unsigned n = 0; n < 20000; n++) {
        uint8_t fields[SBUS_FIELDS_LENGTH];
        some_fields(r, up, fields);
        there_and_back(t, up, fields);
    }
    end(t);
}

// Every string that one or, of some frames, two changed symbols of a frame give.
static void test_changed(struct tests *t, uint32_t up, struct random *r)
{
    uint8_t fields[SBUS_FIELDS_LENGTH];
    uint8_t symbols[SBUS_SYMBOLS_LENGTH];
    begin(t, "one symbol changed in 300 frames, %s", up != 0 ? "up" : "down");
    for (unsigned n = 0; n < 300; n++) {
        some_fields(r, up, fields);
        table_writes(up, fields, symbols);
        for (unsigned i = 0; i < 2 * SBUS_SYMBOLS_LENGTH; i++) {
            uint8_t was = symbols[i / 2];
            symbols[i / 2] = (uint8_t)((was + 1 + i % 2) % 3);
            read_any(t, up, symbols);
            symbols[i / 2] = was;
        }
    }
    end(t);
    begin(t, "two symbols changed in 10 frames, %s", up != 0 ? "up" : "down");
    for (unsigned n = 0; n < 10; n++) {
        some_fields(r, up, fields);
        table_writes(up, fields, symbols);
        for (unsigned i = 0; i < SBUS_SYMBOLS_LENGTH * SBUS_SYMBOLS_LENGTH * 4; i++) {
            uint8_t changed[SBUS_SYMBOLS_LENGTH];
            unsigned first = i / 4 / SBUS_SYMBOLS_LENGTH;
            unsigned second = i / 4 % SBUS_SYMBOLS_LENGTH;
            memcpy(changed, symbols, sizeof changed);
            changed[first] = (uint8_t)((changed[first] + 1 + i % 2) % 3);
            changed[second] = (uint8_t)((changed[second] + 1 + i / 2 % 2) % 3);
            read_any(t, up, changed);
        }
    }
    end(t);
}

// ---- Lines that can be seen beside the tables

static void symbols_of(const char *row, uint8_t *symbols)
{
    for (size_t i = 0; i < SBUS_SYMBOLS_LENGTH; i++) {
        symbols[i] = row[i] == '+' ? SBUS_PLUS : row[i] == '-' ? SBUS_MINUS : SBUS_NONE;
    }
}

static void test_row(struct tests *t, const char *name, uint32_t up, const uint8_t *fields, const char *row)
{
    uint8_t symbols[SBUS_SYMBOLS_LENGTH] = {0};
    uint8_t expected[SBUS_SYMBOLS_LENGTH];
    begin(t, "the line of %s", name);
    CHECK(t, strlen(row) == SBUS_SYMBOLS_LENGTH);
    symbols_of(row, expected);
    CHECK(t, try_write_frame(t, up, fields, SBUS_FIELDS_LENGTH, symbols, sizeof symbols) == SBUS_OK);
    CHECK(t, memcmp(symbols, expected, sizeof symbols) == 0);
    there_and_back(t, up, fields);
    end(t);
}

// Written by hand from document 01: INFO 2 has all fields at 0, so every position but N is a pulse, and 48 makes their number even.
static void test_rows(struct tests *t)
{
    static const uint8_t info_2[SBUS_FIELDS_LENGTH] = {0};
    static const uint8_t info_4[SBUS_FIELDS_LENGTH] = {255, 255, 255, 255, 1, 1, 1, 1, 1, 1, 1, 1, 1, 0, 0, 0};
    static const uint8_t echo_0110[SBUS_FIELDS_LENGTH] = {255, 255, 255, 255, 1, 1, 1, 1, 0, 1, 1, 0, 1, 0, 0, 0};
    static const uint8_t info_3[SBUS_FIELDS_LENGTH] = {255, 255, 255, 255, 1, 1, 1, 1, 0};
    static const uint8_t d_1001[SBUS_FIELDS_LENGTH] = {255, 255, 255, 255, 1, 0, 0, 1, 0};
    static const uint8_t octets_down[SBUS_FIELDS_LENGTH] = {0x80, 255, 255, 0x01, 1, 1, 1, 1, 1, 1, 1, 1, 1, 1, 1, 1};
    static const uint8_t octets_up[SBUS_FIELDS_LENGTH] = {0x80, 255, 255, 0x01, 1, 1, 1, 1, 0};
    static const uint8_t fa_up[SBUS_FIELDS_LENGTH] = {0x80, 255, 255, 0x01, 1, 1, 1, 1, 0, 0, 0, 0, 0, 1, 0, 0};
    static const uint8_t info_3_fa[SBUS_FIELDS_LENGTH] = {255, 255, 255, 255, 1, 1, 1, 1, 0, 0, 0, 0, 0, 1, 0, 0};
    test_row(t, "INFO 2", SBUS_DOWN, info_2, "+--+-+-+-+-+-+0-+-+-+-+-+-+-+-+-+-+-+-+-+-+-+-+0");
    test_row(t, "INFO 4, E 1111", SBUS_DOWN, info_4, "+-00000000000-00000000000+0000000000-0000000000+");
    test_row(t, "INFO 4, E 0110", SBUS_DOWN, echo_0110, "+-00000000-00+00000000000-0000000000+00000000-0+");
    test_row(t, "INFO 3, D 1111", SBUS_UP, info_3, "+-00000000000-+000000000000000000000000000000000");
    test_row(t, "INFO 3, D 1001", SBUS_UP, d_1001, "+-00000000000-+000000000-+000000000-+00000000000");
    test_row(t, "B1 80 ff and B2 ff 01 down", SBUS_DOWN, octets_down, "+-0-+-+-+-0000+0000000000000000000000-+-+-+-000+");
    test_row(t, "B1 80 ff and B2 ff 01 up", SBUS_UP, octets_up, "+-0-+-+-+-+00-+0000000000000000000000-+-+-+-0+00");
    test_row(t, "B1 80 ff and B2 ff 01 up, FA 1", SBUS_UP, fa_up, "+-0-+-+-+-+00000000000000000000000000-+-+-+-0+00");
    test_row(t, "INFO 3, D 1111, FA 1", SBUS_UP, info_3_fa, "+-0000000000000000000000000000000000000000000000");
}

// INFO 0 and INFO 1 are no frames, and an upward frame is none downward.
static void test_no_frames(struct tests *t)
{
    uint8_t fields[SBUS_FIELDS_LENGTH] = {0};
    uint8_t symbols[SBUS_SYMBOLS_LENGTH] = {0};
    begin(t, "refusal 10: INFO 0, INFO 1, and frames of the other direction");
    CHECK(t, try_read_frame(t, SBUS_DOWN, symbols, sizeof symbols, fields, sizeof fields) == SBUS_NO_FRAME);
    CHECK(t, try_read_frame(t, SBUS_UP, symbols, sizeof symbols, fields, sizeof fields) == SBUS_NO_FRAME);
    symbols_of("+-000000+-000000+-000000+-000000+-000000+-000000", symbols);
    CHECK(t, try_read_frame(t, SBUS_DOWN, symbols, sizeof symbols, fields, sizeof fields) == SBUS_NO_FRAME);
    CHECK(t, try_read_frame(t, SBUS_UP, symbols, sizeof symbols, fields, sizeof fields) == SBUS_NO_FRAME);
    symbols_of("+-00000000000-+000000000000000000000000000000000", symbols);
    CHECK(t, try_read_frame(t, SBUS_UP, symbols, sizeof symbols, fields, sizeof fields) == SBUS_OK);
    CHECK(t, try_read_frame(t, SBUS_DOWN, symbols, sizeof symbols, fields, sizeof fields) == SBUS_NO_FRAME);
    symbols_of("+--+-+-+-+-+-+0-+-+-+-+-+-+-+-+-+-+-+-+-+-+-+-+0", symbols);
    CHECK(t, try_read_frame(t, SBUS_UP, symbols, sizeof symbols, fields, sizeof fields) == SBUS_NO_FRAME);
    end(t);
}

// ---- Arguments

static void test_lengths(struct tests *t, uint32_t up)
{
    uint8_t symbols[SBUS_SYMBOLS_LENGTH + 1] = {0};
    uint8_t fields[SBUS_FIELDS_LENGTH + 1] = {0};
    begin(t, "refusal 2: lengths of symbols and fields, %s", up != 0 ? "up" : "down");
    for (size_t n = 0; n <= SBUS_SYMBOLS_LENGTH + 1; n++) {
        for (size_t m = 0; m <= SBUS_FIELDS_LENGTH + 1; m++) {
            bool fits = n == SBUS_SYMBOLS_LENGTH && m == SBUS_FIELDS_LENGTH;
            CHECK(t, try_read_frame(t, up, symbols, n, fields, m) == (fits ? SBUS_NO_FRAME : SBUS_WRONG_SLICE));
            if (!fits) {
                CHECK(t, try_write_frame(t, up, fields, m, symbols, n) == SBUS_WRONG_SLICE);
            }
        }
    }
    CHECK(t, try_read_frame(t, up, NULL, 0, fields, SBUS_FIELDS_LENGTH) == SBUS_WRONG_SLICE);
    CHECK(t, try_read_frame(t, up, symbols, SBUS_SYMBOLS_LENGTH, NULL, 0) == SBUS_WRONG_SLICE);
    CHECK(t, try_read_frame(t, up, NULL, 0, NULL, 0) == SBUS_WRONG_SLICE);
    CHECK(t, try_write_frame(t, up, NULL, 0, symbols, SBUS_SYMBOLS_LENGTH) == SBUS_WRONG_SLICE);
    CHECK(t, try_write_frame(t, up, fields, SBUS_FIELDS_LENGTH, NULL, 0) == SBUS_WRONG_SLICE);
    CHECK(t, try_write_frame(t, up, NULL, 0, NULL, 0) == SBUS_WRONG_SLICE);
    end(t);
}

// A code that stands for no symbol, at each place: also where the others are no frame, 2 comes before 10.
static void test_symbols(struct tests *t, uint32_t up)
{
    static const uint8_t codes[] = {3, 4, 127, 128, 255};
    uint8_t fields[SBUS_FIELDS_LENGTH] = {0};
    uint8_t symbols[SBUS_SYMBOLS_LENGTH];
    begin(t, "refusal 2: a symbol above 2, %s", up != 0 ? "up" : "down");
    table_writes(up, fields, symbols);
    for (size_t i = 0; i < SBUS_SYMBOLS_LENGTH * sizeof codes; i++) {
        uint8_t line[SBUS_SYMBOLS_LENGTH];
        uint8_t silent[SBUS_SYMBOLS_LENGTH] = {0};
        memcpy(line, symbols, sizeof line);
        line[i / sizeof codes] = codes[i % sizeof codes];
        silent[i / sizeof codes] = codes[i % sizeof codes];
        CHECK(t, try_read_frame(t, up, line, sizeof line, fields, sizeof fields) == SBUS_WRONG_SLICE);
        CHECK(t, try_read_frame(t, up, silent, sizeof silent, fields, sizeof fields) == SBUS_WRONG_SLICE);
    }
    end(t);
}

static void test_wrong_bits(struct tests *t)
{
    uint8_t symbols[SBUS_SYMBOLS_LENGTH] = {0};
    begin(t, "refusal 2: a bit above 1, an upward E, A, M or S");
    for (size_t i = SBUS_D12; i < SBUS_FIELDS_LENGTH; i++) {
        for (unsigned value = 0; value < 256; value++) {
            uint8_t fields[SBUS_FIELDS_LENGTH] = {0};
            fields[i] = (uint8_t)value;
            bool down = value <= 1;
            bool up = has_field(SBUS_UP, i) ? value <= 1 : value == 0;
            CHECK(t, try_write_frame(t, SBUS_DOWN, fields, sizeof fields, symbols, sizeof symbols) == (down ? SBUS_OK : SBUS_WRONG_SLICE));
            CHECK(t, try_write_frame(t, SBUS_UP, fields, sizeof fields, symbols, sizeof symbols) == (up ? SBUS_OK : SBUS_WRONG_SLICE));
        }
    }
    end(t);
}

static void test_directions(struct tests *t)
{
    static const uint32_t ups[] = {1, 2, 255, 256, 65536, 0x80000000u, UINT32_MAX};
    uint8_t fields[SBUS_FIELDS_LENGTH] = {1, 2, 3, 4, 1, 0, 0, 1, 0};
    uint8_t expected[SBUS_SYMBOLS_LENGTH];
    begin(t, "any direction but 0 is up");
    table_writes(SBUS_UP, fields, expected);
    for (size_t i = 0; i < sizeof ups / sizeof ups[0]; i++) {
        uint8_t symbols[SBUS_SYMBOLS_LENGTH] = {0};
        CHECK(t, try_write_frame(t, ups[i], fields, sizeof fields, symbols, sizeof symbols) == SBUS_OK);
        CHECK(t, memcmp(symbols, expected, sizeof symbols) == 0);
        CHECK(t, try_read_frame(t, ups[i], symbols, sizeof symbols, fields, sizeof fields) == SBUS_OK);
    }
    end(t);
}

void test_frames(struct tests *t)
{
    struct random r = {430};
    test_rows(t);
    test_no_frames(t);
    test_bits(t);
    test_directions(t);
    test_wrong_bits(t);
    for (uint32_t up = SBUS_DOWN; up <= SBUS_UP; up++) {
        test_octets(t, up);
        test_fields(t, up, &r);
        test_changed(t, up, &r);
        test_lengths(t, up);
        test_symbols(t, up);
    }
}
