// A host program for the S bus engine, to copy from.
//
//     host frames [up|down] FILE   the frames in a file of symbols (an octet each, 48 to a period; down where nothing is said): each period's fields,
//                                  or its refusal, on a line
//     host script FILE             steps a bus through a script: the notes as lines of a report, and the replies that are not 0
//     host report FILE             the report of a bench book
//
// FILE may be - for standard input. The exit status is 0; 2 for bad usage, a script line that is none, and a file that cannot be read or written.
//
// A script has a step to a line; empty lines and lines that begin with # are passed over:
//
//     on U, off U, ar U, dr U      power and requests at unit U
//     d1 U BODY, d2 U BODY         a frame for terminal U, its body in hexadecimal; - is the empty body
//     hit LETTERS                  48 letters k, p, m, n for the coming period's downward line
//     period                       runs one period
//     run N                        runs periods until N have been run
//     unit U                       prints what unit U is doing
//     counts                       prints the periods and the D opportunities run
#include "sbus.h"

#include <stdbool.h>
#include <stdio.h>
#include <string.h>

// ---- What all of it uses

// Says on standard error what went wrong. Where that fails too there is nobody left to tell.
static bool complain(const char *what, const char *whom)
{
    (void)fprintf(stderr, "host: %s%s\n", what, whom);
    return false;
}

// A number of n octets, the low-order one first.
static uint64_t number(const uint8_t *octets, size_t n)
{
    uint64_t value = 0;
    while (n > 0) {
        n--;
        value = value << 8 | octets[n];
    }
    return value;
}

static bool print_hex(const uint8_t *octets, size_t n)
{
    for (size_t i = 0; i < n; i++) {
        if (printf("%02x", octets[i]) < 0) {
            return false;
        }
    }
    return true;
}

// ---- Frames

// Four bits of a frame's fields, with their name.
static bool print_bits(const char *name, const uint8_t *bits)
{
    return printf(" %s %u%u%u%u", name, bits[0], bits[1], bits[2], bits[3]) >= 0;
}

static bool print_fields(uint32_t up, const uint8_t *fields)
{
    const uint8_t *b = fields;
    if (printf(" B1 %02x %02x B2 %02x %02x", b[SBUS_B1_FIRST], b[SBUS_B1_SECOND], b[SBUS_B2_FIRST], b[SBUS_B2_SECOND]) < 0) {
        return false;
    }
    if (!print_bits("D", fields + SBUS_D12)) {
        return false;
    }
    if (up != SBUS_DOWN) {
        return printf(" FA %u", fields[SBUS_FA]) >= 0;
    }
    return print_bits("E", fields + SBUS_E11)
           && printf(" A %u FA %u M %u S %u", fields[SBUS_A], fields[SBUS_FA], fields[SBUS_M], fields[SBUS_S]) >= 0;
}

// One period of the file: its number, and its fields or the number of the refusal.
static bool print_period(unsigned long period, uint32_t up, const uint8_t *symbols, size_t n)
{
    uint8_t fields[SBUS_FIELDS_LENGTH];
    uint32_t reply = sbus_read_frame(up, symbols, n, fields, sizeof fields);
    if (printf("%lu", period) < 0) {
        return false;
    }
    if (reply != SBUS_OK) {
        return printf(" refused %u\n", (unsigned)reply) >= 0;
    }
    return print_fields(up, fields) && putchar('\n') != EOF;
}

// A last period of fewer symbols is handed over as it is: the library refuses it.
static bool frames(FILE *file, uint32_t up)
{
    uint8_t symbols[SBUS_SYMBOLS_LENGTH];
    unsigned long period = 0;
    size_t n = fread(symbols, 1, sizeof symbols, file);
    while (n > 0) {
        if (!print_period(period, up, symbols, n)) {
            return complain("cannot write", "");
        }
        period++;
        n = fread(symbols, 1, sizeof symbols, file);
    }
    return ferror(file) == 0 || complain("cannot read the symbols", "");
}

// ---- Notes

// The note of a code as a report has it. The value of `heard` follows its name.
static const char *note_text(uint8_t code)
{
    static const char *const texts[] = {
        [SBUS_PH_ACT] = "PH-ACT -",
        [SBUS_PH_DEACT] = "PH-DEACT -",
        [SBUS_MPH_ACT] = "MPH-ACT -",
        [SBUS_MPH_DEACT] = "MPH-DEACT -",
        [SBUS_MPH_EI] = "MPH-EI -",
        [SBUS_MPH_EI1] = "MPH-EI1 -",
        [SBUS_MPH_EI2] = "MPH-EI2 -",
        [SBUS_MPH_II_CONNECTED] = "MPH-II connected",
        [SBUS_MPH_II_DISCONNECTED] = "MPH-II disconnected",
        [SBUS_HEARD] = "heard ",
        [SBUS_TORN] = "torn -",
        [SBUS_DONE1] = "done1 -",
        [SBUS_DONE2] = "done2 -",
        [SBUS_DROPPED1] = "dropped1 -",
        [SBUS_DROPPED2] = "dropped2 -",
    };
    return code >= SBUS_PH_ACT && code <= SBUS_DROPPED2 ? texts[code] : "?";
}

// One note as a line of a report: period, unit, note and value.
static bool print_note(const uint8_t *note, size_t value_length)
{
    unsigned long period = (unsigned long)number(note + 4, 4);
    return printf("%lu %u %s", period, note[1], note_text(note[0])) >= 0 && print_hex(note + SBUS_NOTE_HEAD_LENGTH, value_length)
           && putchar('\n') != EOF;
}

// All notes of a call.
static bool print_notes(const uint8_t *notes)
{
    while (notes[0] != SBUS_NOTES_END) {
        size_t value_length = (size_t)number(notes + 2, 2);
        if (!print_note(notes, value_length)) {
            return false;
        }
        notes += SBUS_NOTE_HEAD_LENGTH + value_length;
    }
    return true;
}

// ---- A bus and its script

// What a script works on: a bus, and room for the notes of a call.
struct bench {
    uint8_t bus[SBUS_BUS_LENGTH];
    uint8_t notes[SBUS_NOTES_LENGTH];
};

// What came of a line.
enum outcome { CARRIED_OUT, NO_STEP, NOT_WRITTEN };

static enum outcome written(bool is_written)
{
    return is_written ? CARRIED_OUT : NOT_WRITTEN;
}

// The periods run, which is the number of the coming one. The bus is this program's own, so the call is not refused.
static uint32_t periods_run(const struct bench *b)
{
    uint8_t counts[SBUS_COUNTS_LENGTH];
    if (sbus_counts(b->bus, sizeof b->bus, counts, sizeof counts) != SBUS_OK) {
        return 0;
    }
    return (uint32_t)number(counts, 4);
}

// A reply that is not 0, as a report has it; `unit` is - where the call names none.
static bool print_refused(const struct bench *b, const char *unit, uint32_t reply)
{
    return printf("%lu %s refused %u\n", (unsigned long)periods_run(b), unit, (unsigned)reply) >= 0;
}

// A call's notes, or its refusal.
static bool print_told(const struct bench *b, const char *unit, uint32_t reply)
{
    return reply == SBUS_OK ? print_notes(b->notes) : print_refused(b, unit, reply);
}

// A decimal number of one to nine digits.
static bool read_number(const char *text, uint32_t *value)
{
    size_t n = strlen(text);
    *value = 0;
    for (size_t i = 0; i < n; i++) {
        if (text[i] < '0' || text[i] > '9') {
            return false;
        }
        *value = *value * 10 + (uint32_t)(text[i] - '0');
    }
    return n >= 1 && n <= 9;
}

// The place of a character among some, or -1.
static int place(char c, const char *among)
{
    const char *at = c == '\0' ? NULL : strchr(among, c);
    return at == NULL ? -1 : (int)(at - among);
}

enum { LINE_ROOM = 1200, VALUE_ROOM = LINE_ROOM / 2 };

// A body in hexadecimal digits, or - for the empty one. The digits come from a line, so the octets have room.
static bool read_body(const char *text, uint8_t *body, size_t *length)
{
    size_t digits = strcmp(text, "-") == 0 ? 0 : strlen(text);
    for (size_t i = 0; i + 1 < digits; i += 2) {
        int high = place(text[i], "0123456789abcdef");
        int low = place(text[i + 1], "0123456789abcdef");
        if (high < 0 || low < 0) {
            return false;
        }
        body[i / 2] = (uint8_t)(16 * high + low);
    }
    *length = digits / 2;
    return digits % 2 == 0;
}

// The letters of a hit: k, p, m and n are 0 to 3. Any other becomes a code that stands for nothing, and so many letters as there are are handed
// over: the library refuses what is no hit.
static void read_letters(const char *text, uint8_t *letters, size_t *length)
{
    *length = strlen(text) < VALUE_ROOM ? strlen(text) : VALUE_ROOM;
    for (size_t i = 0; i < *length; i++) {
        letters[i] = (uint8_t)place(text[i], "kpmn");
    }
}

// Gives a unit an event, and prints what it tells.
static enum outcome give(struct bench *b, uint32_t event, const char *unit_text, const uint8_t *value, size_t length)
{
    uint32_t unit;
    if (!read_number(unit_text, &unit)) {
        return NO_STEP;
    }
    uint32_t reply = sbus_event(b->bus, sizeof b->bus, b->notes, sizeof b->notes, unit, event, value, length);
    return written(print_told(b, unit_text, reply));
}

static enum outcome give_frame(struct bench *b, uint32_t event, const char *unit, const char *digits)
{
    uint8_t body[VALUE_ROOM];
    size_t length;
    return read_body(digits, body, &length) ? give(b, event, unit, body, length) : NO_STEP;
}

static enum outcome give_hit(struct bench *b, const char *text)
{
    uint8_t letters[VALUE_ROOM];
    size_t length;
    read_letters(text, letters, &length);
    return give(b, SBUS_HIT, "0", letters, length);
}

static enum outcome run_period(struct bench *b)
{
    return written(print_told(b, "-", sbus_period(b->bus, sizeof b->bus, b->notes, sizeof b->notes)));
}

// Runs periods until so many have been run. Each call comes back at the first period with notes, so there may be many.
static enum outcome run_until(struct bench *b, const char *text)
{
    uint32_t until;
    if (!read_number(text, &until)) {
        return NO_STEP;
    }
    while (periods_run(b) < until) {
        uint32_t reply = sbus_run(b->bus, sizeof b->bus, b->notes, sizeof b->notes, until);
        if (!print_told(b, "-", reply)) {
            return NOT_WRITTEN;
        }
        if (reply != SBUS_OK) {
            return CARRIED_OUT;
        }
    }
    return CARRIED_OUT;
}

// What a unit is doing: `unit 1 F7 aligned 1 class 1 bits 24 sent 3`. The network end holds no frames.
static bool print_unit(uint32_t unit, const uint8_t *seen)
{
    if (printf("unit %u %c%u aligned %u", (unsigned)unit, unit == 0 ? 'G' : 'F', seen[0], seen[1]) < 0) {
        return false;
    }
    if (unit != 0 && printf(" class %u bits %u sent %u", seen[2], (unsigned)number(seen + 3, 2), (unsigned)number(seen + 5, 2)) < 0) {
        return false;
    }
    return putchar('\n') != EOF;
}

static enum outcome show_unit(const struct bench *b, const char *text)
{
    uint8_t seen[SBUS_SEEN_LENGTH];
    uint32_t unit;
    if (!read_number(text, &unit)) {
        return NO_STEP;
    }
    uint32_t reply = sbus_unit(b->bus, sizeof b->bus, unit, seen, sizeof seen);
    return written(reply == SBUS_OK ? print_unit(unit, seen) : print_refused(b, text, reply));
}

static enum outcome show_counts(const struct bench *b)
{
    uint8_t counts[SBUS_COUNTS_LENGTH];
    uint32_t reply = sbus_counts(b->bus, sizeof b->bus, counts, sizeof counts);
    if (reply != SBUS_OK) {
        return written(print_refused(b, "-", reply));
    }
    unsigned long periods = (unsigned long)number(counts, 4);
    unsigned long opportunities = (unsigned long)number(counts + 4, 4);
    return written(printf("periods %lu opportunities %lu\n", periods, opportunities) >= 0);
}

// A line's words.
struct words {
    int count;
    char name[8];
    char first[LINE_ROOM];
    char second[LINE_ROOM];
};

static bool is_step(const struct words *w, const char *name, int count)
{
    return w->count == count && strcmp(w->name, name) == 0;
}

// An event for a unit.
static enum outcome take_event(struct bench *b, const struct words *w)
{
    if (is_step(w, "on", 2)) {
        return give(b, SBUS_ON, w->first, NULL, 0);
    }
    if (is_step(w, "off", 2)) {
        return give(b, SBUS_OFF, w->first, NULL, 0);
    }
    if (is_step(w, "ar", 2)) {
        return give(b, SBUS_AR, w->first, NULL, 0);
    }
    if (is_step(w, "dr", 2)) {
        return give(b, SBUS_DR, w->first, NULL, 0);
    }
    if (is_step(w, "d1", 3)) {
        return give_frame(b, SBUS_D1, w->first, w->second);
    }
    if (is_step(w, "d2", 3)) {
        return give_frame(b, SBUS_D2, w->first, w->second);
    }
    if (is_step(w, "hit", 2)) {
        return give_hit(b, w->first);
    }
    return NO_STEP;
}

static enum outcome take_step(struct bench *b, const struct words *w)
{
    if (is_step(w, "period", 1)) {
        return run_period(b);
    }
    if (is_step(w, "run", 2)) {
        return run_until(b, w->first);
    }
    if (is_step(w, "unit", 2)) {
        return show_unit(b, w->first);
    }
    if (is_step(w, "counts", 1)) {
        return show_counts(b);
    }
    return take_event(b, w);
}

// A line of a script: its words, or that it is passed over. One that fills the room is too long; a fourth word makes it no step.
static enum outcome take_line(struct bench *b, const char *line)
{
    struct words w;
    char fourth[2];
    if (line[0] == '#' || line[0] == '\n') {
        return CARRIED_OUT;
    }
    if (strlen(line) + 1 == LINE_ROOM) {
        return NO_STEP;
    }
    w.count = sscanf(line, "%7s %1199s %1199s %1s", w.name, w.first, w.second, fourth);
    return take_step(b, &w);
}

// Steps a fresh bus through a script.
static bool script(FILE *file)
{
    struct bench b;
    char line[LINE_ROOM];
    if (sbus_fresh(b.bus, sizeof b.bus) != SBUS_OK) {
        return complain("the library is for another header", "");
    }
    while (fgets(line, sizeof line, file) != NULL) {
        enum outcome outcome = take_line(&b, line);
        if (outcome == NO_STEP) {
            return complain("this line is no step: ", line);
        }
        if (outcome == NOT_WRITTEN) {
            return complain("cannot write", "");
        }
    }
    return ferror(file) == 0 || complain("cannot read the script", "");
}

// ---- A book and its report

enum { TEXT_ROOM = 65536, REPORT_ROOM = 65536 };

// The book's text in hand, and whether no more of it comes.
struct text {
    uint8_t octets[TEXT_ROOM];
    size_t length;
    bool whole;
};

// Reads on, behind the text in hand. There is always room: where text is needed, less than a line is in hand.
static bool read_on(struct text *text, FILE *file)
{
    size_t n = fread(text->octets + text->length, 1, sizeof text->octets - text->length, file);
    text->length += n;
    text->whole = n == 0;
    return ferror(file) == 0;
}

// Drops the octets that were taken.
static void drop(struct text *text, size_t taken)
{
    text->length -= taken;
    memmove(text->octets, text->octets + taken, text->length);
}

// One call: what it writes goes to standard output, what it takes is dropped. `why` is why it stopped.
static bool go_on(uint8_t *book, struct text *text, uint8_t *why)
{
    uint8_t room[REPORT_ROOM];
    uint8_t went[SBUS_WENT_LENGTH];
    uint32_t reply =
        sbus_book_go_on(book, SBUS_BOOK_LENGTH, text->octets, text->length, text->whole, room, sizeof room, went, sizeof went);
    if (reply != SBUS_OK) {
        return complain("the library is for another header", "");
    }
    size_t written_octets = (size_t)number(went + 8, 8);
    if (fwrite(room, 1, written_octets, stdout) != written_octets) {
        return complain("cannot write the report", "");
    }
    drop(text, (size_t)number(went, 8));
    *why = went[16];
    return true;
}

// The report of a book.
static bool report(FILE *file)
{
    uint8_t book[SBUS_BOOK_LENGTH];
    struct text text;
    uint8_t why = SBUS_NEEDS_TEXT;
    text.length = 0;
    text.whole = false;
    if (sbus_book_fresh(book, sizeof book) != SBUS_OK) {
        return complain("the library is for another header", "");
    }
    while (why != SBUS_FINISHED) {
        if (why == SBUS_NEEDS_TEXT && !read_on(&text, file)) {
            return complain("cannot read the book", "");
        }
        if (!go_on(book, &text, &why)) {
            return false;
        }
    }
    return true;
}

// ---- The command line

// What is done with the file.
enum task { FRAMES_DOWN, FRAMES_UP, SCRIPT, REPORT, NO_TASK };

static enum task task_of(int argc, char **argv)
{
    if (argc == 4 && strcmp(argv[1], "frames") == 0) {
        return strcmp(argv[2], "up") == 0 ? FRAMES_UP : strcmp(argv[2], "down") == 0 ? FRAMES_DOWN : NO_TASK;
    }
    if (argc != 3) {
        return NO_TASK;
    }
    return strcmp(argv[1], "frames") == 0   ? FRAMES_DOWN
           : strcmp(argv[1], "script") == 0 ? SCRIPT
           : strcmp(argv[1], "report") == 0 ? REPORT
                                            : NO_TASK;
}

static bool carry_out(enum task task, FILE *file)
{
    switch (task) {
    case FRAMES_DOWN:
        return frames(file, SBUS_DOWN);
    case FRAMES_UP:
        return frames(file, SBUS_UP);
    case SCRIPT:
        return script(file);
    case REPORT:
        return report(file);
    default:
        return false;
    }
}

// Opens the file, carries the task out, and closes what was opened. What is still in the output's buffer goes out here.
static bool carry_out_on(enum task task, const char *name)
{
    if (strcmp(name, "-") == 0) {
        return carry_out(task, stdin) && (fflush(stdout) == 0 || complain("cannot write", ""));
    }
    FILE *file = fopen(name, "rb");
    if (file == NULL) {
        return complain("cannot open ", name);
    }
    bool is_done = carry_out(task, file);
    bool is_closed = fclose(file) == 0 || complain("cannot close ", name);
    return is_done && is_closed && (fflush(stdout) == 0 || complain("cannot write", ""));
}

int main(int argc, char **argv)
{
    enum task task = task_of(argc, argv);
    if (task == NO_TASK) {
        (void)complain("usage: host frames [up|down] FILE, host script FILE, or host report FILE", "");
        return 2;
    }
    return carry_out_on(task, argv[argc - 1]) ? 0 : 2;
}
