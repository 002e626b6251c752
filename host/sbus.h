// The S bus engine for C: frames on the line, a bus stepped period by period, and reports made from bench books.
//
// An S bus (JT-I430) has one network end, which is unit 0, terminals 1 to 8, and the line between them. Time is counted in periods: one frame of
// 48 bits, 250 microseconds.
//
// LENT OCTETS. A call takes numbers and slices, and a slice is two arguments: a pointer to octets, and their number.
// - NULL with the length 0 is a slice of no octets. Any other pointer must be good for so many octets; none needs alignment.
// - The slices that one call is lent must not overlap. (So a body that stands in notes is copied before it is given as a value beside them.)
// - A call reads and writes the lent octets and nothing else, and keeps no pointer to them. A pointer to const is only read through.
//
// REPLIES. A call returns 0, or the number of the refusal (enum sbus_refusal): then no lent octet is changed. The checks run in the order of
// their numbers, and the first that holds gives the number. Only the three calls that tell a length return something else.
//
// NO STATE. The library keeps nothing between calls, allocates nothing, reads and writes no file. A bus is its octets: a copy of them is another
// bus, which goes on from the same moment. Any thread may call on its own octets. A call needs about 5 KB of stack, and does not recurse.
//
// NUMBERS in octets have their low-order octet first.
//
// It is linked from libsbus.a, for x86-64 with the System V calling convention (Linux). This header is C99, and C++ takes it too.
#ifndef SBUS_H
#define SBUS_H

#include <stddef.h>
#include <stdint.h>

#ifdef __cplusplus
extern "C" {
#endif

// ---- Lengths, in octets unless something else is said ----------------------------------------------------------------------------------

#define SBUS_BUS_LENGTH 3194                    // a bus; sbus_bus_length()
#define SBUS_NOTES_LENGTH 979                   // the notes of any call at most, their end included; sbus_notes_length()
#define SBUS_BOOK_LENGTH (SBUS_BUS_LENGTH + 3)  // a book, 3197; sbus_book_length()
#define SBUS_SYMBOLS_LENGTH 48                  // a period's symbols, and the letters of a hit
#define SBUS_FIELDS_LENGTH 16                   // the fields of a frame
#define SBUS_COUNTS_LENGTH 8                    // what sbus_counts tells
#define SBUS_SEEN_LENGTH 7                      // what sbus_unit tells
#define SBUS_WENT_LENGTH 17                     // what sbus_book_go_on tells
#define SBUS_NOTE_HEAD_LENGTH 8                 // a note without its value
#define SBUS_BODY_MOST 266                      // the longest body; the shortest has 1
#define SBUS_REPORT_ROOM 4248                   // with less room than this left for the report a book does not go on
#define SBUS_LINE_MOST 600                      // the longest line of a book, its LF included
#define SBUS_TERMINALS 8                        // terminals are units 1 to 8
#define SBUS_PERIODS_MOST 4000000               // periods that a bus runs at most
#define SBUS_VERSION 2                          // of the layout at the end of this file

// The same three lengths as the library has them: a program that was built with another header finds out here.
size_t sbus_bus_length(void);
size_t sbus_notes_length(void);
size_t sbus_book_length(void);

// ---- Refusals --------------------------------------------------------------------------------------------------------------------------

enum sbus_refusal {
    SBUS_OK = 0,
    SBUS_NO_BUS = 1,       // the octets are no bus or no book: their number, the letters "SBUS", the version, a field outside its range,
                           // a reserved octet that is not 0
    SBUS_WRONG_SLICE = 2,  // another slice is too short or of the wrong length, or holds a code that stands for nothing
    SBUS_NO_UNIT = 3,      // the unit is above 8
    SBUS_NOT_FOR_UNIT = 4, // the event is not one for this unit, or is none at all
    SBUS_BARRED = 5,       // the state bars it: on outside F1, off in F1, ar in F1, F2, F4, F5, F7, G2 or G3, dr in G1 or G4
    SBUS_OUTSIDE_F7 = 6,   // a frame for a terminal outside F7
    SBUS_BODY_LENGTH = 7,  // the body has no octet, or more than 266
    SBUS_FRAME_HELD = 8,   // the terminal holds a frame
    SBUS_ALL_RUN = 9,      // 4,000,000 periods have been run
    SBUS_NO_FRAME = 10     // no frame is written as these symbols
};
// 11 to 14 are faults of a book. No call returns them: they stand in the last line of the report, `- - stopped 12`.

// ---- Frames on the line ----------------------------------------------------------------------------------------------------------------

// A symbol is an octet. Binary 1 is none, 0 is a pulse.
enum sbus_symbol { SBUS_NONE = 0, SBUS_PLUS = 1, SBUS_MINUS = 2 };

// The fields of a frame. The B octets go over the line with their high-order bit first; every other field is one bit, 0 or 1.
// An upward frame has the B and D fields and SBUS_FA: its E, A, M and S are 0.
enum sbus_field {
    SBUS_B1_FIRST = 0,
    SBUS_B2_FIRST = 1,
    SBUS_B1_SECOND = 2,
    SBUS_B2_SECOND = 3,
    SBUS_D12 = 4, // the bits of D and E by their positions, 1 to 48, on the line
    SBUS_D25 = 5,
    SBUS_D36 = 6,
    SBUS_D47 = 7,
    SBUS_E11 = 8,
    SBUS_E24 = 9,
    SBUS_E35 = 10,
    SBUS_E46 = 11,
    SBUS_A = 12,
    SBUS_FA = 13,
    SBUS_M = 14,
    SBUS_S = 15
};

// The direction of a frame: 0 is down, from the network end to the terminals; any other number is up.
enum sbus_direction { SBUS_DOWN = 0, SBUS_UP = 1 };

// Reads a frame: writes the fields whose frame these 48 symbols are.
// 0; 2: a length other than 48 or 16, or a symbol above 2; 10: no frame of this direction is written as these symbols.
uint32_t sbus_read_frame(uint32_t up, const uint8_t *symbols, size_t symbols_length, uint8_t *fields, size_t fields_length);

// Writes a frame: the 48 symbols that have these fields.
// 0; 2: a length other than 16 or 48, a bit above 1, or an upward E, A, M or S that is not 0.
uint32_t sbus_write_frame(uint32_t up, const uint8_t *fields, size_t fields_length, uint8_t *symbols, size_t symbols_length);

// ---- A bus -----------------------------------------------------------------------------------------------------------------------------

// Makes the octets a fresh bus, whatever they were: no terminal is powered, nothing has been run, period 0 comes next.
// 0; 1: the length is not SBUS_BUS_LENGTH.
uint32_t sbus_fresh(uint8_t *bus, size_t bus_length);

enum sbus_event_number {
    SBUS_ON = 1,  // terminals: power
    SBUS_OFF = 2, // terminals: no power; a frame that is held is dropped
    SBUS_AR = 3,  // all units: activation is requested
    SBUS_DR = 4,  // unit 0: deactivation is requested
    SBUS_D1 = 5,  // terminals: a frame of class 1 to send on D; the value is its body, 1 to 266 octets
    SBUS_D2 = 6,  // terminals: the same of class 2
    SBUS_HIT = 7  // unit 0: the coming period's downward line is disturbed; the value is a letter for each of the 48 positions
};

// The letters of a hit. They are not the codes of symbols: a hit that takes the pulse away is 3, and 0 leaves what is there.
enum sbus_letter { SBUS_KEEP = 0, SBUS_PUT_PLUS = 1, SBUS_PUT_MINUS = 2, SBUS_PUT_NONE = 3 };

// Gives a unit an event, before the coming period's frame is sent. The bus and the notes are written; the value is looked at for SBUS_D1, SBUS_D2
// and SBUS_HIT alone. A second hit before the period is run replaces the first.
// 0; 1: no bus; 2: notes under 979 octets, or a hit that is not 48 letters; 3, 4, 5, 6, 7, 8: see enum sbus_refusal.
uint32_t sbus_event(uint8_t *bus, size_t bus_length, uint8_t *notes, size_t notes_length, uint32_t unit, uint32_t event, const uint8_t *value,
                    size_t value_length);

// Runs one period: the frame goes over the line, all units hear it, then come the timers due at the next period's start. The bus and the notes
// are written.
// 0; 1: no bus; 2: notes under 979 octets; 9: 4,000,000 periods have been run.
uint32_t sbus_period(uint8_t *bus, size_t bus_length, uint8_t *notes, size_t notes_length);

// Runs periods until `until` have been run since the bus was fresh, or one hands back notes: what so many calls of sbus_period do, in less time.
// `until` is not a number of periods to run but the number of the first that is not run. The notes are those of the last period run. Without notes
// the bus has come to `until`, or to 4,000,000, past which none is run; with notes sbus_counts tells whether it has. A bus that is there already or
// past it runs nothing.
// 0; 1: no bus; 2: notes under 979 octets; 9: `until` is above 4,000,000, and so many have been run.
uint32_t sbus_run(uint8_t *bus, size_t bus_length, uint8_t *notes, size_t notes_length, uint32_t until);

// Tells how far a bus is: octets 0 to 3 of `counts` are the periods run, which is the number of the coming period; 4 to 7 the D opportunities run,
// four for each period in G3. Octets behind them are left as they are.
// 0; 1: no bus; 2: counts under 8 octets.
uint32_t sbus_counts(const uint8_t *bus, size_t bus_length, uint8_t *counts, size_t counts_length);

// Tells what a unit is doing. Octet 0 of `seen` is its state (unit 0: 1 to 4 for G1 to G4; a terminal: 1 to 8 for F1 to F8), 1 whether it
// is aligned (0 or 1); of a terminal also 2 the class of the frame that it holds (0 none), 3 and 4 how many bits that frame's image has, 5
// and 6 how many of them have left in the sending under way (0: none is under way). For unit 0 these are 0. Octets behind them are left as
// they are.
// 0; 1: no bus; 2: seen under 7 octets; 3: the unit is above 8.
uint32_t sbus_unit(const uint8_t *bus, size_t bus_length, uint32_t unit, uint8_t *seen, size_t seen_length);

// ---- Notes -----------------------------------------------------------------------------------------------------------------------------

// Notes stand one behind the other in the order in which they arise. A note is
//     octet 0      its code
//     octet 1      its unit
//     octets 2, 3  the number of octets of its value
//     octets 4-7   its period; for a timer's note this is the period at whose start the timer was due: the one after the period run
//     octets 8-    its value: the body of SBUS_HEARD; every other note has none
// An octet 0 in the place of a code ends them. Octets behind that are left as they were. A call that is not refused always writes that end.
enum sbus_note {
    SBUS_NOTES_END = 0,
    SBUS_PH_ACT = 1,            // PH-AI
    SBUS_PH_DEACT = 2,          // PH-DI
    SBUS_MPH_ACT = 3,           // MPH-AI
    SBUS_MPH_DEACT = 4,         // MPH-DI
    SBUS_MPH_EI = 5,            // unit 0: an error
    SBUS_MPH_EI1 = 6,           // a terminal: an error
    SBUS_MPH_EI2 = 7,           // a terminal: recovery from an error
    SBUS_MPH_II_CONNECTED = 8,
    SBUS_MPH_II_DISCONNECTED = 9,
    SBUS_HEARD = 10,            // unit 0: a whole frame was heard on D
    SBUS_TORN = 11,             // unit 0: 8 or more bits were heard on D that are no frame
    SBUS_DONE1 = 12,            // a terminal's frame of class 1 is completed
    SBUS_DONE2 = 13,            // of class 2
    SBUS_DROPPED1 = 14,         // a terminal has left F7 while it held a frame of class 1
    SBUS_DROPPED2 = 15          // of class 2
};
// A refusal is the call's reply, and never a note.

// ---- Books and reports -----------------------------------------------------------------------------------------------------------------

// Makes the octets a book of which nothing has been read, with a fresh bus.
// 0; 1: the length is not SBUS_BOOK_LENGTH.
uint32_t sbus_book_fresh(uint8_t *book, size_t book_length);

// Why sbus_book_go_on has stopped.
enum sbus_stop {
    SBUS_NEEDS_TEXT = 1, // the text holds no further whole line, and is not said to be all
    SBUS_NEEDS_ROOM = 2, // less than 4,248 octets of room are left
    SBUS_FINISHED = 3    // the report is finished
};

// Goes on with a book. `text` is what the host holds of the book's text and has not been taken; `whole` other than 0 says that it reaches to the
// book's end. `report` is room for the report's text, filled from its start at each call. `went` is told
//     octets 0-7   how many octets of `text` were taken, from its start
//     octets 8-15  how many octets were written into `report`
//     octet 16     why it stopped, enum sbus_stop
// The host drops the octets taken, writes out the octets written, and calls again with what it was asked for. With SBUS_LINE_MOST octets or more
// for the text and SBUS_REPORT_ROOM or more for the report every book comes to its end; more room means fewer calls. The report is the same in
// whatever parts the text comes. Any octets are a book's text: faults stand in the report. When it is finished, a further call takes and writes
// nothing. Octets of `went` behind the 17, and of `report` behind the written ones, are left as they are.
// 0; 1: the octets are no book; 2: went under 17 octets. A book that came from sbus_book_fresh and these calls is never refused with 1.
uint32_t sbus_book_go_on(uint8_t *book, size_t book_length, const uint8_t *text, size_t text_length, uint32_t whole, uint8_t *report,
                         size_t report_length, uint8_t *went, size_t went_length);

// ---- The layout of a bus, version 2 ----------------------------------------------------------------------------------------------------

// For whoever stores buses or looks into a dump. A host has no need of it, and nothing is promised of a bus that a host has written into: it is
// refused with 1, or is a bus like any other. A bus of another version is refused with 1, too: later versions give reserved octets a
// meaning. Fields of the record and of terminals keep their places.
//
//     octets      range        what
//     0-3         "SBUS"
//     4           2            version
//     5-8         0-4000000    periods run
//     9-12                     D opportunities run, at most four times the periods
//     13-16       0-4120000    T1: the period at whose start it is due, 0 for none
//     17-20       0-4000200    T2
//     21          1-4          state of the network end, G1 to G4
//     22          0-1          aligned
//     23          0-2          its run of periods towards alignment or loss
//     24-25       0-2136       the reader of D: bits of the frame under way
//     26          0-7          1s read since the last 0
//     27          any          its unfinished octet
//     28          0-1          whether a flag has opened
//     29          0-1          whether the last 0 counts among the bits
//     30          0-1          the last D that the network end heard
//     31          0-1          whether a hit is pending
//     32-111      0            reserved
//     112-303                  terminals 1 to 8, 24 octets each; terminal u from 112 + 24 (u - 1) on:
//       0-3       0-4120000      T3
//       4-5       0-2569         bits of the held frame's image
//       6-7       0-2569         of them sent
//       8         0-11           C
//       9         0-2            class of the held frame, 0 for none
//       10        0-1            whether class 1 is at its low level
//       11        0-1            whether class 2 is
//       12        0-1            the bit that left last
//       13        1-8            state, F1 to F8
//       14        0-1            aligned
//       15        0-2            its run
//       16-23     0              reserved
//     304-351     0-3          letters of the hit
//     352-617     any          octets that the reader has read
//     618-3193    any          rooms of the images of terminals 1 to 8, 322 octets each, low-order bit first
//
// A book, 3197 octets: 0-3193 its bus, which sbus_counts and sbus_unit may be asked about (an event or a period that the host gives it by
// itself is not in the book); 3194 its stage (0 the first line is to come, 1 lines, 2 or more `end` has come); 3195 whether the report is
// begun, 3196 whether it is finished (0-1 both).

#ifdef __cplusplus
}
#endif

#endif
