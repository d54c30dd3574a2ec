/* Krankovel for C: Pure Esterel sheets are checked, compiled to netlists and run; netlists are checked, run, read and written; tables of a packer are reordered,
   and its covers checked.

   Build:    (cd crates/krankovel_c && rt lib)   makes crates/krankovel_c/out/libkrankovel_c.a (x86-64 Linux)
   Link:     cc PROGRAM.c -I include crates/krankovel_c/out/libkrankovel_c.a

   Whatever is handed in is answered, or refused with a number and a place (below). Nothing has to be tested before, and each entry is proved to answer what its
   contract in crates/krankovel_c says, for every argument. No entry allocates, keeps anything between two calls, or calls the system: any number of threads may
   call any of them at a time. Each was measured to need less than 64 KB of stack (docs/SPEED.md has the figure of each).

   A SLICE is a pointer and a length, the number of its elements. The pointer is never null, also where the length is 0: then any other pointer will do, and it is not
   followed. A pointer to uint64_t is a multiple of 8, one to uint16_t of 2. A slice that an entry writes (`buffer`; `words` where they are not const; `emissions`, `outputs`,
   `signals`, `states`) overlaps no other slice of the same call.
   Lent slices are written only on acceptance, and only as far as the answer reaches.

   NUMBERS AND PLACES. Every answer has a number, 0 for acceptance, and a place, 0 on acceptance:

     no. name     where                                                                        place
      1  SHORT    the bytes end                                                                offset of the number begun
      2  NUMBER   a number's second byte is 0 or over 127                                      the same
      3  KIND     a kind over 10 in a sheet, over 7 in a file, over 6 in a word                the same
      4  COUNT    a limit is passed                                                            offset of the second header number, kind, or missing statement;
                                                                                               of a file's count of cells
      5  SCOPE    no such signal here                                                          the operand's offset
      6  EMIT     tick or an input is emitted                                                  the same
      7  EXIT     a level that is not 2..1+d, d being the traps around                         the same
      8  EXTRA    bytes are left over                                                          offset of the first one
      9  INSTANT  a loop's body may end in the instant it starts                               the first such loop's statement number
     10  TWICE    a loop may start a parallel or a signal again in the instant in which it     the first such one's statement number
                  ends, with no wait before it
     11  ROOM     over 1,024 cells                                                             0
     12  CYCLE    a cycle through cells other than registers                                   the lowest cell on one
     13  EVENT    an event with a bit outside 1..I                                             0
     14  STATE    a state that does not fit; for a netlist, with bits past its registers       0
     15  BUFFER   a lent slice is too short                                                    the length needed
     16  CELL     cells 0..I+1 not as they must be, kinds 0 to 2 elsewhere, an operand that    offset of the kind, truth table,
                  is no cell, a truth table that is none of the three, fewer than 2+I+O        operand or count
                  cells, or something in a field that is not used
     19  COVER    a wrong table; or an output or a register's operand has none                 the first wrong table's number, or the number of tables
     20  ORDER    a pin order of 24 or more                                                    0

   Where a netlist is handed in as words there are no bytes, and what would be an offset is 0. The numbers are looked for in the order 1 to 8 as the bytes are read, then 9, 10,
   11, 12 (for a netlist 1 to 4 and 16, 8, then 12), then 13, 14, 15, or 19. The first one found answers. The counts and signals of a refusal are 0, its state is the one handed in.

   SIGNALS. Signal 0 is tick, then come the I inputs, the O outputs, the locals. In a word signal s is bit s. An event has the inputs that are present, bits 1..I.

   STATES are 64 bits. Of a sheet: bit 0 is boot, bit 1+h is halt h, halts being counted from 0 in reading order. Of a netlist: its registers in cell order. For a compiled
   sheet these are the same. The fresh state is 0.

   NETLIST FILES. I, O, the count of cells, then for each cell its kind and operands, all of them numbers. A gate is written as kind 7, its truth table, x and y: bit x + 2 y of the truth
   table is what the gate gives, so 14 is or, 8 and, 2 butnot. The kinds 3, 4, 5 of a word, without a truth table, are read as well and not written.

   CELLS AS WORDS. A cell is one word, kind + 8*x + 524288*y (kind in bits 0..2, x in bits 3..18, y in bits 19..34):

     kind 0 low        x = y = 0         1 high       x = y = 0                    2 input      x the signal, y = 0
          3 or x y                       4 and x y                                 5 butnot x y (x and not y)
          6 register x (the last x, first low)        y = 0

   x and y are numbers of cells, counted from 0, but for an input. Cell 0 is low, cell 1 high, cells 2..I+1 are inputs 1..I, cells I+2..I+O+1 the outputs. */
#ifndef KRANKOVEL_H
#define KRANKOVEL_H

#include <stdbool.h>
#include <stddef.h>
#include <stdint.h>

#ifdef __cplusplus
extern "C" {
#endif

enum {
    KRANKOVEL_ACCEPTED = 0,
    KRANKOVEL_SHORT = 1,
    KRANKOVEL_NUMBER = 2,
    KRANKOVEL_KIND = 3,
    KRANKOVEL_COUNT = 4,
    KRANKOVEL_SCOPE = 5,
    KRANKOVEL_EMIT = 6,
    KRANKOVEL_EXIT = 7,
    KRANKOVEL_EXTRA = 8,
    KRANKOVEL_INSTANT = 9,
    KRANKOVEL_TWICE = 10,
    KRANKOVEL_ROOM = 11,
    KRANKOVEL_CYCLE = 12,
    KRANKOVEL_EVENT = 13,
    KRANKOVEL_STATE = 14,
    KRANKOVEL_BUFFER = 15,
    KRANKOVEL_CELL = 16,
    KRANKOVEL_COVER = 19,
    KRANKOVEL_ORDER = 20
};

/* Pins of a table. */
enum { KRANKOVEL_PINS = 4 };

/* The counts are those of an acceptance; of a netlist that came as a netlist the statements are 0. */
typedef struct {
    uint8_t number;
    size_t place;
    uint16_t statements;
    uint16_t cells;
} krankovel_answer;

/* An answer with the signals that a reaction gives, and the next state. */
typedef struct {
    uint8_t number;
    size_t place;
    uint16_t statements;
    uint16_t cells;
    uint64_t signals;
    uint64_t state;
} krankovel_reaction;

/* What reading alone answers; signals with tick. */
typedef struct {
    uint8_t number;
    size_t place;
    uint16_t statements;
    uint16_t halts;
    uint16_t signals;
} krankovel_reading;

/* An answer with I and O, of a netlist whose cells were handed out. */
typedef struct {
    uint8_t number;
    size_t place;
    uint16_t statements;
    uint16_t cells;
    uint16_t inputs;
    uint16_t outputs;
} krankovel_listing;

/* An answer for many events, with the state after the last of them. */
typedef struct {
    uint8_t number;
    size_t place;
    uint16_t statements;
    uint16_t cells;
    uint64_t state;
} krankovel_course;

/* A table: its cell, the cells at its pins, and a truth table with a bit for each setting of the pins. Pin p weighs 2 to the p, and the sum over the pins that are high is the
   number of the bit that the table answers. */
typedef struct {
    uint16_t cell;
    uint16_t pins[KRANKOVEL_PINS];
    uint16_t truth;
} krankovel_table;

/* An answer with a table; a refusal has the one handed in. */
typedef struct {
    uint8_t number;
    size_t place;
    krankovel_table table;
} krankovel_reordered;

/* ---- sheets ---- */

/* Reads a sheet and goes no further. Refusals: 1 to 8. */
krankovel_reading krankovel_read(const uint8_t *sheet, size_t length);

/* Checks a sheet. Refusals: 1 to 12. */
krankovel_answer krankovel_check(const uint8_t *sheet, size_t length);

/* Compiles a sheet to a netlist file, in the first bytes of `buffer`. Refusals: 1 to 12; 15, whose place is the file's length: an empty buffer asks for that. No file is longer
   than 5,116 bytes (4 for the header, 1 for cells 0 and 1 each, 5 for each of 1,022 others). */
krankovel_answer krankovel_compile(const uint8_t *sheet, size_t length, uint8_t *buffer, size_t room);

/* Compiles a sheet to cells, in the first places of `words`. Refusals: 1 to 12; 15, whose place is the number of cells. */
krankovel_listing krankovel_compile_cells(const uint8_t *sheet, size_t length, uint64_t *words, size_t room);

/* Whether a state fits a sheet. Refusals: 1 to 12; 14 where it does not. */
krankovel_answer krankovel_fits(const uint8_t *sheet, size_t length, uint64_t state);

/* Whether a state is at rest: boot is on and no halt bit is set. Fresh, 0, is not. */
bool krankovel_rest(uint64_t state);

/* The reaction of a sheet to an event, by the rules: all signals that are emitted, locals too, and the next state. Refusals: 1 to 12, 13, 14. */
krankovel_reaction krankovel_react(const uint8_t *sheet, size_t length, uint64_t state, uint64_t event);

/* The same for `count` events one after another; the sheet is checked once. The emissions of each and the state after each go to the first `count` places of `emissions` and `states`.
   Refusals: 1 to 12; 13 where any event has a bit outside 1..I; 14; 15 where one of the two slices is shorter than `count`, which is the place. */
krankovel_course krankovel_react_many(const uint8_t *sheet, size_t length, uint64_t state, const uint64_t *events, size_t count,
    uint64_t *emissions, size_t emissions_room, uint64_t *states, size_t states_room);

/* ---- netlist files ---- */

/* Checks a netlist file. Refusals: 1 to 4, 8, 12, 16. */
krankovel_answer krankovel_check_file(const uint8_t *file, size_t length);

/* Reads a netlist file to cells, in the first places of `words`. Refusals: as above; 15, whose place is the number of cells. */
krankovel_listing krankovel_read_file(const uint8_t *file, size_t length, uint64_t *words, size_t room);

/* The reaction of the netlist in a file: its outputs and the next state. Refusals: 1 to 4, 8, 12, 16; 13, 14. */
krankovel_reaction krankovel_react_file(const uint8_t *file, size_t length, uint64_t state, uint64_t event);

/* The same for many events; the netlist is checked and ordered once. Refusals: 1 to 4, 8, 12, 16; then as krankovel_react_many. */
krankovel_course krankovel_react_file_many(const uint8_t *file, size_t length, uint64_t state, const uint64_t *events, size_t count,
    uint64_t *outputs, size_t outputs_room, uint64_t *states, size_t states_room);

/* ---- netlists as words: I, O and the cells. All places but those of CYCLE and BUFFER are 0. ---- */

/* Checks cells. Refusals: 3, 4, 12, 16. */
krankovel_answer krankovel_check_cells(uint32_t inputs, uint32_t outputs, const uint64_t *words, size_t count);

/* Writes cells to a netlist file, in the first bytes of `buffer`. Refusals: 3, 4, 12, 16; 15, whose place is the file's length. */
krankovel_answer krankovel_write_cells(uint32_t inputs, uint32_t outputs, const uint64_t *words, size_t count, uint8_t *buffer, size_t room);

/* The reaction of cells: their outputs and the next state. Refusals: 3, 4, 12, 16; 13, 14. */
krankovel_reaction krankovel_react_cells(uint32_t inputs, uint32_t outputs, const uint64_t *words, size_t count, uint64_t state, uint64_t event);

/* The same for many events; the cells are checked and ordered once. Refusals: 3, 4, 12, 16; then as krankovel_react_many. */
krankovel_course krankovel_react_cells_many(uint32_t inputs, uint32_t outputs, const uint64_t *words, size_t cells, uint64_t state,
    const uint64_t *events, size_t count, uint64_t *signals, size_t signals_room, uint64_t *states, size_t states_room);

/* ---- tables: any numbers may stand in one, and nothing is looked up by them ---- */

/* Reorders the pins of a table and its truth table together, so that it answers as before on the same cells. An order names for each new pin the old pin that it carries, and is the
   number of that list in dictionary order: 0 is 0 1 2 3, 1 is 0 1 3 2, 23 is 3 2 1 0. What undoes the orders 0 to 23 are the orders 0, 1, 2, 4, 3, 5, 6, 7, 12, 18, 13, 19, 8, 10,
   14, 20, 16, 22, 9, 11, 15, 21, 17, 23. Refusals: 20. */
krankovel_reordered krankovel_reorder(krankovel_table table, uint64_t order);

/* ---- covers ----

   A cover is a slice of 16-bit numbers, six a table: its cell, its four pins, its truth table. An array of krankovel_table lies so in memory: hand it in as a pointer to
   uint16_t, with six times its length. It is the caller's; it is read and not written, and nothing of it is kept. Any numbers may stand in it, in any length. Tables are numbered
   from 0.

   A table is right if its cell is a gate (kind 3 to 5), and no table before it has the same cell; if each pin is a gate with a table, a register, an input or a constant; if each
   pin but a constant is met on the way down from the operands of the table's cell, the way ending at pins; if a register or an input that is met is a pin; and if at all sixteen
   settings of the pins the truth table has the value of the cell, the cells being cut at the pins. A constant needs no pin; at a pin it is free like any other net. Where one net
   is at two pins, only settings count that give it one value. Fewer than six numbers at the end are a wrong table, for no cell. A cover is accepted exactly if all tables are
   right, and each output and each register's operand is a gate with a table, a register, an input or a constant. Then the tables alone give the netlist's outputs and next state,
   for every event and state. */

/* Checks a cover of the netlist in a file. The cells answered are the netlist's. Refusals: 1 to 4, 8, 12, 16, the file's own; then 19, whose place is the number of the first
   wrong table, or the number of tables where none is wrong and an output or a register's operand lacks one. */
krankovel_answer krankovel_cover_file(const uint8_t *file, size_t file_length, const uint16_t *cover, size_t length);

/* The same of a netlist as words. Refusals: 3, 4, 12, 16; then 19. */
krankovel_answer krankovel_cover_cells(uint32_t inputs, uint32_t outputs, const uint64_t *words, size_t count, const uint16_t *cover, size_t length);

#ifdef __cplusplus
}
#endif

#endif
