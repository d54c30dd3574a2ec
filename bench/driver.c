/* Puts one piece of work to the library that it is linked with, so that its instructions can be counted.
   Use: driver WORK INPUT TIMES EVENTS [COVER]
   WORK is compile (to a file), check or reaction (react_many), and INPUT a file with an accepted sheet; or WORK is check_file or clock (react_cells_many), and INPUT a netlist file;
   or it is cover_file or cover_cells, and COVER a file with the cover's 16-bit numbers.
   The entry is called TIMES times; a clock or a reaction each time for EVENTS events. All else that is done is the same for any TIMES and EVENTS. */
#include "krankovel.h"

#include <stdio.h>
#include <stdlib.h>
#include <string.h>

enum { MOST = 8192, CELLS = 1024, EVENTS = 4096 };

static uint8_t input[MOST], buffer[MOST];
static uint16_t cover[MOST];
static uint64_t words[CELLS], events[EVENTS], signals[EVENTS], states[EVENTS];

int main(int argc, char **argv)
{
    FILE *in = argc >= 5 ? fopen(argv[2], "rb") : NULL, *tables = argc == 6 ? fopen(argv[5], "rb") : NULL;
    if (!in || (argc == 6 && !tables))
        return 2;
    size_t length = fread(input, 1, sizeof input, in), count = strtoul(argv[4], NULL, 10);
    size_t numbers = tables ? fread(cover, sizeof *cover, MOST, tables) : 0;
    unsigned long times = strtoul(argv[3], NULL, 10), refused = 0;
    krankovel_listing l = krankovel_read_file(input, length, words, CELLS);
    uint64_t seed = 1, most = (2ull << input[0]) - 2;
    for (int i = 0; i < EVENTS; i++) {
        seed = seed * 6364136223846793005ull + 1442695040888963407ull;
        events[i] = seed >> 40 & most;
    }
    if (count > EVENTS)
        return 2;
    for (unsigned long i = 0; i < times; i++)
        if (!strcmp(argv[1], "compile"))
            refused += krankovel_compile(input, length, buffer, sizeof buffer).number;
        else if (!strcmp(argv[1], "check"))
            refused += krankovel_check(input, length).number;
        else if (!strcmp(argv[1], "check_file"))
            refused += krankovel_check_file(input, length).number;
        else if (!strcmp(argv[1], "cover_file"))
            refused += krankovel_cover_file(input, length, cover, numbers).number;
        else if (!strcmp(argv[1], "cover_cells"))
            refused += krankovel_cover_cells(l.inputs, l.outputs, words, l.cells, cover, numbers).number;
        else if (!strcmp(argv[1], "clock"))
            refused += krankovel_react_cells_many(l.inputs, l.outputs, words, l.cells, 0, events, count, signals, count, states, count).number;
        else if (!strcmp(argv[1], "reaction"))
            refused += krankovel_react_many(input, length, 0, events, count, signals, count, states, count).number;
        else
            return 2;
    return refused != 0;
}
