/* Answers questions about covers by the C library, so that they can be put to it from another language.
   Use: library <QUESTIONS    a line each:
       file HEX                    a netlist file, of which the lines that follow ask
       words I O WORD ..           the same netlist as words
       cover NUMBER ..             number place statements cells of cover_file; behind it of cover_cells where there are words
       react STATE EVENT           number place statements cells outputs state of react_file; state and event in hex
       order N CELL PIN PIN PIN PIN TRUTH    number place, and the table as it is then
   The first two answer nothing. Numbers are decimal. */
#include "krankovel.h"

#include <inttypes.h>
#include <stdio.h>
#include <stdlib.h>
#include <string.h>

enum { LINE = 1 << 20, MOST = 1 << 17 };

static uint8_t file[MOST];
static uint64_t numbers[MOST], words[MOST];
static uint16_t cover[MOST];
static size_t length, count;
static uint32_t inputs, outputs;

static size_t take_numbers(char *from)
{
    size_t n = 0;
    for (char *end; n < MOST; from = end) {
        numbers[n] = strtoull(from, &end, 10);
        if (end == from)
            break;
        n++;
    }
    return n;
}

static void take_file(const char *hex)
{
    unsigned byte;
    for (length = count = 0; length < MOST && sscanf(hex + 2 * length, "%2x", &byte) == 1; length++)
        file[length] = (uint8_t)byte;
}

static void take_words(char *from)
{
    count = take_numbers(from) - 2;
    inputs = (uint32_t)numbers[0];
    outputs = (uint32_t)numbers[1];
    memcpy(words, numbers + 2, count * sizeof *words);
}

static void put(krankovel_answer a, const char *behind)
{
    printf("%u %zu %u %u%s", a.number, a.place, a.statements, a.cells, behind);
}

static void check_cover(char *from)
{
    size_t n = take_numbers(from);
    for (size_t i = 0; i < n; i++)
        cover[i] = (uint16_t)numbers[i];
    put(krankovel_cover_file(file, length, cover, n), count ? " " : "\n");
    if (count)
        put(krankovel_cover_cells(inputs, outputs, words, count, cover, n), "\n");
}

static void react(char *from)
{
    uint64_t state = strtoull(from, &from, 16), event = strtoull(from, NULL, 16);
    krankovel_reaction r = krankovel_react_file(file, length, state, event);
    printf("%u %zu %u %u %" PRIx64 " %" PRIx64 "\n", r.number, r.place, r.statements, r.cells, r.signals, r.state);
}

static void reorder(char *from)
{
    krankovel_table t;
    take_numbers(from);
    t.cell = (uint16_t)numbers[1];
    for (int p = 0; p < KRANKOVEL_PINS; p++)
        t.pins[p] = (uint16_t)numbers[2 + p];
    t.truth = (uint16_t)numbers[2 + KRANKOVEL_PINS];
    krankovel_reordered r = krankovel_reorder(t, numbers[0]);
    printf("%u %zu %u", r.number, r.place, r.table.cell);
    for (int p = 0; p < KRANKOVEL_PINS; p++)
        printf(" %u", r.table.pins[p]);
    printf(" %u\n", r.table.truth);
}

int main(void)
{
    static char line[LINE];
    while (fgets(line, sizeof line, stdin)) {
        char *rest = line + strcspn(line, " \n");
        if (!strncmp(line, "file ", 5))
            take_file(rest + 1);
        else if (!strncmp(line, "words ", 6))
            take_words(rest);
        else if (!strncmp(line, "cover", 5))
            check_cover(rest);
        else if (!strncmp(line, "react ", 6))
            react(rest);
        else if (!strncmp(line, "order ", 6))
            reorder(rest);
        else
            return 2;
    }
    return 0;
}
