/* Covers of a small netlist, right ones and one for each thing that may be wrong, with what has to be answered; handed in for its file and for its words.
   Use: covers */
#include "krankovel.h"

#include <stdio.h>
#include <string.h>

enum { MOST = 8, SIZE = 2 + KRANKOVEL_PINS, COVER = KRANKOVEL_COVER, LONG = 100000 };

#define WORD(kind, x, y) ((kind) + 8ull * (x) + 524288ull * (y))

struct netlist {
    uint32_t inputs, outputs;
    size_t count;
    uint64_t words[16];
};

/* Inputs 2 and 3, outputs 4 and 5, a register 8; nobody asks for 10. */
static const struct netlist small = {2, 2, 11,
    {0, 1, WORD(2, 1, 0), WORD(2, 2, 0), WORD(3, 6, 7), WORD(4, 4, 8), WORD(4, 2, 3), WORD(5, 8, 2), WORD(6, 9, 0), WORD(3, 6, 0), WORD(5, 1, 9)}};
/* Its output is a register whose operand is a constant: no gate. */
static const struct netlist no_gates = {0, 1, 3, {0, 1, WORD(6, 1, 0)}};
/* A gate for which nobody asks; and one at the output. */
static const struct netlist idle_gate = {0, 0, 3, {0, 1, WORD(3, 0, 1)}};
static const struct netlist one_gate = {0, 1, 3, {0, 1, WORD(3, 0, 1)}};

/* The tables of the small netlist's gates, and of wider cuts. */
#define OR4 {4, {6, 7, 0, 0}, 0xeeee}
#define AND5 {5, {4, 8, 1, 0}, 0x8888}
#define AND6 {6, {2, 3, 2, 3}, 0x8ace} /* only the bits 0, 5, 10 and 15 count */
#define BUTNOT7 {7, {8, 2, 0, 1}, 0x2222}
#define OR9 {9, {6, 0, 1, 1}, 0xeeee}
#define BUTNOT10 {10, {1, 9, 9, 1}, 0x2222}
#define WIDE4 {4, {2, 3, 8, 0}, 0xd8d8}
#define WIDE5 {5, {2, 3, 8, 1}, 0xd0d0}
#define WIDE9 {9, {2, 3, 3, 3}, 0x8888}

struct test {
    const char *what;
    const struct netlist *of;
    size_t length; /* in numbers */
    unsigned number;
    size_t place;
    krankovel_table tables[MOST];
};

static const struct test tests[] = {
    {"one table for each gate that is asked for", &small, 5 * SIZE, 0, 0, {OR4, AND5, AND6, BUTNOT7, OR9}},
    {"one table for every gate", &small, 6 * SIZE, 0, 0, {OR4, AND5, AND6, BUTNOT7, OR9, BUTNOT10}},
    {"in another order", &small, 6 * SIZE, 0, 0, {BUTNOT10, OR9, BUTNOT7, AND6, AND5, OR4}},
    {"packed", &small, 3 * SIZE, 0, 0, {WIDE4, WIDE5, WIDE9}},
    {"packed, one table at another's", &small, 3 * SIZE, 0, 0, {WIDE9, AND5, WIDE4}},
    {"a constant needs no pin", &small, 4 * SIZE, 0, 0, {WIDE4, WIDE5, AND6, {9, {6, 6, 6, 6}, 0x8000}}},
    {"no table is asked for", &no_gates, 0, 0, 0, {{0}}},
    {"no table for a gate that nobody asks for", &idle_gate, 0, 0, 0, {{0}}},
    {"constants alone", &one_gate, SIZE, 0, 0, {{2, {0, 1, 0, 1}, 0xfffe}}},
    {"constants alone, and none of them heard", &one_gate, SIZE, 0, 0, {{2, {1, 1, 1, 1}, 0x8000}}},

    {"no table at all", &small, 0, COVER, 0, {{0}}},
    {"no table for an output", &one_gate, 0, COVER, 0, {{0}}},
    {"an output lacks one", &small, 2 * SIZE, COVER, 2, {WIDE4, WIDE9}},
    {"a register's operand lacks one", &small, 2 * SIZE, COVER, 2, {WIDE4, WIDE5}},
    {"a pin lacks one", &small, 4 * SIZE, COVER, 0, {OR4, WIDE5, BUTNOT7, WIDE9}},
    {"a pin lacks one, in a later table", &small, 3 * SIZE, COVER, 2, {WIDE4, WIDE5, OR9}},
    {"low has a table", &small, 4 * SIZE, COVER, 3, {WIDE4, WIDE5, WIDE9, {0, {1, 1, 1, 1}, 0}}},
    {"high has a table", &small, 4 * SIZE, COVER, 0, {{1, {0, 0, 0, 0}, 0xffff}, WIDE4, WIDE5, WIDE9}},
    {"an input has a table", &small, 4 * SIZE, COVER, 1, {WIDE4, {2, {2, 2, 2, 2}, 0xaaaa}, WIDE5, WIDE9}},
    {"a register has a table", &small, 4 * SIZE, COVER, 2, {WIDE4, WIDE9, {8, {9, 9, 9, 9}, 0xaaaa}, WIDE5}},
    {"a table where there is no gate", &no_gates, SIZE, COVER, 0, {{2, {1, 1, 1, 1}, 0xaaaa}}},
    {"a table's cell is none, by one", &small, 4 * SIZE, COVER, 3, {WIDE4, WIDE5, WIDE9, {11, {2, 3, 8, 0}, 0xd8d8}}},
    {"a table's cell is none, by far", &small, 4 * SIZE, COVER, 0, {{65535, {2, 3, 8, 0}, 0xd8d8}, WIDE4, WIDE5, WIDE9}},
    {"a pin is no cell, by one", &small, 3 * SIZE, COVER, 1, {WIDE4, {5, {2, 3, 8, 11}, 0xd0d0}, WIDE9}},
    {"a pin is no cell, by far", &small, 3 * SIZE, COVER, 1, {WIDE4, {5, {65535, 4, 8, 0}, 0xc0c0}, WIDE9}},
    {"a pin is its own cell", &small, 3 * SIZE, COVER, 0, {{4, {4, 0, 0, 0}, 0xaaaa}, WIDE5, WIDE9}},
    {"a pin is its own cell, among others", &small, 3 * SIZE, COVER, 0, {{4, {2, 3, 8, 4}, 0xd8d8}, WIDE5, WIDE9}},
    {"pins in a ring", &small, 3 * SIZE, COVER, 0, {{4, {5, 0, 0, 0}, 0xaaaa}, {5, {4, 0, 0, 0}, 0xaaaa}, WIDE9}},
    {"a ring, and a right table before it", &small, 3 * SIZE, COVER, 1, {AND5, {4, {5, 7, 6, 5}, 0xfcfc}, WIDE9}},
    {"a pin that is not met", &small, 3 * SIZE, COVER, 2, {WIDE4, WIDE5, {9, {2, 3, 8, 8}, 0x8888}}},
    {"a pin that is met below another pin alone", &small, 4 * SIZE, COVER, 1, {WIDE4, {5, {4, 8, 6, 6}, 0x8888}, AND6, WIDE9}},
    {"an input that is no pin", &small, 3 * SIZE, COVER, 2, {WIDE4, WIDE5, {9, {2, 2, 2, 2}, 0xaaaa}}},
    {"an input that is no pin, as if low", &small, 3 * SIZE, COVER, 2, {WIDE4, WIDE5, {9, {2, 2, 2, 2}, 0}}},
    {"a register that is no pin", &small, 3 * SIZE, COVER, 0, {{4, {2, 3, 0, 0}, 0x8888}, WIDE5, WIDE9}},
    {"low at a pin is free", &small, 4 * SIZE, COVER, 3, {WIDE4, WIDE5, AND6, {9, {6, 0, 0, 0}, 0xaaaa}}},
    {"low at a pin of a wider cut", &small, 3 * SIZE, COVER, 2, {WIDE4, WIDE5, {9, {2, 3, 0, 0}, 0x8888}}},
    {"a bit of a truth table", &small, 3 * SIZE, COVER, 1, {WIDE4, {5, {2, 3, 8, 1}, 0xd0d1}, WIDE9}},
    {"the last bit of a truth table", &small, 3 * SIZE, COVER, 0, {{4, {2, 3, 8, 0}, 0x58d8}, WIDE5, WIDE9}},
    {"a bit that counts where a net is given twice", &small, 5 * SIZE, COVER, 2, {OR4, AND5, {6, {2, 3, 2, 3}, 0x8aee}, BUTNOT7, OR9}},
    {"pins exchanged, the truth table left", &small, 5 * SIZE, COVER, 3, {OR4, AND5, AND6, {7, {2, 8, 0, 1}, 0x2222}, OR9}},
    {"a table twice", &small, 4 * SIZE, COVER, 3, {WIDE4, WIDE5, WIDE9, WIDE4}},
    {"two tables, the wider one first", &small, 6 * SIZE, COVER, 5, {WIDE4, AND5, AND6, BUTNOT7, OR9, OR4}},
    {"two tables, the wider one last", &small, 6 * SIZE, COVER, 1, {OR4, WIDE4, AND5, AND6, BUTNOT7, OR9}},
    {"two tables, the first wrong", &small, 4 * SIZE, COVER, 0, {{4, {2, 3, 8, 0}, 0xd8d9}, WIDE4, WIDE5, WIDE9}},
    {"two tables, the later wrong", &small, 4 * SIZE, COVER, 3, {WIDE4, WIDE5, WIDE9, {4, {2, 3, 8, 0}, 0xd8d9}}},
    {"two wrong tables", &small, 3 * SIZE, COVER, 1, {WIDE4, {5, {2, 3, 8, 1}, 0}, {9, {2, 3, 3, 3}, 0}}},
    {"a wrong table, and no other", &small, SIZE, COVER, 0, {{9, {2, 3, 3, 3}, 0}}},
    {"another netlist's", &one_gate, 3 * SIZE, COVER, 0, {WIDE4, WIDE5, WIDE9}},
    {"another netlist's, which is empty", &small, SIZE, COVER, 0, {{2, {0, 1, 0, 1}, 0xfffe}}},

    {"one number", &small, 1, COVER, 0, {WIDE4, WIDE5, WIDE9}},
    {"five numbers", &small, SIZE - 1, COVER, 0, {WIDE4, WIDE5, WIDE9}},
    {"an incomplete table behind all others", &small, 3 * SIZE + 1, COVER, 3, {WIDE4, WIDE5, WIDE9, WIDE9}},
    {"the last one incomplete", &small, 3 * SIZE - 1, COVER, 2, {WIDE4, WIDE5, WIDE9}},
    {"a pin whose table is incomplete", &small, 5 * SIZE - 1, COVER, 0, {OR4, AND5, BUTNOT7, OR9, AND6}},
    {"a wrong table before an incomplete one", &small, 3 * SIZE + 5, COVER, 1, {WIDE4, {5, {2, 3, 8, 1}, 0}, WIDE9, WIDE9}},
    {"one number where there is no gate", &no_gates, 1, COVER, 0, {{0}}},
};

static unsigned long compared, differing;

static void same(const char *what, krankovel_answer a, unsigned number, size_t place, size_t cells)
{
    compared++;
    if (a.number != number || a.place != place || a.statements != 0 || a.cells != (number ? 0 : cells)) {
        differing++;
        printf("differs: %s, %u %zu and not %u %zu\n", what, a.number, a.place, number, place);
    }
}

static void try(const struct test *t)
{
    static uint8_t file[256];
    uint16_t cover[MOST * SIZE];
    const struct netlist *w = t->of;
    memcpy(cover, t->tables, sizeof cover);
    size_t length = krankovel_write_cells(w->inputs, w->outputs, w->words, w->count, file, 0).place;
    if (krankovel_write_cells(w->inputs, w->outputs, w->words, w->count, file, sizeof file).number)
        differing++;
    same(t->what, krankovel_cover_file(file, length, cover, t->length), t->number, t->place, w->count);
    same(t->what, krankovel_cover_cells(w->inputs, w->outputs, w->words, w->count, cover, t->length), t->number, t->place, w->count);
}

/* The netlist's own refusals come before those of its cover. */
static void try_own(void)
{
    static const uint8_t extra[] = {0, 0, 2, 0, 1, 9}, cycle[] = {0, 0, 3, 0, 1, 3, 2, 0};
    static const uint64_t ring[] = {0, 1, WORD(3, 2, 0)}, kind[] = {0, 1, 7};
    uint16_t wrong[SIZE] = {65535};
    same("no file", krankovel_cover_file(extra, 0, wrong, SIZE), KRANKOVEL_SHORT, 0, 0);
    same("a file that goes on", krankovel_cover_file(extra, sizeof extra, wrong, SIZE), KRANKOVEL_EXTRA, 5, 0);
    same("a file with a cycle", krankovel_cover_file(cycle, sizeof cycle, wrong, SIZE), KRANKOVEL_CYCLE, 2, 0);
    same("words with a cycle", krankovel_cover_cells(0, 0, ring, 3, wrong, SIZE), KRANKOVEL_CYCLE, 2, 0);
    same("a word's kind", krankovel_cover_cells(0, 0, kind, 3, wrong, SIZE), KRANKOVEL_KIND, 0, 0);
    same("too few words", krankovel_cover_cells(1, 1, kind, 3, wrong, 1), KRANKOVEL_CELL, 0, 0);
    same("no words", krankovel_cover_cells(0, 0, kind, 0, wrong, 0), KRANKOVEL_CELL, 0, 0);
    same("too many signals", krankovel_cover_cells(UINT32_MAX, 1, ring, 3, wrong, SIZE), KRANKOVEL_COUNT, 0, 0);
}

/* Of no numbers none is looked at, whatever the pointer; of many tables no more than the first wrong one matters. */
static void try_lengths(void)
{
    static krankovel_table many[LONG];
    static const krankovel_table right[] = {WIDE4, WIDE5, WIDE9};
    const uint16_t *nowhere = (const uint16_t *)2;
    const struct netlist *w = &no_gates;
    same("no numbers, at a pointer to nothing", krankovel_cover_cells(w->inputs, w->outputs, w->words, w->count, nowhere, 0), 0, 0, w->count);
    w = &small;
    same("the same where tables are asked for", krankovel_cover_cells(w->inputs, w->outputs, w->words, w->count, nowhere, 0), COVER, 0, w->count);
    for (int i = 0; i < LONG; i++)
        many[i] = right[i % 3];
    same("many tables", krankovel_cover_cells(w->inputs, w->outputs, w->words, w->count, (const uint16_t *)many, LONG * SIZE), COVER, 3, w->count);
}

int main(void)
{
    for (size_t i = 0; i < sizeof tests / sizeof *tests; i++)
        try(&tests[i]);
    try_own();
    try_lengths();
    printf("covers: %zu covers, %lu answers compared, %lu differ\n", sizeof tests / sizeof *tests, compared, differing);
    return differing != 0;
}
