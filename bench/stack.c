/* The deepest stack of each public entry. Each call is made on a stack of its own that was painted before; how far the paint is gone afterwards is what the call used.
   Use: stack QUESTIONS    (crates/answers/stdin)
   The inputs are the sheets and files of the stored questions, and those made here: statements nested 64 levels deep, of every kind and to either side, sheets of 256 statements,
   netlists of 1,024 cells in one chain, and the same closed to a cycle; the covers are made here. Exits 1 where an entry needs 64 KB or more. */
#include "krankovel.h"

#include <stdio.h>
#include <stdlib.h>
#include <string.h>
#include <ucontext.h>

enum { STACK = 1 << 17, LIMIT = 1 << 16, LINE = 1 << 17, CELLS = 1024, FILE_MOST = 8192, EVENTS = 16 };

/* What the entries are called with. */
static uint8_t bytes[LINE], buffer[FILE_MOST];
static size_t length, cells;
static uint32_t inputs, outputs;
static krankovel_table cover[CELLS], bare; /* a table for each gate; one without pins, whose way goes down through all cells below the first gate */
static size_t numbers;
static uint64_t words[CELLS], handed[CELLS], events[EVENTS], signals[EVENTS], states[EVENTS];
static unsigned sink;

static void nothing(void) { sink += 1; }
static void read(void) { sink += krankovel_read(bytes, length).number; }
static void check(void) { sink += krankovel_check(bytes, length).number; }
static void compile(void) { sink += krankovel_compile(bytes, length, buffer, sizeof buffer).number; }
static void compile_cells(void) { sink += krankovel_compile_cells(bytes, length, handed, CELLS).number; }
static void fits(void) { sink += krankovel_fits(bytes, length, ~0ull).number + krankovel_fits(bytes, length, 3).number; }
static void rest(void) { sink += krankovel_rest(3); }
static void react(void) { sink += krankovel_react(bytes, length, 0, 0).number + krankovel_react(bytes, length, 3, 0).number; }
static void react_many(void) { sink += krankovel_react_many(bytes, length, 0, events, EVENTS, signals, EVENTS, states, EVENTS).number; }
static void check_file(void) { sink += krankovel_check_file(bytes, length).number; }
static void read_file(void) { sink += krankovel_read_file(bytes, length, handed, CELLS).number; }
static void react_file(void) { sink += krankovel_react_file(bytes, length, 0, 0).number; }
static void react_file_many(void) { sink += krankovel_react_file_many(bytes, length, 0, events, EVENTS, signals, EVENTS, states, EVENTS).number; }
static void check_cells(void) { sink += krankovel_check_cells(inputs, outputs, words, cells).number; }
static void write_cells(void) { sink += krankovel_write_cells(inputs, outputs, words, cells, buffer, sizeof buffer).number; }
static void react_cells(void) { sink += krankovel_react_cells(inputs, outputs, words, cells, 0, 0).number; }
static void react_cells_many(void)
{
    sink += krankovel_react_cells_many(inputs, outputs, words, cells, 0, events, EVENTS, signals, EVENTS, states, EVENTS).number;
}

static void reorder(void) { sink += krankovel_reorder((krankovel_table){1, {2, 3, 4, 5}, (uint16_t)length}, length % 25).number; }

static void cover_file(void)
{
    sink += krankovel_cover_file(bytes, length, (const uint16_t *)cover, numbers).number;
    sink += krankovel_cover_file(bytes, length, (const uint16_t *)&bare, sizeof bare / sizeof(uint16_t)).number;
}

static void cover_cells(void)
{
    sink += krankovel_cover_cells(inputs, outputs, words, cells, (const uint16_t *)cover, numbers).number;
    sink += krankovel_cover_cells(inputs, outputs, words, cells, (const uint16_t *)&bare, sizeof bare / sizeof(uint16_t)).number;
}

static struct {
    const char *name;
    void (*call)(void);
    size_t deepest;
    const char *on;
} entries[] = {
    {"read", read, 0, ""}, {"check", check, 0, ""}, {"compile", compile, 0, ""}, {"compile_cells", compile_cells, 0, ""}, {"fits", fits, 0, ""},
    {"rest", rest, 0, ""}, {"react", react, 0, ""}, {"react_many", react_many, 0, ""}, {"check_file", check_file, 0, ""}, {"read_file", read_file, 0, ""},
    {"react_file", react_file, 0, ""}, {"react_file_many", react_file_many, 0, ""}, {"check_cells", check_cells, 0, ""}, {"write_cells", write_cells, 0, ""},
    {"react_cells", react_cells, 0, ""}, {"react_cells_many", react_cells_many, 0, ""}, {"reorder", reorder, 0, ""},
    {"cover_file", cover_file, 0, ""}, {"cover_cells", cover_cells, 0, ""},
};
enum { ENTRIES = sizeof entries / sizeof *entries };

static const uint64_t paint = 0xA5A5A5A5A5A5A5A5;
static uint64_t stack[STACK / 8] __attribute__((aligned(16)));
static size_t clean = 0; /* how many words, from the low end, still have their paint */

static size_t depth(void (*call)(void))
{
    static ucontext_t here, there;
    while (clean < STACK / 8)
        stack[clean++] = paint;
    getcontext(&there);
    there.uc_stack.ss_sp = stack;
    there.uc_stack.ss_size = STACK;
    there.uc_link = &here;
    makecontext(&there, call, 0);
    swapcontext(&here, &there);
    for (clean = 0; clean < STACK / 8 && stack[clean] == paint;)
        clean++;
    return STACK - 8 * clean;
}

static size_t own; /* what a call of nothing uses */

/* The covers of the words. */
static void take_covers(void)
{
    static const uint16_t truth[] = {0xeeee, 0x8888, 0x2222};
    size_t n = 0;
    for (size_t i = 0; i < cells; i++) {
        uint64_t kind = words[i] & 7;
        uint16_t x = (uint16_t)(words[i] >> 3), y = (uint16_t)(words[i] >> 19);
        if (kind >= 3 && kind <= 5)
            cover[n++] = (krankovel_table){(uint16_t)i, {x, y, x, y}, truth[kind - 3]};
    }
    numbers = n * sizeof *cover / sizeof(uint16_t);
    bare = (krankovel_table){cover[0].cell, {0, 1, 0, 1}, 0};
}

static void measure(const char *on)
{
    take_covers();
    for (int i = 0; i < ENTRIES; i++) {
        size_t d = depth(entries[i].call) - own;
        if (d > entries[i].deepest) {
            entries[i].deepest = d;
            entries[i].on = on;
        }
    }
}

/* As a netlist file, and its cells as words where it is accepted. */
static void take_file(void)
{
    krankovel_listing l = krankovel_read_file(bytes, length, words, CELLS);
    if (l.number == 0) {
        inputs = l.inputs;
        outputs = l.outputs;
        cells = l.cells;
    }
}

static void put(unsigned v)
{
    bytes[length++] = (uint8_t)(v < 128 ? v : 128 + v % 128);
    if (v >= 128)
        bytes[length++] = (uint8_t)(v / 128);
}

/* 63 statements of a kind, one in another, with halts at the ends; the further parts stand behind, or before where `right`. */
static void nest(unsigned kind, int right)
{
    int two = kind == 3 || kind == 5 || kind == 7, operand = kind == 5 || kind == 6;
    int most = kind == 8 ? 8 : kind == 10 ? 60 : 63;
    length = 0;
    put(1);
    put(1);
    for (int i = 0; i < most; i++) {
        put(kind);
        if (operand)
            put(1);
        if (two && right)
            put(i % 2);
    }
    for (int i = most; i < 63; i++) /* what is left of the levels */
        put(4);
    put(1);
    for (int i = 0; two && !right && i < most; i++)
        put(i % 2);
}

/* A parallel of as many parallels as there may be statements. */
static void wide(void)
{
    length = 0;
    put(1);
    put(1);
    for (int i = 0; i < 6; i++)
        put(7);
    for (int i = 0; i < 6; i++) {
        for (int j = 0; j < 20; j++)
            put(3);
        for (int j = 0; j < 21; j++)
            put(j == 0);
    }
    put(1);
}

/* 1,024 cells, each an or of the next and itself's neighbour; the last one closes the cycle or not. */
static void chain(int closed)
{
    length = 0;
    inputs = outputs = 0;
    cells = CELLS;
    put(0);
    put(0);
    put(CELLS);
    for (unsigned n = 0; n < CELLS; n++) {
        unsigned next = n + 1 < CELLS ? n + 1 : closed ? 2 : 1;
        put(n < 2 ? n : 3);
        words[n] = n < 2 ? n : 3 + 8ull * next + 524288ull * next;
        if (n >= 2) {
            put(next);
            put(next);
        }
    }
}

static void stored(const char *name)
{
    static char line[LINE], last[LINE];
    FILE *in = fopen(name, "r");
    if (!in)
        exit(2);
    while (fgets(line, sizeof line, in)) {
        char *kind = strtok(line, " \n"), *hex = strtok(NULL, " \n");
        unsigned byte;
        if (!kind || !hex || !strcmp(hex, last))
            continue;
        strcpy(last, hex);
        length = 0;
        while (sscanf(hex + 2 * length, "%2x", &byte) == 1)
            bytes[length++] = (uint8_t)byte;
        take_file();
        measure("a stored question");
    }
    fclose(in);
}

int main(int argc, char **argv)
{
    static const char *const names[] = {"", "", "", "63 sequences", "63 loops", "63 presents", "63 watchings", "63 parallels", "8 traps, 55 loops", "", "60 signals, 3 loops"};
    int failed = 0;
    if (argc != 2)
        return 2;
    own = depth(nothing);
    for (unsigned kind = 3; kind <= 10; kind++)
        for (int right = 0; right < 2 && kind != 9; right++) {
            nest(kind, right);
            measure(names[kind]);
        }
    wide();
    measure("many statements");
    chain(0);
    measure("a chain of 1,024 cells");
    chain(1);
    measure("a cycle of 1,022 cells");
    stored(argv[1]);
    printf("| entry | bytes of stack | on |\n|---|---|---|\n");
    for (int i = 0; i < ENTRIES; i++) {
        printf("| %s | %zu | %s |\n", entries[i].name, entries[i].deepest, entries[i].on);
        failed |= entries[i].deepest >= LIMIT;
    }
    return failed;
}
