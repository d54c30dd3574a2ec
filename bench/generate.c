/* Makes the inputs of the bench, the same at every run.
   Use: generate sheet N SHEET FILE    an accepted sheet of N statements, and its netlist file
        generate netlist N FILE        a netlist file of N cells, 64 of them registers
        generate registers FILE        a netlist file of 63 inputs and 64 registers, and no gate
        generate chain N FILE COVER    a netlist file of N cells, an input and ors of the cell before, and a cover of it in which each table goes down to the input
        generate each FILE COVER       a cover of the netlist file: a table for every gate
        generate packed FILE COVER     the same: cones of up to four leaves, for outputs, registers' operands, and leaves that are gates
   A sheet grows out of loops side by side, each over two waits (`06i01`, a halt guarded by an input): some wait is replaced by a small piece with waits of its own, and
   what the check refuses, or is too large, is taken back. So every part is reached again and again. */
#include "krankovel.h"

#include <stdio.h>
#include <stdlib.h>
#include <string.h>

enum { INPUTS = 7, OUTPUTS = 8, FIRST = 2 + INPUTS + OUTPUTS, REGISTERS = 64, SHEET = 1024, FILE_MOST = 8192, CELLS = 1024, TRIES = 100000 };

static uint64_t seed = 20261115;

static unsigned below(unsigned n)
{
    seed = seed * 6364136223846793005ull + 1442695040888963407ull;
    return (unsigned)((seed >> 33) % n);
}

static int save(const char *name, const uint8_t *bytes, size_t length)
{
    FILE *f = fopen(name, "wb");
    return !f || fwrite(bytes, 1, length, f) != length || fclose(f) != 0;
}

struct sheet {
    uint8_t at[SHEET];
    size_t length;
};

/* The pieces: bytes of a sheet, in which W stands for a wait, s for any signal, i for an input, o for a signal that may be emitted, k for the level of an exit. */
static const char *const pieces[] = {
    "03 W 02o", "03 W 02o", "03 W W", "03 02o W",            /* one after another */
    "06i 04 03 W W", "06i 04 03 W 03 02o W", "06i 03 W 02o", /* guarded, over and over */
    "07 W W", "07 W W", "07 W W", "07 03 W 02o W",           /* side by side */
    "08 W", "08 07 W 03 W 09k", "08 07 04 03 W W 03 W 09k",  /* traps */
    "0A W", "0A 07 03 W 02o W", "0A 07 W 03 W 05s 02o 00",   /* locals */
    "05s W W", "03 W 05s 02o 00", "03 W 05i W 00",           /* tests */
};

static size_t make_piece(const char *p, uint8_t *to)
{
    size_t n = 0;
    for (; *p; p++) {
        unsigned byte = 0;
        switch (*p) {
        case ' ':
            continue;
        case 'W':
            n += make_piece("06i01", to + n);
            continue;
        case 'i':
            byte = 1 + below(INPUTS);
            break;
        case 's':
            byte = 1 + below(below(2) ? INPUTS : 40);
            break;
        case 'o':
            byte = 1 + INPUTS + below(below(2) ? OUTPUTS : 40);
            break;
        case 'k':
            byte = 2 + below(2);
            break;
        default:
            sscanf(p++, "%2x", &byte);
        }
        to[n++] = (uint8_t)byte;
    }
    return n;
}

static int has_operand(uint8_t kind)
{
    return kind == 2 || kind == 5 || kind == 6 || kind == 9;
}

/* The sheet with some wait replaced. */
static struct sheet grown(const struct sheet *s)
{
    size_t waits[SHEET], count = 0;
    struct sheet t;
    for (size_t at = 2; at < s->length; at += has_operand(s->at[at]) ? 2 : 1)
        if (s->at[at] == 6 && s->at[at + 2] == 1)
            waits[count++] = at;
    size_t at = waits[below((unsigned)count)], past = at + 3;
    memcpy(t.at, s->at, at);
    size_t size = make_piece(pieces[below(sizeof pieces / sizeof *pieces)], t.at + at);
    memcpy(t.at + at + size, s->at + past, s->length - past);
    t.length = s->length + at + size - past;
    return t;
}

static int make_sheet(unsigned statements, const char *sheet, const char *file)
{
    static uint8_t bytes[FILE_MOST];
    struct sheet s = {{INPUTS, OUTPUTS}, 2};
    for (unsigned i = 1 + statements / 32; i > 0; i--)
        s.length += make_piece(i == 1 ? "04 03 W W" : "07 04 03 W W", s.at + s.length);
    for (long i = 0; i < TRIES && krankovel_check(s.at, s.length).statements != statements; i++) {
        struct sheet t = grown(&s);
        krankovel_answer a = krankovel_check(t.at, t.length);
        if (a.number == 0 && a.statements <= statements)
            s = t;
    }
    krankovel_answer a = krankovel_compile(s.at, s.length, bytes, sizeof bytes);
    size_t length = krankovel_compile(s.at, s.length, bytes, 0).place;
    return a.statements != statements || save(sheet, s.at, s.length) || save(file, bytes, length);
}

/* An operand of cell n: an input, a register or a gate before it, the last ones likeliest. Outputs are for the world alone, so there is no cycle. */
static uint64_t operand(unsigned n)
{
    if (below(8) == 0)
        return 2 + below(INPUTS);
    return n - 1 - below(below(4) ? REGISTERS : n - FIRST);
}

static int make_netlist(unsigned cells, const char *file)
{
    static uint8_t bytes[FILE_MOST];
    static uint64_t words[CELLS] = {0, 1};
    if (cells > CELLS || cells < FIRST + REGISTERS)
        return 1;
    for (uint64_t s = 1; s <= INPUTS; s++)
        words[1 + s] = 2 + 8 * s;
    for (unsigned n = 2 + INPUTS; n < FIRST; n++)
        words[n] = 3 + 8 * (uint64_t)(FIRST + below(cells - FIRST));
    for (unsigned n = FIRST; n < cells; n++)
        if (n < FIRST + REGISTERS)
            words[n] = 6 + 8 * (uint64_t)below(cells);
        else
            words[n] = 3 + below(3) + 8 * operand(n) + 524288 * operand(n);
    krankovel_answer a = krankovel_write_cells(INPUTS, OUTPUTS, words, cells, bytes, sizeof bytes);
    size_t length = krankovel_write_cells(INPUTS, OUTPUTS, words, cells, bytes, 0).place;
    return a.number || save(file, bytes, length);
}

static int make_registers(const char *file)
{
    enum { MOST_INPUTS = 63, ALL = 2 + MOST_INPUTS + REGISTERS };
    static uint8_t bytes[FILE_MOST];
    static uint64_t words[ALL] = {0, 1};
    for (uint64_t n = 2; n < ALL; n++)
        words[n] = n < 2 + MOST_INPUTS ? 2 + 8 * (n - 1) : 6 + 8 * (n - 1);
    krankovel_answer a = krankovel_write_cells(MOST_INPUTS, 0, words, ALL, bytes, sizeof bytes);
    size_t length = krankovel_write_cells(MOST_INPUTS, 0, words, ALL, bytes, 0).place;
    return a.number || save(file, bytes, length);
}

/* ---- covers ---- */

static struct cell {
    unsigned kind, x, y;
} cells[CELLS];
static uint16_t word[CELLS];
static unsigned met[CELLS], round_of; /* the cells whose words are those of this round */
static krankovel_table cover[CELLS];
static size_t tables;

static int is_gate(unsigned n)
{
    return cells[n].kind >= 3 && cells[n].kind <= 5;
}

/* The value of a cell at all settings of the pins, whose words are there. */
static uint16_t value(unsigned n)
{
    if (met[n] != round_of) {
        uint16_t x = n > 1 ? value(cells[n].x) : 0, y = n > 1 ? value(cells[n].y) : 0;
        word[n] = n < 2 ? (uint16_t)-n : cells[n].kind == 3 ? x | y : cells[n].kind == 4 ? x & y : (uint16_t)(x & ~y);
        met[n] = round_of;
    }
    return word[n];
}

/* A table for cell n with these leaves; the pins that are left over are at the first leaf again, or at low. */
static void put_table(unsigned n, const uint16_t *leaves, unsigned count)
{
    static const uint16_t words[KRANKOVEL_PINS] = {0xaaaa, 0xcccc, 0xf0f0, 0xff00};
    krankovel_table *t = &cover[tables++];
    round_of++;
    t->cell = (uint16_t)n;
    for (unsigned p = 0; p < KRANKOVEL_PINS; p++)
        t->pins[p] = p < count ? leaves[p] : count ? leaves[0] : 0;
    for (unsigned p = KRANKOVEL_PINS; p-- > 0;) {
        word[t->pins[p]] = words[p];
        met[t->pins[p]] = round_of;
    }
    t->truth = value(n);
}

/* Puts the operands of a cell among the leaves. A cell that is inside stays there, and a constant needs no pin. */
static unsigned add_leaves(unsigned n, uint16_t *leaves, unsigned count, const uint8_t *inside)
{
    const unsigned operands[] = {cells[n].x, cells[n].y};
    for (int i = 0; i < 2; i++) {
        unsigned k = 0;
        while (k < count && leaves[k] != operands[i])
            k++;
        if (k == count && operands[i] > 1 && !inside[operands[i]])
            leaves[count++] = (uint16_t)operands[i];
    }
    return count;
}

/* A cone over cell n, as wide as may be. */
static void put_cone(unsigned n)
{
    uint8_t inside[CELLS] = {0};
    uint16_t leaves[KRANKOVEL_PINS], wider[KRANKOVEL_PINS + 1];
    unsigned count = add_leaves(n, leaves, 0, inside);
    inside[n] = 1;
    for (unsigned i = 0; i < count; i++) {
        if (!is_gate(leaves[i]))
            continue;
        inside[leaves[i]] = 1;
        memcpy(wider, leaves, sizeof leaves);
        wider[i] = leaves[count - 1];
        unsigned more = add_leaves(leaves[i], wider, count - 1, inside);
        inside[leaves[i]] = more <= KRANKOVEL_PINS;
        if (more <= KRANKOVEL_PINS) {
            memcpy(leaves, wider, sizeof leaves);
            count = more;
            i = (unsigned)-1;
        }
    }
    put_table(n, leaves, count);
}

/* Only the settings count in which all four pins are alike. */
static int make_chain(unsigned count, const char *file, const char *to)
{
    static uint8_t bytes[FILE_MOST];
    static uint64_t words[CELLS] = {0, 1, 2 + 8};
    if (count > CELLS)
        return 1;
    for (unsigned n = 3; n < count; n++) {
        words[n] = 3 + 8 * (uint64_t)(n - 1) + 524288 * (uint64_t)(n - 1);
        cover[tables++] = (krankovel_table){(uint16_t)n, {2, 2, 2, 2}, 0x8000};
    }
    krankovel_answer a = krankovel_write_cells(1, 0, words, count, bytes, sizeof bytes);
    size_t length = krankovel_write_cells(1, 0, words, count, bytes, 0).place;
    return a.number || save(file, bytes, length) || save(to, (const uint8_t *)cover, tables * sizeof *cover);
}

static int make_cover(int packed, const char *file, const char *to)
{
    static uint8_t bytes[FILE_MOST], asked[CELLS];
    static uint64_t words[CELLS];
    FILE *in = fopen(file, "rb");
    size_t length = in ? fread(bytes, 1, sizeof bytes, in) : 0;
    krankovel_listing l = krankovel_read_file(bytes, length, words, CELLS);
    for (unsigned n = 0; n < l.cells; n++)
        cells[n] = (struct cell){words[n] & 7, words[n] >> 3 & 65535, words[n] >> 19 & 65535};
    for (unsigned n = 2 + l.inputs; n < l.cells; n++)
        if (cells[n].kind == 6)
            asked[cells[n].x] = 1;
        else if (!packed || n < 2u + l.inputs + l.outputs)
            asked[n] = 1;
    size_t before;
    do { /* a leaf may be any cell, so that all are looked through until no table is new */
        before = tables;
        for (unsigned n = 0; n < l.cells; n++)
            if (asked[n] == 1 && is_gate(n)) {
                asked[n] = 2;
                if (packed)
                    put_cone(n);
                else
                    put_table(n, (uint16_t[]){(uint16_t)cells[n].x, (uint16_t)cells[n].y}, 2);
                for (const uint16_t *x = cover[tables - 1].pins; x < cover[tables - 1].pins + KRANKOVEL_PINS; x++)
                    if (!asked[*x])
                        asked[*x] = 1;
            }
    } while (tables > before);
    size_t numbers = tables * sizeof *cover / sizeof(uint16_t);
    return krankovel_cover_file(bytes, length, (const uint16_t *)cover, numbers).number || save(to, (const uint8_t *)cover, tables * sizeof *cover);
}

int main(int argc, char **argv)
{
    if (argc == 3 && !strcmp(argv[1], "registers"))
        return make_registers(argv[2]);
    if (argc == 5 && !strcmp(argv[1], "chain"))
        return make_chain((unsigned)atoi(argv[2]), argv[3], argv[4]);
    if (argc == 5 && !strcmp(argv[1], "sheet"))
        return make_sheet((unsigned)atoi(argv[2]), argv[3], argv[4]);
    if (argc == 4 && (!strcmp(argv[1], "each") || !strcmp(argv[1], "packed")))
        return make_cover(!strcmp(argv[1], "packed"), argv[2], argv[3]);
    if (argc == 4 && !strcmp(argv[1], "netlist"))
        return make_netlist((unsigned)atoi(argv[2]), argv[3]);
    return 2;
}
