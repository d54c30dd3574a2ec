/* Every order of some tables, against a computation of its own: what a reordered table answers for each value of its cells, and that nothing else is a table's answer.
   Use: tables */
#include "krankovel.h"

#include <inttypes.h>
#include <stdio.h>
#include <string.h>

enum { TABLES = 500, ORDERS = 24, SETTINGS = 1 << KRANKOVEL_PINS };

static unsigned long compared, differing;

static void same(const char *what, krankovel_table t, uint64_t order, int holds)
{
    compared++;
    if (!holds) {
        differing++;
        printf("differs: %s, order %" PRIu64 " of %u:%u:%u:%u:%u:%x\n", what, order, t.cell, t.pins[0], t.pins[1], t.pins[2], t.pins[3], t.truth);
    }
}

static uint64_t drawn(void)
{
    static uint64_t state = 0x9E3779B97F4A7C15ull;
    state ^= state << 13;
    state ^= state >> 7;
    return state ^= state << 17;
}

static int equal(krankovel_table a, krankovel_table b)
{
    return a.cell == b.cell && !memcmp(a.pins, b.pins, sizeof a.pins) && a.truth == b.truth;
}

/* All lists of different pins, in dictionary order, found by counting through all lists. */
static int list_orders(unsigned orders[ORDERS][KRANKOVEL_PINS])
{
    int found = 0;
    for (unsigned digits = 0; digits < 1u << 2 * KRANKOVEL_PINS; digits++) {
        unsigned list[KRANKOVEL_PINS], seen = 0;
        for (int q = 0; q < KRANKOVEL_PINS; q++) {
            list[q] = digits >> 2 * (KRANKOVEL_PINS - 1 - q) & 3;
            seen |= 1u << list[q];
        }
        if (seen == SETTINGS - 1)
            memcpy(orders[found++], list, sizeof list);
    }
    return found;
}

/* What the table answers where the cell at old pin p has bit p of `values`; a cell at two pins takes its value from the first. */
static unsigned answer(krankovel_table t, krankovel_table old, unsigned values)
{
    unsigned bit = 0;
    for (int q = 0; q < KRANKOVEL_PINS; q++)
        for (int p = KRANKOVEL_PINS - 1; p >= 0; p--)
            if (t.pins[q] == old.pins[p])
                bit = (bit & ~(1u << q)) | (values >> p & 1) << q;
    return t.truth >> bit & 1;
}

static void try_order(krankovel_table t, uint64_t o, const unsigned carried[KRANKOVEL_PINS], uint64_t inverse)
{
    krankovel_reordered r = krankovel_reorder(t, o);
    int pins = 1, answers = 1, bits = 1;
    for (int q = 0; q < KRANKOVEL_PINS; q++)
        pins = pins && r.table.pins[q] == t.pins[carried[q]];
    for (unsigned values = 0; values < SETTINGS; values++) {
        unsigned to = 0;
        for (int q = 0; q < KRANKOVEL_PINS; q++)
            to += (values >> carried[q] & 1) << q;
        bits = bits && (r.table.truth >> to & 1) == (t.truth >> values & 1);
        answers = answers && answer(r.table, t, values) == answer(t, t, values);
    }
    same("accepted, with the cell", t, o, r.number == 0 && r.place == 0 && r.table.cell == t.cell);
    same("the pins", t, o, pins);
    same("the truth table's bits", t, o, bits);
    same("the answers", t, o, answers);
    r = krankovel_reorder(r.table, inverse);
    same("undone", t, o, r.number == 0 && equal(r.table, t));
}

int main(void)
{
    static const uint64_t inverses[ORDERS] = {0, 1, 2, 4, 3, 5, 6, 7, 12, 18, 13, 19, 8, 10, 14, 20, 16, 22, 9, 11, 15, 21, 17, 23};
    static const uint64_t refused[] = {24, 25, 31, 32, 255, 256, 279, 65536, 1ull << 32, (1ull << 32) + 23, 1ull << 63, UINT64_MAX};
    unsigned orders[ORDERS][KRANKOVEL_PINS];
    if (list_orders(orders) != ORDERS)
        return 2;
    for (int i = 0; i < TABLES; i++) {
        krankovel_table t = {.cell = (uint16_t)drawn(), .truth = (uint16_t)drawn()};
        for (int p = 0; p < KRANKOVEL_PINS; p++)
            t.pins[p] = (uint16_t)(i % 2 ? drawn() : drawn() % 4);
        if (i < SETTINGS)
            t.truth = (uint16_t)(1u << i);
        for (int o = 0; o < ORDERS; o++)
            try_order(t, (uint64_t)o, orders[o], inverses[o]);
        for (size_t k = 0; k < sizeof refused / sizeof *refused; k++) {
            krankovel_reordered r = krankovel_reorder(t, refused[k]);
            same("refused, and as it was", t, refused[k], r.number == KRANKOVEL_ORDER && r.place == 0 && equal(r.table, t));
        }
    }
    printf("tables: %d tables, %lu answers compared, %lu differ\n", TABLES, compared, differing);
    return differing != 0;
}
