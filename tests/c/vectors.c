/* Puts the stored questions to the C library and compares its answers with the stored ones.
   Use: vectors QUESTIONS ANSWERS    (crates/answers/stdin and stdout)
   A question is a line, as crates/answers takes them. Lines that are no question, whose stored answer is `bad line`, are passed over. */
#include "krankovel.h"

#include <inttypes.h>
#include <stdio.h>
#include <stdlib.h>
#include <string.h>

enum { LINE = 1 << 17, MOST = 8192, WORDS = 4 };

static char *line(FILE *f, char *to)
{
    if (!fgets(to, LINE, f))
        return NULL;
    to[strcspn(to, "\n")] = 0;
    return to;
}

/* The bytes that a word says in hex; `-` says none. */
static size_t bytes(const char *hex, uint8_t *to)
{
    size_t n = 0;
    unsigned byte;
    while (hex[0] != '-' && sscanf(hex + 2 * n, "%2x", &byte) == 1)
        to[n++] = (uint8_t)byte;
    return n;
}

static uint64_t word(const char *hex)
{
    return strtoull(hex, NULL, 16);
}

static void print_reaction(char *to, krankovel_reaction r)
{
    sprintf(to, "%u %zu %u %u %" PRIx64 " %" PRIx64, r.number, r.place, r.statements, r.cells, r.signals, r.state);
}

static void print_answer(char *to, krankovel_answer a)
{
    sprintf(to, "%u %zu %u %u", a.number, a.place, a.statements, a.cells);
}

/* The answer with the file, and whether what lies behind it was left alone. */
static int print_file(char *to, const uint8_t *sheet, size_t n, const char *room)
{
    static uint8_t buffer[MOST];
    unsigned long long asked = strtoull(room, NULL, 10);
    size_t lent = asked < MOST ? (size_t)asked : MOST, length = 0, i;
    memset(buffer, 0xA5, sizeof buffer);
    krankovel_answer a = krankovel_compile(sheet, n, buffer, lent);
    print_answer(to, a);
    to += strlen(to);
    if (a.number == 0)
        length = krankovel_compile(sheet, n, buffer + MOST, 0).place;
    *to++ = ' ';
    for (i = 0; i < length; i++)
        to += sprintf(to, "%02x", buffer[i]);
    if (a.number != 0)
        strcpy(to, "-");
    while (i < MOST && buffer[i] == 0xA5)
        i++;
    return i == MOST;
}

/* The table that a word begins with, and behind it. */
static const char *take_table(const char *from, krankovel_table *t)
{
    int size = 0;
    sscanf(from, "%" SCNu16 ":%" SCNu16 ":%" SCNu16 ":%" SCNu16 ":%" SCNu16 ":%" SCNx16 "%n", &t->cell, &t->pins[0], &t->pins[1], &t->pins[2], &t->pins[3],
        &t->truth, &size);
    return from + size;
}

/* The answer with the table that it gives. */
static void print_reordered(char *to, const char *order, const char *table)
{
    krankovel_table t = {0};
    take_table(table, &t);
    krankovel_reordered r = krankovel_reorder(t, strtoull(order, NULL, 10));
    to += sprintf(to, "%u %zu %u", r.number, r.place, r.table.cell);
    for (int p = 0; p < KRANKOVEL_PINS; p++)
        to += sprintf(to, ":%u", r.table.pins[p]);
    sprintf(to, ":%x", r.table.truth);
}

/* The answer to a cover, its tables with a comma between two. */
static krankovel_answer cover(const uint8_t *file, size_t n, const char *tables)
{
    static krankovel_table all[LINE];
    size_t count = 0;
    while (*tables && *tables != '-') {
        tables = take_table(tables, &all[count++]);
        tables += *tables == ',';
    }
    return krankovel_cover_file(file, n, (const uint16_t *)all, count * (2 + KRANKOVEL_PINS));
}

/* Answers a question of so many words; 0 where it is none that the library answers. */
static int answer(char *words[WORDS], int count, char *to)
{
    static uint8_t b[LINE];
    size_t n = count > 1 ? bytes(words[1], b) : 0;
    if (!strcmp(words[0], "read") && count == 2) {
        krankovel_reading r = krankovel_read(b, n);
        sprintf(to, "%u %zu %u %u %u", r.number, r.place, r.statements, r.halts, r.signals);
    } else if (!strcmp(words[0], "check") && count == 2) {
        print_answer(to, krankovel_check(b, n));
    } else if (!strcmp(words[0], "file") && count == 2) {
        print_answer(to, krankovel_check_file(b, n));
    } else if (!strcmp(words[0], "write") && count == 3) {
        if (!print_file(to, b, n, words[2]))
            strcpy(to, "written behind the file");
    } else if (!strcmp(words[0], "fits") && count == 3) {
        print_answer(to, krankovel_fits(b, n, word(words[2])));
    } else if (!strcmp(words[0], "react") && count == 4) {
        print_reaction(to, krankovel_react(b, n, word(words[2]), word(words[3])));
    } else if (!strcmp(words[0], "reactfile") && count == 4) {
        print_reaction(to, krankovel_react_file(b, n, word(words[2]), word(words[3])));
    } else if (!strcmp(words[0], "rest") && count == 2) {
        sprintf(to, "%d", krankovel_rest(word(words[1])));
    } else if (!strcmp(words[0], "cover") && count == 3) {
        print_answer(to, cover(b, n, words[2]));
    } else if (!strcmp(words[0], "order") && count == 3) {
        print_reordered(to, words[1], words[2]);
    } else {
        return 0;
    }
    return 1;
}

int main(int argc, char **argv)
{
    static char question[LINE], expected[LINE], asked[LINE], found[LINE];
    FILE *in = argc == 3 ? fopen(argv[1], "r") : NULL, *out = argc == 3 ? fopen(argv[2], "r") : NULL;
    unsigned long same = 0, other = 0, passed = 0;
    if (!in || !out) {
        fprintf(stderr, "use: vectors QUESTIONS ANSWERS\n");
        return 2;
    }
    while (line(in, question) && line(out, expected)) {
        char *words[WORDS] = {0};
        int count = 0;
        if (!strcmp(expected, "bad line")) {
            passed++;
            continue;
        }
        strcpy(asked, question);
        for (char *w = strtok(question, " "); w && count < WORDS; w = strtok(NULL, " "))
            words[count++] = w;
        if (answer(words, count, found) && !strcmp(found, expected)) {
            same++;
        } else {
            other++;
            printf("differs: %.200s\n  stored %.200s\n  found  %.200s\n", asked, expected, found);
        }
    }
    printf("vectors: %lu questions answered as stored, %lu otherwise, %lu lines that are no question passed over\n", same, other, passed);
    return other != 0 || same == 0;
}
