/* The entries that the stored questions do not ask, on the sheets and files of those questions: cells against files, many events against single ones, what is left
   of a lent slice, and the refusals of their own.
   Use: entries QUESTIONS    (crates/answers/stdin) */
#include "krankovel.h"

#include <stdio.h>
#include <stdlib.h>
#include <string.h>

enum { LINE = 1 << 17, CELLS = 1024, FILE_MOST = 8192, EVENTS = 8 };

static unsigned long compared, differing;

static void same(const char *what, const char *of, int holds)
{
    compared++;
    if (!holds) {
        differing++;
        printf("differs: %s, of %.200s\n", what, of);
    }
}

static int all(const uint64_t *w, size_t from, size_t to, uint64_t value)
{
    while (from < to && w[from] == value)
        from++;
    return from == to;
}

static int equal_reactions(krankovel_reaction a, krankovel_reaction b)
{
    return a.number == b.number && a.place == b.place && a.cells == b.cells && a.signals == b.signals && a.state == b.state;
}

/* The inputs that the bits of a counter choose. */
static uint64_t event_of(unsigned inputs, unsigned k)
{
    uint64_t most = inputs == 63 ? ~0ull : (1ull << (inputs + 1)) - 1;
    return (k * 0x9E3779B97F4A7C15ull >> (k % 7)) & most & ~1ull;
}

/* One event after another by `single`, which takes what `of` points to; what `many` answered must be that. */
typedef krankovel_reaction (*single)(const void *of, uint64_t state, uint64_t event);

static void compare_many(const char *what, const char *hex, single by, const void *of, krankovel_course c, const uint64_t *events, const uint64_t *signals,
    const uint64_t *states)
{
    uint64_t state = 0;
    int right = c.number == 0 && c.place == 0;
    for (int i = 0; i < EVENTS; i++) {
        krankovel_reaction r = by(of, state, events[i]);
        right = right && r.number == 0 && r.signals == signals[i] && r.state == states[i] && r.cells == c.cells && r.statements == c.statements;
        state = r.state;
    }
    right = right && c.state == state && signals[EVENTS] == 7 && states[EVENTS] == 7;
    same(what, hex, right);
}

/* A refusal with so many written: nothing. */
static int refused(krankovel_course c, unsigned number, size_t place, uint64_t state, const uint64_t *signals, const uint64_t *states)
{
    return c.number == number && c.place == place && c.statements == 0 && c.cells == 0 && c.state == state && all(signals, 0, EVENTS + 1, 7)
        && all(states, 0, EVENTS + 1, 7);
}

struct bytes {
    const uint8_t *at;
    size_t length;
};

struct netlist {
    uint32_t inputs, outputs;
    const uint64_t *words;
    size_t count;
};

static krankovel_reaction by_sheet(const void *of, uint64_t state, uint64_t event)
{
    const struct bytes *b = of;
    return krankovel_react(b->at, b->length, state, event);
}

static krankovel_reaction by_file(const void *of, uint64_t state, uint64_t event)
{
    const struct bytes *b = of;
    return krankovel_react_file(b->at, b->length, state, event);
}

static krankovel_reaction by_cells(const void *of, uint64_t state, uint64_t event)
{
    const struct netlist *w = of;
    return krankovel_react_cells(w->inputs, w->outputs, w->words, w->count, state, event);
}

static void blank(uint64_t *signals, uint64_t *states)
{
    for (int i = 0; i <= EVENTS; i++)
        signals[i] = states[i] = 7;
}

/* Many events by one of the three forms. */
static krankovel_course many(single by, const void *of, uint64_t state, const uint64_t *events, size_t count, uint64_t *signals, size_t room, uint64_t *states,
    size_t states_room)
{
    const struct bytes *b = of;
    const struct netlist *w = of;
    blank(signals, states);
    if (by == by_sheet)
        return krankovel_react_many(b->at, b->length, state, events, count, signals, room, states, states_room);
    if (by == by_file)
        return krankovel_react_file_many(b->at, b->length, state, events, count, signals, room, states, states_room);
    return krankovel_react_cells_many(w->inputs, w->outputs, w->words, w->count, state, events, count, signals, room, states, states_room);
}

static void try_many(const char *hex, single by, const void *of, unsigned inputs)
{
    uint64_t events[EVENTS], bad[EVENTS], signals[EVENTS + 1], states[EVENTS + 1];
    for (int i = 0; i < EVENTS; i++)
        bad[i] = events[i] = event_of(inputs, (unsigned)i);
    bad[EVENTS - 1] |= 1;
    krankovel_course c = many(by, of, 0, events, EVENTS, signals, EVENTS, states, EVENTS);
    compare_many("many events", hex, by, of, c, events, signals, states);
    c = many(by, of, 0, events, 0, signals, 0, states, 0);
    same("no events", hex, c.number == 0 && c.state == 0 && signals[0] == 7 && states[0] == 7);
    c = many(by, of, ~0ull - 1, bad, EVENTS, signals, 0, states, 0);
    same("EVENT before STATE and BUFFER", hex, refused(c, KRANKOVEL_EVENT, 0, ~0ull - 1, signals, states));
    c = many(by, of, 0, events, EVENTS, signals, EVENTS - 1, states, EVENTS);
    same("BUFFER for the signals", hex, refused(c, KRANKOVEL_BUFFER, EVENTS, 0, signals, states));
    c = many(by, of, 0, events, EVENTS, signals, EVENTS, states, EVENTS - 1);
    same("BUFFER for the states", hex, refused(c, KRANKOVEL_BUFFER, EVENTS, 0, signals, states));
    if (by == by_sheet) {
        c = many(by, of, 2, events, EVENTS, signals, 0, states, 0);
        same("STATE before BUFFER", hex, refused(c, KRANKOVEL_STATE, 0, 2, signals, states));
    }
}

/* A netlist file that is accepted: its cells say the same. */
static void try_file(const char *hex, const uint8_t *file, size_t length)
{
    static uint64_t words[CELLS + 1];
    static uint64_t again[CELLS];
    static uint8_t back[FILE_MOST];
    krankovel_answer a = krankovel_check_file(file, length);
    for (int i = 0; i <= CELLS; i++)
        words[i] = 7;
    krankovel_listing l = krankovel_read_file(file, length, words, CELLS);
    if (a.number) {
        same("the file's fault", hex, l.number == a.number && l.place == a.place && l.cells == 0 && l.inputs == 0 && l.outputs == 0 && all(words, 0, CELLS + 1, 7));
        return;
    }
    same("a file's cells", hex, l.number == 0 && l.place == 0 && l.statements == 0 && l.cells == a.cells && all(words, l.cells, CELLS + 1, 7));
    krankovel_listing s = krankovel_read_file(file, length, words, l.cells - 1u);
    same("BUFFER for cells", hex, s.number == KRANKOVEL_BUFFER && s.place == l.cells && s.cells == 0 && s.inputs == 0 && s.outputs == 0);
    krankovel_answer k = krankovel_check_cells(l.inputs, l.outputs, words, l.cells);
    same("the cells are accepted", hex, k.number == 0 && k.place == 0 && k.statements == 0 && k.cells == l.cells);
    /* A gate of an old kind is written with a truth table, a byte more. */
    memset(back, 0xA5, sizeof back);
    size_t written = krankovel_write_cells(l.inputs, l.outputs, words, l.cells, back, 0).place;
    k = krankovel_write_cells(l.inputs, l.outputs, words, l.cells, back, written);
    same("the cells' file", hex, k.number == 0 && k.cells == l.cells && written >= length && back[written] == 0xA5);
    same("without old kinds it is the file", hex, written > length || !memcmp(back, file, length));
    krankovel_listing r = krankovel_read_file(back, written, again, CELLS);
    same("and reads as the cells", hex, r.number == 0 && r.cells == l.cells && r.inputs == l.inputs && r.outputs == l.outputs && !memcmp(words, again, l.cells * sizeof *words));
    k = krankovel_write_cells(l.inputs, l.outputs, words, l.cells, back, written - 1);
    same("BUFFER for a file", hex, k.number == KRANKOVEL_BUFFER && k.place == written && k.cells == 0);
    struct bytes b = {file, length};
    struct netlist w = {l.inputs, l.outputs, words, l.cells};
    for (unsigned i = 0; i < EVENTS; i++)
        same("cells react as the file", hex, equal_reactions(by_cells(&w, i, event_of(l.inputs, i)), by_file(&b, i, event_of(l.inputs, i))));
    try_many(hex, by_file, &b, l.inputs);
    try_many(hex, by_cells, &w, l.inputs);
    uint64_t kept = words[l.cells - 1];
    words[l.cells - 1] = 7;
    k = krankovel_check_cells(l.inputs, l.outputs, words, l.cells);
    same("KIND of a word", hex, k.number == KRANKOVEL_KIND && k.place == 0);
    words[l.cells - 1] = kept | 1ull << 40;
    k = krankovel_check_cells(l.inputs, l.outputs, words, l.cells);
    same("CELL for what no field holds", hex, k.number == KRANKOVEL_CELL && k.place == 0);
    words[l.cells - 1] = kept;
    k = krankovel_check_cells(64, 0, words, l.cells);
    same("COUNT of the signals", hex, k.number == KRANKOVEL_COUNT && k.place == 0);
}

/* A sheet: its cells are those of its file. */
static void try_sheet(const char *hex, const uint8_t *sheet, size_t length)
{
    static uint64_t words[CELLS + 1], again[CELLS];
    static uint8_t file[FILE_MOST];
    krankovel_answer a = krankovel_check(sheet, length);
    for (int i = 0; i <= CELLS; i++)
        words[i] = 7;
    krankovel_listing l = krankovel_compile_cells(sheet, length, words, CELLS);
    if (a.number) {
        same("the sheet's fault", hex, l.number == a.number && l.place == a.place && l.cells == 0 && l.statements == 0 && all(words, 0, CELLS + 1, 7));
        return;
    }
    same("a sheet's cells", hex, l.number == 0 && l.statements == a.statements && l.cells == a.cells && all(words, l.cells, CELLS + 1, 7));
    same("I and O", hex, l.inputs == sheet[0] && l.outputs == sheet[1]);
    krankovel_listing s = krankovel_compile_cells(sheet, length, again, l.cells - 1u);
    same("BUFFER for cells", hex, s.number == KRANKOVEL_BUFFER && s.place == l.cells && s.cells == 0 && s.statements == 0);
    krankovel_answer f = krankovel_compile(sheet, length, file, sizeof file);
    size_t size = krankovel_compile(sheet, length, file, 0).place;
    krankovel_listing r = krankovel_read_file(file, size, again, CELLS);
    same("its cells are its file's", hex, f.number == 0 && r.number == 0 && r.cells == l.cells && r.inputs == l.inputs && r.outputs == l.outputs
        && !memcmp(words, again, l.cells * sizeof *words));
    struct bytes b = {sheet, length};
    try_many(hex, by_sheet, &b, l.inputs);
    try_file(hex, file, size);
}

/* As many cells as there may be in one chain of ors, from the constants up (step -1) or from the last cell down (step 1), and closed to a cycle at one of its cells. */
static void try_chain(int step, unsigned closed)
{
    static uint64_t words[CELLS];
    char name[64];
    snprintf(name, sizeof name, "a chain with step %d, closed at %u", step, closed);
    for (unsigned n = 0; n < CELLS; n++) {
        unsigned next = step < 0 ? (closed == n ? CELLS - 1 : n - 1) : (n + 1 < CELLS ? n + 1 : closed ? closed : 1);
        words[n] = n < 2 ? n : 3 + 8ull * next + 524288ull * (next < 2 ? 0 : next);
    }
    krankovel_answer a = krankovel_check_cells(0, 0, words, CELLS);
    same("its check", name, a.number == (closed ? 12 : 0) && a.place == closed && a.cells == (closed ? 0 : CELLS));
}

/* A cover, its tables as a question has them: what is answered for a file is answered for its cells. */
static void try_cover(const char *hex, const uint8_t *file, size_t length, const char *tables)
{
    static uint64_t words[CELLS];
    static uint16_t cover[LINE];
    size_t n = 0;
    while (*tables && *tables != '-') {
        cover[n] = (uint16_t)strtoul(tables, (char **)&tables, n % (2 + KRANKOVEL_PINS) == 1 + KRANKOVEL_PINS ? 16 : 10);
        n++;
        tables += *tables != 0;
    }
    krankovel_answer a = krankovel_cover_file(file, length, cover, n);
    krankovel_listing l = krankovel_read_file(file, length, words, CELLS);
    if (l.number) {
        same("the file's fault before its cover's", hex, a.number == l.number && a.place == l.place && a.statements == 0 && a.cells == 0);
        return;
    }
    krankovel_answer c = krankovel_cover_cells(l.inputs, l.outputs, words, l.cells, cover, n);
    same("a cover of cells", hex, c.number == a.number && c.place == a.place && c.statements == 0 && c.cells == a.cells);
    same("a cover's answer", hex, a.number ? a.number == KRANKOVEL_COVER && a.cells == 0 && a.place <= n / (2 + KRANKOVEL_PINS) : a.place == 0 && a.cells == l.cells);
    for (size_t k = 1; k < 2 + KRANKOVEL_PINS; k++) {
        cover[n + k - 1] = 0;
        c = krankovel_cover_file(file, length, cover, n + k);
        same("an incomplete table behind it", hex, c.number == KRANKOVEL_COVER && c.cells == 0 && c.place == (a.number ? a.place : n / (2 + KRANKOVEL_PINS)));
    }
}

int main(int argc, char **argv)
{
    static char question[LINE], last[LINE];
    static uint8_t b[LINE];
    unsigned long sheets = 0, files = 0, covers = 0;
    FILE *in = argc == 2 ? fopen(argv[1], "r") : NULL;
    if (!in) {
        fprintf(stderr, "use: entries QUESTIONS\n");
        return 2;
    }
    while (fgets(question, sizeof question, in)) {
        char *kind = strtok(question, " \n"), *hex = strtok(NULL, " \n"), *tables = strtok(NULL, " \n");
        size_t n = 0;
        unsigned byte;
        int again = hex && !strcmp(hex, last), cover = kind && !strcmp(kind, "cover");
        if (!kind || !hex || strlen(hex) % 2 || strspn(hex, "0123456789abcdefABCDEF") != strlen(hex) || (again && !cover))
            continue;
        while (sscanf(hex + 2 * n, "%2x", &byte) == 1)
            b[n++] = (uint8_t)byte;
        strcpy(last, hex);
        if (cover) {
            covers += tables != NULL;
            if (tables)
                try_cover(hex, b, n, tables);
        } else if (!strcmp(kind, "file") || !strcmp(kind, "reactfile")) {
            files++;
            try_file(hex, b, n);
        } else if (strcmp(kind, "rest") && strcmp(kind, "order")) {
            sheets++;
            try_sheet(hex, b, n);
        }
    }
    for (unsigned closed = 0; closed < CELLS; closed += closed ? 73 : 2)
        for (int step = -1; step < 2; step += 2)
            try_chain(step, closed);
    printf("entries: %lu sheets, %lu files, %lu covers, %lu comparisons, %lu of them differ\n", sheets, files, covers, compared, differing);
    return differing != 0 || compared == 0;
}
