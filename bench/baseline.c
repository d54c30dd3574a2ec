/* The work of Krankovel as it would be written in C by hand, behind the same header: what the ratios of docs/SPEED.md are taken against. It is no part of
   what is proved. `bench/run` first lets it answer the stored vectors. */
#include "krankovel.h"

#include <stdbool.h>
#include <string.h>

enum { SHORT = 1, NUMBER, KIND, COUNT, SCOPE, EMIT, EXIT, EXTRA, INSTANT, TWICE, ROOM, CYCLE, EVENT, STATE, BUFFER, CELL, COVER = 19, ORDER };
enum { NOTHING, HALT, EMITS, SEQUENCE, LOOP, PRESENT, WATCHING, PARALLEL, TRAP, EXITS, SIGNAL };
enum { LOW, HIGH, INPUT, OR, AND, BUTNOT, REGISTER };
enum { STATEMENTS = 256, LEVELS = 64, HALTS = 63, SIGNALS = 64, TRAPS = 8, CELLS = 1024, REGISTERS = 64, CODES = 10 };

/* ---- numbers ---- */

struct text {
    const uint8_t *bytes;
    size_t length, at;
    unsigned number; /* the fault, and its place */
    size_t place;
};

static int fault(struct text *t, unsigned number, size_t place)
{
    t->number = number;
    t->place = place;
    return -1;
}

/* The number at the cursor, or -1. */
static inline int read_number(struct text *t)
{
    size_t at = t->at;
    if (at >= t->length)
        return fault(t, SHORT, at);
    unsigned low = t->bytes[at];
    if (low < 128) {
        t->at = at + 1;
        return (int)low;
    }
    if (at + 1 >= t->length)
        return fault(t, SHORT, at);
    unsigned high = t->bytes[at + 1];
    if (high == 0 || high > 127)
        return fault(t, NUMBER, at);
    t->at = at + 2;
    return (int)(high * 128 + low % 128);
}

static inline size_t number_length(unsigned v)
{
    return v < 128 ? 1 : 2;
}

static inline uint8_t *write_number(uint8_t *to, unsigned v)
{
    if (v < 128) {
        *to = (uint8_t)v;
        return to + 1;
    }
    to[0] = (uint8_t)(128 + v % 128);
    to[1] = (uint8_t)(v / 128);
    return to + 2;
}

/* ---- the sheet, and its static sets, which are words with the codes as bits ---- */

struct statement {
    uint8_t kind, operand;
    uint16_t second; /* the number of the second part; the first one's follows the statement's own */
    uint16_t k, r;
    uint64_t halts; /* the state's bits of the halts inside */
};

struct program {
    unsigned inputs, outputs, statements, halts, signals;
    unsigned instant; /* the first loop at fault */
    struct statement at[STATEMENTS];
};

static inline unsigned replace_0(unsigned a, unsigned b)
{
    return a & 1 ? (a & ~1u) | b : a;
}

/* The codes of a from the lowest of b on, and the larger codes of all pairs. */
static inline unsigned at_least(unsigned a, unsigned b)
{
    return a & -(b & -b);
}

static inline unsigned maxima(unsigned a, unsigned b)
{
    return at_least(a, b) | at_least(b, a);
}

static inline unsigned caught_codes(unsigned a)
{
    return (a & 3) | (a >> 2 & 1) | (a >> 3) << 2;
}

static inline bool ends(const struct statement *t)
{
    return (t->k | t->r) & 1;
}

static void one_sets(struct program *p, unsigned n)
{
    struct statement *t = &p->at[n];
    const struct statement *a = t + 1;
    t->k = a->k;
    t->r = a->r;
    t->halts = a->halts;
    switch (t->kind) {
    case LOOP:
        if (a->k & 1 && n < p->instant)
            p->instant = n;
        t->k = a->k & ~1u;
        t->r = replace_0(a->r, t->k);
        break;
    case WATCHING:
        if (a->halts)
            t->r |= 1;
        break;
    case TRAP:
        t->k = caught_codes(a->k);
        t->r = caught_codes(a->r);
        break;
    }
}

static void two_sets(struct program *p, unsigned n)
{
    struct statement *t = &p->at[n];
    const struct statement *a = t + 1, *b = &p->at[t->second];
    t->halts = a->halts | b->halts;
    switch (t->kind) {
    case SEQUENCE:
        t->k = replace_0(a->k, b->k);
        t->r = replace_0(a->r, b->k) | b->r;
        break;
    case PRESENT:
        t->k = a->k | b->k;
        t->r = a->r | b->r;
        break;
    case PARALLEL:
        t->k = maxima(a->k, b->k);
        t->r = maxima(a->r, b->r) | (ends(b) ? a->r : 0) | (ends(a) ? b->r : 0);
        break;
    }
}

/* The signal that an operand names, or -1. */
static int read_signal(struct text *t, uint64_t scope)
{
    size_t at = t->at;
    int s = read_number(t);
    if (s < 0)
        return -1;
    if (s >= SIGNALS || !(scope >> s & 1))
        return fault(t, SCOPE, at);
    return s;
}

static int read_statement(struct text *t, struct program *p, unsigned level, unsigned traps, uint64_t scope)
{
    size_t at = t->at;
    if (p->statements == STATEMENTS || level > LEVELS)
        return fault(t, COUNT, at);
    unsigned n = p->statements++;
    int kind = read_number(t);
    if (kind < 0)
        return -1;
    struct statement *own = &p->at[n];
    *own = (struct statement){.kind = (uint8_t)kind};
    size_t place = t->at;
    int operand = 0;
    switch (kind) {
    case NOTHING:
        own->k = 1;
        return 0;
    case HALT:
        if (p->halts == HALTS)
            return fault(t, COUNT, at);
        own->halts = 2ull << p->halts++;
        own->k = own->r = 2;
        return 0;
    case EMITS:
        if ((operand = read_signal(t, scope)) < 0)
            return -1;
        if ((unsigned)operand <= p->inputs)
            return fault(t, EMIT, place);
        own->operand = (uint8_t)operand;
        own->k = 1;
        return 0;
    case EXITS:
        if ((operand = read_number(t)) < 0)
            return -1;
        if (operand < 2 || (unsigned)operand > 1 + traps)
            return fault(t, EXIT, place);
        own->operand = (uint8_t)operand;
        own->k = (uint16_t)(1u << operand);
        return 0;
    case LOOP:
        break;
    case WATCHING:
        if ((operand = read_signal(t, scope)) < 0)
            return -1;
        break;
    case TRAP:
        if (traps++ == TRAPS)
            return fault(t, COUNT, at);
        break;
    case SIGNAL:
        if (p->signals == SIGNALS)
            return fault(t, COUNT, at);
        scope |= 1ull << p->signals++;
        break;
    case PRESENT:
        if ((operand = read_signal(t, scope)) < 0)
            return -1;
        /* fall through */
    case SEQUENCE:
    case PARALLEL:
        own->operand = (uint8_t)operand;
        if (read_statement(t, p, level + 1, traps, scope) < 0)
            return -1;
        own->second = (uint16_t)p->statements;
        if (read_statement(t, p, level + 1, traps, scope) < 0)
            return -1;
        two_sets(p, n);
        return 0;
    default:
        return fault(t, KIND, at);
    }
    own->operand = (uint8_t)operand;
    if (read_statement(t, p, level + 1, traps, scope) < 0)
        return -1;
    one_sets(p, n);
    return 0;
}

static int read_sheet(struct text *t, struct program *p)
{
    int inputs = read_number(t);
    if (inputs < 0)
        return -1;
    size_t second = t->at;
    int outputs = read_number(t);
    if (outputs < 0)
        return -1;
    if (1 + inputs + outputs > SIGNALS)
        return fault(t, COUNT, second);
    p->inputs = (unsigned)inputs;
    p->outputs = (unsigned)outputs;
    p->signals = 1 + p->inputs + p->outputs;
    p->statements = p->halts = 0;
    p->instant = STATEMENTS;
    uint64_t scope = p->signals == SIGNALS ? ~0ull : (1ull << p->signals) - 1;
    if (read_statement(t, p, 1, 0, scope) < 0)
        return -1;
    if (t->at < t->length)
        return fault(t, EXTRA, t->at);
    return 0;
}

/* The codes of one side of a parallel that lead to one of f; o is the other side. */
static inline unsigned leads_beside(const struct statement *o, unsigned f)
{
    unsigned common = o->r & f;
    unsigned up_to = common ? (2u << (31 - __builtin_clz(common))) - 1 : 0;
    return at_least(f, o->r) | up_to | (ends(o) ? f : 0);
}

/* TWICE: the first parallel or signal statement from n on with a code in R that leads to the fault, or -1. One walk down; f has the codes of statement n that
   lead to a loop with 0. */
static int first_twice(const struct program *p, unsigned n, unsigned f)
{
    const struct statement *t = &p->at[n];
    const struct statement *a = t + 1, *b = &p->at[t->second];
    int found;
    switch (t->kind) {
    case LOOP:
        return first_twice(p, n + 1, f | 1);
    case WATCHING:
        return first_twice(p, n + 1, f);
    case TRAP:
        return first_twice(p, n + 1, (f & 3) | (f & 1) << 2 | f >> 2 << 3);
    case SIGNAL:
        return t->r & f ? (int)n : first_twice(p, n + 1, f);
    case SEQUENCE:
        found = first_twice(p, n + 1, b->k & f ? f | 1 : f & ~1u);
        return found >= 0 ? found : first_twice(p, t->second, a->k & 1 ? f : 0);
    case PRESENT:
        found = first_twice(p, n + 1, f);
        return found >= 0 ? found : first_twice(p, t->second, f);
    case PARALLEL:
        if (t->r & f)
            return (int)n;
        found = first_twice(p, n + 1, leads_beside(b, f));
        return found >= 0 ? found : first_twice(p, t->second, leads_beside(a, f));
    default:
        return -1;
    }
}

/* ---- the netlist ---- */

struct cell {
    uint16_t kind, x, y;
};

struct netlist {
    unsigned inputs, outputs, cells;
    struct cell at[CELLS];
};

struct builder {
    const struct program *p;
    struct netlist *w;
    uint16_t lists[SIGNALS];
};

/* The nets of the codes above 1 + traps are not looked at. */
struct built {
    uint16_t sel, code[CODES];
};

static inline uint16_t put(struct netlist *w, unsigned kind, unsigned x, unsigned y)
{
    unsigned n = w->cells++;
    if (n < CELLS)
        w->at[n] = (struct cell){(uint16_t)kind, (uint16_t)x, (uint16_t)y};
    return (uint16_t)n;
}

static inline void fill(struct netlist *w, unsigned n, unsigned x, unsigned y)
{
    if (n < CELLS) {
        w->at[n].x = (uint16_t)x;
        w->at[n].y = (uint16_t)y;
    }
}

static inline uint16_t or(struct netlist *w, uint16_t x, uint16_t y)
{
    return x == 0 ? y : y == 0 ? x : put(w, OR, x, y);
}

static inline uint16_t and(struct netlist *w, uint16_t x, uint16_t y)
{
    return x == 0 || y == 0 ? 0 : put(w, AND, x, y);
}

static inline uint16_t butnot(struct netlist *w, uint16_t x, uint16_t y)
{
    return x == 0 ? 0 : y == 0 ? x : put(w, BUTNOT, x, y);
}

static void clear(struct built *r, unsigned traps)
{
    r->sel = 0;
    for (unsigned j = 0; j <= 1 + traps; j++)
        r->code[j] = 0;
}

static void build(struct builder *b, unsigned n, unsigned traps, uint16_t g, uint16_t r, uint16_t kill, struct built *to);

static void build_parallel(struct builder *b, unsigned n, unsigned traps, uint16_t g, uint16_t r, uint16_t kill, struct built *to)
{
    const struct statement *t = &b->p->at[n];
    struct netlist *w = b->w;
    struct built q;
    uint16_t own = put(w, OR, kill, 0);
    build(b, n + 1, traps, g, r, own, to);
    build(b, t->second, traps, g, r, own, &q);
    to->sel = or(w, to->sel, q.sel);
    unsigned keep = t->k | t->r;
    uint16_t x = 0, after_2 = 0;
    for (unsigned j = 2 + traps; j-- > 0;) {
        uint16_t m = or(w, to->code[j], q.code[j]);
        to->code[j] = keep >> j & 1 ? butnot(w, m, x) : 0;
        if (j > 0)
            x = or(w, x, m);
        if (j == 2)
            after_2 = x;
    }
    fill(w, own, kill, after_2);
}

static void build(struct builder *b, unsigned n, unsigned traps, uint16_t g, uint16_t r, uint16_t kill, struct built *to)
{
    const struct statement *t = &b->p->at[n];
    struct netlist *w = b->w;
    struct built q;
    uint16_t h, x, v, signal = (uint16_t)(1 + t->operand);
    switch (t->kind) {
    case NOTHING:
        clear(to, traps);
        to->code[0] = g;
        break;
    case HALT:
        clear(to, traps);
        h = put(w, REGISTER, 0, 0);
        x = and(w, r, h);
        v = or(w, g, x);
        to->sel = h;
        to->code[1] = v;
        fill(w, h, butnot(w, v, kill), 0);
        break;
    case EMITS:
        clear(to, traps);
        b->lists[t->operand] = or(w, b->lists[t->operand], g);
        to->code[0] = g;
        break;
    case EXITS:
        clear(to, traps);
        to->code[t->operand] = g;
        break;
    case SEQUENCE:
        build(b, n + 1, traps, g, r, kill, to);
        build(b, t->second, traps, to->code[0], r, kill, &q);
        to->sel = or(w, to->sel, q.sel);
        to->code[0] = q.code[0];
        for (unsigned j = 1; j <= 1 + traps; j++)
            to->code[j] = or(w, to->code[j], q.code[j]);
        break;
    case LOOP:
        h = put(w, OR, g, 0);
        build(b, n + 1, traps, h, r, kill, to);
        fill(w, h, g, to->code[0]);
        to->code[0] = 0;
        break;
    case PRESENT:
        x = and(w, g, signal);
        v = butnot(w, g, signal);
        build(b, n + 1, traps, x, r, kill, to);
        build(b, t->second, traps, v, r, kill, &q);
        to->sel = or(w, to->sel, q.sel);
        for (unsigned j = 0; j <= 1 + traps; j++)
            to->code[j] = or(w, to->code[j], q.code[j]);
        break;
    case WATCHING:
        build(b, n + 1, traps, g, butnot(w, r, signal), kill, to);
        x = and(w, r, to->sel);
        x = and(w, x, signal);
        to->code[0] = or(w, to->code[0], x);
        break;
    case PARALLEL:
        build_parallel(b, n, traps, g, r, kill, to);
        break;
    case TRAP:
        build(b, n + 1, traps + 1, g, r, kill, to);
        to->code[0] = or(w, to->code[0], to->code[2]);
        for (unsigned j = 2; j <= 1 + traps; j++)
            to->code[j] = to->code[j + 1];
        break;
    default:
        build(b, n + 1, traps, g, r, kill, to);
        break;
    }
}

static void build_netlist(const struct program *p, struct netlist *w)
{
    struct builder b = {.p = p, .w = w};
    struct built root;
    w->inputs = p->inputs;
    w->outputs = p->outputs;
    w->cells = 0;
    put(w, LOW, 0, 0);
    put(w, HIGH, 0, 0);
    for (unsigned s = 1; s <= p->inputs; s++)
        put(w, INPUT, s, 0);
    w->cells = p->signals + 1;
    uint16_t boot = put(w, REGISTER, 1, 0);
    build(&b, 0, 0, put(w, BUTNOT, 1, boot), 1, 0, &root);
    for (unsigned s = p->inputs + 1; s < p->signals; s++)
        w->at[1 + s] = (struct cell){OR, b.lists[s], 0};
}

/* ---- CYCLE, by a search to the depth. The gates come out in an order in which each stands after its operands. ---- */

struct search {
    const struct netlist *w;
    uint16_t *order;
    unsigned count;
    uint8_t mark[CELLS]; /* 0 new, 1 open, 2 done */
};

static inline bool is_gate(struct cell c)
{
    return (unsigned)(c.kind - OR) < 3;
}

/* Whether the gates below n, which is one and new, have an order. */
static bool visit(struct search *s, unsigned n)
{
    struct cell c = s->w->at[n];
    s->mark[n] = 1;
    unsigned x = s->mark[c.x], y;
    if (x == 1 || (x == 0 && !visit(s, c.x)))
        return false;
    y = s->mark[c.y];
    if (y == 1 || (y == 0 && !visit(s, c.y)))
        return false;
    s->mark[n] = 2;
    s->order[s->count++] = (uint16_t)n;
    return true;
}

static bool reaches(struct search *s, unsigned n, unsigned goal)
{
    struct cell c = s->w->at[n];
    if (!is_gate(c))
        return false;
    if (c.x == goal || c.y == goal)
        return true;
    s->mark[n] = 1;
    return (!s->mark[c.x] && reaches(s, c.x, goal)) || (!s->mark[c.y] && reaches(s, c.y, goal));
}

/* How many gates there are, in their order; or -1, with the lowest cell on a cycle. */
static int order_gates(const struct netlist *w, uint16_t *order, unsigned *lowest)
{
    struct search s;
    s.w = w;
    s.order = order;
    s.count = 0;
    for (unsigned i = 0; i < w->cells; i++)
        s.mark[i] = is_gate(w->at[i]) ? 0 : 2;
    unsigned n = 0;
    while (n < w->cells && (s.mark[n] || visit(&s, n)))
        n++;
    if (n == w->cells)
        return (int)s.count;
    for (*lowest = 0;; ++*lowest) {
        memset(s.mark, 0, w->cells);
        if (reaches(&s, *lowest, *lowest))
            return -1;
    }
}

/* ---- the whole check of a sheet ---- */

struct compiled {
    struct program p;
    struct netlist w;
};

static krankovel_answer refusal(unsigned number, size_t place)
{
    return (krankovel_answer){.number = (uint8_t)number, .place = place};
}

static krankovel_answer acceptance(unsigned statements, unsigned cells)
{
    return (krankovel_answer){.statements = (uint16_t)statements, .cells = (uint16_t)cells};
}

static krankovel_answer compile(const uint8_t *sheet, size_t length, struct compiled *c)
{
    struct text t = {.bytes = sheet, .length = length};
    uint16_t order[CELLS];
    unsigned lowest;
    if (read_sheet(&t, &c->p) < 0)
        return refusal(t.number, t.place);
    if (c->p.instant < STATEMENTS)
        return refusal(INSTANT, c->p.instant);
    int twice = first_twice(&c->p, 0, 0);
    if (twice >= 0)
        return refusal(TWICE, (size_t)twice);
    build_netlist(&c->p, &c->w);
    if (c->w.cells > CELLS)
        return refusal(ROOM, 0);
    if (order_gates(&c->w, order, &lowest) < 0)
        return refusal(CYCLE, lowest);
    return acceptance(c->p.statements, c->w.cells);
}

/* ---- netlist files and words ---- */

/* In a file a gate is of kind 7, and its truth table says which: bit x + 2 y is what it gives. */
enum { TABLE = 7 };
static const uint8_t truth_tables[] = {14, 8, 2};

static size_t file_length(const struct netlist *w)
{
    size_t length = 2 + number_length(w->cells);
    for (unsigned n = 0; n < w->cells; n++) {
        struct cell c = w->at[n];
        length += 1;
        if (c.kind >= INPUT)
            length += number_length(c.x);
        if (is_gate(c))
            length += 1 + number_length(c.y);
    }
    return length;
}

static krankovel_answer write_file(const struct netlist *w, unsigned statements, uint8_t *to, size_t room)
{
    size_t length = file_length(w);
    if (room < length)
        return refusal(BUFFER, length);
    to = write_number(to, w->inputs);
    to = write_number(to, w->outputs);
    to = write_number(to, w->cells);
    for (unsigned n = 0; n < w->cells; n++) {
        struct cell c = w->at[n];
        if (is_gate(c)) {
            *to++ = TABLE;
            *to++ = truth_tables[c.kind - OR];
            to = write_number(to, c.x);
            to = write_number(to, c.y);
            continue;
        }
        *to++ = (uint8_t)c.kind;
        if (c.kind >= INPUT)
            to = write_number(to, c.x);
    }
    return acceptance(statements, w->cells);
}

/* The number of what is wrong with a kind at cell n, or 0; counts the registers. */
static inline unsigned judge_kind(unsigned highest, unsigned inputs, unsigned n, unsigned kind, unsigned *registers)
{
    if (kind > highest)
        return KIND;
    if (kind == REGISTER && (*registers)++ == REGISTERS)
        return COUNT;
    unsigned first = n < 2 ? n : n < 2 + inputs ? INPUT : OR;
    if (first == OR ? kind < OR : kind != first)
        return CELL;
    return 0;
}

static int read_cell(struct text *t, struct netlist *w, unsigned n, unsigned *registers)
{
    size_t at = t->at;
    int kind = read_number(t), x = 0, y = 0;
    if (kind < 0)
        return -1;
    unsigned wrong = judge_kind(TABLE, w->inputs, n, (unsigned)kind, registers);
    if (wrong)
        return fault(t, wrong, at);
    if (kind == TABLE) {
        at = t->at;
        int truth = read_number(t);
        if (truth < 0)
            return -1;
        kind = truth == truth_tables[0] ? OR : truth == truth_tables[1] ? AND : BUTNOT;
        if (truth != truth_tables[kind - OR])
            return fault(t, CELL, at);
    }
    if (kind >= INPUT) {
        at = t->at;
        if ((x = read_number(t)) < 0)
            return -1;
        if (kind == INPUT ? (unsigned)x + 1 != n : (unsigned)x >= w->cells)
            return fault(t, CELL, at);
    }
    if (kind >= OR && kind <= BUTNOT) {
        at = t->at;
        if ((y = read_number(t)) < 0)
            return -1;
        if ((unsigned)y >= w->cells)
            return fault(t, CELL, at);
    }
    w->at[n] = (struct cell){(uint16_t)kind, (uint16_t)x, (uint16_t)y};
    return 0;
}

static int read_netlist(struct text *t, struct netlist *w)
{
    int i, o, m;
    unsigned registers = 0;
    size_t at;
    if ((i = read_number(t)) < 0)
        return -1;
    at = t->at;
    if ((o = read_number(t)) < 0)
        return -1;
    if (1 + i + o > SIGNALS)
        return fault(t, COUNT, at);
    at = t->at;
    if ((m = read_number(t)) < 0)
        return -1;
    if (m > CELLS)
        return fault(t, COUNT, at);
    if (m < 2 + i + o)
        return fault(t, CELL, at);
    w->inputs = (unsigned)i;
    w->outputs = (unsigned)o;
    w->cells = (unsigned)m;
    for (unsigned n = 0; n < w->cells; n++)
        if (read_cell(t, w, n, &registers) < 0)
            return -1;
    return t->at < t->length ? fault(t, EXTRA, t->at) : 0;
}

/* The netlist in words, or the number of what is wrong. */
static unsigned take_words(uint32_t inputs, uint32_t outputs, const uint64_t *words, size_t count, struct netlist *w)
{
    unsigned registers = 0;
    if (inputs > 63 || outputs > 63 - inputs || count > CELLS)
        return COUNT;
    if (count < 2 + inputs + outputs)
        return CELL;
    w->inputs = inputs;
    w->outputs = outputs;
    w->cells = (unsigned)count;
    for (unsigned n = 0; n < w->cells; n++) {
        uint64_t word = words[n];
        struct cell c = {word & 7, word >> 3 & 65535, word >> 19 & 65535};
        unsigned wrong = judge_kind(REGISTER, inputs, n, c.kind, &registers);
        if (wrong)
            return wrong;
        if (word >> 35 || (c.kind < INPUT && c.x) || (!is_gate(c) && c.y))
            return CELL;
        if (c.kind == INPUT ? c.x + 1u != n : c.x >= w->cells || c.y >= w->cells)
            return CELL;
        w->at[n] = c;
    }
    return 0;
}

static void hand_out(const struct netlist *w, uint64_t *words)
{
    for (unsigned n = 0; n < w->cells; n++)
        words[n] = w->at[n].kind | (uint64_t)w->at[n].x << 3 | (uint64_t)w->at[n].y << 19;
}

/* ---- a netlist prepared once, and its clocks ---- */

struct gate {
    uint16_t kind, x, y, to;
};

struct machine {
    unsigned inputs, outputs, gates, registers;
    struct gate gate[CELLS];
    uint16_t from[REGISTERS], to[REGISTERS]; /* each register's operand and its cell */
    uint8_t value[CELLS];
};

static void prepare(const struct netlist *w, const uint16_t *order, unsigned gates, struct machine *m)
{
    m->inputs = w->inputs;
    m->outputs = w->outputs;
    m->gates = gates;
    m->registers = 0;
    for (unsigned i = 0; i < gates; i++) {
        struct cell c = w->at[order[i]];
        m->gate[i] = (struct gate){c.kind, c.x, c.y, order[i]};
    }
    for (unsigned n = 0; n < w->cells; n++)
        if (w->at[n].kind == REGISTER) {
            m->from[m->registers] = w->at[n].x;
            m->to[m->registers++] = (uint16_t)n;
        }
    m->value[0] = 0;
    m->value[1] = 1;
}

static uint64_t clock(struct machine *m, uint64_t *state, uint64_t event)
{
    uint8_t *value = m->value;
    for (unsigned s = 1; s <= m->inputs; s++)
        value[1 + s] = event >> s & 1;
    for (unsigned k = 0; k < m->registers; k++)
        value[m->to[k]] = *state >> k & 1;
    for (const struct gate *g = m->gate, *end = g + m->gates; g < end; g++) {
        uint8_t x = value[g->x], y = value[g->y];
        value[g->to] = g->kind == OR ? x | y : g->kind == AND ? x & y : x & ~y;
    }
    uint64_t outputs = 0, next = 0;
    for (unsigned s = m->inputs + 1; s <= m->inputs + m->outputs; s++)
        outputs |= (uint64_t)value[1 + s] << s;
    for (unsigned k = 0; k < m->registers; k++)
        next |= (uint64_t)value[m->from[k]] << k;
    *state = next;
    return outputs;
}

static inline bool event_ok(unsigned inputs, uint64_t event)
{
    return !(event & 1) && (inputs == 63 || event >> (1 + inputs) == 0);
}

static inline bool state_ok(unsigned registers, uint64_t state)
{
    return registers == REGISTERS || state >> registers == 0;
}

/* ---- the rules ---- */

struct run {
    const struct statement *at;
    uint64_t present, state, emits, halts;
};

static unsigned start(struct run *r, unsigned n)
{
    const struct statement *t = &r->at[n];
    unsigned a, b;
    uint64_t halts;
    switch (t->kind) {
    case NOTHING:
        return 0;
    case HALT:
        r->halts |= t->halts;
        return 1;
    case EMITS:
        r->emits |= 1ull << t->operand;
        return 0;
    case EXITS:
        return t->operand;
    case SEQUENCE:
        a = start(r, n + 1);
        return a ? a : start(r, t->second);
    case PRESENT:
        return start(r, r->present >> t->operand & 1 ? n + 1 : t->second);
    case PARALLEL:
        halts = r->halts;
        a = start(r, n + 1);
        b = start(r, t->second);
        if (b > a)
            a = b;
        if (a > 1)
            r->halts = halts;
        return a;
    case TRAP:
        a = start(r, n + 1);
        return a < 2 ? a : a == 2 ? 0 : a - 1;
    default:
        return start(r, n + 1);
    }
}

/* Only where a halt of the state lies inside. */
static unsigned resume(struct run *r, unsigned n)
{
    const struct statement *t = &r->at[n];
    unsigned a, b;
    uint64_t halts;
    switch (t->kind) {
    case HALT:
        r->halts |= t->halts;
        return 1;
    case SEQUENCE:
        if (!(r->state & r->at[n + 1].halts))
            return resume(r, t->second);
        a = resume(r, n + 1);
        return a ? a : start(r, t->second);
    case PRESENT:
        return resume(r, r->state & r->at[n + 1].halts ? n + 1 : t->second);
    case PARALLEL:
        halts = r->halts;
        a = r->state & r->at[n + 1].halts ? resume(r, n + 1) : 0;
        b = r->state & r->at[t->second].halts ? resume(r, t->second) : 0;
        if (b > a)
            a = b;
        if (a > 1)
            r->halts = halts;
        return a;
    case LOOP:
        a = resume(r, n + 1);
        return a ? a : start(r, n + 1);
    case WATCHING:
        return r->present >> t->operand & 1 ? 0 : resume(r, n + 1);
    case TRAP:
        a = resume(r, n + 1);
        return a < 2 ? a : a == 2 ? 0 : a - 1;
    default:
        return resume(r, n + 1);
    }
}

/* The signals that the sheet asks for. */
static uint64_t asked(const struct program *p)
{
    uint64_t asks = 0;
    for (unsigned n = 0; n < p->statements; n++)
        if (p->at[n].kind == PRESENT || p->at[n].kind == WATCHING)
            asks |= 1ull << p->at[n].operand;
    return asks;
}

/* One reaction: E is made anew until no signal changes that the sheet asks for. */
static uint64_t react(const struct program *p, uint64_t asks, uint64_t *state, uint64_t event)
{
    struct run r = {.at = p->at, .state = *state};
    uint64_t given = event | 1, renewed = given;
    do {
        r.present = renewed;
        r.emits = r.halts = 0;
        if (!(r.state & 1))
            start(&r, 0);
        else if (r.state & p->at[0].halts)
            resume(&r, 0);
        renewed = given | r.emits;
    } while ((renewed ^ r.present) & asks);
    *state = r.halts | 1;
    return r.emits;
}

static bool apart(const struct program *p, unsigned n, uint64_t state)
{
    const struct statement *t = &p->at[n];
    const struct statement *a = t + 1, *b = &p->at[t->second];
    if (!(state & t->halts))
        return true;
    switch (t->kind) {
    case HALT:
        return true;
    case PARALLEL:
        if (!(state & a->halts))
            return ends(a) && apart(p, t->second, state);
        if (!(state & b->halts))
            return ends(b) && apart(p, n + 1, state);
        return apart(p, n + 1, state) && apart(p, t->second, state);
    case SEQUENCE:
    case PRESENT:
        if (!(state & a->halts))
            return apart(p, t->second, state);
        return !(state & b->halts) && apart(p, n + 1, state);
    default:
        return apart(p, n + 1, state);
    }
}

static bool fits(const struct program *p, uint64_t state)
{
    if (!(state & 1))
        return state == 0;
    return !(state & ~(p->at[0].halts | 1)) && apart(p, 0, state);
}

/* ---- the entries for sheets ---- */

static krankovel_reaction reaction(krankovel_answer a, uint64_t signals, uint64_t state)
{
    return (krankovel_reaction){a.number, a.place, a.statements, a.cells, signals, state};
}

static krankovel_course course(krankovel_answer a, uint64_t state)
{
    return (krankovel_course){a.number, a.place, a.statements, a.cells, state};
}

static krankovel_listing listing(krankovel_answer a, const struct netlist *w)
{
    if (a.number)
        return (krankovel_listing){.number = a.number, .place = a.place};
    return (krankovel_listing){0, 0, a.statements, a.cells, (uint16_t)w->inputs, (uint16_t)w->outputs};
}

krankovel_reading krankovel_read(const uint8_t *sheet, size_t length)
{
    struct program p;
    struct text t = {.bytes = sheet, .length = length};
    if (read_sheet(&t, &p) < 0)
        return (krankovel_reading){.number = (uint8_t)t.number, .place = t.place};
    return (krankovel_reading){0, 0, (uint16_t)p.statements, (uint16_t)p.halts, (uint16_t)p.signals};
}

krankovel_answer krankovel_check(const uint8_t *sheet, size_t length)
{
    struct compiled c;
    return compile(sheet, length, &c);
}

krankovel_answer krankovel_compile(const uint8_t *sheet, size_t length, uint8_t *buffer, size_t room)
{
    struct compiled c;
    krankovel_answer a = compile(sheet, length, &c);
    return a.number ? a : write_file(&c.w, c.p.statements, buffer, room);
}

krankovel_listing krankovel_compile_cells(const uint8_t *sheet, size_t length, uint64_t *words, size_t room)
{
    struct compiled c;
    krankovel_answer a = compile(sheet, length, &c);
    if (!a.number && room < c.w.cells)
        a = refusal(BUFFER, c.w.cells);
    if (!a.number)
        hand_out(&c.w, words);
    return listing(a, &c.w);
}

krankovel_answer krankovel_fits(const uint8_t *sheet, size_t length, uint64_t state)
{
    struct compiled c;
    krankovel_answer a = compile(sheet, length, &c);
    return a.number || fits(&c.p, state) ? a : refusal(STATE, 0);
}

bool krankovel_rest(uint64_t state)
{
    return state == 1;
}

krankovel_reaction krankovel_react(const uint8_t *sheet, size_t length, uint64_t state, uint64_t event)
{
    struct compiled c;
    krankovel_answer a = compile(sheet, length, &c);
    if (!a.number && !event_ok(c.p.inputs, event))
        a = refusal(EVENT, 0);
    if (!a.number && !fits(&c.p, state))
        a = refusal(STATE, 0);
    if (a.number)
        return reaction(a, 0, state);
    uint64_t emissions = react(&c.p, asked(&c.p), &state, event);
    return reaction(a, emissions, state);
}

/* EVENT, then STATE, then BUFFER. */
static krankovel_answer many_ok(krankovel_answer a, unsigned inputs, bool fit, const uint64_t *events, size_t count, size_t room)
{
    for (size_t i = 0; i < count; i++)
        if (!event_ok(inputs, events[i]))
            return refusal(EVENT, 0);
    if (!fit)
        return refusal(STATE, 0);
    return room < count ? refusal(BUFFER, count) : a;
}

static inline size_t least(size_t a, size_t b)
{
    return a < b ? a : b;
}

krankovel_course krankovel_react_many(const uint8_t *sheet, size_t length, uint64_t state, const uint64_t *events, size_t count,
    uint64_t *emissions, size_t emissions_room, uint64_t *states, size_t states_room)
{
    struct compiled c;
    krankovel_answer a = compile(sheet, length, &c);
    if (!a.number)
        a = many_ok(a, c.p.inputs, fits(&c.p, state), events, count, least(emissions_room, states_room));
    if (a.number)
        return course(a, state);
    uint64_t asks = asked(&c.p);
    for (size_t i = 0; i < count; i++) {
        emissions[i] = react(&c.p, asks, &state, events[i]);
        states[i] = state;
    }
    return course(a, state);
}

/* ---- the entries for netlists ---- */

/* A netlist that was taken: CYCLE, or its machine. */
static krankovel_answer make(const struct netlist *w, struct machine *m)
{
    uint16_t order[CELLS];
    unsigned lowest;
    int gates = order_gates(w, order, &lowest);
    if (gates < 0)
        return refusal(CYCLE, lowest);
    if (m)
        prepare(w, order, (unsigned)gates, m);
    return acceptance(0, w->cells);
}

static krankovel_answer load_file(const uint8_t *file, size_t length, struct netlist *w, struct machine *m)
{
    struct text t = {.bytes = file, .length = length};
    if (read_netlist(&t, w) < 0)
        return refusal(t.number, t.place);
    return make(w, m);
}

static krankovel_answer load_words(uint32_t inputs, uint32_t outputs, const uint64_t *words, size_t count, struct netlist *w, struct machine *m)
{
    unsigned wrong = take_words(inputs, outputs, words, count, w);
    return wrong ? refusal(wrong, 0) : make(w, m);
}

static krankovel_reaction clocked(krankovel_answer a, struct machine *m, uint64_t state, uint64_t event)
{
    if (!a.number && !event_ok(m->inputs, event))
        a = refusal(EVENT, 0);
    if (!a.number && !state_ok(m->registers, state))
        a = refusal(STATE, 0);
    if (a.number)
        return reaction(a, 0, state);
    uint64_t outputs = clock(m, &state, event);
    return reaction(a, outputs, state);
}

static krankovel_course clocked_many(krankovel_answer a, struct machine *m, uint64_t state, const uint64_t *events, size_t count,
    uint64_t *outputs, uint64_t *states, size_t room)
{
    if (!a.number)
        a = many_ok(a, m->inputs, state_ok(m->registers, state), events, count, room);
    if (a.number)
        return course(a, state);
    for (size_t i = 0; i < count; i++) {
        outputs[i] = clock(m, &state, events[i]);
        states[i] = state;
    }
    return course(a, state);
}

krankovel_answer krankovel_check_file(const uint8_t *file, size_t length)
{
    struct netlist w;
    return load_file(file, length, &w, NULL);
}

krankovel_listing krankovel_read_file(const uint8_t *file, size_t length, uint64_t *words, size_t room)
{
    struct netlist w;
    krankovel_answer a = load_file(file, length, &w, NULL);
    if (!a.number && room < w.cells)
        a = refusal(BUFFER, w.cells);
    if (!a.number)
        hand_out(&w, words);
    return listing(a, &w);
}

krankovel_answer krankovel_check_cells(uint32_t inputs, uint32_t outputs, const uint64_t *words, size_t count)
{
    struct netlist w;
    return load_words(inputs, outputs, words, count, &w, NULL);
}

krankovel_answer krankovel_write_cells(uint32_t inputs, uint32_t outputs, const uint64_t *words, size_t count, uint8_t *buffer, size_t room)
{
    struct netlist w;
    krankovel_answer a = load_words(inputs, outputs, words, count, &w, NULL);
    return a.number ? a : write_file(&w, 0, buffer, room);
}

krankovel_reaction krankovel_react_file(const uint8_t *file, size_t length, uint64_t state, uint64_t event)
{
    struct netlist w;
    struct machine m;
    krankovel_answer a = load_file(file, length, &w, &m);
    return clocked(a, &m, state, event);
}

krankovel_reaction krankovel_react_cells(uint32_t inputs, uint32_t outputs, const uint64_t *words, size_t count, uint64_t state, uint64_t event)
{
    struct netlist w;
    struct machine m;
    krankovel_answer a = load_words(inputs, outputs, words, count, &w, &m);
    return clocked(a, &m, state, event);
}

krankovel_course krankovel_react_file_many(const uint8_t *file, size_t length, uint64_t state, const uint64_t *events, size_t count,
    uint64_t *outputs, size_t outputs_room, uint64_t *states, size_t states_room)
{
    struct netlist w;
    struct machine m;
    krankovel_answer a = load_file(file, length, &w, &m);
    return clocked_many(a, &m, state, events, count, outputs, states, least(outputs_room, states_room));
}

krankovel_course krankovel_react_cells_many(uint32_t inputs, uint32_t outputs, const uint64_t *words, size_t cells, uint64_t state,
    const uint64_t *events, size_t count, uint64_t *signals, size_t signals_room, uint64_t *states, size_t states_room)
{
    struct netlist w;
    struct machine m;
    krankovel_answer a = load_words(inputs, outputs, words, cells, &w, &m);
    return clocked_many(a, &m, state, events, count, signals, states, least(signals_room, states_room));
}

/* ---- tables ---- */

krankovel_reordered krankovel_reorder(krankovel_table table, uint64_t order)
{
    krankovel_reordered r = {.table = table};
    unsigned left[KRANKOVEL_PINS] = {0, 1, 2, 3}, carried[KRANKOVEL_PINS], share = 24, at = (unsigned)order;
    if (order >= 24) {
        r.number = ORDER;
        return r;
    }
    for (unsigned q = 0; q < KRANKOVEL_PINS; q++) {
        share /= KRANKOVEL_PINS - q;
        unsigned k = at / share;
        at %= share;
        carried[q] = left[k];
        r.table.pins[q] = table.pins[left[k]];
        for (; k + 1 < KRANKOVEL_PINS - q; k++)
            left[k] = left[k + 1];
    }
    r.table.truth = 0;
    for (unsigned b = 0; b < 1u << KRANKOVEL_PINS; b++) {
        unsigned to = 0;
        for (unsigned q = 0; q < KRANKOVEL_PINS; q++)
            to |= (b >> carried[q] & 1) << q;
        r.table.truth |= (uint16_t)((table.truth >> b & 1) << to);
    }
    return r;
}

/* ---- covers: a table's cone is searched to the depth, the value at all settings in one word. Marks count from a base that grows by two a table, so that none is cleared. ---- */

enum { TABLE_SIZE = 1 + KRANKOVEL_PINS + 1 };

struct cut {
    const struct netlist *w;
    uint32_t base;
    uint32_t mark[CELLS]; /* up to the base new, one past it a pin that waits, two past it a cell whose word is known */
    uint16_t word[CELLS];
    uint8_t tabled[CELLS]; /* 1 a cell that has a table, 2 one that had it already */
};

/* Whether the way down from n, which is new, meets no register and no input but pins; then its word is known. */
static bool cut_out(struct cut *k, unsigned n)
{
    struct cell c = k->w->at[n];
    uint32_t base = k->base;
    unsigned word = -(unsigned)c.kind; /* of a constant */
    if (is_gate(c)) {
        if (k->mark[c.x] > base)
            k->mark[c.x] = base + 2;
        else if (!cut_out(k, c.x))
            return false;
        if (k->mark[c.y] > base)
            k->mark[c.y] = base + 2;
        else if (!cut_out(k, c.y))
            return false;
        unsigned x = k->word[c.x], y = k->word[c.y];
        word = c.kind == OR ? x | y : c.kind == AND ? x & y : x & ~y;
    } else if (c.kind > HIGH) {
        return false;
    }
    k->mark[n] = base + 2;
    k->word[n] = (uint16_t)word;
    return true;
}

static inline bool carried(const struct cut *k, unsigned n)
{
    return n < k->w->cells && (k->tabled[n] || !is_gate(k->w->at[n]));
}

static bool right_table(struct cut *k, const uint16_t *t)
{
    static const uint16_t words[KRANKOVEL_PINS] = {0xaaaa, 0xcccc, 0xf0f0, 0xff00};
    const uint16_t *pins = t + 1;
    uint32_t base = k->base;
    unsigned n = t[0], counts = 0xffff;
    if (n >= k->w->cells || !is_gate(k->w->at[n]) || k->tabled[n] == 2)
        return false;
    for (int p = 0; p < KRANKOVEL_PINS; p++) {
        unsigned x = pins[p];
        if (!carried(k, x))
            return false;
        if (k->mark[x] > base) {
            counts &= ~(k->word[x] ^ words[p]);
        } else {
            k->mark[x] = base + 1;
            k->word[x] = words[p];
        }
    }
    if (k->mark[n] > base || !cut_out(k, n))
        return false;
    for (int p = 0; p < KRANKOVEL_PINS; p++)
        if (pins[p] > HIGH && k->mark[pins[p]] == base + 1)
            return false;
    return ((k->word[n] ^ t[TABLE_SIZE - 1]) & counts) == 0;
}

static bool complete(const struct cut *k)
{
    const struct netlist *w = k->w;
    for (unsigned n = 2 + w->inputs; n < 2 + w->inputs + w->outputs; n++)
        if (!carried(k, n))
            return false;
    for (unsigned n = 0; n < w->cells; n++)
        if (w->at[n].kind == REGISTER && !carried(k, w->at[n].x))
            return false;
    return true;
}

/* A cover of a netlist that was taken. */
static krankovel_answer covered(krankovel_answer a, const struct netlist *w, const uint16_t *cover, size_t length)
{
    struct cut k;
    size_t tables = length / TABLE_SIZE;
    if (a.number)
        return a;
    k.w = w;
    memset(k.mark, 0, w->cells * sizeof *k.mark);
    memset(k.tabled, 0, w->cells);
    for (size_t i = 0; i < tables; i++)
        if (cover[i * TABLE_SIZE] < w->cells)
            k.tabled[cover[i * TABLE_SIZE]] = 1;
    for (size_t i = 0; i < tables; i++) {
        k.base = 2 * (uint32_t)i;
        if (!right_table(&k, cover + i * TABLE_SIZE))
            return refusal(COVER, i);
        k.tabled[cover[i * TABLE_SIZE]] = 2;
    }
    if (length % TABLE_SIZE || !complete(&k))
        return refusal(COVER, tables);
    return a;
}

krankovel_answer krankovel_cover_file(const uint8_t *file, size_t file_length, const uint16_t *cover, size_t length)
{
    struct netlist w;
    return covered(load_file(file, file_length, &w, NULL), &w, cover, length);
}

krankovel_answer krankovel_cover_cells(uint32_t inputs, uint32_t outputs, const uint64_t *words, size_t count, const uint16_t *cover, size_t length)
{
    struct netlist w;
    return covered(load_words(inputs, outputs, words, count, &w, NULL), &w, cover, length);
}
