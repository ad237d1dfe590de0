/* The recipe machine in plain C, written for speed without tricks: the tables
 * are decoded once, while they are checked; constants and variables are read
 * inline at every operand; table bases stand in locals; one loop with one
 * switch carries out the steps. It makes the same checks as the paper, the
 * laws in three loops included, and finds a spread from its operands' spreads.
 */
#include <stdbool.h>

#include "machines.h"

#define likely(x) __builtin_expect(!!(x), 1)
#define unlikely(x) __builtin_expect(!!(x), 0)

struct place { uint32_t value, tag; };

/* An evaluated expression, in two registers; from FAULT on the tag says that
 * the value is the number of an end. */
struct answer { uint64_t value, tag; };
enum { FAULT = 256 };

/* An operand below NODES_AT is the number of a place: a variable, or a
 * constant, which has a place of its own. From NODES_AT on it is a node. */
enum { CELLS_AT = MOST_VARIABLES, CONSTANTS_AT = CELLS_AT + MOST_CELLS,
       NODES_AT = CONSTANTS_AT + MOST_EXPRESSIONS };

enum operator { CELL, NEG, NOT, ABS, ADD, SUB, MUL, DIV, REM, LESS, MOST, SAME, OTHER };

struct node { uint8_t operator, more; uint16_t a, b; }; /* more: spread - 1 */
struct statement { uint8_t kind, port; uint16_t a, b, c; };
enum kind { SKIP, ASSIGN, STORE, THEN, IF, WHILE, EMIT };

struct frame { uint8_t kind, tag; uint16_t at; };
enum { NEXT, JOIN, LOOP };

struct machine {
    struct place place[NODES_AT];
    struct node node[MOST_EXPRESSIONS];
    struct statement statement[MOST_STATEMENTS];
    uint8_t join[MOST_TAGS][MOST_TAGS];
    uint8_t clearance[MOST_PORTS];
    uint32_t cells;
};

struct counts { uint32_t E, S, V, M; };

static uint32_t half_at(const uint8_t *b) { return b[0] | (uint32_t)b[1] << 8; }
static uint32_t word_at(const uint8_t *b) { return half_at(b) | half_at(b + 2) << 16; }

static void put_word(uint8_t *b, uint32_t w)
{
    b[0] = (uint8_t)w;
    b[1] = (uint8_t)(w >> 8);
    b[2] = (uint8_t)(w >> 16);
    b[3] = (uint8_t)(w >> 24);
}

/* ---- expressions */

static struct answer value(const struct machine *m, uint32_t e);

static inline struct answer operand(const struct machine *m, uint32_t a)
{
    if (likely(a < NODES_AT))
        return (struct answer){ m->place[a].value, m->place[a].tag };
    return value(m, a - NODES_AT);
}

static inline struct answer fault(uint32_t number) { return (struct answer){ number, FAULT }; }

static struct answer value(const struct machine *m, uint32_t e)
{
    const struct node *n = &m->node[e];
    struct answer x = operand(m, n->a), y;
    uint32_t v, w, result;

    if (unlikely(x.tag >= FAULT))
        return x;
    v = (uint32_t)x.value;
    switch (n->operator) {
    case CELL:
        if (unlikely(v >= m->cells))
            return fault(5);
        return (struct answer){ m->place[CELLS_AT + v].value, m->join[m->place[CELLS_AT + v].tag][x.tag] };
    case NEG:
        return (struct answer){ (uint32_t)(0 - v), x.tag };
    case NOT:
        return (struct answer){ v == 0, x.tag };
    case ABS:
        return (struct answer){ (int32_t)v < 0 ? (uint32_t)(0 - v) : v, x.tag };
    }
    y = operand(m, n->b);
    if (unlikely(y.tag >= FAULT))
        return y;
    w = (uint32_t)y.value;
    switch (n->operator) {
    case ADD: result = v + w; break;
    case SUB: result = v - w; break;
    case MUL: result = v * w; break;
    case DIV:
        if (unlikely(w == 0))
            return fault(6);
        result = unlikely(w == UINT32_MAX) ? 0 - v : (uint32_t)((int32_t)v / (int32_t)w);
        break;
    case REM:
        if (unlikely(w == 0))
            return fault(6);
        result = unlikely(w == UINT32_MAX) ? 0 : (uint32_t)((int32_t)v % (int32_t)w);
        break;
    case LESS: result = (int32_t)v < (int32_t)w; break;
    case MOST: result = (int32_t)v <= (int32_t)w; break;
    case SAME: result = v == w; break;
    default: result = v != w; break;
    }
    return (struct answer){ result, m->join[x.tag][y.tag] };
}

/* ---- the run */

struct ran { uint32_t end, place, left, records; };

static struct ran run(struct machine *m, uint32_t statements, uint8_t *record, size_t room, uint32_t budget)
{
    const struct statement *const statement = m->statement;
    struct place *const place = m->place;
    uint8_t(*const join)[MOST_TAGS] = m->join;
    struct frame frame[MOST_STATEMENTS];
    uint32_t depth = 0, tag = 0, left = budget, records = 0, at = statements - 1;
    struct answer x, y;

#define END(number, where) return (struct ran){ number, where, left, records }
    for (;;) {
        if (unlikely(left == 0))
            END(1, 0);
        left--;
        const struct statement *s = &statement[at];
        switch (s->kind) {
        case SKIP:
            break;
        case ASSIGN: {
            struct place *old = &place[s->b];
            x = operand(m, s->a);
            if (unlikely(x.tag >= FAULT))
                END((uint32_t)x.value, at);
            if (unlikely(join[tag][old->tag] != old->tag))
                END(2, at);
            old->value = (uint32_t)x.value;
            old->tag = join[tag][x.tag];
            break;
        }
        case STORE: {
            struct place *old;
            uint32_t both;
            x = operand(m, s->a);
            if (unlikely(x.tag >= FAULT))
                END((uint32_t)x.value, at);
            y = operand(m, s->b);
            if (unlikely(y.tag >= FAULT))
                END((uint32_t)y.value, at);
            if (unlikely(x.value >= m->cells))
                END(5, at);
            old = &place[CELLS_AT + x.value];
            both = join[tag][x.tag];
            if (unlikely(join[both][old->tag] != old->tag))
                END(3, at);
            old->value = (uint32_t)y.value;
            old->tag = join[both][y.tag];
            break;
        }
        case THEN:
            if (unlikely(depth >= statements))
                END(8, at);
            frame[depth++] = (struct frame){ NEXT, 0, s->b };
            at = s->a;
            continue;
        case IF:
            x = operand(m, s->a);
            if (unlikely(x.tag >= FAULT))
                END((uint32_t)x.value, at);
            if (unlikely(depth >= statements))
                END(8, at);
            frame[depth++] = (struct frame){ JOIN, (uint8_t)tag, 0 };
            tag = join[tag][x.tag];
            at = x.value != 0 ? s->b : s->c;
            continue;
        case WHILE:
            x = operand(m, s->a);
            if (unlikely(x.tag >= FAULT))
                END((uint32_t)x.value, at);
            if (x.value == 0)
                break;
            if (unlikely(depth >= statements))
                END(8, at);
            frame[depth++] = (struct frame){ LOOP, (uint8_t)tag, (uint16_t)at };
            tag = join[tag][x.tag];
            at = s->b;
            continue;
        default: {
            const uint32_t clearance = m->clearance[s->port];
            x = operand(m, s->a);
            if (unlikely(x.tag >= FAULT))
                END((uint32_t)x.value, at);
            if (unlikely(join[join[tag][x.tag]][clearance] != clearance))
                END(4, at);
            if (unlikely(room < 5))
                END(7, at);
            record[0] = s->port;
            put_word(record + 1, (uint32_t)x.value);
            record += 5;
            room -= 5;
            records++;
            break;
        }
        }
        /* No statement waits: frames are taken until one does. */
        for (;;) {
            if (depth == 0)
                END(0, 0);
            if (unlikely(left == 0))
                END(1, 0);
            left--;
            const struct frame f = frame[depth - 1];
            if (f.kind == NEXT) {
                depth--;
                at = f.at;
                break;
            }
            if (f.kind == LOOP) {
                x = operand(m, statement[f.at].a);
                if (unlikely(x.tag >= FAULT))
                    END((uint32_t)x.value, f.at);
                if (x.value != 0) {
                    tag = join[tag][x.tag];
                    at = statement[f.at].b;
                    break;
                }
            }
            depth--;
            tag = f.tag;
        }
    }
#undef END
}

/* ---- the checks, decoding as they go. A refusal is its number with its
 * place above it, 0 none. */

static uint32_t refusal(uint32_t number, uint32_t place) { return number | place << 16; }

static uint32_t read_header(const uint8_t *r, size_t len, struct counts *n)
{
    if (len < 16)
        return 16;
    if (r[0] != 'R' || r[1] != 'J' || r[2] != 'R')
        return 17;
    if (half_at(r + 3) != 1)
        return 18;
    *n = (struct counts){ half_at(r + 6), half_at(r + 8), half_at(r + 10), half_at(r + 12) };
    if (r[5] != 0 || half_at(r + 14) != 0 || n->E > MOST_EXPRESSIONS || n->S < 1 ||
        n->S > MOST_STATEMENTS || n->V > MOST_VARIABLES || n->M > MOST_CELLS)
        return 19;
    return len == 16 + 8 * (size_t)(n->E + n->S) ? 0 : 16;
}

/* For each expression, its operand code and its spread less one. */
struct known { uint16_t code; uint8_t more; };

static uint32_t read_expressions(struct machine *m, struct known *known, const uint8_t *r, const struct counts *n)
{
    for (uint32_t e = 0; e < n->E; e++, r += 8) {
        const uint32_t op = r[1], a = half_at(r + 2), b = word_at(r + 4);
        uint32_t more = 0;

        known[e].code = (uint16_t)(NODES_AT + e);
        switch (r[0]) {
        case 1:
            if (op != 0 || a != 0)
                return refusal(20, e);
            m->place[CONSTANTS_AT + e] = (struct place){ b, 0 };
            known[e].code = (uint16_t)(CONSTANTS_AT + e);
            break;
        case 2:
            if (op != 0 || a >= n->V || b != 0)
                return refusal(20, e);
            known[e].code = (uint16_t)a;
            break;
        case 3:
        case 4:
            if (op > (r[0] == 3 ? 0u : 2u) || a >= e || b != 0)
                return refusal(20, e);
            more = 1u + known[a].more;
            m->node[e] = (struct node){ (uint8_t)(r[0] == 3 ? CELL : NEG + op), 0, known[a].code, 0 };
            break;
        case 5:
            if (op > 8 || a >= e || b >= e)
                return refusal(20, e);
            more = 2u + known[a].more + known[b].more;
            m->node[e] = (struct node){ (uint8_t)(ADD + op), 0, known[a].code, known[b].code };
            break;
        default:
            return refusal(20, e);
        }
        if (more >= MOST_SPREAD)
            return refusal(21, e);
        known[e].more = (uint8_t)more;
    }
    return 0;
}

static uint32_t read_statements(struct machine *m, const struct known *known, const uint8_t *r, const struct counts *n)
{
    for (uint32_t i = 0; i < n->S; i++, r += 8) {
        const uint32_t kind = r[0], port = r[1], a = half_at(r + 2), b = half_at(r + 4), c = half_at(r + 6);
        struct statement *s = &m->statement[i];

        if (kind > EMIT || (kind != EMIT && port != 0) || (kind != IF && c != 0))
            return refusal(22, i);
        s->kind = (uint8_t)kind;
        s->port = (uint8_t)port;
        switch (kind) {
        case SKIP:
            if (a != 0 || b != 0)
                return refusal(22, i);
            break;
        case ASSIGN:
            if (a >= n->V || b >= n->E)
                return refusal(22, i);
            s->a = known[b].code;
            s->b = (uint16_t)a;
            break;
        case STORE:
            if (a >= n->E || b >= n->E)
                return refusal(22, i);
            s->a = known[a].code;
            s->b = known[b].code;
            break;
        case THEN:
            if (a >= i || b >= i)
                return refusal(22, i);
            s->a = (uint16_t)a;
            s->b = (uint16_t)b;
            break;
        default: /* IF, WHILE and EMIT begin with an expression */
            if (a >= n->E || (kind == EMIT ? b != 0 : b >= i) || (kind == IF && c >= i))
                return refusal(22, i);
            s->a = known[a].code;
            s->b = (uint16_t)b;
            s->c = (uint16_t)c;
            break;
        }
    }
    return 0;
}

static uint32_t read_policy(struct machine *m, const uint8_t *p, size_t len)
{
    uint32_t n, ports;

    if (len < 8 || p[0] != 'R' || p[1] != 'J' || p[2] != 'P' || half_at(p + 3) != 1 || p[5] != 0)
        return 23;
    n = p[6];
    ports = p[7];
    if (n < 1 || n > MOST_TAGS || ports > MOST_PORTS || len != 8 + n * n + ports)
        return 23;
    for (uint32_t i = 8; i < len; i++)
        if (p[i] >= n)
            return refusal(24, i);
    for (uint32_t t = 0; t < n; t++)
        for (uint32_t u = 0; u < n; u++)
            m->join[t][u] = p[8 + n * t + u];
    for (uint32_t k = 0; k < ports; k++)
        m->clearance[k] = p[8 + n * n + k];
    for (uint32_t t = 0; t < n; t++) {
        if (m->join[t][t] != t || m->join[0][t] != t)
            return 25;
        for (uint32_t u = 0; u < n; u++) {
            const uint32_t tu = m->join[t][u];
            if (m->join[u][t] != tu)
                return 25;
            for (uint32_t w = 0; w < n; w++)
                if (m->join[tu][w] != m->join[t][m->join[u][w]])
                    return 25;
        }
    }
    return 0;
}

static uint32_t read_ports(const struct machine *m, uint32_t statements, uint32_t ports)
{
    for (uint32_t i = 0; i < statements; i++)
        if (m->statement[i].kind == EMIT && m->statement[i].port >= ports)
            return refusal(26, i);
    return 0;
}

static uint32_t read_places(struct place *to, uint32_t count, uint32_t first, uint32_t tags, const uint8_t *memory)
{
    memory += 5 * first;
    for (uint32_t i = 0; i < count; i++, memory += 5) {
        if (unlikely(memory[4] >= tags))
            return refusal(28, first + i);
        to[i] = (struct place){ word_at(memory), memory[4] };
    }
    return 0;
}

static void write_places(const struct place *from, uint32_t count, uint8_t *memory)
{
    for (uint32_t i = 0; i < count; i++, memory += 5) {
        put_word(memory, from[i].value);
        memory[4] = (uint8_t)from[i].tag;
    }
}

static uint32_t report_to(uint8_t *report, uint32_t end, uint32_t place, uint32_t steps, uint32_t records)
{
    put_word(report, end | place << 16);
    put_word(report + 4, steps);
    put_word(report + 8, records);
    return end;
}

uint32_t plain_judge(const uint8_t *recipe, size_t recipe_len, const uint8_t *policy,
                     size_t policy_len, uint8_t *memory, size_t memory_len, uint8_t *records,
                     size_t records_len, uint8_t *report, size_t report_len, uint32_t budget)
{
    struct machine m;
    struct known known[MOST_EXPRESSIONS];
    struct counts n;
    struct ran ran;
    uint32_t no;

    if (report_len < 12)
        return 30;
    if ((no = read_header(recipe, recipe_len, &n)) != 0 ||
        (no = read_expressions(&m, known, recipe + 16, &n)) != 0 ||
        (no = read_statements(&m, known, recipe + 16 + 8 * n.E, &n)) != 0 ||
        (no = read_policy(&m, policy, policy_len)) != 0 ||
        (no = read_ports(&m, n.S, policy[7])) != 0 ||
        (no = memory_len == 5 * (size_t)(n.V + n.M) ? 0 : 27) != 0 ||
        (no = read_places(m.place, n.V, 0, policy[6], memory)) != 0 ||
        (no = read_places(m.place + CELLS_AT, n.M, n.V, policy[6], memory)) != 0)
        return report_to(report, no & 65535, no >> 16, 0, 0);

    if (budget == 0)
        budget = HOUSE_BUDGET;
    m.cells = n.M;
    ran = run(&m, n.S, records, records_len, budget);
    write_places(m.place, n.V, memory);
    write_places(m.place + CELLS_AT, n.M, memory + 5 * n.V);
    return report_to(report, ran.end, ran.place, budget - ran.left, ran.records);
}
