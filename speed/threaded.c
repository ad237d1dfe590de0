/* The recipe machine in C, written to be as fast as an interpreter gets while
 * every check of the paper is still made at every step.
 *
 * What it does for speed, and why each of these is exact:
 *
 * 1. Tags are sets. In a lawful policy let above(t) be the set of all tags
 *    that t lies under. Then above(join(t,u)) = above(t) & above(u), different
 *    tags have different sets, and t lies under u exactly when above(u) is a
 *    part of above(t). So a join is one AND and no table is read in the run.
 *    Conversely, a table that is commutative, with join(t,t) = t, and whose
 *    sets obey that equation, is associative. So the same equation, over
 *    pairs, stands for the law over triples (see read_policy).
 *
 * 2. The tables are decoded once, while they are checked. Variables, cells and
 *    constants share one array of places, so that any leaf is one index.
 *
 * 3. A statement's handler is chosen by its kind and by the shape of its
 *    expression: a leaf, one operator over leaves (operands read inline), or
 *    deeper (a function chosen by operator and by which operands are leaves).
 *
 * 4. Handlers hand on to each other by calls in tail position, so the state of
 *    the run stays in argument registers. A frame holds the handler that takes
 *    it; the lowest frame's handler ends the run, so "done" costs no test.
 *    gcc turns these calls into jumps at -O2 and above; without that the C
 *    stack would grow with every step.
 */
#include <stdbool.h>
#include <string.h>

#include "machines.h"

#ifndef __OPTIMIZE__
#error "threaded.c is for -O2 and above: its steps are calls in tail position"
#endif

#define INLINE static inline __attribute__((always_inline))

/* Each function of the run begins on a line of the instruction cache: where
 * the linker happens to put them costs up to a tenth otherwise. */
#define HOT static __attribute__((aligned(64)))

#define likely(x) __builtin_expect(!!(x), 1)
#define unlikely(x) __builtin_expect(!!(x), 0)

/* A value and the set of tags that its tag lies under. No such set is empty:
 * every tag lies under itself. */
struct place { uint32_t value, above; };

/* An evaluated expression, in two registers. An empty set marks a fault, and
 * the value is then its number. */
struct answer { uint64_t value, above; };

struct machine;
struct statement;
struct frame;
struct node;

typedef struct answer find_fn(const struct node *n, const struct machine *m);
typedef void step_fn(struct machine *m, const struct statement *s, struct frame *top,
                     uint32_t left, uint32_t above);

/* An expression. An operand is the number of a place where it is a leaf, and
 * else the offset of its node. A leaf's own place is its a. */
struct node {
    find_fn *find;
    uint16_t a, b;
    uint8_t shape;
    uint8_t more; /* spread - 1 */
};

/* A statement. a and b are copied from its expression, where that is flat;
 * c and d are a variable, or offsets of statements. */
struct statement {
    step_fn *begin;
    uint16_t a, b, c, d;
};

struct frame {
    step_fn *take;
    const struct statement *at;
    uint32_t above;
};

enum { CELLS_AT = MOST_VARIABLES, CONSTANTS_AT = CELLS_AT + MOST_CELLS,
       PLACES = CONSTANTS_AT + MOST_EXPRESSIONS };

/* Nothing in here is cleared: the checks write what the run reads. */
struct machine {
    struct place place[PLACES];
    struct node node[MOST_EXPRESSIONS];
    struct statement statement[MOST_STATEMENTS];
    struct frame frame[1 + MOST_STATEMENTS]; /* frame[0] ends the run */
    struct frame *last;                      /* the frame beyond which no push goes */
    uint32_t cells;
    uint32_t clearance[MOST_PORTS];
    uint16_t emits[MOST_STATEMENTS]; /* which statements emit */
    uint32_t emit_count;
    bool assigns, stores;
    uint8_t *record, *record_end;
    /* the result */
    uint32_t end, place_of_end, left;
};

/* The compiler makes one load or store of each of these. */
INLINE uint32_t half_at(const uint8_t *b) { return b[0] | (uint32_t)b[1] << 8; }
INLINE uint32_t word_at(const uint8_t *b) { return half_at(b) | half_at(b + 2) << 16; }

INLINE void put_word(uint8_t *b, uint32_t w)
{
#if __BYTE_ORDER__ == __ORDER_LITTLE_ENDIAN__
    memcpy(b, &w, 4);
#else
    b[0] = (uint8_t)w;
    b[1] = (uint8_t)(w >> 8);
    b[2] = (uint8_t)(w >> 16);
    b[3] = (uint8_t)(w >> 24);
#endif
}

/* Read in two halves, as places are written in two halves: a compiler that
 * reads the pair at once makes the processor wait for both writes. */
INLINE struct place at(const struct machine *m, uint32_t i)
{
    return (struct place){ m->place[i].value, m->place[i].above };
}

/* ---- one operator on two places
 *
 * `fault` is a constant 0 where the operator cannot fail, so that after
 * inlining nothing tests it. */

struct worked { uint32_t value, above, fault; };

INLINE struct worked gives(uint32_t value, uint32_t above)
{
    return (struct worked){ value, above, 0 };
}

#define OPERATOR(op, result)                                                               \
    INLINE struct worked op_##op(struct place x, struct place y)                           \
    {                                                                                      \
        return gives(result, x.above & y.above);                                           \
    }
OPERATOR(add, x.value + y.value)
OPERATOR(sub, x.value - y.value)
OPERATOR(mul, x.value * y.value)
OPERATOR(less, (int32_t)x.value < (int32_t)y.value)
OPERATOR(most, (int32_t)x.value <= (int32_t)y.value)
OPERATOR(same, x.value == y.value)
OPERATOR(other, x.value != y.value)

/* The divisors 0 and -1 are the two that the processor's division cannot take
 * for every dividend: one test finds both. */
INLINE struct worked op_div(struct place x, struct place y)
{
    if (unlikely(y.value + 1 < 2)) {
        if (y.value == 0)
            return (struct worked){ 0, 0, 6 };
        return gives(0 - x.value, x.above & y.above);
    }
    return gives((uint32_t)((int32_t)x.value / (int32_t)y.value), x.above & y.above);
}

INLINE struct worked op_rem(struct place x, struct place y)
{
    if (unlikely(y.value + 1 < 2)) {
        if (y.value == 0)
            return (struct worked){ 0, 0, 6 };
        return gives(0, x.above & y.above);
    }
    return gives((uint32_t)((int32_t)x.value % (int32_t)y.value), x.above & y.above);
}

#define ON_ONE(op, result)                                                                 \
    INLINE struct worked un_##op(struct place x, const struct machine *m)                  \
    {                                                                                      \
        (void)m;                                                                           \
        return gives(result, x.above);                                                     \
    }
ON_ONE(neg, 0 - x.value)
ON_ONE(not, x.value == 0)
ON_ONE(abs, (int32_t)x.value < 0 ? 0 - x.value : x.value)

/* A negative index is a large unsigned one. */
INLINE struct worked un_cell(struct place x, const struct machine *m)
{
    struct place c;

    if (unlikely(x.value >= m->cells))
        return (struct worked){ 0, 0, 5 };
    c = at(m, CELLS_AT + x.value);
    return gives(c.value, c.above & x.above);
}

#define BINARIES(X) X(add) X(sub) X(mul) X(div) X(rem) X(less) X(most) X(same) X(other)
#define UNARIES(X) X(cell) X(neg) X(not) X(abs)

/* ---- functions for the nodes: by operator, and by which operands are leaves */

INLINE struct answer answered(struct worked w)
{
    if (w.fault)
        return (struct answer){ w.fault, 0 };
    return (struct answer){ w.value, w.above };
}

INLINE struct answer find(const struct machine *m, uint32_t offset)
{
    const struct node *n = (const struct node *)((const char *)m->node + offset);

    return n->find(n, m);
}

INLINE struct place held(struct answer x)
{
    return (struct place){ (uint32_t)x.value, (uint32_t)x.above };
}

#define BINARY(op)                                                                         \
    HOT struct answer op##_ll(const struct node *n, const struct machine *m)               \
    {                                                                                      \
        return answered(op_##op(at(m, n->a), at(m, n->b)));                                \
    }                                                                                      \
    HOT struct answer op##_xl(const struct node *n, const struct machine *m)               \
    {                                                                                      \
        struct answer x = find(m, n->a);                                                   \
        if (unlikely(x.above == 0))                                                        \
            return x;                                                                      \
        return answered(op_##op(held(x), at(m, n->b)));                                    \
    }                                                                                      \
    HOT struct answer op##_lx(const struct node *n, const struct machine *m)               \
    {                                                                                      \
        struct answer y = find(m, n->b);                                                   \
        if (unlikely(y.above == 0))                                                        \
            return y;                                                                      \
        return answered(op_##op(at(m, n->a), held(y)));                                    \
    }                                                                                      \
    HOT struct answer op##_xx(const struct node *n, const struct machine *m)               \
    {                                                                                      \
        struct answer x = find(m, n->a), y;                                                \
        if (unlikely(x.above == 0))                                                        \
            return x;                                                                      \
        y = find(m, n->b);                                                                 \
        if (unlikely(y.above == 0))                                                        \
            return y;                                                                      \
        return answered(op_##op(held(x), held(y)));                                        \
    }
BINARIES(BINARY)

#define UNARY(op)                                                                          \
    HOT struct answer op##_l(const struct node *n, const struct machine *m)                \
    {                                                                                      \
        return answered(un_##op(at(m, n->a), m));                                          \
    }                                                                                      \
    HOT struct answer op##_x(const struct node *n, const struct machine *m)                \
    {                                                                                      \
        struct answer x = find(m, n->a);                                                   \
        if (unlikely(x.above == 0))                                                        \
            return x;                                                                      \
        return answered(un_##op(held(x), m));                                              \
    }
UNARIES(UNARY)

/* The order of these tables is the order of the paper's operators; cell,
 * the paper's kind 3, stands before the unary operators. */
#define BINARY_ROW(op) { op##_ll, op##_xl, op##_lx, op##_xx },
#define UNARY_ROW(op) { op##_l, op##_x },
static find_fn *const binary[9][4] = { BINARIES(BINARY_ROW) };
static find_fn *const unary[4][2] = { UNARIES(UNARY_ROW) };

/* ---- shapes: how a statement comes by its expression's value */

#define SHAPES(X) X(leaf) UNARIES(X) BINARIES(X) X(deep)
#define SHAPE_NAME(k) SHAPE_##k,
enum { SHAPES(SHAPE_NAME) SHAPE_COUNT };

#define GET_UNARY(op)                                                                      \
    INLINE struct worked get_##op(const struct machine *m, uint32_t a, uint32_t b)         \
    {                                                                                      \
        (void)b;                                                                           \
        return un_##op(at(m, a), m);                                                       \
    }
#define GET_BINARY(op)                                                                     \
    INLINE struct worked get_##op(const struct machine *m, uint32_t a, uint32_t b)         \
    {                                                                                      \
        return op_##op(at(m, a), at(m, b));                                                \
    }
UNARIES(GET_UNARY)
BINARIES(GET_BINARY)

INLINE struct worked get_leaf(const struct machine *m, uint32_t a, uint32_t b)
{
    (void)b;
    return gives(m->place[a].value, m->place[a].above);
}

INLINE struct worked get_deep(const struct machine *m, uint32_t a, uint32_t b)
{
    struct answer x = find(m, a);

    (void)b;
    if (unlikely(x.above == 0))
        return (struct worked){ 0, 0, (uint32_t)x.value };
    return gives((uint32_t)x.value, (uint32_t)x.above);
}

/* ---- the steps */

#define STATE                                                                              \
    struct machine *m, const struct statement *s, struct frame *top, uint32_t left, uint32_t above

/* gcc makes jumps of these calls by itself; where the compiler can be held to
 * it, it is. */
#if defined(__has_attribute)
#if __has_attribute(musttail)
#define TAIL __attribute__((musttail)) return
#endif
#endif
#ifndef TAIL
#define TAIL return
#endif

#define BEGIN(t)                                                                           \
    do {                                                                                   \
        s = (t);                                                                           \
        TAIL s->begin(m, s, top, left, above);                                             \
    } while (0)
#define TAKE TAIL top->take(m, s, top, left, above)

/* The budget is looked at before each step; the step is counted even if it
 * ends the run. */
#define TICK                                                                               \
    do {                                                                                   \
        if (unlikely(left == 0))                                                           \
            TAIL spent(m, s, top, left, above);                                            \
        left--;                                                                            \
    } while (0)

/* What a stop does is out of the way of the steps. */
#define STOP(number)                                                                       \
    do {                                                                                   \
        m->end = (number);                                                                 \
        TAIL stopped(m, s, top, left, above);                                              \
    } while (0)

INLINE const struct statement *named(const struct machine *m, uint32_t offset)
{
    return (const struct statement *)((const char *)m->statement + offset);
}

/* Does the tag whose set is `low` lie under the tag whose set is `high`? */
INLINE bool under(uint32_t low, uint32_t high) { return (low & high) == high; }

#define COLD static __attribute__((cold, noinline))

COLD void spent(STATE)
{
    (void)s; (void)top; (void)above;
    m->end = 1;
    m->place_of_end = 0;
    m->left = left;
}

COLD void stopped(STATE)
{
    (void)top; (void)above;
    m->place_of_end = (uint32_t)(s - m->statement);
    m->left = left;
}

HOT void done(STATE)
{
    (void)s; (void)top; (void)above;
    m->end = 0;
    m->place_of_end = 0;
    m->left = left;
}

HOT void take_next(STATE)
{
    TICK;
    s = top->at;
    top--;
    BEGIN(s);
}

HOT void take_join(STATE)
{
    TICK;
    above = top->above;
    top--;
    TAKE;
}

HOT void skip(STATE)
{
    TICK;
    TAKE;
}

HOT void then(STATE)
{
    TICK;
    if (unlikely(top == m->last))
        STOP(8);
    top++;
    top->take = take_next;
    top->at = named(m, s->c);
    BEGIN(named(m, s->a));
}

#define ASSIGN(k)                                                                          \
    HOT void assign_##k(STATE)                                                             \
    {                                                                                      \
        TICK;                                                                              \
        struct worked x = get_##k(m, s->a, s->b);                                          \
        struct place *old = &m->place[s->c];                                               \
        if (unlikely(x.fault))                                                             \
            STOP(x.fault);                                                                 \
        if (unlikely(!under(above, old->above)))                                           \
            STOP(2);                                                                       \
        old->value = x.value;                                                              \
        old->above = above & x.above;                                                      \
        TAKE;                                                                              \
    }
SHAPES(ASSIGN)

/* The two arms of a test begin their statements apart, so that the processor
 * learns each jump by itself. */
#define IF(k)                                                                              \
    HOT void if_##k(STATE)                                                                 \
    {                                                                                      \
        TICK;                                                                              \
        struct worked x = get_##k(m, s->a, s->b);                                          \
        if (unlikely(x.fault))                                                             \
            STOP(x.fault);                                                                 \
        if (unlikely(top == m->last))                                                      \
            STOP(8);                                                                       \
        top++;                                                                             \
        top->take = take_join;                                                             \
        top->above = above;                                                                \
        above &= x.above;                                                                  \
        if (x.value != 0)                                                                  \
            BEGIN(named(m, s->c));                                                         \
        BEGIN(named(m, s->d));                                                             \
    }
SHAPES(IF)

#define LOOP(k)                                                                            \
    HOT void loop_##k(STATE)                                                               \
    {                                                                                      \
        TICK;                                                                              \
        s = top->at;                                                                       \
        struct worked x = get_##k(m, s->a, s->b);                                          \
        if (unlikely(x.fault))                                                             \
            STOP(x.fault);                                                                 \
        if (likely(x.value != 0)) {                                                        \
            above &= x.above;                                                              \
            BEGIN(named(m, s->c));                                                         \
        }                                                                                  \
        above = top->above;                                                                \
        top--;                                                                             \
        TAKE;                                                                              \
    }
SHAPES(LOOP)

#define WHILE(k)                                                                           \
    HOT void while_##k(STATE)                                                              \
    {                                                                                      \
        TICK;                                                                              \
        struct worked x = get_##k(m, s->a, s->b);                                          \
        if (unlikely(x.fault))                                                             \
            STOP(x.fault);                                                                 \
        if (x.value == 0)                                                                  \
            TAKE;                                                                          \
        if (unlikely(top == m->last))                                                      \
            STOP(8);                                                                       \
        top++;                                                                             \
        top->take = loop_##k;                                                              \
        top->at = s;                                                                       \
        top->above = above;                                                                \
        above &= x.above;                                                                  \
        BEGIN(named(m, s->c));                                                             \
    }
SHAPES(WHILE)

#define EMIT(k)                                                                            \
    HOT void emit_##k(STATE)                                                               \
    {                                                                                      \
        TICK;                                                                              \
        struct worked x = get_##k(m, s->a, s->b);                                          \
        uint8_t *r = m->record;                                                            \
        if (unlikely(x.fault))                                                             \
            STOP(x.fault);                                                                 \
        if (unlikely(!under(above & x.above, s->d)))                                       \
            STOP(4);                                                                       \
        if (unlikely(m->record_end - r < 5))                                               \
            STOP(7);                                                                       \
        r[0] = (uint8_t)s->c;                                                              \
        put_word(r + 1, x.value);                                                          \
        m->record = r + 5;                                                                 \
        TAKE;                                                                              \
    }
SHAPES(EMIT)

/* A store has two expressions, and room for the index's a and the value's a:
 * each is a leaf or goes through its node. */
#define STORE(i, v)                                                                        \
    HOT void store_##i##_##v(STATE)                                                        \
    {                                                                                      \
        TICK;                                                                              \
        struct worked x = get_##i(m, s->a, 0), y;                                          \
        struct place *old;                                                                 \
        uint32_t both;                                                                     \
        if (unlikely(x.fault))                                                             \
            STOP(x.fault);                                                                 \
        y = get_##v(m, s->b, 0);                                                           \
        if (unlikely(y.fault))                                                             \
            STOP(y.fault);                                                                 \
        if (unlikely(x.value >= m->cells))                                                 \
            STOP(5);                                                                       \
        old = &m->place[CELLS_AT + x.value];                                               \
        both = above & x.above;                                                            \
        if (unlikely(!under(both, old->above)))                                            \
            STOP(3);                                                                       \
        old->value = y.value;                                                              \
        old->above = both & y.above;                                                       \
        TAKE;                                                                              \
    }
STORE(leaf, leaf)
STORE(leaf, deep)
STORE(deep, leaf)
STORE(deep, deep)

#define ASSIGN_NAME(k) assign_##k,
#define IF_NAME(k) if_##k,
#define WHILE_NAME(k) while_##k,
#define EMIT_NAME(k) emit_##k,
static step_fn *const assign_by[SHAPE_COUNT] = { SHAPES(ASSIGN_NAME) };
static step_fn *const if_by[SHAPE_COUNT] = { SHAPES(IF_NAME) };
static step_fn *const while_by[SHAPE_COUNT] = { SHAPES(WHILE_NAME) };
static step_fn *const emit_by[SHAPE_COUNT] = { SHAPES(EMIT_NAME) };
static step_fn *const store_by[2][2] = { { store_leaf_leaf, store_leaf_deep },
                                         { store_deep_leaf, store_deep_deep } };

/* ---- the checks, decoding as they go. A refusal is its number with its
 * place above it, 0 none. */

INLINE uint32_t refusal(uint32_t number, uint32_t place) { return number | place << 16; }

struct counts { uint32_t E, S, V, M; };

static uint32_t read_header(const uint8_t *r, size_t len, struct counts *n)
{
    if (len < 16)
        return 16;
    if (r[0] != 'R' || r[1] != 'J' || r[2] != 'R')
        return 17;
    if (half_at(r + 3) != 1)
        return 18;
    n->E = half_at(r + 6);
    n->S = half_at(r + 8);
    n->V = half_at(r + 10);
    n->M = half_at(r + 12);
    if (r[5] != 0 || half_at(r + 14) != 0 || n->E > MOST_EXPRESSIONS || n->S < 1 ||
        n->S > MOST_STATEMENTS || n->V > MOST_VARIABLES || n->M > MOST_CELLS)
        return 19;
    if (len != 16 + 8 * (size_t)(n->E + n->S))
        return 16;
    return 0;
}

/* An operand as its user's node names it. */
INLINE uint16_t operand(const struct node *node, uint32_t e)
{
    return node[e].shape == SHAPE_leaf ? node[e].a : (uint16_t)(e * sizeof(struct node));
}

static uint32_t read_expressions(struct machine *m, const uint8_t *r, const struct counts *c)
{
    struct node *node = m->node;
    const uint32_t count = c->E, variables = c->V;

    for (uint32_t e = 0; e < count; e++, r += 8) {
        struct node *n = &node[e];
        const uint32_t head = word_at(r), b = word_at(r + 4);
        const uint32_t op = head >> 8 & 255, a = head >> 16;
        uint32_t more = 0;

        n->b = 0;
        switch (head & 255) {
        case 1:
            if (head != 1)
                return refusal(20, e);
            /* Tag 0 lies under all tags, however many there are. */
            m->place[CONSTANTS_AT + e] = (struct place){ b, UINT32_MAX };
            n->shape = SHAPE_leaf;
            n->a = (uint16_t)(CONSTANTS_AT + e);
            break;
        case 2:
            if (op != 0 || a >= variables || b != 0)
                return refusal(20, e);
            n->shape = SHAPE_leaf;
            n->a = (uint16_t)a;
            break;
        case 3:
        case 4: {
            const uint32_t which = (head & 255) == 3 ? 0 : 1 + op;
            bool leaf;
            if (((head & 255) == 3 ? op != 0 : op > 2) || a >= e || b != 0)
                return refusal(20, e);
            leaf = node[a].shape == SHAPE_leaf;
            more = 1u + node[a].more;
            n->find = unary[which][!leaf];
            n->a = operand(node, a);
            n->shape = leaf ? (uint8_t)(SHAPE_cell + which) : SHAPE_deep;
            break;
        }
        case 5: {
            bool left, right;
            if (op > 8 || a >= e || b >= e)
                return refusal(20, e);
            left = node[a].shape == SHAPE_leaf;
            right = node[b].shape == SHAPE_leaf;
            more = 2u + node[a].more + node[b].more;
            n->find = binary[op][!left + 2 * !right];
            n->a = operand(node, a);
            n->b = operand(node, b);
            n->shape = left && right ? (uint8_t)(SHAPE_add + op) : SHAPE_deep;
            break;
        }
        default:
            return refusal(20, e);
        }
        if (more >= MOST_SPREAD)
            return refusal(21, e);
        n->more = (uint8_t)more;
    }
    return 0;
}

/* Takes over the expression's operands; gives its shape. */
INLINE uint32_t holds(struct statement *s, const struct node *node, uint32_t e)
{
    const struct node *n = &node[e];

    if (n->shape == SHAPE_deep) {
        s->a = (uint16_t)(e * sizeof(struct node));
    } else {
        s->a = n->a;
        s->b = n->b;
    }
    return n->shape;
}

INLINE uint16_t offset(uint32_t s) { return (uint16_t)(s * sizeof(struct statement)); }

static uint32_t read_statements(struct machine *m, const uint8_t *r, const struct counts *n)
{
    const struct node *node = m->node;
    const uint32_t count = n->S, expressions = n->E, variables = n->V;
    uint32_t emits = 0;
    bool assigns = false, stores = false;

    for (uint32_t i = 0; i < count; i++, r += 8) {
        struct statement *s = &m->statement[i];
        const uint32_t head = word_at(r), tail = word_at(r + 4);
        const uint32_t port = head >> 8 & 255, a = head >> 16, b = tail & 65535, c = tail >> 16;

        switch (head & 255) {
        case 0:
            if (head != 0 || tail != 0)
                return refusal(22, i);
            s->begin = skip;
            break;
        case 1:
            if (port != 0 || a >= variables || b >= expressions || c != 0)
                return refusal(22, i);
            s->begin = assign_by[holds(s, node, b)];
            s->c = (uint16_t)a;
            assigns = true;
            break;
        case 2:
            if (port != 0 || a >= expressions || b >= expressions || c != 0)
                return refusal(22, i);
            s->begin = store_by[node[a].shape != SHAPE_leaf][node[b].shape != SHAPE_leaf];
            s->a = operand(node, a);
            s->b = operand(node, b);
            stores = true;
            break;
        case 3:
            if (port != 0 || a >= i || b >= i || c != 0)
                return refusal(22, i);
            s->begin = then;
            s->a = offset(a);
            s->c = offset(b);
            break;
        case 4:
            if (port != 0 || a >= expressions || b >= i || c >= i)
                return refusal(22, i);
            s->begin = if_by[holds(s, node, a)];
            s->c = offset(b);
            s->d = offset(c);
            break;
        case 5:
            if (port != 0 || a >= expressions || b >= i || c != 0)
                return refusal(22, i);
            s->begin = while_by[holds(s, node, a)];
            s->c = offset(b);
            break;
        case 6:
            if (a >= expressions || tail != 0)
                return refusal(22, i);
            s->begin = emit_by[holds(s, node, a)];
            s->c = (uint16_t)port;
            m->emits[emits++] = (uint16_t)i;
            break;
        default:
            return refusal(22, i);
        }
    }
    m->emit_count = emits;
    m->assigns = assigns;
    m->stores = stores;
    return 0;
}

/* A policy as the run uses it: the set of each tag, and for a set the tag,
 * found by the set's lowest bit. */
struct tags {
    uint32_t count, ports;
    uint32_t above[MOST_TAGS];
    uint8_t lowest[MOST_TAGS];
};

/* Numbers the bits so that a tag's own bit is the lowest of its set: by
 * falling size of the set, since u above t has the smaller set. */
static void order_bits(struct tags *p)
{
    const uint32_t n = p->count;
    uint32_t size[MOST_TAGS], rank[MOST_TAGS], sets[MOST_TAGS];

    for (uint32_t t = 0; t < n; t++) {
        size[t] = 0;
        for (uint32_t u = 0; u < n; u++)
            size[t] += p->above[t] >> u & 1;
    }
    for (uint32_t t = 0; t < n; t++) {
        rank[t] = 0;
        for (uint32_t u = 0; u < n; u++)
            rank[t] += size[u] > size[t] || (size[u] == size[t] && u < t);
    }
    for (uint32_t t = 0; t < n; t++) {
        sets[t] = 0;
        for (uint32_t u = 0; u < n; u++)
            sets[t] |= (p->above[t] >> u & 1) << rank[u];
        p->lowest[rank[t]] = (uint8_t)t;
    }
    memcpy(p->above, sets, n * sizeof sets[0]);
}

static uint32_t read_policy(struct tags *p, const uint8_t *b, size_t len)
{
    const uint8_t *joins;
    uint32_t n, highest = 0, in_order = 1;

    if (len < 8 || b[0] != 'R' || b[1] != 'J' || b[2] != 'P' || half_at(b + 3) != 1 || b[5] != 0)
        return 23;
    p->count = n = b[6];
    p->ports = b[7];
    if (n < 1 || n > MOST_TAGS || p->ports > MOST_PORTS || len != 8 + n * n + p->ports)
        return 23;
    joins = b + 8;

    for (uint32_t i = 8; i < len; i++)
        highest = b[i] > highest ? b[i] : highest;
    if (highest >= n) {
        uint32_t i = 8;
        while (b[i] < n)
            i++;
        return refusal(24, i);
    }

    for (uint32_t t = 0; t < n; t++) {
        const uint8_t *row = joins + n * t;
        uint32_t set = 0;
        for (uint32_t u = 0; u < n; u++)
            set |= (uint32_t)(row[u] == u) << u;
        p->above[t] = set;
        p->lowest[t] = (uint8_t)t;
        if (row[t] != t || joins[t] != t)
            return 25;
        in_order &= (set & ((1u << t) - 1)) == 0;
    }
    /* With join(a,b) = join(b,a), join(a,a) = a and these sets, see 1 above. */
    for (uint32_t t = 0; t < n; t++)
        for (uint32_t u = 0; u < t; u++) {
            const uint32_t j = joins[n * t + u];
            if (joins[n * u + t] != j || p->above[j] != (p->above[t] & p->above[u]))
                return 25;
        }
    if (!in_order)
        order_bits(p);
    return 0;
}

static uint32_t read_ports(struct machine *m, const struct tags *p, const uint8_t *clearances)
{
    for (uint32_t k = 0; k < m->emit_count; k++) {
        struct statement *s = &m->statement[m->emits[k]];
        if (s->c >= p->ports)
            return refusal(26, m->emits[k]);
        s->d = (uint16_t)p->above[clearances[s->c]];
    }
    return 0;
}

static uint32_t read_places(struct place *to, uint32_t count, uint32_t first,
                            const struct tags *p, const uint8_t *memory)
{
    memory += 5 * first;
    for (uint32_t i = 0; i < count; i++, memory += 5) {
        if (unlikely(memory[4] >= p->count))
            return refusal(28, first + i);
        to[i] = (struct place){ word_at(memory), p->above[memory[4]] };
    }
    return 0;
}

static void write_places(const struct place *from, uint32_t count, uint32_t first,
                         const struct tags *p, uint8_t *memory)
{
    memory += 5 * first;
    for (uint32_t i = 0; i < count; i++, memory += 5) {
        put_word(memory, from[i].value);
        memory[4] = p->lowest[__builtin_ctz(from[i].above)];
    }
}

static uint32_t report_to(uint8_t *report, uint32_t end, uint32_t place, uint32_t steps,
                          uint32_t records)
{
    put_word(report, end | place << 16);
    put_word(report + 4, steps);
    put_word(report + 8, records);
    return end;
}

uint32_t threaded_judge(const uint8_t *recipe, size_t recipe_len, const uint8_t *policy,
                     size_t policy_len, uint8_t *memory, size_t memory_len, uint8_t *records,
                     size_t records_len, uint8_t *report, size_t report_len, uint32_t budget)
{
    struct machine m;
    struct counts n;
    struct tags p;
    uint32_t no;

    if (report_len < 12)
        return 30;
    if ((no = read_header(recipe, recipe_len, &n)) != 0 ||
        (no = read_expressions(&m, recipe + 16, &n)) != 0 ||
        (no = read_statements(&m, recipe + 16 + 8 * n.E, &n)) != 0 ||
        (no = read_policy(&p, policy, policy_len)) != 0 ||
        (no = read_ports(&m, &p, policy + 8 + p.count * p.count)) != 0 ||
        (no = memory_len == 5 * (size_t)(n.V + n.M) ? 0 : 27) != 0 ||
        (no = read_places(m.place, n.V, 0, &p, memory)) != 0 ||
        (no = read_places(m.place + CELLS_AT, n.M, n.V, &p, memory)) != 0)
        return report_to(report, no & 65535, no >> 16, 0, 0);

    if (budget == 0)
        budget = HOUSE_BUDGET;
    m.cells = n.M;
    m.frame[0].take = done;
    m.last = m.frame + n.S;
    m.record = records;
    m.record_end = records + records_len;
    const struct statement *s = &m.statement[n.S - 1];
    s->begin(&m, s, m.frame, budget, p.above[0]);

    /* Only an assignment changes a variable, only a store a cell. */
    if (m.assigns)
        write_places(m.place, n.V, 0, &p, memory);
    if (m.stores)
        write_places(m.place + CELLS_AT, n.M, n.V, &p, memory);
    return report_to(report, m.end, m.place_of_end, budget - m.left,
                     (uint32_t)((m.record - records) / 5));
}
