/* A small assembler for recipes and policies, and the inputs of a call. */
#ifndef ASSEMBLE_H
#define ASSEMBLE_H

#include "machines.h"

enum { NEGATE, NOT, ABSOLUTE };
enum { ADD, SUB, MUL, DIV, REM, LESS, MOST, SAME, OTHER };

/* The longest accepted buffers. */
enum { RECIPE_MAX = 16 + 8 * (MOST_EXPRESSIONS + MOST_STATEMENTS),
       POLICY_MAX = 8 + MOST_TAGS * MOST_TAGS + MOST_PORTS,
       MEMORY_MAX = 5 * (MOST_VARIABLES + MOST_CELLS),
       SLACK = 64 /* so that a buffer can be made too long */ };

struct recipe {
    uint32_t E, S, V, M;
    uint8_t expressions[8 * MOST_EXPRESSIONS];
    uint8_t statements[8 * MOST_STATEMENTS];
};

void put_half(uint8_t *b, uint32_t h);
void put_word(uint8_t *b, uint32_t w);
uint32_t get_half(const uint8_t *b);
uint32_t get_word(const uint8_t *b);

/* Each appends a record and gives its number. Nothing is checked but the
 * counts: a full table ends the program. */
uint32_t expression(struct recipe *r, uint32_t kind, uint32_t op, uint32_t a, uint32_t b);
uint32_t constant(struct recipe *r, int32_t value);
uint32_t variable(struct recipe *r, uint32_t v);
uint32_t cell(struct recipe *r, uint32_t index);
uint32_t unary(struct recipe *r, uint32_t op, uint32_t a);
uint32_t binary(struct recipe *r, uint32_t op, uint32_t a, uint32_t b);

uint32_t statement(struct recipe *r, uint32_t kind, uint32_t port, uint32_t a, uint32_t b,
                   uint32_t c);
uint32_t skip(struct recipe *r);
uint32_t assign(struct recipe *r, uint32_t v, uint32_t e);
uint32_t store(struct recipe *r, uint32_t index, uint32_t e);
uint32_t then(struct recipe *r, uint32_t first, uint32_t second);
uint32_t when(struct recipe *r, uint32_t test, uint32_t yes, uint32_t no);
uint32_t repeat(struct recipe *r, uint32_t test, uint32_t body);
uint32_t emit(struct recipe *r, uint32_t port, uint32_t e);

/* The statements of the list one after the other, nested to the right. */
#define LIST(r, ...) list_of(r, (const uint32_t[]){ __VA_ARGS__ }, \
                             sizeof((const uint32_t[]){ __VA_ARGS__ }) / sizeof(uint32_t))
uint32_t list_of(struct recipe *r, const uint32_t *statements, uint32_t count);

/* Both give the length written. */
size_t assemble(const struct recipe *r, uint8_t out[RECIPE_MAX]);
size_t house_policy(uint8_t out[POLICY_MAX]);

/* One call's inputs. */
struct call {
    uint8_t recipe[RECIPE_MAX + SLACK], policy[POLICY_MAX + SLACK], memory[MEMORY_MAX + SLACK];
    size_t recipe_len, policy_len, memory_len, room;
    uint32_t budget;
};

void put_place(struct call *c, uint32_t place, int32_t value, uint32_t tag);

#endif
