#include <stdio.h>
#include <stdlib.h>
#include <string.h>

#include "assemble.h"

void put_half(uint8_t *b, uint32_t h)
{
    b[0] = (uint8_t)h;
    b[1] = (uint8_t)(h >> 8);
}

void put_word(uint8_t *b, uint32_t w)
{
    put_half(b, w & 65535);
    put_half(b + 2, w >> 16);
}

uint32_t get_half(const uint8_t *b) { return b[0] | (uint32_t)b[1] << 8; }
uint32_t get_word(const uint8_t *b) { return get_half(b) | get_half(b + 2) << 16; }

static void full(const char *what)
{
    fprintf(stderr, "assembler: too many %s\n", what);
    exit(2);
}

uint32_t expression(struct recipe *r, uint32_t kind, uint32_t op, uint32_t a, uint32_t b)
{
    uint8_t *x = r->expressions + 8 * r->E;

    if (r->E == MOST_EXPRESSIONS)
        full("expressions");
    x[0] = (uint8_t)kind;
    x[1] = (uint8_t)op;
    put_half(x + 2, a);
    put_word(x + 4, b);
    return r->E++;
}

uint32_t constant(struct recipe *r, int32_t value)
{
    return expression(r, 1, 0, 0, (uint32_t)value);
}

uint32_t variable(struct recipe *r, uint32_t v)
{
    return expression(r, 2, 0, v, 0);
}

uint32_t cell(struct recipe *r, uint32_t index)
{
    return expression(r, 3, 0, index, 0);
}

uint32_t unary(struct recipe *r, uint32_t op, uint32_t a)
{
    return expression(r, 4, op, a, 0);
}

uint32_t binary(struct recipe *r, uint32_t op, uint32_t a, uint32_t b)
{
    return expression(r, 5, op, a, b);
}

uint32_t statement(struct recipe *r, uint32_t kind, uint32_t port, uint32_t a, uint32_t b,
                   uint32_t c)
{
    uint8_t *x = r->statements + 8 * r->S;

    if (r->S == MOST_STATEMENTS)
        full("statements");
    x[0] = (uint8_t)kind;
    x[1] = (uint8_t)port;
    put_half(x + 2, a);
    put_half(x + 4, b);
    put_half(x + 6, c);
    return r->S++;
}

uint32_t skip(struct recipe *r)
{
    return statement(r, 0, 0, 0, 0, 0);
}

uint32_t assign(struct recipe *r, uint32_t v, uint32_t e)
{
    return statement(r, 1, 0, v, e, 0);
}

uint32_t store(struct recipe *r, uint32_t index, uint32_t e)
{
    return statement(r, 2, 0, index, e, 0);
}

uint32_t then(struct recipe *r, uint32_t first, uint32_t second)
{
    return statement(r, 3, 0, first, second, 0);
}

uint32_t when(struct recipe *r, uint32_t test, uint32_t yes, uint32_t no)
{
    return statement(r, 4, 0, test, yes, no);
}

uint32_t repeat(struct recipe *r, uint32_t test, uint32_t body)
{
    return statement(r, 5, 0, test, body, 0);
}

uint32_t emit(struct recipe *r, uint32_t port, uint32_t e)
{
    return statement(r, 6, port, e, 0, 0);
}

uint32_t list_of(struct recipe *r, const uint32_t *statements, uint32_t count)
{
    uint32_t rest = statements[count - 1];

    for (uint32_t i = count - 1; i > 0; i--)
        rest = then(r, statements[i - 1], rest);
    return rest;
}

size_t assemble(const struct recipe *r, uint8_t out[RECIPE_MAX])
{
    memset(out, 0, 16);
    memcpy(out, "RJR", 3);
    put_half(out + 3, 1);
    put_half(out + 6, r->E);
    put_half(out + 8, r->S);
    put_half(out + 10, r->V);
    put_half(out + 12, r->M);
    memcpy(out + 16, r->expressions, 8 * r->E);
    memcpy(out + 16 + 8 * r->E, r->statements, 8 * r->S);
    return 16 + 8 * (size_t)(r->E + r->S);
}

size_t house_policy(uint8_t out[POLICY_MAX])
{
    memcpy(out, "RJP\1\0\0\20\2", 8);
    for (uint32_t a = 0; a < 16; a++)
        for (uint32_t b = 0; b < 16; b++)
            out[8 + 16 * a + b] = (uint8_t)(a | b);
    out[264] = 0;
    out[265] = 15;
    return HOUSE_POLICY_LEN;
}

void put_place(struct call *c, uint32_t place, int32_t value, uint32_t tag)
{
    put_word(c->memory + 5 * place, (uint32_t)value);
    c->memory[5 * place + 4] = (uint8_t)tag;
}
