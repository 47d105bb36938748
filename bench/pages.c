/* Deterministic generators of the benchmark inputs. */
#include <stdarg.h>
#include <stdint.h>
#include <stdio.h>
#include <stdlib.h>
#include <string.h>

#include "pages.h"

struct sheet {
    char *text;
    size_t length;
    uint32_t seed;
};

static void put(struct sheet *s, const char *format, ...)
{
    char line[128];
    va_list list;
    size_t n;

    va_start(list, format);
    n = vsnprintf(line, sizeof line, format, list);
    va_end(list);
    if (n >= sizeof line || s->length + n > PAGE_TEXT_MAX) {
        fprintf(stderr, "page too long\n");
        exit(2);
    }
    memcpy(s->text + s->length, line, n);
    s->length += n;
}

/* 0 to n - 1 (xorshift, 32 bits). */
static unsigned draw(struct sheet *s, unsigned n)
{
    s->seed ^= s->seed << 13;
    s->seed ^= s->seed >> 17;
    s->seed ^= s->seed << 5;
    return (s->seed >> 8) % n;
}

static void rule(struct sheet *s, unsigned head, unsigned weight, char op, unsigned literals, unsigned count)
{
    unsigned negated, c;

    put(s, "R,%u,%u,%c", head, weight, op);
    while (literals-- > 0) {
        negated = draw(s, 3) == 0;
        c = draw(s, count);
        put(s, negated ? ",!%u" : ",%u", c);
    }
    put(s, "\n");
}

/* Rules of 1 to 4 literals with random heads, facts, and queries spread over the conditions; half of the queries closed. */
static void mixed(struct sheet *s, unsigned top, unsigned count, unsigned facts, unsigned rules, unsigned queries)
{
    unsigned i, low, c, literals;

    put(s, "G,%u,%u\n", top, count);
    for (i = 0; i < facts; i++) {
        low = draw(s, top + 1);
        c = draw(s, count);
        put(s, "F,%u,%u,%u\n", c, low, low + draw(s, top - low + 1));
    }
    for (i = 0; i < rules; i++) {
        c = draw(s, count);
        low = top - draw(s, top / 5);
        literals = 1 + draw(s, 4);
        rule(s, c, low, "MXLBP"[draw(s, 5)], literals, count);
    }
    for (i = 0; i < queries; i++)
        put(s, "Q,%c,%u\n", "KW"[i % 2], i * count / queries);
}

static void small(struct sheet *s)
{
    s->seed = 20;
    mixed(s, 100, 20, 8, 28, 4);
}

static void typical(struct sheet *s)
{
    s->seed = 150;
    mixed(s, 100, 150, 60, 232, 8);
}

/* 512 conditions, 1,023 rules of 8 literals, a third of them negated. */
static void full(struct sheet *s, uint32_t seed, const char *ops, unsigned spread)
{
    unsigned i, weight;

    s->seed = seed;
    put(s, "G,200,512\n");
    for (i = 0; i < 1023; i++) {
        weight = 200 - draw(s, spread);
        rule(s, i % 512, weight, ops[draw(s, strlen(ops))], 8, 512);
    }
    put(s, "Q,W,0\n");
}

static void largest(struct sheet *s)
{
    full(s, 1023, "MXLBP", 100);
}

static void closed_random(struct sheet *s)
{
    full(s, 8, "MXLBP", 100);
}

/* Smallest and largest under weights 198 to 200: slow to settle. */
static void closed_slow(struct sheet *s)
{
    full(s, 2, "MXX", 3);
}

/*
 * A slow fall at 510, 200 steps of 1 that the fact 511 takes away under L, which each of the others follows through the (at
 * most) eight conditions above it. Every wake costs an evaluation of its own, so driving from a query of 0 takes
 * R + top * E = 512 + 200 * 4,054 evaluations, less 199 since 511 changes once only: 811,113.
 */
static void falling(struct sheet *s)
{
    unsigned i, j;

    put(s, "G,200,512\nF,511,199,199\nR,510,200,L,510,511\n");
    for (i = 0; i < 510; i++) {
        put(s, "R,%u,200,M", i);
        for (j = i + 1; j <= i + 8 && j < 511; j++)
            put(s, ",%u", j);
        put(s, "\n");
    }
    put(s, "Q,K,0\n");
}

/* 511 conditions in a ring, 0 to 510 and back to 0; each turn adds the 1 of the fact. */
static void ring_numbered(struct sheet *s, int reversed)
{
    unsigned i;
#define NUMBER(c) (reversed ? 511 - (c) : (c))

    put(s, "G,200,512\n");
    put(s, "R,%u,200,B,%u,%u\n", NUMBER(0u), NUMBER(1u), NUMBER(511u));
    for (i = 1; i < 511; i++)
        put(s, "R,%u,200,M,%u\n", NUMBER(i), NUMBER(i < 510 ? i + 1 : 0));
    put(s, "F,%u,1,1\n", NUMBER(511u));
    put(s, "Q,W,%u\n", NUMBER(0u));
#undef NUMBER
}

static void ring(struct sheet *s)
{
    ring_numbered(s, 0);
}

static void ring_reversed(struct sheet *s)
{
    ring_numbered(s, 1);
}

/* A ring of 255, where each condition also has a weak line on the negation of the one before it: every rise of a low end moves a support. */
static void ring_weak(struct sheet *s)
{
    unsigned i;

    put(s, "G,200,256\nR,0,200,B,1,255\n");
    for (i = 1; i < 255; i++)
        put(s, "R,%u,200,M,%u\n", i, i < 254 ? i + 1 : 0);
    put(s, "F,255,1,1\n");
    for (i = 0; i < 255; i++)
        put(s, "R,%u,1,M,!%u\n", i, (i + 254) % 255);
    put(s, "Q,W,0\n");
}

/* A ring of 511 that are unknown by default; each turn takes away 1, since the fact is 1 under top. */
static void ring_unknown(struct sheet *s)
{
    unsigned i;

    put(s, "G,200,512\nR,0,200,L,1,511\n");
    for (i = 1; i < 511; i++)
        put(s, "R,%u,200,M,%u\n", i, i < 510 ? i + 1 : 0);
    put(s, "F,511,199,199\n");
    for (i = 0; i < 511; i++)
        put(s, "D,%u,U\n", i);
    put(s, "Q,W,0\n");
}

/* Counter k is condition 2k. It adds 1 for ever; from the second on, only when the one before is at top (gate 2k - 1). */
static void counters(struct sheet *s)
{
    unsigned k;

    put(s, "G,200,512\nF,511,1,1\nR,0,200,B,0,511\n");
    for (k = 1; k < 256; k++) {
        put(s, "R,%u,200,L,%u,511\n", 2 * k - 1, 2 * k - 2);
        put(s, "R,%u,200,B,%u,%u\n", 2 * k, 2 * k, 2 * k - 1);
    }
    put(s, "Q,W,510\n");
}

/* Each condition is the negation of the next; the last one negates a constant. */
static void negations(struct sheet *s)
{
    unsigned i;

    put(s, "G,200,512\n");
    for (i = 0; i < 511; i++)
        put(s, "R,%u,200,M,!%u\n", i, i + 1);
    put(s, "F,511,40,90\nQ,W,0\n");
}

const char *const page_names[] = { "small", "typical", "largest", "falling", "ring", "ring-reversed", "ring-weak", "ring-unknown",
                                   "counters", "negations", "random", "random-slow", NULL };

const char *const page_notes[] = { "20 conditions, 40 lines after the first", "150 conditions, 300 lines after the first",
                                   "512 conditions, 1,023 rules of 8 literals",
                                   "self loop at 510, each condition below it names the eight above",
                                   "(a) ring of 511, each turn adds 1", "(a) with the numbers reversed",
                                   "a ring of 255 as (a), each with a weak line on a negation",
                                   "a ring of 511 unknown by default, each turn takes away 1",
                                   "(b) 256 counters, each waits for the one before", "(c) chain of negations",
                                   "(d) 512 conditions, 1,023 random rules of 8 literals",
                                   "as (d), only M and X, weights 198 to 200", NULL };

static void (*const makers[])(struct sheet *) = { small, typical, largest, falling, ring, ring_reversed, ring_weak, ring_unknown,
                                                  counters, negations, closed_random, closed_slow };

size_t page_text(const char *name, char *text)
{
    struct sheet s = { text, 0, 1 };
    size_t i;

    for (i = 0; page_names[i]; i++)
        if (strcmp(page_names[i], name) == 0) {
            makers[i](&s);
            return s.length;
        }
    return 0;
}
