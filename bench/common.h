/* Shared by scan.c and indexed.c: limits, kinds of lines, soundness of areas and query lists, one end of a rule. */
#ifndef COMMON_H
#define COMMON_H

#include <stddef.h>
#include <stdint.h>
#include <string.h>

enum {
    TOP_MAX = 200,
    CONDITIONS_MAX = 512,
    LINES_MAX = 1024,
    LITERALS_MAX = 8,
    QUERIES_MAX = 16,
    TEXT_MAX = 65535,
    HEAD = 4,                                           /* top, C, lines, used length; then C numbers, 1 for a condition unknown by default */
    PAGE_MAX = HEAD + CONDITIONS_MAX + LINES_MAX * (4 + LITERALS_MAX),
    WORDS_MAX = CONDITIONS_MAX / 64
};

/* The kind of a line, its second number: F and R lines come before QUERY. */
enum { FACT, RULE_M, RULE_X, RULE_L, RULE_B, RULE_P, QUERY, DEFAULT };

typedef uint64_t set[WORDS_MAX];                    /* a set of conditions */

static inline void set_add(set s, unsigned c)
{
    s[c / 64] |= (uint64_t)1 << c % 64;
}

static inline int set_has(const set s, unsigned c)
{
    return s[c / 64] >> c % 64 & 1;
}

static inline const uint16_t *first_line(const uint16_t *page)
{
    return page + HEAD + page[1];
}

static inline int unknown_by_default(const uint16_t *page, unsigned c)
{
    return page[HEAD + c];
}

static inline int is_rule(const uint16_t *line)
{
    return line[1] - 1u < RULE_P;
}

/* The line after this one. */
static inline const uint16_t *next_line(const uint16_t *line)
{
    return line + 4 + (is_rule(line) ? line[3] : 0);
}

static inline int page_sound(const uint16_t *page, size_t length)
{
    unsigned top, count, lines, used, i, n;
    const uint16_t *p, *end;
    set unknown = { 0 };                                /* the conditions with a D line */

    if (length < HEAD)
        return 0;
    top = page[0], count = page[1], lines = page[2], used = page[3];
    if (top - 1 >= TOP_MAX || count - 1 >= CONDITIONS_MAX || lines > LINES_MAX || used < HEAD + count || used > length)
        return 0;
    p = first_line(page);
    end = page + used;
    for (; lines > 0; lines--) {
        if (end - p < 4 || p[0] >= count || p[1] > DEFAULT)
            return 0;
        if (is_rule(p)) {
            n = p[3];
            if (p[2] - 1u >= top || n - 1u >= LITERALS_MAX || (unsigned)(end - p) < 4 + n)
                return 0;
            p += 4;
            for (i = 0; i < n; i++)
                if (p[i] >= 2 * count)
                    return 0;
            p += n;
        } else if (p[1] == DEFAULT) {
            if (p[2] != 0 || p[3] != 0 || set_has(unknown, p[0]))
                return 0;
            set_add(unknown, p[0]);
            p += 4;
        } else {
            if (p[1] == FACT ? p[2] > p[3] || p[3] > top : p[2] > 1 || p[3] != 0)
                return 0;
            p += 4;
        }
    }
    if (p != end)
        return 0;
    for (i = 0; i < count; i++)
        if (page[HEAD + i] != set_has(unknown, i))
            return 0;
    return 1;
}

static inline int run_sound(const uint16_t *run, size_t length, unsigned top, unsigned count)
{
    const uint16_t *end;

    if (length < 3 * count)
        return 0;
    for (end = run + 3 * count; run < end; run += 3)
        if (run[0] > run[1] || run[1] > top || run[2] > 2 || (run[2] == 0 && (run[0] != 0 || run[1] != top)))
            return 0;
    return 1;
}

/* 0, or the refusal 11 or 12. */
static inline int queries_fault(const uint16_t *queries, size_t length, unsigned count)
{
    size_t i;

    if (length < 1 || length > QUERIES_MAX)
        return 11;
    for (i = 0; i < length; i++)
        if (queries[i] >= count)
            return 12;
    return 0;
}

/* The closed reading: 0, or the refusal 10, 11, 12, 18 or 19. */
static inline int closed_fault(const uint16_t *page, size_t page_length, const uint16_t *queries, size_t queries_length,
                               size_t scratch_length, size_t answers_length)
{
    int fault;

    if (!page_sound(page, page_length))
        return 10;
    if ((fault = queries_fault(queries, queries_length, page[1])) != 0)
        return fault;
    if (scratch_length < 4u * page[1])
        return 18;
    return answers_length < 2 * queries_length ? 19 : 0;
}

/* Its answers, from both ends by literal. */
static inline void put_answers(const uint16_t *low, const uint16_t *high, const uint16_t *queries, size_t length,
                               uint16_t *answers)
{
    size_t i;

    for (i = 0; i < length; i++) {
        answers[2 * i] = low[2 * queries[i]];
        answers[2 * i + 1] = high[2 * queries[i]];
    }
}

/*
 * One end of a rule, given that end of every literal. `add` is how the end rounds: 0 for low ends, which round down, and top - 1 for high
 * ends, which round up.
 */
static inline unsigned rule_end(const uint16_t *rule, const uint16_t *value, unsigned top, unsigned add)
{
    const uint16_t *p = rule + 4, *end = p + rule[3];
    unsigned v = value[*p++], w;

    switch (rule[1]) {
    case RULE_M:
        for (; p < end; p++) {
            w = value[*p];
            v = w < v ? w : v;
        }
        break;
    case RULE_X:
        for (; p < end; p++) {
            w = value[*p];
            v = w > v ? w : v;
        }
        break;
    case RULE_L:
        for (; p < end; p++) {
            v += value[*p];
            v = v > top ? v - top : 0;
        }
        break;
    case RULE_B:
        for (; p < end; p++) {
            v += value[*p];
            v = v < top ? v : top;
        }
        break;
    default:
        for (; p < end; p++)
            v = (v * value[*p] + add) / top;
    }
    return (v * rule[2] + add) / top;
}

/* 1 more than the high end that the lines give each of these conditions over the high ends by literal; 0 where it has no lines. */
static inline void next_highs(const uint16_t *page, const set sought, const uint16_t *high, uint8_t *next)
{
    const uint16_t *p, *end = page + page[3];
    unsigned top = page[0], v;

    memset(next, 0, page[1]);
    for (p = first_line(page); p < end; p = next_line(p)) {
        if (p[1] >= QUERY || !set_has(sought, p[0]))
            continue;
        v = 1 + (p[1] == FACT ? p[3] : rule_end(p, high, top, top - 1));
        if (v > next[p[0]])
            next[p[0]] = v;
    }
}

/* Whether that high end is below the one held. */
static inline int falls(const uint8_t *next, const uint16_t *high, unsigned c)
{
    return next[c] != 0 && next[c] <= high[2 * c];
}

#endif
