/*
 * Checks every implementation against the figures of the scope paper and, on random small pages, against the
 * definitions written out below. `selftest [pages] [seed]`.
 */
#include <stdio.h>
#include <stdlib.h>
#include <string.h>

#include "impl.h"
#include "pages.h"

enum { RUN = 3 * 512 + 8, SCRATCH = 4 * 512 + 8, AREA = SIMJORAD_PAGE_MAX + 8, FILL = 0x5a5a };

static unsigned failures, checks;
static const struct impl *at;       /* the implementation under test */

static void same(const char *what, long got, long want)
{
    checks++;
    if (got == want)
        return;
    failures++;
    if (failures <= 20)
        printf("FAILED (%s): %s: %ld, expected %ld\n", at ? at->name : "reference", what, got, want);
}

static uint32_t seed = 1;

static unsigned draw(unsigned n)
{
    seed ^= seed << 13;
    seed ^= seed >> 17;
    seed ^= seed << 5;
    return (seed >> 8) % n;
}

/* ---- The definitions ---- */

/* A number by the paper's form, or -1; the token is text[0] to text[length - 1]. */
static int ref_number(const char *text, size_t length)
{
    size_t i;
    int v = 0;

    if (length < 1 || length > 3 || (length > 1 && text[0] == '0'))
        return -1;
    for (i = 0; i < length; i++) {
        if (text[i] < '0' || text[i] > '9')
            return -1;
        v = 10 * v + text[i] - '0';
    }
    return v;
}

/* The refusal for field k, from 0; sets its place. */
static int bad_field(int k, int fault, uint32_t *place)
{
    *place = k + 1;
    return fault;
}

/* One line without its byte 10, cut at its commas: form first, then ranges, then 24. Appends to area; returns 0, 3, 24, or 4, 21, 22 or 23 with the place. */
static int ref_line(const char *line, size_t length, int first, uint16_t *area, unsigned *used, uint32_t *place)
{
    const char *token[16];
    size_t size[16], i;
    int number[16], n = 0, k, top = area[0], count = area[1], negated[16] = { 0 }, op = 0;

    token[0] = line;
    for (i = 0; i <= length; i++)
        if (i == length || line[i] == ',') {
            size[n] = line + i - token[n];
            if (++n == 16)
                return 3;
            token[n] = line + i + 1;
        }
    if (size[0] != 1)
        return 3;
    for (k = 0; k < n; k++)
        number[k] = ref_number(token[k], size[k]);
    if (first) {
        if (*token[0] != 'G' || n != 3 || number[1] < 0 || number[2] < 0)
            return 3;
        if (number[1] < 1 || number[1] > 200)
            return bad_field(1, 4, place);
        if (number[2] < 1 || number[2] > 512)
            return bad_field(2, 4, place);
        area[0] = number[1];
        area[1] = number[2];
        for (k = 0; k < number[2]; k++)
            area[(*used)++] = 0;
        return 0;
    }
    if (*token[0] == 'F') {
        if (n != 4 || number[1] < 0 || number[2] < 0 || number[3] < 0)
            return 3;
        if (number[1] >= count)
            return bad_field(1, 4, place);
        for (k = 2; k < 4; k++)
            if (number[k] > top)
                return bad_field(k, 22, place);
        if (number[2] > number[3])
            return bad_field(3, 23, place);
        area[(*used)++] = number[1];
        area[(*used)++] = 0;
        area[(*used)++] = number[2];
        area[(*used)++] = number[3];
        return 0;
    }
    if (*token[0] == 'Q') {
        if (n != 3 || size[1] != 1 || (*token[1] != 'K' && *token[1] != 'W') || number[2] < 0)
            return 3;
        if (number[2] >= count)
            return bad_field(2, 4, place);
        area[(*used)++] = number[2];
        area[(*used)++] = 6;
        area[(*used)++] = *token[1] == 'W';
        area[(*used)++] = 0;
        return 0;
    }
    if (*token[0] == 'D') {
        if (n != 3 || number[1] < 0 || size[2] != 1 || *token[2] != 'U')
            return 3;
        if (number[1] >= count)
            return bad_field(1, 4, place);
        if (area[4 + number[1]] == 1)
            return 24;
        area[4 + number[1]] = 1;
        area[(*used)++] = number[1];
        area[(*used)++] = 7;
        area[(*used)++] = 0;
        area[(*used)++] = 0;
        return 0;
    }
    if (*token[0] != 'R' || n < 5 || n > 12 || number[1] < 0 || number[2] < 0 || size[3] != 1)
        return 3;
    for (k = 0; k < 5; k++)
        if (*token[3] == "MXLBP"[k])
            op = k + 1;
    if (op == 0)
        return 3;
    for (k = 4; k < n; k++) {
        if (size[k] > 0 && *token[k] == '!') {
            negated[k] = 1;
            number[k] = ref_number(token[k] + 1, size[k] - 1);
        }
        if (number[k] < 0)
            return 3;
    }
    if (number[1] >= count)
        return bad_field(1, 4, place);
    if (number[2] < 1 || number[2] > top)
        return bad_field(2, 21, place);
    for (k = 4; k < n; k++)
        if (number[k] >= count)
            return bad_field(k, 4, place);
    area[(*used)++] = number[1];
    area[(*used)++] = op;
    area[(*used)++] = number[2];
    area[(*used)++] = n - 4;
    for (k = 4; k < n; k++)
        area[(*used)++] = 2 * number[k] + negated[k];
    return 0;
}

static int ref_read(const char *text, size_t length, uint16_t *area, size_t area_length, uint32_t *line, uint32_t *place)
{
    static uint16_t made[AREA];
    unsigned used = 4, number = 0;
    size_t start = 0, i;
    int fault;

    *line = *place = 0;
    if (length > 65535)
        return -1;
    if (length == 0 || text[length - 1] != '\n')
        return -2;
    for (i = 0; i < length; i++) {
        if (text[i] != '\n')
            continue;
        number++;
        fault = number == 1026 ? 5 : ref_line(text + start, i - start, number == 1, made, &used, place);
        if (fault) {
            *line = number;
            return -fault;
        }
        start = i + 1;
    }
    if (area_length < used)
        return -6;
    made[2] = number - 1;
    made[3] = used;
    memcpy(area, made, used * sizeof *area);
    return used;
}

static int ref_page_sound(const uint16_t *page, size_t length)
{
    unsigned i, k, line, entries[512] = { 0 };

    if (length < 4 || page[3] > length || page[3] < 4u + page[1])
        return 0;
    if (page[0] == 0 || page[0] > 200 || page[1] == 0 || page[1] > 512 || page[2] > 1024)
        return 0;
    for (line = 0, i = 4 + page[1]; line < page[2]; line++) {
        if (i + 4 > page[3] || page[i] >= page[1])
            return 0;
        switch (page[i + 1]) {
        case 0:
            if (page[i + 2] > page[i + 3] || page[i + 3] > page[0])
                return 0;
            i += 4;
            break;
        case 1: case 2: case 3: case 4: case 5:
            if (page[i + 2] == 0 || page[i + 2] > page[0] || page[i + 3] == 0 || page[i + 3] > 8
                || i + 4 + page[i + 3] > page[3])
                return 0;
            for (k = 0; k < page[i + 3]; k++)
                if (page[i + 4 + k] / 2 >= page[1])
                    return 0;
            i += 4 + page[i + 3];
            break;
        case 6:
            if (page[i + 2] > 1 || page[i + 3] != 0)
                return 0;
            i += 4;
            break;
        case 7:
            if (page[i + 2] != 0 || page[i + 3] != 0)
                return 0;
            entries[page[i]]++;
            i += 4;
            break;
        default:
            return 0;
        }
    }
    for (k = 0; k < page[1]; k++)
        if (page[4 + k] > 1 || page[4 + k] != entries[k])
            return 0;
    return i == page[3];
}

static int ref_run_sound(const uint16_t *page, const uint16_t *run, size_t length)
{
    unsigned c;

    if (length < 3u * page[1])
        return 0;
    for (c = 0; c < page[1]; c++) {
        if (run[3 * c] > run[3 * c + 1] || run[3 * c + 1] > page[0] || run[3 * c + 2] > 2)
            return 0;
        if (run[3 * c + 2] == 0 && (run[3 * c] != 0 || run[3 * c + 1] != page[0]))
            return 0;
    }
    return 1;
}

struct pair {
    int low, high;
};

/* A number divided by top: the low end rounds down, the high end up. */
static int divided(int number, int top, int high)
{
    return number / top + (high && number % top != 0);
}

static int fold(int kind, int p, int q, int top, int high)
{
    switch (kind) {
    case 1: return p < q ? p : q;
    case 2: return p > q ? p : q;
    case 3: return p + q - top > 0 ? p + q - top : 0;
    case 4: return p + q < top ? p + q : top;
    default: return divided(p * q, top, high);
    }
}

static struct pair literal(const struct pair *held, int literal, int top)
{
    struct pair v = held[literal / 2], negated;

    negated.low = top - v.high;
    negated.high = top - v.low;
    return literal % 2 ? negated : v;
}

/* The body value of a condition. */
static struct pair body(const uint16_t *page, const struct pair *held, int condition)
{
    struct pair t = { 0, 0 }, v, w;
    unsigned line, i = 4 + page[1], k;
    int top = page[0], lines = 0;

    for (line = 0; line < page[2]; line++) {
        const uint16_t *p = page + i;
        int rule = p[1] >= 1 && p[1] <= 5;

        i += rule ? 4 + p[3] : 4;
        if (p[0] != condition || p[1] >= 6)
            continue;
        lines++;
        if (rule) {
            v = literal(held, p[4], top);
            for (k = 1; k < p[3]; k++) {
                w = literal(held, p[4 + k], top);
                v.low = fold(p[1], v.low, w.low, top, 0);
                v.high = fold(p[1], v.high, w.high, top, 1);
            }
            v.low = divided(v.low * p[2], top, 0);
            v.high = divided(v.high * p[2], top, 1);
        } else {
            v.low = p[2];
            v.high = p[3];
        }
        if (v.low > t.low)
            t.low = v.low;
        if (v.high > t.high)
            t.high = v.high;
    }
    if (lines == 0 && page[4 + condition] == 1)
        t.high = top;
    return t;
}

/* I := T(I) from [0;top] until it stays. */
static void ref_plain(const uint16_t *page, struct pair *held)
{
    struct pair next[512];
    int c, count = page[1], moved;

    for (c = 0; c < count; c++)
        held[c].low = 0, held[c].high = page[0];
    do {
        moved = 0;
        for (c = 0; c < count; c++)
            next[c] = body(page, held, c);
        for (c = 0; c < count; c++) {
            moved |= next[c].low != held[c].low || next[c].high != held[c].high;
            held[c] = next[c];
        }
    } while (moved);
}

/*
 * I := T(I joined with the support of I) from [0;top]; the support has lows 0 and its highs iterated from 0, but for what is unknown by default,
 * where it has [0;top]. `changed` has for each condition the
 * number of the last assignment that is not like the one before it there: the greatest over the reached conditions is the count of rounds.
 */
static void ref_closed(const uint16_t *page, struct pair *held, uint32_t *changed)
{
    struct pair joined[512], next[512];
    int support[512], c, count = page[1], moved, rose;
    uint32_t number = 0;

    for (c = 0; c < count; c++)
        held[c].low = 0, held[c].high = page[0], changed[c] = 0;
    do {
        number++;
        for (c = 0; c < count; c++)
            support[c] = page[4 + c] == 1 ? page[0] : 0;
        do {
            for (c = 0; c < count; c++) {
                joined[c].low = held[c].low;
                joined[c].high = held[c].high < support[c] ? held[c].high : support[c];
            }
            for (c = 0; c < count; c++)
                next[c] = body(page, joined, c);
            for (c = 0, rose = 0; c < count; c++)
                if (page[4 + c] == 0) {
                    rose |= next[c].high != support[c];
                    support[c] = next[c].high;
                }
        } while (rose);
        for (c = 0, moved = 0; c < count; c++) {
            if (next[c].low != held[c].low || next[c].high != held[c].high)
                moved = 1, changed[c] = number;
            held[c] = next[c];
        }
    } while (moved);
}

/* Some rule with head a names b. */
static int names(const uint16_t *page, int a, int b)
{
    unsigned line, i = 4 + page[1], k;

    for (line = 0; line < page[2]; line++) {
        const uint16_t *p = page + i;
        int rule = p[1] >= 1 && p[1] <= 5;

        i += rule ? 4 + p[3] : 4;
        if (rule && p[0] == a)
            for (k = 0; k < p[3]; k++)
                if (p[4 + k] / 2 == b)
                    return 1;
    }
    return 0;
}

/* The run area of an opening, R, E and the passes, each of which follows what was found before it (mark 2, found in it: 3). */
static void ref_open(const uint16_t *page, const uint16_t *queries, size_t n, uint16_t *run, unsigned *r, unsigned *e,
                     unsigned *passes)
{
    int a, b, more, count = page[1];
    size_t i;

    for (a = 0; a < count; a++)
        run[3 * a] = 0, run[3 * a + 1] = page[0], run[3 * a + 2] = 0;
    for (i = 0; i < n; i++)
        run[3 * queries[i] + 2] = 2;
    *passes = 0;
    do {
        more = 0;
        ++*passes;
        for (a = 0; a < count; a++)
            for (b = 0; b < count; b++)
                if (run[3 * a + 2] == 2 && !run[3 * b + 2] && names(page, a, b))
                    run[3 * b + 2] = 3, more = 1;
        for (a = 0; a < count; a++)
            if (run[3 * a + 2] == 3)
                run[3 * a + 2] = 2;
    } while (more);
    *r = *e = 0;
    for (a = 0; a < count; a++) {
        *r += run[3 * a + 2] != 0;
        for (b = 0; b < count; b++)
            *e += run[3 * a + 2] && names(page, a, b);
    }
}

/* Evaluates a waiting condition of a run area; returns whether it changed. */
static int ref_step(const uint16_t *page, uint16_t *run, int condition)
{
    struct pair held[512], t;
    int c, count = page[1];

    for (c = 0; c < count; c++)
        held[c].low = run[3 * c], held[c].high = run[3 * c + 1];
    t = body(page, held, condition);
    run[3 * condition + 2] = 1;
    if (t.low == held[condition].low && t.high == held[condition].high)
        return 0;
    run[3 * condition] = t.low;
    run[3 * condition + 1] = t.high;
    for (c = 0; c < count; c++)
        if (run[3 * c + 2] != 0 && names(page, c, condition))
            run[3 * c + 2] = 2;
    return 1;
}

static int ref_lowest(const uint16_t *page, const uint16_t *run)
{
    int c;

    for (c = 0; c < page[1]; c++)
        if (run[3 * c + 2] == 2)
            return c;
    return -1;
}

/* The first F or R line of a condition whose low end is that of its body value, by its number; 0 if there is none. */
static uint32_t ref_holder(const uint16_t *page, const uint16_t *run, int condition)
{
    static uint16_t one[AREA];
    struct pair held[512], t;
    int c, count = page[1], i = 4 + count, k;
    unsigned line, length;

    for (c = 0; c < count; c++)
        held[c].low = run[3 * c], held[c].high = run[3 * c + 1];
    t = body(page, held, condition);
    for (line = 0; line < page[2]; line++, i += length) {
        const uint16_t *p = page + i;

        length = p[1] >= 1 && p[1] <= 5 ? 4 + p[3] : 4;
        if (p[0] != condition || p[1] >= 6)
            continue;
        one[0] = page[0], one[1] = page[1], one[2] = 1, one[3] = 4 + count + length;    /* a page of this line alone */
        memset(one + 4, 0, count * sizeof *one);
        for (k = 0; k < (int)length; k++)
            one[4 + count + k] = p[k];
        if (body(one, held, condition).low == t.low)
            return line + 2;
    }
    return 0;
}

static int ref_drive(const uint16_t *page, uint16_t *run, uint32_t allowance, uint32_t *taken, uint32_t *line)
{
    int c;

    *line = 0;
    for (*taken = 0; (c = ref_lowest(page, run)) >= 0 && *taken < allowance; ++*taken) {
        *line = ref_holder(page, run, c);
        ref_step(page, run, c);
    }
    return c < 0;
}

/* ---- The figures of the paper ---- */

static uint16_t page[AREA], run[RUN], scratch[SCRATCH], answers[32];

static int take(const char *text)
{
    uint32_t line = 77, place = 77;
    int used = at->read((const uint8_t *)text, strlen(text), page, SIMJORAD_PAGE_MAX, &line, &place);

    same("line after reading", line, 0);
    same("place after reading", place, 0);
    return used;
}

static void open_one(int used, uint16_t query, unsigned r, unsigned e, unsigned bound, unsigned passes)
{
    uint32_t got_r = 0, got_e = 0, got_bound = 0, got_passes = 0;

    same("open", at->open(page, used, &query, 1, run, RUN, &got_r, &got_e, &got_bound, &got_passes), 0);
    same("R", got_r, r);
    same("E", got_e, e);
    same("bound", got_bound, bound);
    same("passes", got_passes, passes);
}

static void held(int used, uint32_t condition, int rest, int low, int high)
{
    uint16_t a = 999, b = 999;

    same("value", at->value(page, used, run, RUN, condition, &a, &b), rest);
    same("low", a, low);
    same("high", b, high);
}

static void driven(int used, uint32_t allowance, int rest, unsigned count)
{
    uint32_t taken = 0, line = 0;

    same("drive", at->drive(page, used, run, RUN, allowance, &taken, &line), rest);
    same("taken", taken, count);
}

static void closed_one(int used, uint16_t query, int low, int high)
{
    unsigned i;
    uint32_t rounds;

    same("closed", at->closed(page, used, &query, 1, scratch, SCRATCH, answers, 2, &rounds), 0);
    same("closed low", answers[0], low);
    same("closed high", answers[1], high);
    for (i = 0; i < 4u * page[1]; i++)
        if (scratch[i] != 0)
            same("scratch", scratch[i], 0);
}

static const char example[] = "G,10,2\nF,0,2,2\nF,1,3,3\nR,0,10,M,!1\nR,1,10,M,!0\nQ,K,0\nQ,W,1\n";

/* What the program attach prints. */
static void attach(const char *text, char *out)
{
    uint32_t line = 0, place, r, e, bound, passes, taken;
    int used = at->read((const uint8_t *)text, strlen(text), page, SIMJORAD_PAGE_MAX, &line, &place), queries = 0;
    const uint16_t *p;
    uint16_t low, high;

    if (used < 0) {
        sprintf(out, "refused,%d,%u\n", -used, (unsigned)line);
        return;
    }
    out += sprintf(out, "top,%u\n", page[0]);
    for (p = page + 4 + page[1]; p < page + used; p += 4 + (p[1] >= 1 && p[1] <= 5 ? p[3] : 0)) {
        if (p[1] != 6)
            continue;
        queries++;
        if (p[2] == 0) {
            at->open(page, used, p, 1, run, RUN, &r, &e, &bound, &passes);
            at->drive(page, used, run, RUN, bound, &taken, &line);
            same("attach at rest", at->value(page, used, run, RUN, p[0], &low, &high), 1);
            out += sprintf(out, "K,%u,%u,%u\n", p[0], low, high);
        } else {
            at->closed(page, used, p, 1, scratch, SCRATCH, answers, 2, &line);
            out += sprintf(out, "W,%u,%u,%u\n", p[0], answers[0], answers[1]);
        }
    }
    sprintf(out, "end,%d\n", queries);
}

static void figures(void)
{
    char out[256], text[256];
    int used, i;
    static const struct { char op; int weight, low, high; } row8[] = { { 'P', 10, 3, 4 }, { 'L', 10, 2, 2 },
                                                                       { 'B', 10, 10, 10 }, { 'P', 8, 2, 4 },
                                                                       { 'M', 10, 5, 5 }, { 'X', 10, 7, 7 } };

    /* 1 and 2 */
    used = take(example);
    open_one(used, 0, 2, 2, 22, 2);
    driven(used, 3, 0, 3);
    same("mark of 0", run[2], 1);
    same("mark of 1", run[5], 2);
    open_one(used, 0, 2, 2, 22, 2);
    driven(used, 4, 1, 4);
    held(used, 0, 1, 2, 7);
    held(used, 1, 1, 3, 8);
    open_one(used, 0, 2, 2, 22, 2);
    driven(used, UINT32_MAX, 1, 4);
    closed_one(used, 0, 2, 7);
    closed_one(used, 1, 3, 8);

    /* 3 */
    used = take("G,10,3\nF,0,3,3\nF,2,6,6\nR,0,10,M,1,2\nR,1,10,M,1\n");
    open_one(used, 0, 3, 3, 33, 2);
    driven(used, 33, 1, 4);
    held(used, 0, 1, 3, 6);
    held(used, 1, 1, 0, 10);
    closed_one(used, 0, 3, 3);
    closed_one(used, 1, 0, 0);

    /* 4 */
    used = take("G,1,1\n");
    open_one(used, 0, 1, 0, 1, 1);
    driven(used, 1, 1, 1);
    held(used, 0, 1, 0, 0);
    closed_one(used, 0, 0, 0);

    /* 5 */
    used = take("G,1,1\nR,0,1,M,!0\n");
    open_one(used, 0, 1, 1, 2, 1);
    driven(used, 2, 1, 1);
    held(used, 0, 1, 0, 1);
    closed_one(used, 0, 0, 1);

    /* 6 */
    used = take("G,1,1\nR,0,1,M,0\n");
    open_one(used, 0, 1, 1, 2, 1);
    driven(used, 2, 1, 1);
    held(used, 0, 1, 0, 1);
    closed_one(used, 0, 0, 0);

    /* 7 */
    used = take("G,10,1\nR,0,9,M,0\n");
    open_one(used, 0, 1, 1, 11, 1);
    driven(used, 11, 1, 2);
    held(used, 0, 1, 0, 9);
    closed_one(used, 0, 0, 0);

    /* 8 */
    for (i = 0; i < 6; i++) {
        sprintf(text, "G,10,3\nF,0,7,7\nF,1,5,5\nR,2,%d,%c,0,1\n", row8[i].weight, row8[i].op);
        used = take(text);
        open_one(used, 2, 3, 2, 23, 2);
        driven(used, 23, 1, 3);
        held(used, 2, 1, row8[i].low, row8[i].high);
        closed_one(used, 2, row8[i].low, row8[i].high);
    }

    /* a camera that is not fitted: alone, beside a fact, and where it supports itself */
    used = take("G,10,2\nD,1,U\nR,0,10,M,!1\n");
    open_one(used, 0, 2, 1, 12, 2);
    driven(used, 12, 1, 2);
    held(used, 0, 1, 0, 10);
    held(used, 1, 1, 0, 10);
    closed_one(used, 0, 0, 10);
    closed_one(used, 1, 0, 10);
    used = take("G,10,1\nD,0,U\nF,0,2,3\n");
    closed_one(used, 0, 2, 3);
    used = take("G,10,1\nR,0,9,M,0\nD,0,U\n");
    closed_one(used, 0, 0, 9);
    used = take("G,10,2\nR,0,10,M,1\nR,1,10,M,0\nD,1,U\n");
    closed_one(used, 0, 0, 10);
    used = take("G,10,2\nD,0,U\nR,0,10,M,1\nR,1,10,M,1\n");
    closed_one(used, 0, 0, 0);

    attach(example, out);
    same("attach", strcmp(out, "top,10\nK,0,2,7\nW,1,3,8\nend,2\n"), 0);
    attach("G,10,2\nF,0,2,2\nF,2,3,3\n", out);
    same("attach, refused", strcmp(out, "refused,4,3\n"), 0);
}

static void refused(const char *text, size_t length, int fault, unsigned line, unsigned place)
{
    uint32_t got = 77, got_place = 77;
    unsigned i;

    for (i = 0; i < AREA; i++)
        page[i] = FILL;
    same(text, -at->read((const uint8_t *)text, length, page, SIMJORAD_PAGE_MAX, &got, &got_place), fault);
    same(text, got, line);
    same(text, got_place, place);
    for (i = 0; i < AREA; i++)
        if (page[i] != FILL)
            same("area after a refusal", page[i], FILL);
}

static void reading(void)
{
    static const struct { const char *text; int fault; unsigned line, place; } bad[] = {
        { "", 2, 0, 0 }, { "G,10,2", 2, 0, 0 }, { "G,10,2\nF,0,1,1", 2, 0, 0 }, { "\n", 3, 1, 0 }, { "F,0,1,1\n", 3, 1, 0 },
        { "G,0,1\n", 4, 1, 2 }, { "G,201,1\n", 4, 1, 2 }, { "G,1,0\n", 4, 1, 3 }, { "G,1,513\n", 4, 1, 3 },
        { "G,1\n", 3, 1, 0 }, { "G,1,1,\n", 3, 1, 0 }, { "G,1,1,1\n", 3, 1, 0 }, { "G,01,1\n", 3, 1, 0 },
        { "G,1000,1\n", 3, 1, 0 }, { " G,1,1\n", 3, 1, 0 }, { "G,1,1\r\n", 3, 1, 0 }, { "G,1,1\n\n", 3, 2, 0 },
        { "G,1,1\nG,1,1\n", 3, 2, 0 }, { "G,10,2\nF,0,03,4\n", 3, 2, 0 }, { "G,10,2\nF,0,4,3\n", 23, 2, 4 },
        { "G,10,2\nF,2,3,4\n", 4, 2, 2 }, { "G,10,2\nF,0,3,11\n", 22, 2, 4 }, { "G,10,2\nF,0,3\n", 3, 2, 0 },
        { "G,10,2\nF,0,3,4,5\n", 3, 2, 0 }, { "G,10,2\nF,0,999,0004\n", 3, 2, 0 }, { "G,10,2\nF,9,9,3,4\n", 3, 2, 0 },
        { "G,10,2\nF,!0,3,4\n", 3, 2, 0 }, { "G,10,2\nR,0,0,M,1\n", 21, 2, 3 }, { "G,10,2\nR,0,11,M,1\n", 21, 2, 3 },
        { "G,10,2\nR,2,1,M,1\n", 4, 2, 2 }, { "G,10,2\nR,0,1,M,2\n", 4, 2, 5 }, { "G,10,2\nR,0,1,M,!2\n", 4, 2, 5 },
        { "G,10,2\nR,0,1,M,!!1\n", 3, 2, 0 }, { "G,10,2\nR,0,1,M,!\n", 3, 2, 0 }, { "G,10,2\nR,0,1,M\n", 3, 2, 0 },
        { "G,10,2\nR,0,1,M,\n", 3, 2, 0 }, { "G,10,2\nR,0,1,N,1\n", 3, 2, 0 }, { "G,10,2\nR,0,1,MX,1\n", 3, 2, 0 },
        { "G,10,2\nR,0,1,m,1\n", 3, 2, 0 }, { "G,10,2\nR,0,1,M,1,0,1,0,1,0,1,0,1\n", 3, 2, 0 },
        { "G,10,2\nR,9,0,M,9,9,9,9,9,9,9,9,x\n", 3, 2, 0 }, { "G,10,2\nR,0,1,M,01\n", 3, 2, 0 },
        { "G,10,2\nR,0,1,M,!01\n", 3, 2, 0 }, { "G,10,2\nQ,K,2\n", 4, 2, 3 }, { "G,10,2\nQ,X,1\n", 3, 2, 0 },
        { "G,10,2\nQ,K\n", 3, 2, 0 }, { "G,10,2\nQ,K,1,1\n", 3, 2, 0 }, { "G,10,2\nQ,,1\n", 3, 2, 0 },
        { "G,10,2\nQ\n", 3, 2, 0 }, { "G,10,2\nX\n", 3, 2, 0 }, { "G,10,2\nF,0,1,1\nF,5,1,1\nF\n", 4, 3, 2 },
        { "G,1,512\nQ,K,512\n", 4, 2, 3 }, { "G,1,1\nF,0,0,0 \n", 3, 2, 0 }, { "G,1,1\nF,0,0,-0\n", 3, 2, 0 },
        { "G,201,513\n", 4, 1, 2 }, { "G,10,2\nF,0,11,12\n", 22, 2, 3 }, { "G,10,2\nF,0,11,3\n", 22, 2, 3 },
        { "G,10,2\nF,2,4,3\n", 4, 2, 2 }, { "G,10,2\nR,2,0,M,2\n", 4, 2, 2 }, { "G,10,2\nR,0,0,M,2\n", 21, 2, 3 },
        { "G,10,2\nR,0,1,M,1,!2,1,2\n", 4, 2, 6 }, { "G,10,2\nR,0,1,M,1,1,1,1,1,1,1,2\n", 4, 2, 12 },
        { "G,10,2\nD,0\n", 3, 2, 0 }, { "G,10,2\nD,0,V\n", 3, 2, 0 }, { "G,10,2\nd,0,U\n", 3, 2, 0 },
        { "G,10,2\nD,0,U,\n", 3, 2, 0 }, { "G,10,2\nD,0,UU\n", 3, 2, 0 }, { "G,10,2\nD,!0,U\n", 3, 2, 0 },
        { "G,10,2\nD,00,U\n", 3, 2, 0 }, { "D,0,U\n", 3, 1, 0 }, { "G,10,2\nD,2,U\n", 4, 2, 2 },
        { "G,10,2\nD,0,U\nD,0,U\n", 24, 3, 0 }, { "G,10,2\nD,0,U\nQ,K,0\nD,1,U\nD,0,U\nx\n", 24, 5, 0 },
        { "G,10,2\nD,0,U\nD,2,U\n", 4, 3, 2 }, { "G,10,2\nD,0,U\nD,512,U\n", 4, 3, 2 }, { "G,10,2\nD,0,U\nD,0,U,\n", 3, 3, 0 },
    };
    static char text[70000];
    static uint16_t want[AREA];
    uint32_t line, place;
    size_t i, length, start;
    int used;

    for (i = 0; i < sizeof bad / sizeof *bad; i++)
        refused(bad[i].text, strlen(bad[i].text), bad[i].fault, bad[i].line, bad[i].place);
    refused("G,1,1\nF,0\0,0,0\n", 15, 3, 2, 0);
    same("511 is read", take("G,200,512\nQ,K,511\nR,0,200,M,1,2,3,!4,5,6,7,!511\n"), 532);
    same("two D lines", take("G,10,2\nD,1,U\nD,0,U\n"), 14);
    same("no bytes", at->read(NULL, 0, NULL, 0, &line, &place), -2);

    /* 1,025 lines are read, the longest page too; line 1,026 is refused 5 */
    length = sprintf(text, "G,200,512\n");
    for (i = 0; i < 1024; i++)
        length += sprintf(text + length, "R,%d,200,P,1,2,3,4,5,6,!7,!%d\n", (int)(i % 512), (int)(i / 2));
    used = at->read((uint8_t *)text, length, page, SIMJORAD_PAGE_MAX, &line, &place);
    same("longest page", used, 12804);
    same("longest page, reference", ref_read(text, length, want, SIMJORAD_PAGE_MAX, &line, &place), 12804);
    same("longest page, area", memcmp(page, want, 12804 * sizeof *page), 0);
    same("area short by 1", at->read((uint8_t *)text, length, page, 12803, &line, &place), -6);
    same("area short by 1, line", line, 0);
    text[length] = '?';
    text[length + 1] = '\n';
    refused(text, length + 2, 5, 1026, 0);
    text[length] = '\n';
    refused(text, length + 1, 5, 1026, 0);
    memset(text, '\n', sizeof text);
    refused(text, 65536, 1, 0, 0);
    refused(text, 65535, 3, 1, 0);

    /* showing lines */
    length = 9;
    memcpy(text, "ab\n\nc\nde?", length);
    same("line 0", at->show_line((uint8_t *)text, length, 0, &start), 0);
    same("line 1", at->show_line((uint8_t *)text, length, 1, &start), 2);
    same("line 1 starts", start, 0);
    same("line 2", at->show_line((uint8_t *)text, length, 2, &start), 0);
    same("line 3", at->show_line((uint8_t *)text, length, 3, &start), 1);
    same("line 3 starts", start, 4);
    same("line 4", at->show_line((uint8_t *)text, length, 4, &start), 3);
    same("line 4 starts", start, 6);
    same("line 5", at->show_line((uint8_t *)text, length, 5, &start), 0);
    same("line 2 of 1", at->show_line((uint8_t *)text, 3, 2, &start), 0);
    same("line 1 of none", at->show_line(NULL, 0, 1, &start), 0);
}

/* The falling chain takes its bound less 199, and not one evaluation less. */
static void falling(void)
{
    static char text[PAGE_TEXT_MAX];
    size_t length = page_text("falling", text);
    uint32_t line, place;
    int used = at->read((const uint8_t *)text, length, page, SIMJORAD_PAGE_MAX, &line, &place);

    open_one(used, 0, 512, 4054, 811312, 66);
    driven(used, 811112, 0, 811112);
    driven(used, UINT32_MAX, 1, 1);
    held(used, 0, 1, 0, 0);
}

/* The ring of conditions unknown by default falls by 1 a turn. */
static void falling_ring(void)
{
    static char text[PAGE_TEXT_MAX];
    size_t length = page_text("ring-unknown", text);
    uint32_t line, place, rounds = 0;
    uint16_t query = 0;
    int used = at->read((const uint8_t *)text, length, page, SIMJORAD_PAGE_MAX, &line, &place);

    same("unknown ring", at->closed(page, used, &query, 1, scratch, SCRATCH, answers, 2, &rounds), 0);
    same("unknown ring, rounds", rounds, 102200);
    same("unknown ring, low", answers[0], 0);
    same("unknown ring, high", answers[1], 0);
}

/* ---- Random pages ---- */

static size_t random_text(char *text)
{
    static const int tops[] = { 1, 2, 3, 5, 10, 17, 100, 200 };
    int top = tops[draw(8)], count = 1 + draw(8), lines = draw(18), low, n, unknown = 0, often = draw(2) ? 10 : 13;
    size_t length = sprintf(text, "G,%d,%d\n", top, count);

    while (lines-- > 0)
        switch (draw(often)) {
        case 10: case 11: case 12:
            n = draw(count);
            if (!(unknown >> n & 1))
                length += sprintf(text + length, "D,%d,U\n", n);
            unknown |= 1 << n;
            break;
        case 0: case 1:
            low = draw(top + 1);
            n = draw(count);
            length += sprintf(text + length, "F,%d,%d,%d\n", n, low, low + (int)draw(top - low + 1));
            break;
        case 2:
            n = draw(2);
            length += sprintf(text + length, "Q,%c,%d\n", "KW"[n], (int)draw(count));
            break;
        default:
            n = draw(count);
            low = draw(2) ? top : 1 + (int)draw(top);
            length += sprintf(text + length, "R,%d,%d,%c", n, low, "MXLBP"[draw(5)]);
            for (n = draw(8) ? 1 + draw(3) : 1 + draw(8); n > 0; n--) {
                low = draw(3) == 0;
                length += sprintf(text + length, low ? ",!%d" : ",%d", (int)draw(count));
            }
            length += sprintf(text + length, "\n");
        }
    return length;
}

/* A refused or done read must equal the reference, area and all. */
static void compare_read(const char *text, size_t length, size_t area_length)
{
    static uint16_t want[AREA];
    uint32_t line = 77, place = 77, want_line, want_place;
    size_t i;
    int fault;

    for (i = 0; i < AREA; i++)
        page[i] = want[i] = FILL;
    fault = ref_read(text, length, want, area_length, &want_line, &want_place);
    same("read", at->read((const uint8_t *)text, length, page, area_length, &line, &place), fault);
    same("read, line", line, want_line);
    same("read, place", place, want_place);
    same("read, area", memcmp(page, want, sizeof page), 0);
}

static void random_page(void)
{
    static char text[4096], broken[4096];
    static uint16_t first[RUN], want[RUN], unsound[AREA];
    struct pair plain[512], closed[512];
    uint32_t changed[512];
    uint16_t queries[16], low, high;
    uint32_t line, place, r, e, bound, passes, taken, want_taken, want_line, allowance, rounds, want_rounds;
    unsigned want_r, want_e, want_passes, used, c, i, n, count, order, state, length = random_text(text);
    int32_t code;
    int fault, fault_line, k;

    order = seed;
    fault = ref_read(text, length, page, SIMJORAD_PAGE_MAX, &line, &place);
    same("random page", fault > 0, 1);
    used = fault;
    count = page[1];
    n = draw(4) ? 1 + draw(3) : 1 + draw(16);
    for (i = 0; i < n; i++)
        queries[i] = draw(count);
    ref_plain(page, plain);
    ref_closed(page, closed, changed);
    for (i = 0; i < RUN; i++)
        first[i] = FILL;
    ref_open(page, queries, n, first, &want_r, &want_e, &want_passes);
    for (c = 0, want_rounds = 0; c < count; c++)
        if (first[3 * c + 2] != 0 && changed[c] > want_rounds)
            want_rounds = changed[c];
    order = seed;

    for (k = 0; k < IMPLS; k++) {
        at = &impls[k];
        seed = order;       /* the same draws for each */

        /* reading, also with a byte changed, and with a short area */
        memcpy(broken, text, length);
        broken[draw(length)] = draw(3) ? "0123456789,,,!\n\n MXLBPKWGFRQDU"[draw(30)] : (char)draw(256);
        compare_read(broken, length, SIMJORAD_PAGE_MAX);
        compare_read(broken, draw(length + 1), SIMJORAD_PAGE_MAX);
        compare_read(text, length, used - 1 - draw(used));
        compare_read(text, length, SIMJORAD_PAGE_MAX);

        /* opening */
        for (i = 0; i < RUN; i++)
            run[i] = FILL;
        r = e = bound = passes = 0;
        same("open", at->open(page, used, queries, n, run, 3 * count, &r, &e, &bound, &passes), 0);
        same("open, R", r, want_r);
        same("open, E", e, want_e);
        same("open, bound", bound, want_r + page[0] * want_e);
        same("open, passes", passes, want_passes);
        same("open, area", memcmp(run, first, sizeof run), 0);

        /* driving by random allowances to rest */
        memcpy(want, first, sizeof want);
        do {
            allowance = draw(3) ? draw(4) : draw(60);
            taken = want_taken = line = want_line = 0;
            fault = ref_drive(page, want, allowance, &want_taken, &want_line);
            same("drive", at->drive(page, used, run, 3 * count, allowance, &taken, &line), fault);
            same("drive, taken", taken, want_taken);
            same("drive, line", line, want_line);
            c = draw(count + 1);
            fault_line = c == count ? -15 : want[3 * c + 2] == 0 ? -17 : (int)ref_holder(page, want, c);
            same("line", at->line(page, used, run, 3 * count, c), fault_line);
            same("drive, area", memcmp(run, want, sizeof run), 0);
        } while (!fault);
        for (c = 0; c < count; c++) {
            low = high = FILL;
            code = at->value(page, used, run, 3 * count, c, &low, &high);
            if (first[3 * c + 2] == 0) {
                same("value, not reached", code, -17);
                same("value, untouched", low == FILL && high == FILL, 1);
            } else {
                same("value, at rest", code, 1);
                same("value, low", low, plain[c].low);
                same("value, high", high, plain[c].high);
            }
        }

        /* evaluating in any order to rest */
        memcpy(run, first, sizeof run);
        memcpy(want, first, sizeof want);
        while (ref_lowest(page, want) >= 0) {
            c = draw(count + 1);
            fault = c == count ? -15 : want[3 * c + 2] != 2 ? -16 : ref_step(page, want, c);
            same("evaluate", at->evaluate(page, used, run, 3 * count, c), fault);
            same("evaluate, area", memcmp(run, want, sizeof run), 0);
        }
        for (c = 0; c < count; c++)
            if (run[3 * c + 2] != 0)
                same("evaluate, at rest", run[3 * c] == plain[c].low && run[3 * c + 1] == plain[c].high, 1);

        /* a run that no opening gave, and one that may be unsound */
        for (c = 0; c < count; c++) {
            run[3 * c + 2] = draw(3);
            run[3 * c] = run[3 * c + 2] ? draw(page[0] + 1) : 0;
            run[3 * c + 1] = run[3 * c + 2] ? run[3 * c] + draw(page[0] - run[3 * c] + 1) : page[0];
        }
        if (draw(2))
            run[draw(3 * count)] = draw(page[0] + 3);
        memcpy(want, run, sizeof want);
        allowance = draw(40);
        taken = want_taken = line = want_line = 0;
        fault = ref_run_sound(page, run, 3 * count) ? ref_drive(page, want, allowance, &want_taken, &want_line) : -14;
        same("drive, any run", at->drive(page, used, run, 3 * count, allowance, &taken, &line), fault);
        same("drive, any run, taken", taken, want_taken);
        same("drive, any run, line", line, want_line);
        same("drive, any run, area", memcmp(run, want, sizeof run), 0);
        same("drive, run short", at->drive(page, used, run, 3 * count - 1, allowance, &taken, &line), -14);
        same("line, run short", at->line(page, used, run, 3 * count - 1, 0), -14);
        same("evaluate, run short", at->evaluate(page, used, run, 3 * count - 1, 0), -14);

        /* closed reading */
        rounds = FILL;
        for (i = 0; i < SCRATCH; i++)
            scratch[i] = FILL;
        for (i = 0; i < 32; i++)
            answers[i] = FILL;
        same("closed, scratch", at->closed(page, used, queries, n, scratch, 4 * count - 1, answers, 2 * n, &rounds), -18);
        same("closed, answers", at->closed(page, used, queries, n, scratch, 4 * count, answers, 2 * n - 1, &rounds), -19);
        same("closed, untouched", scratch[0] == FILL && answers[0] == FILL, 1);
        same("closed, rounds untouched", rounds, FILL);
        same("closed", at->closed(page, used, queries, n, scratch, 4 * count, answers, 2 * n, &rounds), 0);
        same("closed, rounds", rounds, want_rounds);
        for (i = 0; i < n; i++) {
            same("closed, low", answers[2 * i], closed[queries[i]].low);
            same("closed, high", answers[2 * i + 1], closed[queries[i]].high);
        }
        for (; i < 16; i++)
            same("closed, past the answers", answers[2 * i], FILL);
        for (i = 0; i < 4 * count; i++)
            if (scratch[i] != 0)
                same("closed, scratch left", scratch[i], 0);
        same("closed, past the scratch", scratch[4 * count], FILL);
        low = queries[0];
        queries[0] = count;
        same("closed, query range", at->closed(page, used, queries, n, scratch, 0, answers, 0, &rounds), -12);
        same("open, query range", at->open(page, used, queries, n, run, 0, &r, &e, &bound, &passes), -12);
        queries[0] = low;
        same("closed, no query", at->closed(page, used, queries, 0, scratch, 0, answers, 0, &rounds), -11);
        same("open, 17 queries", at->open(page, used, scratch, 17, run, 0, &r, &e, &bound, &passes), -11);
        same("open, run short", at->open(page, used, queries, n, run, 3 * count - 1, &r, &e, &bound, &passes), -13);

        /* a page area that may be unsound */
        memcpy(unsound, page, used * sizeof *page);
        unsound[draw(3) ? draw(used) : draw(4)] = draw(3) ? draw(20) : draw(2) ? draw(65536) : draw(1100);
        i = draw(4) ? used : draw(used + 1);
        fault = ref_page_sound(unsound, i) ? -11 : -10;
        same("open, any page", at->open(unsound, i, NULL, 0, run, 0, &r, &e, &bound, &passes), fault);
        same("closed, any page", at->closed(unsound, i, NULL, 0, NULL, 0, NULL, 0, &rounds), fault);
        fault = fault == -11 ? -14 : -10;
        same("drive, any page", at->drive(unsound, i, NULL, 0, 1, &taken, &line), fault);
        same("line, any page", at->line(unsound, i, NULL, 0, 0), fault);
        same("evaluate, any page", at->evaluate(unsound, i, NULL, 0, 0), fault);
        same("value, any page", at->value(unsound, i, NULL, 0, 0, &low, &high), fault);
        state = seed;
    }
    seed = state;
    at = NULL;
}

int main(int argc, char **argv)
{
    unsigned pages = argc > 1 ? strtoul(argv[1], NULL, 10) : 6000, i;

    if (argc > 2)
        seed = strtoul(argv[2], NULL, 10) | 1;
    for (i = 0; i < IMPLS; i++) {
        at = &impls[i];
        figures();
        reading();
        falling();
        falling_ring();
        printf("%s: figures, reading, falling chain and unknown ring done\n", at->name);
    }
    for (i = 0; i < pages; i++)
        random_page();
    printf("%u random pages, %u checks, %u failed\n", pages, checks, failures);
    return failures != 0;
}
