/* The whole engine without an index: each evaluation goes through all lines of the page. */
#include <string.h>

#include "baseline.h"
#include "common.h"

/* ---- Reading: one pass checks the text, a second one writes the area ---- */

/* Checks a number and reads it; returns the place after it, or NULL. Byte 10 ends the text, so no bound is needed. */
static inline const uint8_t *number(const uint8_t *s, unsigned *value)
{
    unsigned v = *s - (unsigned)'0', d;

    if (v > 9)
        return NULL;
    s++;
    if (v != 0 && (d = *s - (unsigned)'0') <= 9) {
        v = 10 * v + d;
        s++;
        if ((d = *s - (unsigned)'0') <= 9) {
            v = 10 * v + d;
            s++;
        }
    }
    *value = v;
    return s;
}

/* A comma and a number. */
static inline const uint8_t *field(const uint8_t *s, unsigned *value)
{
    return *s == ',' ? number(s + 1, value) : NULL;
}

static const uint8_t kinds[26] = { ['B' - 'A'] = RULE_B, ['L' - 'A'] = RULE_L, ['M' - 'A'] = RULE_M, ['P' - 'A'] = RULE_P,
                                   ['X' - 'A'] = RULE_X };

/* The kind of an op letter, or 0. */
static inline unsigned kind_of(uint8_t letter)
{
    unsigned place = letter - (unsigned)'A';

    return place < sizeof kinds ? kinds[place] : 0;
}

/* Checks the first line; returns 0, 3, or 4 with the place of the field. */
static inline int check_head(const uint8_t **text, unsigned *top, unsigned *count, uint32_t *place)
{
    const uint8_t *s = *text;

    if (s[0] != 'G' || !(s = field(s + 1, top)) || !(s = field(s, count)) || *s != '\n')
        return 3;
    if (*top - 1 >= TOP_MAX || *count - 1 >= CONDITIONS_MAX) {
        *place = *top - 1 >= TOP_MAX ? 2 : 3;
        return 4;
    }
    *text = s + 1;
    return 0;
}

/* Checks a fact; returns 0, 3, or 4, 22 or 23 with the place of the leftmost bad field. */
static inline int check_fact(const uint8_t **text, unsigned top, unsigned count, uint32_t *place)
{
    const uint8_t *s = *text;
    unsigned condition, low, high;

    if (!(s = field(s + 1, &condition)) || !(s = field(s, &low)) || !(s = field(s, &high)) || *s != '\n')
        return 3;
    *text = s + 1;
    if (condition < count && low <= high && high <= top)
        return 0;
    *place = condition >= count ? 2 : low > top ? 3 : 4;
    return condition >= count ? 4 : low > top || high > top ? 22 : 23;
}

/* Reads a number of a checked text. */
static inline const uint8_t *checked_number(const uint8_t *s, uint16_t *value)
{
    unsigned v = *s++ - (unsigned)'0', d;

    if ((d = *s - (unsigned)'0') <= 9) {
        v = 10 * v + d;
        s++;
        if ((d = *s - (unsigned)'0') <= 9) {
            v = 10 * v + d;
            s++;
        }
    }
    *value = v;
    return s;
}

/* The leftmost bad field of a rule that has its form and a bad field. */
static int rule_fault(const uint8_t *s, unsigned top, unsigned count, uint32_t *place)
{
    uint16_t condition, weight, c;

    s = checked_number(s + 2, &condition);
    s = checked_number(s + 1, &weight) + 2;
    *place = condition >= count ? 2 : 3;
    if (condition >= count)
        return 4;
    if (weight - 1u >= top)
        return 21;
    for (*place = 5;; ++*place) {
        s = checked_number(s + (s[1] == '!' ? 2 : 1), &c);
        if (c >= count)
            return 4;
    }
}

/* Checks a rule and counts its literals; returns 0, 3, or 4 or 21 with the place of the leftmost bad field. */
static inline int check_rule(const uint8_t **text, unsigned top, unsigned count, unsigned *literals, uint32_t *place)
{
    const uint8_t *line = *text, *s = line;
    unsigned condition, weight, c, n = 0, bad;

    if (!(s = field(s + 1, &condition)) || !(s = field(s, &weight)) || s[0] != ',' || !kind_of(s[1]))
        return 3;
    s += 2;
    bad = condition >= count || weight - 1 >= top;
    do {
        if (*s != ',' || n == LITERALS_MAX)
            return 3;
        s += s[1] == '!' ? 2 : 1;
        if (!(s = number(s, &c)))
            return 3;
        bad |= c >= count;
        n++;
    } while (*s != '\n');
    *literals += n;
    *text = s + 1;
    return bad ? rule_fault(line, top, count, place) : 0;
}

/* Checks a query; returns 0, 3, or 4 with the place of its condition. */
static inline int check_query(const uint8_t **text, unsigned count, uint32_t *place)
{
    const uint8_t *s = *text;
    unsigned condition;

    if (s[1] != ',' || (s[2] != 'K' && s[2] != 'W') || !(s = field(s + 3, &condition)) || *s != '\n')
        return 3;
    *text = s + 1;
    if (condition < count)
        return 0;
    *place = 3;
    return 4;
}

/* Checks a D line; returns 0, 3, 24, or 4 with the place of its condition, which joins the set. */
static inline int check_default(const uint8_t **text, unsigned count, set unknown, uint32_t *place)
{
    const uint8_t *s = *text;
    unsigned condition;

    if (!(s = field(s + 1, &condition)) || s[0] != ',' || s[1] != 'U' || s[2] != '\n')
        return 3;
    *text = s + 3;
    if (condition >= count) {
        *place = 2;
        return 4;
    }
    if (set_has(unknown, condition))
        return 24;
    set_add(unknown, condition);
    return 0;
}

static inline int check_line(const uint8_t **text, unsigned top, unsigned count, set unknown, unsigned *literals,
                             uint32_t *place)
{
    switch (**text) {
    case 'F': return check_fact(text, top, count, place);
    case 'R': return check_rule(text, top, count, literals, place);
    case 'Q': return check_query(text, count, place);
    case 'D': return check_default(text, count, unknown, place);
    default: return 3;
    }
}

/* Writes the literals of a checked rule; returns the place after its byte 10. */
static inline const uint8_t *write_literals(const uint8_t *s, uint16_t **out)
{
    uint16_t *p = *out, c;
    unsigned negated;

    do {
        negated = s[1] == '!';
        s = checked_number(s + 1 + negated, &c);
        *p++ = 2 * c + negated;
    } while (*s != '\n');
    *out = p;
    return s + 1;
}

/* Writes a checked line, and the D number of a D line; returns the place after its byte 10. */
static inline const uint8_t *write_line(const uint8_t *s, uint16_t *defaults, uint16_t **out)
{
    uint16_t *p = *out;

    *out = p + 4;
    switch (s[0]) {
    case 'F':
        p[1] = FACT;
        s = checked_number(s + 2, &p[0]);
        s = checked_number(s + 1, &p[2]);
        return checked_number(s + 1, &p[3]) + 1;
    case 'R':
        s = checked_number(s + 2, &p[0]);
        s = checked_number(s + 1, &p[2]);
        p[1] = kinds[s[1] - 'A'];
        s = write_literals(s + 2, out);
        p[3] = *out - (p + 4);
        return s;
    case 'D':
        p[1] = DEFAULT;
        p[2] = p[3] = 0;
        s = checked_number(s + 2, &p[0]);
        defaults[p[0]] = 1;
        return s + 3;
    default:
        p[1] = QUERY;
        p[2] = s[2] == 'W';
        p[3] = 0;
        return checked_number(s + 4, &p[0]) + 1;
    }
}

int32_t scan_read(const uint8_t *text, size_t text_length, uint16_t *area, size_t area_length, uint32_t *line,
                  uint32_t *place)
{
    const uint8_t *s = text, *end = text + text_length, *second;
    unsigned top = 0, count = 0, number = 1, literals = 0, used;
    set unknown = { 0 };
    uint16_t *defaults;
    int fault;

    *line = *place = 0;
    if (text_length > TEXT_MAX)
        return -1;
    if (text_length == 0 || end[-1] != '\n')
        return -2;
    fault = check_head(&s, &top, &count, place);
    second = s;
    while (!fault && s < end) {
        number++;
        fault = number > LINES_MAX + 1 ? 5 : check_line(&s, top, count, unknown, &literals, place);
    }
    if (fault) {
        *line = number;
        return -fault;
    }
    used = HEAD + count + 4 * (number - 1) + literals;
    if (area_length < used)
        return -6;
    area[0] = top;
    area[1] = count;
    area[2] = number - 1;
    area[3] = used;
    defaults = area + HEAD;
    memset(defaults, 0, count * sizeof *defaults);
    area = defaults + count;
    for (s = second; s < end;)
        s = write_line(s, defaults, &area);
    return used;
}

size_t scan_show_line(const uint8_t *text, size_t text_length, size_t number, size_t *start)
{
    size_t at = 0;
    const uint8_t *stop;

    *start = 0;
    if (number == 0)
        return 0;
    while (at < text_length) {
        stop = memchr(text + at, '\n', text_length - at);
        if (--number == 0) {
            *start = at;
            return stop ? (size_t)(stop - (text + at)) : text_length - at;
        }
        if (!stop)
            break;
        at = stop + 1 - text;
    }
    return 0;
}

/* ---- The plain reading ---- */

int32_t scan_open(const uint16_t *page, size_t page_length, const uint16_t *queries, size_t queries_length,
                  uint16_t *run, size_t run_length, uint32_t *reached, uint32_t *edges, uint32_t *bound, uint32_t *passes)
{
    uint16_t stack[CONDITIONS_MAX];                 /* the reached conditions; those from `next` on are still to do */
    uint8_t seen[CONDITIONS_MAX] = { 0 };
    uint64_t named[WORDS_MAX];
    const uint16_t *p, *end;
    unsigned top, count, c, next = 0, stop, length = 0, e = 0, k = 0, i, b;
    int fault;

    if (!page_sound(page, page_length))
        return -10;
    top = page[0], count = page[1];
    if ((fault = queries_fault(queries, queries_length, count)) != 0)
        return -fault;
    if (run_length < 3 * count)
        return -13;
    for (i = 0; i < queries_length; i++)
        if (!seen[queries[i]]) {
            seen[queries[i]] = 1;
            stack[length++] = queries[i];
        }
    end = page + page[3];
    for (; next < length; k++)                      /* a pass follows what was found before it */
        for (stop = length; next < stop; next++) {
            c = stack[next];
            memset(named, 0, sizeof named);
            for (p = first_line(page); p < end; p = next_line(p)) {
                if (p[0] != c || !is_rule(p))
                    continue;
                for (i = 0; i < p[3]; i++) {
                    b = p[4 + i] >> 1;
                    if (named[b / 64] >> b % 64 & 1)
                        continue;
                    named[b / 64] |= (uint64_t)1 << b % 64;
                    e++;
                    if (!seen[b]) {
                        seen[b] = 1;
                        stack[length++] = b;
                    }
                }
            }
        }
    for (c = 0; c < count; c++, run += 3) {
        run[0] = 0;
        run[1] = top;
        run[2] = seen[c] ? 2 : 0;
    }
    *reached = length;
    *edges = e;
    *bound = length + top * e;
    *passes = k;
    return 0;
}

/* Both ends of a literal. */
static inline void ends(const uint16_t *run, unsigned literal, unsigned top, unsigned *low, unsigned *high)
{
    const uint16_t *v = run + 3 * (literal >> 1);

    if (literal & 1) {
        *low = top - v[1];
        *high = top - v[0];
    } else {
        *low = v[0];
        *high = v[1];
    }
}

/* Both ends of a rule. */
static void rule_ends(const uint16_t *rule, const uint16_t *run, unsigned top, unsigned *low, unsigned *high)
{
    const uint16_t *p = rule + 4, *end = p + rule[3];
    unsigned a, b, c, d;

    ends(run, *p++, top, &a, &b);
    switch (rule[1]) {
    case RULE_M:
        for (; p < end; p++) {
            ends(run, *p, top, &c, &d);
            a = c < a ? c : a;
            b = d < b ? d : b;
        }
        break;
    case RULE_X:
        for (; p < end; p++) {
            ends(run, *p, top, &c, &d);
            a = c > a ? c : a;
            b = d > b ? d : b;
        }
        break;
    case RULE_L:
        for (; p < end; p++) {
            ends(run, *p, top, &c, &d);
            a = a + c > top ? a + c - top : 0;
            b = b + d > top ? b + d - top : 0;
        }
        break;
    case RULE_B:
        for (; p < end; p++) {
            ends(run, *p, top, &c, &d);
            a = a + c < top ? a + c : top;
            b = b + d < top ? b + d : top;
        }
        break;
    default:
        for (; p < end; p++) {
            ends(run, *p, top, &c, &d);
            a = a * c / top;
            b = (b * d + top - 1) / top;
        }
    }
    *low = a * rule[2] / top;
    *high = (b * rule[2] + top - 1) / top;
}

/* Evaluates a waiting condition; returns 1 if its interval changed. */
static int step(const uint16_t *page, uint16_t *run, unsigned condition)
{
    const uint16_t *p, *end = page + page[3];
    uint16_t *own = run + 3 * condition;
    unsigned top = page[0], low = 0, high = 0, lines = 0, a, b, i;

    for (p = first_line(page); p < end; p = next_line(p)) {
        if (p[0] != condition || p[1] >= QUERY)
            continue;
        if (p[1] == FACT)
            a = p[2], b = p[3];
        else
            rule_ends(p, run, top, &a, &b);
        low = a > low ? a : low;
        high = b > high ? b : high;
        lines++;
    }
    if (lines == 0 && unknown_by_default(page, condition))
        high = top;
    own[2] = 1;
    if (own[0] == low && own[1] == high)
        return 0;
    own[0] = low;
    own[1] = high;
    for (p = first_line(page); p < end; p = next_line(p)) {
        if (!is_rule(p) || run[3 * p[0] + 2] != 1)
            continue;
        for (i = 0; i < p[3]; i++)
            if (p[4 + i] >> 1 == condition) {
                run[3 * p[0] + 2] = 2;
                break;
            }
    }
    return 1;
}

/* The first F or R line of a condition with this low end, by its number; 0 if there is none. */
static uint32_t line_with(const uint16_t *page, const uint16_t *run, unsigned condition, unsigned low)
{
    const uint16_t *p, *end = page + page[3];
    unsigned top = page[0], number = 2, a, b;

    for (p = first_line(page); p < end; p = next_line(p), number++) {
        if (p[0] != condition || p[1] >= QUERY)
            continue;
        if (p[1] == FACT)
            a = p[2];
        else
            rule_ends(p, run, top, &a, &b);
        if (a == low)
            return number;
    }
    return 0;
}

int32_t scan_evaluate(const uint16_t *page, size_t page_length, uint16_t *run, size_t run_length, uint32_t condition)
{
    if (!page_sound(page, page_length))
        return -10;
    if (!run_sound(run, run_length, page[0], page[1]))
        return -14;
    if (condition >= page[1])
        return -15;
    if (run[3 * condition + 2] != 2)
        return -16;
    return step(page, run, condition);
}

int32_t scan_drive(const uint16_t *page, size_t page_length, uint16_t *run, size_t run_length, uint32_t allowance,
                   uint32_t *taken, uint32_t *line)
{
    unsigned count, c, last = 0, low;
    uint16_t before[2] = { 0, 0 }, after[2], *own;  /* what the condition of the last evaluation held */
    uint32_t done = 0;

    if (!page_sound(page, page_length))
        return -10;
    count = page[1];
    if (!run_sound(run, run_length, page[0], count))
        return -14;
    for (;;) {
        for (c = 0; c < count && run[3 * c + 2] != 2; c++)
            ;
        if (c == count || done == allowance)
            break;
        last = c;
        before[0] = run[3 * c];
        before[1] = run[3 * c + 1];
        step(page, run, c);
        done++;
    }
    *taken = done;
    *line = 0;
    if (done > 0) {
        own = run + 3 * last;
        after[0] = own[0], after[1] = own[1];
        low = own[0];
        own[0] = before[0], own[1] = before[1];
        *line = line_with(page, run, last, low);
        own[0] = after[0], own[1] = after[1];
    }
    return c == count;
}

int32_t scan_value(const uint16_t *page, size_t page_length, const uint16_t *run, size_t run_length, uint32_t condition,
                   uint16_t *low, uint16_t *high)
{
    unsigned count, c;

    if (!page_sound(page, page_length))
        return -10;
    count = page[1];
    if (!run_sound(run, run_length, page[0], count))
        return -14;
    if (condition >= count)
        return -15;
    if (run[3 * condition + 2] == 0)
        return -17;
    *low = run[3 * condition];
    *high = run[3 * condition + 1];
    for (c = 0; c < count && run[3 * c + 2] != 2; c++)
        ;
    return c == count;
}

int32_t scan_line(const uint16_t *page, size_t page_length, const uint16_t *run, size_t run_length, uint32_t condition)
{
    const uint16_t *p, *end;
    unsigned low = 0, a, b;

    if (!page_sound(page, page_length))
        return -10;
    if (!run_sound(run, run_length, page[0], page[1]))
        return -14;
    if (condition >= page[1])
        return -15;
    if (run[3 * condition + 2] == 0)
        return -17;
    end = page + page[3];
    for (p = first_line(page); p < end; p = next_line(p)) {
        if (p[0] != condition || p[1] >= QUERY)
            continue;
        if (p[1] == FACT)
            a = p[2];
        else
            rule_ends(p, run, page[0], &a, &b);
        low = a > low ? a : low;
    }
    return line_with(page, run, condition, low);
}

/* ---- The closed reading ---- */

/*
 * Raises one end of the reached conditions, value[2 * c], to the least fixed point at or above what it holds;
 * value[2 * c + 1], the same end of the negations, stays. `side` is 2 for low ends and 3 for high ends: the place
 * in a fact. Returns 1 if any rose. The high end of a condition unknown by default is never below what its lines give, so it stays.
 */
static int rise(const uint16_t *page, const uint8_t *seen, uint16_t *value, unsigned side)
{
    const uint16_t *p, *end = page + page[3];
    unsigned top = page[0], add = side == 3 ? top - 1 : 0, v;
    int rose, any = 0;

    do {
        rose = 0;
        for (p = first_line(page); p < end; p = next_line(p)) {
            if (!seen[p[0]] || p[1] >= QUERY)
                continue;
            v = p[1] == FACT ? p[side] : rule_end(p, value, top, add);
            if (v > value[2 * p[0]]) {
                value[2 * p[0]] = v;
                rose = 1;
            }
        }
        any |= rose;
    } while (rose);
    return any;
}

/*
 * Returns 1 if a rule negates a condition whose low end rose since the high ends were made: only then can a high end
 * change.
 */
static int stale(const uint16_t *page, const uint16_t *low, const uint16_t *high)
{
    const uint16_t *p, *end = page + page[3];
    unsigned top = page[0], i;

    for (p = first_line(page); p < end; p = next_line(p)) {
        if (!is_rule(p))
            continue;
        for (i = 0; i < p[3]; i++)
            if (p[4 + i] % 2 == 1 && high[p[4 + i]] != top - low[p[4 + i] - 1])
                return 1;
    }
    return 0;
}

/*
 * The next low ends, as their negations in the other table: high[2 * c + 1] falls to top less the low end that the lines give over `low`, which
 * stays. Returns 1 if any fell.
 */
static int next_lows(const uint16_t *page, const uint8_t *seen, const uint16_t *low, uint16_t *high)
{
    const uint16_t *p, *end = page + page[3];
    unsigned top = page[0], v;
    int moved = 0;

    for (p = first_line(page); p < end; p = next_line(p)) {
        if (!seen[p[0]] || p[1] >= QUERY)
            continue;
        v = top - (p[1] == FACT ? p[2] : rule_end(p, low, top, 0));
        if (v < high[2 * p[0] + 1]) {
            high[2 * p[0] + 1] = v;
            moved = 1;
        }
    }
    return moved;
}

/* The reached conditions that are unknown by default; returns 1 if there is one. */
static int find_unknown(const uint16_t *page, const uint8_t *seen, set unknown)
{
    unsigned c;
    int any = 0;

    memset(unknown, 0, sizeof(set));
    for (c = 0; c < page[1]; c++)
        if (seen[c] && unknown_by_default(page, c)) {
            set_add(unknown, c);
            any = 1;
        }
    return any;
}

/* The high ends that `next` tells are put where they are below the ones held. Returns 1 if any fell. */
static int put_highs(const uint16_t *page, const uint8_t *next, uint16_t *low, uint16_t *high)
{
    unsigned c;
    int fell = 0;

    for (c = 0; c < page[1]; c++)
        if (falls(next, high, c)) {
            high[2 * c] = next[c] - 1;
            low[2 * c + 1] = page[0] - high[2 * c];
            fell = 1;
        }
    return fell;
}

/* The negations' high ends follow the low ends. */
static void refresh(const uint16_t *page, const uint16_t *low, uint16_t *high)
{
    unsigned c;

    for (c = 0; c < page[1]; c++)
        high[2 * c + 1] = page[0] - low[2 * c];
}

/*
 * The low ends rise and the high ends of what is unknown by default fall until they stay, the other high ends being as they are. Returns 1 if any
 * moved.
 */
static int settle_floor(const uint16_t *page, const uint8_t *seen, const set unknown, uint16_t *low, uint16_t *high)
{
    uint8_t next[CONDITIONS_MAX];
    int moved = rise(page, seen, low, 2);

    for (;;) {
        refresh(page, low, high);
        next_highs(page, unknown, high, next);
        if (!put_highs(page, next, low, high))
            return moved;
        moved = 1;
        rise(page, seen, low, 2);
    }
}

/*
 * The count of rounds, over tables that hold the closed reading. The support's high ends are settled again from those of the closed reading,
 * where the low end of a negated condition rose or the high end of one unknown by default fell.
 */
static uint32_t count_rounds(const uint16_t *page, const uint8_t *seen, uint16_t *low, uint16_t *high, const set unknown, int any)
{
    uint8_t least[CONDITIONS_MAX], next[CONDITIONS_MAX];
    unsigned top = page[0], count = page[1], c;
    uint32_t rounds = 0;
    int fell = 0, moved, dropped = 0;

    for (c = 0; c < count; c++) {
        least[c] = high[2 * c];
        low[2 * c] = 0;
        high[2 * c + 1] = top;
        if (unknown_by_default(page, c))
            high[2 * c] = top;
    }
    rise(page, seen, high, 3);
    for (c = 0; c < count; c++) {
        low[2 * c + 1] = top - high[2 * c];
        fell |= seen[c] && high[2 * c] != top;
    }
    for (;;) {
        if (any)
            next_highs(page, unknown, high, next);
        moved = next_lows(page, seen, low, high);
        if (any)
            dropped = put_highs(page, next, low, high);
        if (!moved && !dropped)
            return rounds + fell;
        fell = 0;
        if (dropped || stale(page, low, high)) {
            for (c = 0; c < count; c++) {
                low[2 * c] = top - high[2 * c + 1];
                if (unknown_by_default(page, c))
                    continue;
                fell |= high[2 * c] != least[c];
                high[2 * c] = least[c];
            }
            rise(page, seen, high, 3);
            for (c = 0; c < count; c++)
                low[2 * c + 1] = top - high[2 * c];
        } else {
            for (c = 0; c < count; c++)
                low[2 * c] = top - high[2 * c + 1];
        }
        rounds++;
    }
}

int32_t scan_closed(const uint16_t *page, size_t page_length, const uint16_t *queries, size_t queries_length,
                    uint16_t *scratch, size_t scratch_length, uint16_t *answers, size_t answers_length, uint32_t *rounds)
{
    uint16_t *low, *high;           /* by literal */
    uint8_t seen[CONDITIONS_MAX];
    const uint16_t *p, *end;
    unsigned top, count, c, i;
    set unknown;
    int fault, more, any;

    if ((fault = closed_fault(page, page_length, queries, queries_length, scratch_length, answers_length)) != 0)
        return -fault;
    top = page[0], count = page[1];
    memset(scratch, 0, 4 * count * sizeof *scratch);
    memset(seen, 0, count);
    low = scratch;
    high = scratch + 2 * count;

    for (i = 0; i < queries_length; i++)
        seen[queries[i]] = 1;
    end = page + page[3];
    do {
        more = 0;
        for (p = first_line(page); p < end; p = next_line(p)) {
            if (!is_rule(p) || !seen[p[0]])
                continue;
            for (i = 0; i < p[3]; i++)
                if (!seen[p[4 + i] >> 1]) {
                    seen[p[4 + i] >> 1] = 1;
                    more = 1;
                }
        }
    } while (more);

    any = find_unknown(page, seen, unknown);
    for (c = 0; c < count; c++)
        high[2 * c] = unknown_by_default(page, c) ? top : 0;
    do {
        for (c = 0; c < count; c++)
            if (!unknown_by_default(page, c))
                high[2 * c] = 0;
        refresh(page, low, high);
        rise(page, seen, high, 3);
        for (c = 0; c < count; c++)
            low[2 * c + 1] = top - high[2 * c];
    } while (any ? settle_floor(page, seen, unknown, low, high) : rise(page, seen, low, 2) && stale(page, low, high));

    put_answers(low, high, queries, queries_length, answers);
    if (rounds)
        *rounds = count_rounds(page, seen, low, high, unknown, any);
    memset(scratch, 0, 4 * count * sizeof *scratch);
    return 0;
}
