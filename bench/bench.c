/*
 * bench IMPL INPUT OP [repeat]   runs one operation; prints its result, a checksum of all it left, and the median time
 * bench check [INPUT]            runs every operation of every implementation and compares the results to the digit
 * bench list                     the implementations, inputs and operations
 * bench page INPUT               the text of an input
 */
#define _POSIX_C_SOURCE 199309L
#include <inttypes.h>
#include <stdio.h>
#include <stdlib.h>
#include <string.h>
#include <time.h>

#include "impl.h"
#include "pages.h"

enum { READ, SHOW, SOUND, OPEN, EVALUATE, DRIVE, DRIVE1, VALUE, LINE, CLOSED, OPS };

static const char *const op_names[OPS] = { "read", "show", "sound", "open", "evaluate", "drive", "drive1", "value",
                                           "line", "closed" };

/* Every area is followed by a few numbers that no call may touch. */
enum { AFTER = 16, FILL = 0xa5a5, OUTS = 6 };

/* What an operation is given. */
static struct {
    char text[PAGE_TEXT_MAX];
    size_t text_length;
    uint16_t page[SIMJORAD_PAGE_MAX];
    size_t page_length;
    unsigned count;
    uint16_t queries[SIMJORAD_QUERIES_MAX];
    size_t queries_length;                                          /* for an opening: those of the Q lines */
    uint16_t spread[SIMJORAD_QUERIES_MAX];                          /* for the closed reading: the first query, then */
                                                                    /* others over all conditions */
    uint16_t run[SIMJORAD_RUN_LENGTH(SIMJORAD_CONDITIONS_MAX)];     /* as opened */
    uint32_t condition;                                             /* for evaluate: one that changes if there is one */
} given;

/* What it leaves. */
static struct result {
    int64_t code;
    uint32_t out[OUTS];
    size_t length;
    uint16_t area[SIMJORAD_PAGE_MAX + AFTER];       /* page area, run area, or scratch */
    uint16_t answers[2 * SIMJORAD_QUERIES_MAX + AFTER];
} result, reference;

static void load(const char *name)
{
    uint16_t run[sizeof given.run / sizeof *given.run];
    const uint16_t *p;
    uint32_t r, e, b, k, line, place, c;
    int32_t used;

    given.text_length = page_text(name, given.text);
    if (given.text_length == 0) {
        fprintf(stderr, "no input %s\n", name);
        exit(2);
    }
    used = scan_read((uint8_t *)given.text, given.text_length, given.page, SIMJORAD_PAGE_MAX, &line,
                     &place);
    if (used < 0) {
        fprintf(stderr, "input %s refused: %d, line %u, field %u\n", name, (int)-used, (unsigned)line, (unsigned)place);
        exit(2);
    }
    given.page_length = used;
    given.count = given.page[1];
    given.queries_length = 0;
    for (p = given.page + 4 + given.page[1]; p < given.page + used; p += 4 + (p[1] >= 1 && p[1] <= 5 ? p[3] : 0))
        if (p[1] == 6 && given.queries_length < SIMJORAD_QUERIES_MAX)
            given.queries[given.queries_length++] = p[0];
    given.spread[0] = given.queries[0];
    for (c = 1; c < SIMJORAD_QUERIES_MAX; c++)
        given.spread[c] = c * (given.count - 1) / (SIMJORAD_QUERIES_MAX - 1);
    if (scan_open(given.page, given.page_length, given.queries, given.queries_length, given.run, 3 * given.count, &r, &e,
                  &b, &k) != 0)
        exit(2);
    given.condition = given.queries[0];
    for (c = 0; c < given.count; c++) {
        memcpy(run, given.run, sizeof run);
        if (scan_evaluate(given.page, given.page_length, run, 3 * given.count, c) == 1) {
            given.condition = c;
            break;
        }
    }
}

/* Numbers of the workspace that an indexed form uses. */
static size_t index_length(void)
{
    size_t lines = given.page[2], literals = given.page[3] - 4 - 4 * lines;

    return SIMJORAD_WORKSPACE_LENGTH(given.count, lines, literals);
}

/* Lays out what the call will write to. */
static void prepare(int op)
{
    size_t i;

    result.code = 0;
    memset(result.out, 0, sizeof result.out);
    for (i = 0; i < sizeof result.answers / sizeof *result.answers; i++)
        result.answers[i] = FILL;
    result.length = op == READ ? SIMJORAD_PAGE_MAX : op == CLOSED ? 6 * given.count : op == SHOW ? 0 : 3 * given.count;
    for (i = 0; i < result.length + AFTER; i++)
        result.area[i] = FILL;
#ifdef WITH_ENGINE
    for (i = 0; i < SIMJORAD_WORKSPACE_MAX; i++)
        workspace[i] = FILL;
#endif
    if (op == SOUND || op == EVALUATE || op == DRIVE || op == DRIVE1 || op == VALUE ||
        op == LINE)
        memcpy(result.area, given.run, result.length * sizeof *result.area);
}

/* The call alone: the part that is timed and whose instructions are counted. */
__attribute__((noinline, noclone)) void measured(const struct impl *impl, int op)
{
    uint32_t *out = result.out;
    uint16_t low = 0, high = 0;
    size_t start = 0;

    switch (op) {
    case READ:
        result.code = impl->read((uint8_t *)given.text, given.text_length, result.area, result.length, &out[0],
                                 &out[1]);
        break;
    case SHOW:
        result.code = impl->show_line((uint8_t *)given.text, given.text_length, given.page[2] + 1, &start);
        out[0] = start;
        break;
    case SOUND:     /* both areas are checked, then the condition is refused */
        result.code = impl->value(given.page, given.page_length, result.area, result.length, given.count, &low, &high);
        break;
    case OPEN:
        result.code = impl->open(given.page, given.page_length, given.queries, given.queries_length, result.area,
                                 result.length, &out[0], &out[1], &out[2], &out[3]);
        break;
    case EVALUATE:
        result.code = impl->evaluate(given.page, given.page_length, result.area, result.length, given.condition);
        break;
    case DRIVE:
        result.code = impl->drive(given.page, given.page_length, result.area, result.length, UINT32_MAX, &out[0],
                                  &out[1]);
        break;
    case DRIVE1:
        result.code = impl->drive(given.page, given.page_length, result.area, result.length, 1, &out[0], &out[1]);
        break;
    case VALUE:
        result.code = impl->value(given.page, given.page_length, result.area, result.length, given.queries[0], &low, &high);
        break;
    case LINE:
        result.code = impl->line(given.page, given.page_length, result.area, result.length, given.condition);
        break;
    case CLOSED:
        result.code = impl->closed(given.page, given.page_length, given.spread, SIMJORAD_QUERIES_MAX, result.area,
                                   result.length, result.answers, 2 * SIMJORAD_QUERIES_MAX, &out[0]);
        break;
    }
    out[4] = low;
    out[5] = high;
}

static uint64_t mix(uint64_t sum, uint64_t number)
{
    return (sum ^ number) * UINT64_C(1099511628211);
}

static uint64_t checksum(const struct result *r)
{
    uint64_t sum = mix(UINT64_C(14695981039346656037), (uint64_t)r->code);
    size_t i;

    for (i = 0; i < OUTS; i++)
        sum = mix(sum, r->out[i]);
    for (i = 0; i < r->length + AFTER; i++)
        sum = mix(sum, r->area[i]);
    for (i = 0; i < sizeof r->answers / sizeof *r->answers; i++)
        sum = mix(sum, r->answers[i]);
    return sum;
}

static int64_t clock_ns(void)
{
    struct timespec t;

    clock_gettime(CLOCK_MONOTONIC, &t);
    return (int64_t)t.tv_sec * 1000000000 + t.tv_nsec;
}

static int by_size(const void *a, const void *b)
{
    int64_t x = *(const int64_t *)a, y = *(const int64_t *)b;

    return (x > y) - (x < y);
}

/* The median time of a call, less the median time that reading the clock takes. */
static int64_t median_ns(const struct impl *impl, int op, unsigned repeat)
{
    int64_t *times = malloc(repeat * sizeof *times), empty[101], start, median;
    unsigned i;

    if (!times)
        exit(2);
    for (i = 0; i < 101; i++) {
        start = clock_ns();
        empty[i] = clock_ns() - start;
    }
    qsort(empty, 101, sizeof *empty, by_size);
    for (i = 0; i < repeat; i++) {
        prepare(op);
        start = clock_ns();
        measured(impl, op);
        times[i] = clock_ns() - start;
    }
    qsort(times, repeat, sizeof *times, by_size);
    median = times[repeat / 2] - empty[50];
    free(times);
    return median > 0 ? median : 0;
}

/* After an indexed form the used part of the workspace is zero and the rest as it was; any other call leaves it. */
static int workspace_differs(const struct impl *impl, int op)
{
    int differs = 0;
#ifdef WITH_ENGINE
    int used = strcmp(impl->name, "engine-indexed") == 0 && (op == DRIVE || op == DRIVE1 || op == CLOSED);
    size_t i, zeros = used ? index_length() : 0;

    for (i = 0; i < SIMJORAD_WORKSPACE_MAX; i++)
        differs |= workspace[i] != (i < zeros ? 0 : FILL);
#else
    (void)impl, (void)op, (void)index_length;
#endif
    return differs;
}

static int differ(const char *input, int op, const struct impl *impl)
{
    const char *what = NULL;
    size_t i;
    long long got = 0, want = 0;

    if (result.code != reference.code)
        what = "code", i = 0, got = result.code, want = reference.code;
    for (i = 0; !what && i < OUTS; i++)
        if (result.out[i] != reference.out[i])
            what = "out", got = result.out[i], want = reference.out[i];
    for (i = 0; !what && i < result.length + AFTER; i++)
        if (result.area[i] != reference.area[i])
            what = "area", got = result.area[i], want = reference.area[i];
    for (i = 0; !what && i < sizeof result.answers / sizeof *result.answers; i++)
        if (result.answers[i] != reference.answers[i])
            what = "answers", got = result.answers[i], want = reference.answers[i];
    if (!what && workspace_differs(impl, op))
        what = "workspace";
    if (what)
        printf("DIFFERS: %s %s %s: %s %lld, scan has %lld (the first difference)\n", impl->name, input, op_names[op],
               what, got, want);
    return what != NULL;
}

static int check(const char *only)
{
    unsigned runs = 0, bad = 0;
    size_t k, m;
    int op;

    for (k = 0; page_names[k]; k++) {
        if (only && strcmp(only, page_names[k]) != 0)
            continue;
        load(page_names[k]);
        for (op = 0; op < OPS; op++)
            for (m = 0; m < IMPLS; m++) {
                prepare(op);
                measured(&impls[m], op);
                if (m == 0) {
                    reference = result;
                } else {
                    runs++;
                    bad += differ(page_names[k], op, &impls[m]);
                }
            }
    }
    for (m = 0; m < IMPLS; m++)
        printf("%s%s", m ? ", " : "implementations: ", impls[m].name);
    printf("\n%u comparisons, %u differ\n", runs, bad);
    return bad != 0 || runs == 0;
}

int main(int argc, char **argv)
{
    const struct impl *impl = NULL;
    unsigned repeat = 1;
    int64_t ns;
    int op, i;

    if (argc >= 2 && strcmp(argv[1], "check") == 0)
        return check(argc > 2 ? argv[2] : NULL);
    if (argc == 2 && strcmp(argv[1], "list") == 0) {
        for (i = 0; i < IMPLS; i++)
            printf("implementation %s\n", impls[i].name);
        for (i = 0; page_names[i]; i++)
            printf("input %s: %s\n", page_names[i], page_notes[i]);
        for (i = 0; i < OPS; i++)
            printf("operation %s\n", op_names[i]);
        return 0;
    }
    if (argc == 3 && strcmp(argv[1], "page") == 0) {
        load(argv[2]);
        return fwrite(given.text, 1, given.text_length, stdout) != given.text_length;
    }
    if (argc < 4 || argc > 5) {
        fprintf(stderr, "usage: bench IMPL INPUT OP [repeat] | check [INPUT] | list | page INPUT\n");
        return 2;
    }
    for (i = 0; i < IMPLS; i++)
        if (strcmp(argv[1], impls[i].name) == 0)
            impl = &impls[i];
    for (op = 0; op < OPS && strcmp(argv[3], op_names[op]) != 0; op++)
        ;
    if (argc == 5)
        repeat = strtoul(argv[4], NULL, 10);
    if (!impl || op == OPS || repeat < 1) {
        fprintf(stderr, "no such implementation, operation or repeat\n");
        return 2;
    }
    load(argv[2]);
    ns = median_ns(impl, op, repeat);
    printf("result %" PRId64 " out %" PRIu32 " %" PRIu32 " %" PRIu32 " checksum %016" PRIx64 " ns %" PRId64 "\n",
           result.code, result.out[0], result.out[1], result.out[2], checksum(&result), ns);
    return 0;
}
