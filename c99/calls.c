/*
 * Calls of the engine, recorded in one place and made again in another.
 *
 *   With -DRECORD this defines the functions of simjorad.h. Each hands its call on to the same function under the name engine_..., and some of
 *   the calls are written to the file that CALLS names: what was lent, what was answered, and what was left.
 *   Without it this is a program: `calls FILE` makes the calls of a file and compares. Its last line is `N passed, M failed`.
 *
 * A file is a run of bytes, every number with its lowest byte first, so that it can be read on any machine.
 */
#include <stdio.h>
#include <stdlib.h>
#include <string.h>
#include "simjorad.h"

enum { READ, SHOW_LINE, OPEN, EVALUATE, DRIVE, DRIVE_INDEXED, VALUE, LINE, CLOSED, CLOSED_INDEXED, LAYERS, CHECK_PICKS, OPEN_FIRST,
       OPEN_SECOND, EVALUATE_FIRST, EVALUATE_SECOND, TURN, FOLLOWERS, SMALL_PAGE, SEASON, FUNCTIONS };
enum { SLICES = 5, OUTS = 9 };

/* What a call is lent and answers. A slice that is not lent has no place here: its size is 0. */
struct slice {
    unsigned size; /* bytes of an element, 1 or 2 */
    size_t length;
    void *at;
};
struct call {
    int function;
    struct slice slices[SLICES];
    uint32_t number;
    uint32_t outs[OUTS];
    uint32_t answer;
};

#ifdef RECORD
#define NAME(f) engine_##f
int32_t engine_read(const uint8_t *, size_t, uint16_t *, size_t, uint32_t *, uint32_t *);
size_t engine_show_line(const uint8_t *, size_t, size_t, size_t *);
int32_t engine_open(const uint16_t *, size_t, const uint16_t *, size_t, uint16_t *, size_t, uint32_t *, uint32_t *, uint32_t *, uint32_t *);
int32_t engine_evaluate(const uint16_t *, size_t, uint16_t *, size_t, uint32_t);
int32_t engine_drive(const uint16_t *, size_t, uint16_t *, size_t, uint32_t, uint32_t *, uint32_t *);
int32_t engine_drive_indexed(const uint16_t *, size_t, uint16_t *, size_t, uint16_t *, size_t, uint32_t, uint32_t *, uint32_t *);
int32_t engine_value(const uint16_t *, size_t, const uint16_t *, size_t, uint32_t, uint16_t *, uint16_t *);
int32_t engine_line(const uint16_t *, size_t, const uint16_t *, size_t, uint32_t);
int32_t engine_closed(const uint16_t *, size_t, const uint16_t *, size_t, uint16_t *, size_t, uint16_t *, size_t, uint32_t *);
int32_t engine_closed_indexed(const uint16_t *, size_t, const uint16_t *, size_t, uint16_t *, size_t, uint16_t *, size_t, uint16_t *,
                              size_t, uint32_t *);
int32_t engine_layers(const uint16_t *, size_t, uint16_t *, size_t, uint32_t *);
int32_t engine_check_picks(const uint16_t *, size_t, const uint16_t *, size_t, const uint16_t *, size_t, const uint16_t *, size_t, uint32_t *);
int32_t engine_open_first(const uint16_t *, size_t, uint16_t *, size_t, const uint16_t *, size_t, uint32_t *, uint32_t *, uint32_t *,
                          uint32_t *);
int32_t engine_open_second(const uint16_t *, size_t, uint16_t *, size_t, const uint16_t *, size_t, uint32_t *, uint32_t *, uint32_t *,
                           uint32_t *);
int32_t engine_evaluate_first(const uint16_t *, size_t, uint16_t *, size_t, uint32_t);
int32_t engine_evaluate_second(const uint16_t *, size_t, uint16_t *, size_t, uint32_t);
int32_t engine_turn(const uint16_t *, size_t, uint16_t *, size_t, uint32_t, uint32_t *, uint32_t *, uint32_t *, uint32_t *, uint32_t *);
int32_t engine_followers(const uint16_t *, size_t, uint32_t);
int32_t engine_small_page(uint32_t, uint8_t *, size_t);
int32_t engine_season(const uint16_t *, size_t, uint32_t *, uint32_t *, uint32_t *, uint32_t *, uint32_t *, uint32_t *, uint32_t *, int32_t *,
                      uint32_t *);
#else
#define NAME(f) simjorad_##f
#endif

/* Makes the call: sets its answer and its out-parameters. */
static void make(struct call *c)
{
    const struct slice *s = c->slices;
    size_t start = c->outs[0];
    uint16_t low = (uint16_t)c->outs[0], high = (uint16_t)c->outs[1];
    switch (c->function) {
    case READ:
        c->answer = (uint32_t)NAME(read)(s[0].at, s[0].length, s[1].at, s[1].length, &c->outs[0], &c->outs[1]);
        break;
    case SHOW_LINE:
        c->answer = (uint32_t)NAME(show_line)(s[0].at, s[0].length, c->number, &start);
        c->outs[0] = (uint32_t)start;
        break;
    case OPEN:
        c->answer = (uint32_t)NAME(open)(s[0].at, s[0].length, s[1].at, s[1].length, s[2].at, s[2].length, &c->outs[0], &c->outs[1],
                                         &c->outs[2], &c->outs[3]);
        break;
    case EVALUATE:
        c->answer = (uint32_t)NAME(evaluate)(s[0].at, s[0].length, s[1].at, s[1].length, c->number);
        break;
    case DRIVE:
        c->answer = (uint32_t)NAME(drive)(s[0].at, s[0].length, s[1].at, s[1].length, c->number, &c->outs[0], &c->outs[1]);
        break;
    case DRIVE_INDEXED:
        c->answer = (uint32_t)NAME(drive_indexed)(s[0].at, s[0].length, s[1].at, s[1].length, s[2].at, s[2].length, c->number,
                                                  &c->outs[0], &c->outs[1]);
        break;
    case VALUE:
        c->answer = (uint32_t)NAME(value)(s[0].at, s[0].length, s[1].at, s[1].length, c->number, &low, &high);
        c->outs[0] = low;
        c->outs[1] = high;
        break;
    case LINE:
        c->answer = (uint32_t)NAME(line)(s[0].at, s[0].length, s[1].at, s[1].length, c->number);
        break;
    case CLOSED:
        c->answer = (uint32_t)NAME(closed)(s[0].at, s[0].length, s[1].at, s[1].length, s[2].at, s[2].length, s[3].at, s[3].length,
                                           &c->outs[0]);
        break;
    case CLOSED_INDEXED:
        c->answer = (uint32_t)NAME(closed_indexed)(s[0].at, s[0].length, s[1].at, s[1].length, s[2].at, s[2].length, s[3].at,
                                                   s[3].length, s[4].at, s[4].length, &c->outs[0]);
        break;
    case LAYERS:
        c->answer = (uint32_t)NAME(layers)(s[0].at, s[0].length, s[1].at, s[1].length, &c->outs[0]);
        break;
    case CHECK_PICKS:
        c->answer = (uint32_t)NAME(check_picks)(s[0].at, s[0].length, s[1].at, s[1].length, s[2].at, s[2].length, s[3].at,
                                                s[3].length, &c->outs[0]);
        break;
    case OPEN_FIRST:
        c->answer = (uint32_t)NAME(open_first)(s[0].at, s[0].length, s[1].at, s[1].length, s[2].at, s[2].length, &c->outs[0],
                                               &c->outs[1], &c->outs[2], &c->outs[3]);
        break;
    case OPEN_SECOND:
        c->answer = (uint32_t)NAME(open_second)(s[0].at, s[0].length, s[1].at, s[1].length, s[2].at, s[2].length, &c->outs[0],
                                                &c->outs[1], &c->outs[2], &c->outs[3]);
        break;
    case EVALUATE_FIRST:
        c->answer = (uint32_t)NAME(evaluate_first)(s[0].at, s[0].length, s[1].at, s[1].length, c->number);
        break;
    case EVALUATE_SECOND:
        c->answer = (uint32_t)NAME(evaluate_second)(s[0].at, s[0].length, s[1].at, s[1].length, c->number);
        break;
    case TURN:
        c->answer = (uint32_t)NAME(turn)(s[0].at, s[0].length, s[1].at, s[1].length, c->number, &c->outs[0], &c->outs[1], &c->outs[2],
                                         &c->outs[3], &c->outs[4]);
        break;
    case FOLLOWERS:
        c->answer = (uint32_t)NAME(followers)(s[0].at, s[0].length, c->number);
        break;
    case SMALL_PAGE:
        c->answer = (uint32_t)NAME(small_page)(c->number, s[0].at, s[0].length);
        break;
    default:
        c->answer = (uint32_t)NAME(season)(s[0].at, s[0].length, &c->outs[0], &c->outs[1], &c->outs[2], &c->outs[3], &c->outs[4],
                                           &c->outs[5], &c->outs[6], (int32_t *)&c->outs[7], &c->outs[8]);
    }
}

#ifdef RECORD
#include <pthread.h>
#include <unistd.h>

enum { MEMORY_PAGE = 4096, FIRST = 60, STRIDE = 47, LARGE = 3000, LARGE_FIRST = 12 };
static pthread_mutex_t turn = PTHREAD_MUTEX_INITIALIZER;
static FILE *file;

static void put(uint32_t x)
{
    for (int i = 0; i < 4; i++)
        fputc((int)(x >> (8 * i) & 255), file);
}

static void put_slices(const struct call *c)
{
    for (int k = 0; k < SLICES; k++) {
        const struct slice *s = &c->slices[k];
        put(s->size);
        put((uint32_t)s->length);
        for (size_t i = 0; i < s->length; i++) {
            unsigned x = s->size == 1 ? ((uint8_t *)s->at)[i] : ((uint16_t *)s->at)[i];
            fputc((int)(x & 255), file);
            if (s->size == 2)
                fputc((int)(x >> 8), file);
        }
    }
}

static void put_outs(const struct call *c)
{
    for (int k = 0; k < OUTS; k++)
        put(c->outs[k]);
}

/* Whether all of the lent memory can be read: a test may lend a count that goes on into memory which a call must not touch. */
static int readable(const struct call *c)
{
    static int ends[2] = {-1, -1};
    if (ends[0] < 0 && pipe(ends))
        abort();
    for (int k = 0; k < SLICES; k++) {
        const char *at = c->slices[k].at;
        for (size_t bytes = c->slices[k].length * c->slices[k].size; bytes > 0;) {
            char back;
            size_t step = bytes < MEMORY_PAGE ? bytes : MEMORY_PAGE;
            if (write(ends[1], at + bytes - 1, 1) != 1 || read(ends[0], &back, 1) != 1)
                return 0;
            bytes -= step;
        }
        if (c->slices[k].length && (write(ends[1], at, 1) != 1 || read(ends[0], &(char){0}, 1) != 1))
            return 0;
    }
    return 1;
}

/* Whether a call is written down: the first ones of each function and every so many, the long pages only at first. */
static int chosen(const struct call *c)
{
    static unsigned long seen[FUNCTIONS], large[FUNCTIONS];
    if (c->slices[0].length > LARGE)
        return large[c->function]++ < LARGE_FIRST;
    unsigned long n = seen[c->function]++;
    return n < FIRST || n % STRIDE == 0;
}

static void hand_on(struct call *c)
{
    pthread_mutex_lock(&turn);
    if (!file && !(file = fopen(getenv("CALLS") ? getenv("CALLS") : "calls", "wb")))
        abort();
    int kept = chosen(c) && readable(c);
    if (kept) {
        put((uint32_t)c->function);
        put(c->number);
        put_outs(c);
        put_slices(c);
    }
    make(c);
    if (kept) {
        put(c->answer);
        put_outs(c);
        put_slices(c);
        fflush(file);
    }
    pthread_mutex_unlock(&turn);
}

#define BYTES(k, p) .slices[k] = {1, p##_length, (void *)p}
#define NUMBERS(k, p) .slices[k] = {2, p##_length, (void *)p}

int32_t simjorad_read(const uint8_t *text, size_t text_length, uint16_t *area, size_t area_length, uint32_t *line, uint32_t *place)
{
    struct call c = {.function = READ, BYTES(0, text), NUMBERS(1, area), .outs = {*line, *place}};
    hand_on(&c);
    *line = c.outs[0];
    *place = c.outs[1];
    return (int32_t)c.answer;
}

size_t simjorad_show_line(const uint8_t *text, size_t text_length, size_t number, size_t *start)
{
    if (text_length > UINT32_MAX || number > UINT32_MAX)
        return engine_show_line(text, text_length, number, start);
    struct call c = {.function = SHOW_LINE, BYTES(0, text), .number = (uint32_t)number}; /* the start is always set */
    hand_on(&c);
    *start = c.outs[0];
    return c.answer;
}

int32_t simjorad_open(const uint16_t *page, size_t page_length, const uint16_t *queries, size_t queries_length, uint16_t *run,
                      size_t run_length, uint32_t *reached, uint32_t *edges, uint32_t *bound, uint32_t *passes)
{
    struct call c = {.function = OPEN, NUMBERS(0, page), NUMBERS(1, queries), NUMBERS(2, run),
                     .outs = {*reached, *edges, *bound, *passes}};
    hand_on(&c);
    *reached = c.outs[0];
    *edges = c.outs[1];
    *bound = c.outs[2];
    *passes = c.outs[3];
    return (int32_t)c.answer;
}

int32_t simjorad_evaluate(const uint16_t *page, size_t page_length, uint16_t *run, size_t run_length, uint32_t condition)
{
    struct call c = {.function = EVALUATE, NUMBERS(0, page), NUMBERS(1, run), .number = condition};
    hand_on(&c);
    return (int32_t)c.answer;
}

int32_t simjorad_drive(const uint16_t *page, size_t page_length, uint16_t *run, size_t run_length, uint32_t allowance, uint32_t *taken,
                       uint32_t *line)
{
    struct call c = {.function = DRIVE, NUMBERS(0, page), NUMBERS(1, run), .number = allowance, .outs = {*taken, *line}};
    hand_on(&c);
    *taken = c.outs[0];
    *line = c.outs[1];
    return (int32_t)c.answer;
}

int32_t simjorad_drive_indexed(const uint16_t *page, size_t page_length, uint16_t *run, size_t run_length, uint16_t *workspace,
                               size_t workspace_length, uint32_t allowance, uint32_t *taken, uint32_t *line)
{
    struct call c = {.function = DRIVE_INDEXED, NUMBERS(0, page), NUMBERS(1, run), NUMBERS(2, workspace), .number = allowance,
                     .outs = {*taken, *line}};
    hand_on(&c);
    *taken = c.outs[0];
    *line = c.outs[1];
    return (int32_t)c.answer;
}

int32_t simjorad_value(const uint16_t *page, size_t page_length, const uint16_t *run, size_t run_length, uint32_t condition,
                       uint16_t *low, uint16_t *high)
{
    struct call c = {.function = VALUE, NUMBERS(0, page), NUMBERS(1, run), .number = condition, .outs = {*low, *high}};
    hand_on(&c);
    *low = (uint16_t)c.outs[0];
    *high = (uint16_t)c.outs[1];
    return (int32_t)c.answer;
}

int32_t simjorad_line(const uint16_t *page, size_t page_length, const uint16_t *run, size_t run_length, uint32_t condition)
{
    struct call c = {.function = LINE, NUMBERS(0, page), NUMBERS(1, run), .number = condition};
    hand_on(&c);
    return (int32_t)c.answer;
}

int32_t simjorad_closed(const uint16_t *page, size_t page_length, const uint16_t *queries, size_t queries_length, uint16_t *scratch,
                        size_t scratch_length, uint16_t *answers, size_t answers_length, uint32_t *rounds)
{
    struct call c = {.function = CLOSED, NUMBERS(0, page), NUMBERS(1, queries), NUMBERS(2, scratch), NUMBERS(3, answers),
                     .outs = {*rounds}};
    hand_on(&c);
    *rounds = c.outs[0];
    return (int32_t)c.answer;
}

int32_t simjorad_closed_indexed(const uint16_t *page, size_t page_length, const uint16_t *queries, size_t queries_length,
                                uint16_t *scratch, size_t scratch_length, uint16_t *answers, size_t answers_length,
                                uint16_t *workspace, size_t workspace_length, uint32_t *rounds)
{
    struct call c = {.function = CLOSED_INDEXED, NUMBERS(0, page), NUMBERS(1, queries), NUMBERS(2, scratch), NUMBERS(3, answers),
                     NUMBERS(4, workspace), .outs = {*rounds}};
    hand_on(&c);
    *rounds = c.outs[0];
    return (int32_t)c.answer;
}

int32_t simjorad_layers(const uint16_t *page, size_t page_length, uint16_t *layers, size_t layers_length, uint32_t *condition)
{
    struct call c = {.function = LAYERS, NUMBERS(0, page), NUMBERS(1, layers), .outs = {*condition}};
    hand_on(&c);
    *condition = c.outs[0];
    return (int32_t)c.answer;
}

int32_t simjorad_check_picks(const uint16_t *page, size_t page_length, const uint16_t *queries, size_t queries_length,
                             const uint16_t *picks, size_t picks_length, const uint16_t *figures, size_t figures_length,
                             uint32_t *place)
{
    struct call c = {.function = CHECK_PICKS, NUMBERS(0, page), NUMBERS(1, queries), NUMBERS(2, picks), NUMBERS(3, figures),
                     .outs = {*place}};
    hand_on(&c);
    *place = c.outs[0];
    return (int32_t)c.answer;
}

/* An opening of either stall. */
static int32_t open_stall(struct call *c, uint32_t *reached, uint32_t *edges, uint32_t *bound, uint32_t *passes)
{
    uint32_t *const outs[] = {reached, edges, bound, passes};
    for (int k = 0; k < 4; k++)
        c->outs[k] = *outs[k];
    hand_on(c);
    for (int k = 0; k < 4; k++)
        *outs[k] = c->outs[k];
    return (int32_t)c->answer;
}

int32_t simjorad_open_first(const uint16_t *page, size_t page_length, uint16_t *area, size_t area_length, const uint16_t *queries,
                            size_t queries_length, uint32_t *reached, uint32_t *edges, uint32_t *bound, uint32_t *passes)
{
    struct call c = {.function = OPEN_FIRST, NUMBERS(0, page), NUMBERS(1, area), NUMBERS(2, queries)};
    return open_stall(&c, reached, edges, bound, passes);
}

int32_t simjorad_open_second(const uint16_t *page, size_t page_length, uint16_t *area, size_t area_length, const uint16_t *queries,
                             size_t queries_length, uint32_t *reached, uint32_t *edges, uint32_t *bound, uint32_t *passes)
{
    struct call c = {.function = OPEN_SECOND, NUMBERS(0, page), NUMBERS(1, area), NUMBERS(2, queries)};
    return open_stall(&c, reached, edges, bound, passes);
}

int32_t simjorad_evaluate_first(const uint16_t *page, size_t page_length, uint16_t *area, size_t area_length, uint32_t condition)
{
    struct call c = {.function = EVALUATE_FIRST, NUMBERS(0, page), NUMBERS(1, area), .number = condition};
    hand_on(&c);
    return (int32_t)c.answer;
}

int32_t simjorad_evaluate_second(const uint16_t *page, size_t page_length, uint16_t *area, size_t area_length, uint32_t condition)
{
    struct call c = {.function = EVALUATE_SECOND, NUMBERS(0, page), NUMBERS(1, area), .number = condition};
    hand_on(&c);
    return (int32_t)c.answer;
}

int32_t simjorad_turn(const uint16_t *page, size_t page_length, uint16_t *area, size_t area_length, uint32_t allowance,
                      uint32_t *taken_first, uint32_t *rest_first, uint32_t *taken_second, uint32_t *rest_second, uint32_t *stall)
{
    uint32_t *const outs[] = {taken_first, rest_first, taken_second, rest_second, stall};
    struct call c = {.function = TURN, NUMBERS(0, page), NUMBERS(1, area), .number = allowance};
    for (int k = 0; k < 5; k++)
        c.outs[k] = *outs[k];
    hand_on(&c);
    for (int k = 0; k < 5; k++)
        *outs[k] = c.outs[k];
    return (int32_t)c.answer;
}

int32_t simjorad_followers(const uint16_t *page, size_t page_length, uint32_t condition)
{
    struct call c = {.function = FOLLOWERS, NUMBERS(0, page), .number = condition};
    hand_on(&c);
    return (int32_t)c.answer;
}

int32_t simjorad_small_page(uint32_t number, uint8_t *buffer, size_t buffer_length)
{
    struct call c = {.function = SMALL_PAGE, BYTES(0, buffer), .number = number};
    hand_on(&c);
    return (int32_t)c.answer;
}

int32_t simjorad_season(const uint16_t *pairs, size_t pairs_length, uint32_t *count, uint32_t *sum_low, uint32_t *sum_width,
                        uint32_t *smallest, uint32_t *largest, uint32_t *mean, uint32_t *remainder, int32_t *change, uint32_t *place)
{
    uint32_t *outs[] = {count, sum_low, sum_width, smallest, largest, mean, remainder, (uint32_t *)change, place};
    struct call c = {.function = SEASON, NUMBERS(0, pairs)};
    for (int k = 0; k < OUTS; k++)
        c.outs[k] = *outs[k];
    hand_on(&c);
    for (int k = 0; k < OUTS; k++)
        *outs[k] = c.outs[k];
    return (int32_t)c.answer;
}

#else

static const char *const names[FUNCTIONS] = {"read", "show_line", "open", "evaluate", "drive", "drive_indexed", "value", "line",
                                             "closed", "closed_indexed", "layers", "check_picks", "open_first", "open_second", "evaluate_first",
                                             "evaluate_second", "turn", "followers", "small_page", "season"};
static FILE *file;

static unsigned byte(void)
{
    int b = fgetc(file);
    if (b == EOF) {
        printf("the file of calls is cut off\n");
        exit(2);
    }
    return (unsigned)b;
}

static uint32_t get(void)
{
    uint32_t x = 0;
    for (int i = 0; i < 4; i++)
        x |= (uint32_t)byte() << (8 * i);
    return x;
}

/* A slice in memory of exactly its length, so that a checker sees any step beside it; NULL if it is empty. */
static struct slice get_slice(void)
{
    struct slice s = {get(), 0, NULL};
    s.length = get();
    if (s.length && !(s.at = malloc(s.length * s.size)))
        exit(2);
    for (size_t i = 0; i < s.length; i++) {
        unsigned x = byte();
        if (s.size == 1)
            ((uint8_t *)s.at)[i] = (uint8_t)x;
        else
            ((uint16_t *)s.at)[i] = (uint16_t)(x | byte() << 8);
    }
    return s;
}

static void get_call(struct call *c)
{
    c->number = get();
    for (int k = 0; k < OUTS; k++)
        c->outs[k] = get();
    for (int k = 0; k < SLICES; k++)
        c->slices[k] = get_slice();
}

/* Whether the call has answered and left what the file says. */
static int as_recorded(struct call *c)
{
    int same = c->answer == get();
    for (int k = 0; k < OUTS; k++)
        same &= c->outs[k] == get();
    for (int k = 0; k < SLICES; k++) {
        struct slice then = get_slice(), now = c->slices[k];
        same &= then.length == now.length && (!now.length || !memcmp(then.at, now.at, now.length * now.size));
        free(then.at);
        free(now.at);
    }
    return same;
}

int main(int argc, char **argv)
{
    unsigned long passed[FUNCTIONS] = {0}, all = 0, failed = 0;
    file = argc == 2 ? fopen(argv[1], "rb") : NULL;
    if (!file) {
        fprintf(stderr, "usage: calls FILE\n");
        return 2;
    }
    for (int first; (first = fgetc(file)) != EOF; all++) {
        struct call c = {.function = first};
        byte(), byte(), byte();
        get_call(&c);
        make(&c);
        if (as_recorded(&c))
            passed[c.function]++;
        else if (++failed <= 5)
            printf("call %lu, %s, answers or leaves something else\n", all, names[c.function]);
    }
    for (int k = 0; k < FUNCTIONS; k++)
        printf("%s %lu\n", names[k], passed[k]);
    printf("%lu passed, %lu failed\n", all - failed, failed);
    return failed != 0;
}

#endif
