/*
 * A controller for two stalls, to copy from: two arms work off one page. Both decisions lie in one shared area, and a turn of BUDGET
 * evaluations is split between them: what one arm does not need goes to the other.
 *
 *   twin PAGE        reads the page from the file and makes turns until both runs are at rest
 *
 * Ends with 0 if both runs came to rest, 1 if the page is refused or the arms are stopped, 2 if the file cannot be read.
 */
#include <stdio.h>
#include "simjorad.h"

/* The permission of each stall, what both ask for first, and how many conditions a page must have for this controller. */
enum { FIRST = 0, SECOND = 1, VACUUM = 2, CONDITIONS = 3 };

/* The threshold is a grade out of TOP: a page with another top is not for this controller. */
enum { TOP = 100, NEEDED = 70 };

/* Evaluations for both stalls in each turn. */
enum { BUDGET = 9 };

static uint8_t text[SIMJORAD_TEXT_MAX + 1]; /* one more than a page may have, so that a longer file is refused and not cut */
static uint16_t page[SIMJORAD_PAGE_MAX];
static size_t page_length;
static uint16_t area[SIMJORAD_SHARED_LENGTH(SIMJORAD_CONDITIONS_MAX)];
enum { AREA_NUMBERS = sizeof area / sizeof area[0] };
static uint32_t bound; /* no two runs take more evaluations together than their openings said */
static uint32_t spent; /* the evaluations of both runs so far */

/* A refusal that a working controller never sees (damaged memory, a wrong number): no arm may move. Returns the exit status. */
static int stop(const char *call, int32_t code, uint32_t stall)
{
    printf("arms stopped: %s refused %d", call, (int)-code);
    if (stall > 0)
        printf(" for stall %u", (unsigned)stall);
    printf("\n");
    return 1;
}

/* Reads the page and checks that it is for this controller. Returns 0, or the exit status. */
static int load(const char *path)
{
    FILE *file = fopen(path, "rb");
    if (!file)
        return 2;
    size_t length = fread(text, 1, sizeof text, file);
    int unread = ferror(file);
    fclose(file);
    if (unread)
        return 2;

    uint32_t line, place;
    int32_t used = simjorad_read(text, length, page, sizeof page / sizeof page[0], &line, &place);
    if (used < 0) {
        printf("page refused: %d, line %u, field %u\n", (int)-used, (unsigned)line, (unsigned)place);
        return 1;
    }
    page_length = (size_t)used;
    if (page[0] != TOP || page[1] < CONDITIONS) {
        printf("page refused: top %u and %u conditions, this controller needs top %d and %d or more\n", page[0], page[1], TOP,
               CONDITIONS);
        return 1;
    }
    return 0;
}

/* Opens the runs of both stalls, each with its own permission. Returns 0, or the refusal that stops the arms. */
static int32_t open_both(void)
{
    const uint16_t first[] = {FIRST}, second[] = {SECOND};
    uint32_t reached, edges, passes, own;
    int32_t code = simjorad_open_first(page, page_length, area, AREA_NUMBERS, first, 1, &reached, &edges, &bound, &passes);
    if (code < 0)
        return code;
    printf("first stall opened: %u conditions, at most %u evaluations\n", (unsigned)reached, (unsigned)bound);
    code = simjorad_open_second(page, page_length, area, AREA_NUMBERS, second, 1, &reached, &edges, &own, &passes);
    if (code < 0)
        return code;
    printf("second stall opened: %u conditions, at most %u evaluations\n", (unsigned)reached, (unsigned)own);
    bound += own;
    return 0;
}

/* What is urgent comes first in both stalls. Returns 0, or the refusal that stops the arms. */
static int32_t urgent(void)
{
    int32_t (*const evaluate[])(const uint16_t *, size_t, uint16_t *, size_t, uint32_t) = {simjorad_evaluate_first,
                                                                                           simjorad_evaluate_second};
    for (int stall = 0; stall < 2; stall++) {
        int32_t code = evaluate[stall](page, page_length, area, AREA_NUMBERS, VACUUM);
        if (code == -SIMJORAD_NOT_WAITING)
            continue; /* it is up to date: no evaluation was taken, nothing was changed */
        if (code < 0)
            return code;
        spent++;
    }
    return 0;
}

/* Prints whether the cup of a stall is permitted now. A stall's part is a run area. Returns 0, or the refusal that stops the arms. */
static int32_t decide(const char *name, const uint16_t *part, uint32_t condition, uint32_t taken, uint32_t rest)
{
    uint16_t low, high;
    int32_t code = simjorad_value(page, page_length, part, SIMJORAD_RUN_LENGTH(page[1]), condition, &low, &high);
    if (code < 0)
        return code;
    printf("  %s stall took %u: permission [%u;%u]: %s, %s\n", name, (unsigned)taken, low, high, low >= NEEDED ? "cup permitted" : "no cup",
           rest ? "at rest" : "work left");
    return 0;
}

int main(int argc, char **argv)
{
    int status = argc == 2 ? load(argv[1]) : 2;
    if (status == 2)
        fprintf(stderr, "usage: twin PAGE\n");
    if (status != 0)
        return status;

    int32_t code = open_both();
    if (code < 0)
        return stop("open", code, 0);
    code = urgent();
    if (code < 0)
        return stop("evaluate", code, 0);

    uint32_t rest_first = 0, rest_second = 0;
    for (unsigned turn = 1; !rest_first || !rest_second; turn++) {
        uint32_t taken_first, taken_second, stall, left = bound - spent;
        code = simjorad_turn(page, page_length, area, AREA_NUMBERS, left < BUDGET ? left : BUDGET, &taken_first, &rest_first,
                             &taken_second, &rest_second, &stall);
        if (code < 0)
            return stop("turn", code, stall);
        spent += taken_first + taken_second;
        printf("turn %u:\n", turn);
        code = decide("first", area, FIRST, taken_first, rest_first);
        if (code == 0)
            code = decide("second", area + SIMJORAD_RUN_LENGTH(page[1]), SECOND, taken_second, rest_second);
        if (code < 0)
            return stop("value", code, 0);
        if (spent == bound && (!rest_first || !rest_second)) { /* the bound is proved: the engine or its memory is damaged */
            printf("arms stopped: work left after %u evaluations\n", (unsigned)spent);
            return 1;
        }
    }
    return 0;
}
