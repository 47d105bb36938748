/*
 * A controller loop over the engine, to copy from. A decision is worked on between the movements of the arm, BUDGET evaluations for
 * each movement, left off when they are used and taken up again before the next movement.
 *
 * The cup is permitted only if the low end of the permission and the low end of the pulsator are both at or over their thresholds.
 * Low ends never fall while a run is worked, so a permission given on a half-worked run still stands at rest. It stands for the
 * facts that the page was read with: when a fact changes, read the page again and open a new run.
 *
 *   controller PAGE        reads the page from the file and plays movements until the run is at rest
 *
 * Ends with 0 if the run came to rest, 1 if the page is refused or the arm is stopped, 2 if the file cannot be read.
 */
#include <stdio.h>
#include "simjorad.h"

/* The conditions that this controller asks for, and how many a page must have for it. */
enum { ATTACH = 0, PULSATOR = 1, SENSOR_A = 6, SENSOR_B = 7, CONDITIONS = 8 };

/* The thresholds are grades out of TOP: a page with another top is not for this controller. */
enum { TOP = 100, ATTACH_NEEDED = 70, PULSATOR_NEEDED = 85 };
#define IS_THRESHOLD(grade) ((grade) >= 1 && (grade) <= TOP)
typedef char thresholds_are_grades[IS_THRESHOLD(ATTACH_NEEDED) && IS_THRESHOLD(PULSATOR_NEEDED) ? 1 : -1];

/* Evaluations for each movement. */
enum { BUDGET = 8 };

static uint8_t text[SIMJORAD_TEXT_MAX + 1]; /* one more than a page may have, so that a longer file is refused and not cut */
static size_t text_length;
static uint16_t page[SIMJORAD_PAGE_MAX];
static size_t page_length;
static uint16_t run[SIMJORAD_RUN_LENGTH(SIMJORAD_CONDITIONS_MAX)];
enum { RUN_NUMBERS = sizeof run / sizeof run[0] };
static uint32_t bound; /* no run takes more evaluations than its opening said */
static uint32_t spent; /* the evaluations of this run so far */

/* A refusal that a working controller never sees (damaged memory, a wrong number): the arm must not move. Returns the exit status. */
static int stop(const char *call, int32_t code)
{
    printf("arm stopped: %s refused %d\n", call, (int)-code);
    return 1;
}

/* Reads the page and checks that it is for this controller. Returns 0, or the exit status. */
static int load(const char *path)
{
    FILE *file = fopen(path, "rb");
    if (!file)
        return 2;
    text_length = fread(text, 1, sizeof text, file);
    int unread = ferror(file);
    fclose(file);
    if (unread)
        return 2;

    uint32_t line, place; /* 0 where no line, or no single field of it, is at fault */
    int32_t used = simjorad_read(text, text_length, page, sizeof page / sizeof page[0], &line, &place);
    if (used < 0) {
        size_t start = 0, length = simjorad_show_line(text, text_length, line, &start);
        printf("page refused: %d, line %u, field %u: %.*s\n", (int)-used, (unsigned)line, (unsigned)place, (int)length,
               (const char *)text + start);
        return 1;
    }
    page_length = (size_t)used;
    if (page[0] != TOP || page[1] < CONDITIONS) {
        printf("page refused: top %u and %u conditions, this controller needs top %d and %d or more\n", page[0], page[1], TOP,
               CONDITIONS);
        return 1;
    }
    return 0;
}

/* What is left of the budget of one movement. The run's own bound is never passed. */
static uint32_t allowance(uint32_t used)
{
    uint32_t left = BUDGET - used;
    return left < bound - spent ? left : bound - spent;
}

/*
 * The work of one movement: what is urgent first, then whatever waits. Returns 1 if the run is at rest, 0 if work is left, or the
 * refusal that stops the arm, with the name of its call in *call.
 */
static int32_t work(const char **call)
{
    static const uint32_t urgent[] = {SENSOR_A, SENSOR_B, PULSATOR};
    uint32_t used = 0, taken = 0, line = 0;

    *call = "evaluate";
    for (size_t i = 0; i < sizeof urgent / sizeof urgent[0] && allowance(used) > 0; i++) {
        int32_t code = simjorad_evaluate(page, page_length, run, RUN_NUMBERS, urgent[i]);
        if (code == -SIMJORAD_NOT_WAITING)
            continue; /* it is up to date: no evaluation was taken, nothing was changed */
        if (code < 0)
            return code;
        used++;
        spent++;
    }
    *call = "drive";
    int32_t rest = simjorad_drive(page, page_length, run, RUN_NUMBERS, allowance(used), &taken, &line);
    if (rest >= 0)
        spent += taken;
    return rest;
}

/* Shows the line to look at while the arm waits: the one that holds the low end of a condition. Returns 0, or the refusal that stops the arm. */
static int32_t show_holder(uint32_t condition)
{
    int32_t line = simjorad_line(page, page_length, run, RUN_NUMBERS, condition);
    if (line < 0)
        return line;
    size_t start = 0, length = simjorad_show_line(text, text_length, (size_t)line, &start);
    if (line == 0)
        printf("  condition %u has no line\n", (unsigned)condition);
    else
        printf("  condition %u is held by line %d: %.*s\n", (unsigned)condition, (int)line, (int)length, (const char *)text + start);
    return 0;
}

/* Prints whether the cup is permitted now, and if not, the line to look at. Returns 0, or the refusal that stops the arm, with its call in *call. */
static int32_t decide(unsigned movement, int rest, const char **call)
{
    uint16_t attach_low, attach_high, pulsator_low, pulsator_high;
    *call = "value";
    int32_t code = simjorad_value(page, page_length, run, RUN_NUMBERS, ATTACH, &attach_low, &attach_high);
    if (code < 0)
        return code;
    code = simjorad_value(page, page_length, run, RUN_NUMBERS, PULSATOR, &pulsator_low, &pulsator_high);
    if (code < 0)
        return code;
    int permitted = attach_low >= ATTACH_NEEDED && pulsator_low >= PULSATOR_NEEDED;
    printf("movement %u: permission [%u;%u], pulsator [%u;%u]: %s, %s\n", movement, attach_low, attach_high, pulsator_low,
           pulsator_high, permitted ? "cup permitted" : "no cup", rest ? "at rest" : "work left");
    *call = "line";
    return permitted ? 0 : show_holder(attach_low < ATTACH_NEEDED ? ATTACH : PULSATOR);
}

int main(int argc, char **argv)
{
    int status = argc == 2 ? load(argv[1]) : 2;
    if (status == 2)
        fprintf(stderr, "usage: controller PAGE\n");
    if (status != 0)
        return status;

    const uint16_t queries[] = {ATTACH, PULSATOR};
    uint32_t reached, edges, passes;
    int32_t code = simjorad_open(page, page_length, queries, 2, run, RUN_NUMBERS, &reached, &edges, &bound, &passes);
    if (code < 0)
        return stop("open", code);
    printf("opened: %u conditions, at most %u evaluations, %d for each movement\n", (unsigned)reached, (unsigned)bound, BUDGET);

    int32_t rest = 0;
    for (unsigned movement = 1; rest == 0; movement++) {
        const char *call;
        rest = work(&call);
        if (rest < 0)
            return stop(call, rest);
        code = decide(movement, rest, &call);
        if (code < 0)
            return stop(call, code);
        if (rest == 0 && spent == bound) { /* the bound is proved: the engine or its memory is damaged */
            printf("arm stopped: work left after %u evaluations\n", (unsigned)spent);
            return 1;
        }
    }
    return 0;
}
