/*
 * The engine's calls with one of them refusing: linked with --wrap into examples/controller.c, to see that it stops the arm.
 * The variable REFUSE is a call, a number of calls that are let through first, and the refusal, as in "drive 1 14".
 */
#include <stdio.h>
#include <stdlib.h>
#include <string.h>
#include "simjorad.h"

int32_t __real_simjorad_open(const uint16_t *, size_t, const uint16_t *, size_t, uint16_t *, size_t, uint32_t *, uint32_t *,
                             uint32_t *, uint32_t *);
int32_t __wrap_simjorad_open(const uint16_t *, size_t, const uint16_t *, size_t, uint16_t *, size_t, uint32_t *, uint32_t *,
                             uint32_t *, uint32_t *);
int32_t __real_simjorad_evaluate(const uint16_t *, size_t, uint16_t *, size_t, uint32_t);
int32_t __wrap_simjorad_evaluate(const uint16_t *, size_t, uint16_t *, size_t, uint32_t);
int32_t __real_simjorad_drive(const uint16_t *, size_t, uint16_t *, size_t, uint32_t, uint32_t *, uint32_t *);
int32_t __wrap_simjorad_drive(const uint16_t *, size_t, uint16_t *, size_t, uint32_t, uint32_t *, uint32_t *);
int32_t __real_simjorad_value(const uint16_t *, size_t, const uint16_t *, size_t, uint32_t, uint16_t *, uint16_t *);
int32_t __wrap_simjorad_value(const uint16_t *, size_t, const uint16_t *, size_t, uint32_t, uint16_t *, uint16_t *);
int32_t __real_simjorad_line(const uint16_t *, size_t, const uint16_t *, size_t, uint32_t);
int32_t __wrap_simjorad_line(const uint16_t *, size_t, const uint16_t *, size_t, uint32_t);

/* Minus the refusal if this call of this name is to refuse, else 0. */
static int32_t refusal(const char *call)
{
    static int calls;
    char name[16] = "";
    int first = 0, number = 0;
    const char *plan = getenv("REFUSE");

    if (!plan || sscanf(plan, "%15s %d %d", name, &first, &number) != 3 || strcmp(name, call) != 0)
        return 0;
    return calls++ < first ? 0 : -number;
}

int32_t __wrap_simjorad_open(const uint16_t *page, size_t page_length, const uint16_t *queries, size_t queries_length, uint16_t *run,
                             size_t run_length, uint32_t *reached, uint32_t *edges, uint32_t *bound, uint32_t *passes)
{
    int32_t code = refusal("open");
    return code ? code
                : __real_simjorad_open(page, page_length, queries, queries_length, run, run_length, reached, edges, bound,
                                       passes);
}

int32_t __wrap_simjorad_evaluate(const uint16_t *page, size_t page_length, uint16_t *run, size_t run_length, uint32_t condition)
{
    int32_t code = refusal("evaluate");
    return code ? code : __real_simjorad_evaluate(page, page_length, run, run_length, condition);
}

int32_t __wrap_simjorad_drive(const uint16_t *page, size_t page_length, uint16_t *run, size_t run_length, uint32_t allowance,
                              uint32_t *taken, uint32_t *line)
{
    int32_t code = refusal("drive");
    return code ? code : __real_simjorad_drive(page, page_length, run, run_length, allowance, taken, line);
}

int32_t __wrap_simjorad_value(const uint16_t *page, size_t page_length, const uint16_t *run, size_t run_length, uint32_t condition,
                              uint16_t *low, uint16_t *high)
{
    int32_t code = refusal("value");
    return code ? code : __real_simjorad_value(page, page_length, run, run_length, condition, low, high);
}

int32_t __wrap_simjorad_line(const uint16_t *page, size_t page_length, const uint16_t *run, size_t run_length, uint32_t condition)
{
    int32_t code = refusal("line");
    return code ? code : __real_simjorad_line(page, page_length, run, run_length, condition);
}
