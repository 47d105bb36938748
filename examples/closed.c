/*
 * The closed reading from C, in one call.
 *
 *   closed PAGE CONDITION...        prints the closed interval of each condition (at most 16)
 */
#include <stdio.h>
#include <stdlib.h>
#include "simjorad.h"

static uint8_t text[SIMJORAD_TEXT_MAX + 1]; /* one more than a page may have, so that a longer file is refused and not cut */
static uint16_t page[SIMJORAD_PAGE_MAX];
static uint16_t scratch[SIMJORAD_SCRATCH_LENGTH(SIMJORAD_CONDITIONS_MAX)];
static uint16_t workspace[SIMJORAD_WORKSPACE_MAX]; /* for the index: without room for it the same answers come more slowly */

#define NUMBERS(array) (sizeof array / sizeof array[0])

int main(int argc, char **argv)
{
    uint16_t queries[SIMJORAD_QUERIES_MAX], answers[2 * SIMJORAD_QUERIES_MAX];
    size_t count = argc > 2 ? (size_t)argc - 2 : 0;
    FILE *file = argc > 1 ? fopen(argv[1], "rb") : NULL;
    if (!file || count < 1 || count > SIMJORAD_QUERIES_MAX) {
        fprintf(stderr, "usage: closed PAGE CONDITION... (1 to %d conditions)\n", SIMJORAD_QUERIES_MAX);
        return 2;
    }
    size_t length = fread(text, 1, sizeof text, file);
    int unread = ferror(file);
    fclose(file);
    if (unread)
        return 2;

    uint32_t line, place;
    int32_t used = simjorad_read(text, length, page, NUMBERS(page), &line, &place);
    if (used < 0) {
        printf("page refused: %d, line %u, field %u\n", (int)-used, (unsigned)line, (unsigned)place);
        return 1;
    }
    for (size_t i = 0; i < count; i++) { /* a query is 16 bits wide: a larger number must not be cut to a good one */
        unsigned long number = strtoul(argv[i + 2], NULL, 10);
        queries[i] = number > UINT16_MAX ? UINT16_MAX : (uint16_t)number;
    }
    uint32_t rounds;
    int32_t code = simjorad_closed_indexed(page, (size_t)used, queries, count, scratch, NUMBERS(scratch), answers, NUMBERS(answers),
                                           workspace, NUMBERS(workspace), &rounds);
    if (code < 0) {
        printf("closed reading refused: %d\n", (int)-code);
        return 1;
    }
    for (size_t i = 0; i < count; i++)
        printf("condition %u: [%u;%u]\n", queries[i], answers[2 * i], answers[2 * i + 1]);
    return 0;
}
