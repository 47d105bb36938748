/*
 * Calls every function of the library through the header, with figures worked out by hand, and checks the header's own figures.
 * Prints a line for each fault and ends with `N passed, M failed`.
 */
#include <stdio.h>
#include <string.h>
#include "simjorad.h"

static int passed, failed;

#define CHECK(fact) ((fact) ? (void)passed++ : (void)(failed++, printf("line %d: %s\n", __LINE__, #fact)))

/* 0 and 1 deny each other, each with a fact (docs/RULES.md, row 1). */
static const char text[] = "G,10,2\nF,0,2,2\nF,1,3,3\nR,0,10,M,!1\nR,1,10,M,!0\nQ,K,0\nQ,W,1\n";
enum { TEXT = sizeof text - 1, USED = 32, INDEX = SIMJORAD_WORKSPACE_LENGTH(2, 6, 2) };

/* The page area of the text, in memory that is only read. */
static const uint16_t area[USED] = {10, 2,  6, 32,                               /* top, C, lines, used length */
                                    0,  0,                                       /* nobody is unknown by default */
                                    0,  0,  2, 2,  1, 0, 3, 3,                   /* two facts */
                                    0,  1,  10, 1, 3, 1, 1, 10, 1, 1,            /* two rules of one literal: 2 * condition + 1 */
                                    0,  6,  0, 0,  1, 6, 1, 0};                  /* a K and a W query */

static int same(const uint16_t *numbers, const uint16_t *wanted, size_t count)
{
    return memcmp(numbers, wanted, count * sizeof *numbers) == 0;
}

static void reads(void)
{
    uint16_t page[USED + 1];
    uint32_t line = 77, place = 77;
    size_t start = 77;

    page[USED] = 4711;
    CHECK(simjorad_read((const uint8_t *)text, TEXT, page, USED + 1, &line, &place) == USED);
    CHECK(line == 0 && place == 0 && same(page, area, USED) && page[USED] == 4711);
    memset(page, 0, sizeof page);
    CHECK(simjorad_read((const uint8_t *)text, TEXT, page, USED - 1, &line, &place) == -SIMJORAD_AREA_SHORT && line == 0 && place == 0 && page[0] == 0);
    line = 77;
    CHECK(simjorad_read((const uint8_t *)text, TEXT - 1, page, USED, &line, &place) == -SIMJORAD_TEXT_UNENDED && line == 0 && place == 0);
    CHECK(simjorad_read(NULL, 0, NULL, 0, &line, &place) == -SIMJORAD_TEXT_UNENDED && line == 0 && place == 0);
    CHECK(simjorad_read((const uint8_t *)"G,10,2\nF,0,03,4\n", 16, page, USED, &line, &place) == -SIMJORAD_LINE_FORM && line == 2 && place == 0);
    CHECK(simjorad_read((const uint8_t *)"G,10,2\nF,0,4,3\n", 15, page, USED, &line, &place) == -SIMJORAD_LOW_ABOVE_HIGH && line == 2);
    CHECK(place == 4);
    CHECK(simjorad_read((const uint8_t *)"G,10,2\nF,0,11,3\n", 16, page, USED, &line, &place) == -SIMJORAD_GRADE_RANGE && line == 2);
    CHECK(place == 3);
    CHECK(simjorad_read((const uint8_t *)"G,10,2\nR,0,11,M,2\n", 18, page, USED, &line, &place) == -SIMJORAD_WEIGHT_RANGE && line == 2);
    CHECK(place == 3);
    CHECK(simjorad_read((const uint8_t *)"G,10,2\nR,0,1,M,1,!2\n", 20, page, USED, &line, &place) == -SIMJORAD_LINE_RANGE && line == 2);
    CHECK(place == 6);
    CHECK(simjorad_show_line((const uint8_t *)text, TEXT, 4, &start) == 11 && start == 23);
    CHECK(memcmp(text + start, "R,0,10,M,!1", 11) == 0);
    CHECK(simjorad_show_line((const uint8_t *)text, TEXT, 8, &start) == 0);
    CHECK(simjorad_show_line(NULL, 0, 1, &start) == 0);
}

static void long_texts(void)
{
    static uint8_t bytes[SIMJORAD_TEXT_MAX + 1];
    static uint16_t page[SIMJORAD_PAGE_MAX];
    uint32_t line = 77, place = 77;
    size_t at = 0;

    memset(bytes, 10, sizeof bytes);
    CHECK(simjorad_read(bytes, SIMJORAD_TEXT_MAX + 1, page, SIMJORAD_PAGE_MAX, &line, &place) == -SIMJORAD_TEXT_TOO_LONG && line == 0 && place == 0);
    CHECK(simjorad_read(bytes, SIMJORAD_TEXT_MAX, page, SIMJORAD_PAGE_MAX, &line, &place) == -SIMJORAD_LINE_FORM && line == 1 && place == 0);
    at = (size_t)sprintf((char *)bytes, "G,%d,%d\n", SIMJORAD_TOP_MAX, SIMJORAD_CONDITIONS_MAX);
    for (int i = 0; i < SIMJORAD_LINES_MAX; i++)
        at += (size_t)sprintf((char *)bytes + at, "R,511,200,P,0,1,2,3,4,5,6,!511\n");
    CHECK(simjorad_read(bytes, at, page, SIMJORAD_PAGE_MAX, &line, &place) == SIMJORAD_PAGE_MAX && line == 0 && place == 0);
    CHECK(page[3] == SIMJORAD_PAGE_MAX && page[2] == SIMJORAD_LINES_MAX);
    CHECK(SIMJORAD_WORKSPACE_LENGTH(page[1], page[2], page[3] - 4 - page[1] - 4 * page[2]) == SIMJORAD_WORKSPACE_MAX);
    CHECK(simjorad_read(bytes, at, page, SIMJORAD_PAGE_MAX - 1, &line, &place) == -SIMJORAD_AREA_SHORT && line == 0 && place == 0);
    bytes[at] = 'x';
    bytes[at + 1] = 10;
    CHECK(simjorad_read(bytes, at + 2, page, SIMJORAD_PAGE_MAX, &line, &place) == -SIMJORAD_LINE_COUNT && line == SIMJORAD_LINES_MAX + 2 && place == 0);
}

/* A run of the page above: R 2, E 2, bound 22, 2 passes; spent after 3 evaluations, at rest after 4 (docs/RULES.md, row 2). */
static void runs(void)
{
    static const uint16_t queries[] = {0}, opened[] = {0, 10, 2, 0, 10, 2}, spent[] = {2, 7, 1, 3, 8, 2}, rest[] = {2, 7, 1, 3, 8, 1};
    uint16_t run[SIMJORAD_RUN_LENGTH(2)] = {0}, workspace[INDEX] = {0}, low = 77, high = 78;
    uint32_t reached = 77, edges = 78, bound = 79, passes = 80, taken = 77, line = 76;

    CHECK(simjorad_open(area, USED - 1, queries, 1, run, 6, &reached, &edges, &bound, &passes) == -SIMJORAD_PAGE_UNSOUND);
    CHECK(simjorad_open(area, USED, NULL, 0, run, 6, &reached, &edges, &bound, &passes) == -SIMJORAD_QUERY_COUNT);
    CHECK(simjorad_open(area, USED, area + 1, 1, run, 6, &reached, &edges, &bound, &passes) == -SIMJORAD_QUERY_RANGE);
    CHECK(simjorad_open(area, USED, queries, 1, run, 5, &reached, &edges, &bound, &passes) == -SIMJORAD_RUN_SHORT);
    CHECK(reached == 77 && edges == 78 && bound == 79 && passes == 80);
    CHECK(simjorad_open(area, USED, queries, 1, run, 6, &reached, &edges, &bound, &passes) == 0);
    CHECK(reached == 2 && edges == 2 && bound == 22 && passes == 2 && same(run, opened, 6));

    CHECK(simjorad_drive(area, USED, run, 5, 3, &taken, &line) == -SIMJORAD_RUN_UNSOUND && taken == 77 && line == 76);
    CHECK(simjorad_drive(area, USED, run, 6, 0, &taken, &line) == 0 && taken == 0 && line == 0 && same(run, opened, 6));
    CHECK(simjorad_drive(area, USED, run, 6, 3, &taken, &line) == 0 && taken == 3 && line == 2 && same(run, spent, 6));
    CHECK(simjorad_value(area, USED, run, 6, 1, &low, &high) == 0 && low == 3 && high == 8);
    CHECK(simjorad_evaluate(area, USED, run, 6, 0) == -SIMJORAD_NOT_WAITING);
    CHECK(simjorad_evaluate(area, USED, run, 6, 2) == -SIMJORAD_CONDITION_RANGE);
    CHECK(simjorad_evaluate(area, USED, run, 6, 1) == 0 && same(run, rest, 6));
    CHECK(simjorad_line(area, USED, run, 6, 1) == 3 && simjorad_line(area, USED, run, 6, 2) == -SIMJORAD_CONDITION_RANGE);
    CHECK(simjorad_value(area, USED, run, 6, 0, &low, &high) == 1 && low == 2 && high == 7);
    CHECK(simjorad_value(area, USED, run, 6, 65536, &low, &high) == -SIMJORAD_CONDITION_RANGE && low == 2 && high == 7);

    memcpy(run, opened, sizeof run);
    memset(workspace, 0xff, sizeof workspace);
    CHECK(simjorad_drive_indexed(area, USED, run, 6, workspace, INDEX - 1, 2, &taken, &line) == 0 && taken == 2 && line == 3);
    CHECK(workspace[0] == 0xffff);
    CHECK(simjorad_drive_indexed(area, USED, run, 6, workspace, INDEX, bound - 2, &taken, &line) == 1 && taken == 2 && line == 3);
    CHECK(same(run, rest, 6) && workspace[0] == 0 && workspace[INDEX - 1] == 0);
    CHECK(simjorad_drive_indexed(area, 3, run, 6, NULL, 0, 1, &taken, &line) == -SIMJORAD_PAGE_UNSOUND && taken == 2 && line == 3);
    memcpy(run, opened, sizeof run);
    CHECK(simjorad_evaluate(area, USED, run, 6, 0) == 1 && run[0] == 2 && run[1] == 10 && run[2] == 1);
    run[2] = 0;
    run[0] = 0;
    CHECK(simjorad_value(area, USED, run, 6, 0, &low, &high) == -SIMJORAD_NOT_REACHED);
    CHECK(simjorad_line(area, USED, run, 6, 0) == -SIMJORAD_NOT_REACHED);
    CHECK(simjorad_line(area, USED, run, 5, 0) == -SIMJORAD_RUN_UNSOUND && simjorad_line(area, 3, run, 6, 0) == -SIMJORAD_PAGE_UNSOUND);
}

/* A sound run area that no opening left need not come to rest: 0 denies itself and goes to and fro. */
static void no_rest(void)
{
    static const uint16_t page[] = {1, 1, 1, 10, 0, 0, 1, 1, 1, 1};
    uint16_t run[] = {0, 0, 2};
    uint32_t taken = 0, line = 0;

    CHECK(simjorad_drive(page, 10, run, 3, 1000, &taken, &line) == 0 && taken == 1000 && line == 2 && run[2] == 2);
}

/* `D,1,U` and `R,0,10,M,!1`: a camera that is not fitted is unknown in both readings, and so is what denies it. */
static void unknown(void)
{
    static const char lines[] = "G,10,2\nD,1,U\nR,0,10,M,!1\n", twice[] = "G,10,2\nD,1,U\nD,1,U\n";
    static const uint16_t wanted[] = {10, 2, 2, 15, 0, 1, 1, 7, 0, 0, 0, 1, 10, 1, 3}, queries[] = {0, 1}, answer[] = {0, 10, 0, 10};
    uint16_t page[15], run[6], scratch[8], answers[4] = {77, 77, 77, 77};
    uint32_t reached, edges, bound, passes, taken, line, place, rounds = 77;

    CHECK(simjorad_read((const uint8_t *)lines, sizeof lines - 1, page, 15, &line, &place) == 15 && same(page, wanted, 15));
    CHECK(simjorad_open(page, 15, queries, 1, run, 6, &reached, &edges, &bound, &passes) == 0 && reached == 2 && edges == 1);
    CHECK(simjorad_drive(page, 15, run, 6, bound, &taken, &line) == 1 && taken == 2 && line == 0);
    CHECK(run[0] == 0 && run[1] == 10 && run[3] == 0 && run[4] == 10);
    CHECK(simjorad_closed(page, 15, queries, 2, scratch, 8, answers, 4, &rounds) == 0 && rounds == 0 && same(answers, answer, 4));
    page[5] = 0;
    CHECK(simjorad_closed(page, 15, queries, 2, scratch, 8, answers, 4, &rounds) == -SIMJORAD_PAGE_UNSOUND);
    CHECK(simjorad_read((const uint8_t *)twice, sizeof twice - 1, page, 15, &line, &place) == -SIMJORAD_SECOND_DEFAULT && line == 3 && place == 0);
}

/* The line that an evaluation tells, and the one of the intervals then held: F,0,5,5 and then R,0,10,B,0,0. */
static void held_lines(void)
{
    static const uint16_t page[] = {10, 1, 2, 15, 0, 0, 0, 5, 5, 0, 4, 10, 2, 0, 0};
    uint16_t run[] = {0, 10, 2};
    uint32_t taken = 0, line = 0;

    CHECK(simjorad_drive(page, 15, run, 3, 1, &taken, &line) == 0 && taken == 1 && line == 2 && run[0] == 5);
    CHECK(simjorad_line(page, 15, run, 3, 0) == 3);
}

static void closed(void)
{
    static const uint16_t queries[] = {1, 0}, answer[] = {3, 8, 2, 7};
    uint16_t scratch[SIMJORAD_SCRATCH_LENGTH(2)], answers[5] = {77, 77, 77, 77, 77}, workspace[INDEX];
    uint32_t rounds = 77;

    memset(scratch, 0xff, sizeof scratch);
    CHECK(simjorad_closed(area, USED, queries, 2, scratch, 7, answers, 5, &rounds) == -SIMJORAD_SCRATCH_SHORT);
    CHECK(simjorad_closed(area, USED, queries, 2, scratch, 8, answers, 3, &rounds) == -SIMJORAD_ANSWERS_SHORT);
    CHECK(answers[0] == 77 && scratch[0] == 0xffff && rounds == 77);
    CHECK(simjorad_closed(area, USED, queries, 2, scratch, 8, answers, 5, &rounds) == 0 && rounds == 2);
    CHECK(same(answers, answer, 4) && answers[4] == 77 && scratch[0] == 0 && scratch[7] == 0);
    memset(answers, 0, sizeof answers);
    memset(workspace, 0xff, sizeof workspace);
    rounds = 77;
    CHECK(simjorad_closed_indexed(area, USED, queries, 2, scratch, 8, answers, 5, workspace, INDEX, &rounds) == 0 && rounds == 2);
    CHECK(same(answers, answer, 4) && workspace[0] == 0 && workspace[INDEX - 1] == 0);
    CHECK(simjorad_closed_indexed(area, USED, area + 1, 1, scratch, 8, answers, 5, NULL, 0, &rounds) == -SIMJORAD_QUERY_RANGE && rounds == 2);
}

static void layered(void)
{
    static const uint16_t page[] = {1, 4, 3, 24, 0, 0, 0, 0, 0, 1, 1, 1, 3, 1, 1, 1, 1, 5, 3, 1, 1, 2, 2, 6}, wanted[] = {2, 1, 0, 1};
    uint16_t layers[5] = {77, 77, 77, 77, 77};
    uint32_t condition = 77;

    CHECK(simjorad_layers(area, USED, layers, 2, &condition) == -SIMJORAD_NEGATED_LOOP && condition == 0 && layers[0] == 77);
    condition = 77;
    CHECK(simjorad_layers(page, 24, layers, 3, &condition) == -SIMJORAD_LAYERS_SHORT && condition == 0 && layers[0] == 77);
    condition = 77;
    CHECK(simjorad_layers(page, 23, NULL, 0, &condition) == -SIMJORAD_PAGE_UNSOUND && condition == 0);
    condition = 77;
    CHECK(simjorad_layers(page, 24, layers, 5, &condition) == 0 && condition == 0 && same(layers, wanted, 4) && layers[4] == 77);
}

static void picked(void)
{
    static const uint16_t queries[] = {1, 0}, picks[] = {1, 0, 1, 0, 0}, figures[] = {3, 8, 2, 7};
    uint32_t place = 77;

    CHECK(simjorad_check_picks(area, USED, queries, 2, picks, 4, figures, 4, &place) == 0 && place == 0);
    place = 77;
    CHECK(simjorad_check_picks(area, USED, queries, 2, picks, 5, figures, 4, &place) == -SIMJORAD_PICK_NOT_WAITING && place == 5);
    CHECK(simjorad_check_picks(area, USED, queries, 2, picks, 3, figures, 4, &place) == -SIMJORAD_PICKS_NOT_AT_REST && place == 0);
    place = 77;
    CHECK(simjorad_check_picks(area, USED, queries, 2, picks, 4, figures, 3, &place) == -SIMJORAD_FIGURES_WRONG && place == 0);
    place = 77;
    CHECK(simjorad_check_picks(area, USED, queries + 1, 1, picks, 4, figures, 2, &place) == -SIMJORAD_FIGURES_WRONG && place == 0);
    CHECK(simjorad_check_picks(area, USED, area + 1, 1, NULL, 0, NULL, 0, &place) == -SIMJORAD_QUERY_RANGE && place == 0);
    place = 77;
    CHECK(simjorad_check_picks(area, USED - 1, NULL, 0, NULL, 0, NULL, 0, &place) == -SIMJORAD_PAGE_UNSOUND && place == 0);
}

/* Two runs of the page in one area: each is 4 evaluations from its rest when it is opened. */
static void stalls(void)
{
    static const uint16_t query[] = {0}, after[][6] = {{0, 10, 2, 0, 10, 2}, {2, 10, 1, 0, 10, 2}, {2, 7, 1, 3, 8, 2}, {2, 7, 1, 3, 8, 1}};
    uint16_t both[SIMJORAD_SHARED_LENGTH(2) + 1];
    uint32_t reached = 77, edges = 77, bound = 77, passes = 77, one = 77, rests = 77, two = 77, rest = 77, stall = 77;

    memset(both, 0xff, sizeof both);
    CHECK(simjorad_open_first(area, USED, both, 11, query, 1, &reached, &edges, &bound, &passes) == -SIMJORAD_SHARED_SHORT && bound == 77);
    CHECK(simjorad_open_first(area, 3, both, 11, query, 1, &reached, &edges, &bound, &passes) == -SIMJORAD_PAGE_UNSOUND);
    CHECK(simjorad_open_second(area, USED, both, 13, NULL, 0, &reached, &edges, &bound, &passes) == -SIMJORAD_QUERY_COUNT && reached == 77);
    CHECK(simjorad_open_second(area, USED, both, 13, query, 1, &reached, &edges, &bound, &passes) == 0);
    CHECK(reached == 2 && edges == 2 && bound == 22 && passes == 2 && both[0] == 0xffff && same(both + 6, after[0], 6) && both[12] == 0xffff);
    CHECK(simjorad_turn(area, USED, both, 13, 7, &one, &rests, &two, &rest, &stall) == -SIMJORAD_RUN_UNSOUND && stall == 1 && one == 77);
    CHECK(simjorad_open_first(area, USED, both, 13, query, 1, &reached, &edges, &bound, &passes) == 0 && same(both, after[0], 6));
    CHECK(simjorad_turn(area, USED, both, 11, 7, &one, &rests, &two, &rest, &stall) == -SIMJORAD_SHARED_SHORT && stall == 0);
    CHECK(simjorad_evaluate_second(area, USED, both, 13, 0) == 1 && same(both, after[0], 6) && same(both + 6, after[1], 6));
    CHECK(simjorad_evaluate_second(area, USED, both, 13, 0) == -SIMJORAD_NOT_WAITING);
    CHECK(simjorad_evaluate_first(area, USED, both, 11, 0) == -SIMJORAD_SHARED_SHORT);
    CHECK(simjorad_evaluate_first(area, USED, both, 13, 0) == 1 && same(both, after[1], 6));
    stall = 77;
    CHECK(simjorad_turn(area, USED, both, 13, 5, &one, &rests, &two, &rest, &stall) == 0 && one == 3 && rests == 1 && two == 2 && rest == 0);
    CHECK(stall == 0 && same(both, after[3], 6) && same(both + 6, after[2], 6) && both[12] == 0xffff);
    CHECK(simjorad_turn(area, USED, both, 13, UINT32_MAX, &one, &rests, &two, &rest, &stall) == 0 && one == 0 && two == 1 && rest == 1);
    both[11] = 3;
    CHECK(simjorad_turn(area, USED, both, 13, 5, &one, &rests, &two, &rest, &stall) == -SIMJORAD_RUN_UNSOUND && stall == 2 && two == 1);
}

static void followed(void)
{
    static const uint16_t page[] = {1, 4, 3, 24, 0, 0, 0, 0, 0, 1, 1, 1, 3, 1, 1, 1, 1, 5, 3, 1, 1, 2, 2, 6};

    CHECK(simjorad_followers(page, 24, 0) == 0 && simjorad_followers(page, 24, 1) == 2);
    CHECK(simjorad_followers(page, 24, 2) == 3 && simjorad_followers(page, 24, 3) == 1);
    CHECK(simjorad_followers(page, 24, 4) == -SIMJORAD_CONDITION_RANGE);
    CHECK(simjorad_followers(page, 23, 4) == -SIMJORAD_PAGE_UNSOUND);
    CHECK(simjorad_followers(NULL, 0, 0) == -SIMJORAD_PAGE_UNSOUND);
}

static void small_pages(void)
{
    uint8_t buffer[SIMJORAD_SMALL_TEXT_MAX + 1];

    memset(buffer, 255, sizeof buffer);
    CHECK(simjorad_small_page(SIMJORAD_SMALL_PAGES, buffer, sizeof buffer) == -SIMJORAD_SMALL_NUMBER && buffer[0] == 255);
    CHECK(simjorad_small_page(SIMJORAD_SMALL_PAGES, NULL, 0) == -SIMJORAD_SMALL_NUMBER);
    CHECK(simjorad_small_page(0, buffer, 5) == -SIMJORAD_BUFFER_SHORT && buffer[0] == 255);
    CHECK(simjorad_small_page(0, buffer, sizeof buffer) == 6 && memcmp(buffer, "G,1,1\n\377", 7) == 0);
    CHECK(simjorad_small_page(24, buffer, sizeof buffer) == SIMJORAD_SMALL_TEXT_MAX && buffer[SIMJORAD_SMALL_TEXT_MAX] == 255);
    CHECK(memcmp(buffer, "G,1,1\nR,0,1,M,!0\nR,0,1,M,!0\n", SIMJORAD_SMALL_TEXT_MAX) == 0);
}

static void season(void)
{
    static const uint16_t pairs[] = {5, 9, 2, 2, 5, 6, 3, 2};
    uint32_t count = 77, low = 77, width = 77, smallest = 77, largest = 77, mean = 77, remainder = 77, place = 77;
    int32_t change = 77;

#define SEASON(n) simjorad_season(pairs, n, &count, &low, &width, &smallest, &largest, &mean, &remainder, &change, &place)
    CHECK(SEASON(8) == -SIMJORAD_SEASON_PAIR && place == 4 && count == 77 && change == 77);
    CHECK(SEASON(7) == -SIMJORAD_SEASON_LENGTH && place == 0 && low == 77 && remainder == 77);
    CHECK(SEASON(0) == -SIMJORAD_SEASON_LENGTH && place == 0);
    CHECK(SEASON(6) == 0 && place == 0 && count == 3 && low == 12 && width == 5 && smallest == 2 && largest == 9);
    CHECK(mean == 4 && remainder == 0 && change == -3);
}

int main(void)
{
    reads();
    long_texts();
    runs();
    no_rest();
    unknown();
    held_lines();
    closed();
    layered();
    picked();
    stalls();
    followed();
    small_pages();
    season();
    printf("%d passed, %d failed\n", passed, failed);
    return failed != 0;
}
