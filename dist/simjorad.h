/*
 * simjorad.h: the rule-page engine, for the controller of the arm processor. The rules are in docs/RULES.md.
 *
 * Target. The header is C99 and needs stdint and stddef only. Compile simjorad.c (dist/) with your program, on any processor, or link with
 * libcapi.a on x86-64 (Linux, System V calls): both ask the host for memcpy and memset only.
 *
 * Slices. A slice is a pointer and a count of ELEMENTS (not bytes). NULL with a count of 0 is a legal empty slice. Numbers of an area are
 * uint16_t as the processor has them: aligned for uint16_t, in its own byte order, so an area does not travel to a machine with
 * another order. A slice that is const is only read: it may lie in read-only memory, and const slices may overlap (a query list may
 * lie inside the page area). A slice that a call writes, and each out-parameter, must share no number with another slice or
 * out-parameter of that call; this duty of the caller and these declarations are all that no proof covers.
 *
 * Results. A call returns a result of 0 or more, or minus the number of its refusal. A refused call changes nothing that was lent to
 * it and no out-parameter, but for those that tell of a refusal: *line and *place of simjorad_read, *condition of simjorad_layers, *place of
 * simjorad_check_picks, *stall of simjorad_turn and *place of simjorad_season are set by every call, to 0 where there is nothing to tell.
 * Out-parameters must not be NULL.
 *
 * Calls. No call keeps anything between calls, allocates or blocks. Calls on different areas may run at the same time. On one run
 * area make one call at a time: there is no lock. A page area may be read by several calls at once.
 *
 * Runs. A run belongs to the page area that it was opened on. Give it to no other: its numbers would be taken for those of the other
 * page, and only what is not sound is refused. A fact may be changed in place in a page area (low <= high <= top); that voids every run
 * opened on it, and whatever was permitted on them: open again.
 *
 * Rounding. In the value of a rule each division, that of P and that of the weight, rounds the low end down and the high end up: weight 5
 * over grade 5 at top 10 is 2 to 3. So the exact figures of a page, worked with fractions, lie within its plain intervals.
 *
 * Unknown by default. A D line of the page makes its condition unknown by default, as for a sensor that is not fitted. Without F and R lines such a
 * condition holds 0 and top in both readings, where any other is false, 0 and 0. With such lines they decide; in a support of the closed reading it
 * holds 0 and top either way.
 *
 * Allowance. No run takes more evaluations than the bound that its opening returned. Pass that bound, or less, as the allowance of a
 * drive, not the largest number: on a run area that was damaged or belongs to another page, and is sound by chance, a drive may
 * never come to rest.
 *
 * Cost. Every call that is lent a page area first scans it, and a run area too, to see that they are sound. Then:
 *   read             two passes over the text
 *   show_line        one pass over the text, up to the line
 *   open             one scan of the page for each reached condition, whatever the count of passes
 *   evaluate         a scan of the page for the lines of the condition, and one for its dependants if it changed
 *   drive            as evaluate, for each evaluation; the areas are checked once, and the line is found by one scan at the end
 *   drive_indexed    an index is built by a few scans; then each evaluation looks at the lines of the condition and at its dependants only
 *   value            no more than the check
 *   line             a scan of the page for the lines of the condition, and one up to the line
 *   closed           scans of the page until nothing changes, which can be many; then for each round counted a scan, and some more where a
 *                    negated low end rose; where a reached condition is unknown by default, one more in each round and for each fall of
 *                    such high ends
 *   closed_indexed   an index, then only the lines of what waits, and for each round counted those of what moved; the scans for conditions
 *                    unknown by default as in closed
 *   layers           scans of the page until nothing changes, usually a few and at most C; if the page is refused 30, a search with at most
 *                    2 * C scans more
 *   check_picks      a scan of the page for each reached condition, then for each pick a scan for the lines of the condition, and one
 *                    for its dependants if it changed: a third to a half of what evaluate takes for each, since the page is checked once
 *   open_first, open_second, evaluate_first, evaluate_second   as open and evaluate
 *   turn             as a drive of each run by the evaluations that it takes; both runs are checked once, and no line is looked for
 *   followers        scans of the page until one finds no further follower, usually a few and at most C + 1
 *   small_page       the bytes of the text are written twice, in memory of the call and then in the buffer; no list is kept
 *   season           two passes over the pairs
 *
 * simjorad_drive_indexed and simjorad_closed_indexed give the same answers and the same areas as simjorad_drive and
 * simjorad_closed. They are lent one more slice, a workspace, for an index of the page's lines: with room for it they take
 * fewer steps, without room they go through the lines as the other two do. Building the index takes about as long as a few evaluations,
 * so a drive of a few evaluations is faster without it. A workspace holds nothing between calls: its content before a call
 * does not matter, and one workspace may serve every page.
 */
#ifndef SIMJORAD_H
#define SIMJORAD_H

#include <stddef.h>
#include <stdint.h>

#ifdef __cplusplus
extern "C" {
#endif

/*
 * SIMJORAD_VERSION is raised whenever a number, a length, a call or its meaning changes in this header (the figures of stack are
 * measurements and do not count). SIMJORAD_LAYOUT is raised whenever the layout of a page area or a run area changes: an area that was
 * kept under another layout must be read or opened again.
 */
#define SIMJORAD_VERSION 14
#define SIMJORAD_LAYOUT 2

/*
 * Layout 2.
 *
 * Page area: top, C, count of lines after the first, used length; then C numbers, one for each condition: 0 false by default, 1 unknown by
 * default; then the lines in page order (the four and the C numbers are counted in the used length):
 *   fact     condition, 0, low, high
 *   rule     condition, kind, weight, n, then n literals; kinds 1 to 5 are M, X, L, B, P; a literal is 2 * condition, plus 1 if negated
 *   query    condition, 6, 0 for K or 1 for W, 0
 *   D line   condition, 7, 0, 0
 * It is sound if it is at least as long as its four head numbers and its used length, every field is in range, no fact has low
 * above high, it has at most SIMJORAD_LINES_MAX lines and they fill exactly the used length, and each of the C numbers is 0 where its
 * condition has no D line, and 1 where it has exactly one. No other number is sound there.
 *
 * Run area: low, high, mark for each condition in turn. Mark 0 is not reached, 1 reached, 2 reached and waiting. It is sound if
 * low <= high <= top, marks are 0 to 2, and a condition with mark 0 holds 0 and top.
 *
 * Numbers past these parts are neither read nor written.
 */

/* Limits. */
#define SIMJORAD_TOP_MAX 200          /* the greatest grade of a page */
#define SIMJORAD_CONDITIONS_MAX 512   /* conditions of a page */
#define SIMJORAD_LINES_MAX 1024       /* lines after the first */
#define SIMJORAD_LITERALS_MAX 8       /* literals of a rule */
#define SIMJORAD_QUERIES_MAX 16       /* entries of a query list */
#define SIMJORAD_SMALL_PAGES 242      /* small pages, numbers 0 to 241 */
#define SIMJORAD_SMALL_TEXT_MAX 28    /* bytes of the longest text of a small page */
#define SIMJORAD_SEASON_MAX 4096      /* pairs of a season */
#define SIMJORAD_TEXT_MAX 65535       /* bytes of a page's text */
#define SIMJORAD_PAGE_MAX 12804       /* numbers of the longest page area */
#define SIMJORAD_RUN_LENGTH(c) (3 * (c))     /* numbers of a run area for c conditions */
#define SIMJORAD_SCRATCH_LENGTH(c) (4 * (c)) /* numbers of scratch for the closed reading of c conditions */
#define SIMJORAD_SHARED_LENGTH(c) (6 * (c))  /* numbers of an area for the runs of two stalls of c conditions */

/*
 * Numbers of a workspace with room for a page's index, and the most that any page needs. The page area holds the counts: conditions is
 * its second number, lines its third, and literals is its fourth (the used length) - 4 - conditions - 4 * lines.
 */
#define SIMJORAD_WORKSPACE_LENGTH(conditions, lines, literals) (3 * (conditions) + 2 + (lines) + (literals))
#define SIMJORAD_WORKSPACE_MAX 10754

/*
 * Stack in bytes that a call takes, its return address and the arguments on the stack counted in: of libcapi.a and of simjorad.c by gcc -O2 on
 * x86-64, measured by tests/ with the largest page, and of simjorad.c by gcc -Os and -O2 on a Cortex-M4, added up by c99/figures. Both fail if a
 * call takes more. On the Cortex-M4 the host's own memcpy and memset are not counted in.
 */
#define SIMJORAD_STACK_READ 448
#define SIMJORAD_STACK_SHOW_LINE 64
#define SIMJORAD_STACK_OPEN 1344
#define SIMJORAD_STACK_EVALUATE 1664
#define SIMJORAD_STACK_DRIVE 1920
#define SIMJORAD_STACK_DRIVE_INDEXED 1984
#define SIMJORAD_STACK_VALUE 256
#define SIMJORAD_STACK_LINE 1408
#define SIMJORAD_STACK_CLOSED 2048
#define SIMJORAD_STACK_CLOSED_INDEXED 2112
#define SIMJORAD_STACK_LAYERS 1408
#define SIMJORAD_STACK_CHECK_PICKS 1920
#define SIMJORAD_STACK_OPEN_FIRST 1344
#define SIMJORAD_STACK_OPEN_SECOND 1344
#define SIMJORAD_STACK_EVALUATE_FIRST 1664
#define SIMJORAD_STACK_EVALUATE_SECOND 1664
#define SIMJORAD_STACK_TURN 1856
#define SIMJORAD_STACK_FOLLOWERS 384
#define SIMJORAD_STACK_SMALL_PAGE 320
#define SIMJORAD_STACK_SEASON 256

/* Refusals, each with its cause. */
#define SIMJORAD_TEXT_TOO_LONG 1      /* more than 65,535 bytes */
#define SIMJORAD_TEXT_UNENDED 2       /* empty, or the last byte is not 10 */
#define SIMJORAD_LINE_FORM 3          /* a line has none of the forms for its place */
#define SIMJORAD_LINE_RANGE 4         /* a condition or literal is C or more, or a number of the G line is out of range */
#define SIMJORAD_LINE_COUNT 5         /* it is line 1,026 */
#define SIMJORAD_AREA_SHORT 6         /* the page area is shorter than the used length */
#define SIMJORAD_PAGE_UNSOUND 10      /* the page area is not sound */
#define SIMJORAD_QUERY_COUNT 11       /* fewer than 1 or more than 16 queries */
#define SIMJORAD_QUERY_RANGE 12       /* a query is C or more */
#define SIMJORAD_RUN_SHORT 13         /* the run area is shorter than 3 * C */
#define SIMJORAD_RUN_UNSOUND 14       /* the run area is too short or not sound */
#define SIMJORAD_CONDITION_RANGE 15   /* the condition is C or more */
#define SIMJORAD_NOT_WAITING 16       /* the condition is not waiting */
#define SIMJORAD_NOT_REACHED 17       /* the condition is not reached */
#define SIMJORAD_SCRATCH_SHORT 18     /* scratch shorter than 4 * C */
#define SIMJORAD_ANSWERS_SHORT 19     /* answers shorter than 2 * the list */
#define SIMJORAD_WEIGHT_RANGE 21      /* a weight outside 1 to top */
#define SIMJORAD_GRADE_RANGE 22       /* a low or high over top */
#define SIMJORAD_LOW_ABOVE_HIGH 23    /* low above high, both at most top */
#define SIMJORAD_SECOND_DEFAULT 24    /* a second D line for one condition */
#define SIMJORAD_NEGATED_LOOP 30      /* a chain through a negation leads back */
#define SIMJORAD_LAYERS_SHORT 31      /* the slice for the layers is shorter than C */
#define SIMJORAD_PICK_NOT_WAITING 50  /* a pick is not waiting, or not a condition */
#define SIMJORAD_PICKS_NOT_AT_REST 51 /* the run is not at rest after the last pick */
#define SIMJORAD_FIGURES_WRONG 52     /* the figures have another length, or are not the plain answers */
#define SIMJORAD_SHARED_SHORT 60      /* the shared area is shorter than 6 * C */
#define SIMJORAD_SMALL_NUMBER 70      /* a number over 241 */
#define SIMJORAD_BUFFER_SHORT 71      /* the buffer is too short for the text */
#define SIMJORAD_SEASON_LENGTH 80     /* an odd count of numbers, or not 1 to 4,096 pairs */
#define SIMJORAD_SEASON_PAIR 81       /* a pair with low above high, or high over 200 */

/*
 * Read a page: the text becomes a page area. Returns the used length (5 or more), or minus 1, 2, 5, 3, 4, 21, 22, 23, 24 or 6.
 * Sets *line, also on refusal: to the line's number for 3, 5, 4, 21, 22, 23 and 24 (lines count from 1, and the G line is 1), and to 0 for 1, 2 and 6
 * and for a page that is read. Sets *place likewise: for 4, 21, 22 and 23 to the place of the leftmost bad field in its line (fields count from 1,
 * and the letter is 1, so the first literal of a rule is 5), and to 0 else, 24 included. Low above high is told at the high field; 24 comes after
 * every field out of range in its line, and its line is the second D line.
 * Writes the used length of area, and nothing of it on refusal.
 */
int32_t simjorad_read(const uint8_t *text, size_t text_length, uint16_t *area, size_t area_length, uint32_t *line, uint32_t *place);

/*
 * Show a line: where line `number` (from 1) of the text starts, without its byte 10. Returns its length and sets *start;
 * for a line that is not there the length is 0. Never refuses; text_length may be any size.
 */
size_t simjorad_show_line(const uint8_t *text, size_t text_length, size_t number, size_t *start);

/*
 * Open a run. Returns 0, or minus 10, 11, 12 or 13. Sets *reached to R, *edges to E and *bound to R + top * E, which no run on this
 * opening ever takes more evaluations than; and *passes to the count of passes in which the reached conditions were found, 1 to R: each adds
 * what those found before it name, and the last one, which adds none, is counted. Writes the first 3 * C numbers of run. Repeated queries are
 * allowed.
 */
int32_t simjorad_open(const uint16_t *page, size_t page_length, const uint16_t *queries, size_t queries_length,
                      uint16_t *run, size_t run_length, uint32_t *reached, uint32_t *edges, uint32_t *bound,
                      uint32_t *passes);

/*
 * Evaluate a condition that waits. Returns 1 if its interval changed, 0 if not, or minus 10, 14, 15 or 16. That it does not wait (16)
 * is no fault: it is up to date. Writes among the first 3 * C numbers of run. Which line holds the low end is asked by simjorad_line, or
 * told by a drive.
 */
int32_t simjorad_evaluate(const uint16_t *page, size_t page_length, uint16_t *run, size_t run_length, uint32_t condition);

/*
 * Drive: evaluates the lowest waiting condition until none waits or the allowance is used.
 * Returns 1 for rest, 0 for spent, or minus 10 or 14. Sets *taken to the evaluations taken, and *line to the line that its last evaluation
 * tells: the number of the first F or R line of that condition whose low end, on the intervals held before that evaluation, is the
 * condition's new low end (lines count from 1, and the G line is 1). It is never a D line, though D lines count. *line is 0 if the condition
 * has no F or R lines, or if no evaluation was taken. Writes among the first 3 * C numbers of run.
 */
int32_t simjorad_drive(const uint16_t *page, size_t page_length, uint16_t *run, size_t run_length, uint32_t allowance,
                       uint32_t *taken, uint32_t *line);

/*
 * Drive, with an index in the workspace: returns, sets and writes what simjorad_drive does. The workspace may have any length
 * and any content. If it is shorter than SIMJORAD_WORKSPACE_LENGTH for the page it is not touched; that is no refusal. Else
 * its first SIMJORAD_WORKSPACE_LENGTH numbers end as zero and the rest stays. A refused call leaves it as it is.
 */
int32_t simjorad_drive_indexed(const uint16_t *page, size_t page_length, uint16_t *run, size_t run_length,
                               uint16_t *workspace, size_t workspace_length, uint32_t allowance, uint32_t *taken,
                               uint32_t *line);

/*
 * Value: the interval that a reached condition holds. Returns 1 if the whole run is at rest, 0 if not,
 * or minus 10, 14, 15 or 17. Sets *low and *high. On a run that is not at rest the low end may still rise and the high end fall.
 */
int32_t simjorad_value(const uint16_t *page, size_t page_length, const uint16_t *run, size_t run_length, uint32_t condition,
                       uint16_t *low, uint16_t *high);

/*
 * Which line holds the low end: the number of the first F or R line of a reached condition whose low end, on the intervals now held, is
 * the low end of the condition's body value on them (lines count from 1, and the G line is 1), or 0 if it has no F or R lines. Returns the
 * line, or minus 10, 14, 15 or 17. Nothing is written.
 * It may differ from the line that the condition's own evaluation tells, which is of the intervals before: on the page G,10,1 F,0,5,5
 * R,0,10,B,0,0 the first evaluation of 0 gives the low end 5 and tells line 2, and this call then gives 3. At rest the low end that a
 * condition holds is that of its body value, and simjorad_show_line shows the line.
 */
int32_t simjorad_line(const uint16_t *page, size_t page_length, const uint16_t *run, size_t run_length, uint32_t condition);

/*
 * Closed reading. Returns 0, or minus 10, 11, 12, 18 or 19. Writes low, high per query in list order to answers;
 * the first 4 * C numbers of scratch end as zero, and no other number of scratch is read or written. Each closed interval lies inside
 * the plain one of its condition. A condition unknown by default holds 0 and top in every support.
 * Sets *rounds to the count of rounds: from [0;top] on every condition that the queries reach, each next assignment is the body value of the
 * last joined with its support; the count is the number of the first assignment that the next one equals. It is at most R * top, which needs 32 bits.
 */
int32_t simjorad_closed(const uint16_t *page, size_t page_length, const uint16_t *queries, size_t queries_length,
                        uint16_t *scratch, size_t scratch_length, uint16_t *answers, size_t answers_length, uint32_t *rounds);

/*
 * Closed reading, with an index in the workspace: returns and writes what simjorad_closed does. The workspace is as for
 * simjorad_drive_indexed.
 */
int32_t simjorad_closed_indexed(const uint16_t *page, size_t page_length, const uint16_t *queries, size_t queries_length,
                                uint16_t *scratch, size_t scratch_length, uint16_t *answers, size_t answers_length,
                                uint16_t *workspace, size_t workspace_length, uint32_t *rounds);

/*
 * Loops through an absence: whether the page feeds a condition on its own absence. Returns 0, or minus 10, 31 or 30. A page is refused 30
 * exactly if a chain of naming steps leads from some condition back to itself through at least one negation; *condition is then the lowest
 * such condition, and 0 after every other outcome. Writes the layer of each condition to the first C numbers of layers: at least that of
 * each condition that its rules name, more than that of each one that they negate, all as small as possible. A layer is below C.
 */
int32_t simjorad_layers(const uint16_t *page, size_t page_length, uint16_t *layers, size_t layers_length, uint32_t *condition);

/*
 * Check a simulator: whether its picks are a run of the page, and its figures the plain answers. The queries are opened as by simjorad_open, and
 * each pick is evaluated in turn as by simjorad_evaluate, on a run that the call holds itself. Returns 0, or minus 10, 11, 12, 50, 51 or 52.
 * It is 0 exactly if each pick waits when its turn comes, none waits after the last, and figures holds low, high of the plain answer per
 * query, in list order, and no more. So the picks that any order of evaluations makes until rest are accepted with the intervals then held.
 * *place is the place of the first pick that is refused 50, counted from 1, and 0 after every other outcome; it is at most the bound of the
 * opening plus 1, since no run takes more evaluations. Picks and figures may have any length; a list without picks is refused 51. Writes nothing else.
 */
int32_t simjorad_check_picks(const uint16_t *page, size_t page_length, const uint16_t *queries, size_t queries_length,
                             const uint16_t *picks, size_t picks_length, const uint16_t *figures, size_t figures_length,
                             uint32_t *place);

/*
 * Two stalls on one page. One shared area of 6 * C numbers holds two runs: the first stall's is its first 3 * C numbers, the second stall's
 * the next 3 * C. simjorad_drive, simjorad_value and simjorad_line are lent a stall's part, area or area + 3 * C.
 *
 * Open the run of the first or of the second stall. Returns 0, or minus 10, 60, 11 or 12. Sets and writes what simjorad_open does, on that
 * stall's part. The other part is neither read nor written.
 */
int32_t simjorad_open_first(const uint16_t *page, size_t page_length, uint16_t *area, size_t area_length,
                            const uint16_t *queries, size_t queries_length, uint32_t *reached, uint32_t *edges,
                            uint32_t *bound, uint32_t *passes);
int32_t simjorad_open_second(const uint16_t *page, size_t page_length, uint16_t *area, size_t area_length,
                             const uint16_t *queries, size_t queries_length, uint32_t *reached, uint32_t *edges,
                             uint32_t *bound, uint32_t *passes);

/*
 * Evaluate a condition of the first or of the second stall. Returns 1 or 0 as simjorad_evaluate does, or minus 10, 60, 14, 15 or 16. The other
 * part is neither read nor written.
 */
int32_t simjorad_evaluate_first(const uint16_t *page, size_t page_length, uint16_t *area, size_t area_length, uint32_t condition);
int32_t simjorad_evaluate_second(const uint16_t *page, size_t page_length, uint16_t *area, size_t area_length, uint32_t condition);

/*
 * A turn: an allowance of b evaluations for both stalls. The first has the larger half of b, the second the smaller, and what one does not
 * need before its rest goes to the other; so together they take b, or both needs if these sum to less. Each picks as simjorad_drive does.
 * Returns 0, or minus 10, 60 or 14. Sets for each stall the evaluations taken, and its rest to 1 if it is then at rest and to 0 if not. For 14
 * *stall is 1 or 2, the first stall before the second; after every other outcome it is 0. What is refused for one stall leaves both. Writes
 * among the first 6 * C numbers of area.
 */
int32_t simjorad_turn(const uint16_t *page, size_t page_length, uint16_t *area, size_t area_length, uint32_t allowance,
                      uint32_t *taken_first, uint32_t *rest_first, uint32_t *taken_second, uint32_t *rest_second,
                      uint32_t *stall);

/*
 * Followers: how many conditions name a condition, directly or through others, in their R lines, plain or negated. It counts itself only if a
 * chain of naming steps leads back to it. Returns the count, 0 to C, or minus 10 or 15. Nothing is written.
 */
int32_t simjorad_followers(const uint16_t *page, size_t page_length, uint32_t condition);

/*
 * A small page, for a test of the arm: its text at the start of buffer. The small pages have top 1, one or two conditions, and none to two lines
 * after the first, each a fact or an M rule of weight 1 with one literal; equal lines are allowed and their order counts. They have the numbers 0 to
 * 241, by count of conditions, then of lines, then by the bytes of the text. Returns the text's length in bytes, or minus 70 or 71. Writes the text, and
 * leaves the bytes after it. buffer_length counts bytes; SIMJORAD_SMALL_TEXT_MAX is enough for each. simjorad_read accepts each text.
 */
int32_t simjorad_small_page(uint32_t number, uint8_t *buffer, size_t buffer_length);

/*
 * A season's figures, of 1 to 4,096 answers for one condition: low, high of each in turn (pairs_length counts numbers, two for each answer). Returns 0,
 * or minus 80 or 81. Sets *count to the count of answers, *sum_low to the sum of the lows, *sum_width to that of the widths (high - low),
 * *smallest to the smallest low, *largest to the largest high, *mean and *remainder to the sum of the lows divided by the count, and *change to
 * the change of low from one answer to the next that is greatest in size: negative for a fall, the earliest of several of one size, 0 if
 * there is one answer. *place is the place of the first bad pair for 81, counted from 1, and 0 after every other outcome. pairs is only read.
 */
int32_t simjorad_season(const uint16_t *pairs, size_t pairs_length, uint32_t *count, uint32_t *sum_low, uint32_t *sum_width,
                        uint32_t *smallest, uint32_t *largest, uint32_t *mean, uint32_t *remainder, int32_t *change,
                        uint32_t *place);

#ifdef __cplusplus
}
#endif

#endif
