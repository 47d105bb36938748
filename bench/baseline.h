/* The two plain C versions: scan.c (every operation) and indexed.c (those where an index pays). */
#ifndef BASELINE_H
#define BASELINE_H

#include <stddef.h>
#include <stdint.h>

int32_t scan_read(const uint8_t *text, size_t text_length, uint16_t *area, size_t area_length, uint32_t *line,
                  uint32_t *place);
size_t scan_show_line(const uint8_t *text, size_t text_length, size_t number, size_t *start);
int32_t scan_open(const uint16_t *page, size_t page_length, const uint16_t *queries, size_t queries_length,
                  uint16_t *run, size_t run_length, uint32_t *reached, uint32_t *edges, uint32_t *bound, uint32_t *passes);
int32_t scan_evaluate(const uint16_t *page, size_t page_length, uint16_t *run, size_t run_length, uint32_t condition);
int32_t scan_drive(const uint16_t *page, size_t page_length, uint16_t *run, size_t run_length, uint32_t allowance,
                   uint32_t *taken, uint32_t *line);
int32_t scan_value(const uint16_t *page, size_t page_length, const uint16_t *run, size_t run_length, uint32_t condition,
                   uint16_t *low, uint16_t *high);
int32_t scan_line(const uint16_t *page, size_t page_length, const uint16_t *run, size_t run_length, uint32_t condition);
int32_t scan_closed(const uint16_t *page, size_t page_length, const uint16_t *queries, size_t queries_length,
                    uint16_t *scratch, size_t scratch_length, uint16_t *answers, size_t answers_length, uint32_t *rounds);

int32_t indexed_open(const uint16_t *page, size_t page_length, const uint16_t *queries, size_t queries_length,
                     uint16_t *run, size_t run_length, uint32_t *reached, uint32_t *edges, uint32_t *bound, uint32_t *passes);
int32_t indexed_drive(const uint16_t *page, size_t page_length, uint16_t *run, size_t run_length, uint32_t allowance,
                      uint32_t *taken, uint32_t *line);
int32_t indexed_closed(const uint16_t *page, size_t page_length, const uint16_t *queries, size_t queries_length,
                       uint16_t *scratch, size_t scratch_length, uint16_t *answers, size_t answers_length, uint32_t *rounds);

/* Both closed readings count no rounds where `rounds` is NULL. */

#endif
