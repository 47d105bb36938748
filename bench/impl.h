/* The implementations to compare. */
#ifndef IMPL_H
#define IMPL_H

#include "../include/simjorad.h"
#include "baseline.h"

struct impl {
    const char *name;
    int32_t (*read)(const uint8_t *, size_t, uint16_t *, size_t, uint32_t *, uint32_t *);
    size_t (*show_line)(const uint8_t *, size_t, size_t, size_t *);
    int32_t (*open)(const uint16_t *, size_t, const uint16_t *, size_t, uint16_t *, size_t, uint32_t *, uint32_t *,
                    uint32_t *, uint32_t *);
    int32_t (*evaluate)(const uint16_t *, size_t, uint16_t *, size_t, uint32_t);
    int32_t (*drive)(const uint16_t *, size_t, uint16_t *, size_t, uint32_t, uint32_t *, uint32_t *);
    int32_t (*value)(const uint16_t *, size_t, const uint16_t *, size_t, uint32_t, uint16_t *, uint16_t *);
    int32_t (*line)(const uint16_t *, size_t, const uint16_t *, size_t, uint32_t);
    int32_t (*closed)(const uint16_t *, size_t, const uint16_t *, size_t, uint16_t *, size_t, uint16_t *, size_t,
                      uint32_t *);
};

#ifdef WITH_ENGINE
/* The indexed forms under the signatures above, with one workspace for every page. */
static uint16_t workspace[SIMJORAD_WORKSPACE_MAX];

static int32_t drive_with_workspace(const uint16_t *page, size_t page_length, uint16_t *run, size_t run_length,
                                    uint32_t allowance, uint32_t *taken, uint32_t *line)
{
    return simjorad_drive_indexed(page, page_length, run, run_length, workspace, SIMJORAD_WORKSPACE_MAX, allowance,
                                  taken, line);
}

static int32_t closed_with_workspace(const uint16_t *page, size_t page_length, const uint16_t *queries,
                                     size_t queries_length, uint16_t *scratch, size_t scratch_length,
                                     uint16_t *answers, size_t answers_length, uint32_t *rounds)
{
    return simjorad_closed_indexed(page, page_length, queries, queries_length, scratch, scratch_length, answers,
                                   answers_length, workspace, SIMJORAD_WORKSPACE_MAX, rounds);
}
#endif

static const struct impl impls[] = {
    { "scan", scan_read, scan_show_line, scan_open, scan_evaluate, scan_drive, scan_value, scan_line,
      scan_closed },
    { "indexed", scan_read, scan_show_line, indexed_open, scan_evaluate, indexed_drive, scan_value, scan_line,
      indexed_closed },
#ifdef WITH_ENGINE
    { "engine", simjorad_read, simjorad_show_line, simjorad_open, simjorad_evaluate, simjorad_drive, simjorad_value,
      simjorad_line, simjorad_closed },
    { "engine-indexed", simjorad_read, simjorad_show_line, simjorad_open, simjorad_evaluate, drive_with_workspace,
      simjorad_value, simjorad_line, closed_with_workspace },
#endif
};

enum { IMPLS = sizeof impls / sizeof *impls };

#endif
