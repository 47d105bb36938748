/*
 * The program attach in C: reads a page from standard input and answers its Q lines.
 * -DOPEN, -DDRIVE and -DCLOSED name the version that is compiled in: scan_open, indexed_drive and so on.
 */
#define _POSIX_C_SOURCE 200809L
#include <stdio.h>
#include <unistd.h>

#include "baseline.h"
#include "common.h"

static uint8_t text[TEXT_MAX + 1];
static uint16_t page[PAGE_MAX], run[3 * CONDITIONS_MAX], scratch[4 * CONDITIONS_MAX];

static size_t read_all(void)
{
    size_t length = 0;
    ssize_t n;

    while (length < sizeof text && (n = read(0, text + length, sizeof text - length)) > 0)
        length += n;
    return length;
}

static uint8_t *digits(uint8_t *s, unsigned v)
{
    uint8_t tail[10], *t = tail;

    do
        *t++ = '0' + v % 10;
    while ((v /= 10) > 0);
    while (t > tail)
        *s++ = *--t;
    return s;
}

static void put(const uint8_t *line, uint8_t *end)
{
    ssize_t n;

    *end++ = '\n';
    for (; line < end && (n = write(1, line, end - line)) > 0; line += n)
        ;
}

static void answer(unsigned reading, uint16_t condition, uint16_t ends[2])
{
    uint32_t a, b, c, d;

    if (reading == 1) {
        CLOSED(page, page[3], &condition, 1, scratch, 4 * page[1], ends, 2, NULL);
        return;
    }
    OPEN(page, page[3], &condition, 1, run, 3 * page[1], &a, &b, &c, &d);
    DRIVE(page, page[3], run, 3 * page[1], UINT32_MAX, &a, &b);
    scan_value(page, page[3], run, 3 * page[1], condition, &ends[0], &ends[1]);
}

int main(void)
{
    uint8_t line[64] = "top,", *s;
    uint16_t ends[2];
    unsigned k, count = 0;
    const uint16_t *p;
    uint32_t bad, place;
    int32_t used = scan_read(text, read_all(), page, PAGE_MAX, &bad, &place);

    if (used < 0) {
        s = digits(line + sprintf((char *)line, "refused,"), -used);
        *s++ = ',';
        put(line, digits(s, bad));
        return 0;
    }
    put(line, digits(line + 4, page[0]));
    for (p = first_line(page), k = 0; k < page[2]; k++, p = next_line(p)) {
        if (p[1] != QUERY)
            continue;
        answer(p[2], p[0], ends);
        line[0] = p[2] == 1 ? 'W' : 'K';
        line[1] = ',';
        s = digits(line + 2, p[0]);
        *s++ = ',';
        s = digits(s, ends[0]);
        *s++ = ',';
        put(line, digits(s, ends[1]));
        count++;
    }
    line[0] = 'e', line[1] = 'n', line[2] = 'd', line[3] = ',';
    put(line, digits(line + 4, count));
    return 0;
}
