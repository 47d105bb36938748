/* The benchmark inputs, as page text. The same text on every machine. */
#ifndef PAGES_H
#define PAGES_H

#include <stddef.h>

enum { PAGE_TEXT_MAX = 65535 };

/* Writes page `name` to text (room for PAGE_TEXT_MAX bytes); returns its length, or 0 if there is no such page. */
size_t page_text(const char *name, char *text);

/* The names, ended by NULL, and a line about each. */
extern const char *const page_names[];
extern const char *const page_notes[];

#endif
