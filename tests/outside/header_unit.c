/* The second unit of header.c's program. */
#include <string.h>

#include "finder.h"

uint64_t unit_count(const char *log);
const char *unit_text(unsigned refusal);

uint64_t unit_count(const char *log) { return finder_count((const uint8_t *)log, strlen(log)); }

const char *unit_text(unsigned refusal) { return finder_refusal_text(refusal); }
