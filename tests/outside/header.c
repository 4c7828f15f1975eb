/* What include/finder.h says beside the calls: version, limits, cells that are enough, words and readers, held to the library. Compiles as C
   and as C++; its second unit, header_unit.c, includes the header too. */
#include <stdio.h>
#include <string.h>

#include "finder.h"

uint64_t unit_count(const char *log);
const char *unit_text(unsigned refusal);

static int failures;

static void check(int line, int holds)
{
    if (!holds) {
        printf("header.c:%d does not hold\n", line);
        failures++;
    }
}
#define CHECK(claim) check(__LINE__, claim)

static uint8_t zeros[FINDER_LOG_MAX + 1];

/* The refusal of a pattern and a log of so many zero bytes. */
static unsigned refusal(const char *pattern, size_t log_len)
{
    uint32_t cells[2];
    return finder_refusal(finder_fill((const uint8_t *)pattern, strlen(pattern), zeros, log_len, cells, 0, 0));
}

/* The same for a pattern that repeats a piece before its end. */
static unsigned refusal_of(int times, const char *piece, const char *end)
{
    static char pattern[4096];
    pattern[0] = '\0';
    while (times-- > 0)
        strcat(pattern, piece);
    return refusal(strcat(pattern, end), 0);
}

/* The refusal of `op` over lists of one stretch each. */
static unsigned refusal_over(uint32_t op, uint32_t k, uint32_t lists, uint32_t position)
{
    uint32_t items[2 * (FINDER_LISTS_MAX + 1)], ends[FINDER_LISTS_MAX + 1], cells[2];
    for (uint32_t i = 0; i < lists; i++) {
        items[2 * i] = items[2 * i + 1] = position;
        ends[i] = 2 * i + 2;
    }
    return finder_refusal(finder_lists_fill(op, k, items, 2 * lists, ends, lists, cells, 0, 0));
}

/* How many stretches `op` keeps of a list of one stretch, the second list being [1..2]: of [1..1], [0..3], [1..2] and [4..5] in turn, a digit each. */
static unsigned kept(uint32_t op)
{
    static const uint32_t stretches[4][2] = {{1, 1}, {0, 3}, {1, 2}, {4, 5}}, ends[2] = {2, 4};
    unsigned digits = 0;
    for (int i = 0; i < 4; i++) {
        uint32_t items[4] = {stretches[i][0], stretches[i][1], 1, 2}, cells[4];
        digits = 10 * digits + finder_written(finder_lists_fill(op, 0, items, 4, ends, 2, cells, 4, 0));
    }
    return digits;
}

/* The result of so many picks, of three lines that all match. */
static uint64_t picks(uint32_t k, uint32_t *cells, size_t cell_count)
{
    static const char log[] = "1,4,7,3,6\n2,4,7,20,3,0\n1,5,7,0,0\n";
    return finder_pick((const uint8_t *)"ev,7,0", 6, (const uint8_t *)log, strlen(log), k, cells, cell_count);
}

static void limits(void)
{
    CHECK(refusal("ev,1,0", FINDER_LOG_MAX) == FINDER_ACCEPTED && refusal("ev,1,0", FINDER_LOG_MAX + 1) == FINDER_LONG_LOG);
    CHECK(finder_count(zeros, FINDER_LOG_MAX) == (1 << 16 | (uint64_t)1 << 32));
    CHECK(finder_count(zeros, FINDER_LOG_MAX + 1) == FINDER_LONG_LOG);
    CHECK(refusal_of(FINDER_PATTERN_MAX, "e", "") == FINDER_MISSPELT && refusal_of(FINDER_PATTERN_MAX + 1, "e", "") == FINDER_LONG_PATTERN);
    CHECK(refusal_of(FINDER_DEPTH_MAX - 1, "max,1,", "ev,1,0") == FINDER_ACCEPTED);
    CHECK(refusal_of(FINDER_DEPTH_MAX, "max,1,", "ev,1,0") == FINDER_DEEP);
    CHECK(refusal_of(FINDER_NODES_MAX - 1, "max,1,", "ev,1,0") == FINDER_DEEP);
    CHECK(refusal_of(FINDER_NODES_MAX, "max,1,", "ev,1,0") == FINDER_CROWDED);
    CHECK(refusal("max,65535,ev,1,0", 0) == FINDER_ACCEPTED && refusal("max,65536,ev,1,0", 0) == FINDER_MISSPELT);
    CHECK(refusal_over(FINDER_MAX, FINDER_BOUND_MAX, 1, 0) == FINDER_ACCEPTED);
    CHECK(refusal_over(FINDER_MAX, FINDER_BOUND_MAX + 1, 1, 0) == FINDER_MISCALLED);
    CHECK(refusal_over(FINDER_OR, 0, FINDER_LISTS_MAX, FINDER_POSITION_MAX) == FINDER_ACCEPTED);
    CHECK(refusal_over(FINDER_OR, 0, FINDER_LISTS_MAX + 1, 0) == FINDER_MISCALLED);
    CHECK(refusal_over(FINDER_OR, 0, 2, FINDER_POSITION_MAX + 1) == FINDER_DISORDERED);

    uint32_t cells[6] = {9, 9, 9, 9, 9, 9};
    CHECK(finder_refusal(picks(0, cells, 6)) == FINDER_BAD_COUNT && finder_refusal(picks(FINDER_PICKS_MAX + 1, cells, 6)) == FINDER_BAD_COUNT && cells[0] == 9);
    CHECK(finder_refusal(picks(1, cells, 0)) == FINDER_ACCEPTED && finder_refusal(picks(FINDER_PICKS_MAX, cells, 0)) == FINDER_ACCEPTED);
    CHECK(finder_written(picks(2, cells, 6)) == 2 && cells[0] == 2 && cells[1] == 2 && cells[2] == 1 && cells[3] == 1 && cells[4] == 9);
    CHECK(finder_written(picks(FINDER_PICKS_MAX, cells, 6)) == 3 && cells[4] == 0 && cells[5] == 0);
}

/* The operators that choose among a list's stretches by those of a second list, and that there is none behind the last. */
static void operators(void)
{
    static const uint32_t choosing[] = {FINDER_LESS, FINDER_IN, FINDER_OUT, FINDER_HAS};
    for (int i = 0; i < 4; i++) {
        CHECK(refusal_over(choosing[i], 0, 2, 0) == FINDER_ACCEPTED && refusal_over(choosing[i], 1, 2, 0) == FINDER_MISCALLED);
        CHECK(refusal_over(choosing[i], 0, 1, 0) == FINDER_MISCALLED && refusal_over(choosing[i], 0, 3, 0) == FINDER_MISCALLED);
    }
    CHECK(kept(FINDER_LESS) == 1001 && kept(FINDER_IN) == 1010 && kept(FINDER_OUT) == 101 && kept(FINDER_HAS) == 110);
    CHECK(refusal_over(FINDER_HAS + 1, 0, 2, 0) == FINDER_MISCALLED);
}

/* Two cells for each line are enough where every line is an answer, and fewer are not. */
static void cells_enough(void)
{
    static const char log[] = "1,4,7,3,6\n2,4,7,20,3,0\n1,5,7,0,0\n";
    uint32_t cells[6];
    size_t count = 2 * (size_t)finder_counted_lines(unit_count(log));
    CHECK(count == 6);
    CHECK(finder_fill((const uint8_t *)"ev,7,0", 6, (const uint8_t *)log, strlen(log), cells, count, 0) == (uint64_t)3 << 32);
    CHECK(finder_fill((const uint8_t *)"ev,7,0", 6, (const uint8_t *)log, strlen(log), cells, count - 1, 0) == (1 << 8 | (uint64_t)2 << 32));
}

/* Three cells for each node are enough where every node takes part, and fewer are not; later ones keep their contents. */
static void nodes_shown(void)
{
    static const char log[] = "1,4,7,3,6\noops\n1,5,7,0,0\n";
    static char pattern[512] = "and,31";
    uint32_t cells[3 * FINDER_NODES_MAX + 1];
    for (size_t i = 0; i < FINDER_NODES_MAX - 1; i++)
        strcat(pattern, ",ev,7,0");
    for (size_t count = 3 * FINDER_NODES_MAX - 3; count <= 3 * FINDER_NODES_MAX + 1; count++) {
        for (size_t i = 0; i <= 3 * FINDER_NODES_MAX; i++)
            cells[i] = 99;
        uint64_t result = finder_witness((const uint8_t *)pattern, strlen(pattern), (const uint8_t *)log, strlen(log), 1, cells, count);
        CHECK(finder_refusal(result) == FINDER_ACCEPTED && finder_place(result) == 0 && !finder_more(result));
        CHECK(finder_written(result) == (count < 3 * FINDER_NODES_MAX ? FINDER_NODES_MAX - 1 : FINDER_NODES_MAX));
        for (size_t i = 0; i < 3 * finder_written(result); i += 3)
            CHECK(cells[i] == i / 3 && cells[i + 1] == 2 && cells[i + 2] == 2);
        for (size_t i = 3 * finder_written(result); i <= 3 * FINDER_NODES_MAX; i++)
            CHECK(cells[i] == 99);
    }
    cells[0] = cells[1] = cells[2] = 99;
    CHECK(finder_witness((const uint8_t *)pattern, strlen(pattern), (const uint8_t *)log, strlen(log), 2, cells, 3) == 0);
    CHECK(finder_witness((const uint8_t *)"ev,256,0", 8, (const uint8_t *)log, strlen(log), 0, cells, 3) == (FINDER_MISSPELT | 5 << 16));
    CHECK(finder_witness((const uint8_t *)pattern, strlen(pattern), zeros, FINDER_LOG_MAX + 1, 0, cells, 3) == FINDER_LONG_LOG);
    CHECK(cells[0] == 99 && cells[1] == 99 && cells[2] == 99);
}

static void words(void)
{
    static const char *const known[] = {"accepted", "long log", "long pattern", "misspelt", "crowded", "deep", "miscalled", "miscut",
        "disordered", "unknown refusal", "bad count"};
    char version[32];
    for (unsigned i = 0; i < 256; i++) {
        const char *expected = i < sizeof known / sizeof *known ? known[i] : "unknown refusal";
        CHECK(strcmp(finder_refusal_text(i), expected) == 0 && strcmp(unit_text(i), expected) == 0);
    }
    CHECK(strcmp(finder_refusal_text(0xffffffff), "unknown refusal") == 0);
    sprintf(version, "%d.%d.%d", FINDER_VERSION_MAJOR, FINDER_VERSION_MINOR, FINDER_VERSION_PATCH);
    CHECK(strcmp(version, FINDER_VERSION) == 0);
}

/* The part that holds the lines first to last of a text, as place * 100 + length. */
static unsigned part(const char *text, uint32_t first, uint32_t last)
{
    uint64_t result = finder_lines((const uint8_t *)text, strlen(text), first, last);
    return finder_part_place(result) * 100 + finder_part_length(result);
}

static void readers(void)
{
    static const char log[] = "1,4,7,3,6\noops\n\n1,4,9,0,0\nlast";
    uint64_t counted = unit_count(log);
    CHECK(finder_refusal(counted) == FINDER_ACCEPTED && finder_counted_lines(counted) == 5 && finder_counted_damaged(counted) == 3);
    CHECK(unit_count("") == 0);
    CHECK(part(log, 0, 0) == 10 && part(log, 1, 3) == 1016 && part(log, 2, 2) == 1501 && part(log, 4, 4) == 2604 && part(log, 0, 4) == 30);
    CHECK(part(log, 2, 1) == 0 && part(log, 5, 5) == 0 && part(log, 0, 5) == 0 && part(log, 0, 0xffffffff) == 0 && part("", 0, 0) == 0);
    CHECK(finder_lines(zeros, FINDER_LOG_MAX, 0, 0) == (uint64_t)FINDER_LOG_MAX << 32);
    CHECK(finder_lines(zeros, FINDER_LOG_MAX + 1, 0, 0) == 0);

    uint64_t result = 0xfedcba9876543210;
    CHECK(finder_refusal(result) == 0x10 && finder_more(result) == 0 && finder_more(~result) == 1);
    CHECK(finder_place(result) == 0x7654 && finder_written(result) == 0xfedcba98);
    CHECK(finder_counted_damaged(result) == 0x7654 && finder_counted_lines(result) == 0xfedcba98);
    CHECK(finder_part_place(result) == 0x76543210 && finder_part_length(result) == 0xfedcba98);
    CHECK(finder_taken(result) == 0 && finder_taken(~result) == 1);
    CHECK(finder_taken_start(result) == 0x7654 && finder_taken_end(result) == 0xba98);
}

int main(void)
{
    limits();
    operators();
    cells_enough();
    nodes_shown();
    words();
    readers();
    return failures != 0;
}
