/* Hostile inputs for every call, meant to run under valgrind: every buffer is a heap block of exactly the size lent, and lent cells
   are left unset, so that a read or write outside, or a branch on what was never written, is reported. */
#include <stdio.h>
#include <stdlib.h>
#include <string.h>

#include "finder.h"

static uint64_t state = 7;

static uint32_t below(uint32_t n)
{
    state = state * 6364136223846793005u + 1442695040888963407u;
    return (uint32_t)(state >> 33) % n;
}

/* A heap block of exactly n bytes (valgrind gives one for 0 too). */
static void *block(size_t n)
{
    void *p = malloc(n);
    if (p == NULL) {
        fputs("hostile: no memory\n", stderr);
        exit(2);
    }
    return p;
}

static const char *const patterns[] = {
    "", "e", "ev,", "ev,1,0", "fr,10,99", "ev,256,0", "or,31,ev,1,0", "then,2,ev,7,0,ev,9,0", "and,2,ev,7,0,ev,9,0",
    "row,3,fr,0,0,fr,1,0,fr,3,0",
    "less,and,2,ev,7,0,fr,3,0,max,2,or,2,ev,9,4,ev,12,0", "and,3,then,2,ev,7,0,ev,9,0,or,2,fr,0,4,fr,10,5,max,65535,fr,1,0",
    "max,9,max,9,max,9,max,9,max,9,max,9,max,9,ev,1,0", "max,9,max,9,max,9,max,9,max,9,max,9,max,9,max,9,ev,1,0",
    "and,2,less,row,2,ev,1,0,ev,7,0,ev,9,0,then,2,or,2,ev,12,1,fr,3,0,max,3,and,2,ev,1,4,ev,9,5", "or,18446744073709551616,ev,1,0",
    "in,ev,12,0,then,2,ev,7,0,ev,9,0", "out,fr,3,0,and,2,ev,7,0,ev,9,0", "has,and,2,ev,7,0,ev,9,0,in,fr,3,0,then,2,ev,7,4,ev,12,0"};

static const char *const lines[] = {"1,4,7,3,6\n", "2,4,12,20,3,0\n", "1,5,9,0,0\n", "1,1,1,10,10\n", "2,99,255,300,10,10\n", "\n", "oops\n",
    "1,4,7,3,6\r\n", "2,4,7,3", "99999999999999999999999999\n", "1,04,7,3,6\n", "2,012,7,20,3,6\n", ",,,,,\n"};

#define COUNT(array) ((uint32_t)(sizeof(array) / sizeof(array)[0]))

/* n bytes: pieces of text from a table, then some bytes changed. */
static uint8_t *text(const char *const *pieces, uint32_t count, size_t n)
{
    uint8_t *p = block(n);
    for (size_t at = 0; at < n;) {
        const char *piece = pieces[below(count)];
        size_t length = strlen(piece) < n - at ? strlen(piece) : n - at;
        if (length == 0)
            p[at++] = '\n';
        memcpy(p + at, piece, length);
        at += length;
    }
    for (uint32_t i = below(4); n > 0 && i > 0; i--)
        p[below((uint32_t)n)] = (uint8_t)below(256);
    return p;
}

/* Branches on every cell that a call says it wrote. */
static unsigned sum, feeds, picked, shown;

static void use(const uint32_t *cells, size_t written)
{
    for (size_t i = 0; i < written; i++)
        if (cells[i] > 3)
            sum++;
}

static const uint32_t edges[] = {0, 1, 2, 6, 7, 9, 10, 31, 32, 65535, 65536, 0x7fffffff, 0x80000000, 0xfffffffe, 0xffffffff};

/* Ends the run where a call says what cannot be. */
static void must(int holds, const char *what)
{
    if (!holds) {
        printf("hostile: %s\n", what);
        exit(1);
    }
}

/* The calls over a log alone: counts within its bytes, and parts that lie inside it, read to their ends. */
static void over_lines(const uint8_t *log, size_t log_len)
{
    uint64_t counted = finder_count(log, log_len);
    uint32_t lines = finder_counted_lines(counted);
    must((finder_refusal(counted) == FINDER_ACCEPTED) == (log_len <= FINDER_LOG_MAX), "a log is refused by another length than its limit");
    must(lines <= log_len && finder_counted_damaged(counted) <= lines, "more lines than bytes, or more damaged than lines");
    uint32_t first = below(8) == 0 ? edges[below(COUNT(edges))] : below(lines + 1);
    uint32_t last = below(8) == 0 ? edges[below(COUNT(edges))] : first + below(4);
    uint64_t part = finder_lines(log, log_len, first, last);
    size_t place = finder_part_place(part), length = finder_part_length(part);
    must(place <= log_len && length <= log_len - place, "a part reaches outside the log");
    must((length > 0) == (first <= last && last < lines), "a part is empty where it should not be, or the reverse");
    must(length > 0 || place == 0, "an empty part has a place");
    for (size_t i = place; i < place + length; i++)
        if (log[i] == '\n')
            feeds++;
}

/* The picking call: refused as the filling call was, or else by k alone; no two picks share a line. */
static void over_picks(const uint8_t *pattern, size_t pattern_len, const uint8_t *log, size_t log_len, uint64_t filled)
{
    uint32_t k = below(4) == 0 ? edges[below(COUNT(edges))] : below(19);
    int good = k >= 1 && k <= FINDER_PICKS_MAX;
    size_t cell_count = below(40);
    uint32_t *cells = block(cell_count * sizeof *cells);
    uint64_t result = finder_pick(pattern, pattern_len, log, log_len, k, cells, cell_count);
    size_t written = finder_written(result);
    if (finder_refusal(filled) != FINDER_ACCEPTED)
        must(result == filled, "picks are refused otherwise than stretches");
    else if (!good)
        must(result == FINDER_BAD_COUNT, "a bad number of picks is not refused as such");
    else
        must((result & 0xffffffff) == 0 && written <= k && written <= cell_count / 2, "more picks than asked for, or than cells hold");
    use(cells, 2 * written);
    for (size_t i = 0; i < written; i++)
        for (size_t j = 0; j < i; j++) {
            must(cells[2 * i + 1] < cells[2 * j] || cells[2 * j + 1] < cells[2 * i], "two picks share a line");
            picked++;
        }
    free(cells);
}

/* Whether a pattern has an `in`: what that shows of B may reach out of the answer. */
static int has_in(const uint8_t *pattern, size_t pattern_len)
{
    for (size_t i = 0; i + 3 <= pattern_len; i++)
        if (memcmp(pattern + i, "in,", 3) == 0)
            return 1;
    return 0;
}

/* The call that shows what made an answer: refused as the filling call was, or else nodes that rise, with stretches inside the answer,
   which is the first one's. */
static void over_witness(const uint8_t *pattern, size_t pattern_len, const uint8_t *log, size_t log_len, uint64_t filled)
{
    uint64_t number = below(8) == 0 ? UINT64_MAX - below(3) : below(4);
    size_t cell_count = below(3 * FINDER_NODES_MAX + 4);
    uint32_t answer[2], *cells = block(cell_count * sizeof *cells);
    uint64_t result = finder_witness(pattern, pattern_len, log, log_len, number, cells, cell_count);
    size_t written = finder_written(result);
    if (finder_refusal(filled) != FINDER_ACCEPTED)
        must(result == filled, "an answer is refused otherwise than stretches");
    else
        must((result & 0xffffffff) == 0 && written <= FINDER_NODES_MAX && written <= cell_count / 3,
            "more nodes shown than there are, or than cells hold");
    use(cells, 3 * written);
    int exists = finder_written(finder_fill(pattern, pattern_len, log, log_len, answer, 2, number)) == 1;
    must(cell_count < 3 || exists == (written > 0), "an answer is not shown, or one that does not exist");
    for (size_t i = 0; i < written; i++) {
        const uint32_t *part = cells + 3 * i;
        must(i == 0 ? part[0] == 0 && part[1] == answer[0] && part[2] == answer[1] : part[0] > part[-3] && part[0] < FINDER_NODES_MAX,
            "the first node has not the answer, or the nodes do not rise");
        must(part[1] <= part[2], "a stretch ends before it starts");
        must((answer[0] <= part[1] && part[2] <= answer[1]) || has_in(pattern, pattern_len), "a stretch is not inside the answer");
        shown++;
    }
    free(cells);
}

static void over_log(void)
{
    const char *pattern_text = patterns[below(COUNT(patterns))];
    size_t pattern_len = strlen(pattern_text);
    uint8_t *pattern = block(pattern_len);
    memcpy(pattern, pattern_text, pattern_len);
    if (pattern_len > 0 && below(3) == 0)
        pattern[below((uint32_t)pattern_len)] = (uint8_t)below(256);
    if (below(12) == 0) {
        free(pattern);
        pattern_len = 1000 + below(60);
        pattern = text(patterns, COUNT(patterns), pattern_len);
    }
    size_t log_len = below(40) == 0 ? 61430 + below(20) : below(400);
    uint8_t *log = text(lines, COUNT(lines), log_len);
    size_t cell_count = below(12);
    uint32_t *cells = block(cell_count * sizeof *cells);
    uint64_t from = below(8) == 0 ? UINT64_MAX - below(3) : below(4);
    uint64_t result = finder_fill(pattern, pattern_len, log, log_len, cells, cell_count, from);
    must(finder_refusal(result) <= FINDER_DEEP, "a pattern or a log is refused with another number than 1 to 5");
    use(cells, 2 * (size_t)finder_written(result));
    over_picks(pattern, pattern_len, log, log_len, result);
    over_witness(pattern, pattern_len, log, log_len, result);
    over_lines(log, log_len);
    free(pattern);
    free(log);
    free(cells);
}

/* A call over lists is accepted, or refused with 6 to 8. */
static void number_over_lists(uint64_t result)
{
    unsigned number = finder_refusal(result);
    must(number == FINDER_ACCEPTED || (number >= FINDER_MISCALLED && number <= FINDER_DISORDERED),
        "lists are refused with another number than 6 to 8");
}

static void over_lists(void)
{
    size_t list_count = below(10) == 0 ? below(40) : below(5), item_count = 0;
    uint32_t *ends = block(list_count * sizeof *ends);
    for (size_t i = 0; i < list_count; i++)
        ends[i] = (uint32_t)(item_count += 2 * below(6));
    uint32_t *items = block(item_count * sizeof *items);
    for (size_t list = 0, i = 0; list < list_count; list++)
        for (uint32_t at = below(6); i < ends[list]; i += 2) {
            items[i] = at += 1 + below(3);
            items[i + 1] = at;
        }
    if (list_count > 0 && below(4) == 0)
        ends[below((uint32_t)list_count)] = edges[below(COUNT(edges))];
    if (item_count > 0 && below(4) == 0)
        items[below((uint32_t)item_count)] = edges[below(COUNT(edges))];
    uint32_t op = below(12) == 0 ? edges[below(COUNT(edges))] : 1 + below(9);
    uint32_t k = op == FINDER_MAX ? edges[below(COUNT(edges))] : below(9) == 0;
    size_t cell_count = below(4) == 0 ? item_count : below(12);
    uint32_t *cells = block(cell_count * sizeof *cells);
    uint64_t from = below(8) == 0 ? UINT64_MAX - below(3) : below(4);
    uint64_t result = finder_lists_fill(op, k, items, item_count, ends, list_count, cells, cell_count, from);
    use(cells, 2 * (size_t)finder_written(result));
    number_over_lists(result);
    must(cell_count < item_count || !finder_more(result), "as many cells as items are not enough");
    free(cells);

    size_t count_cells = list_count + below(3);
    uint32_t *counts = block(count_cells * sizeof *counts);
    result = finder_lists_take(1 + below(2), items, item_count, ends, list_count, counts, count_cells, from);
    number_over_lists(result);
    use(counts, finder_refusal(result) == 0 ? list_count : 0);
    free(counts);
    free(items);
    free(ends);
}

int main(int argc, char **argv)
{
    int rounds = argc > 1 ? atoi(argv[1]) : 1000;
    for (int i = 0; i < rounds; i++) {
        over_log();
        over_lists();
    }
    if (sum == 0 || feeds == 0 || picked == 0 || shown == 0) {
        puts("hostile: no call wrote anything, no part had a line feed, never were two picks made, or no node shown, so nothing was tried");
        return 1;
    }
    printf("hostile: %d calls, no fault\n", 8 * rounds);
    return 0;
}
