/* A console's search: prints the stretches of a pattern in a log, each with its lines.

     console [--pages] [PATTERN [LOGFILE]]

   Without LOGFILE it searches a small log held in memory. --pages asks for a few stretches at a time. Ends with 0 where stretches were
   found, 1 where there are none, 2 where the search was refused or something failed.

   Build: cc -std=c99 -Iinclude examples/console.c target/staticlib/libfinder_c.a -o target/console */
#include <stdio.h>
#include <stdlib.h>
#include <string.h>

#include "finder.h"

enum { FOUND = 0, NONE = 1, FAILED = 2, PAGE = 4 };

static const char sample[] =
    "1,4,7,3,6\n"
    "2,4,12,20,3,0\n"
    "oops\r\n"
    "1,4,9,0,0\n"
    "1,5,7,4,9\n"
    "1,5,9,4,0\n"
    "2,4,7,20,8,1\n"
    "2,4,9,20,8,0\n";

/* Prints bytes, those that are no plain text by their numbers: a damaged line may hold anything. */
static void print_bytes(FILE *out, const uint8_t *bytes, size_t count)
{
    for (size_t i = 0; i < count; i++)
        fprintf(out, bytes[i] >= ' ' && bytes[i] <= '~' && bytes[i] != '\\' ? "%c" : "\\x%02x", bytes[i]);
}

/* Prints each stretch with its lines: one call gives them all as a part of the log, parted here at their line feeds. */
static void print_stretches(const uint8_t *log, size_t log_len, const uint32_t *cells, uint32_t stretches)
{
    for (uint32_t i = 0; i < stretches; i++) {
        uint32_t first = cells[2 * i], last = cells[2 * i + 1];
        uint64_t part = finder_lines(log, log_len, first, last);
        size_t at = finder_part_place(part), end = at + finder_part_length(part);
        printf("lines %u to %u\n", (unsigned)first, (unsigned)last);
        for (uint32_t line = first; at < end; line++) {
            size_t start = at;
            while (at < end && log[at] != '\n')
                at++;
            printf("%8u  ", (unsigned)line);
            print_bytes(stdout, log + start, at++ - start);
            printf("\n");
        }
    }
}

/* Says why a call was refused; under a misspelt pattern, where. */
static int refused(uint64_t result, const char *pattern)
{
    fprintf(stderr, "refused: %s\n", finder_refusal_text(finder_refusal(result)));
    if (finder_refusal(result) == FINDER_MISSPELT) {
        print_bytes(stderr, (const uint8_t *)pattern, strlen(pattern));
        fprintf(stderr, "\n%*s^\n", (int)finder_place(result), "");
    }
    return FAILED;
}

/* All stretches in one call: two cells for each line of the log are enough. */
static int search(const char *pattern, const uint8_t *log, size_t log_len)
{
    uint64_t counted = finder_count(log, log_len);
    if (finder_refusal(counted) != FINDER_ACCEPTED)
        return refused(counted, pattern);
    size_t cell_count = 2 * (size_t)finder_counted_lines(counted);
    uint32_t *cells = malloc((cell_count + 1) * sizeof *cells); /* one more: for no bytes malloc may give NULL, which must not be lent */
    if (cells == NULL) {
        perror("console");
        return FAILED;
    }
    int status;
    uint64_t result = finder_fill((const uint8_t *)pattern, strlen(pattern), log, log_len, cells, cell_count, 0);
    if (finder_refusal(result) != FINDER_ACCEPTED) {
        status = refused(result, pattern);
    } else {
        printf("lines: %u (counted from 0), damaged: %u, stretches: %u\n", (unsigned)finder_counted_lines(counted),
            (unsigned)finder_counted_damaged(counted), (unsigned)finder_written(result));
        print_stretches(log, log_len, cells, finder_written(result));
        status = finder_written(result) > 0 ? FOUND : NONE;
    }
    free(cells);
    return status;
}

/* The same in pages, with few cells: as long as more stretches exist, the next call goes on after those already given. */
static int search_in_pages(const char *pattern, const uint8_t *log, size_t log_len)
{
    uint32_t cells[2 * PAGE];
    uint64_t from = 0, result;
    do {
        result = finder_fill((const uint8_t *)pattern, strlen(pattern), log, log_len, cells, 2 * PAGE, from);
        if (finder_refusal(result) != FINDER_ACCEPTED)
            return refused(result, pattern);
        if (from == 0)
            puts("lines are counted from 0");
        print_stretches(log, log_len, cells, finder_written(result));
        from += finder_written(result);
        printf("stretches so far: %lu, %s\n", (unsigned long)from, finder_more(result) ? "more" : "done");
    } while (finder_more(result));
    return from > 0 ? FOUND : NONE;
}

/* Reads a file, as far as size; 0 where it cannot be read. */
static int read_file(const char *path, uint8_t *bytes, size_t size, size_t *count)
{
    FILE *file = fopen(path, "rb");
    if (file == NULL) {
        perror(path);
        return 0;
    }
    *count = fread(bytes, 1, size, file);
    int failed = ferror(file); /* a directory opens, and then cannot be read */
    if (failed)
        perror(path);
    fclose(file);
    return !failed;
}

int main(int argc, char **argv)
{
    static uint8_t file[FINDER_LOG_MAX + 1]; /* the byte more shows a log that is too long */
    const uint8_t *log = (const uint8_t *)sample;
    size_t log_len = sizeof sample - 1;
    int pages = argc > 1 && strcmp(argv[1], "--pages") == 0, words = argc - pages;
    const char *pattern = words > 1 ? argv[pages + 1] : "then,2,ev,7,4,ev,9,4";
    if (words > 3) {
        fputs("usage: console [--pages] [PATTERN [LOGFILE]]\n", stderr);
        return FAILED;
    }
    if (words == 3) {
        log = file;
        if (!read_file(argv[pages + 2], file, sizeof file, &log_len))
            return FAILED;
    }
    int status = pages ? search_in_pages(pattern, log, log_len) : search(pattern, log, log_len);
    if (fflush(stdout) != 0 || ferror(stdout)) {
        perror("standard output");
        return FAILED;
    }
    return status;
}
