/* How much stack each call takes, measured on a thread whose stack is painted before; more than include/finder.h says makes the run fail.
   Each is measured as the first call of a process, in which the dynamic linker has still to bind memset and memcpy: that takes stack, too.
   So nothing here uses them. */
#define _POSIX_C_SOURCE 200112L
#include <pthread.h>
#include <stdio.h>
#include <stdlib.h>
#include <sys/wait.h>
#include <unistd.h>

#include "finder.h"

enum { STACK = 1 << 20, GAP = 1 << 14, PAINT = 0xa5 };

/* Eight deep, and each operator once; in the second all of these take part in an answer, which is three lines. */
static const char pattern[] = "max,9,less,in,or,2,and,2,then,2,row,2,ev,1,0,ev,2,0,ev,3,0,ev,4,0,fr,1,0,"
                              "out,has,fr,1,0,ev,1,0,ev,7,0,ev,7,0";
static const char threes[] = "max,9,less,in,or,2,and,2,then,2,row,2,ev,1,0,fr,1,0,ev,1,4,fr,1,4,ev,3,0,"
                             "out,has,row,3,ev,1,0,ev,1,0,ev,1,0,fr,1,0,ev,7,0,ev,7,0";
static uint8_t log_bytes[FINDER_LOG_MAX];
static size_t log_len, sound; /* the sound lines come first */
static uint32_t cells[2 * FINDER_LOG_MAX], items[2 * FINDER_LISTS_MAX], ends[FINDER_LISTS_MAX], counts[FINDER_LISTS_MAX];

/* Each call, and whether it did its work. */
static int nothing(void) { return 1; }

static int fill(void)
{
    return finder_refusal(finder_fill((const uint8_t *)pattern, sizeof pattern - 1, log_bytes, log_len, cells, 2 * FINDER_LOG_MAX, 0))
        == FINDER_ACCEPTED;
}

/* Every sound line is an answer. */
static int pick(void)
{
    return finder_pick((const uint8_t *)pattern, sizeof pattern - 1, log_bytes, log_len, FINDER_PICKS_MAX, cells, 2 * FINDER_LOG_MAX)
        == (uint64_t)(sound < FINDER_PICKS_MAX ? sound : FINDER_PICKS_MAX) << 32;
}

/* The last answer. */
static int witness(void)
{
    return finder_witness((const uint8_t *)threes, sizeof threes - 1, log_bytes, log_len, sound - 3, cells, 2 * FINDER_LOG_MAX)
        == (uint64_t)18 << 32;
}

static int count(void) { return finder_counted_lines(finder_count(log_bytes, log_len)) == log_len / 10; }

static int lines(void) { return finder_part_length(finder_lines(log_bytes, log_len, 1, (uint32_t)(log_len / 10 - 1))) == log_len - 10; }

static int lists_fill(void)
{
    return finder_written(
        finder_lists_fill(FINDER_AND, 0, items, 2 * FINDER_LISTS_MAX, ends, FINDER_LISTS_MAX, cells, 2 * FINDER_LOG_MAX, 0)) == 1;
}

static int lists_take(void)
{
    return finder_taken(
        finder_lists_take(FINDER_OR, items, 2 * FINDER_LISTS_MAX, ends, FINDER_LISTS_MAX, counts, FINDER_LISTS_MAX, FINDER_LISTS_MAX - 1));
}

static int (*call)(void);
static int worked;

/* Calls below a gap, deeper than what a thread's own beginning and end take. */
static void *below_gap(void *none)
{
    volatile unsigned char gap[GAP];
    gap[0] = 0;
    worked = call();
    gap[1] = gap[0];
    return none;
}

/* The bytes of a painted stack that a thread has overwritten. */
static size_t taken(int (*of)(void))
{
    void *lent;
    volatile unsigned char *stack;
    pthread_attr_t how;
    pthread_t thread;
    size_t clean = 0;
    call = of;
    if (posix_memalign(&lent, 4096, STACK) != 0)
        exit(2);
    stack = lent;
    for (size_t i = 0; i < STACK; i++)
        stack[i] = PAINT;
    if (pthread_attr_init(&how) != 0 || pthread_attr_setstack(&how, lent, STACK) != 0
        || pthread_create(&thread, &how, below_gap, NULL) != 0 || pthread_join(thread, NULL) != 0)
        exit(2);
    while (clean < STACK && stack[clean] == PAINT)
        clean++;
    free(lent);
    return STACK - clean;
}

/* Measures a call above an empty one; 1 where it takes more than it may, or did not do its work. */
static int measure(const char *name, int (*of)(void), size_t most)
{
    int status = 1;
    fflush(stdout);
    pid_t child = fork();
    if (child == 0) {
        size_t empty = taken(nothing), bytes = taken(of) - empty;
        printf("stack: %s %zu bytes\n", name, bytes);
        exit(bytes > most || !worked);
    }
    return child < 0 || waitpid(child, &status, 0) != child || status != 0;
}

int main(void)
{
    int bad = 0;
    for (log_len = 0; log_len < FINDER_LOG_MAX; log_len++)
        log_bytes[log_len] = (uint8_t)"1,4,1,1,6\n"[log_len % 10];
    sound = log_len / 10;
    for (size_t i = 0; i < FINDER_LISTS_MAX; i++) {
        items[2 * i] = items[2 * i + 1] = (uint32_t)i;
        ends[i] = (uint32_t)(2 * i + 2);
    }
    bad |= measure("finder_fill, a full log,", fill, FINDER_STACK_FILL);
    bad |= measure("finder_pick, a full log,", pick, FINDER_STACK_FILL);
    bad |= measure("finder_witness, a full log,", witness, FINDER_STACK_FILL);
    bad |= measure("finder_count", count, FINDER_STACK_OTHERS);
    bad |= measure("finder_lines", lines, FINDER_STACK_OTHERS);
    sound = 3;
    for (size_t i = 10 * sound; i < log_len; i++)
        log_bytes[i] = '\n';
    bad |= measure("finder_fill, the most lines,", fill, FINDER_STACK_FILL);
    bad |= measure("finder_pick, the most lines,", pick, FINDER_STACK_FILL);
    bad |= measure("finder_witness, the most lines,", witness, FINDER_STACK_FILL);
    log_len = 10 * sound;
    bad |= measure("finder_fill, three lines,", fill, FINDER_STACK_FILL);
    bad |= measure("finder_pick, three lines,", pick, FINDER_STACK_FILL);
    bad |= measure("finder_witness, three lines,", witness, FINDER_STACK_FILL);
    bad |= measure("finder_lists_fill", lists_fill, FINDER_STACK_OTHERS);
    bad |= measure("finder_lists_take", lists_take, FINDER_STACK_OTHERS);
    return bad;
}
