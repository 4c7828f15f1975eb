/* The finder of patterns in event logs, called from C (C99 on) or C++ (C++11 on). docs/FORMATS.md says how logs and patterns are written;
   examples/console.c is a caller.

   The library is libfinder_c.a, for x86-64 Linux: position independent, and it needs memcpy and memset and nothing else.

   Memory is lent for the time of a call, as a pointer and a number of elements. Each pointer is aligned and valid for that number of
   elements, and never null, also where the number is 0. What a call writes (cells, counts) shares no byte with what it reads. A call
   keeps no pointer and no state, allocates nothing and always returns; any number of threads may call at once.

   Lines of a log count from 0. A stretch is given by its first and last line, both included. A damaged line fits no layout: it keeps its
   number, matches nothing, and is not counted by max. A log may have lanes 1 to 9 with one leading zero, a pattern may not.

   Cost: the time of a call over a log grows with the log's length and no faster. For an evening of 3,000 lines finder_fill takes tens of
   microseconds, with the worst patterns some hundreds; finder_count takes some 20, finder_lines up to some 35 for the last lines and
   less for earlier ones. finder_pick reads the log once, as finder_fill does, and searches it at most k times: 16 picks of such an evening
   take some hundreds of microseconds, with the worst patterns some 10 milliseconds. finder_witness costs what finder_fill costs up to the
   answer of that number, and with some patterns as much again for each level of the pattern. */
#ifndef FINDER_H
#define FINDER_H

#include <stddef.h>
#include <stdint.h>

#define FINDER_VERSION "2.0.0"
#define FINDER_VERSION_MAJOR 2
#define FINDER_VERSION_MINOR 0
#define FINDER_VERSION_PATCH 0

#ifdef __cplusplus
extern "C" {
#endif

/* The most that a call accepts. */
enum {
    FINDER_LOG_MAX = 61440,      /* bytes of a log, and so also its lines */
    FINDER_PATTERN_MAX = 1024,   /* bytes of a pattern */
    FINDER_NODES_MAX = 32,       /* nodes of a pattern */
    FINDER_DEPTH_MAX = 8,        /* nodes from a pattern's outermost to its innermost */
    FINDER_PICKS_MAX = 16,       /* picks of a call, k of finder_pick */
    FINDER_LISTS_MAX = 31,       /* lists of a call over lists */
    FINDER_POSITION_MAX = 65535, /* a start or an end in a list */
    FINDER_BOUND_MAX = 65535     /* k of max: sound lines in a log, lines over lists */
};

/* The stack that is enough for a call, in bytes: FINDER_STACK_FILL for finder_fill, finder_pick and finder_witness, FINDER_STACK_OTHERS for
   every other. Measured, these three take some 278,000, whatever the log, finder_count 9,100, finder_lists_fill 4,000, finder_lines and
   finder_lists_take less than 600; in a program's first call the dynamic linker takes up to 3,300 more. */
enum { FINDER_STACK_FILL = 320 * 1024, FINDER_STACK_OTHERS = 16 * 1024 };

/* Why a call was refused: the lowest number that applies; no refusal has the number 9. A refused call writes nothing, and its result holds
   this number and, for FINDER_MISSPELT, the place; everything else in it is 0. */
enum {
    FINDER_ACCEPTED = 0,
    FINDER_LONG_LOG = 1,     /* more than FINDER_LOG_MAX bytes */
    FINDER_LONG_PATTERN = 2, /* more than FINDER_PATTERN_MAX bytes */
    FINDER_MISSPELT = 3,     /* not a pattern; the place counts the leading bytes that some pattern could start with */
    FINDER_CROWDED = 4,      /* more than FINDER_NODES_MAX nodes */
    FINDER_DEEP = 5,         /* deeper than FINDER_DEPTH_MAX */
    FINDER_MISCALLED = 6,    /* operator, number of lists, k, or number of count cells */
    FINDER_MISCUT = 7,       /* an end place odd, below the one before, or the last not item_count */
    FINDER_DISORDERED = 8,   /* a start above its end, a position above FINDER_POSITION_MAX, or a start or end not above the one before
                                it in its list */
    FINDER_BAD_COUNT = 10    /* k of finder_pick not 1 to FINDER_PICKS_MAX */
};

/* Operators over lists. */
enum {
    FINDER_OR = 1,
    FINDER_AND = 2,
    FINDER_ROW = 3,
    FINDER_THEN = 4,
    FINDER_LESS = 5,
    FINDER_MAX = 6,
    FINDER_IN = 7,
    FINDER_OUT = 8,
    FINDER_HAS = 9
};

/* The stretches of a pattern in a log. Writes answers from number `from` (the first is 0) into cells, start line then end line, as many
   as whole pairs fit; later cells keep their contents. There are never more answers than lines, so two cells for each line of the log
   (finder_count tells the lines) hold them all. Fewer cells give them in pages: while further answers exist, call again with `from`
   raised by the number written. Each page costs a search from the log's start.

   Result: bits 0-7 the refusal, bit 8 set where a further answer exists, bits 16-31 the refusal's place, bits 32-63 the number of
   stretches written. */
uint64_t finder_fill(const uint8_t *pattern, size_t pattern_len, const uint8_t *log, size_t log_len,
                     uint32_t *cells, size_t cell_count, uint64_t from);

/* Up to k picks of a pattern in a log, k from 1 to FINDER_PICKS_MAX: of the answers the shortest, of equal lengths the one that starts last;
   then the same of those that share no line with it, and so on. Writes them into cells in the order of picking, start line then end line,
   as many as whole pairs fit; later cells keep their contents. Two cells for each of the k picks are enough. Fewer than k are written
   exactly if, before the k-th, no answer is left that shares no line with those picked, or no whole pair of cells.

   Result as for finder_fill, the picks as the stretches written; bit 8 is always 0. */
uint64_t finder_pick(const uint8_t *pattern, size_t pattern_len, const uint8_t *log, size_t log_len, uint32_t k,
                     uint32_t *cells, size_t cell_count);

/* The nodes of a pattern that took part in its answer number `number` (the first is 0) in a log, each with its stretch. Nodes count from 0 as
   the pattern is read: a node before its operands, and these in their order. Writes node, start line and end line for each into cells, in
   node order, as many as whole triples fit; later cells keep their contents. Three cells for each node of the pattern are enough, so
   3 * FINDER_NODES_MAX for any. The first is node 0 with the answer itself; an operator's stretch is exactly the span of those of its
   operands that took part, where of `in` and `has` the first operand's alone counts. What `in` shows of its second contains that stretch
   and may reach beyond the answer; what `has` shows of its second lies inside it. docs/FORMATS.md says which operands take part. A number
   beyond the last answer writes nothing and is not refused; with three cells or more, 0 triples of an accepted call say that there is no
   such answer.

   Result as for finder_fill, the triples as the stretches written; bit 8 is always 0. */
uint64_t finder_witness(const uint8_t *pattern, size_t pattern_len, const uint8_t *log, size_t log_len, uint64_t number,
                        uint32_t *cells, size_t cell_count);

/* How many lines a log has, and how many of them are damaged.

   Result: bits 0-7 the refusal (only FINDER_LONG_LOG), bits 16-31 the damaged lines, bits 32-63 the lines. */
uint64_t finder_count(const uint8_t *log, size_t log_len);

/* The lines first to last of a log, as a part of it: the last line feed included if it has one. The empty part where first is above last,
   there is no line last, or the log is too long.

   Result: bits 0-31 the place in the log where they start, bits 32-63 their length in bytes; 0 for the empty part. */
uint64_t finder_lines(const uint8_t *log, size_t log_len, uint32_t first, uint32_t last);

/* As finder_fill, over lists of stretches. items holds start and end in turn, list after list, so item_count is two a stretch; ends holds, for
   each list, the place in items where it ends. k is 1 to FINDER_BOUND_MAX for FINDER_MAX and 0 for every other operator. FINDER_MAX takes 1
   list; FINDER_LESS, FINDER_IN, FINDER_OUT and FINDER_HAS take 2, the list chosen from first; the others take 2 to FINDER_LISTS_MAX.
   item_count cells hold all answers. Result as for finder_fill. */
uint64_t finder_lists_fill(uint32_t op, uint32_t k, const uint32_t *items, size_t item_count,
                           const uint32_t *ends, size_t list_count, uint32_t *cells, size_t cell_count, uint64_t from);

/* Answer number `number` of FINDER_OR or FINDER_AND over lists, and in counts, one for each list, the items taken when it is handed out,
   or when there is none for the first time. A list's end mark counts as an item. Later count cells keep their contents. The items counted
   decide this answer and all before it: these stay as they are as long as no list grows whose count exceeds its number of items.

   Result: bits 0-7 the refusal, bit 8 set where there is such an answer, bits 16-31 its start, bits 32-47 its end. */
uint64_t finder_lists_take(uint32_t op, const uint32_t *items, size_t item_count, const uint32_t *ends, size_t list_count,
                           uint32_t *counts, size_t count_cells, uint64_t number);

/* The refusal of every call but finder_lines. */
static inline unsigned finder_refusal(uint64_t result) { return (unsigned)(result & 0xff); }

/* The parts of a filling's result, and of finder_pick's and finder_witness's, which never have more. */
static inline int finder_more(uint64_t result) { return (int)(result >> 8 & 1); }
static inline unsigned finder_place(uint64_t result) { return (unsigned)(result >> 16 & 0xffff); }
static inline uint32_t finder_written(uint64_t result) { return (uint32_t)(result >> 32); }

/* The parts of finder_count's result. */
static inline uint32_t finder_counted_damaged(uint64_t result) { return (uint32_t)(result >> 16 & 0xffff); }
static inline uint32_t finder_counted_lines(uint64_t result) { return (uint32_t)(result >> 32); }

/* The parts of finder_lines' result. */
static inline uint32_t finder_part_place(uint64_t result) { return (uint32_t)(result & 0xffffffff); }
static inline uint32_t finder_part_length(uint64_t result) { return (uint32_t)(result >> 32); }

/* The parts of finder_lists_take's result. */
static inline int finder_taken(uint64_t result) { return (int)(result >> 8 & 1); }
static inline uint32_t finder_taken_start(uint64_t result) { return (uint32_t)(result >> 16 & 0xffff); }
static inline uint32_t finder_taken_end(uint64_t result) { return (uint32_t)(result >> 32 & 0xffff); }

/* A refusal in words. */
static inline const char *finder_refusal_text(unsigned refusal)
{
    switch (refusal) {
    case FINDER_ACCEPTED: return "accepted";
    case FINDER_LONG_LOG: return "long log";
    case FINDER_LONG_PATTERN: return "long pattern";
    case FINDER_MISSPELT: return "misspelt";
    case FINDER_CROWDED: return "crowded";
    case FINDER_DEEP: return "deep";
    case FINDER_MISCALLED: return "miscalled";
    case FINDER_MISCUT: return "miscut";
    case FINDER_DISORDERED: return "disordered";
    case FINDER_BAD_COUNT: return "bad count";
    default: return "unknown refusal";
    }
}

#ifdef __cplusplus
}
#endif

#endif
