/* javendriky_yard.h: a yard in one argument. The calls of javendriky.h with the four lists of a
 * yard in a struct, for C99 and C++. Every function here is inline: include this file, and link
 * the same library. No function asks for memory.
 *
 *     jv_yard yard;
 *     static uint8_t plan[JAVENDRIKY_LONGEST_PLAN_BYTES];
 *     uint32_t answer = jv_read_file(&yard, "my.yard");
 *     if (!jv_refused(answer))
 *         answer = jv_plan(&yard, plan, sizeof plan);
 *     if (jv_refused(answer))
 *         fprintf(stderr, "refused, place %u: %s.\n", jv_tell(answer).place,
 *                 jv_tell(answer).sentence);
 *     else
 *         printf("%u moves\n", (unsigned)answer);
 *
 * Names. `jv_x` calls `javendriky_x`, answers what it answers and writes what it writes:
 * javendriky.h tells what that is, and in which order a call refuses. Two things differ. The
 * yard is one argument, the first. A list that must have an entry for each node (parts, demands,
 * reach), and the cabinet's registers, are passed without their length: lend yard->n entries, or
 * JAVENDRIKY_BLOCK_BYTES. A list of JAVENDRIKY_MAX_NODES entries is always enough.
 *
 * With JV_NO_STDIO defined before the file is included, <stdio.h> is left out, and so are
 * jv_read_file, jv_read_stream and jv_write_stream: for a cabinet without files. */
#ifndef JAVENDRIKY_YARD_H
#define JAVENDRIKY_YARD_H

#include "javendriky.h"

#ifndef JV_NO_STDIO
#include <stdio.h>
#endif

/* A yard: n nodes, and in each list the first n entries. It can be copied by assignment. A call
 * refuses a yard with n above JAVENDRIKY_MAX_NODES with JAVENDRIKY_NODE_COUNT (1). */
typedef struct jv_yard {
    size_t n;
    uint8_t parents[JAVENDRIKY_MAX_NODES];
    uint8_t pebbles[JAVENDRIKY_MAX_NODES];
    uint8_t targets[JAVENDRIKY_MAX_NODES];
    uint8_t depths[JAVENDRIKY_MAX_NODES];
} jv_yard;

/* What jv_read_file, jv_read_stream and jv_write_stream answer if the file cannot be read or
 * written. It is a refusal with a number, 999, that no call of javendriky.h has. */
#define JV_FILE_FAILED 999000000u

/* An answer in words. Of an accepted call the number and the place are 0, and the sentence says
 * "accepted". The sentence has no full stop; 'the named berth' (line, move) in it is the place. */
typedef struct jv_words {
    unsigned number;      /* the refusal's number */
    unsigned place;       /* the node, line or move that it names, or what the call needs */
    const char *sentence; /* what is wrong and what to mend: a constant text, never NULL */
} jv_words;

/* Whether an answer is a refusal. */
static inline int jv_refused(uint32_t answer)
{
    return JAVENDRIKY_REFUSAL(answer) != 0;
}

static inline jv_words jv_tell(uint32_t answer)
{
    jv_words words;
    words.number = (unsigned)JAVENDRIKY_REFUSAL(answer);
    words.place = jv_refused(answer) ? (unsigned)JAVENDRIKY_PLACE(answer) : 0;
    words.sentence = answer == JV_FILE_FAILED
        ? "the file cannot be read or written: see that it is there and that you may use it"
        : javendriky_refusal_text(answer);
    return words;
}

/* Whether the library belongs to the header that the program was built with. Ask once, before any
 * other call: a library of another version has other calls under the same names. */
static inline int jv_same_version(void)
{
    return javendriky_version() == JAVENDRIKY_VERSION;
}

/* The yard as four lists with their lengths, in the order of the calls. */
#define JV_LISTS(yard) \
    (yard)->parents, (yard)->n, (yard)->pebbles, (yard)->n, \
    (yard)->targets, (yard)->n, (yard)->depths, (yard)->n

/* ---- Yard sheets */

/* Reads the yard sheet in `sheet`. Answers the number of nodes, which is yard->n then. A refusal
 * leaves the yard as it was. Whether the lists are a yard is not tested: jv_test_yard does that. */
static inline uint32_t jv_read_sheet(jv_yard *yard, const void *sheet, size_t sheet_len)
{
    uint32_t answer = javendriky_read_sheet((const uint8_t *)sheet, sheet_len,
                                            yard->parents, sizeof yard->parents,
                                            yard->pebbles, sizeof yard->pebbles,
                                            yard->targets, sizeof yard->targets,
                                            yard->depths, sizeof yard->depths);
    if (!jv_refused(answer))
        yard->n = answer;
    return answer;
}

/* Writes the yard sheet of the yard into `sheet`; JAVENDRIKY_MAX_SHEET_BYTES are always enough. */
static inline uint32_t jv_write_sheet(const jv_yard *yard, void *sheet, size_t sheet_len)
{
    return javendriky_write_sheet(JV_LISTS(yard), (uint8_t *)sheet, sheet_len);
}

#ifndef JV_NO_STDIO
/* Reads the yard sheet that a stream holds up to its end. Of a longer input the first 5,200
 * bytes are read, more than any sheet has; the rest would change no answer (proved, as read_cut
 * in crates/laws/proofs). They stand on the stack. JV_FILE_FAILED if the stream cannot be read. */
static inline uint32_t jv_read_stream(jv_yard *yard, FILE *stream)
{
    uint8_t sheet[5200];
    size_t bytes = fread(sheet, 1, sizeof sheet, stream);
    return ferror(stream) ? JV_FILE_FAILED : jv_read_sheet(yard, sheet, bytes);
}

/* Reads the yard sheet in the file of that name. JV_FILE_FAILED if it cannot be opened or read. */
static inline uint32_t jv_read_file(jv_yard *yard, const char *path)
{
    uint32_t answer;
    FILE *file = fopen(path, "rb");
    if (file == NULL)
        return JV_FILE_FAILED;
    answer = jv_read_stream(yard, file);
    fclose(file);
    return answer;
}

/* Writes the yard sheet of the yard to a stream, and answers its bytes. A refused yard writes
 * nothing. JV_FILE_FAILED if the stream takes fewer bytes; what it keeps back shows when it is
 * closed. */
static inline uint32_t jv_write_stream(const jv_yard *yard, FILE *stream)
{
    uint8_t sheet[JAVENDRIKY_MAX_SHEET_BYTES];
    uint32_t answer = jv_write_sheet(yard, sheet, sizeof sheet);
    if (!jv_refused(answer) && fwrite(sheet, 1, answer, stream) != answer)
        return JV_FILE_FAILED;
    return answer;
}
#endif

/* ---- Plans */

static inline uint32_t jv_plan(const jv_yard *yard, uint8_t *plan, size_t plan_len)
{
    return javendriky_plan(JV_LISTS(yard), plan, plan_len);
}

/* `parts`: yard->n entries. */
static inline uint32_t jv_plan_parts(const jv_yard *yard, uint8_t *plan, size_t plan_len, uint8_t *parts)
{
    return javendriky_plan_parts(JV_LISTS(yard), plan, plan_len, parts, yard->n);
}

static inline uint32_t jv_openings(const jv_yard *yard, uint8_t *list, size_t list_len)
{
    return javendriky_openings(JV_LISTS(yard), list, list_len);
}

static inline uint32_t jv_check(const jv_yard *yard, const uint8_t *plan, size_t plan_len)
{
    return javendriky_check(JV_LISTS(yard), plan, plan_len);
}

static inline uint32_t jv_excess(const jv_yard *yard, const uint8_t *plan, size_t plan_len)
{
    return javendriky_excess(JV_LISTS(yard), plan, plan_len);
}

static inline uint32_t jv_wear(const jv_yard *yard, const uint8_t *plan, size_t plan_len,
                               uint32_t width, uint32_t *first, uint32_t *edge)
{
    return javendriky_wear(JV_LISTS(yard), plan, plan_len, width, first, edge);
}

/* ---- The yard and its figures */

static inline uint32_t jv_test_yard(const jv_yard *yard)
{
    return javendriky_test_yard(JV_LISTS(yard));
}

/* `list`: yard->n entries. */
static inline uint32_t jv_demands(const jv_yard *yard, int16_t *list)
{
    return javendriky_demands(JV_LISTS(yard), list, yard->n);
}

static inline uint32_t jv_length_bound(const jv_yard *yard, uint32_t *bytes)
{
    return javendriky_length_bound(JV_LISTS(yard), bytes);
}

static inline uint32_t jv_displaced(const jv_yard *yard)
{
    return javendriky_displaced(JV_LISTS(yard));
}

static inline uint32_t jv_nearest(const jv_yard *yard, size_t node, uint32_t *distance)
{
    return javendriky_nearest(JV_LISTS(yard), node, distance);
}

/* `list`: yard->n entries. */
static inline uint32_t jv_reach(const jv_yard *yard, uint8_t *list, size_t node, uint16_t reach)
{
    return javendriky_reach(JV_LISTS(yard), list, yard->n, node, reach);
}

/* ---- Calls that alter the yard. A refusal leaves it as it was. */

static inline uint32_t jv_push(jv_yard *yard, size_t from, size_t to)
{
    return javendriky_push(JV_LISTS(yard), from, to);
}

static inline uint32_t jv_trial(jv_yard *yard, const uint8_t *plan, size_t plan_len, uint16_t budget)
{
    return javendriky_trial(JV_LISTS(yard), plan, plan_len, budget);
}

/* `demands`: yard->n entries, as jv_demands or the last event left them. Four functions alike. */
static inline uint32_t jv_pebble_arrives(jv_yard *yard, int16_t *demands, size_t node)
{
    return javendriky_pebble_arrives(JV_LISTS(yard), demands, yard->n, node);
}

static inline uint32_t jv_pebble_leaves(jv_yard *yard, int16_t *demands, size_t node)
{
    return javendriky_pebble_leaves(JV_LISTS(yard), demands, yard->n, node);
}

static inline uint32_t jv_target_set(jv_yard *yard, int16_t *demands, size_t node)
{
    return javendriky_target_set(JV_LISTS(yard), demands, yard->n, node);
}

static inline uint32_t jv_target_cleared(jv_yard *yard, int16_t *demands, size_t node)
{
    return javendriky_target_cleared(JV_LISTS(yard), demands, yard->n, node);
}

/* `registers`: JAVENDRIKY_BLOCK_BYTES entries. */
static inline uint32_t jv_step(jv_yard *yard, const uint8_t *plan, size_t plan_len, uint8_t *registers,
                               uint8_t failed)
{
    return javendriky_step(JV_LISTS(yard), plan, plan_len, registers, JAVENDRIKY_BLOCK_BYTES, failed);
}

#endif
