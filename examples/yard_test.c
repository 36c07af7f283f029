/* The header javendriky_yard.h, in C99 and in C++: each jv_ function answers, writes and leaves
 * what the javendriky_ call does with the four lists. On each yard sheet that is named, on yards
 * that are refused, and with nodes, plans and lists that are. Prints how many calls were
 * compared, or names the first that differs. Its status is 1 then, and 2 if a sheet cannot be
 * read. */
#include <stdio.h>
#include <stdlib.h>
#include <string.h>

#include "javendriky_yard.h"

#define LISTS(y) y.parents, y.n, y.pebbles, y.n, y.targets, y.n, y.depths, y.n
#define ROOM 4096

/* What a call can write: two of each, one for either way to call. */
typedef struct lent {
    jv_yard yard;
    uint8_t bytes[2 * ROOM], list[JAVENDRIKY_MAX_NODES], registers[JAVENDRIKY_BLOCK_BYTES];
    int16_t demands[JAVENDRIKY_MAX_NODES];
    uint32_t first, second;
} lent;

static lent given, a, b;
static unsigned long compared;
static const char *sheet_name;

/* Both ways start with the same lists. */
static void lend(void)
{
    memcpy(&a, &given, sizeof a);
    memcpy(&b, &given, sizeof b);
}

static void same(const char *call, uint32_t one, uint32_t other)
{
    compared++;
    if (one == other && memcmp(&a, &b, sizeof a) == 0)
        return;
    fprintf(stderr, "yard_test: %s of %s: answers %lu and %lu%s\n", call, sheet_name, (unsigned long)one, (unsigned long)other,
            one == other ? ", but writes something else" : "");
    exit(1);
}

#define SAME(call, mine, theirs) \
    do { \
        uint32_t mine_, theirs_; \
        lend(); \
        mine_ = (mine); \
        theirs_ = (theirs); \
        same(call, mine_, theirs_); \
    } while (0)

/* The calls that take a plan, with the first bytes of the one in `given`. */
static void with_plan(size_t bytes)
{
    uint32_t width;
    SAME("check", jv_check(&a.yard, a.bytes, bytes), javendriky_check(LISTS(b.yard), b.bytes, bytes));
    SAME("excess", jv_excess(&a.yard, a.bytes, bytes), javendriky_excess(LISTS(b.yard), b.bytes, bytes));
    SAME("trial", jv_trial(&a.yard, a.bytes, bytes, 1), javendriky_trial(LISTS(b.yard), b.bytes, bytes, 1));
    SAME("trial", jv_trial(&a.yard, a.bytes, bytes, 65535), javendriky_trial(LISTS(b.yard), b.bytes, bytes, 65535));
    for (width = 0; width < 3; width++)
        SAME("wear", jv_wear(&a.yard, a.bytes, bytes, width, &a.first, &a.second),
             javendriky_wear(LISTS(b.yard), b.bytes, bytes, width, &b.first, &b.second));
    for (given.registers[0] = 0; given.registers[0] < 3; given.registers[0]++)
        SAME("step", jv_step(&a.yard, a.bytes, bytes, a.registers, 0),
             javendriky_step(LISTS(b.yard), b.bytes, bytes, b.registers, sizeof b.registers, 0));
    given.registers[JAVENDRIKY_REGISTER_STATUS] = JAVENDRIKY_STATUS_RUNNING;
    given.registers[JAVENDRIKY_REGISTER_LEFT] = 1;
    given.registers[0] = 0;
    SAME("step", jv_step(&a.yard, a.bytes, bytes, a.registers, 0),
         javendriky_step(LISTS(b.yard), b.bytes, bytes, b.registers, sizeof b.registers, 0));
    SAME("step", jv_step(&a.yard, a.bytes, bytes, a.registers, 1),
         javendriky_step(LISTS(b.yard), b.bytes, bytes, b.registers, sizeof b.registers, 1));
    memset(given.registers, 0, sizeof given.registers);
}

/* The calls that take a node. */
static void with_node(size_t node, size_t other)
{
    SAME("nearest", jv_nearest(&a.yard, node, &a.first), javendriky_nearest(LISTS(b.yard), node, &b.first));
    SAME("reach", jv_reach(&a.yard, a.list, node, 1), javendriky_reach(LISTS(b.yard), b.list, b.yard.n, node, 1));
    SAME("push", jv_push(&a.yard, node, other), javendriky_push(LISTS(b.yard), node, other));
    SAME("arrives", jv_pebble_arrives(&a.yard, a.demands, node), javendriky_pebble_arrives(LISTS(b.yard), b.demands, b.yard.n, node));
    SAME("leaves", jv_pebble_leaves(&a.yard, a.demands, node), javendriky_pebble_leaves(LISTS(b.yard), b.demands, b.yard.n, node));
    SAME("set", jv_target_set(&a.yard, a.demands, node), javendriky_target_set(LISTS(b.yard), b.demands, b.yard.n, node));
    SAME("cleared", jv_target_cleared(&a.yard, a.demands, node), javendriky_target_cleared(LISTS(b.yard), b.demands, b.yard.n, node));
}

/* All calls on the yard in `given`. */
static void with_yard(void)
{
    size_t node;
    uint32_t moves;
    SAME("test_yard", jv_test_yard(&a.yard), javendriky_test_yard(LISTS(b.yard)));
    SAME("displaced", jv_displaced(&a.yard), javendriky_displaced(LISTS(b.yard)));
    SAME("length_bound", jv_length_bound(&a.yard, &a.first), javendriky_length_bound(LISTS(b.yard), &b.first));
    SAME("demands", jv_demands(&a.yard, a.demands), javendriky_demands(LISTS(b.yard), b.demands, b.yard.n));
    SAME("write_sheet", jv_write_sheet(&a.yard, a.bytes, sizeof a.bytes), javendriky_write_sheet(LISTS(b.yard), b.bytes, sizeof b.bytes));
    SAME("write_sheet", jv_write_sheet(&a.yard, a.bytes, 30), javendriky_write_sheet(LISTS(b.yard), b.bytes, 30));
    SAME("plan", jv_plan(&a.yard, a.bytes, 1), javendriky_plan(LISTS(b.yard), b.bytes, 1));
    SAME("openings", jv_openings(&a.yard, a.bytes, sizeof a.bytes), javendriky_openings(LISTS(b.yard), b.bytes, sizeof b.bytes));
    SAME("openings", jv_openings(&a.yard, a.bytes, 1), javendriky_openings(LISTS(b.yard), b.bytes, 1));
    SAME("plan_parts", jv_plan_parts(&a.yard, a.bytes, sizeof a.bytes, a.list),
         javendriky_plan_parts(LISTS(b.yard), b.bytes, sizeof b.bytes, b.list, b.yard.n));
    SAME("plan", jv_plan(&a.yard, a.bytes, sizeof a.bytes), javendriky_plan(LISTS(b.yard), b.bytes, sizeof b.bytes));
    moves = jv_plan(&given.yard, given.bytes, sizeof given.bytes);
    if (!jv_refused(moves))
        with_plan(2 * (size_t)moves);
    with_plan(3);
    if (given.yard.n <= JAVENDRIKY_MAX_NODES)
        jv_demands(&given.yard, given.demands);
    for (node = 0; node <= given.yard.n && node < 20; node++)
        with_node(node, given.yard.parents[node % JAVENDRIKY_MAX_NODES]);
    with_node(0, 300);
}

static void expect(int holds, const char *what)
{
    if (!holds) {
        fprintf(stderr, "yard_test: not so: %s\n", what);
        exit(1);
    }
}

/* A sheet, read in each way; what is wrong with it is told as the library tells it. */
static void with_sheet(const char *path)
{
    FILE *file = fopen(path, "rb");
    uint32_t answer;
    size_t bytes;
    if (file == NULL || (bytes = fread(given.bytes, 1, sizeof given.bytes, file), ferror(file))) {
        fprintf(stderr, "yard_test: %s cannot be read\n", path);
        exit(2);
    }
    sheet_name = path;
    lend();
    answer = javendriky_read_sheet(b.bytes, bytes, b.yard.parents, 256, b.yard.pebbles, 256, b.yard.targets, 256, b.yard.depths, 256);
    if (answer < 1000000)
        b.yard.n = answer;
    same("read_sheet", jv_read_sheet(&a.yard, a.bytes, bytes), answer);
    memcpy(&a, &given, sizeof a);
    same("read_file", jv_read_file(&a.yard, path), answer);
    memcpy(&a, &given, sizeof a);
    rewind(file);
    same("read_stream", jv_read_stream(&a.yard, file), answer);
    fclose(file);
    expect(jv_refused(answer) == (answer >= 1000000), "jv_refused tells a refusal");
    expect(jv_tell(answer).number == answer / 1000000
        && jv_tell(answer).place == (answer >= 1000000 ? answer % 1000000 : 0), "jv_tell tells number and place");
    expect(strcmp(jv_tell(answer).sentence, javendriky_refusal_text(answer)) == 0, "jv_tell tells the sentence");
    given.yard = b.yard;
    with_yard();
}

/* Streams: a folder cannot be read, nothing can be written to a full one, and what is written
 * can be read. */
static void with_streams(void)
{
    static jv_yard left;
    FILE *full = fopen("/dev/full", "wb"), *again = tmpfile();
    sheet_name = "streams";
    lend();
    left = a.yard;
    expect(jv_read_file(&a.yard, "/") == JV_FILE_FAILED, "a folder is no sheet");
    expect(jv_read_file(&a.yard, "/no such/sheet") == JV_FILE_FAILED, "a sheet that is not there cannot be read");
    expect(memcmp(&left, &a.yard, sizeof left) == 0, "then the yard is left");
    expect(jv_refused(JV_FILE_FAILED) && jv_tell(JV_FILE_FAILED).number == 999
        && jv_tell(JV_FILE_FAILED).place == 0, "a failed file is 999, place 0");
    expect(strstr(jv_tell(JV_FILE_FAILED).sentence, "cannot be read or written") != NULL, "a failed file has its sentence");
    if (full != NULL) {
        setvbuf(full, NULL, _IONBF, 0);
        expect(jv_write_stream(&a.yard, full) == JV_FILE_FAILED, "a full device takes no sheet");
        fclose(full);
    }
    if (again != NULL) {
        expect(!jv_refused(jv_write_stream(&a.yard, again)), "a sheet is written");
        rewind(again);
        memset(&b.yard, 0, sizeof b.yard);
        expect(jv_read_stream(&b.yard, again) == a.yard.n && b.yard.n == a.yard.n, "and read again");
        expect(memcmp(a.yard.parents, b.yard.parents, a.yard.n) == 0 && memcmp(a.yard.depths, b.yard.depths, a.yard.n) == 0, "as it was");
        fclose(again);
    }
}

int main(int count, char **arguments)
{
    int i;
    if (!jv_same_version() || count < 2) {
        fprintf(stderr, "yard_test: name yard sheets, and link the header's library\n");
        return 2;
    }
    for (i = 1; i < count; i++)
        with_sheet(arguments[i]);
    sheet_name = "lists";
    memset(&given, 0, sizeof given);
    with_yard(); /* no node */
    given.yard.n = JAVENDRIKY_MAX_NODES + 1;
    with_yard(); /* too many */
    given.yard.n = 2;
    with_yard(); /* depths of 0 */
    memset(given.yard.depths, 1, sizeof given.yard.depths);
    given.yard.pebbles[0] = given.yard.targets[1] = 1;
    with_yard();
    memcpy(given.bytes, "\0\1\1\0\0\1", 6);
    with_plan(6); /* two moves of three are spare */
    with_streams();
    printf("%lu calls with a yard in one argument are as with four lists\n", compared);
    return 0;
}
