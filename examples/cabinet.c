/* A pusher cabinet in small. Reads a yard sheet from standard input, plans it, has the plan judged,
 * and drives the yard through the registers, move by move. Halfway a car does not arrive, and its
 * push is repeated. Prints what the move program prints: each move as it is made, then how often
 * each edge was crossed. A refused yard is printed as its refusal and place, with status 1 and a
 * sentence on standard error. Status 2: the library is not the header's or did not keep to it, or
 * standard input could not be read. */
#include <stdio.h>
#include <stdlib.h>
#include <string.h>

#include "javendriky_yard.h"

static jv_yard yard, start, before; /* as it is, at the start, and before a stall */
static uint8_t registers[JAVENDRIKY_BLOCK_BYTES];
static uint8_t plan[JAVENDRIKY_LONGEST_PLAN_BYTES], again[JAVENDRIKY_LONGEST_PLAN_BYTES];
static int16_t demands[JAVENDRIKY_MAX_NODES]; /* at the start */
/* Crossings of the edge above each node, towards the root and away from it. */
static unsigned up[JAVENDRIKY_MAX_NODES], down[JAVENDRIKY_MAX_NODES];

/* The value of an accepted call; a refusal ends the program. */
static uint32_t accepted(uint32_t answer)
{
    jv_words words = jv_tell(answer);
    if (jv_refused(answer)) {
        printf("refusal place\n%u %u\n", words.number, words.place);
        fprintf(stderr, "cabinet: refused, place %u: %s.\n", words.place, words.sentence);
        exit(1);
    }
    return answer;
}

static void expect(const char *what, int holds)
{
    if (!holds) {
        fprintf(stderr, "cabinet: not so: %s\n", what);
        exit(2);
    }
}

/* One step of the cabinet: whether the line is raised. */
static int step(uint32_t moves, uint8_t command, uint8_t failed)
{
    registers[JAVENDRIKY_REGISTER_COMMAND] = command;
    return accepted(jv_step(&yard, plan, 2 * moves, registers, failed)) == 1;
}

static int is(uint8_t status, uint8_t flags)
{
    return registers[JAVENDRIKY_REGISTER_STATUS] == status && registers[JAVENDRIKY_REGISTER_FLAGS] == flags;
}

/* A car does not arrive: the step stalls, raises the line and leaves all cars. Once the stall is
 * acknowledged the same move is next. */
static void stall(uint32_t moves)
{
    uint32_t left = javendriky_moves_left(registers);
    before = yard;
    expect("a stall raises the line", step(moves, JAVENDRIKY_COMMAND_NONE, 1) && is(JAVENDRIKY_STATUS_STALLED, JAVENDRIKY_FLAG_STALLED));
    expect("a stalled step changes nothing",
        step(moves, JAVENDRIKY_COMMAND_NONE, 0) && is(JAVENDRIKY_STATUS_STALLED, JAVENDRIKY_FLAG_STALLED));
    expect("acknowledged, it runs", !step(moves, JAVENDRIKY_COMMAND_ACKNOWLEDGE, 0) && is(JAVENDRIKY_STATUS_RUNNING, 0));
    expect("no car has moved", memcmp(before.pebbles, yard.pebbles, yard.n) == 0 && javendriky_moves_left(registers) == left);
}

/* One move: obeyed by a step, which shows it; printed, and counted at the edge that it crosses. */
static int obey(uint32_t moves)
{
    int raised = step(moves, JAVENDRIKY_COMMAND_NONE, 0);
    uint8_t from = registers[JAVENDRIKY_REGISTER_FROM], to = registers[JAVENDRIKY_REGISTER_TO];
    printf("%u %u\n", (unsigned)from, (unsigned)to);
    if (yard.parents[from] == to)
        up[from]++;
    else
        down[to]++;
    return raised;
}

/* The whole run. The mask lets both flags through, so the line is raised at the end, not before. */
static void drive(uint32_t moves)
{
    uint32_t i;
    int raised;
    registers[JAVENDRIKY_REGISTER_MASK] = JAVENDRIKY_FLAG_FINISHED | JAVENDRIKY_FLAG_STALLED;
    raised = step(moves, JAVENDRIKY_COMMAND_START, 0);
    for (i = 0; i < moves; i++) {
        expect("it runs until the last move", !raised && is(JAVENDRIKY_STATUS_RUNNING, 0) && javendriky_moves_left(registers) == moves - i);
        if (i == moves / 2)
            stall(moves);
        raised = obey(moves);
    }
    expect("it is idle and says so",
        raised && is(JAVENDRIKY_STATUS_IDLE, JAVENDRIKY_FLAG_FINISHED) && javendriky_moves_left(registers) == 0);
}

/* The crossing report. An edge ('track' there) has the number of its lower node: the root has none.
 * */
static void report(uint32_t moves)
{
    uint32_t node;
    puts("track up down");
    for (node = 0; node < yard.n; node++) {
        if (yard.parents[node] == node)
            continue;
        expect("each edge is crossed one way only", up[node] == 0 || down[node] == 0);
        expect("as often as its demand says", (int)down[node] - (int)up[node] == demands[node]);
        printf("%u %u %u\n", (unsigned)node, up[node], down[node]);
    }
    printf("total\n%u\n", (unsigned)moves);
}

/* A plan list one byte too short is refused with the moves needed, and nothing is written. */
static void too_short(uint32_t moves)
{
    uint32_t answer;
    memset(again, 0, sizeof again);
    answer = jv_plan(&start, again, 2 * moves - 1);
    expect("a short list is refusal 8", JAVENDRIKY_REFUSAL(answer) == JAVENDRIKY_LIST_TOO_SHORT);
    expect("its place is the moves needed", JAVENDRIKY_PLACE(answer) == moves);
    expect("it is left as it was", again[0] == 0 && memcmp(again, again + 1, sizeof again - 1) == 0);
}

/* Comes before every other call: a library of another version has other calls under the same
 * names. */
static void same_version(void)
{
    if (!jv_same_version()) {
        fprintf(stderr, "cabinet: built with version %u of javendriky.h but linked to version %u of the library: "
            "build it with that library's header\n",
                (unsigned)JAVENDRIKY_VERSION, (unsigned)javendriky_version());
        exit(2);
    }
}

int main(void)
{
    uint32_t answer, moves, needed;

    same_version();
    answer = jv_read_stream(&yard, stdin);
    expect("standard input can be read", answer != JV_FILE_FAILED);
    accepted(answer);
    /* The plan's number of bytes is known before it is made: a cabinet with little memory lends
     * just those. */
    moves = accepted(jv_length_bound(&yard, &needed));
    expect("no plan is longer", moves <= javendriky_longest_plan(yard.n) && needed <= sizeof plan);
    expect("the plan is as long as told", jv_plan(&yard, plan, needed) == moves);
    expect("the checker accepts the plan", jv_check(&yard, plan, 2 * moves) == 0);
    expect("no move is spare", jv_excess(&yard, plan, 2 * moves) == 0);

    accepted(jv_demands(&yard, demands));

    start = yard;
    puts("from to");
    drive(moves);
    report(moves);
    expect("each node holds as many pebbles as its target count", memcmp(yard.pebbles, yard.targets, yard.n) == 0);
    expect("there is nothing left to do", jv_plan(&yard, plan, 0) == 0);
    if (moves > 0)
        too_short(moves);
    return 0;
}
