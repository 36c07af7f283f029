/* For a studio with two pushers. Reads the yard sheet that is its argument, plans it part by part,
 * and hands each part to the pusher who has fewer moves so far. Prints how many parts have moves,
 * and each pusher's moves. Parts cannot disturb one another, so neither pusher needs to know what
 * the other does: here they take turns, and the checker is asked what came of it. A refusal is told
 * with its place and a sentence. Status 1 if the yard is refused, 2 if the library is not the
 * header's, or if the input could not be read. */

#define PROGRAM "pushers"
#include "console.h"

#define PUSHERS 2

static jv_yard yard;
static uint8_t plan[JAVENDRIKY_LONGEST_PLAN_BYTES], parts[JAVENDRIKY_MAX_NODES];
static uint8_t own[PUSHERS][JAVENDRIKY_LONGEST_PLAN_BYTES], together[JAVENDRIKY_LONGEST_PLAN_BYTES];
static size_t bytes_of[PUSHERS];

/* Appends the move at a place of the plan to a list. */
static void hand_on(const uint8_t *from, size_t at, uint8_t *to, size_t *bytes)
{
    to[*bytes] = from[at];
    to[*bytes + 1] = from[at + 1];
    *bytes += 2;
}

int main(int count, char **arguments)
{
    uint32_t moves, moving = 0, excess;
    size_t at, done = 0;
    unsigned pusher = 0;

    read_yard(&yard, count == 2, arguments, "name a yard sheet that can be read");

    moves = accepted(jv_plan_parts(&yard, plan, sizeof plan, parts));

    /* The moves of a part stand in a row: a part begins where a move is in another part than the
     * previous move. */
    for (at = 0; at < 2 * (size_t)moves; at += 2) {
        if (at == 0 || parts[plan[at]] != parts[plan[at - 2]]) {
            moving++;
            pusher = bytes_of[1] < bytes_of[0];
        }
        hand_on(plan, at, own[pusher], &bytes_of[pusher]);
    }
    printf("parts with moves: %u\n", (unsigned)moving);
    for (pusher = 0; pusher < PUSHERS; pusher++) {
        printf("pusher %u:", pusher + 1);
        for (at = 0; at < bytes_of[pusher]; at += 2)
            printf(" %u %u%s", (unsigned)own[pusher][at], (unsigned)own[pusher][at + 1], at + 2 < bytes_of[pusher] ? "," : "");
        putchar('\n');
    }

    for (at = 0; at < 2 * (size_t)moves; at += 2)
        for (pusher = 0; pusher < PUSHERS; pusher++)
            if (at < bytes_of[pusher])
                hand_on(own[pusher], at, together, &done);
    excess = accepted(jv_excess(&yard, together, done));
    printf("taking turns: %u moves, %u of them spare\n", (unsigned)moves, (unsigned)excess);
    return 0;
}
