/* For a fitter. Reads the yard sheet that is its first argument, plans it, and tells which track is
 * crossed most often within a stretch of moves in a row, and where in the sheet the stretch begins.
 * Its second argument says how many moves a stretch has. A refusal is told with its place and a
 * sentence. Status 1 if the yard or the width is refused, 2 if the library is not the header's, or
 * if the input could not be read. */

#define PROGRAM "wear"
#include "console.h"

static jv_yard yard;
static uint8_t plan[JAVENDRIKY_LONGEST_PLAN_BYTES];

int main(int count, char **arguments)
{
    unsigned long width;
    uint32_t moves, crossings, first, edge;
    char *end;

    read_yard(&yard, count == 3, arguments, "name a yard sheet that can be read, and a number of moves");
    width = strtoul(arguments[2], &end, 10);
    if (arguments[2][0] < '0' || arguments[2][0] > '9' || *end != '\0' || width > UINT32_MAX)
        stop(2, "the number of moves is a whole number");

    moves = accepted(jv_plan(&yard, plan, sizeof plan));
    crossings = accepted(jv_wear(&yard, plan, 2 * (size_t)moves, (uint32_t)width, &first, &edge));
    printf("track %u, crossed %u times within %lu moves, from move %u on\n", (unsigned)edge, (unsigned)crossings, width, (unsigned)first);
    return 0;
}
