/* For a keeper at a berth. Reads the yard sheet that is its first argument. Tells which car is
 * nearest to the berth that is its second argument, and which cars are at most as many tracks away
 * as its third says: how many cars, and the berths that hold them, as a berth can hold several. A
 * refusal is told with its place and a sentence. Status 1 if one of the two calls is refused, 2 if
 * the library is not the header's, or if the input could not be read. */

#define PROGRAM "nearby"
#include "console.h"

static jv_yard yard;
static uint8_t within[JAVENDRIKY_MAX_NODES];

/* A whole number from 0 to a greatest. */
static unsigned long number(const char *word, unsigned long greatest)
{
    char *end;
    unsigned long value = strtoul(word, &end, 10);
    if (*word < '0' || *word > '9' || *end != '\0' || value > greatest)
        stop(2, "a berth and a number of tracks up to 65535 are whole numbers");
    return value;
}

int main(int count, char **arguments)
{
    unsigned long berth, tracks;
    uint32_t node, distance, berths, cars = 0;

    read_yard(&yard, count == 4, arguments, "name a yard sheet that can be read, a berth and a number of tracks");
    berth = number(arguments[2], (unsigned long)-1);
    tracks = number(arguments[3], UINT16_MAX);

    node = accepted(jv_nearest(&yard, berth, &distance));
    printf("nearest car: berth %u, tracks %u\n", (unsigned)node, (unsigned)distance);
    berths = accepted(jv_reach(&yard, within, berth, (uint16_t)tracks));
    for (node = 0; node < yard.n; node++)
        if (within[node] == 1)
            cars += yard.pebbles[node];
    printf("cars within reach: %u, berths that hold them (%u):", (unsigned)cars, (unsigned)berths);
    for (node = 0; node < yard.n; node++)
        if (within[node] == 1)
            printf(" %u", (unsigned)node);
    putchar('\n');
    return 0;
}
