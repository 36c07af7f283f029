/* For a keeper who likes to choose the pushes. Reads the yard sheet that is its argument, and from
 * standard input choices, a line each: the berth that a car leaves and the berth that it goes to.
 * Before each choice it prints how many pushes are left at the least, and which of them can come
 * first. A choice among these is made; any other is told and leaves the yard as it was. It ends
 * when the cars are on the targets, or with the input. A refusal is told with its place and a
 * sentence. Status 1 if the yard is refused, 2 if the library is not the header's, or if the input
 * could not be read. */

#define PROGRAM "openings"
#include "console.h"

static jv_yard yard;
static uint8_t openings[2 * JAVENDRIKY_MAX_NODES]; /* there are fewer openings than nodes */

int main(int count, char **arguments)
{
    uint32_t left, list_bytes, k, i, chosen;
    unsigned from, to;

    read_yard(&yard, count == 2, arguments, "name a yard sheet that can be read");

    for (;;) {
        left = accepted(jv_length_bound(&yard, &list_bytes));
        k = accepted(jv_openings(&yard, openings, sizeof openings));
        printf("%u left:", (unsigned)left);
        for (i = 0; i < k; i++)
            printf(" %u %u%s", (unsigned)openings[2 * i], (unsigned)openings[2 * i + 1], i + 1 < k ? "," : "");
        putchar('\n');
        if (k == 0 || scanf("%u %u", &from, &to) != 2)
            break;
        for (chosen = 0; chosen < k && (openings[2 * chosen] != from || openings[2 * chosen + 1] != to); chosen++)
            ;
        if (chosen == k) {
            printf("%u %u is none of them\n", from, to);
            continue;
        }
        accepted(jv_push(&yard, from, to));
    }
    if (ferror(stdin))
        stop(2, "the choices could not be read");
    return 0;
}
