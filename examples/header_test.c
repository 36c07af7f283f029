/* The header alone, in C99 and in C++. Each refusal has a sentence of its own, and every other
 * number some sentence; 3 and 21 are no refusals. Names the first that has not. Also the sum of the
 * three bytes of moves left. */
#include <stdio.h>
#include <string.h>

#include "javendriky.h"

static const char *text(uint32_t number, uint32_t place) { return javendriky_refusal_text(number * 1000000u + place); }

int main(void)
{
    const uint32_t last = JAVENDRIKY_WIDTH, unused[] = {3, 21};
    const uint8_t registers[JAVENDRIKY_BLOCK_BYTES] = {1, 1, 1, 1, 4, 3, 2, 1, 1};
    uint32_t a, b;

    for (a = 1; a <= last; a++)
        for (b = 0; b <= last + 1; b++)
            if (a != b && a != unused[0] && a != unused[1] && strcmp(text(a, 1), text(b, 1)) == 0) {
                fprintf(stderr, "javendriky_refusal_text: %u has the sentence of %u\n", (unsigned)a, (unsigned)b);
                return 1;
            }
    if (javendriky_moves_left(registers) != 0x020304) {
        fprintf(stderr, "javendriky_moves_left: %u\n", (unsigned)javendriky_moves_left(registers));
        return 1;
    }
    for (a = 0; a < 2; a++)
        if (strcmp(text(unused[a], 1), text(last + 1, 1)) != 0) {
            fprintf(stderr, "javendriky_refusal_text: %u has a sentence\n", (unsigned)unused[a]);
            return 1;
        }
    return text(0, 999999) == NULL || text(4294, 967295) == NULL;
}
