/* A keeper's console in small, for the hours of loading. Reads the yard sheet that is its argument,
 * works its demands out once, and brings them up to date with each event from standard input. An
 * event is a line, of one car or one target: `arrives 4`, `leaves 3`, `set 0`, `cleared 2`. Prints
 * each event with the demands after it, or with its refusal, place and sentence; a refused event
 * changes nothing. At the end it prints the yard sheet as it then is. `restart` goes on with the
 * demands of the start, as a console does that is started again midway: events are refused with 23
 * until `afresh` works the demands out anew. Status 1 if the yard is refused, 2 if the library is
 * not the header's or did not keep to it, or if the input could not be read. */
#include <string.h>

#define PROGRAM "loading"
#include "console.h"

static jv_yard yard;
static int16_t demands[JAVENDRIKY_MAX_NODES], afresh[JAVENDRIKY_MAX_NODES], at_start[JAVENDRIKY_MAX_NODES];

typedef uint32_t event_call(jv_yard *, int16_t *, size_t);

static event_call *named(const char *word)
{
    if (strcmp(word, "arrives") == 0) return jv_pebble_arrives;
    if (strcmp(word, "leaves") == 0) return jv_pebble_leaves;
    if (strcmp(word, "set") == 0) return jv_target_set;
    if (strcmp(word, "cleared") == 0) return jv_target_cleared;
    return NULL;
}

/* After an accepted event the list is the one worked out afresh. */
static void hold_to_the_yard(void)
{
    accepted(jv_demands(&yard, afresh));
    if (memcmp(demands, afresh, yard.n * sizeof demands[0]) != 0)
        stop(2, "the demands are not those of the yard");
}

static void print_demands(void)
{
    size_t node;
    for (node = 0; node < yard.n; node++)
        printf(" %d", demands[node]);
    putchar('\n');
}

int main(int count, char **arguments)
{
    char word[16];
    unsigned long node;
    uint32_t answer;

    read_yard(&yard, count == 2, arguments, "name a yard sheet that can be read");
    accepted(jv_demands(&yard, demands));
    memcpy(at_start, demands, sizeof demands);
    printf("at the start:");
    print_demands();

    while (scanf("%15s", word) == 1) {
        event_call *call = named(word);
        if (strcmp(word, "restart") == 0 || strcmp(word, "afresh") == 0) {
            if (word[0] == 'r')
                memcpy(demands, at_start, sizeof demands);
            else
                accepted(jv_demands(&yard, demands));
            printf("%s:", word);
            print_demands();
            continue;
        }
        if (call == NULL || scanf("%lu", &node) != 1)
            stop(2, "an event is `arrives`, `leaves`, `set` or `cleared`, and a berth");
        answer = call(&yard, demands, node);
        printf("%s %lu:", word, node);
        if (jv_refused(answer))
            printf(" refusal %u place %u, %s;", jv_tell(answer).number, jv_tell(answer).place, jv_tell(answer).sentence);
        else
            hold_to_the_yard();
        print_demands();
    }
    if (!feof(stdin))
        stop(2, "the events could not be read");

    accepted(jv_write_stream(&yard, stdout));
    return 0;
}
