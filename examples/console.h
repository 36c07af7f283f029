/* What the example programs share: how they end with a sentence, and how they read their yard. A
 * program defines PROGRAM, its name, and includes this file. */
#include <stdio.h>
#include <stdlib.h>

#include "javendriky_yard.h"

static inline void stop(int status, const char *what)
{
    fprintf(stderr, PROGRAM ": %s\n", what);
    exit(status);
}

/* The value of an accepted call; a refusal ends the program with its number, place and sentence. */
static inline uint32_t accepted(uint32_t answer)
{
    if (jv_refused(answer)) {
        printf("refusal place\n%u %u\n", jv_tell(answer).number, jv_tell(answer).place);
        stop(1, jv_tell(answer).sentence);
    }
    return answer;
}

/* Reads the yard sheet that is the first argument of several; USAGE says what they are. */
static inline void read_yard(jv_yard *yard, int right_count, char **arguments, const char *usage)
{
    uint32_t answer;
    if (!jv_same_version())
        stop(2, "built with a header of another version than the library: build it with that library's header");
    answer = right_count ? jv_read_file(yard, arguments[1]) : JV_FILE_FAILED;
    if (answer == JV_FILE_FAILED)
        stop(2, usage);
    accepted(answer);
}
