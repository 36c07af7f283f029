/* Holds a library with the calls of javendriky.h to the cases of calls.txt. The first lines of that
 * file say how a case is written.
 *
 *     calls [--at FILE] CASES [NUMBER...]
 *
 * Makes each call of the file CASES, or only those with the numbers named. Compares the answer, and
 * each list and number afterwards. Each list has guard bytes on both sides: no call may alter them.
 * Prints the first difference of each call in words, and how many cases of each call and of all are
 * as they must be. With --at the number and the call of the case at hand stand in FILE: where a
 * library ends the program, its last case is known.
 * Status: 0 all are as they must be, 1 one differs, 2 the cases could not be tried. */
#include <errno.h>
#include <inttypes.h>
#include <stdio.h>
#include <stdlib.h>
#include <string.h>

#include "javendriky.h"

enum { MOST_LISTS = 6, MOST_NUMBERS = 2, MOST_POINTERS = 2, GUARD_BYTES = 64, GUARD = 0xA5 };

/* ---- What a call is handed */

struct list {
    unsigned char *block; /* guard bytes, entries, guard bytes; NULL where the list's pointer is */
    unsigned char *due;   /* the entries that are due after the call */
    size_t length;        /* entries */
    size_t width;         /* bytes of an entry: 1, or 2 for signed ones */
    int hashed;           /* only the hash of what is due is known */
    uint64_t hash;
};

struct lent {
    struct list lists[MOST_LISTS];
    uint64_t numbers[MOST_NUMBERS];
    uint32_t pointers[MOST_POINTERS];
    uint32_t pointers_due[MOST_POINTERS];
};

static void *entries(const struct list *list)
{
    return list->block == NULL ? NULL : list->block + GUARD_BYTES;
}

#define BYTES(i) (uint8_t *)entries(&lent->lists[i]), lent->lists[i].length
#define SIGNED(i) (int16_t *)entries(&lent->lists[i]), lent->lists[i].length
#define YARD BYTES(0), BYTES(1), BYTES(2), BYTES(3)
#define SIZE(i) (size_t)lent->numbers[i]

static uint32_t call_version(struct lent *lent)
{
    (void)lent;
    return javendriky_version();
}
static uint32_t call_plan(struct lent *lent) { return javendriky_plan(YARD, BYTES(4)); }
static uint32_t call_plan_parts(struct lent *lent) { return javendriky_plan_parts(YARD, BYTES(4), BYTES(5)); }
static uint32_t call_openings(struct lent *lent) { return javendriky_openings(YARD, BYTES(4)); }
static uint32_t call_test_yard(struct lent *lent) { return javendriky_test_yard(YARD); }
static uint32_t call_demands(struct lent *lent) { return javendriky_demands(YARD, SIGNED(4)); }
static uint32_t call_length_bound(struct lent *lent) { return javendriky_length_bound(YARD, &lent->pointers[0]); }
static uint32_t call_longest_plan(struct lent *lent) { return javendriky_longest_plan(SIZE(0)); }
static uint32_t call_displaced(struct lent *lent) { return javendriky_displaced(YARD); }
static uint32_t call_pebble_arrives(struct lent *lent) { return javendriky_pebble_arrives(YARD, SIGNED(4), SIZE(0)); }
static uint32_t call_pebble_leaves(struct lent *lent) { return javendriky_pebble_leaves(YARD, SIGNED(4), SIZE(0)); }
static uint32_t call_target_set(struct lent *lent) { return javendriky_target_set(YARD, SIGNED(4), SIZE(0)); }
static uint32_t call_target_cleared(struct lent *lent) { return javendriky_target_cleared(YARD, SIGNED(4), SIZE(0)); }
static uint32_t call_nearest(struct lent *lent) { return javendriky_nearest(YARD, SIZE(0), &lent->pointers[0]); }
static uint32_t call_reach(struct lent *lent)
{
    return javendriky_reach(YARD, BYTES(4), SIZE(0), (uint16_t)lent->numbers[1]);
}
static uint32_t call_push(struct lent *lent) { return javendriky_push(YARD, SIZE(0), SIZE(1)); }
static uint32_t call_check(struct lent *lent) { return javendriky_check(YARD, BYTES(4)); }
static uint32_t call_excess(struct lent *lent) { return javendriky_excess(YARD, BYTES(4)); }
static uint32_t call_wear(struct lent *lent)
{
    return javendriky_wear(YARD, BYTES(4), (uint32_t)lent->numbers[0], &lent->pointers[0], &lent->pointers[1]);
}
static uint32_t call_trial(struct lent *lent) { return javendriky_trial(YARD, BYTES(4), (uint16_t)lent->numbers[0]); }
static uint32_t call_step(struct lent *lent)
{
    return javendriky_step(YARD, BYTES(4), BYTES(5), (uint8_t)lent->numbers[0]);
}
static uint32_t call_read_sheet(struct lent *lent)
{
    return javendriky_read_sheet(BYTES(0), BYTES(1), BYTES(2), BYTES(3), BYTES(4));
}
static uint32_t call_write_sheet(struct lent *lent) { return javendriky_write_sheet(YARD, BYTES(4)); }

/* A call: its name, and those of its parameters in the header's order: lists, numbers, and numbers
 * that it writes through pointers. */
struct call {
    const char *name;
    uint32_t (*make)(struct lent *);
    const char *lists[MOST_LISTS + 1];
    const char *numbers[MOST_NUMBERS + 1];
    uint64_t most[MOST_NUMBERS]; /* the largest value that the parameter takes */
    const char *pointers[MOST_POINTERS + 1];
    int signed_list; /* the list whose entries are signed, or -1 */
};

#define YARD_LISTS "parents", "pebbles", "targets", "depths"
#define EVENT(name) \
    { #name, call_##name, { YARD_LISTS, "demands", NULL }, { "node", NULL }, { SIZE_MAX, 0 }, { NULL }, 4 }

static const struct call CALLS[] = {
    { "version", call_version, { NULL }, { NULL }, { 0, 0 }, { NULL }, -1 },
    { "plan", call_plan, { YARD_LISTS, "plan", NULL }, { NULL }, { 0, 0 }, { NULL }, -1 },
    { "plan_parts", call_plan_parts, { YARD_LISTS, "plan", "parts", NULL }, { NULL }, { 0, 0 }, { NULL }, -1 },
    { "openings", call_openings, { YARD_LISTS, "list", NULL }, { NULL }, { 0, 0 }, { NULL }, -1 },
    { "test_yard", call_test_yard, { YARD_LISTS, NULL }, { NULL }, { 0, 0 }, { NULL }, -1 },
    { "demands", call_demands, { YARD_LISTS, "list", NULL }, { NULL }, { 0, 0 }, { NULL }, 4 },
    { "length_bound", call_length_bound, { YARD_LISTS, NULL }, { NULL }, { 0, 0 }, { "bytes", NULL }, -1 },
    { "longest_plan", call_longest_plan, { NULL }, { "n", NULL }, { SIZE_MAX, 0 }, { NULL }, -1 },
    { "displaced", call_displaced, { YARD_LISTS, NULL }, { NULL }, { 0, 0 }, { NULL }, -1 },
    EVENT(pebble_arrives),
    EVENT(pebble_leaves),
    EVENT(target_set),
    EVENT(target_cleared),
    { "nearest", call_nearest, { YARD_LISTS, NULL }, { "node", NULL }, { SIZE_MAX, 0 }, { "distance", NULL }, -1 },
    { "reach", call_reach, { YARD_LISTS, "list", NULL }, { "node", "reach", NULL }, { SIZE_MAX, UINT16_MAX }, { NULL }, -1 },
    { "push", call_push, { YARD_LISTS, NULL }, { "from", "to", NULL }, { SIZE_MAX, SIZE_MAX }, { NULL }, -1 },
    { "check", call_check, { YARD_LISTS, "plan", NULL }, { NULL }, { 0, 0 }, { NULL }, -1 },
    { "excess", call_excess, { YARD_LISTS, "plan", NULL }, { NULL }, { 0, 0 }, { NULL }, -1 },
    { "wear", call_wear, { YARD_LISTS, "plan", NULL }, { "width", NULL }, { UINT32_MAX, 0 }, { "first", "edge", NULL }, -1 },
    { "trial", call_trial, { YARD_LISTS, "plan", NULL }, { "budget", NULL }, { UINT16_MAX, 0 }, { NULL }, -1 },
    { "step", call_step, { YARD_LISTS, "plan", "registers", NULL }, { "failed", NULL }, { UINT8_MAX, 0 }, { NULL }, -1 },
    { "read_sheet", call_read_sheet, { "sheet", YARD_LISTS, NULL }, { NULL }, { 0, 0 }, { NULL }, -1 },
    { "write_sheet", call_write_sheet, { YARD_LISTS, "sheet", NULL }, { NULL }, { 0, 0 }, { NULL }, -1 },
};
enum { MANY_CALLS = sizeof CALLS / sizeof CALLS[0] };

/* ---- Reading the cases */

static const char *file_name;
static unsigned long line_number;

static void cannot(const char *what)
{
    fprintf(stderr, "calls: %s, line %lu: %s\n", file_name, line_number, what);
    exit(2);
}

static void *room(void *old, size_t bytes)
{
    void *block = realloc(old, bytes == 0 ? 1 : bytes);
    if (block == NULL) {
        fprintf(stderr, "calls: there is not memory enough\n");
        exit(2);
    }
    return block;
}

/* The next line without its line feed; NULL at the end. */
static char *next_line(FILE *file)
{
    static char *line;
    static size_t held;
    size_t length = 0;
    int byte;
    while ((byte = getc(file)) != EOF && byte != '\n') {
        if (length + 2 > held) {
            held = 2 * held + 256;
            line = room(line, held);
        }
        line[length++] = (char)byte;
    }
    if (byte == EOF && length == 0) return NULL;
    if (held == 0) line = room(line, held = 256);
    line[length] = '\0';
    line_number++;
    return line;
}

/* The first word of a text, which is cut off; what follows it and one space. */
static char *rest_of(char *text)
{
    char *space = strchr(text, ' ');
    if (space == NULL) return text + strlen(text);
    *space = '\0';
    return space + 1;
}

static uint64_t number_in(const char *text)
{
    char *end;
    uintmax_t value;
    errno = 0;
    value = strtoumax(text, &end, 10);
    if (text[0] < '0' || text[0] > '9' || *end != '\0' || errno != 0 || value > UINT64_MAX) cannot("this is no number");
    return (uint64_t)value;
}

/* Entries as they are read. */
struct growing {
    unsigned char *bytes;
    size_t used, held;
};

static void append(struct growing *to, const unsigned char *bytes, size_t many)
{
    if (to->used + many > to->held) {
        to->held = 2 * (to->used + many) + 64;
        to->bytes = room(to->bytes, to->held);
    }
    memcpy(to->bytes + to->used, bytes, many);
    to->used += many;
}

static void append_entry(struct growing *to, long value, size_t width)
{
    unsigned char bytes[sizeof(int16_t)];
    if (width == 1) {
        if (value < 0 || value > UINT8_MAX) cannot("an entry is no byte");
        bytes[0] = (unsigned char)value;
    } else {
        int16_t entry = (int16_t)value;
        if (value < INT16_MIN || value > INT16_MAX) cannot("an entry has more than 16 bits");
        memcpy(bytes, &entry, sizeof entry);
    }
    append(to, bytes, width);
}

static int hexadecimal(char digit)
{
    const char *digits = "0123456789abcdef";
    const char *at = digit == '\0' ? NULL : strchr(digits, digit);
    if (at == NULL) cannot("this is no hexadecimal digit");
    return (int)(at - digits);
}

/* The bytes of a text in quotes; what follows the second quote. */
static const char *read_text(const char *text, struct growing *to)
{
    for (text++; *text != '"'; text++) {
        unsigned char byte = (unsigned char)*text;
        if (*text == '\0') cannot("a text has no second quote");
        if (*text == '\\') {
            text++;
            switch (*text) {
            case 'n': byte = '\n'; break;
            case 'r': byte = '\r'; break;
            case 't': byte = '\t'; break;
            case '"': byte = '"'; break;
            case '\\': byte = '\\'; break;
            case 'x':
                byte = (unsigned char)(16 * hexadecimal(text[1]) + (text[1] == '\0' ? 0 : hexadecimal(text[2])));
                text += 2;
                break;
            default: cannot("this backslash has no meaning");
            }
        }
        append(to, &byte, 1);
    }
    return text + 1;
}

/* The entries of a list, from its words. */
static struct growing read_entries(const char *text, size_t width)
{
    struct growing all = { NULL, 0, 0 };
    while (*text != '\0') {
        size_t group = all.used, bytes;
        uint64_t times = 1;
        if (*text == '"') {
            text = read_text(text, &all);
        } else {
            for (;;) {
                char *end;
                long value = strtol(text, &end, 10);
                if (end == text) cannot("this is no entry");
                append_entry(&all, value, width);
                text = end;
                if (*text != ',') break;
                text++;
            }
        }
        bytes = all.used - group;
        if (*text == '*') {
            char *end;
            times = (uint64_t)strtoumax(text + 1, &end, 10);
            if (end == text + 1 || times == 0 || times > 1000000) cannot("this is no number of times");
            text = end;
        }
        while (--times > 0) {
            unsigned char *copy = room(NULL, bytes);
            memcpy(copy, all.bytes + group, bytes);
            append(&all, copy, bytes);
            free(copy);
        }
        if (*text == ' ') text++;
        else if (*text != '\0') cannot("two words have no space between");
    }
    return all;
}

static uint64_t fnv1a64(const unsigned char *bytes, size_t many)
{
    uint64_t hash = UINT64_C(0xcbf29ce484222325);
    size_t i;
    for (i = 0; i < many; i++) hash = (hash ^ bytes[i]) * UINT64_C(0x100000001b3);
    return hash;
}

/* A list as it is lent, with guards around it. */
static void lend(struct list *list, const char *text, size_t width)
{
    struct growing read;
    size_t bytes;
    memset(list, 0, sizeof *list);
    list->width = width;
    if (strcmp(text, "NULL") == 0) return;
    read = read_entries(text, width);
    bytes = read.used;
    list->length = bytes / width;
    list->block = room(NULL, bytes + 2 * GUARD_BYTES);
    list->due = room(NULL, bytes);
    memset(list->block, GUARD, bytes + 2 * GUARD_BYTES);
    if (bytes > 0) {
        memcpy(list->block + GUARD_BYTES, read.bytes, bytes);
        memcpy(list->due, read.bytes, bytes);
    }
    free(read.bytes);
}

/* What is due in it after the call. */
static void expect(struct list *list, char *text)
{
    if (strncmp(text, "fnv1a64 ", 8) == 0) {
        char *many = text + 8, *hash = rest_of(many), *end;
        if (number_in(many) != list->length || list->width != 1) cannot("a list has another length below the answer");
        list->hash = (uint64_t)strtoumax(hash, &end, 16);
        if (strlen(hash) != 16 || *end != '\0') cannot("this is no hash");
        list->hashed = 1;
    } else {
        struct growing read = read_entries(text, list->width);
        if (read.used != list->length * list->width || read.used == 0) cannot("a list has another length below the answer");
        memcpy(list->due, read.bytes, read.used);
        free(read.bytes);
    }
}

/* Where a name stands among the names of some parameters; -1 if nowhere. */
static int index_of(const char *const *names, const char *name)
{
    int i;
    for (i = 0; names[i] != NULL; i++) {
        if (strcmp(names[i], name) == 0) return i;
    }
    return -1;
}

/* ---- One case */

struct result {
    unsigned long tried, right;
    int told; /* a difference of this call is printed already */
};

static struct result results[MANY_CALLS];
static unsigned long too_wide; /* cases with a number that this machine's size_t has no room for */

/* Begins the words of a difference; 0 if those of this call are told already. */
static int differs(struct result *result, const struct call *call, const char *number, const char *words)
{
    if (result->told) return 0;
    result->told = 1;
    printf("differs: case %s, javendriky_%s (%s): ", number, call->name, words);
    return 1;
}

static void show_answer(uint32_t answer)
{
    if (answer < 1000000) printf("%" PRIu32, answer);
    else printf("%" PRIu32 ", which is refusal %" PRIu32 " with place %" PRIu32,
            answer, JAVENDRIKY_REFUSAL(answer), JAVENDRIKY_PLACE(answer));
}

static long entry(const unsigned char *bytes, size_t index, size_t width)
{
    int16_t value;
    if (width == 1) return bytes[index];
    memcpy(&value, bytes + index * width, sizeof value);
    return value;
}

/* Whether a list and its guards hold what they must; if not it is told. */
static int list_right(const struct list *list, const char *name, struct result *result, const struct call *call,
                      const char *number, const char *words)
{
    size_t i, bytes = list->length * list->width;
    const unsigned char *held;
    if (list->block == NULL) return 1;
    held = list->block + GUARD_BYTES;
    for (i = 0; i < GUARD_BYTES; i++) {
        int before = list->block[i] != GUARD;
        if (before || held[bytes + i] != GUARD) {
            if (differs(result, call, number, words))
                printf("a byte %s the list `%s` was altered\n", before ? "before" : "after the end of", name);
            return 0;
        }
    }
    if (list->hashed) {
        if (fnv1a64(held, bytes) == list->hash) return 1;
        if (differs(result, call, number, words))
            printf("the list `%s` must have the hash %016" PRIx64 ", has %016" PRIx64 "\n", name, list->hash, fnv1a64(held, bytes));
        return 0;
    }
    for (i = 0; i < list->length; i++) {
        long must = entry(list->due, i, list->width), is = entry(held, i, list->width);
        if (must != is) {
            if (differs(result, call, number, words))
                printf("entry %lu of the list `%s` must be %ld, is %ld\n", (unsigned long)i, name, must, is);
            return 0;
        }
    }
    return 1;
}

/* Makes the call and compares. */
static int made_right(const struct call *call, struct lent *lent, uint32_t due, struct result *result, const char *number,
                      const char *words)
{
    int i;
    uint32_t answer = call->make(lent);
    if (answer != due) {
        if (differs(result, call, number, words)) {
            printf("must answer ");
            show_answer(due);
            printf("; answers ");
            show_answer(answer);
            printf("\n");
        }
        return 0;
    }
    for (i = 0; call->lists[i] != NULL; i++) {
        if (!list_right(&lent->lists[i], call->lists[i], result, call, number, words)) return 0;
    }
    for (i = 0; call->pointers[i] != NULL; i++) {
        if (lent->pointers[i] != lent->pointers_due[i]) {
            if (differs(result, call, number, words))
                printf("the number behind `%s` must be %" PRIu32 ", is %" PRIu32 "\n",
                    call->pointers[i], lent->pointers_due[i], lent->pointers[i]);
            return 0;
        }
    }
    return 1;
}

/* What follows the name that the next line must have. */
static char *must_have(FILE *file, const char *name)
{
    char *line = next_line(file), *rest;
    if (line == NULL) cannot("the file ends within a case");
    rest = rest_of(line);
    if (strcmp(line, name) != 0) cannot("this line has not the name that is due here");
    return rest;
}

static uint32_t number_of_32_bits(const char *text)
{
    uint64_t value = number_in(text);
    if (value > UINT32_MAX) cannot("this number has more than 32 bits");
    return (uint32_t)value;
}

/* The case whose first line was read; it is tried unless only others are asked for. */
static void one_case(FILE *file, const struct call *call, const char *number, const char *words, int asked, FILE *at)
{
    struct lent lent;
    struct result *result = &results[call - CALLS];
    uint32_t due;
    int i, fits = 1;
    char *line;
    memset(&lent, 0, sizeof lent);
    for (i = 0; call->lists[i] != NULL; i++) {
        lend(&lent.lists[i], must_have(file, call->lists[i]), i == call->signed_list ? sizeof(int16_t) : 1);
    }
    for (i = 0; call->numbers[i] != NULL; i++) {
        lent.numbers[i] = number_in(must_have(file, call->numbers[i]));
        if (lent.numbers[i] > call->most[i]) {
            if (call->most[i] < SIZE_MAX) cannot("this number is larger than the call takes");
            fits = 0;
        }
    }
    for (i = 0; call->pointers[i] != NULL; i++) {
        lent.pointers[i] = lent.pointers_due[i] = number_of_32_bits(must_have(file, call->pointers[i]));
    }
    due = number_of_32_bits(must_have(file, "answer"));
    while ((line = next_line(file)) != NULL && *line != '\0') {
        char *rest = rest_of(line);
        if ((i = index_of(call->lists, line)) >= 0 && lent.lists[i].block != NULL) expect(&lent.lists[i], rest);
        else if ((i = index_of(call->pointers, line)) >= 0) lent.pointers_due[i] = number_of_32_bits(rest);
        else cannot("the call has no list of this name that it can write");
    }
    if (asked && !fits) too_wide++;
    if (asked && fits) {
        if (at != NULL) {
            rewind(at);
            fprintf(at, "%s javendriky_%s                \n", number, call->name);
            fflush(at);
        }
        result->tried++;
        if (made_right(call, &lent, due, result, number, words)) result->right++;
    }
    for (i = 0; i < MOST_LISTS; i++) {
        free(lent.lists[i].block);
        free(lent.lists[i].due);
    }
}

/* ---- All cases */

static int is_asked(char **asked, int many, const char *number)
{
    int i;
    for (i = 0; i < many; i++) {
        if (strtoul(asked[i], NULL, 10) == strtoul(number, NULL, 10)) return 1;
    }
    return many == 0;
}

int main(int argc, char **argv)
{
    FILE *file, *at = NULL;
    char *line;
    unsigned long tried = 0, right = 0;
    int i;
    setvbuf(stdout, NULL, _IOLBF, BUFSIZ); /* what is told is seen if a library ends the program */
    argv++;
    argc--;
    if (argc > 1 && strcmp(argv[0], "--at") == 0) {
        at = fopen(argv[1], "w");
        if (at == NULL) {
            fprintf(stderr, "calls: %s cannot be written\n", argv[1]);
            return 2;
        }
        argv += 2;
        argc -= 2;
    }
    if (argc < 1) {
        fprintf(stderr, "calls [--at FILE] CASES [NUMBER...]\n");
        return 2;
    }
    file_name = argv[0];
    file = fopen(file_name, "rb");
    if (file == NULL) {
        fprintf(stderr, "calls: %s cannot be read\n", file_name);
        return 2;
    }
    if (javendriky_version() != JAVENDRIKY_VERSION) {
        printf("differs: the library answers the version %" PRIu32 " of the calls, "
            "the header is of version %d: the header is another library's\n",
               javendriky_version(), JAVENDRIKY_VERSION);
        return 1;
    }
    while ((line = next_line(file)) != NULL) {
        char number[32], words[128], *name, *rest;
        if (*line == '\0' || *line == '#') continue;
        name = rest_of(line);
        if (strcmp(line, "case") != 0) cannot("a case must begin here");
        rest = rest_of(name); /* `name` is the case's number */
        (void)number_in(name);
        snprintf(number, sizeof number, "%s", name);
        name = rest;
        rest = rest_of(name);
        snprintf(words, sizeof words, "%s", rest);
        for (i = 0; i < MANY_CALLS && strcmp(CALLS[i].name, name) != 0; i++) continue;
        if (i == MANY_CALLS) cannot("there is no call of this name");
        one_case(file, &CALLS[i], number, words, is_asked(argv + 1, argc - 1, number), at);
    }
    fclose(file);
    if (at != NULL) {
        rewind(at);
        fprintf(at, "end                                        \n");
        fclose(at);
    }
    for (i = 0; i < MANY_CALLS; i++) {
        if (results[i].tried > 0) printf("%-16s%6lu of %lu\n", CALLS[i].name, results[i].right, results[i].tried);
        tried += results[i].tried;
        right += results[i].right;
    }
    if (too_wide > 0) printf("%lu cases have a number that size_t has no room for here, and were not tried\n", too_wide);
    if (tried == 0) {
        fprintf(stderr, "calls: no case was tried\n");
        return 2;
    }
    printf("%lu of %lu cases as they must be\n", right, tried);
    return right == tried ? 0 : 1;
}
