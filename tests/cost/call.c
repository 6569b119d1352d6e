/*
 * Makes one call of the library, and prints its number, what else it reported, how many bytes it was lent, and the bytes of
 * stack that it touched.
 *
 *     call CALL GRAMMAR STYLE LABEL LENGTH ROOM plain|painted < INPUT
 *
 * Only `write` has a use for the style and for the label. The input is a label of LABEL bytes and LENGTH bytes behind it: a
 * text, or data to write.
 * ROOM is how many bytes or numbers are lent, or `bound` for the room that the result of any input of that length fits.
 * `plain` makes the call on the program's own stack and prints 0 for it; `painted` makes it on another stack, which was filled
 * with one value, and counts from the lowest byte that has another value afterwards.
 */
#define _GNU_SOURCE
#include <stdint.h>
#include <stdio.h>
#include <stdlib.h>
#include <string.h>
#include <sys/mman.h>
#include <ucontext.h>

#include "zullifern.h"

/* The stack of a painted call, and what may not be touched below it: more than any input has. */
static const size_t STACK = (size_t)1 << 18;
static const size_t GUARD = (size_t)1 << 28;
static const int PAINT = 0xA5;

struct job;
typedef uint32_t made_call(struct job *);

/* A call, what it is given, and what it answered. */
struct job {
    made_call *make;
    uint32_t grammar;
    uint32_t style;
    uint8_t *label;
    size_t label_length;
    uint8_t *input;
    size_t length;
    void *lent;
    size_t room;
    size_t item;
    struct zullifern_report report;
    uint32_t number;
};

static uint32_t make_none(struct job *job) {
    return job->grammar;
}

static uint32_t make_read(struct job *job) {
    return zullifern_read(job->input, job->length, job->grammar, job->lent, job->room, &job->report);
}

static uint32_t make_label(struct job *job) {
    return zullifern_label(job->input, job->length, job->grammar, &job->report);
}

static uint32_t make_index(struct job *job) {
    return zullifern_index(job->input, job->length, job->grammar, job->lent, job->room, &job->report);
}

static uint32_t make_write(struct job *job) {
    return zullifern_write(job->label, job->label_length, job->input, job->length, job->style, job->lent, job->room,
                           &job->report);
}

static void stop(const char *why) {
    fprintf(stderr, "call: %s\n", why);
    exit(1);
}

static void *lend(size_t size) {
    void *lent = malloc(size);
    if (lent == NULL)
        stop("no memory");
    return lent;
}

/* Chooses a call by its name, and the room that its result always fits. */
static void choose(struct job *job, const char *name) {
    job->item = 1;
    if (strcmp(name, "read") == 0) {
        job->make = make_read;
        job->room = ZULLIFERN_READ_BOUND(job->length);
    } else if (strcmp(name, "label") == 0) {
        job->make = make_label;
    } else if (strcmp(name, "index") == 0) {
        job->make = make_index;
        job->room = ZULLIFERN_TABLE_BOUND(job->length);
        job->item = sizeof(uint32_t);
    } else if (strcmp(name, "write") == 0) {
        job->make = make_write;
        job->room = ZULLIFERN_WRITTEN_SIZE(job->label_length, job->length, job->style);
    } else {
        stop("there is no such call");
    }
}

/* So many bytes of the input. */
static uint8_t *taken(size_t length) {
    uint8_t *bytes = lend(length + 1);
    if (fread(bytes, 1, length, stdin) != length)
        stop("the input is shorter than it is said to be");
    return bytes;
}

/* What a painted call is made with. */
static struct job *painted_job;
static uint8_t *stack;
static uint8_t *lowest;
static ucontext_t caller;

/* Runs on the painted stack. It looks for the lowest byte itself, before anything else runs there. */
static void on_painted(void) {
    painted_job->number = painted_job->make(painted_job);
    lowest = stack;
    while (*lowest == PAINT)
        lowest++;
}

/* Makes a call on the painted stack, and answers how deep it went. */
static size_t depth(struct job *job) {
    ucontext_t own;
    memset(stack, PAINT, STACK);
    painted_job = job;
    if (getcontext(&own) != 0)
        stop("no context");
    own.uc_stack.ss_sp = stack;
    own.uc_stack.ss_size = STACK;
    own.uc_link = &caller;
    makecontext(&own, on_painted, 0);
    if (swapcontext(&caller, &own) != 0)
        stop("no context");
    return (size_t)(stack + STACK - lowest);
}

/* Makes a call on the painted stack, and answers the bytes that it touched beside those of an empty call. */
static size_t painted(struct job *job) {
    struct job none = {.make = make_none};
    uint8_t *region = mmap(NULL, GUARD + STACK, PROT_NONE, MAP_PRIVATE | MAP_ANONYMOUS | MAP_NORESERVE, -1, 0);
    if (region == MAP_FAILED || mprotect(region + GUARD, STACK, PROT_READ | PROT_WRITE) != 0)
        stop("no memory");
    stack = region + GUARD;
    size_t empty = depth(&none);
    return depth(job) - empty;
}

static void print(const struct job *job, size_t touched) {
    uint64_t told[sizeof job->report / sizeof(uint64_t)];
    memcpy(told, &job->report, sizeof told);
    printf("%u", job->number);
    for (size_t i = 1; i < sizeof told / sizeof told[0]; i++)
        printf(" %llu", (unsigned long long)told[i]);
    printf(" %zu %zu\n", job->room * job->item, touched);
}

int main(int count, char **words) {
    if (count != 8)
        stop("CALL GRAMMAR STYLE LABEL LENGTH ROOM plain|painted");
    size_t touched = 0;
    struct job job = {.grammar = (uint32_t)atoi(words[2]), .style = (uint32_t)atoi(words[3])};
    job.label_length = strtoull(words[4], NULL, 10);
    job.length = strtoull(words[5], NULL, 10);
    job.label = taken(job.label_length);
    job.input = taken(job.length);
    choose(&job, words[1]);
    if (strcmp(words[6], "bound") != 0)
        job.room = strtoull(words[6], NULL, 10);
    job.lent = lend(job.room * job.item + 1);
    if (strcmp(words[7], "painted") == 0)
        touched = painted(&job);
    else
        job.number = job.make(&job);
    print(&job, touched);
    return 0;
}
