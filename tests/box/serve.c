/*
 * Makes the calls that forward.c sends, on the processor that this is compiled
 * for, and sends back what they answer and write: calls from standard input,
 * answers to standard output. It is linked with the library itself.
 *
 * Each slice lies in memory of its own between bytes that have to stay, and a
 * slice that may only be read has to stay too; a call that changes one of them
 * stops the process. At the end it tells how often each function was called.
 */
#include "calls.h"

#include <inttypes.h>
#include <stdio.h>
#include <stdlib.h>
#include <string.h>

/* Bytes before and behind a slice. */
#define GUARD 64

struct slice {
    unsigned char *memory; /* GUARD bytes, the slice, GUARD bytes */
    unsigned char *before; /* the slice as it was before the call */
    size_t room;
};

static unsigned char guard[GUARD];
static struct slice slices[MOST];
static struct call call;
static uint64_t counts[FUNCTIONS];

static void stop(const char *words)
{
    const char *name = call.function < FUNCTIONS ? names[call.function] : "?";

    fprintf(stderr, "serve: %s: %s\n", name, words);
    abort();
}

static void take(void *memory, size_t length)
{
    if (fread(memory, 1, length, stdin) != length)
        stop("the call is cut short");
}

static void give(const void *memory, size_t length)
{
    if (fwrite(memory, 1, length, stdout) != length)
        stop("the answer can't be sent");
}

static void take_slice(struct slice *slice, size_t length)
{
    if (slice->memory == NULL || slice->room < length) {
        slice->room = length;
        slice->memory = realloc(slice->memory, length + 2 * GUARD);
        slice->before = realloc(slice->before, length + 1);
        if (slice->memory == NULL || slice->before == NULL)
            stop("too little memory");
    }
    memcpy(slice->memory, guard, GUARD);
    memcpy(slice->memory + GUARD + length, guard, GUARD);
    take(slice->memory + GUARD, length);
    memcpy(slice->before, slice->memory + GUARD, length);
}

static void check_slice(const struct slice *slice, struct parameter parameter)
{
    const unsigned char *begin = slice->memory + GUARD;
    size_t length = bytes_of(parameter);

    if (memcmp(slice->memory, guard, GUARD) != 0)
        stop("wrote before a slice");
    if (memcmp(begin + length, guard, GUARD) != 0)
        stop("wrote behind a slice");
    if (parameter.what == READ && memcmp(begin, slice->before, length) != 0)
        stop("wrote to a slice that is only read");
}

/* A parameter of the call as an argument: its place chooses the memory. */
#define ARGUMENT(at, parameter) ARGUMENT_AT(at, FIELDS parameter)
#define FIELDS(what, type, name) what, type, name
#define ARGUMENT_AT(...) ARGUMENT_OF(__VA_ARGS__)
#define ARGUMENT_OF(at, what, type, name) ARGUMENT_##what(at, type)
#define ARGUMENT_NOTHING(at, type)
#define ARGUMENT_NUMBER(at, type) (type)call.parameters[at].number
#define ARGUMENT_READ(at, type) \
    (const type *)(const void *)(slices[at].memory + GUARD), ARGUMENT_NUMBER(at, size_t)
#define ARGUMENT_WRITE(at, type) \
    (type *)(void *)(slices[at].memory + GUARD), ARGUMENT_NUMBER(at, size_t)

#define MADE(count, result, name, ...) \
    case CALL_##name: \
        return (uint64_t)name(EACH_##count(ARGUMENT, __VA_ARGS__));

static uint64_t made(void)
{
    switch (call.function) {
        CALLS(MADE)
    }
    stop("there is no such function");
    return 0;
}

static void serve(void)
{
    uint64_t result;
    size_t i;

    for (i = 0; i < MOST; i++)
        if (call.parameters[i].what >= READ)
            take_slice(&slices[i], bytes_of(call.parameters[i]));
    result = made();
    for (i = 0; i < MOST; i++)
        if (call.parameters[i].what >= READ)
            check_slice(&slices[i], call.parameters[i]);
    give(&result, sizeof result);
    for (i = 0; i < MOST; i++)
        if (call.parameters[i].what == WRITE)
            give(slices[i].memory + GUARD, bytes_of(call.parameters[i]));
    if (fflush(stdout) != 0)
        stop("the answer can't be sent");
    counts[call.function]++;
}

int main(void)
{
    size_t i;

    memset(guard, 0xC5, GUARD);
    while (fread(&call, 1, 1, stdin) == 1) {
        take((unsigned char *)&call + 1, sizeof call - 1);
        serve();
    }
    for (i = 0; i < FUNCTIONS; i++)
        fprintf(stderr, "%12" PRIu64 " calls of %s\n", counts[i], names[i]);
    return 0;
}
