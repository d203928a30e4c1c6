/*
 * Stands in for libhollupaq.a: every function of the library, which sends the
 * call to a process that the command in the environment variable HOLLUPAQ_BOX
 * starts, and waits for its answer. So a program that was compiled for this
 * processor, like the runner `compare`, calls the library of another one:
 *
 *   HOLLUPAQ_BOX='qemu-aarch64 target/aarch64/serve'
 *
 * A call that gets no answer ends the program: there is no result to give.
 */
#define _POSIX_C_SOURCE 200809L
#include "calls.h"

#include <errno.h>
#include <fcntl.h>
#include <pthread.h>
#include <signal.h>
#include <stdio.h>
#include <stdlib.h>
#include <sys/socket.h>
#include <sys/time.h>
#include <sys/wait.h>
#include <unistd.h>

/* No call takes a second; one that takes so many has no end. */
#define SECONDS 120

/* A parameter as the caller lends it. */
struct lent {
    struct parameter parameter;
    const void *memory;
    void *out;
};

static pthread_mutex_t lock = PTHREAD_MUTEX_INITIALIZER;
static pid_t box;
static FILE *to, *from;

static void give_up(const char *words)
{
    fprintf(stderr, "HOLLUPAQ_BOX: %s\n", words);
    _exit(3);
}

/* How the process ended: there is nothing to say where all is well. */
static const char *end_of_box(void)
{
    static char words[80];
    int status;

    if (waitpid(box, &status, 0) != box)
        return "the process was lost";
    if (WIFEXITED(status) && WEXITSTATUS(status) == 0)
        return NULL;
    if (WIFEXITED(status))
        snprintf(words, sizeof words, "the process ended with status %d",
                 WEXITSTATUS(status));
    else
        snprintf(words, sizeof words, "the process ended by signal %d",
                 WTERMSIG(status));
    return words;
}

/* A call got no answer. */
static void lost(uint64_t function)
{
    const char *end;
    int late = errno == EAGAIN || errno == EWOULDBLOCK;

    fprintf(stderr, "HOLLUPAQ_BOX: no answer to %s\n", names[function]);
    if (late) {
        kill(box, SIGKILL);
        give_up("the process takes too long");
    }
    end = end_of_box();
    give_up(end == NULL ? "the process ended" : end);
}

/* When the program ends, the process may still have something to say. */
static void finish(void)
{
    const char *end;

    shutdown(fileno(to), SHUT_WR);
    end = end_of_box();
    if (end != NULL)
        give_up(end);
}

static void run(const char *command, int end)
{
    char words[4096];

    snprintf(words, sizeof words, "exec %s", command);
    if (dup2(end, 0) == 0 && dup2(end, 1) == 1)
        execl("/bin/sh", "sh", "-c", words, (char *)NULL);
    _exit(127);
}

static void start(void)
{
    const char *command = getenv("HOLLUPAQ_BOX");
    const struct timeval limit = {SECONDS, 0};
    int ends[2];

    if (command == NULL)
        give_up("not set; it has to be the command that answers the calls");
    /* Writing to a process that is gone is an error to tell, not a signal. */
    signal(SIGPIPE, SIG_IGN);
    if (socketpair(AF_UNIX, SOCK_STREAM, 0, ends) != 0)
        give_up("no socket");
    /* What else the program starts must not hold the connection open. */
    fcntl(ends[0], F_SETFD, FD_CLOEXEC);
    fcntl(ends[1], F_SETFD, FD_CLOEXEC);
    setsockopt(ends[0], SOL_SOCKET, SO_RCVTIMEO, &limit, sizeof limit);
    setsockopt(ends[0], SOL_SOCKET, SO_SNDTIMEO, &limit, sizeof limit);
    box = fork();
    if (box == 0)
        run(command, ends[1]);
    close(ends[1]);
    to = fdopen(ends[0], "wb");
    from = fdopen(ends[0], "rb");
    if (box < 0 || to == NULL || from == NULL || atexit(finish) != 0)
        give_up("no process");
}

static void give(uint64_t function, const void *memory, size_t length)
{
    if (fwrite(memory, 1, length, to) != length)
        lost(function);
}

static void take(uint64_t function, void *memory, size_t length)
{
    if (fread(memory, 1, length, from) != length)
        lost(function);
}

static uint64_t forward(uint64_t function, const struct lent *lent)
{
    struct call call = {function, {{0, 0, 0}}};
    uint64_t result;
    size_t i;

    pthread_mutex_lock(&lock);
    if (box == 0)
        start();
    errno = 0;
    for (i = 0; i < MOST; i++)
        call.parameters[i] = lent[i].parameter;
    give(function, &call, sizeof call);
    for (i = 0; i < MOST; i++)
        give(function, lent[i].memory, bytes_of(lent[i].parameter));
    if (fflush(to) != 0)
        lost(function);
    take(function, &result, sizeof result);
    for (i = 0; i < MOST; i++)
        if (lent[i].parameter.what == WRITE)
            take(function, lent[i].out, bytes_of(lent[i].parameter));
    pthread_mutex_unlock(&lock);
    return result;
}

/* A parameter in the head of a function, and as it is lent. */
#define HEAD(at, parameter) HEAD_OF parameter
#define HEAD_OF(what, type, name) HEAD_##what(type, name)
#define HEAD_NOTHING(type, name) void
#define HEAD_NUMBER(type, name) type name
#define HEAD_READ(type, name) const type *name, size_t name##_len
#define HEAD_WRITE(type, name) type *name, size_t name##_len

#define LENT(at, parameter) LENT_OF parameter
#define LENT_OF(what, type, name) LENT_##what(type, name)
#define LENT_NOTHING(type, name) {{NOTHING, 0, 0}, NULL, NULL}
#define LENT_NUMBER(type, name) {{NUMBER, 0, name}, NULL, NULL}
#define LENT_READ(type, name) {{READ, sizeof(type), name##_len}, name, NULL}
#define LENT_WRITE(type, name) {{WRITE, sizeof(type), name##_len}, name, name}

/* The function itself: the header says whether its types are right. */
#define FORWARDED(count, result, name, ...) \
    result name(EACH_##count(HEAD, __VA_ARGS__)) \
    { \
        const struct lent lent[MOST] = {EACH_##count(LENT, __VA_ARGS__)}; \
        return (result)forward(CALL_##name, lent); \
    }

CALLS(FORWARDED)
