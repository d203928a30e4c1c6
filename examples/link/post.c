/*
 * Keeps one account and posts a few events to it, through the static library.
 * From the top of the repository, once the library is built:
 *
 *   cc -std=c99 -Wall -Wextra -O2 -Iinclude -o target/post-c \
 *      examples/link/post.c target/staticlib/libhollupaq.a
 *   target/post-c
 *
 * It prints what is in examples/link/post.printed.
 */
#include "hollupaq.h"

#include <inttypes.h>
#include <stdio.h>

struct event {
    uint8_t kind;
    uint8_t option;
    uint32_t day;
    uint64_t amount;
};

/* Two bills, a payment, and a disconnection that no final notice announced. */
static const struct event events[] = {
    {HOLLUPAQ_BILL, 0, 100, 10000},
    {HOLLUPAQ_BILL, 0, 130, 5000},
    {HOLLUPAQ_PAYMENT, 0, 131, 4000},
    {HOLLUPAQ_CUT, 0, 131, 0},
};

static uint64_t account[HOLLUPAQ_WORDS];

static void post(struct event event)
{
    uint64_t answer = hollupaq_post(account, HOLLUPAQ_WORDS, event.kind,
                                    event.option, event.day, event.amount);

    printf("day %" PRIu32 ", kind %d: ", event.day, event.kind);
    if (!hollupaq_accepted(answer))
        printf("refused %" PRIu64, answer);
    else if (hollupaq_receipt(answer) != 0)
        printf("accepted, receipt %" PRIu64, hollupaq_receipt(answer));
    else
        printf("accepted");
    printf("; owed %" PRId64 "\n", hollupaq_owed(account, HOLLUPAQ_WORDS));
}

/* Before anybody is sent out: would a disconnection be accepted? */
static void ask_for_cut(uint32_t day)
{
    uint64_t answer = hollupaq_would_answer(account, HOLLUPAQ_WORDS,
                                            HOLLUPAQ_CUT, 0, day, 0);

    printf("day %" PRIu32 ": a cut would be ", day);
    if (hollupaq_accepted(answer))
        printf("accepted\n");
    else
        printf("refused %" PRIu64 "\n", answer);
}

static const char *service(void)
{
    switch (hollupaq_service(account, HOLLUPAQ_WORDS)) {
    case HOLLUPAQ_ON:
        return "on";
    case HOLLUPAQ_OFF:
        return "off";
    default:
        return "closed";
    }
}

int main(void)
{
    size_t i;

    if (hollupaq_version() != HOLLUPAQ_VERSION) {
        fprintf(stderr, "post-c: hollupaq.h is version %d, the library %" PRIu64
                "\n", HOLLUPAQ_VERSION, hollupaq_version());
        return 1;
    }
    hollupaq_fresh(account, HOLLUPAQ_WORDS);
    for (i = 0; i < sizeof events / sizeof events[0]; i++) {
        if (events[i].kind == HOLLUPAQ_CUT)
            ask_for_cut(events[i].day);
        post(events[i]);
    }
    for (i = 0; i < hollupaq_open_count(account, HOLLUPAQ_WORDS); i++)
        printf("open: %" PRIu64 " of day %" PRIu64 "\n",
               hollupaq_open_unpaid(account, HOLLUPAQ_WORDS, i),
               hollupaq_open_day(account, HOLLUPAQ_WORDS, i));
    printf("service: %s\n", service());
    return fflush(stdout) == 0 ? 0 : 1;
}
