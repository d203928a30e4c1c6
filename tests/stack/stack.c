/*
 * How much stack the library's calls take. Each function of hollupaq.h is
 * called on a stack of this program's own, which is painted before the call:
 * how far down the paint is gone is what the call took. From the top of the
 * repository, once the library is built:
 *
 *   cc -std=c99 -O2 -Iinclude -o target/stack tests/stack/stack.c \
 *      target/staticlib/libhollupaq.a
 *   target/stack examples/sample.book examples/deposit-way.book ..
 *
 * The calls are made over the books named, over two books of 65,536 bytes, and
 * for their events over accounts that are kept, without a calendar and with
 * one. It prints the most that each function took, in bytes. The status is 0
 * only where that is within what the header promises, HOLLUPAQ_STACK, and where
 * an event of each kind was accepted on both, without which too little would
 * have been seen.
 */
#define _DEFAULT_SOURCE
#include "hollupaq.h"

#include <stdio.h>
#include <stdlib.h>
#include <string.h>
#include <sys/mman.h>
#include <ucontext.h>
#include <unistd.h>

enum {
    BOOK = 65536,          /* the longest book here, in bytes */
    RECORDS = BOOK / 16,   /* more than it can have */
    KEPT = 3,              /* accounts in one memory */
    ROOM = 2 * HOLLUPAQ_STACK / 8 /* words: a call that takes more is seen */
};

/* What the calls take and give. */
static uint8_t book[BOOK];
static size_t book_len;
static uint8_t text[HOLLUPAQ_REPORT_ROOM(HOLLUPAQ_MOST_ACCOUNTS)];
static size_t text_len;
static uint32_t counts[HOLLUPAQ_MOST_ACCOUNTS];
static uint8_t kinds[RECORDS], options[RECORDS];
static uint32_t days[RECORDS];
static uint64_t amounts[RECORDS];
static size_t accounts_count, records_count;
static uint8_t numbers[RECORDS];
static int64_t owed[RECORDS];
static uint64_t account[HOLLUPAQ_WORDS], kept[KEPT * HOLLUPAQ_WORDS];
static uint32_t first; /* day of the calendar: all its days are working days */
static uint64_t bits[HOLLUPAQ_CALENDAR_WORDS];
static size_t at;      /* an account, an open item, or a line of a bill */
static size_t record;  /* the event that is posted */
static uint64_t usage; /* of a reading */
static uint64_t sum;   /* for which a usage is wanted, in cents */
static uint8_t rate;   /* the class of the customer who names it */
static uint64_t answer;

#define OF_BOOK book, book_len
#define OF_LIST kinds, records_count, options, records_count, \
                days, records_count, amounts, records_count
#define OF_ACCOUNT account, HOLLUPAQ_WORDS
#define OF_EVENT kinds[record], options[record], days[record], amounts[record]

/* Every function of the header, and how it is called; a call of none first. */
#define EACH(F) \
    F(nothing, 0) \
    F(version, hollupaq_version()) \
    F(words, hollupaq_words()) \
    F(report, hollupaq_report(OF_BOOK, text, text_len)) \
    F(history, hollupaq_history(OF_BOOK, at, numbers, RECORDS, \
                                owed, RECORDS)) \
    F(book_accounts, hollupaq_book_accounts(OF_BOOK)) \
    F(book_records, hollupaq_book_records(OF_BOOK)) \
    F(book_read, hollupaq_book_read(OF_BOOK, \
                                    counts, HOLLUPAQ_MOST_ACCOUNTS, \
                                    kinds, RECORDS, options, RECORDS, \
                                    days, RECORDS, amounts, RECORDS)) \
    F(book_write, hollupaq_book_write(counts, accounts_count, OF_LIST, \
                                      book, BOOK)) \
    F(fresh, hollupaq_fresh(OF_ACCOUNT)) \
    F(begin, hollupaq_begin(OF_ACCOUNT, first, bits, \
                            HOLLUPAQ_CALENDAR_WORDS)) \
    F(would_answer, hollupaq_would_answer(OF_ACCOUNT, OF_EVENT)) \
    F(post, hollupaq_post(OF_ACCOUNT, OF_EVENT)) \
    F(post_at, hollupaq_post_at(kept, KEPT * HOLLUPAQ_WORDS, KEPT - 1, \
                                OF_EVENT)) \
    F(ok, hollupaq_ok(OF_ACCOUNT)) \
    F(owed, hollupaq_owed(OF_ACCOUNT)) \
    F(held, hollupaq_held(OF_ACCOUNT)) \
    F(required, hollupaq_required(OF_ACCOUNT)) \
    F(service, hollupaq_service(OF_ACCOUNT)) \
    F(open_count, hollupaq_open_count(OF_ACCOUNT)) \
    F(open_day, hollupaq_open_day(OF_ACCOUNT, at)) \
    F(open_unpaid, hollupaq_open_unpaid(OF_ACCOUNT, at)) \
    F(arrears, hollupaq_arrears(OF_ACCOUNT, days[record])) \
    F(in_force, hollupaq_in_force(OF_ACCOUNT, days[record])) \
    F(notice_live, hollupaq_notice_live(OF_ACCOUNT, days[record])) \
    F(certified, hollupaq_certified(OF_ACCOUNT, days[record])) \
    F(working_days, hollupaq_working_days(OF_ACCOUNT, first, days[record])) \
    F(bill, hollupaq_bill(3, usage)) \
    F(bill_used, hollupaq_bill_used(3, usage, at)) \
    F(bill_price, hollupaq_bill_price(3, usage, at)) \
    F(reading, hollupaq_reading(rate, sum))

#define CALL(name, call) \
    static void call_##name(void) { answer = (uint64_t)(call); }
#define INDEX(name, call) THE_##name,
#define FUNCTION(name, call) {"hollupaq_" #name, call_##name, 0},

EACH(CALL)
enum { EACH(INDEX) FUNCTIONS };
static struct {
    const char *name;
    void (*call)(void);
    size_t depth; /* the most seen, in bytes */
} functions[] = {EACH(FUNCTION)};

static const uint64_t paint = 0xa5c396e1d2b4780fu;
static uint64_t *stack; /* ROOM words, and below them a page to stop at */
static ucontext_t here, there;
static int now; /* the function that is measured */
static size_t accepted[2][17]; /* without a calendar and with, by kind */

static void fail(const char *what)
{
    fprintf(stderr, "stack: %s\n", what);
    exit(1);
}

/*
 * On the painted stack. The paint is looked at before the way back, which
 * takes stack as well.
 */
static void enter(void)
{
    size_t left = 0;

    functions[now].call();
    while (left < ROOM && stack[left] == paint)
        left++;
    if (functions[now].depth < 8 * (ROOM - left))
        functions[now].depth = 8 * (ROOM - left);
}

static void measure(int function)
{
    size_t i;

    for (i = 0; i < ROOM; i++)
        stack[i] = paint;
    if (getcontext(&there) != 0)
        fail("there is no getcontext here");
    there.uc_stack.ss_sp = stack;
    there.uc_stack.ss_size = 8 * ROOM;
    there.uc_link = &here;
    now = function;
    makecontext(&there, enter, 0);
    if (swapcontext(&here, &there) != 0)
        fail("there is no swapcontext here");
}

/*
 * Posts the events of one account, which begin at `from`, to kept ones. The
 * calendar begins with the first of them.
 */
static void keep(int with_calendar, size_t from, size_t events)
{
    size_t i;
    int question;

    first = days[from];
    measure(with_calendar ? THE_begin : THE_fresh);
    for (i = 0; i < KEPT; i++)
        memcpy(kept + i * HOLLUPAQ_WORDS, account, sizeof account);
    for (record = from; record < from + events; record++) {
        uint64_t expected;

        measure(THE_would_answer);
        expected = answer;
        measure(THE_post);
        if (answer != expected)
            fail("an answer is not the one foretold");
        if (hollupaq_accepted(answer))
            accepted[with_calendar][kinds[record]]++;
        measure(THE_post_at);
        if (answer != expected)
            fail("one of many answers otherwise than one alone");
        at = (size_t)hollupaq_open_count(account, HOLLUPAQ_WORDS) / 2;
        for (question = THE_ok; question <= THE_working_days; question++)
            measure(question);
    }
}

static void look_at_book(void)
{
    size_t i, from = 0;

    measure(THE_book_accounts);
    accounts_count = (size_t)(answer - HOLLUPAQ_ACCEPTED);
    measure(THE_book_records);
    records_count = (size_t)(answer - HOLLUPAQ_ACCEPTED);
    measure(THE_book_read);
    if (answer != 0)
        fail("a book is refused");
    text_len = sizeof text;
    measure(THE_report);
    text_len = (size_t)answer; /* so little that the lines are measured first */
    measure(THE_report);
    if (answer != text_len)
        fail("a report has another length in memory of its length");
    for (at = 0; at < accounts_count; at++)
        measure(THE_history);
    for (i = 0; i < accounts_count; i++) {
        keep(0, from, counts[i]);
        keep(1, from, counts[i]);
        from += counts[i];
    }
    measure(THE_book_write);
    if (answer != HOLLUPAQ_ACCEPTED + book_len)
        fail("a book is not written back");
}

/* Bills with usage in each block, and one that is refused. */
static void look_at_bills(void)
{
    static const uint64_t usages[] = {0, 15000, 60000, 10000000, 10000001};
    size_t i;

    for (i = 0; i < sizeof usages / sizeof usages[0]; i++) {
        usage = usages[i];
        measure(THE_bill);
        for (at = 0; at < 4; at++) {
            measure(THE_bill_used);
            measure(THE_bill_price);
        }
    }
}

/* Sums that pay for nothing, some usage and the largest, in each class. */
static void look_at_readings(void)
{
    static const uint64_t sums[] = {0, 1030, 1031, 8341, 390418, UINT64_MAX};
    size_t i;

    for (i = 0; i < sizeof sums / sizeof sums[0]; i++) {
        sum = sums[i];
        for (rate = 0; rate < 5; rate++)
            measure(THE_reading);
    }
}

/* A book of 65,536 bytes: all kinds but the last in turn, a day for each. */
static void make_book(size_t accounts)
{
    size_t n;

    accounts_count = accounts;
    records_count = (BOOK - HOLLUPAQ_BOOK_ROOM(accounts, 0)) / 16;
    for (n = 0; n < accounts; n++)
        counts[n] = (uint32_t)(records_count / accounts);
    counts[0] += (uint32_t)(records_count % accounts);
    for (n = 0; n < records_count; n++) {
        uint8_t kind = (uint8_t)(1 + n % 15);
        int fee = kind == HOLLUPAQ_FEE, parts = kind == HOLLUPAQ_ARRANGEMENT;
        int bare = kind == HOLLUPAQ_DEPOSIT_MOVED || kind >= HOLLUPAQ_NOTICE;

        kinds[n] = kind;
        options[n] = fee || parts ? 2 : 0;
        days[n] = (uint32_t)n;
        amounts[n] = fee || parts || bare ? 0 : 1 + n % 30;
    }
    measure(THE_book_write);
    if (answer != HOLLUPAQ_ACCEPTED + BOOK)
        fail("a long book can't be made");
    book_len = BOOK;
}

static void read_book(const char *name)
{
    FILE *file = fopen(name, "rb");

    if (file == NULL)
        fail(name);
    book_len = fread(book, 1, BOOK, file);
    if (ferror(file) || fgetc(file) != EOF)
        fail(name);
    fclose(file);
}

/* A stack of its own, with a page below it that nobody may touch. */
static void make_stack(void)
{
    size_t page = (size_t)sysconf(_SC_PAGESIZE);
    uint8_t *area = mmap(NULL, page + 8 * ROOM, PROT_READ | PROT_WRITE,
                         MAP_PRIVATE | MAP_ANONYMOUS, -1, 0);

    if (area == MAP_FAILED || mprotect(area, page, PROT_NONE) != 0)
        fail("there is no memory for a stack");
    stack = (uint64_t *)(void *)(area + page);
}

/* Prints what each function took, and returns the most. */
static size_t tell(void)
{
    size_t most = 0;
    int i;

    for (i = THE_nothing + 1; i < FUNCTIONS; i++) {
        size_t depth = functions[i].depth - functions[THE_nothing].depth;

        printf("%6lu %s\n", (unsigned long)depth, functions[i].name);
        if (most < depth)
            most = depth;
    }
    return most;
}

int main(int argc, char **argv)
{
    size_t most;
    int i, with, missing = 0;

    make_stack();
    memset(bits, 0xff, sizeof bits);
    measure(THE_nothing);
    measure(THE_version);
    measure(THE_words);
    look_at_bills();
    look_at_readings();
    make_book(1);
    look_at_book();
    make_book(1023);
    look_at_book();
    for (i = 1; i < argc; i++) {
        read_book(argv[i]);
        look_at_book();
    }

    most = tell();
    for (i = 1; i <= 16; i++) {
        for (with = 0; with < 2; with++) {
            if (accepted[with][i] == 0) {
                printf("no event of kind %d was accepted with%s calendar\n", i,
                       with ? " a" : "out");
                missing = 1;
            }
        }
    }
    printf("%lu bytes of stack at most, %lu promised\n", (unsigned long)most,
           (unsigned long)HOLLUPAQ_STACK);
    return most > HOLLUPAQ_STACK || missing;
}
