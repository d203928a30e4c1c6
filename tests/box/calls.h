/*
 * The calls of the static library as messages between two processes: forward.c
 * stands in for the library where the runner is, and sends each call to
 * serve.c, which makes it on another processor. Both are made of the one list
 * below, a line for each function of include/hollupaq.h.
 */
#ifndef CALLS_H
#define CALLS_H

#include "hollupaq.h"

/*
 * CALL(how many parameters, result, name, parameters). A parameter is a NUMBER;
 * a slice, which is a pointer and a length, that the function may only READ, or
 * may WRITE too; or NOTHING, where the function has none.
 */
#define CALLS(CALL) \
    CALL(1, uint64_t, hollupaq_version, (NOTHING, , )) \
    CALL(2, uint64_t, hollupaq_report, (READ, uint8_t, book), (WRITE, uint8_t, out)) \
    CALL(4, uint8_t, hollupaq_history, (READ, uint8_t, book), (NUMBER, size_t, account), \
         (WRITE, uint8_t, numbers), (WRITE, int64_t, owed)) \
    CALL(1, uint64_t, hollupaq_book_accounts, (READ, uint8_t, book)) \
    CALL(1, uint64_t, hollupaq_book_records, (READ, uint8_t, book)) \
    CALL(6, uint8_t, hollupaq_book_read, (READ, uint8_t, book), (WRITE, uint32_t, counts), \
         (WRITE, uint8_t, kinds), (WRITE, uint8_t, options), (WRITE, uint32_t, days), \
         (WRITE, uint64_t, amounts)) \
    CALL(6, uint64_t, hollupaq_book_write, (READ, uint32_t, counts), (READ, uint8_t, kinds), \
         (READ, uint8_t, options), (READ, uint32_t, days), (READ, uint64_t, amounts), \
         (WRITE, uint8_t, out)) \
    CALL(1, uint64_t, hollupaq_words, (NOTHING, , )) \
    CALL(1, uint8_t, hollupaq_fresh, (WRITE, uint64_t, account)) \
    CALL(3, uint8_t, hollupaq_begin, (WRITE, uint64_t, account), (NUMBER, uint32_t, first), \
         (READ, uint64_t, bits)) \
    CALL(1, uint8_t, hollupaq_ok, (READ, uint64_t, account)) \
    CALL(5, uint64_t, hollupaq_post, (WRITE, uint64_t, account), (NUMBER, uint8_t, kind), \
         (NUMBER, uint8_t, option), (NUMBER, uint32_t, day), (NUMBER, uint64_t, amount)) \
    CALL(6, uint64_t, hollupaq_post_at, (WRITE, uint64_t, accounts), (NUMBER, size_t, i), \
         (NUMBER, uint8_t, kind), (NUMBER, uint8_t, option), (NUMBER, uint32_t, day), \
         (NUMBER, uint64_t, amount)) \
    CALL(5, uint64_t, hollupaq_would_answer, (READ, uint64_t, account), (NUMBER, uint8_t, kind), \
         (NUMBER, uint8_t, option), (NUMBER, uint32_t, day), (NUMBER, uint64_t, amount)) \
    CALL(1, int64_t, hollupaq_owed, (READ, uint64_t, account)) \
    CALL(1, uint64_t, hollupaq_held, (READ, uint64_t, account)) \
    CALL(1, uint64_t, hollupaq_required, (READ, uint64_t, account)) \
    CALL(1, uint32_t, hollupaq_service, (READ, uint64_t, account)) \
    CALL(1, uint64_t, hollupaq_open_count, (READ, uint64_t, account)) \
    CALL(2, uint64_t, hollupaq_open_day, (READ, uint64_t, account), (NUMBER, size_t, i)) \
    CALL(2, uint64_t, hollupaq_open_unpaid, (READ, uint64_t, account), (NUMBER, size_t, i)) \
    CALL(2, uint64_t, hollupaq_arrears, (READ, uint64_t, account), (NUMBER, uint32_t, day)) \
    CALL(2, uint64_t, hollupaq_in_force, (READ, uint64_t, account), (NUMBER, uint32_t, day)) \
    CALL(2, uint64_t, hollupaq_notice_live, (READ, uint64_t, account), (NUMBER, uint32_t, day)) \
    CALL(2, uint64_t, hollupaq_certified, (READ, uint64_t, account), (NUMBER, uint32_t, day)) \
    CALL(3, uint64_t, hollupaq_working_days, (READ, uint64_t, account), (NUMBER, uint32_t, after), \
         (NUMBER, uint32_t, to)) \
    CALL(2, uint64_t, hollupaq_bill, (NUMBER, uint8_t, rate_class), (NUMBER, uint64_t, usage)) \
    CALL(3, uint64_t, hollupaq_bill_used, (NUMBER, uint8_t, rate_class), (NUMBER, uint64_t, usage), \
         (NUMBER, size_t, i)) \
    CALL(3, uint64_t, hollupaq_bill_price, (NUMBER, uint8_t, rate_class), (NUMBER, uint64_t, usage), \
         (NUMBER, size_t, i)) \
    CALL(2, uint64_t, hollupaq_reading, (NUMBER, uint8_t, rate_class), (NUMBER, uint64_t, sum))

/* The most parameters of a function, and `each` of them with its place. */
#define MOST 6
#define EACH_1(each, a) each(0, a)
#define EACH_2(each, a, b) EACH_1(each, a), each(1, b)
#define EACH_3(each, a, b, c) EACH_2(each, a, b), each(2, c)
#define EACH_4(each, a, b, c, d) EACH_3(each, a, b, c), each(3, d)
#define EACH_5(each, a, b, c, d, e) EACH_4(each, a, b, c, d), each(4, e)
#define EACH_6(each, a, b, c, d, e, f) EACH_5(each, a, b, c, d, e), each(5, f)

enum { NOTHING, NUMBER, READ, WRITE };

#define NUMBERED(count, result, name, ...) CALL_##name,
enum { CALLS(NUMBERED) FUNCTIONS };

#define NAMED(count, result, name, ...) #name,
static const char *const names[] = {CALLS(NAMED)};

/*
 * A call on its way: this, then the bytes of its slices, in order. The answer
 * is the result in 64 bits, then the bytes of the slices that may be written,
 * in order. Both processors have the same numbers in memory: 64 bits, the low
 * byte first.
 */
struct parameter {
    uint64_t what;   /* NOTHING, NUMBER, READ or WRITE */
    uint64_t size;   /* of an element of the slice, in bytes */
    uint64_t number; /* the number itself, or how many elements */
};

struct call {
    uint64_t function;
    struct parameter parameters[MOST];
};

/* How many bytes of a slice follow, 0 where the parameter is none. */
static inline size_t bytes_of(struct parameter parameter)
{
    return (size_t)(parameter.size * parameter.number);
}

#endif
