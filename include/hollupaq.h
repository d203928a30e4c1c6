/*
 * Hollupaq: the standing of utility accounts, from a book file in memory, or of
 * an account that the caller keeps and posts to, one event at a time; and book
 * files made of account lists, and read back; and the bill of a meter reading,
 * and the reading that a sum pays for.
 *
 * The functions are those of the proved core in libhollupaq.a. Only pointers
 * with lengths, and numbers, cross the boundary. The functions keep no state
 * and no pointer and allocate nothing: a book lies in the caller's memory, and
 * so does an account. A book may be any bytes, and an account any words: what
 * is not in order is refused by a number.
 *
 * What is needed of the caller:
 *
 *   pointers   Each is aligned for its type, and valid for its length. None may
 *              be null, not even where its length is 0.
 *   lengths    They count elements: bytes of a book, words of an account. A
 *              length that does not fit is refused: of an account then nothing
 *              is read or written, of all other memory nothing is written.
 *   overlap    What a call reads and what it writes must not overlap, nor two
 *              pieces of memory that it writes.
 *   threads    Calls may run in several threads at once, as long as no memory
 *              that one of them writes is read or written by another: two may
 *              not post to the same account at once, nor may one ask it
 *              something while another posts to it.
 *   stack      HOLLUPAQ_STACK bytes are enough below the caller's frame. A
 *              signal handler that runs on the same stack needs its own.
 */
#ifndef HOLLUPAQ_H
#define HOLLUPAQ_H

#include <stddef.h>
#include <stdint.h>

#ifdef __cplusplus
extern "C" {
#endif

/*
 * The version of this header, major * 10000 + minor * 100 + patch: 1.6.0. The
 * library's own is told by hollupaq_version; where they differ, the header is
 * not of this library.
 */
#define HOLLUPAQ_VERSION 10600

uint64_t hollupaq_version(void);

/* Bytes of stack that are enough for any call. */
#define HOLLUPAQ_STACK 16384

/*
 * An answer from here on is an acceptance, or tells a value; one below it is a
 * refusal, or HOLLUPAQ_TOO_LITTLE of hollupaq_reading, or HOLLUPAQ_NO_CALENDAR
 * of hollupaq_working_days.
 */
#define HOLLUPAQ_ACCEPTED 256

/*
 * The numbers of the refusals. The rules are asked in the order of their
 * numbers, but for 24, which is asked after 5 and before 10; the first that
 * refuses an event gives the answer. Where a function says that it returns 0
 * when it is done, 0 is no refusal, nor is it where hollupaq_reading tells that
 * a sum is too little, or hollupaq_working_days that there is no calendar.
 */
enum {
    HOLLUPAQ_REFUSED_NO_ACCOUNT = 0,    /* the memory is no account */
    HOLLUPAQ_REFUSED_LATE_DAY = 1,      /* day after the last one, 73048 */
    HOLLUPAQ_REFUSED_EARLY_DAY = 2,     /* day before the last accepted event */
    HOLLUPAQ_REFUSED_FIELD = 3,         /* kind unknown or field out of range */
    HOLLUPAQ_REFUSED_CLOSED = 4,        /* the account is closed */
    HOLLUPAQ_REFUSED_SERVICE = 5,       /* service does not allow it */
    HOLLUPAQ_REFUSED_RECEIPT = 6,       /* no such payment can be returned */
    HOLLUPAQ_REFUSED_SUM = 7,           /* the sum does not fit */
    HOLLUPAQ_REFUSED_NOT_EARNED = 8,    /* the deposit is not earned */
    HOLLUPAQ_REFUSED_ARRANGEMENT = 9,   /* no arrears, or one is in force */
    HOLLUPAQ_REFUSED_LOW_ARREARS = 10,  /* arrears are under 50.00 dollars */
    HOLLUPAQ_REFUSED_NOTICE_LIVE = 11,  /* a final notice is live already */
    HOLLUPAQ_REFUSED_NO_NOTICE = 12,    /* no live notice that waited enough */
    HOLLUPAQ_REFUSED_NO_CALL = 13,      /* no call on the three days before */
    HOLLUPAQ_REFUSED_IN_FORCE = 14,     /* a payment arrangement is in force */
    HOLLUPAQ_REFUSED_CERTIFICATE = 15,  /* certificate live and not covered */
    HOLLUPAQ_REFUSED_ARREARS = 16,      /* arrears and no arrangement */
    HOLLUPAQ_REFUSED_LOW_DEPOSIT = 17,  /* less deposit held than required */
    HOLLUPAQ_REFUSED_OPEN_CHARGES = 18, /* 64 charges are open */
    HOLLUPAQ_REFUSED_TOTAL = 19,        /* charges or payments pass the limit */
    HOLLUPAQ_REFUSED_BOOK = 20,         /* length, header or table is wrong */
    HOLLUPAQ_REFUSED_RECORD = 21,       /* unknown kind or spare bytes not 0 */
    HOLLUPAQ_REFUSED_TOO_SHORT = 22,    /* the memory lent is too short */
    HOLLUPAQ_REFUSED_READING = 23,      /* no such class, or too much usage */
    HOLLUPAQ_REFUSED_CALENDAR = 24      /* day outside the account's calendar */
};

/* Service. A closed account is neither on nor off. */
enum {
    HOLLUPAQ_ON = 0,
    HOLLUPAQ_OFF = 1,
    HOLLUPAQ_CLOSED = 2
};

/* The kinds of events. A field of which a kind says nothing has to be 0. */
enum {
    HOLLUPAQ_BILL = 1,          /* amount in cents */
    HOLLUPAQ_PAYMENT = 2,       /* option: its till, 0 to 4; amount in cents */
    HOLLUPAQ_RETURNED = 3,      /* option: the till; amount: its receipt there */
    HOLLUPAQ_FEE = 4,           /* option: the number of the fee, 1 to 3 */
    HOLLUPAQ_DEPOSIT_ASKED = 5, /* amount in cents */
    HOLLUPAQ_DEPOSIT_PAID = 6,  /* amount in cents */
    HOLLUPAQ_DEPOSIT_MOVED = 7, /* of a deposit that is full and earned */
    HOLLUPAQ_PAYOUT = 8,        /* amount in cents */
    HOLLUPAQ_CERTIFICATE = 9,   /* amount: its days, 1 to 180, or from day 9497
                                   (1 January 2026) on 1 to 90 */
    HOLLUPAQ_APPROVAL = 10,     /* amount: its days, 1 to 30 */
    HOLLUPAQ_ARRANGEMENT = 11,  /* option: its parts, 2 to 6 */
    HOLLUPAQ_NOTICE = 12,
    HOLLUPAQ_CALL = 13,
    HOLLUPAQ_CUT = 14,
    HOLLUPAQ_RECONNECTION = 15, /* option: 0 in hours, 1 after hours */
    HOLLUPAQ_CLOSE = 16
};

/* The most accounts that a book can have. */
#define HOLLUPAQ_MOST_ACCOUNTS 1024

/* Bytes that are enough for the report of a book of so many accounts. */
#define HOLLUPAQ_REPORT_ROOM(accounts) (39 + 113 * (size_t)(accounts))

/*
 * The standing of a book's accounts, which have no calendar, as text: a header
 * line, then a line for each account with its index from 0, what is owed in
 * cents, the deposit held, the open items, service (on, off, closed) and how
 * many events were refused. A book that is not in order gives one line instead, `book refused 20` or
 * `book refused 21`. The text ends with a line feed and not with a zero byte.
 *
 *   book, book_len   the bytes of the book
 *   out, out_len     memory for the text
 *
 * Returns how many bytes of `out` the text took; those behind it are left as
 * they were. Returns 0, and leaves `out` as it was, where the text is longer
 * than `out_len`.
 */
uint64_t hollupaq_report(const uint8_t *book, size_t book_len,
                         uint8_t *out, size_t out_len);

/*
 * The answer to each event of one account, and what is owed after it.
 *
 *   book, book_len         the bytes of the book
 *   account                the index of the account, from 0; an index past the
 *                          last account is one without events
 *   numbers, numbers_len   for each event of the account, in order, 0 where it
 *                          is accepted, else the number (1 to 19) of the rule
 *                          that refuses it
 *   owed, owed_len         for each event, what is owed after it in cents,
 *                          negative where there is credit
 *
 * Returns 0 when this is done; what lies behind the account's events is left
 * as it was. Returns HOLLUPAQ_REFUSED_BOOK (20) or HOLLUPAQ_REFUSED_RECORD (21)
 * where the book is refused, and HOLLUPAQ_REFUSED_TOO_SHORT (22) where
 * `numbers` or `owed` has fewer places than the account has events; then
 * nothing is written.
 */
uint8_t hollupaq_history(const uint8_t *book, size_t book_len, size_t account,
                         uint8_t *numbers, size_t numbers_len,
                         int64_t *owed, size_t owed_len);

/*
 * The test of a book: how many accounts it has, and how many records they have
 * together. Returns HOLLUPAQ_ACCEPTED and that number added to it, or 20 or 21
 * where the book is refused.
 */
uint64_t hollupaq_book_accounts(const uint8_t *book, size_t book_len);
uint64_t hollupaq_book_records(const uint8_t *book, size_t book_len);

/*
 * An account list is five pieces of memory: how many records each account has
 * (counts), and the kinds, options, days and amounts of all records, one
 * account after the other. Each is lent as a pointer and a length in elements.
 */

/*
 * Reads the account list of a book, before any posting.
 *
 * Returns 0 when this is done; what lies behind the list is left as it was.
 * Returns 20 or 21 where the book is refused, and 22 where `counts` is shorter
 * than the book has accounts, or one of the others than it has records; then
 * nothing is written.
 */
uint8_t hollupaq_book_read(const uint8_t *book, size_t book_len,
                           uint32_t *counts, size_t counts_len,
                           uint8_t *kinds, size_t kinds_len,
                           uint8_t *options, size_t options_len,
                           uint32_t *days, size_t days_len,
                           uint64_t *amounts, size_t amounts_len);

/* The length of a book of so many accounts and records. */
#define HOLLUPAQ_BOOK_ROOM(accounts, records) \
    (8 + 8 * (size_t)(accounts) + 16 * (size_t)(records))

/*
 * Writes the book of an account list. What hollupaq_book_read gave is written
 * as the same book, byte for byte, and what this wrote is read as the same
 * list.
 *
 * Returns HOLLUPAQ_ACCEPTED and the length of the book added to it; what lies
 * behind the book is left as it was. Returns 20 where there are more accounts
 * than HOLLUPAQ_MOST_ACCOUNTS, where the counts do not add up to the records,
 * where the four pieces of the records differ in length, or where the book
 * would be longer than 4,294,967,295 bytes; 21 where a kind is unknown; and 22
 * where `out` is shorter than the book. Then nothing is written.
 */
uint64_t hollupaq_book_write(const uint32_t *counts, size_t counts_len,
                             const uint8_t *kinds, size_t kinds_len,
                             const uint8_t *options, size_t options_len,
                             const uint32_t *days, size_t days_len,
                             const uint64_t *amounts, size_t amounts_len,
                             uint8_t *out, size_t out_len);

/* How many words of 64 bits an account takes. */
#define HOLLUPAQ_WORDS 274

/*
 * The first word of every account: a million and the number of the layout. It
 * is above every day, with which accounts began before they had this word. It
 * counts on where the words of an account change, and where the rules change
 * which events are accepted: an account is made of those that its library
 * accepts.
 */
#define HOLLUPAQ_LAYOUT 1000005

/*
 * An account is HOLLUPAQ_WORDS words in the caller's memory,
 *
 *   uint64_t account[HOLLUPAQ_WORDS];
 *
 * lent to each call as a pointer and a length in words. Only hollupaq_fresh and
 * hollupaq_begin make one, and only hollupaq_post and hollupaq_post_at change
 * it: what the words hold is the library's own business, and nobody else writes
 * into them. Every word is set, by the calendar and the accepted events alone:
 * accounts begun alike, to which the same events were posted, are equal words.
 *
 * Any words may be lent, and every call tests them first, but for hollupaq_fresh
 * and hollupaq_begin.
 * Memory of another length or another layout, or whose words fail the test, is
 * no account, and is left alone. Not all words that the library did not leave
 * so fail it; what is said of such words means nothing, but does no harm.
 *
 * There is no pointer in an account, so that it may be copied as plain memory:
 * with memcpy, or into a file from which a library of the same HOLLUPAQ_LAYOUT
 * reads it back, on a machine of the same byte order. The book is the record:
 * accounts that were kept by another layout are refused and not misread, and
 * are rebuilt by posting all of the book's events again, each of which this
 * library answers by its own rules. hollupaq_book_read gives them, and the same
 * events make the same account. A book holds no calendar: an account that had
 * one is begun with it again.
 */

/*
 * How many words an account of the library takes. Where this is not
 * HOLLUPAQ_WORDS, the header and the library do not belong together.
 */
uint64_t hollupaq_words(void);

/*
 * Makes the memory an account without events: service on, all sums 0. Returns
 * 1 when this is done, and 0, with nothing written, where `words` is not
 * HOLLUPAQ_WORDS.
 */
uint8_t hollupaq_fresh(uint64_t *account, size_t words);

/* The days of a calendar, and how many words of 64 bits they take. */
#define HOLLUPAQ_CALENDAR_DAYS 2048
#define HOLLUPAQ_CALENDAR_WORDS 32

/*
 * Makes the memory an account without events that has a calendar: the 2,048
 * days from `first` on, a bit for each, in order of days, the lowest bit of the
 * first word first; a set bit is a working day. Day first + i is a working day
 * where bit i % 64 of bits[i / 64] is set. Any first day and any bits are taken;
 * no day after the largest comes round to 0. An account has its calendar for
 * good.
 *
 * With a calendar a disconnection wants at least five working days after the
 * day of its final notice, in place of five days: the day of the disconnection
 * is counted, that of the notice is not. A notice is live for twenty days as
 * without one. A notice or a disconnection on a day outside the calendar is
 * refused with HOLLUPAQ_REFUSED_CALENDAR.
 *
 * Returns 1 when this is done, and 0, with nothing written, where `words` is
 * not HOLLUPAQ_WORDS or `bits_len` not HOLLUPAQ_CALENDAR_WORDS.
 */
uint8_t hollupaq_begin(uint64_t *account, size_t words, uint32_t first,
                       const uint64_t *bits, size_t bits_len);

/*
 * Whether memory is an account, 1 or 0: its length is HOLLUPAQ_WORDS, its first
 * word HOLLUPAQ_LAYOUT, and its words pass the account's test.
 */
uint8_t hollupaq_ok(const uint64_t *account, size_t words);

/*
 * Posts one event, of any kind and any numbers. Day 0 is 1 January 2000.
 *
 * Returns HOLLUPAQ_ACCEPTED and the receipt of a payment (1, 2, ..) added to
 * it, or HOLLUPAQ_ACCEPTED alone for any other event. Returns a number below
 * it where the event is refused: that (1 to 19, or 24) of the rule, or
 * HOLLUPAQ_REFUSED_NO_ACCOUNT (0) where the memory is no account. Then nothing
 * is written.
 *
 * Each till counts its own receipts from 1. A returned payment names the till
 * and the receipt, which has to be among the newest 16 of that till.
 *
 * A deposit is earned from the same date one year after it became full, 1 March
 * for 29 February, with at most two final notices and no disconnection in the
 * last 365 days. A date after 31 December 2199 never comes; closing moves the
 * deposit, earned or not.
 */
uint64_t hollupaq_post(uint64_t *account, size_t words,
                       uint8_t kind, uint8_t option, uint32_t day,
                       uint64_t amount);

/*
 * The same on account i, counted from 0, of many that lie one after the other;
 * `words` is the length of all of them. The others are left as they were.
 * Returns 0, with nothing written, where there is no account i.
 */
uint64_t hollupaq_post_at(uint64_t *accounts, size_t words, size_t i,
                          uint8_t kind, uint8_t option, uint32_t day,
                          uint64_t amount);

/*
 * What hollupaq_post would answer to the event, with the account left alone: 0
 * where the memory is no account. A disconnection is lawful on a day exactly
 * where HOLLUPAQ_CUT would be accepted.
 */
uint64_t hollupaq_would_answer(const uint64_t *account, size_t words,
                               uint8_t kind, uint8_t option, uint32_t day,
                               uint64_t amount);

/* Whether an answer is an acceptance, 1 or 0. */
static inline int hollupaq_accepted(uint64_t answer)
{
    return answer >= HOLLUPAQ_ACCEPTED;
}

/* The receipt in an answer, 0 where it is not that of an accepted payment. */
static inline uint64_t hollupaq_receipt(uint64_t answer)
{
    return answer >= HOLLUPAQ_ACCEPTED ? answer - HOLLUPAQ_ACCEPTED : 0;
}

/*
 * What is owed in cents, negative where there is credit. This and the amounts
 * and counts below are 0 where the memory is no account.
 */
int64_t hollupaq_owed(const uint64_t *account, size_t words);

/* The deposit held, and the deposit required, in cents. */
uint64_t hollupaq_held(const uint64_t *account, size_t words);
uint64_t hollupaq_required(const uint64_t *account, size_t words);

/*
 * Service: HOLLUPAQ_ON (0), HOLLUPAQ_OFF (1) or HOLLUPAQ_CLOSED (2); closed too
 * where the memory is no account.
 */
uint32_t hollupaq_service(const uint64_t *account, size_t words);

/*
 * The open items, charges that are not paid in full: how many there are; and
 * the day of one, counted from 0 in the order posted, and the cents of it that
 * are still unpaid. Past the last one, both are 0.
 */
uint64_t hollupaq_open_count(const uint64_t *account, size_t words);
uint64_t hollupaq_open_day(const uint64_t *account, size_t words, size_t i);
uint64_t hollupaq_open_unpaid(const uint64_t *account, size_t words, size_t i);

/*
 * What the account says of a day: the arrears in cents, which are the unpaid
 * parts of the items that are 20 days old; and whether a payment arrangement
 * is in force, a final notice is live, a medical certificate is live.
 *
 * Returns HOLLUPAQ_ACCEPTED and the cents added to it, or HOLLUPAQ_ACCEPTED
 * and 1 for yes, HOLLUPAQ_ACCEPTED alone for no. Returns a number below it
 * where the day is refused, as that of an event is: HOLLUPAQ_REFUSED_LATE_DAY
 * (1) or HOLLUPAQ_REFUSED_EARLY_DAY (2); and 0 where the memory is no account.
 * hollupaq_accepted and hollupaq_told take such an answer apart.
 */
uint64_t hollupaq_arrears(const uint64_t *account, size_t words, uint32_t day);
uint64_t hollupaq_in_force(const uint64_t *account, size_t words, uint32_t day);
uint64_t hollupaq_notice_live(const uint64_t *account, size_t words,
                              uint32_t day);
uint64_t hollupaq_certified(const uint64_t *account, size_t words,
                            uint32_t day);

/* The answer of hollupaq_working_days where an account has no calendar. */
#define HOLLUPAQ_NO_CALENDAR 0

/*
 * The working days of the account's calendar after one day and up to another,
 * which is counted too: those that a notice of day `after` has waited on day
 * `to`. A day outside the calendar is none. Both may be any numbers.
 *
 * Returns HOLLUPAQ_ACCEPTED and the count added to it, or HOLLUPAQ_NO_CALENDAR
 * (0) where the account has no calendar or the memory is no account.
 * hollupaq_accepted says whether there is a count, and hollupaq_told which one:
 * ask the first as well, since no working days are told as 0 too.
 */
uint64_t hollupaq_working_days(const uint64_t *account, size_t words,
                               uint32_t after, uint32_t to);

/*
 * The bill of a reading: the cents that a customer of a class is charged for
 * so many kilowatt-hours, which is the amount to be posted as HOLLUPAQ_BILL.
 * The classes are 1 residential, 2 single phase, 3 three phase; the usage may
 * be 0 to 10,000,000.
 *
 * Returns HOLLUPAQ_ACCEPTED and the cents added to it, or
 * HOLLUPAQ_REFUSED_READING (23) for any other class or a larger usage.
 */
uint64_t hollupaq_bill(uint8_t rate_class, uint64_t usage);

/*
 * The lines of that bill, one for each block of the class's schedule, counted
 * from 0: the kilowatt-hours that lie in the block, and their price in
 * hundredths of a cent each. The lines fill up in order, and together they are
 * the usage. Both numbers are 0 past the last line, and where the bill is
 * refused.
 *
 * The bill of usage 0 is the basic charge. With the kilowatt-hours of each line
 * at its price, added up and rounded to a whole cent, half a cent up, it makes
 * the bill.
 */
uint64_t hollupaq_bill_used(uint8_t rate_class, uint64_t usage, size_t i);
uint64_t hollupaq_bill_price(uint8_t rate_class, uint64_t usage, size_t i);

/* The answer of hollupaq_reading where a sum pays for nothing. */
#define HOLLUPAQ_TOO_LITTLE 0

/*
 * The reading for a budget: the largest usage, 0 to 10,000,000 kilowatt-hours,
 * whose bill is at most a sum, in cents. Every larger usage costs more than the
 * sum, which may be any number.
 *
 * Returns HOLLUPAQ_ACCEPTED and the usage added to it; HOLLUPAQ_TOO_LITTLE (0)
 * where the sum is under the basic charge, which is the bill of usage 0; or
 * HOLLUPAQ_REFUSED_READING (23) for a class that is not 1 to 3.
 * hollupaq_accepted says whether there is a usage, and hollupaq_told which one:
 * ask the first as well, since usage 0 is told as 0 too.
 */
uint64_t hollupaq_reading(uint8_t rate_class, uint64_t sum);

/*
 * What an answer tells, the cents of a bill, the usage of a reading and a count
 * of working days too; 0 where it is a refusal, HOLLUPAQ_TOO_LITTLE or
 * HOLLUPAQ_NO_CALENDAR.
 */
static inline uint64_t hollupaq_told(uint64_t answer)
{
    return answer >= HOLLUPAQ_ACCEPTED ? answer - HOLLUPAQ_ACCEPTED : 0;
}

#ifdef __cplusplus
}
#endif

#endif
