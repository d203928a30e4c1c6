/*
 * A library that is wrong: a payment posted to an account is a cent more than
 * it was. Linked into serve.c with -Wl,--wrap=hollupaq_post it shows that the
 * comparison of the other processor's library can fail.
 */
#include "hollupaq.h"

uint64_t __real_hollupaq_post(uint64_t *account, size_t words, uint8_t kind,
                              uint8_t option, uint32_t day, uint64_t amount);
uint64_t __wrap_hollupaq_post(uint64_t *account, size_t words, uint8_t kind,
                              uint8_t option, uint32_t day, uint64_t amount);

uint64_t __wrap_hollupaq_post(uint64_t *account, size_t words, uint8_t kind,
                              uint8_t option, uint32_t day, uint64_t amount)
{
    if (kind == HOLLUPAQ_PAYMENT)
        amount++;
    return __real_hollupaq_post(account, words, kind, option, day, amount);
}
