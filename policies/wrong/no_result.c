/* no_result: a function that answers nothing.
 *
 * Hook: data.
 * Gives: refused 30.
 */
#include "../apd_policy.h"

static __attribute__((noinline)) void tell(u64 number)
{
    if (number > 100)
        apd_note(number);
    asm volatile("" ::: "r0");
}

long policy(const u8 *frame, const u8 *end, const struct apd_context *context)
{
    tell(context->aid);
    return APD_PASS;
}
