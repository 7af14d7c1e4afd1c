/* unoptimised_pointer: a pointer to the stack that a function is handed, without optimisation.
 *
 * Hook: data.
 * Flags: -O0.
 * Gives: refused 37.
 */
#include "../apd_policy.h"

static u64 sum_of(const u64 *numbers)
{
    return numbers[0] + numbers[1];
}

long policy(const u8 *frame, const u8 *end, const struct apd_context *context)
{
    u64 numbers[2] = {context->tid, context->aid};
    return sum_of(numbers) ? APD_PASS : APD_DROP;
}
