/* global_function: a function that is not static, before the policy.
 *
 * Hook: data.
 * Gives: policy-hex.
 */
#include "../apd_policy.h"

long half(long number)
{
    return number >> 1;
}

long policy(const u8 *frame, const u8 *end, const struct apd_context *context)
{
    return half(context->aid) ? APD_PASS : APD_DROP;
}
