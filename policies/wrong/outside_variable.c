/* outside_variable: a variable outside of functions.
 *
 * Hook: data.
 * Gives: policy-hex.
 */
#include "../apd_policy.h"

static u64 seen;

long policy(const u8 *frame, const u8 *end, const struct apd_context *context)
{
    seen += 1;
    return seen > 100 ? APD_DROP : APD_PASS;
}
