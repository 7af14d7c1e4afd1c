/* extern_map: a map that is declared, and not made by APD_MAP.
 *
 * Hook: data.
 * Gives: policy-hex.
 */
#include "../apd_policy.h"

extern u64 counters;

long policy(const u8 *frame, const u8 *end, const struct apd_context *context)
{
    u64 *count = apd_lookup(&counters, 0);
    if (count)
        *count += 1;
    return APD_PASS;
}
