/* no_maps: a map without a configuration.
 *
 * Hook: data.
 * Gives: fault 19.
 */
#include "../apd_policy.h"

long policy(const u8 *frame, const u8 *end, const struct apd_context *context)
{
    u64 *word = APD_VALUE(0, 0);
    *word += 1;
    return APD_PASS;
}
