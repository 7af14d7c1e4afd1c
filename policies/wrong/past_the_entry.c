/* past_the_entry: an offset past the first entry of a map.
 *
 * Hook: data.
 * Maps: counters.toml.
 * Gives: fault 19.
 */
#include "../apd_policy.h"

long policy(const u8 *frame, const u8 *end, const struct apd_context *context)
{
    u64 *word = APD_VALUE(0, 64);
    *word += 1;
    return APD_PASS;
}
