/* unoptimised_lookup: an entry of which a copy is tested, without optimisation.
 *
 * Hook: data.
 * Flags: -O0.
 * Maps: token_bucket.toml.
 * Gives: refused 34.
 */
#include "../apd_policy.h"

long policy(const u8 *frame, const u8 *end, const struct apd_context *context)
{
    u64 *entry = apd_lookup(APD_MAP(0), 0);
    if (!entry)
        return APD_PASS;
    return *entry > 100 ? APD_DROP : APD_PASS;
}
