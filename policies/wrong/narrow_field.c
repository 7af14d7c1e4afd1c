/* narrow_field: a field of 32 bits in a map of 64.
 *
 * Hook: data.
 * Maps: token_bucket.toml.
 * Gives: refused 33.
 */
#include "../apd_policy.h"

struct entry {
    u32 count;
    u32 spare;
};

long policy(const u8 *frame, const u8 *end, const struct apd_context *context)
{
    struct entry *entry = apd_lookup(APD_MAP(0), 0);
    if (!entry)
        return APD_PASS;
    entry->count += 1;
    return APD_PASS;
}
