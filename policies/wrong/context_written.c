/* context_written: a write to the context.
 *
 * Hook: data.
 * Gives: refused 31.
 */
#include "../apd_policy.h"

long policy(const u8 *frame, const u8 *end, const struct apd_context *context)
{
    ((struct apd_context *)context)->tid = 0;
    return APD_PASS;
}
