/* unoptimised: a policy without optimisation.
 *
 * Hook: data.
 * Flags: -O0.
 * Gives: refused 38.
 */
#include "../apd_policy.h"

long policy(const u8 *frame, const u8 *end, const struct apd_context *context)
{
    const u8 *body = apd_body(frame, context);
    if (body + APD_LLC_SNAP > end)
        return APD_PASS;
    return APD_MARK(body[7]);
}
