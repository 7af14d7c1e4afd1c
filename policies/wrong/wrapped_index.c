/* wrapped_index: a number that may have wrapped is added to the frame.
 *
 * Hook: data.
 * Gives: refused 32.
 */
#include "../apd_policy.h"

long policy(const u8 *frame, const u8 *end, const struct apd_context *context)
{
    u64 at = (apd_now() - 1) * 8;
    const u8 *p = frame + at;
    KEEP(p);
    if (p + 8 > end)
        return APD_PASS;
    return APD_MARK(p[7]);
}
