/* byte_29: one byte more is read than was tested.
 *
 * Hook: data.
 * Gives: refused 32.
 */
#include "../apd_policy.h"

long policy(const u8 *frame, const u8 *end, const struct apd_context *context)
{
    if (frame + 29 > end)
        return APD_PASS;
    return APD_MARK(frame[29]);
}
