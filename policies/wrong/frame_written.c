/* frame_written: a write to the frame.
 *
 * Hook: data.
 * Gives: refused 31.
 */
#include "../apd_policy.h"

long policy(const u8 *frame, const u8 *end, const struct apd_context *context)
{
    if (frame + 30 > end)
        return APD_PASS;
    ((u8 *)frame)[29] = 0;
    return APD_PASS;
}
