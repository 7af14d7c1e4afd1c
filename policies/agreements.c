/* agreements: how many frames a block acknowledgement agreement may hold, by traffic identifier.
 *
 * Hook: addba. Maps: none.
 * Voice (TID 6 and 7) loses more by waiting than by a gap, so it gets no agreement. Video (4 and 5) gets 16 frames,
 * all else 64; never more than was asked.
 */
#include "apd_policy.h"

long policy(const u8 *frame, const u8 *end, const struct apd_context *context)
{
    if (context->tid >= 6)
        return APD_DECLINE;
    if (context->tid >= 4)
        return APD_WINDOW(16);
    return APD_WINDOW(64);
}
