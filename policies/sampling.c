/* sampling: one data frame in 256 leaves a note with its station's association id and sequence number.
 *
 * Hook: data. Maps: none.
 * A note is for whoever traces the policy; the frame passes either way.
 */
#include "apd_policy.h"

long policy(const u8 *frame, const u8 *end, const struct apd_context *context)
{
    if (apd_draw() >> 56 == 0)
        apd_note((u64)context->aid << 16 | context->data.number);
    return APD_PASS;
}
