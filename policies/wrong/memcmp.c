/* memcmp: a function of the C library.
 *
 * Hook: data.
 * Gives: policy-hex.
 */
#include "../apd_policy.h"

int memcmp(const void *, const void *, unsigned long);

long policy(const u8 *frame, const u8 *end, const struct apd_context *context)
{
    static const u8 ours[6] = {2, 0, 0, 0, 0, 10};
    if (frame + 16 > end)
        return APD_PASS;
    return memcmp(frame + 10, ours, 6) ? APD_DROP : APD_PASS;
}
