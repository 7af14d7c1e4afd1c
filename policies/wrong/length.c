/* length: the length of the frame by subtraction.
 *
 * Hook: data.
 * Gives: refused 31.
 */
#include "../apd_policy.h"

long policy(const u8 *frame, const u8 *end, const struct apd_context *context)
{
    return end - frame < 30 ? APD_DROP : APD_PASS;
}
