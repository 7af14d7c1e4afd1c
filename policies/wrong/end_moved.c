/* end_moved: a test that moves the end.
 *
 * Hook: data.
 * Gives: refused 31.
 */
#include "../apd_policy.h"

long policy(const u8 *frame, const u8 *end, const struct apd_context *context)
{
    const u8 *last = end;
    KEEP(last);
    last -= 30;
    KEEP(last);
    return frame > last ? APD_DROP : APD_PASS;
}
