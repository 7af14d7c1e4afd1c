/* other_pointer: another pointer is tested than the one that is read.
 *
 * Hook: data.
 * Gives: refused 32.
 */
#include "../apd_policy.h"

long policy(const u8 *frame, const u8 *end, const struct apd_context *context)
{
    const u8 *body = apd_body(frame, context);
    u64 at = context->data.number & 63;
    const u8 *p = body + at;
    KEEP(p);
    if (p + 2 > end)
        return APD_PASS;
    return APD_MARK(p[2]);
}
