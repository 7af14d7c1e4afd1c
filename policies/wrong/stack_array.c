/* stack_array: an array on the stack with a variable index.
 *
 * Hook: data.
 * Gives: refused 32.
 */
#include "../apd_policy.h"

long policy(const u8 *frame, const u8 *end, const struct apd_context *context)
{
    u64 seen[8] = {0};
    seen[context->tid & 7] = context->aid;
    seen[context->data.number & 7] += 1;
    KEEP(context);
    return APD_MARK(seen[context->tid & 3]);
}
