/* table: a constant table with a variable index.
 *
 * Hook: data.
 * Gives: policy-hex.
 */
#include "../apd_policy.h"

long policy(const u8 *frame, const u8 *end, const struct apd_context *context)
{
    static const u64 marks[8] = {3, 1, 4, 1, 5, 9, 2, 6};
    return APD_MARK(marks[context->tid & 7]);
}
