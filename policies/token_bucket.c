/* token_bucket: each station may send 64 frames at once and then one a unit of 1024 microseconds; what is above that
 * is dropped.
 *
 * Hook: data. Maps: 0, of 2008 entries of 2 words of width 8, shared: by association id, the tokens that are left and
 * the time of their count.
 * A station's frames are handled by one worker, so the two words of an entry have one writer.
 */
#include "apd_policy.h"

#define FULL 64

struct bucket {
    u64 spent; /* FULL less the tokens that are left: so that a bucket of zeros is a full one */
    u64 counted;
};

long policy(const u8 *frame, const u8 *end, const struct apd_context *context)
{
    u64 now = apd_now();
    struct bucket *bucket = apd_lookup(APD_MAP(0), context->aid);

    if (!bucket)
        return APD_DROP;

    u64 earned = now - bucket->counted;
    u64 spent = bucket->spent;
    spent = spent > earned ? spent - earned : 0;
    bucket->counted = now;
    if (spent >= FULL) {
        bucket->spent = spent;
        return APD_DROP;
    }
    bucket->spent = spent + 1;
    return APD_PASS;
}
