/* association_rate: at most 20 associations in each window of about ten seconds.
 *
 * Hook: assoc. Maps: 0, of 1 entry of 2 words of width 8, shared: the window's number, and how many it has had.
 * A storm of requests, as after a power cut, is answered with status 17, and the stations try again later. Two workers
 * that begin a window at the same time may let a few more through.
 */
#include "apd_policy.h"

#define WINDOW 10000ULL /* units of 1024 microseconds */
#define LIMIT 20

long policy(const u8 *frame, const u8 *end, const struct apd_context *context)
{
    u64 window = apd_now() / WINDOW;
    u64 *kept = APD_VALUE(0, 0);

    if (kept[0] != window) {
        kept[0] = window;
        kept[1] = 0;
    }
    return __sync_fetch_and_add(&kept[1], 1) < LIMIT ? APD_ADMIT : APD_REFUSE_BUSY;
}
