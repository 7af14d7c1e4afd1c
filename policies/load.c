/* load: how many stations may be associated depends on the hour.
 *
 * Hook: assoc. Maps: none.
 * The clock begins with the access point, so hour 0 is the hour in which it was started. In the first eight hours of
 * each day a shard takes 50 stations, else 200. A station that comes back (a reassociation) is always taken.
 */
#include "apd_policy.h"

#define UNITS_OF_AN_HOUR 3515625ULL /* of 1024 microseconds */

long policy(const u8 *frame, const u8 *end, const struct apd_context *context)
{
    u64 hour = apd_now() / UNITS_OF_AN_HOUR % 24;
    u64 limit = hour < 8 ? 50 : 200;

    if (context->association.is_reassociation == 1)
        return APD_ADMIT;
    return apd_stations() < limit ? APD_ADMIT : APD_REFUSE_BUSY;
}
