/* voice: packets of expedited forwarding (RFC 3246, code point 46) pass with mark 46, all others without; both are counted.
 *
 * Hook: data. Maps: 0, of 2 entries of 1 word of width 8, scope worker: all others, and voice.
 * Only IPv4 is looked at.
 */
#include "apd_policy.h"

#define VOICE 46

long policy(const u8 *frame, const u8 *end, const struct apd_context *context)
{
    const u8 *body = apd_body(frame, context);
    u64 is_voice = 0;

    if (body + APD_LLC_SNAP + 2 <= end && APD_BE16(body + 6) == APD_IPV4)
        is_voice = body[APD_LLC_SNAP + 1] >> 2 == VOICE;

    u64 *count = apd_lookup(APD_MAP(0), is_voice);
    if (count)
        *count += 1;
    return is_voice ? APD_MARK(VOICE) : APD_PASS;
}
