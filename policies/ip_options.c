/* ip_options: a packet with a source route (options 131 and 137 of RFC 791, 3.1) is dropped.
 *
 * Hook: data. Maps: none.
 * The options lie between byte 20 of the IPv4 header and its end, at most 40 bytes.
 */
#include "apd_policy.h"

#define LOOSE_SOURCE_ROUTE 131
#define STRICT_SOURCE_ROUTE 137

long policy(const u8 *frame, const u8 *end, const struct apd_context *context)
{
    const u8 *body = apd_body(frame, context);

    if (body + APD_LLC_SNAP + 20 > end || APD_BE16(body + 6) != APD_IPV4)
        return APD_PASS;

    const u8 *ip = body + APD_LLC_SNAP;
    u64 length = (ip[0] & 15) * 4;
    u64 at = 20;
    KEEP(length);
    for (int turn = 0; turn < 40; turn++) {
        const u8 *option, *behind;
        at &= 63;
        KEEP(at);
        if (at >= length)
            break;
        option = ip + at;
        KEEP(option);
        behind = option + 2;
        KEEP(behind);
        if (behind > end)
            break;
        if (option[0] == 0) /* the end of the list */
            break;
        if (option[0] == LOOSE_SOURCE_ROUTE || option[0] == STRICT_SOURCE_ROUTE)
            return APD_DROP;
        at += option[0] == 1 ? 1 : (u64)option[1]; /* 1 is one byte of padding */
        KEEP(at);
    }
    return APD_PASS;
}
