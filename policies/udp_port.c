/* udp_port: what goes to UDP port 53 (DNS) gets mark 5, whatever the length of its IPv4 header.
 *
 * Hook: data. Maps: none.
 * The header's length stands in the header, so the place of the port is computed; the test against the frame's end is
 * on the very pointer that is read.
 */
#include "apd_policy.h"

#define DNS 53

long policy(const u8 *frame, const u8 *end, const struct apd_context *context)
{
    const u8 *body = apd_body(frame, context);

    if (body + APD_LLC_SNAP + 20 > end || APD_BE16(body + 6) != APD_IPV4)
        return APD_PASS;

    const u8 *ip = body + APD_LLC_SNAP;
    if (ip[9] != APD_UDP)
        return APD_PASS;

    u64 length = (ip[0] & 15) * 4;
    KEEP(length);
    const u8 *udp = ip + length;
    KEEP(udp);
    if (udp + 4 > end)
        return APD_PASS;
    return APD_BE16(udp + 2) == DNS ? APD_MARK(5) : APD_PASS;
}
