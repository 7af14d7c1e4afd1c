/* dscp: the mark is the Differentiated Services code point of the packet (RFC 2474), 0 to 63.
 *
 * Hook: data. Maps: none.
 * IPv4 has it in the upper six bits of byte 1, IPv6 in bits 4 to 9 of the first two bytes. Frames that carry neither
 * pass with mark 0.
 */
#include "apd_policy.h"

long policy(const u8 *frame, const u8 *end, const struct apd_context *context)
{
    const u8 *body = apd_body(frame, context);

    if (body + APD_LLC_SNAP + 2 > end)
        return APD_PASS;

    const u8 *packet = body + APD_LLC_SNAP;
    u16 type = APD_BE16(body + 6);
    if (type == APD_IPV4)
        return APD_MARK(packet[1] >> 2);
    if (type == APD_IPV6)
        return APD_MARK((APD_BE16(packet) >> 6) & 63);
    return APD_PASS;
}
