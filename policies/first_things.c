/* first_things: frames without which nothing else works get mark 7: ARP and DHCP.
 *
 * Hook: data. Maps: none.
 * DHCP is UDP from port 68 (a client) behind an IPv4 header without options; clients send none. All else passes with
 * mark 0.
 */
#include "apd_policy.h"

#define DHCP_CLIENT 68

long policy(const u8 *frame, const u8 *end, const struct apd_context *context)
{
    const u8 *body = apd_body(frame, context);

    if (body + APD_LLC_SNAP > end || body[0] != 0xaa || body[1] != 0xaa || body[2] != 3)
        return APD_PASS;
    if (APD_BE16(body + 6) == APD_ARP)
        return APD_MARK(7);
    if (APD_BE16(body + 6) != APD_IPV4)
        return APD_PASS;

    const u8 *ip = body + APD_LLC_SNAP;
    if (ip + 28 > end || ip[0] != 0x45 || ip[9] != APD_UDP)
        return APD_PASS;
    return APD_BE16(ip + 20) == DHCP_CLIENT ? APD_MARK(7) : APD_PASS;
}
