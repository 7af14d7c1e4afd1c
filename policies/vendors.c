/* vendors: only stations of known makers may associate.
 *
 * Hook: assoc. Maps: none.
 * The first three octets of an address name the maker. A station whose address is administered locally (a phone that
 * hides its own, for example) has no maker and is refused with status 12, as are all others that are not listed.
 */
#include "apd_policy.h"

#define LOCALLY_ADMINISTERED 0x02

static inline int is_maker(const struct apd_context *context, u32 maker)
{
    const u8 *a = context->station;
    return (((u32)a[0] << 16) | ((u32)a[1] << 8) | a[2]) == maker;
}

long policy(const u8 *frame, const u8 *end, const struct apd_context *context)
{
    if (context->station[0] & LOCALLY_ADMINISTERED)
        return APD_REFUSE_NOT_HERE;
    if (is_maker(context, 0x00000c) || is_maker(context, 0x001018) || is_maker(context, 0x3c5ab4) ||
        is_maker(context, 0xb827eb))
        return APD_ADMIT;
    return APD_REFUSE_NOT_HERE;
}
