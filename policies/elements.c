/* elements: a station must say that it can do HT (IEEE 802.11-2016, 9.4.2.56: element 45).
 *
 * Hook: assoc. Maps: none.
 * The elements of a request follow its fixed fields: byte 28, or 34 in a reassociation request. At most 40 elements
 * are looked at. A station without HT is refused with status 10.
 *
 * The form of the loop is the one that the verifier goes through fast: the place is a number that is masked in each
 * turn, the pointer is made anew from it, and the very pointer that is read is tested.
 */
#include "apd_policy.h"

#define HT_CAPABILITIES 45

long policy(const u8 *frame, const u8 *end, const struct apd_context *context)
{
    u64 at = context->association.is_reassociation == 1 ? 34 : 28;

    for (int turn = 0; turn < 40; turn++) {
        const u8 *element, *behind;
        at &= 2047;
        KEEP(at);
        element = frame + at;
        KEEP(element);
        behind = element + 2;
        KEEP(behind);
        if (behind > end)
            break;
        if (element[0] == HT_CAPABILITIES)
            return APD_ADMIT;
        at += 2 + (u64)element[1];
        KEEP(at);
    }
    return APD_REFUSE_CAPABILITIES;
}
