/* counters: how many frames, and how many bytes, of each traffic identifier.
 *
 * Hook: data. Maps: 0, of 9 entries of 2 words of width 8, scope worker: by TID (8 for frames without one), frames and
 * bytes. Each worker counts in words of its own; `sum 0 INDEX 0` in a script gives the total.
 * A frame's length is found bit by bit, since a pointer cannot be subtracted from another. The verifier sees the place of
 * the last byte as a number below 4096 throughout, so that a step whose test fails leads to a state that includes the one
 * where it holds, and the ways through the steps are not told apart: 12 steps are 12 branches and not 4096 ways.
 */
#include "apd_policy.h"

/* 0, of which the verifier knows only that it is below 65536. */
static inline u64 unknown_zero(const struct apd_context *context)
{
    u64 number = context->data.number;
    u64 same = number;

    KEEP(same);
    return number ^ same;
}

static inline u64 length_of(const u8 *frame, const u8 *end, u64 zero)
{
    u64 last = zero & 4095;
#pragma clang loop unroll(full)
    for (int bit = 11; bit >= 0; bit--) {
        u64 later = last | 1ULL << bit;
        const u8 *byte;
        KEEP(later);
        byte = frame + later;
        KEEP(byte);
        if (byte < end)
            last = later;
    }
    return last + 1;
}

long policy(const u8 *frame, const u8 *end, const struct apd_context *context)
{
    u64 length = length_of(frame, end, unknown_zero(context));
    u64 *words = apd_lookup(APD_MAP(0), context->tid == APD_NO_TID ? 8 : context->tid);

    if (words) {
        words[0] += 1;
        words[1] += length;
    }
    return APD_PASS;
}
