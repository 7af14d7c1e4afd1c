/* apd_policy.h: what a policy of apd needs to be written in C.
 *
 * A policy is one function
 *
 *     long policy(const u8 *frame, const u8 *end, const struct apd_context *context)
 *
 * that answers a verdict. It is the first function of its file, and all others are `static inline`. It may read the
 * frame where a test against `end` has shown that the bytes are there, the context, its stack and map values. It has
 * no data of its own: no table with a variable index, no `switch` that becomes one (the Makefile refuses both).
 * apd_context.h says what the policy is told, and what its verdicts are.
 */
#ifndef APD_POLICY_H
#define APD_POLICY_H

#include "apd_context.h"

typedef unsigned char u8;
typedef unsigned short u16;
typedef unsigned int u32;
typedef unsigned long long u64;
typedef long long s64;

/* ---- What a policy may ask -------------------------------------------------------------------------------------- */

/* The clock of the station's shard, in units of 1024 microseconds. */
static u64 (*const apd_now)(void) = (u64 (*)(void))2UL;
/* How many stations are associated in the station's shard, 0 to 2007, before this frame. */
static u64 (*const apd_stations)(void) = (u64 (*)(void))3UL;
/* The next number of the worker's sequence of draws. It is no source of secrets. */
static u64 (*const apd_draw)(void) = (u64 (*)(void))4UL;
/* Leaves a number in the notes of this run, of which the first 16 are kept. */
static u64 (*const apd_note)(u64 number) = (u64 (*)(u64))5UL;

/* Map NUMBER of the configuration, 0 to 15; only apd_lookup takes it. */
#define APD_MAP(NUMBER)                                                                                                \
    APD_EXTENSION({                                                                                                    \
        register void *apd_map_ __asm__("r1");                                                                         \
        __asm__ volatile(".byte 0x18, 0x51, 0, 0, " #NUMBER ", 0, 0, 0, 0, 0, 0, 0, 0, 0, 0, 0" : "=r"(apd_map_));     \
        apd_map_;                                                                                                      \
    })

/* The entry of that index, or 0 where the map has none: test it before it is used. */
static void *(*const apd_lookup)(void *map, u64 index) = (void *(*)(void *, u64))1UL;

/* The address of byte OFFSET (0 to 63) of entry 0 of map NUMBER. It is never 0. */
#define APD_VALUE(NUMBER, OFFSET)                                                                                      \
    APD_EXTENSION({                                                                                                    \
        register void *apd_value_ __asm__("r1");                                                                       \
        __asm__ volatile(".byte 0x18, 0x61, 0, 0, " #NUMBER ", 0, 0, 0, 0, 0, 0, 0, " #OFFSET ", 0, 0, 0"              \
                     : "=r"(apd_value_));                                                                              \
        apd_value_;                                                                                                    \
    })

/* Adds to a word that others may be adding to at the same time. A word is read and written in the map's width alone. */
#define APD_ADD(WORD, NUMBER) ((void)__sync_fetch_and_add((WORD), (NUMBER)))

/* ---- Reading frames --------------------------------------------------------------------------------------------- */

/* The compiler forgets what it knows of X. In a loop put it after each step that the verifier has to see. */
#define KEEP(X) __asm__ volatile("" : "+r"(X))

/* Numbers in network byte order, byte by byte: bytes of a frame need no alignment. */
#define APD_BE16(P) ((u16)(((u16)(P)[0] << 8) | (P)[1]))
#define APD_BE32(P) (((u32)APD_BE16(P) << 16) | APD_BE16((P) + 2))
#define APD_LE16(P) ((u16)(((u16)(P)[1] << 8) | (P)[0]))

/* The first byte behind the header of a data frame: 24 bytes, or 26 where it has a QoS Control field. */
static inline const u8 *apd_body(const u8 *frame, const struct apd_context *context)
{
    return context->tid == APD_NO_TID ? frame + 24 : frame + 26;
}

/* LLC/SNAP in front of what data frames carry: aa aa 03, an organization code of zeros, the EtherType. */
#define APD_LLC_SNAP 8
#define APD_IPV4 0x0800
#define APD_ARP 0x0806
#define APD_IPV6 0x86dd
#define APD_UDP 17

#endif
