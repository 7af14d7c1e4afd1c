/*
 * apd.h - the verifier, the machine and the link of apd, for programs in C (C99 to C23) and C++ (C++11 to C++20).
 *
 * Link with libapd.a. Its code is proved (crates/apd_c): what a call that answers 0 has done; that one which answers
 * another number changed nothing; and when each of 90 to 93 and 95 is answered, so that a call for which none of them is
 * due answers 0, or why code, a certificate or memory is refused. That memory isn't refused where there is some is tested,
 * not proved. The proofs begin at the functions named apd_c_*; the inline functions of this header test pointers for NULL,
 * which alone is answered by 94, and are C like any other.
 *
 * What the caller keeps, without which nothing is promised:
 *  - Memory: a pointer leads to as many values as the count beside it says, which are initialized and which nothing else
 *    writes during the call. The library keeps no pointer: what is passed need only stand while the call runs.
 *  - Handles: a handle is zero (APD_EMPTY) or as a call left it. Neither field is changed, no full handle is copied and
 *    used twice, and each is freed by apd_free.
 *  - Threads: there is one call at a time on a handle. Any thread may make it, once a lock, a thread's start or join, or a
 *    sequentially consistent atomic has put the call before it first. Handles are apart from each other: threads may call
 *    at the same time, each with handles of its own.
 *  - No call is made from a signal handler, or from the forked child of a process with threads.
 *  - Memory comes from malloc and goes by free, which are those of one allocator and align as the C standard says.
 */
#ifndef APD_H
#define APD_H

#include <stdbool.h>
#include <stddef.h>
#include <stdint.h>
#include <string.h>

#include "apd_context.h"

#ifdef __cplusplus
extern "C" {
#endif

/* The version of the library and of `apd`. */
#define APD_VERSION "0.1.0"

/* The numbers that calls answer. What is refused changes nothing. */
enum apd_number {
    APD_OK = 0,
    /* Code that is no program (RFC 9669, section 3). */
    APD_LENGTH = 1,          /* its length is no multiple of 8 */
    APD_NO_CODE = 2,         /* there are no bytes */
    APD_LONG = 3,            /* there are more than 16384 slots */
    APD_FIELD_FIRST = 10,    /* 10 to 14: the slots spell no instruction */
    APD_FIELD_LAST = 14,
    APD_JUMP_ASTRAY = 15,    /* a jump leads outside the code or into a second half */
    APD_PAST_END = 16,       /* the last instruction goes on */
    APD_FRAME_WRITTEN = 17,  /* it writes R10 */
    APD_UNKNOWN_HELPER = 18, /* no such helper */
    APD_UNKNOWN_MAP = 19,    /* no such map */
    /* 30 to 38: what the verifier refuses; docs/REFUSALS.md explains each. */
    APD_REFUSED_FIRST = 30,
    APD_TOO_MUCH = 36, /* it would examine too many states, or take more work than its limit */
    APD_REFUSED_LAST = 38,
    APD_NO_MEMORY = 40,
    APD_NO_SEAT = 62,        /* no seat at a map is left */
    /* Certificates. */
    APD_MALFORMED = 70,      /* its bytes spell none */
    APD_OTHER_CODE = 71,     /* it is for another hook or another code */
    APD_NOT_COVERED = 72,    /* it doesn't show that the program is safe */
    /* Calls that ask for what isn't there. */
    APD_OUT_OF_LIMITS = 90,  /* an argument is out of its limits */
    APD_OTHER_VALUE = 91,    /* a handle holds nothing, or another value than the call asks for */
    APD_NOT_EMPTY = 92,      /* the handle that is to be filled isn't empty */
    APD_OTHER_MAPS = 93,     /* the program is for maps of other shapes */
    APD_NULL = 94,           /* a pointer is NULL, or one handle is passed twice */
    APD_OTHER_HOOK = 95      /* the program was verified for another hook, or the context is another hook's */
};

enum { APD_FRAME_MOST = 2400, APD_NOTES_MOST = 16, APD_STATIONS_MOST = 2007 };

enum apd_kind { APD_NOTHING = 0, APD_SEND = 1, APD_UP = 2, APD_NOTE = 3 };

/* A program, maps, bytes, an access point or its outs; empty where it is zero. */
typedef struct apd_handle {
    bool full;
    void *at;
} apd_handle;

#ifdef __cplusplus
#define APD_EMPTY apd_handle()
#else
#define APD_EMPTY ((apd_handle){false, NULL})
#endif

/* 0, or the number of a refusal with the slot at which it stands; slot 0 where it stands at none. */
typedef struct apd_answer {
    uint32_t number;
    size_t slot;
} apd_answer;

/* A map's shape: 1 to 4096 entries of 1 to 8 words of 4 or 8 bytes. There are at most 16 maps. */
typedef struct apd_shape {
    uint32_t entries, words, width;
} apd_shape;

/* A word that was loaded, where number is 0. */
typedef struct apd_loaded {
    uint32_t number;
    uint64_t value;
} apd_loaded;

/* What a program is given beside its frame and its maps. */
typedef struct apd_given {
    uint64_t clock;
    uint16_t stations;   /* at most 2007 */
    uint8_t context[32]; /* the bytes of a struct apd_context; byte 6 is the hook's number */
} apd_given;

/* What a run came to, where number is 0. */
typedef struct apd_report {
    uint32_t number, steps;
    uint64_t r0;
    size_t count; /* of notes */
    uint64_t notes[APD_NOTES_MOST];
} apd_report;

/* What an access point is made with: its address, its network's name, and its supported rates. */
typedef struct apd_network {
    uint8_t bssid[6];
    uint8_t name_length; /* at most 32 */
    uint8_t name[32];
    uint8_t rate_count; /* 1 to 8 */
    uint8_t rates[8];
} apd_network;

/* A station, by its address. */
typedef struct apd_station {
    uint8_t octets[6];
} apd_station;

/* A station that an access point knows: state 2 is authenticated, 3 is associated, with an association identifier from 1
   to 2007; 0 is for no station. */
typedef struct apd_standing {
    apd_station station;
    uint8_t state;
    uint16_t aid;
} apd_standing;

/* A block acknowledgement agreement in force. */
typedef struct apd_agreement {
    apd_station station;
    uint8_t tid;
    uint16_t start;   /* its window's first number, which is awaited next */
    uint16_t size;    /* how many numbers the window has, 1 to 64; 0 is for no agreement */
    uint16_t timeout; /* in units of 1024 microseconds; 0 for none */
    size_t held;      /* how many numbers it holds, dropped ones included */
} apd_agreement;

/* What came out of an event, but for its bytes. What a kind doesn't have is 0. */
typedef struct apd_out {
    uint32_t kind; /* APD_SEND: a frame to be sent; APD_UP: data to be passed up; APD_NOTE */
    size_t length; /* of the frame or the data */
    uint64_t user; /* the caller's own number of the event */
    uint8_t source[6], destination[6];
    uint16_t number; /* the data's sequence number */
    uint8_t tid;     /* APD_NO_TID where the data has none */
    uint8_t mark;    /* by the program for data */
    uint8_t note;    /* 50 to 55: no frame; 56: not for this access point; 63: an unknown station */
} apd_out;

/* The proved functions. No pointer is NULL, and no handle is passed twice to one call. */
apd_answer apd_c_verify(apd_handle *code, uint32_t hook, const uint8_t *bytes, size_t length, const apd_shape *shapes,
                        size_t maps);
apd_answer apd_c_verify_within(apd_handle *code, uint32_t hook, const uint8_t *bytes, size_t length,
                               const apd_shape *shapes, size_t maps, uint32_t states);
apd_answer apd_c_verify_limited(apd_handle *code, uint32_t hook, const uint8_t *bytes, size_t length,
                                const apd_shape *shapes, size_t maps, uint32_t states, uint64_t work);
uint32_t apd_c_budget(apd_handle *code);
apd_answer apd_c_certify(apd_handle *certificate, apd_handle *code);
apd_answer apd_c_check(apd_handle *code, uint32_t hook, const uint8_t *bytes, size_t length, const apd_shape *shapes,
                       size_t maps, const uint8_t *certificate, size_t certificate_length);
apd_answer apd_c_check_within(apd_handle *code, uint32_t hook, const uint8_t *bytes, size_t length,
                              const apd_shape *shapes, size_t maps, const uint8_t *certificate,
                              size_t certificate_length, uint64_t work);
size_t apd_c_why(uint32_t hook, const uint8_t *bytes, size_t length, const apd_shape *shapes, size_t maps,
                 uint32_t states, uint8_t *into, size_t room);
size_t apd_c_read(apd_handle *bytes, uint8_t *into, size_t room);
uint32_t apd_c_maps(apd_handle *maps, const apd_shape *shapes, size_t count, uint64_t draw);
apd_loaded apd_c_load(apd_handle *maps, uint32_t map, uint32_t word);
uint32_t apd_c_store(apd_handle *maps, uint32_t map, uint32_t word, uint64_t value);
apd_loaded apd_c_exchange(apd_handle *maps, uint32_t map, uint32_t word, uint64_t value);
apd_loaded apd_c_fetch_add(apd_handle *maps, uint32_t map, uint32_t word, uint64_t value);
apd_loaded apd_c_fetch_or(apd_handle *maps, uint32_t map, uint32_t word, uint64_t value);
apd_loaded apd_c_fetch_and(apd_handle *maps, uint32_t map, uint32_t word, uint64_t value);
apd_loaded apd_c_fetch_xor(apd_handle *maps, uint32_t map, uint32_t word, uint64_t value);
apd_loaded apd_c_compare_exchange(apd_handle *maps, uint32_t map, uint32_t word, uint64_t expected, uint64_t next);
void apd_c_run(apd_handle *code, apd_handle *maps, const uint8_t *frame, size_t length, const apd_given *given,
               apd_report *report);
uint32_t apd_c_link(apd_handle *link, const apd_network *network, const apd_shape *shapes, size_t maps);
uint32_t apd_c_link_load(apd_handle *link, uint32_t hook, apd_handle *code);
uint32_t apd_c_link_unload(apd_handle *link, uint32_t hook);
uint32_t apd_c_link_frame(apd_handle *link, apd_handle *maps, apd_handle *outs, const uint8_t *bytes, size_t length,
                          uint64_t user);
uint32_t apd_c_link_frame_into(apd_handle *link, apd_handle *maps, apd_handle *outs, const uint8_t *bytes, size_t length,
                               uint64_t user);
uint32_t apd_c_link_tick(apd_handle *link, apd_handle *maps, apd_handle *outs, uint32_t units, uint64_t user);
uint32_t apd_c_link_kick(apd_handle *link, apd_handle *maps, apd_handle *outs, const apd_station *station,
                         uint16_t reason, uint64_t user);
uint32_t apd_c_link_close(apd_handle *link, apd_handle *maps, apd_handle *outs, const apd_station *station,
                          uint8_t tid, uint64_t user);
uint32_t apd_c_link_stations(apd_handle *link, apd_handle *stations);
uint32_t apd_c_link_agreements(apd_handle *link, apd_handle *agreements);
size_t apd_c_stations(apd_handle *stations);
apd_standing apd_c_station(apd_handle *stations, size_t at);
size_t apd_c_agreements(apd_handle *agreements);
apd_agreement apd_c_agreement(apd_handle *agreements, size_t at);
size_t apd_c_outs(apd_handle *outs);
apd_out apd_c_out(apd_handle *outs, size_t at);
size_t apd_c_out_bytes(apd_handle *outs, size_t at, uint8_t *into, size_t room);
size_t apd_c_explain(uint32_t number, uint8_t *into, size_t room);
void apd_c_free(apd_handle *handle);

/* How the functions below are defined; apd_shared.c makes exports of a shared library of them. */
#ifndef APD_INLINE
#define APD_INLINE static inline
#endif

/* What is pointed to where there is nothing: no pointer is NULL, also for no values. */
static const uint64_t apd_none[2] = {0, 0};

static inline const uint8_t *apd_some_bytes(const uint8_t *bytes)
{
    return bytes ? bytes : (const uint8_t *)apd_none;
}

static inline const apd_shape *apd_some_shapes(const apd_shape *shapes)
{
    return shapes ? shapes : (const apd_shape *)(const void *)apd_none;
}

static inline apd_answer apd_answer_of(uint32_t number)
{
    apd_answer answer = {number, 0};
    return answer;
}

/* Verifies code for a hook and maps of these shapes, and fills an empty handle with the program. */
APD_INLINE apd_answer apd_verify(apd_handle *code, uint32_t hook, const uint8_t *bytes, size_t length,
                                    const apd_shape *shapes, size_t maps)
{
    if (!code || (!bytes && length) || (!shapes && maps))
        return apd_answer_of(APD_NULL);
    return apd_c_verify(code, hook, apd_some_bytes(bytes), length, apd_some_shapes(shapes), maps);
}

/* The same, where at most so many states are examined, which bounds the time and the memory that a stranger's program
   takes: one that has more is refused with 36. 0 is for no limit but the verifier's own, of 4194304. */
APD_INLINE apd_answer apd_verify_within(apd_handle *code, uint32_t hook, const uint8_t *bytes, size_t length,
                                        const apd_shape *shapes, size_t maps, uint32_t states)
{
    if (!code || (!bytes && length) || (!shapes && maps))
        return apd_answer_of(APD_NULL);
    return apd_c_verify_within(code, hook, apd_some_bytes(bytes), length, apd_some_shapes(shapes), maps, states);
}

/* The same within a limit of work, too, which bounds what a stranger's program costs more closely than states do. A unit is
   a part of a state that is examined, made again, or compared with a finished one: a register or a slot of the stack. A
   program that needs more is refused with 36; a budget is at most an 80th of the limit. 0 is for no limit. */
APD_INLINE apd_answer apd_verify_limited(apd_handle *code, uint32_t hook, const uint8_t *bytes, size_t length,
                                         const apd_shape *shapes, size_t maps, uint32_t states, uint64_t work)
{
    if (!code || (!bytes && length) || (!shapes && maps))
        return apd_answer_of(APD_NULL);
    return apd_c_verify_limited(code, hook, apd_some_bytes(bytes), length, apd_some_shapes(shapes), maps, states, work);
}

/* The most instructions that a run of the program takes; 0 where the handle holds none. */
APD_INLINE uint32_t apd_budget(apd_handle *code)
{
    return code ? apd_c_budget(code) : 0;
}

/* Fills an empty handle with the certificate of a program: bytes, which apd_read reads. */
APD_INLINE apd_answer apd_certify(apd_handle *certificate, apd_handle *code)
{
    if (!certificate || !code || certificate == code)
        return apd_answer_of(APD_NULL);
    return apd_c_certify(certificate, code);
}

/* As apd_verify, by a certificate in place of an exploration. */
APD_INLINE apd_answer apd_check(apd_handle *code, uint32_t hook, const uint8_t *bytes, size_t length,
                                   const apd_shape *shapes, size_t maps, const uint8_t *certificate,
                                   size_t certificate_length)
{
    if (!code || (!bytes && length) || (!shapes && maps) || (!certificate && certificate_length))
        return apd_answer_of(APD_NULL);
    return apd_c_check(code, hook, apd_some_bytes(bytes), length, apd_some_shapes(shapes), maps,
                       apd_some_bytes(certificate), certificate_length);
}

/* The same within a limit of work, which bounds the time that a stranger's certificate takes. A unit is a part of a state
   that is examined, or compared with one of the certificate: a register or a slot of the stack, as the verifier counts
   them. One that needs more is refused with 36. 0 is for no limit. Besides, the certificate is read once: limit its length
   too. */
APD_INLINE apd_answer apd_check_within(apd_handle *code, uint32_t hook, const uint8_t *bytes, size_t length,
                                       const apd_shape *shapes, size_t maps, const uint8_t *certificate,
                                       size_t certificate_length, uint64_t work)
{
    if (!code || (!bytes && length) || (!shapes && maps) || (!certificate && certificate_length))
        return apd_answer_of(APD_NULL);
    return apd_c_check_within(code, hook, apd_some_bytes(bytes), length, apd_some_shapes(shapes), maps,
                              apd_some_bytes(certificate), certificate_length, work);
}

/* Why apd_verify_within refuses what it is passed: lines of text that end with 0, cut where there is no room for all of
   it. They say what the verifier knew at the refused instruction, which branches lead there, and the fix most likely
   meant; of a program that is admitted, how many states were examined, and where. The program is explored again, which
   takes as long and as much memory as before. Answers how many bytes the whole text has without that 0; 0 where there is
   no such hook, the shapes are out of their limits, a pointer is NULL or memory ran out. Tests show the text; no proof
   does. */
APD_INLINE size_t apd_why(uint32_t hook, const uint8_t *bytes, size_t length, const apd_shape *shapes, size_t maps,
                          uint32_t states, char *into, size_t room)
{
    uint8_t nothing[1];
    size_t told = 0;

    if ((bytes || !length) && (shapes || !maps))
        told = apd_c_why(hook, apd_some_bytes(bytes), length, apd_some_shapes(shapes), maps, states,
                         into ? (uint8_t *)into : nothing, into && room ? room - 1 : 0);
    if (into && room)
        into[told < room ? told : room - 1] = 0;
    return told;
}

/* Copies as many of the bytes as there is room for, and answers how many the handle holds. With NULL it only tells. */
APD_INLINE size_t apd_read(apd_handle *bytes, uint8_t *into, size_t room)
{
    uint8_t nothing[1];
    if (!bytes)
        return 0;
    return into ? apd_c_read(bytes, into, room) : apd_c_read(bytes, nothing, 0);
}

/* Fills an empty handle with maps of words 0, and the word that programs draw first. */
APD_INLINE uint32_t apd_maps(apd_handle *maps, const apd_shape *shapes, size_t count, uint64_t draw)
{
    if (!maps || (!shapes && count))
        return APD_NULL;
    return apd_c_maps(maps, apd_some_shapes(shapes), count, draw);
}

/* One load of a word. Its number is its entry's index times the words of an entry, plus its place in the entry. */
APD_INLINE apd_loaded apd_load(apd_handle *maps, uint32_t map, uint32_t word)
{
    apd_loaded none = {APD_NULL, 0};
    return maps ? apd_c_load(maps, map, word) : none;
}

/* One store of a number, mod 2^(8 * width), in a word. */
APD_INLINE uint32_t apd_store(apd_handle *maps, uint32_t map, uint32_t word, uint64_t value)
{
    return maps ? apd_c_store(maps, map, word, value) : (uint32_t)APD_NULL;
}

/* Atomic operations on a word; each answers what the word held before. Numbers are taken mod 2^(8 * width). */
APD_INLINE apd_loaded apd_exchange(apd_handle *maps, uint32_t map, uint32_t word, uint64_t value)
{
    apd_loaded none = {APD_NULL, 0};
    return maps ? apd_c_exchange(maps, map, word, value) : none;
}

APD_INLINE apd_loaded apd_fetch_add(apd_handle *maps, uint32_t map, uint32_t word, uint64_t value)
{
    apd_loaded none = {APD_NULL, 0};
    return maps ? apd_c_fetch_add(maps, map, word, value) : none;
}

APD_INLINE apd_loaded apd_fetch_or(apd_handle *maps, uint32_t map, uint32_t word, uint64_t value)
{
    apd_loaded none = {APD_NULL, 0};
    return maps ? apd_c_fetch_or(maps, map, word, value) : none;
}

APD_INLINE apd_loaded apd_fetch_and(apd_handle *maps, uint32_t map, uint32_t word, uint64_t value)
{
    apd_loaded none = {APD_NULL, 0};
    return maps ? apd_c_fetch_and(maps, map, word, value) : none;
}

APD_INLINE apd_loaded apd_fetch_xor(apd_handle *maps, uint32_t map, uint32_t word, uint64_t value)
{
    apd_loaded none = {APD_NULL, 0};
    return maps ? apd_c_fetch_xor(maps, map, word, value) : none;
}

/* Puts next where the word holds expected. */
APD_INLINE apd_loaded apd_compare_exchange(apd_handle *maps, uint32_t map, uint32_t word, uint64_t expected,
                                              uint64_t next)
{
    apd_loaded none = {APD_NULL, 0};
    return maps ? apd_c_compare_exchange(maps, map, word, expected, next) : none;
}

/* What a program is given, with the bytes of this context; with NULL, of zeros. */
APD_INLINE apd_given apd_given_of(uint64_t clock, uint16_t stations, const struct apd_context *context)
{
    apd_given given = {clock, stations, {0}};

    if (context)
        memcpy(given.context, context, sizeof given.context);
    return given;
}

/* The report of a run that isn't made. (The notes are cleared by halves: of one call for all, gcc makes a slow loop.) */
static inline void apd_clear_report(apd_report *report)
{
    report->number = APD_NULL;
    report->steps = 0;
    report->r0 = 0;
    report->count = 0;
    memset(report->notes, 0, sizeof report->notes / 2);
    memset(report->notes + APD_NOTES_MOST / 2, 0, sizeof report->notes / 2);
}

/* Runs a program on a frame of at most 2400 bytes over maps of its shapes. The context is for the hook that the program was
   verified for, or the run is refused with 95. It waits for nothing and takes no memory. */
APD_INLINE apd_report apd_run(apd_handle *code, apd_handle *maps, const uint8_t *frame, size_t length,
                                 const apd_given *given)
{
    apd_report report;

    apd_clear_report(&report);
    if (code && maps && code != maps && given && (frame || !length))
        apd_c_run(code, maps, apd_some_bytes(frame), length, given, &report);
    return report;
}

/* The same, told in a report that the caller keeps, which has been given some value once: nothing is cleared or copied, and
   the notes after the run's own stay as they were. Answers the report's number. */
APD_INLINE uint32_t apd_run_into(apd_handle *code, apd_handle *maps, const uint8_t *frame, size_t length,
                                 const apd_given *given, apd_report *report)
{
    if (!report)
        return APD_NULL;
    if (!code || !maps || code == maps || !given || (!frame && length))
        return report->number = APD_NULL;
    apd_c_run(code, maps, apd_some_bytes(frame), length, given, report);
    return report->number;
}

/* Fills an empty handle with an access point that has handled nothing and has no programs yet, for maps of these shapes. */
APD_INLINE uint32_t apd_link(apd_handle *link, const apd_network *network, const apd_shape *shapes, size_t maps)
{
    if (!link || !network || (!shapes && maps))
        return APD_NULL;
    return apd_c_link(link, network, apd_some_shapes(shapes), maps);
}

/* Takes the program out of its handle, and has the access point judge by it on this hook. */
APD_INLINE uint32_t apd_link_load(apd_handle *link, uint32_t hook, apd_handle *code)
{
    if (!link || !code || link == code)
        return APD_NULL;
    return apd_c_link_load(link, hook, code);
}

/* Has the access point judge by no program on this hook: associations are admitted, agreements get what they ask for, and
   data passes with mark 0. The program that was there is freed. */
APD_INLINE uint32_t apd_link_unload(apd_handle *link, uint32_t hook)
{
    return link ? apd_c_link_unload(link, hook) : (uint32_t)APD_NULL;
}

/* Whether these are three handles. */
static inline bool apd_are_three(const apd_handle *link, const apd_handle *maps, const apd_handle *outs)
{
    return link && maps && outs && link != maps && link != outs && maps != outs;
}

/* A frame of at most 2400 bytes, without its FCS, comes. Programs run over the maps; an empty handle is filled with what
   comes out, which apd_outs, apd_out_at and apd_out_bytes read. What is refused changes nothing. `user` is the caller's
   own, as a pointer or a number of the event: each out has it. */
APD_INLINE uint32_t apd_link_frame(apd_handle *link, apd_handle *maps, apd_handle *outs, const uint8_t *bytes,
                                      size_t length, uint64_t user)
{
    if (!apd_are_three(link, maps, outs) || (!bytes && length))
        return APD_NULL;
    return apd_c_link_frame(link, maps, outs, apd_some_bytes(bytes), length, user);
}

/* apd_link_frame into a handle that is empty or holds the outs of an earlier event, which those of this one replace: so frames
   that come one after another need no apd_free between them. What is refused leaves the earlier outs there. */
APD_INLINE uint32_t apd_link_frame_into(apd_handle *link, apd_handle *maps, apd_handle *outs, const uint8_t *bytes,
                                           size_t length, uint64_t user)
{
    if (!apd_are_three(link, maps, outs) || (!bytes && length))
        return APD_NULL;
    return apd_c_link_frame_into(link, maps, outs, apd_some_bytes(bytes), length, user);
}

/* As many units of time pass. */
APD_INLINE uint32_t apd_link_tick(apd_handle *link, apd_handle *maps, apd_handle *outs, uint32_t units, uint64_t user)
{
    return apd_are_three(link, maps, outs) ? apd_c_link_tick(link, maps, outs, units, user) : (uint32_t)APD_NULL;
}

/* Sends a station away with a reason code. */
APD_INLINE uint32_t apd_link_kick(apd_handle *link, apd_handle *maps, apd_handle *outs, const apd_station *station,
                                     uint16_t reason, uint64_t user)
{
    if (!apd_are_three(link, maps, outs) || !station)
        return APD_NULL;
    return apd_c_link_kick(link, maps, outs, station, reason, user);
}

/* Ends a station's block acknowledgement agreement for a TID below 8. */
APD_INLINE uint32_t apd_link_close(apd_handle *link, apd_handle *maps, apd_handle *outs, const apd_station *station,
                                      uint8_t tid, uint64_t user)
{
    if (!apd_are_three(link, maps, outs) || !station)
        return APD_NULL;
    return apd_c_link_close(link, maps, outs, station, tid, user);
}

/* How many outs a handle holds. */
APD_INLINE size_t apd_outs(apd_handle *outs)
{
    return outs ? apd_c_outs(outs) : 0;
}

/* One of them, but for its bytes; of kind APD_NOTHING where there is none. */
APD_INLINE apd_out apd_out_at(apd_handle *outs, size_t at)
{
    apd_out none = {APD_NOTHING, 0, 0, {0}, {0}, 0, 0, 0, 0};
    return outs ? apd_c_out(outs, at) : none;
}

/* Copies as many of its bytes as there is room for, and answers how many it has. With NULL it only tells. */
APD_INLINE size_t apd_out_bytes(apd_handle *outs, size_t at, uint8_t *into, size_t room)
{
    uint8_t nothing[1];
    if (!outs)
        return 0;
    return into ? apd_c_out_bytes(outs, at, into, room) : apd_c_out_bytes(outs, at, nothing, 0);
}

/* Fills an empty handle with the stations that the access point knows: those of its shards, each once, by increasing
   addresses. apd_station_count and apd_station_at read them. An event changes nothing in a list: to see who came or went, list
   again and compare. */
APD_INLINE uint32_t apd_link_stations(apd_handle *link, apd_handle *stations)
{
    if (!link || !stations || link == stations)
        return APD_NULL;
    return apd_c_link_stations(link, stations);
}

/* Fills an empty handle with the agreements in force, by increasing addresses and TIDs. */
APD_INLINE uint32_t apd_link_agreements(apd_handle *link, apd_handle *agreements)
{
    if (!link || !agreements || link == agreements)
        return APD_NULL;
    return apd_c_link_agreements(link, agreements);
}

/* How many stations a handle holds. */
APD_INLINE size_t apd_station_count(apd_handle *stations)
{
    return stations ? apd_c_stations(stations) : 0;
}

/* One of them; of state 0 where there is none. */
APD_INLINE apd_standing apd_station_at(apd_handle *stations, size_t at)
{
    apd_standing none = {{{0}}, 0, 0};
    return stations ? apd_c_station(stations, at) : none;
}

/* How many agreements a handle holds. */
APD_INLINE size_t apd_agreement_count(apd_handle *agreements)
{
    return agreements ? apd_c_agreements(agreements) : 0;
}

/* One of them; of size 0 where there is none. */
APD_INLINE apd_agreement apd_agreement_at(apd_handle *agreements, size_t at)
{
    apd_agreement none = {{{0}}, 0, 0, 0, 0, 0};
    return agreements ? apd_c_agreement(agreements, at) : none;
}

/* What a number of enum apd_number, or a note's, means, in a few words: a text that ends with 0, cut where there is no room
   for all of it. Answers how many bytes the whole text has without that 0; 0 where no call answers the number. */
APD_INLINE size_t apd_explain(uint32_t number, char *into, size_t room)
{
    uint8_t nothing[1];
    size_t length;

    if (!into || !room)
        return apd_c_explain(number, nothing, 0);
    length = apd_c_explain(number, (uint8_t *)into, room - 1);
    into[length < room ? length : room - 1] = 0;
    return length;
}

/* Frees what a handle holds, and leaves it empty. An empty one stays so. */
APD_INLINE void apd_free(apd_handle *handle)
{
    if (handle)
        apd_c_free(handle);
}

#ifdef __cplusplus
}
#endif

#endif
