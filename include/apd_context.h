/*
 * apd_context.h - what the programs of apd are told and what they answer, for policies (apd_policy.h) and for their callers
 * (apd.h). It includes nothing, and is C99 to C23 and C++11 to C++20.
 */
#ifndef APD_CONTEXT_H
#define APD_CONTEXT_H

/* Unions without a name are new in C11; earlier standards take them as an extension. */
#ifdef __GNUC__
#define APD_EXTENSION __extension__
#else
#define APD_EXTENSION
#endif

/* ---- What a program is told ------------------------------------------------------------------------------------- */

/* The points at which a program is asked. */
enum apd_hook { APD_ASSOCIATION = 1, APD_ASSOC = APD_ASSOCIATION, APD_ADDBA = 2, APD_DATA = 3 };

/* Where a station stands (IEEE 802.11, states 1 to 3). */
enum apd_state { APD_UNAUTHENTICATED = 1, APD_AUTHENTICATED = 2, APD_ASSOCIATED = 3 };

/* The TID of a frame that has none. */
#define APD_NO_TID 255

/* Of an association or reassociation request. */
struct apd_asked_association {
    unsigned short capability;
    unsigned short listen_interval;
    unsigned short is_reassociation; /* 1 for a reassociation request */
};

/* Of a request for a block acknowledgement agreement. */
struct apd_asked_addba {
    unsigned short size; /* as it was asked; 0 leaves it to the access point */
    unsigned short timeout;
    unsigned short start; /* the first sequence number */
};

/* Of a data frame. */
struct apd_asked_data {
    unsigned short number;        /* the sequence number */
    unsigned short window_start;  /* of the agreement, 0 without one */
    unsigned short has_agreement; /* 1 with a block acknowledgement agreement */
};

/* 32 bytes. The last part has one shape a hook; numbers are little-endian, as this machine is. */
struct apd_context {
    unsigned char station[6]; /* the sender's address */
    unsigned char hook;       /* enum apd_hook */
    unsigned char state;      /* enum apd_state: before this frame */
    unsigned short aid;       /* the association id, 0 without one */
    unsigned char tid;        /* 0 to 7, or APD_NO_TID */
    unsigned char unused;
    APD_EXTENSION union {
        struct apd_asked_association association;
        struct apd_asked_addba addba;
        struct apd_asked_data data;
    };
    unsigned char zeros[14];
};

/* (no array has a length below 0) */
typedef char apd_context_has_32_bytes[sizeof(struct apd_context) == 32 ? 1 : -1];

/* ---- What a program answers ------------------------------------------------------------------------------------- */

/* To an association or reassociation request: 0 admits, else a status of IEEE 802.11. Any other is taken as 1. */
#define APD_ADMIT 0
#define APD_REFUSE 1               /* unspecified failure */
#define APD_REFUSE_CAPABILITIES 10 /* capabilities not supported */
#define APD_REFUSE_NOT_HERE 12     /* association denied, for a reason outside the standard */
#define APD_REFUSE_BUSY 17         /* no room for more stations */
#define APD_REFUSE_DECLINED 37     /* the request has been declined */

/* To an ADDBA request: 0 declines; else the number of frames that the agreement may hold, at most what was asked. */
#define APD_DECLINE 0
#define APD_WINDOW(SIZE) (SIZE)

/* To a data frame: it is passed up, with a mark of 0 to 255, or dropped. */
#define APD_PASS 0
#define APD_MARK(MARK) ((((unsigned long long)(MARK) & 255) << 8) | 2)
#define APD_DROP 1

#endif
