/* Frames in captures: behind a radiotap header (radiotap.org), and with or without a frame check sequence. */
#ifndef RADIOTAP_H
#define RADIOTAP_H

#include <stddef.h>
#include <stdint.h>

enum { RADIOTAP_HAS_CHECK = 0x10, RADIOTAP_WRONG_CHECK = 0x40 };

/* A frame without what stands around it; no bytes if the header is damaged or says that the frame is. */
typedef struct radiotap {
    const uint8_t *frame;
    size_t length;
} radiotap;

/* How many bytes a header has; 0 where it is damaged. */
static size_t radiotap_length(const uint8_t *packet, size_t length)
{
    size_t said = length < 8 ? 0 : (size_t)(packet[2] | packet[3] << 8);

    return length < 8 || packet[0] || said < 8 || said > length ? 0 : said;
}

/* Where the flags stand in a header of that length that has them: behind the words of present fields, of which each but
   the last has its highest bit set, and behind the time, of 8 bytes at a multiple of 8. */
static size_t radiotap_flags_at(const uint8_t *header, size_t length)
{
    size_t at = 4;

    while (at + 4 <= length && header[at + 3] & 0x80)
        at += 4;
    at += 4;
    return header[4] & 1 ? (at + 7) / 8 * 8 + 8 : at;
}

/* The frame behind a radiotap header, without its frame check sequence. */
static radiotap radiotap_frame(const uint8_t *packet, size_t length)
{
    size_t header = radiotap_length(packet, length), at = header ? radiotap_flags_at(packet, header) : 0;
    int has_flags = header && packet[4] & 2;
    radiotap got = {packet + header, length - header};

    if (!header || (has_flags && (at >= header || packet[at] & RADIOTAP_WRONG_CHECK))) {
        got.length = 0;
    } else if (has_flags && packet[at] & RADIOTAP_HAS_CHECK) {
        got.length = got.length < 4 ? 0 : got.length - 4;
    }
    return got;
}

#endif
