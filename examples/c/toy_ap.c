/*
 * toy_ap POLICY PORT
 *
 * An access point on a datagram socket of 127.0.0.1. Each datagram is a frame of IEEE 802.11 without its FCS. What the
 * access point sends goes to where the last frame came from; data that it passes up, and notes, are printed. The policy
 * judges data. A unit of time passes with each 20 ms in which no frame comes. An empty datagram ends it. The first line
 * that it prints is its port, which the system chooses where PORT is 0.
 */
#include <apd.h>
#include <arpa/inet.h>
#include <errno.h>
#include <string.h>
#include <sys/socket.h>
#include <sys/time.h>
#include <unistd.h>

#include "policy_file.h"

typedef struct toy {
    int socket;
    struct sockaddr_in last; /* where the last frame came from */
    apd_handle link, maps;
} toy;

static int fail(const char *what, uint32_t number)
{
    fprintf(stderr, "toy_ap: %s (%u)\n", what, (unsigned)number);
    return 1;
}

static void print_hex(const uint8_t *bytes, size_t length)
{
    while (length--)
        printf("%02x", *bytes++);
}

static void print_up(const apd_out *out, const uint8_t *bytes)
{
    printf("up ");
    print_hex(out->source, 6);
    printf(" ");
    print_hex(out->destination, 6);
    if (out->tid == APD_NO_TID)
        printf(" -");
    else
        printf(" %u", out->tid);
    printf(" %u %u ", out->number, out->mark);
    print_hex(bytes, out->length);
    printf("\n");
}

/* Sends, prints and frees what came out. */
static void give(toy *toy, apd_handle *outs)
{
    uint8_t bytes[APD_FRAME_MOST];

    for (size_t at = 0; at < apd_outs(outs); at++) {
        apd_out out = apd_out_at(outs, at);

        apd_out_bytes(outs, at, bytes, sizeof bytes);
        if (out.kind == APD_SEND)
            sendto(toy->socket, bytes, out.length, 0, (struct sockaddr *)&toy->last, sizeof toy->last);
        else if (out.kind == APD_UP)
            print_up(&out, bytes);
        else
            printf("note %u\n", out.note);
    }
    fflush(stdout);
    apd_free(outs);
}

/* One datagram, or a unit of time. Answers whether there is more to come. */
static int step(toy *toy)
{
    apd_handle outs = APD_EMPTY;
    uint8_t frame[APD_FRAME_MOST + 1];
    socklen_t size = sizeof toy->last;
    ssize_t length = recvfrom(toy->socket, frame, sizeof frame, 0, (struct sockaddr *)&toy->last, &size);
    uint32_t number;

    if (length == 0)
        return 0;
    if (length < 0 && errno != EAGAIN && errno != EWOULDBLOCK)
        return 0;
    if (length < 0)
        number = apd_link_tick(&toy->link, &toy->maps, &outs, 1, 0);
    else
        number = apd_link_frame(&toy->link, &toy->maps, &outs, frame, (size_t)length, 0);
    if (number)
        fail("the event is refused", number);
    give(toy, &outs);
    return 1;
}

static int open_socket(const char *port)
{
    struct sockaddr_in here = {.sin_family = AF_INET, .sin_port = htons((uint16_t)atoi(port))};
    struct timeval unit = {0, 20000};
    socklen_t size = sizeof here;
    int made = socket(AF_INET, SOCK_DGRAM, 0);

    here.sin_addr.s_addr = htonl(INADDR_LOOPBACK);
    if (made < 0 || bind(made, (struct sockaddr *)&here, size) || getsockname(made, (struct sockaddr *)&here, &size)
        || setsockopt(made, SOL_SOCKET, SO_RCVTIMEO, &unit, sizeof unit))
        return -1;
    printf("%u\n", ntohs(here.sin_port));
    fflush(stdout);
    return made;
}

/* An access point named "lab", which judges data by a policy without maps. */
static uint32_t open_link(toy *toy, const uint8_t *code, size_t length)
{
    apd_network network = {{2, 0, 0, 0, 0, 1}, 3, "lab", 4, {0x82, 0x84, 0x8b, 0x96}};
    apd_handle program = APD_EMPTY;
    uint32_t number = apd_link(&toy->link, &network, NULL, 0);

    if (!number)
        number = apd_maps(&toy->maps, NULL, 0, 0);
    if (!number)
        number = apd_verify(&program, APD_DATA, code, length, NULL, 0).number;
    if (!number)
        number = apd_link_load(&toy->link, APD_DATA, &program);
    apd_free(&program);
    return number;
}

int main(int count, char **words)
{
    toy toy = {-1, {0}, APD_EMPTY, APD_EMPTY};
    size_t length;
    uint8_t *code;
    uint32_t number;

    if (count != 3)
        return fail("POLICY PORT", 0);
    code = policy_read(words[1], &length);
    if (!code)
        return fail("no policy can be read", 0);
    number = open_link(&toy, code, length);
    free(code);
    if (number)
        return fail("the policy is refused", number);
    toy.socket = open_socket(words[2]);
    if (toy.socket < 0)
        return fail("there is no socket", 0);
    while (step(&toy))
        ;
    close(toy.socket);
    apd_free(&toy.link);
    apd_free(&toy.maps);
    return 0;
}
