/*
 * toy_station PORT
 *
 * A station of toy_ap: sends frames to 127.0.0.1, and prints what comes back. It authenticates, associates, asks for a
 * block acknowledgement agreement, sends four frames of data, waits until the agreement's timeout has passed, and ends the
 * access point by an empty datagram. It links with nothing of apd.
 */
#include <arpa/inet.h>
#include <stdint.h>
#include <stdio.h>
#include <stdlib.h>
#include <string.h>
#include <sys/socket.h>
#include <sys/time.h>
#include <unistd.h>

/* Each frame in hex, with how many answers to wait for. */
static const struct {
    const char *frame;
    int answers;
} script[] = {
    {"b000000002000000000102000000000a0200000000011000000001000000", 1},
    {"0000000002000000000102000000000a020000000001200001000a0000036c6162010482848b96", 1},
    {"d000000002000000000102000000000a020000000001400003000702010a004006", 1},
    {"8801000002000000000102000000000a0200000000ff4006000068656c6c6f", 0},
    {"8801000002000000000102000000000a0200000000ff50060000782121", 0},
    {"8801000002000000000102000000000a0200000000ff700600006c617465", 1},
    {"ff", 0},
};

static void send_hex(int made, const char *hex)
{
    uint8_t frame[2400];
    size_t length = strlen(hex) / 2;

    for (size_t at = 0; at < length; at++) {
        char pair[3] = {hex[2 * at], hex[2 * at + 1], 0};
        frame[at] = (uint8_t)strtoul(pair, NULL, 16);
    }
    send(made, frame, length, 0);
}

static int print_answer(int made)
{
    uint8_t frame[2400];
    ssize_t length = recv(made, frame, sizeof frame, 0);

    if (length < 0)
        return 0;
    for (ssize_t at = 0; at < length; at++)
        printf("%02x", frame[at]);
    printf("\n");
    return 1;
}

int main(int count, char **words)
{
    struct sockaddr_in there = {.sin_family = AF_INET};
    struct timeval most = {10, 0};
    int made = socket(AF_INET, SOCK_DGRAM, 0);

    if (count != 2 || made < 0)
        return 1;
    there.sin_port = htons((uint16_t)atoi(words[1]));
    there.sin_addr.s_addr = htonl(INADDR_LOOPBACK);
    if (connect(made, (struct sockaddr *)&there, sizeof there)
        || setsockopt(made, SOL_SOCKET, SO_RCVTIMEO, &most, sizeof most))
        return 1;
    for (size_t at = 0; at < sizeof script / sizeof script[0]; at++) {
        send_hex(made, script[at].frame);
        for (int answer = 0; answer < script[at].answers; answer++)
            if (!print_answer(made))
                return 1;
    }
    send(made, "", 0, 0);
    close(made);
    return 0;
}
