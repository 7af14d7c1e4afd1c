/* apd's verifier and machine on the workloads, called from C: reads lines NAME HEX STEPS, prints nanoseconds; with the
 * word "stations", what it costs to list 500 stations, and to compare two such lists; with the word "frames", what an
 * access point without a program takes for a data frame of 100 bytes. Best of 20 rounds.
 */
#include <stdio.h>
#include <stdlib.h>
#include <string.h>
#include <time.h>

#include <apd.h>

#define ROUNDS 20

static uint8_t frame[64];
static char line[1 << 20];
static uint8_t code[1 << 19];
/* What is read of reports that calls return, so that they are made. */
static volatile uint64_t seen;

static double now(void)
{
    struct timespec t;

    clock_gettime(CLOCK_MONOTONIC, &t);
    return t.tv_sec * 1e9 + t.tv_nsec;
}

/* The frame that the port filter lets pass. */
static void fill_frame(void)
{
    frame[24] = frame[25] = 0xaa;
    frame[26] = 3;
    frame[30] = 8;
    frame[32] = 0x45;
    frame[41] = 17;
    frame[55] = 53;
}

static size_t bytes_of(const char *hex)
{
    size_t count = strlen(hex) / 2;

    for (size_t i = 0; i < count; i++) {
        unsigned byte;
        sscanf(hex + 2 * i, "%2x", &byte);
        code[i] = byte;
    }
    return count;
}

static void bench(const char *name, size_t bytes, double steps)
{
    apd_handle program = APD_EMPTY, maps = APD_EMPTY;
    apd_given given = {0, 0, {0, 0, 0, 0, 0, 0, APD_DATA}};
    double verified = 1e18, interpreted = 1e18, returned = 1e18;
    long runs = 5e6 / steps + 1;
    apd_report report = {0, 0, 0, 0, {0}};

    apd_maps(&maps, NULL, 0, 0);
    for (int round = 0; round < ROUNDS; round++) {
        apd_free(&program);
        double start = now();
        apd_answer answer = apd_verify(&program, APD_DATA, code, bytes, NULL, 0);
        double middle = now();
        if (answer.number) {
            printf("%s: refused %u at %zu\n", name, (unsigned)answer.number, answer.slot);
            apd_free(&maps);
            return;
        }
        if (middle - start < verified)
            verified = middle - start;
        start = now();
        for (long i = 0; i < runs; i++)
            apd_run_into(&program, &maps, frame, sizeof frame, &given, &report);
        double end = now();
        if (end - start < interpreted)
            interpreted = end - start;
        start = now();
        for (long i = 0; i < runs; i++) {
            apd_report whole = apd_run(&program, &maps, frame, sizeof frame, &given);
            seen = whole.r0 + whole.count;
        }
        end = now();
        if (end - start < returned)
            returned = end - start;
    }
    printf("%s: verify %.0f ns; apd_run_into %.2f ns a run, %.3f ns an instruction; apd_run %.2f ns; R0 %llu, %u steps\n",
           name, verified, interpreted / runs, interpreted / runs / steps, returned / runs, (unsigned long long)report.r0,
           (unsigned)report.steps);
    apd_free(&program);
    apd_free(&maps);
}

#define STATIONS 500

/* Lists the stations of an access point; answers the nanoseconds. */
static double list_stations(apd_handle *link, apd_standing *rows)
{
    apd_handle list = APD_EMPTY;
    double start = now();

    if (apd_link_stations(link, &list) || apd_station_count(&list) != STATIONS)
        exit(1);
    for (size_t at = 0; at < STATIONS; at++)
        rows[at] = apd_station_at(&list, at);
    apd_free(&list);
    return now() - start;
}

static int is_same(const apd_standing *row, const apd_standing *other)
{
    return !memcmp(row->station.octets, other->station.octets, 6) && row->state == other->state && row->aid == other->aid;
}

static void bench_stations(void)
{
    static const apd_network network = {{2, 0, 0, 0, 0, 1}, 3, "lab", 4, {0x82, 0x84, 0x8b, 0x96}};
    static apd_standing old[STATIONS], new[STATIONS];
    apd_handle link = APD_EMPTY, maps = APD_EMPTY, outs = APD_EMPTY;
    double listed = 1e18, compared = 1e18;
    size_t same = 0;

    if (apd_link(&link, &network, NULL, 0) || apd_maps(&maps, NULL, 0, 0))
        exit(1);
    for (unsigned number = 0; number < STATIONS; number++) {
        uint8_t opens[30] = {0xb0, 0, 0, 0, 2, 0, 0, 0, 0, 1, 2, 0, 0, 1, (uint8_t)(number >> 8), (uint8_t)number,
                             2, 0, 0, 0, 0, 1, 0x10, 0, 0, 0, 1};
        if (apd_link_frame(&link, &maps, &outs, opens, sizeof opens, 0))
            exit(1);
        apd_free(&outs);
    }
    for (int round = 0; round < ROUNDS; round++) {
        double took = list_stations(&link, round % 2 ? old : new);
        double start = now();
        for (size_t at = 0; at < STATIONS; at++)
            same += is_same(&old[at], &new[at]);
        double end = now();
        listed = took < listed ? took : listed;
        compared = end - start < compared ? end - start : compared;
    }
    printf("%d stations: listed in %.0f ns, compared in %.0f ns, same %zu\n", STATIONS, listed, compared, same);
    apd_free(&maps);
    apd_free(&link);
}

/* A station authenticates, associates, and sends data again and again. */
static void bench_frames(void)
{
    static const apd_network network = {{2, 0, 0, 0, 0, 1}, 3, "lab", 4, {0x82, 0x84, 0x8b, 0x96}};
    static const char *const first[] = {
        "b000000002000000000102000000000a0200000000011000000001000000",
        "0000000002000000000102000000000a020000000001200001000a0000036c6162010482848b96",
    };
    apd_handle link = APD_EMPTY, maps = APD_EMPTY, outs = APD_EMPTY;
    uint8_t sent[100] = {0};
    double freed = 1e18, replaced = 1e18;

    if (apd_link(&link, &network, NULL, 0) || apd_maps(&maps, NULL, 0, 0))
        exit(1);
    for (int at = 0; at < 2; at++) {
        size_t bytes = bytes_of(first[at]);
        if (apd_link_frame(&link, &maps, &outs, code, bytes, 0))
            exit(1);
        apd_free(&outs);
    }
    size_t head = bytes_of("0801000002000000000102000000000a0200000000ff3000");
    memcpy(sent, code, head);
    for (int round = 0; round < ROUNDS; round++) {
        double start = now();
        for (int i = 0; i < 100000; i++) {
            if (apd_link_frame(&link, &maps, &outs, sent, sizeof sent, 0))
                exit(1);
            apd_free(&outs);
        }
        double middle = now();
        for (int i = 0; i < 100000; i++)
            if (apd_link_frame_into(&link, &maps, &outs, sent, sizeof sent, 0))
                exit(1);
        double end = now();
        apd_free(&outs);
        freed = middle - start < freed ? middle - start : freed;
        replaced = end - middle < replaced ? end - middle : replaced;
    }
    printf("a frame of data: apd_link_frame and apd_free %.1f ns, apd_link_frame_into %.1f ns\n", freed / 100000,
           replaced / 100000);
    apd_free(&maps);
    apd_free(&link);
}

int main(int count, char **words)
{
    if (count == 2 && !strcmp(words[1], "stations")) {
        bench_stations();
        return 0;
    }
    if (count == 2 && !strcmp(words[1], "frames")) {
        bench_frames();
        return 0;
    }
    fill_frame();
    while (fgets(line, sizeof line, stdin)) {
        char *name = strtok(line, " "), *hex = strtok(NULL, " "), *steps = strtok(NULL, "\n");

        if (name && hex && steps)
            bench(name, bytes_of(hex), atof(steps));
    }
    return 0;
}
