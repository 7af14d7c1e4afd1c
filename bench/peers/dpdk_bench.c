/* DPDK's eBPF interpreter and native code on the workloads: reads lines NAME HEX STEPS, prints nanoseconds.
 * Best of 20 rounds. The native code is for comparison alone; apd has none.
 */
#include <errno.h>
#include <stdint.h>
#include <stdio.h>
#include <stdlib.h>
#include <string.h>
#include <time.h>

#include <rte_bpf.h>
#include <rte_errno.h>

#define ROUNDS 20

static uint8_t frame[64];
static char line[1 << 20];
static uint8_t code[1 << 19];

static double now(void)
{
    struct timespec t;

    clock_gettime(CLOCK_MONOTONIC, &t);
    return t.tv_sec * 1e9 + t.tv_nsec;
}

/* The frame that the port filter lets pass. */
static void fill_frame(void)
{
    frame[24] = frame[25] = 0xaa;
    frame[26] = 3;
    frame[30] = 8;
    frame[32] = 0x45;
    frame[41] = 17;
    frame[55] = 53;
}

static size_t bytes_of(const char *hex)
{
    size_t count = strlen(hex) / 2;

    for (size_t i = 0; i < count; i++) {
        unsigned byte;
        sscanf(hex + 2 * i, "%2x", &byte);
        code[i] = byte;
    }
    return count;
}

static void bench(const char *name, size_t bytes, double steps)
{
    struct rte_bpf_prm parameters = {
        .ins = (void *)code,
        .nb_ins = bytes / 8,
        .prog_arg = {.type = RTE_BPF_ARG_PTR, .size = sizeof frame},
    };
    struct rte_bpf *program = rte_bpf_load(&parameters);
    struct rte_bpf_jit native;
    double interpreted = 1e18, compiled = 1e18;
    long runs = 5e6 / steps + 1;
    uint64_t r0 = 0;

    if (!program) {
        printf("%s: refused: %s\n", name, rte_strerror(rte_errno));
        return;
    }
    rte_bpf_get_jit(program, &native);
    for (int round = 0; round < ROUNDS; round++) {
        double start = now();
        for (long i = 0; i < runs; i++)
            r0 = rte_bpf_exec(program, frame);
        double middle = now();
        for (long i = 0; native.func && i < runs; i++)
            r0 = native.func(frame);
        double end = now();
        if (middle - start < interpreted)
            interpreted = middle - start;
        if (end - middle < compiled)
            compiled = end - middle;
    }
    printf("%s: interpreter %.2f ns a run, %.3f ns an instruction; native %.2f ns a run; R0 %llu\n", name,
           interpreted / runs, interpreted / runs / steps, compiled / runs, (unsigned long long)r0);
    rte_bpf_destroy(program);
}

int main(void)
{
    fill_frame();
    while (fgets(line, sizeof line, stdin)) {
        char *name = strtok(line, " "), *hex = strtok(NULL, " "), *steps = strtok(NULL, "\n");

        if (name && hex && steps)
            bench(name, bytes_of(hex), atof(steps));
    }
    return 0;
}
