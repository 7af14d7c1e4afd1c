/* The Linux kernel's eBPF interpreter, ___bpf_prog_run of kernel/bpf/core.c with its text unchanged, as a program of user
 * space: reads lines NAME HEX STEPS, prints nanoseconds. Best of 20 rounds. What the interpreter takes from the rest of
 * the kernel is defined here; build_kernel_interpreter writes the four files that are included from the kernel's source.
 */
#include <linux/bpf.h>
#include <linux/types.h>
#include <stdbool.h>
#include <stdint.h>
#include <stdio.h>
#include <stdlib.h>
#include <string.h>
#include <time.h>

typedef uint8_t u8;
typedef uint16_t u16;
typedef uint32_t u32;
typedef uint64_t u64;
typedef int8_t s8;
typedef int16_t s16;
typedef int32_t s32;
typedef int64_t s64;

#define __annotate_jump_table
#define __force
#define fallthrough __attribute__((fallthrough))
#define likely(x) __builtin_expect(!!(x), 1)
#define unlikely(x) __builtin_expect(!!(x), 0)
#define READ_ONCE(x) (x)
#define BUG_ON(x) do { if (x) abort(); } while (0)
#define barrier_nospec() do { } while (0)
#define pr_warn(...) fprintf(stderr, __VA_ARGS__)
#define abs(x) ((x) < 0 ? -(x) : (x))
#define container_of(pointer, type, member) ((type *)0)
#define MAX_TAIL_CALL_CNT 33
#define cpu_to_be16 __builtin_bswap16
#define cpu_to_be32 __builtin_bswap32
#define cpu_to_be64 __builtin_bswap64
#define cpu_to_le16(x) ((u16)(x))
#define cpu_to_le32(x) ((u32)(x))
#define cpu_to_le64(x) ((u64)(x))
#define __swab16 __builtin_bswap16
#define __swab32 __builtin_bswap32
#define __swab64 __builtin_bswap64

typedef struct { int counter; } atomic_t;
typedef struct { long counter; } atomic64_t;

#define ATOMIC(name) \
    static inline void atomic_##name(u32 v, atomic_t *a) { __atomic_fetch_##name(&a->counter, v, __ATOMIC_SEQ_CST); } \
    static inline u32 atomic_fetch_##name(u32 v, atomic_t *a) { return __atomic_fetch_##name(&a->counter, v, __ATOMIC_SEQ_CST); } \
    static inline void atomic64_##name(u64 v, atomic64_t *a) { __atomic_fetch_##name(&a->counter, v, __ATOMIC_SEQ_CST); } \
    static inline u64 atomic64_fetch_##name(u64 v, atomic64_t *a) { return __atomic_fetch_##name(&a->counter, v, __ATOMIC_SEQ_CST); }
ATOMIC(add)
ATOMIC(and)
ATOMIC(or)
ATOMIC(xor)

static inline u32 atomic_xchg(atomic_t *a, u32 v) { return __atomic_exchange_n(&a->counter, v, __ATOMIC_SEQ_CST); }
static inline u64 atomic64_xchg(atomic64_t *a, u64 v) { return __atomic_exchange_n(&a->counter, v, __ATOMIC_SEQ_CST); }

static inline u32 atomic_cmpxchg(atomic_t *a, u32 old, u32 new)
{
    int x = old;
    __atomic_compare_exchange_n(&a->counter, &x, new, 0, __ATOMIC_SEQ_CST, __ATOMIC_SEQ_CST);
    return x;
}

static inline u64 atomic64_cmpxchg(atomic64_t *a, u64 old, u64 new)
{
    long x = old;
    __atomic_compare_exchange_n(&a->counter, &x, new, 0, __ATOMIC_SEQ_CST, __ATOMIC_SEQ_CST);
    return x;
}

static inline u32 abs_s32(s32 x) { return x >= 0 ? (u32)x : -(u32)x; }
static inline u64 div64_u64(u64 a, u64 b) { return a / b; }
static inline u64 div64_u64_rem(u64 a, u64 b, u64 *rest) { *rest = a % b; return a / b; }
static inline s64 div64_s64(s64 a, s64 b) { return b == -1 ? (s64)(0 - (u64)a) : a / b; }
#define do_div(n, base) ({ u32 b_ = (base); u32 rest_ = (u64)(n) % b_; (n) = (u64)(n) / b_; rest_; })

struct bpf_map { u32 max_entries; };
struct bpf_prog { struct bpf_insn *insnsi; };
struct bpf_array { struct bpf_map map; void *ptrs[1]; };
static u64 __bpf_call_base(u64 a, u64 b, u64 c, u64 d, u64 e) { return 0; }
static u64 __bpf_call_base_args(u64 a, u64 b, u64 c, u64 d, u64 e, const struct bpf_insn *i) { return 0; }
static inline void bpf_probe_read_kernel(void *to, unsigned n, const void *from) { memcpy(to, from, n); }
static inline int bpf_probe_read_kernel_common(void *to, unsigned n, const void *from) { memcpy(to, from, n); return 0; }

#include "filter_macros.h"
#include "registers.h"
#include "instruction_map.h"
#include "interpreter.h"

#define ROUNDS 20

static char line[1 << 20];
static struct bpf_insn code[1 << 16];
static u8 frame[64];

static double now(void)
{
    struct timespec t;

    clock_gettime(CLOCK_MONOTONIC, &t);
    return t.tv_sec * 1e9 + t.tv_nsec;
}

/* The frame that the port filter lets pass. */
static void fill_frame(void)
{
    frame[24] = frame[25] = 0xaa;
    frame[26] = 3;
    frame[30] = 8;
    frame[32] = 0x45;
    frame[41] = 17;
    frame[55] = 53;
}

static void read_code(const char *hex)
{
    for (size_t i = 0; i < strlen(hex) / 2; i++) {
        unsigned byte;
        sscanf(hex + 2 * i, "%2x", &byte);
        ((u8 *)code)[i] = byte;
    }
}

/* One run: R1 is the frame, R2 its end, and the stack is cleared as apd's is. */
static u64 run(void)
{
    u64 stack[64];
    u64 regs[MAX_BPF_EXT_REG];

    memset(stack, 0, sizeof stack);
    FP = (u64)(unsigned long)&stack[64];
    ARG1 = (u64)(unsigned long)frame;
    regs[2] = (u64)(unsigned long)(frame + sizeof frame);
    return ___bpf_prog_run(regs, code);
}

static void bench(const char *name, double steps)
{
    double best = 1e18;
    long runs = 5e6 / steps + 1;
    u64 r0 = 0;

    for (int round = 0; round < ROUNDS; round++) {
        double start = now();
        for (long i = 0; i < runs; i++)
            r0 = run();
        double spent = now() - start;
        if (spent < best)
            best = spent;
    }
    printf("%s: interpreter %.2f ns a run, %.3f ns an instruction; R0 %llu\n", name, best / runs, best / runs / steps,
           (unsigned long long)r0);
}

int main(void)
{
    fill_frame();
    while (fgets(line, sizeof line, stdin)) {
        char *name = strtok(line, " "), *hex = strtok(NULL, " "), *steps = strtok(NULL, "\n");

        if (name && hex && steps) {
            read_code(hex);
            bench(name, atof(steps));
        }
    }
    return 0;
}
