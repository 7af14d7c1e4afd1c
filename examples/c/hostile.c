/* Calls with what no caller should pass: NULL, no bytes, too many bytes, and handles that hold something else. Prints the
   line of the first answer that is another than is wanted, and ends with status 1. */
#include <apd.h>
#include <pthread.h>
#include <stdio.h>
#include <string.h>

#define WANT(answer, number)                                                                                       \
    do {                                                                                                           \
        unsigned long long got_ = (answer);                                                                        \
        if (got_ != (number)) {                                                                                    \
            printf("line %d: %llu in place of %llu\n", __LINE__, got_, (unsigned long long)(number));              \
            failed = 1;                                                                                            \
        }                                                                                                          \
    } while (0)

/* mov r0, 7; exit */
static const uint8_t seven[16] = {0xb7, 0, 0, 0, 7, 0, 0, 0, 0x95};
/* exit, without a number in R0 */
static const uint8_t bare[8] = {0x95};
/* seventeen times mov r1, N; call 5; then mov r0, 0; exit */
static uint8_t notes[8 * 36];
/* ldxb r0, [r1+0]; exit, without a test against the end */
static const uint8_t blind[16] = {0x71, 0x10, 0, 0, 0, 0, 0, 0, 0x95};
/* lddw r1, map 0; mov r2, 1; call 1; jeq r0, 0, +3; mov r1, 5; atomic add [r0+0], r1; ldxdw r0, [r0+0]; exit */
static const uint8_t adds[72] = {
    0x18, 0x51, 0, 0, 0, 0, 0, 0, 0, 0, 0, 0, 0, 0, 0, 0, 0xb7, 2, 0, 0, 1, 0, 0, 0,
    0x85, 0, 0, 0, 1, 0, 0, 0, 0x15, 0, 3, 0, 0, 0, 0, 0, 0xb7, 1, 0, 0, 5, 0, 0, 0,
    0xdb, 0x10, 0, 0, 0, 0, 0, 0, 0x79, 0, 0, 0, 0, 0, 0, 0, 0x95};

static int failed;

static void hostile_code(void)
{
    apd_handle code = APD_EMPTY, other = APD_EMPTY;
    apd_shape odd = {1, 1, 5}, none = {0, 1, 8}, many[17];

    for (int at = 0; at < 17; at++)
        many[at] = (apd_shape){1, 1, 8};
    WANT(apd_verify(NULL, APD_DATA, seven, 16, NULL, 0).number, APD_NULL);
    WANT(apd_verify(&code, APD_DATA, NULL, 16, NULL, 0).number, APD_NULL);
    WANT(apd_verify(&code, APD_DATA, seven, 16, NULL, 1).number, APD_NULL);
    WANT(apd_verify(&code, APD_DATA, NULL, 0, NULL, 0).number, APD_NO_CODE);
    WANT(apd_verify(&code, APD_DATA, seven, 7, NULL, 0).number, APD_LENGTH);
    WANT(apd_verify(&code, 0, seven, 16, NULL, 0).number, APD_OUT_OF_LIMITS);
    WANT(apd_verify(&code, 4, seven, 16, NULL, 0).number, APD_OUT_OF_LIMITS);
    WANT(apd_verify(&code, APD_DATA, seven, 16, &odd, 1).number, APD_OUT_OF_LIMITS);
    WANT(apd_verify(&code, APD_DATA, seven, 16, &none, 1).number, APD_OUT_OF_LIMITS);
    WANT(apd_verify(&code, APD_DATA, seven, 16, many, 17).number, APD_OUT_OF_LIMITS);
    WANT(apd_verify(&code, APD_DATA, bare, 8, NULL, 0).number, 30);
    WANT(apd_verify(&code, APD_DATA, blind, 16, NULL, 0).number, 32);
    WANT(apd_budget(&code), 0);
    WANT(apd_verify(&code, APD_DATA, seven, 16, NULL, 0).number, APD_OK);
    WANT(apd_verify(&code, APD_DATA, seven, 16, NULL, 0).number, APD_NOT_EMPTY);
    WANT(apd_budget(&code), 2);
    WANT(apd_budget(NULL), 0);
    WANT(apd_certify(&code, &code).number, APD_NULL);
    WANT(apd_certify(&other, &other).number, APD_NULL);
    WANT(apd_certify(NULL, &code).number, APD_NULL);
    WANT(apd_check(&other, APD_DATA, seven, 16, NULL, 0, NULL, 0).number, APD_MALFORMED);
    WANT(apd_read(&code, NULL, 0), 0);
    apd_free(&code);
    apd_free(&code);
    apd_free(NULL);
    WANT(apd_certify(&other, &code).number, APD_OTHER_VALUE);
}

static void hostile_limits(void)
{
    apd_handle code = APD_EMPTY;
    apd_shape odd = {1, 1, 5};

    WANT(apd_verify_within(NULL, APD_DATA, seven, 16, NULL, 0, 1).number, APD_NULL);
    WANT(apd_verify_within(&code, APD_DATA, NULL, 16, NULL, 0, 1).number, APD_NULL);
    WANT(apd_verify_within(&code, APD_DATA, seven, 16, &odd, 1, 1).number, APD_OUT_OF_LIMITS);
    WANT(apd_verify_within(&code, APD_DATA, seven, 16, NULL, 0, 1).number, 36);
    WANT(apd_verify_within(&code, APD_DATA, seven, 16, NULL, 0, 2).number, APD_OK);
    WANT(apd_verify_within(&code, APD_DATA, seven, 16, NULL, 0, 2).number, APD_NOT_EMPTY);
    apd_free(&code);
    WANT(apd_verify_within(&code, APD_DATA, seven, 16, NULL, 0, UINT32_MAX).number, APD_OK);
    apd_free(&code);
    WANT(apd_verify_within(&code, APD_DATA, seven, 16, NULL, 0, 0).number, APD_OK);
    apd_free(&code);
}

static void hostile_work(void)
{
    apd_handle code = APD_EMPTY;
    apd_shape odd = {1, 1, 5};

    WANT(apd_verify_limited(NULL, APD_DATA, seven, 16, NULL, 0, 2, 160).number, APD_NULL);
    WANT(apd_verify_limited(&code, APD_DATA, NULL, 16, NULL, 0, 2, 160).number, APD_NULL);
    WANT(apd_verify_limited(&code, APD_DATA, seven, 16, &odd, 1, 2, 160).number, APD_OUT_OF_LIMITS);
    WANT(apd_verify_limited(&code, APD_DATA, bare, 8, NULL, 0, 2, 160).number, 30);
    WANT(apd_verify_limited(&code, APD_DATA, seven, 16, NULL, 0, 2, 159).number, APD_TOO_MUCH);
    WANT(apd_verify_limited(&code, APD_DATA, seven, 16, NULL, 0, 1, 160).number, APD_TOO_MUCH);
    WANT(apd_verify_limited(&code, APD_DATA, seven, 16, NULL, 0, 2, 160).number, APD_OK);
    WANT(apd_verify_limited(&code, APD_DATA, seven, 16, NULL, 0, 2, 160).number, APD_NOT_EMPTY);
    apd_free(&code);
    WANT(apd_verify_limited(&code, APD_DATA, seven, 16, NULL, 0, 0, UINT64_MAX).number, APD_OK);
    apd_free(&code);
    WANT(apd_verify_limited(&code, APD_DATA, seven, 16, NULL, 0, 0, 0).number, APD_OK);
    apd_free(&code);
}

static void hostile_reasons(void)
{
    apd_shape odd = {1, 1, 5};
    char text[400];

    memset(text, 'x', sizeof text);
    WANT(apd_why(APD_DATA, NULL, 16, NULL, 0, 0, text, sizeof text), 0);
    WANT(text[0], 0);
    WANT(apd_why(APD_DATA, seven, 16, NULL, 1, 0, text, sizeof text), 0);
    WANT(apd_why(4, bare, 8, NULL, 0, 0, text, sizeof text), 0);
    WANT(apd_why(APD_DATA, bare, 8, &odd, 1, 0, text, sizeof text), 0);
    WANT(apd_why(APD_DATA, NULL, 0, NULL, 0, 0, NULL, 0) > 0, 1);
    size_t length = apd_why(APD_DATA, blind, 16, NULL, 0, 0, NULL, sizeof text);
    WANT(length > 0 && length < sizeof text, 1);
    memset(text, 'x', sizeof text);
    WANT(apd_why(APD_DATA, blind, 16, NULL, 0, 0, text, 0), length);
    WANT(text[0], 'x');
    WANT(apd_why(APD_DATA, blind, 16, NULL, 0, 0, text, 6), length);
    WANT(strlen(text), 5);
    WANT(text[6], 'x');
    WANT(apd_why(APD_DATA, blind, 16, NULL, 0, 0, text, sizeof text), length);
    WANT(strlen(text), length);
    WANT(strstr(text, "  r1: frame + 0\n") != NULL, 1);
    WANT(apd_why(APD_DATA, seven, 16, NULL, 0, 1, NULL, 0) > 0, 1);
}

static void hostile_certificate(void)
{
    apd_handle code = APD_EMPTY, certificate = APD_EMPTY, again = APD_EMPTY;
    uint8_t bytes[4096];

    WANT(apd_verify(&code, APD_DATA, seven, 16, NULL, 0).number, APD_OK);
    WANT(apd_certify(&certificate, &code).number, APD_OK);
    WANT(apd_certify(&certificate, &code).number, APD_NOT_EMPTY);
    WANT(apd_budget(&certificate), 0);
    size_t length = apd_read(&certificate, bytes, sizeof bytes);
    WANT(length > 0 && length < sizeof bytes, 1);
    memset(bytes, 0xee, sizeof bytes);
    WANT(apd_read(&certificate, bytes, 1), length);
    WANT(bytes[1], 0xee);
    apd_read(&certificate, bytes, sizeof bytes);
    WANT(apd_check(&again, APD_ASSOC, seven, 16, NULL, 0, bytes, length).number, APD_OTHER_CODE);
    WANT(apd_check(&again, APD_DATA, seven, 16, NULL, 0, bytes, length - 1).number, APD_MALFORMED);
    WANT(apd_check(&again, APD_DATA, seven, 16, NULL, 0, bytes, length).number, APD_OK);
    WANT(apd_budget(&again), 2);
    apd_free(&again);
    /* (two states of 80 parts are examined, and no comparison is made) */
    WANT(apd_check_within(NULL, APD_DATA, seven, 16, NULL, 0, bytes, length, 1).number, APD_NULL);
    WANT(apd_check_within(&again, APD_DATA, seven, 16, NULL, 0, NULL, length, 1).number, APD_NULL);
    WANT(apd_check_within(&again, APD_DATA, seven, 16, NULL, 0, bytes, length, 159).number, APD_TOO_MUCH);
    WANT(again.full, 0);
    WANT(apd_check_within(&again, APD_DATA, seven, 16, NULL, 0, bytes, length - 1, 1).number, APD_MALFORMED);
    WANT(apd_check_within(&again, APD_DATA, seven, 16, NULL, 0, bytes, length, 160).number, APD_OK);
    WANT(apd_check_within(&again, APD_DATA, seven, 16, NULL, 0, bytes, length, 1).number, APD_NOT_EMPTY);
    apd_free(&again);
    WANT(apd_check_within(&again, APD_DATA, seven, 16, NULL, 0, bytes, length, UINT64_MAX).number, APD_OK);
    apd_free(&again);
    WANT(apd_check_within(&again, APD_DATA, seven, 16, NULL, 0, bytes, length, 0).number, APD_OK);
    apd_free(&again);
    apd_free(&certificate);
    apd_free(&code);
}

static void hostile_runs(void)
{
    apd_handle code = APD_EMPTY, maps = APD_EMPTY, empty = APD_EMPTY;
    apd_given given = {0, 0, {0, 0, 0, 0, 0, 0, APD_ASSOC}}, crowd = {0, 2008, {0}}, other = {0, 0, {0}};
    uint8_t frame[2401] = {0};

    WANT(apd_verify(&code, APD_ASSOC, seven, 16, NULL, 0).number, APD_OK);
    WANT(apd_maps(&maps, NULL, 0, 0), APD_OK);
    WANT(apd_run(&code, &maps, frame, 2401, &given).number, APD_OUT_OF_LIMITS);
    WANT(apd_run(&code, &maps, frame, 2400, &crowd).number, APD_OUT_OF_LIMITS);
    WANT(apd_run(&code, &maps, frame, 2400, &given).r0, 7);
    WANT(apd_run(&code, &maps, NULL, 0, &given).r0, 7);
    apd_report kept = {0, 0, 0, 0, {9}};
    WANT(apd_run_into(&code, &maps, NULL, 0, &given, NULL), APD_NULL);
    WANT(apd_run_into(&code, &maps, NULL, 0, &given, &kept), APD_OK);
    WANT(kept.r0, 7);
    WANT(kept.steps, 2);
    WANT(kept.count, 0);
    WANT(kept.notes[0], 9);
    WANT(apd_run_into(&code, &maps, NULL, 1, &given, &kept), APD_NULL);
    WANT(apd_run_into(&code, &code, NULL, 0, &given, &kept), APD_NULL);
    WANT(kept.number, APD_NULL);
    WANT(apd_run_into(&code, &maps, NULL, 0, &other, &kept), APD_OTHER_HOOK);
    WANT(apd_run(&code, &maps, NULL, 0, &other).number, APD_OTHER_HOOK);
    other.context[6] = APD_DATA;
    WANT(apd_run(&code, &maps, NULL, 0, &other).number, APD_OTHER_HOOK);
    WANT(apd_run(&code, &maps, NULL, 1, &given).number, APD_NULL);
    WANT(apd_run(&code, &maps, frame, 0, NULL).number, APD_NULL);
    WANT(apd_run(&code, &code, frame, 0, &given).number, APD_NULL);
    WANT(apd_run(&maps, &code, frame, 0, &given).number, APD_OTHER_VALUE);
    WANT(apd_run(&code, &empty, frame, 0, &given).number, APD_OTHER_VALUE);
    WANT(apd_run(&empty, &maps, frame, 0, &given).number, APD_OTHER_VALUE);
    WANT(apd_load(&maps, 0, 0).number, APD_OUT_OF_LIMITS);
    WANT(apd_load(&code, 0, 0).number, APD_OTHER_VALUE);
    WANT(apd_store(NULL, 0, 0, 1), APD_NULL);
    apd_free(&maps);
    apd_free(&code);
}

static void hostile_maps(void)
{
    apd_handle code = APD_EMPTY, maps = APD_EMPTY, wide = APD_EMPTY;
    apd_given given = {0, 0, {0, 0, 0, 0, 0, 0, APD_DATA}};
    apd_shape shape = {2, 1, 8}, narrow = {2, 1, 4};

    WANT(apd_maps(&maps, &narrow, 1, 0), APD_OK);
    WANT(apd_maps(&maps, &narrow, 1, 0), APD_NOT_EMPTY);
    WANT(apd_store(&maps, 0, 1, 0x1ffffffffULL), APD_OK);
    WANT(apd_load(&maps, 0, 1).value, 0xffffffffU);
    WANT(apd_store(&maps, 0, 2, 1), APD_OUT_OF_LIMITS);
    WANT(apd_store(&maps, UINT32_MAX, 0, 1), APD_OUT_OF_LIMITS);
    WANT(apd_fetch_add(&maps, 0, 1, 3).value, 0xffffffffU);
    WANT(apd_exchange(&maps, 0, 1, 0x100000005ULL).value, 2);
    WANT(apd_fetch_or(&maps, 0, 1, 8).value, 5);
    WANT(apd_fetch_and(&maps, 0, 1, 12).value, 13);
    WANT(apd_fetch_xor(&maps, 0, 1, 0x1fffffff0ULL).value, 12);
    WANT(apd_compare_exchange(&maps, 0, 1, 0x1fffffffcULL, 0x300000007ULL).value, 0xfffffffcU);
    WANT(apd_compare_exchange(&maps, 0, 1, 8, 9).value, 7);
    WANT(apd_load(&maps, 0, 1).value, 7);
    WANT(apd_load(&maps, 0, 0).value, 0);
    WANT(apd_fetch_add(&maps, 0, 2, 1).number, APD_OUT_OF_LIMITS);
    WANT(apd_fetch_or(&maps, 1, 0, 1).number, APD_OUT_OF_LIMITS);
    WANT(apd_exchange(NULL, 0, 0, 1).number, APD_NULL);
    WANT(apd_compare_exchange(&code, 0, 0, 0, 1).number, APD_OTHER_VALUE);
    WANT(apd_verify(&code, APD_DATA, adds, 72, &shape, 1).number, APD_OK);
    WANT(apd_run(&code, &maps, NULL, 0, &given).number, APD_OTHER_MAPS);
    WANT(apd_maps(&wide, &shape, 1, 0), APD_OK);
    WANT(apd_store(&wide, 0, 1, 9), APD_OK);
    WANT(apd_run(&code, &wide, NULL, 0, &given).r0, 14);
    WANT(apd_load(&wide, 0, 1).value, 14);
    WANT(apd_load(&wide, 0, 0).value, 0);
    WANT(apd_fetch_add(&wide, 0, 1, UINT64_MAX).value, 14);
    WANT(apd_compare_exchange(&wide, 0, 1, 13, UINT64_MAX).value, 13);
    WANT(apd_load(&wide, 0, 1).value, UINT64_MAX);
    apd_free(&wide);
    apd_free(&maps);
    apd_free(&code);
}

static pthread_mutex_t turn = PTHREAD_MUTEX_INITIALIZER;

static void *count(void *maps)
{
    for (int at = 0; at < 1000; at++) {
        pthread_mutex_lock(&turn);
        apd_fetch_add(maps, 0, 0, 1);
        pthread_mutex_unlock(&turn);
    }
    return NULL;
}

/* Two threads take turns at one handle. */
static void handed_over(void)
{
    apd_handle maps = APD_EMPTY;
    apd_shape shape = {1, 1, 8};
    pthread_t threads[2];

    WANT(apd_maps(&maps, &shape, 1, 0), APD_OK);
    for (int at = 0; at < 2; at++)
        WANT(pthread_create(&threads[at], NULL, count, &maps), 0);
    for (int at = 0; at < 2; at++)
        WANT(pthread_join(threads[at], NULL), 0);
    WANT(apd_load(&maps, 0, 0).value, 2000);
    apd_free(&maps);
}

static void many_notes(void)
{
    apd_handle code = APD_EMPTY, maps = APD_EMPTY;
    apd_given given = {0, 0, {0, 0, 0, 0, 0, 0, APD_ADDBA}};

    for (int at = 0; at < 17; at++) {
        memcpy(notes + 16 * at, (uint8_t[]){0xb7, 1, 0, 0, (uint8_t)(at + 1), 0, 0, 0}, 8);
        memcpy(notes + 16 * at + 8, (uint8_t[]){0x85, 0, 0, 0, 5, 0, 0, 0}, 8);
    }
    notes[8 * 34] = 0xb7;
    notes[8 * 35] = 0x95;
    WANT(apd_verify(&code, APD_ADDBA, notes, 8 * 36, NULL, 0).number, APD_OK);
    WANT(apd_maps(&maps, NULL, 0, 0), APD_OK);
    apd_report report = apd_run(&code, &maps, NULL, 0, &given);
    WANT(report.number, APD_OK);
    WANT(report.steps, 36);
    WANT(report.count, 16);
    WANT(report.notes[0], 1);
    WANT(report.notes[15], 16);
    apd_free(&maps);
    apd_free(&code);
}

static const apd_network lab = {{2, 0, 0, 0, 0, 1}, 3, "lab", 4, {0x82, 0x84, 0x8b, 0x96}};

static void hostile_links(void)
{
    apd_handle link = APD_EMPTY, code = APD_EMPTY, other = APD_EMPTY, maps = APD_EMPTY;
    apd_network named = lab, rated = lab, none = lab;
    apd_shape shape = {1, 1, 8}, odd = {1, 1, 5};

    named.name_length = 33;
    rated.rate_count = 9;
    none.rate_count = 0;
    WANT(apd_link(NULL, &lab, NULL, 0), APD_NULL);
    WANT(apd_link(&link, NULL, NULL, 0), APD_NULL);
    WANT(apd_link(&link, &lab, NULL, 1), APD_NULL);
    WANT(apd_link(&link, &named, NULL, 0), APD_OUT_OF_LIMITS);
    WANT(apd_link(&link, &rated, NULL, 0), APD_OUT_OF_LIMITS);
    WANT(apd_link(&link, &none, NULL, 0), APD_OUT_OF_LIMITS);
    WANT(apd_link(&link, &lab, &odd, 1), APD_OUT_OF_LIMITS);
    WANT(apd_link(&link, &lab, NULL, 0), APD_OK);
    WANT(apd_link(&link, &lab, NULL, 0), APD_NOT_EMPTY);
    WANT(apd_verify(&code, APD_ASSOC, seven, 16, NULL, 0).number, APD_OK);
    WANT(apd_verify(&other, APD_DATA, seven, 16, &shape, 1).number, APD_OK);
    WANT(apd_maps(&maps, NULL, 0, 0), APD_OK);
    WANT(apd_link_load(&link, APD_ASSOC, NULL), APD_NULL);
    WANT(apd_link_load(&link, APD_ASSOC, &link), APD_NULL);
    WANT(apd_link_load(&link, 0, &code), APD_OUT_OF_LIMITS);
    WANT(apd_link_load(&link, APD_DATA, &code), APD_OTHER_HOOK);
    WANT(apd_link_load(&link, APD_DATA, &other), APD_OTHER_MAPS);
    WANT(apd_link_load(&link, APD_DATA, &maps), APD_OTHER_VALUE);
    WANT(apd_link_load(&maps, APD_ASSOC, &code), APD_OTHER_VALUE);
    WANT(apd_budget(&code), 2);
    WANT(apd_link_load(&link, APD_ASSOC, &code), APD_OK);
    WANT(code.full, 0);
    WANT(apd_link_load(&link, APD_ASSOC, &code), APD_OTHER_VALUE);
    WANT(apd_link_unload(NULL, APD_ASSOC), APD_NULL);
    WANT(apd_link_unload(&link, 4), APD_OUT_OF_LIMITS);
    WANT(apd_link_unload(&maps, APD_ASSOC), APD_OTHER_VALUE);
    WANT(apd_link_unload(&code, APD_ASSOC), APD_OTHER_VALUE);
    WANT(apd_link_unload(&link, APD_ASSOC), APD_OK);
    WANT(apd_link_unload(&link, APD_ASSOC), APD_OK);
    apd_free(&maps);
    apd_free(&other);
    apd_free(&link);
}

static void hostile_events(void)
{
    apd_handle link = APD_EMPTY, maps = APD_EMPTY, wide = APD_EMPTY, outs = APD_EMPTY;
    apd_station station = {{2, 0, 0, 0, 0, 10}};
    apd_shape shape = {1, 1, 8};
    uint8_t frame[2401] = {0}, byte = 0xee;

    WANT(apd_link(&link, &lab, NULL, 0), APD_OK);
    WANT(apd_maps(&maps, NULL, 0, 0), APD_OK);
    WANT(apd_maps(&wide, &shape, 1, 0), APD_OK);
    WANT(apd_link_frame(&link, &maps, NULL, frame, 1, 0), APD_NULL);
    WANT(apd_link_frame(&link, &maps, &maps, frame, 1, 0), APD_NULL);
    WANT(apd_link_frame(&link, &link, &outs, frame, 1, 0), APD_NULL);
    WANT(apd_link_frame(&link, &maps, &outs, NULL, 1, 0), APD_NULL);
    WANT(apd_link_frame(&link, &maps, &outs, frame, 2401, 0), APD_OUT_OF_LIMITS);
    WANT(apd_link_frame(&link, &maps, &wide, frame, 1, 0), APD_NOT_EMPTY);
    WANT(apd_link_frame(&link, &wide, &outs, frame, 1, 0), APD_OTHER_MAPS);
    WANT(apd_link_frame(&maps, &link, &outs, frame, 1, 0), APD_OTHER_VALUE);
    WANT(apd_link_frame_into(&link, &maps, NULL, frame, 1, 0), APD_NULL);
    WANT(apd_link_frame_into(&link, &maps, &link, frame, 1, 0), APD_NULL);
    WANT(apd_link_frame_into(&link, &maps, &outs, NULL, 1, 0), APD_NULL);
    WANT(apd_link_frame_into(&link, &maps, &outs, frame, 2401, 0), APD_OUT_OF_LIMITS);
    WANT(apd_link_frame_into(&link, &maps, &wide, frame, 1, 0), APD_NOT_EMPTY);
    WANT(apd_link_frame_into(&link, &wide, &outs, frame, 1, 0), APD_OTHER_MAPS);
    WANT(apd_link_frame_into(&maps, &link, &outs, frame, 1, 0), APD_OTHER_VALUE);
    WANT(apd_link_kick(&link, &maps, &outs, NULL, 1, 0), APD_NULL);
    WANT(apd_link_close(&link, &maps, &outs, &station, 8, 0), APD_OUT_OF_LIMITS);
    WANT(apd_outs(&outs), 0);
    WANT(apd_link_frame(&link, &maps, &outs, NULL, 0, UINT64_MAX), APD_OK);
    WANT(apd_link_frame(&link, &maps, &outs, NULL, 0, 0), APD_NOT_EMPTY);
    WANT(apd_outs(&outs), 1);
    WANT(apd_out_at(&outs, 0).kind, APD_NOTE);
    WANT(apd_out_at(&outs, 0).note, 50);
    WANT(apd_out_at(&outs, 0).user, UINT64_MAX);
    WANT(apd_out_at(&outs, 1).kind, APD_NOTHING);
    WANT(apd_out_at(&outs, 1).user, 0);
    WANT(apd_out_at(&maps, 0).kind, APD_NOTHING);
    WANT(apd_out_bytes(&outs, 0, &byte, 1), 0);
    WANT(byte, 0xee);
    WANT(apd_link_frame_into(&link, &wide, &outs, frame, 1, 1), APD_OTHER_MAPS);
    WANT(apd_out_at(&outs, 0).user, UINT64_MAX);
    WANT(apd_link_frame_into(&link, &maps, &outs, NULL, 0, 1), APD_OK);
    WANT(apd_outs(&outs), 1);
    WANT(apd_out_at(&outs, 0).user, 1);
    apd_free(&outs);
    WANT(apd_link_frame_into(&link, &maps, &outs, NULL, 0, 2), APD_OK);
    WANT(apd_out_at(&outs, 0).user, 2);
    apd_free(&outs);
    WANT(apd_link_frame(&link, &maps, &outs, frame, 2400, 0), APD_OK);
    apd_free(&outs);
    WANT(apd_link_kick(&link, &maps, &outs, &station, 1, 0), APD_OK);
    WANT(apd_out_at(&outs, 0).note, 63);
    apd_free(&outs);
    WANT(apd_link_tick(&link, &maps, &outs, UINT32_MAX, 0), APD_OK);
    WANT(apd_outs(&outs), 0);
    apd_free(&outs);
    apd_free(&wide);
    apd_free(&maps);
    apd_free(&link);
}

/* An authentication by one of 500 stations. */
static void authenticate(apd_handle *link, apd_handle *maps, unsigned number)
{
    uint8_t frame[30] = {0xb0, 0, 0, 0, 2, 0, 0, 0, 0, 1, 2, 0, 0, 0, (uint8_t)(number >> 8), (uint8_t)number,
                         2, 0, 0, 0, 0, 1, 0x10, 0, 0, 0, 1};
    apd_handle outs = APD_EMPTY;

    WANT(apd_link_frame(link, maps, &outs, frame, sizeof frame, number), APD_OK);
    WANT(apd_outs(&outs), 1);
    WANT(apd_out_at(&outs, 0).kind, APD_SEND);
    WANT(apd_out_at(&outs, 0).user, number);
    apd_free(&outs);
}

static void hostile_lists(void)
{
    apd_handle link = APD_EMPTY, maps = APD_EMPTY, list = APD_EMPTY, more = APD_EMPTY;

    WANT(apd_maps(&maps, NULL, 0, 0), APD_OK);
    WANT(apd_link_stations(&link, &list), APD_OTHER_VALUE);
    WANT(apd_link(&link, &lab, NULL, 0), APD_OK);
    WANT(apd_link_stations(NULL, &list), APD_NULL);
    WANT(apd_link_stations(&link, NULL), APD_NULL);
    WANT(apd_link_stations(&link, &link), APD_NULL);
    WANT(apd_link_stations(&maps, &list), APD_OTHER_VALUE);
    WANT(apd_link_stations(&link, &maps), APD_NOT_EMPTY);
    WANT(apd_link_agreements(&link, &link), APD_NULL);
    WANT(apd_link_agreements(&maps, &list), APD_OTHER_VALUE);
    WANT(apd_link_agreements(&link, &maps), APD_NOT_EMPTY);
    WANT(list.full, 0);
    for (unsigned number = 500; number > 0; number--)
        authenticate(&link, &maps, number);
    WANT(apd_link_stations(&link, &list), APD_OK);
    WANT(apd_link_stations(&link, &list), APD_NOT_EMPTY);
    WANT(apd_link_agreements(&link, &more), APD_OK);
    WANT(apd_station_count(&list), 500);
    for (unsigned at = 0; at < 500; at++) {
        apd_standing row = apd_station_at(&list, at);
        WANT(row.station.octets[4] * 256 + row.station.octets[5], at + 1);
        WANT(row.state, 2);
        WANT(row.aid, 0);
    }
    WANT(apd_station_at(&list, 500).state, 0);
    WANT(apd_station_at(&list, SIZE_MAX).state, 0);
    WANT(apd_station_at(NULL, 0).state, 0);
    WANT(apd_station_at(&link, 0).state, 0);
    WANT(apd_station_at(&more, 0).state, 0);
    WANT(apd_station_count(&more), 0);
    WANT(apd_station_count(&link), 0);
    WANT(apd_station_count(NULL), 0);
    WANT(apd_agreement_count(&more), 0);
    WANT(apd_agreement_count(&list), 0);
    WANT(apd_agreement_count(NULL), 0);
    WANT(apd_agreement_at(&more, 0).size, 0);
    WANT(apd_agreement_at(&list, 0).size, 0);
    WANT(apd_agreement_at(NULL, 0).size, 0);
    WANT(apd_outs(&list), 0);
    WANT(apd_read(&list, NULL, 0), 0);
    apd_free(&more);
    apd_free(&list);
    apd_free(&maps);
    apd_free(&link);
}

static void hostile_texts(void)
{
    char text[40];

    WANT(apd_explain(APD_OTHER_HOOK, NULL, 9), 31);
    WANT(apd_explain(APD_OTHER_HOOK, text, 0), 31);
    WANT(apd_explain(APD_OTHER_HOOK, text, sizeof text), 31);
    WANT(strcmp(text, "the program is for another hook"), 0);
    WANT(apd_explain(APD_OTHER_HOOK, text, 12), 31);
    WANT(strcmp(text, "the program"), 0);
    WANT(apd_explain(APD_OK, text, sizeof text), 0);
    WANT(text[0], 0);
    WANT(apd_explain(UINT32_MAX, text, 1), 0);
}

int main(void)
{
    hostile_code();
    hostile_limits();
    hostile_work();
    hostile_texts();
    hostile_reasons();
    hostile_certificate();
    hostile_runs();
    hostile_maps();
    handed_over();
    many_notes();
    hostile_links();
    hostile_events();
    hostile_lists();
    if (!failed)
        printf("all as wanted\n");
    return failed;
}
