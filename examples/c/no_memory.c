/* Each allocation of a life of handles is refused in turn: the call answers 40 and changes nothing, and the same call again
   has its answer. Linked with --wrap=malloc --wrap=realloc. */
#include <apd.h>
#include <stdio.h>
#include <stdlib.h>

void *__real_malloc(size_t size);
void *__real_realloc(void *block, size_t size);

static long left = -1;

static int refuses(void)
{
    return left >= 0 && left-- == 0;
}

void *__wrap_malloc(size_t size)
{
    return refuses() ? NULL : __real_malloc(size);
}

void *__wrap_realloc(void *block, size_t size)
{
    return refuses() ? NULL : __real_realloc(block, size);
}

/* mov r0, 7; exit */
static const uint8_t seven[16] = {0xb7, 0, 0, 0, 7, 0, 0, 0, 0x95};

/* Whether there is no text exactly where an allocation is refused. */
static int tells_why(void)
{
    long before = left;
    size_t length = apd_why(APD_DATA, seven + 8, 8, NULL, 0, 0, NULL, 0);

    return (length == 0) == (before >= 0 && left < 0);
}

/* One life, in which the allocation of that number is refused. Answers whether it was, -1 where an answer is wrong. */
static int live(long refused)
{
    apd_handle code = APD_EMPTY, maps = APD_EMPTY, certificate = APD_EMPTY, again = APD_EMPTY;
    apd_given given = {0, 0, {0, 0, 0, 0, 0, 0, APD_DATA}};
    apd_shape shape = {2, 1, 8};
    uint8_t bytes[4096];
    uint32_t number;
    int ok = 1;

    left = refused;
    number = apd_verify(&code, APD_DATA, seven, 16, &shape, 1).number;
    if (number)
        ok = number == APD_NO_MEMORY && !code.full && !apd_verify(&code, APD_DATA, seven, 16, &shape, 1).number;
    number = apd_maps(&maps, &shape, 1, 0);
    if (ok && number)
        ok = number == APD_NO_MEMORY && !maps.full && !apd_maps(&maps, &shape, 1, 0);
    number = apd_certify(&certificate, &code).number;
    if (ok && number)
        ok = number == APD_NO_MEMORY && !certificate.full && !apd_certify(&certificate, &code).number;
    size_t length = apd_read(&certificate, bytes, sizeof bytes);
    number = apd_check(&again, APD_DATA, seven, 16, &shape, 1, bytes, length).number;
    if (ok && number)
        ok = number == APD_NO_MEMORY && !again.full
             && !apd_check(&again, APD_DATA, seven, 16, &shape, 1, bytes, length).number;
    ok = ok && tells_why() && apd_run(&again, &maps, NULL, 0, &given).r0 == 7 && apd_budget(&code) == 2;
    apd_free(&again);
    apd_free(&certificate);
    apd_free(&maps);
    apd_free(&code);
    return ok ? left < 0 : -1;
}

/* A frame in hex. */
static size_t spelled(const char *hex, uint8_t *frame)
{
    size_t length = 0;

    for (; hex[2 * length]; length++) {
        char pair[3] = {hex[2 * length], hex[2 * length + 1], 0};
        frame[length] = (uint8_t)strtoul(pair, NULL, 16);
    }
    return length;
}

/* What a station sends: it authenticates, associates, asks for an agreement, and leaves a gap in its data. */
static const char *const frames[] = {
    "b000000002000000000102000000000a0200000000011000000001000000",
    "0000000002000000000102000000000a020000000001200001000a0000036c6162010482848b96",
    "d000000002000000000102000000000a020000000001400003000702010a004006",
    "8801000002000000000102000000000a0200000000ff700600006c617465",
};

/* An access point's life, in which the allocation of that number is refused: as above. */
static int serve(long refused)
{
    static const apd_network lab = {{2, 0, 0, 0, 0, 1}, 3, "lab", 4, {0x82, 0x84, 0x8b, 0x96}};
    apd_handle code = APD_EMPTY, link = APD_EMPTY, maps = APD_EMPTY, outs = APD_EMPTY;
    uint8_t frame[APD_FRAME_MOST];
    size_t count = 0;
    left = -1;
    int ok = !apd_maps(&maps, NULL, 0, 0) && !apd_verify(&code, APD_ASSOC, seven, 16, NULL, 0).number;

    left = refused;
    uint32_t number = apd_link(&link, &lab, NULL, 0);
    if (ok && number)
        ok = number == APD_NO_MEMORY && !link.full && !apd_link(&link, &lab, NULL, 0);
    for (int at = 0; ok && at < 4; at++) {
        size_t length = spelled(frames[at], frame);

        number = apd_link_frame(&link, &maps, &outs, frame, length, 7);
        if (number)
            ok = number == APD_NO_MEMORY && !outs.full && !apd_link_frame(&link, &maps, &outs, frame, length, 7);
        count += apd_outs(&outs);
        if (ok && !at && apd_link_frame_into(&link, &maps, &outs, frame, length, 8))
            ok = apd_out_at(&outs, 0).user == 7 && !apd_link_frame_into(&link, &maps, &outs, frame, length, 8);
        ok = ok && (at || apd_out_at(&outs, 0).user == 8);
        apd_free(&outs);
    }
    number = apd_link_tick(&link, &maps, &outs, 10, 7);
    if (ok && number)
        ok = number == APD_NO_MEMORY && !outs.full && !apd_link_tick(&link, &maps, &outs, 10, 7);
    count += apd_outs(&outs);
    apd_free(&outs);
    number = apd_link_stations(&link, &outs);
    if (ok && number)
        ok = number == APD_NO_MEMORY && !outs.full && !apd_link_stations(&link, &outs);
    ok = ok && apd_station_count(&outs) == 1 && apd_station_at(&outs, 0).state == 3;
    apd_free(&outs);
    number = apd_link_agreements(&link, &outs);
    if (ok && number)
        ok = number == APD_NO_MEMORY && !outs.full && !apd_link_agreements(&link, &outs);
    ok = ok && apd_agreement_count(&outs) <= 1;
    apd_free(&outs);
    ok = ok && count == 5 && !apd_link_load(&link, APD_ASSOC, &code);
    apd_free(&maps);
    apd_free(&link);
    apd_free(&code);
    return ok ? left < 0 : -1;
}

static int try_each(int (*life)(long))
{
    for (long refused = 0; refused < 10000; refused++) {
        int was = life(refused);
        if (was < 0) {
            printf("allocation %ld: another answer than is wanted\n", refused);
            return 1;
        }
        if (was == 0)
            return 0;
    }
    printf("no end\n");
    return 1;
}

int main(void)
{
    if (try_each(live) || try_each(serve))
        return 1;
    printf("all as wanted\n");
    return 0;
}
