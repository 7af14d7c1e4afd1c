/*
 * policy_capture HOOK POLICY CAPTURE [ENTRIES WORDS WIDTH]
 *
 * Verifies a policy for a hook (assoc, addba or data), runs it on each such frame of a capture (IEEE 802.11, with radiotap
 * headers or without), and prints each verdict: R0, the steps and what the policy noted. With a map's shape the policy has
 * that map, and its words that aren't 0 are printed at the end, after how many frames were longer than is judged.
 */
#include <apd.h>
#include <pcap/pcap.h>
#include <string.h>

#include "policy_file.h"
#include "radiotap.h"

static int fail(const char *what, uint32_t number)
{
    fprintf(stderr, "policy_capture: %s (%u)\n", what, (unsigned)number);
    return 1;
}

static const char *const hooks[] = {"", "assoc", "addba", "data"};

/* The number of a hook by its name, 0 where there is none. */
static unsigned hook_of(const char *name)
{
    for (unsigned hook = APD_ASSOC; hook <= APD_DATA; hook++)
        if (strcmp(name, hooks[hook]) == 0)
            return hook;
    return 0;
}

static uint16_t number_at(const uint8_t *bytes)
{
    return (uint16_t)(bytes[0] | bytes[1] << 8);
}

/* The hook that a frame is for, 0 where it is for none. */
static unsigned hook_for(const uint8_t *frame, size_t length)
{
    if (length < 24)
        return 0;
    if ((frame[0] & 0x0c) == 0x08)
        return APD_DATA;
    if ((frame[0] & 0xfc) == 0x00 || (frame[0] & 0xfc) == 0x20)
        return length >= 28 ? APD_ASSOC : 0;
    if ((frame[0] & 0xfc) == 0xd0 && length >= 33 && frame[24] == 3 && frame[25] == 0)
        return APD_ADDBA;
    return 0;
}

/* What a frame of a hook says of itself. What an access point knows beside, as the association's number, is left 0; a
   station is taken to stand where such frames are permitted. */
static struct apd_context context_of(unsigned hook, const uint8_t *frame, size_t length)
{
    struct apd_context context;

    memset(&context, 0, sizeof context);
    memcpy(context.station, frame + 10, 6);
    context.hook = (unsigned char)hook;
    context.state = hook == APD_ASSOC ? APD_AUTHENTICATED : APD_ASSOCIATED;
    context.tid = APD_NO_TID;
    if (hook == APD_ASSOC) {
        context.association.capability = number_at(frame + 24);
        context.association.listen_interval = number_at(frame + 26);
        context.association.is_reassociation = (frame[0] & 0xfc) == 0x20;
    } else if (hook == APD_ADDBA) {
        context.tid = frame[27] >> 2 & 7;
        context.addba.size = number_at(frame + 27) >> 6;
        context.addba.timeout = number_at(frame + 29);
        context.addba.start = number_at(frame + 31) >> 4;
    } else {
        if (length >= 26 && frame[0] & 0x80)
            context.tid = frame[24] & 7;
        context.data.number = number_at(frame + 22) >> 4;
    }
    return context;
}

static void print_report(unsigned number, const apd_report *report)
{
    printf("frame %u r0 %llu steps %u", number, (unsigned long long)report->r0, (unsigned)report->steps);
    for (size_t at = 0; at < report->count; at++)
        printf(" note %llu", (unsigned long long)report->notes[at]);
    printf("\n");
}

/* Judges a frame if it is for that hook. Answers the number of a refusal. */
static uint32_t judge(unsigned number, unsigned hook, radiotap got, apd_handle *code, apd_handle *maps)
{
    if (hook_for(got.frame, got.length) != hook)
        return APD_OK;

    struct apd_context context = context_of(hook, got.frame, got.length);
    apd_given given = apd_given_of(0, 0, &context);
    apd_report report = apd_run(code, maps, got.frame, got.length, &given);

    if (report.number == APD_OK)
        print_report(number, &report);
    return report.number;
}

static int run_all(pcap_t *capture, unsigned hook, apd_handle *code, apd_handle *maps)
{
    struct pcap_pkthdr *header;
    const uint8_t *bytes;
    unsigned number = 0, longer = 0;
    int has_header = pcap_datalink(capture) == DLT_IEEE802_11_RADIO, got;

    while ((got = pcap_next_ex(capture, &header, &bytes)) == 1) {
        radiotap plain = {bytes, header->caplen};
        radiotap frame = has_header ? radiotap_frame(bytes, header->caplen) : plain;

        number++;
        if (frame.length > APD_FRAME_MOST) {
            longer++;
            continue;
        }
        uint32_t refused = judge(number, hook, frame, code, maps);
        if (refused)
            return fail("the frame can't be judged", refused);
    }
    if (longer)
        printf("skipped %u frames of more than %u bytes\n", longer, (unsigned)APD_FRAME_MOST);
    return got == PCAP_ERROR_BREAK ? 0 : fail(pcap_geterr(capture), 0);
}

static void print_words(apd_handle *maps, const apd_shape *shape)
{
    for (uint32_t word = 0; word < shape->entries * shape->words; word++) {
        apd_loaded loaded = apd_load(maps, 0, word);
        if (loaded.number == 0 && loaded.value != 0)
            printf("word %u %llu\n", (unsigned)word, (unsigned long long)loaded.value);
    }
}

/* Verifies the policy of a file for a hook and, where there is one, a map, and makes the map. */
static int prepare(const char *policy, unsigned hook, const apd_shape *shape, size_t count, apd_handle *code,
                   apd_handle *maps)
{
    size_t length = 0;
    uint8_t *bytes = policy_read(policy, &length);

    if (!bytes)
        return fail("the policy can't be read", 0);
    apd_answer answer = apd_verify(code, hook, bytes, length, shape, count);
    free(bytes);
    if (answer.number) {
        fprintf(stderr, "policy_capture: %u at %zu\n", (unsigned)answer.number, answer.slot);
        return 1;
    }
    uint32_t made = apd_maps(maps, shape, count, 1);
    if (made)
        return fail("no maps", made);
    printf("accepted budget %u\n", (unsigned)apd_budget(code));
    return 0;
}

int main(int argc, char **argv)
{
    char error[PCAP_ERRBUF_SIZE];
    apd_handle code = APD_EMPTY, maps = APD_EMPTY;
    apd_shape shape = {0, 0, 0};
    unsigned hook = argc == 4 || argc == 7 ? hook_of(argv[1]) : 0;

    if (!hook) {
        fprintf(stderr, "usage: policy_capture assoc|addba|data POLICY CAPTURE [ENTRIES WORDS WIDTH]\n");
        return 2;
    }
    if (argc == 7) {
        shape.entries = (uint32_t)strtoul(argv[4], NULL, 10);
        shape.words = (uint32_t)strtoul(argv[5], NULL, 10);
        shape.width = (uint32_t)strtoul(argv[6], NULL, 10);
    }
    int status = prepare(argv[2], hook, &shape, argc == 7, &code, &maps);
    pcap_t *capture = status ? NULL : pcap_open_offline(argv[3], error);

    if (capture) {
        status = run_all(capture, hook, &code, &maps);
        pcap_close(capture);
        print_words(&maps, &shape);
    } else if (!status) {
        status = fail(error, 0);
    }
    apd_free(&maps);
    apd_free(&code);
    return status;
}
