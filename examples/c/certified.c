/*
 * certified POLICY
 *
 * Verifies a policy for data frames over no maps, makes its certificate, and lets a second handle in by the certificate.
 */
#include <apd.h>
#include <stdio.h>

#include "policy_file.h"

int main(int argc, char **argv)
{
    apd_handle code = APD_EMPTY, certificate = APD_EMPTY, again = APD_EMPTY;
    size_t length = 0;

    if (argc != 2) {
        fprintf(stderr, "usage: certified POLICY\n");
        return 2;
    }
    uint8_t *bytes = policy_read(argv[1], &length);
    if (!bytes)
        return 2;
    apd_answer answer = apd_verify(&code, APD_DATA, bytes, length, NULL, 0);
    if (answer.number == 0)
        answer = apd_certify(&certificate, &code);
    size_t room = apd_read(&certificate, NULL, 0);
    uint8_t *spelled = malloc(room + 1);
    if (answer.number == 0 && spelled) {
        apd_read(&certificate, spelled, room);
        answer = apd_check(&again, APD_DATA, bytes, length, NULL, 0, spelled, room);
    }
    if (answer.number)
        printf("refused %u at %zu\n", (unsigned)answer.number, answer.slot);
    else
        printf("budget %u, by a certificate of %zu bytes %u\n", (unsigned)apd_budget(&code), room,
               (unsigned)apd_budget(&again));
    apd_free(&again);
    apd_free(&certificate);
    apd_free(&code);
    free(spelled);
    free(bytes);
    return answer.number != 0;
}
