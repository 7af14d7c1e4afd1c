/* Reads a policy's code: hex digits with white space between, as policies/Makefile writes it. */
#ifndef POLICY_FILE_H
#define POLICY_FILE_H

#include <ctype.h>
#include <stdint.h>
#include <stdio.h>
#include <stdlib.h>

enum { POLICY_MOST = 16384 * 8 };

static int policy_digit(int c)
{
    return isdigit(c) ? c - '0' : tolower(c) - 'a' + 10;
}

/* The bytes of a file, in memory that the caller frees; NULL where it can't be read or isn't hex. */
static uint8_t *policy_read(const char *path, size_t *length)
{
    FILE *file = fopen(path, "r");
    uint8_t *code = malloc(POLICY_MOST);
    size_t count = 0;
    int c, high = -1, ok = file && code;

    while (ok && (c = getc(file)) != EOF) {
        if (isspace(c))
            continue;
        ok = isxdigit(c) && count < POLICY_MOST;
        if (ok && high < 0) {
            high = policy_digit(c);
        } else if (ok) {
            code[count++] = (uint8_t)(high << 4 | policy_digit(c));
            high = -1;
        }
    }
    if (file)
        fclose(file);
    if (!ok || high >= 0) {
        free(code);
        return NULL;
    }
    *length = count;
    return code;
}

#endif
