/* Prints each number that calls answer, and what it means. */
#include <apd.h>
#include <stdio.h>

int main(void)
{
    char text[80];

    for (uint32_t number = 0; number < 256; number++)
        if (apd_explain(number, text, sizeof text))
            printf("%u: %s\n", (unsigned)number, text);
    return 0;
}
