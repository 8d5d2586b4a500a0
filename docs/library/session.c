/* A session in C: a count in processor 0, its turns with what they overwrote, and the way back. */
#include "pp6600.h"

#include <stdio.h>
#include <string.h>

static const char script[] = "SET M 0 100 3410 0376\nSET P 0 100\nSTEP 50\nDUMP PP 0\n";

int main(void) {
    pp6600 session = {0};
    uint8_t text[4096];
    size_t count, taken;
    uint32_t status, lines, refused;
    if (pp6600_open(10000, 131072, 10, 11, (const uint8_t *)"", 0, (const uint8_t *)"", 0, &session, text, sizeof text, &count,
            &status) != PP6600_DONE) {
        fprintf(stderr, "%.*s\n", (int)count, (const char *)text);
        return (int)status;
    }
    pp6600_answer(&session, (const uint8_t *)script, strlen(script), text, sizeof text, &taken, &count, &lines, &refused);
    printf("%.*s", (int)count, (const char *)text);

    static pp6600_turn made[10];
    static pp6600_old olds[76 * 10];
    size_t turns, used, at = 0;
    pp6600_turns(&session, 10, made, 10, olds, 76 * 10, &turns, &used);
    for (size_t turn = 0; turn < turns; turn++)
        for (uint32_t i = 0; i < made[turn].count; i++, at++)
            printf("processor %u: place %u was %llo\n", (unsigned)made[turn].processor, (unsigned)olds[at].place,
                (unsigned long long)olds[at].number);

    uint64_t p;
    pp6600_back(&session, 10);
    pp6600_numbers(&session, PP6600_P, &p, 1);
    printf("P of processor 0 is %04llo\n", (unsigned long long)p);
    return pp6600_close(&session) == PP6600_DONE ? 0 : 1;
}
