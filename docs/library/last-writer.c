/* The last writer of a word: the newest action that wrote cell 0020 of processor 0, and the places that it read. */
#include "pp6600.h"

#include <stdio.h>
#include <string.h>

enum { CELL = PP6600_CELLS + 020, LINKS = 44 };
static const char script[] = "SET M 0 100 1407 3420 0300\nSET P 0 100\nSTEP 100\n"; /* LDN 7, STD 20, a jump to itself */

int main(void) {
    pp6600 session = {0};
    uint8_t text[112] = {0};
    pp6600_origin_turn turn;
    pp6600_link links[LINKS];
    size_t taken, count;
    uint32_t newer, lines, refused;
    if (pp6600_open(10000, 131072, 10, 11, text, 0, text, 0, &session, text, sizeof text, &count, &newer) != PP6600_DONE) return 1;
    pp6600_answer(&session, (const uint8_t *)script, strlen(script), text, sizeof text, &taken, &count, &lines, &refused);
    if (pp6600_last_write(&session, CELL, 1, &newer, &turn, links, LINKS) != PP6600_DONE) return 1;
    printf("%o turns before: processor %u, %04o %04o\n", (unsigned)newer, turn.processor, (unsigned)turn.address, (unsigned)turn.word);
    for (unsigned at = 0; at < turn.links; at++)
        if (links[at].place == CELL) printf("it read place %u\n", (unsigned)links[at].source);
    return pp6600_close(&session) == PP6600_DONE ? 0 : 1;
}
