/* Searches: the turn in which a count comes to 3, the last turn before in which it changed, and where its next number comes from. */
#include "pp6600.h"

#include <stdio.h>
#include <string.h>

enum { COUNT = PP6600_CELLS + 010 };
static const char script[] = "SET M 0 100 3610 0376\nSET P 0 100\n"; /* AOD 10, UJN back */

int main(void) {
    pp6600 session = {0};
    const pp6600_form three[] = {{PP6600_INSIDE, COUNT, 3, 3}}, changes[] = {{PP6600_CHANGES, COUNT, 1, 0}};
    const pp6600_form never[] = {{PP6600_PERFORMS, 0, 0105, 0}, {PP6600_OR, 0, 0, 0}, {PP6600_WAITS, 0, 0, 0}};
    uint8_t text[112] = {0};
    pp6600_origin_turn turn;
    pp6600_link links[33];
    uint64_t control[7];
    size_t taken, count, places;
    uint32_t status, made, undone;
    if (pp6600_open(10000, 131072, 10, 11, text, 0, text, 0, &session, text, sizeof text, &count, &status) != PP6600_DONE) return 1;
    if (pp6600_answer(&session, (const uint8_t *)script, strlen(script), text, sizeof text, &taken, &count, &made, &undone) != PP6600_DONE)
        return 1;
    status = pp6600_until(&session, three, 1, 1000, &made);
    printf("until it is 3: status %u, %u turns\n", (unsigned)status, (unsigned)made);
    status = pp6600_back_until(&session, changes, 1, &undone);
    printf("back to its last change: status %u, %u turns undone\n", (unsigned)status, (unsigned)undone);
    status = pp6600_until(&session, never, 3, 29, &made);
    printf("until an instruction at 0105, or a wait: status %u, %u turns\n", (unsigned)status, (unsigned)made);
    status = pp6600_next_origins(&session, &turn, links, 33, &count, control, 7, &places);
    printf("next: status %u, processor %u, %04o %04o\n", (unsigned)status, turn.processor, (unsigned)turn.address, (unsigned)turn.word);
    for (size_t at = 0; at < count; at++)
        printf("place %u: operation %u of place %u\n", (unsigned)links[at].place, links[at].operation, (unsigned)links[at].source);
    return pp6600_close(&session) == PP6600_DONE ? 0 : 1;
}
