/* What the calls return if they are called wrongly: each line is a call and its status. */
#include "pp6600.h"

#include <stdio.h>

#define SAY(call) printf("%-52s %u\n", #call, (unsigned)(call))

int main(void) {
    pp6600 s = {0};
    const uint8_t none[1] = {0}, line[] = {'S', 'T', 'E', 'P', '\n'}, bad[] = {'9', '\n'};
    uint8_t text[112];
    size_t n, taken, turns, used;
    uint32_t a, b, c, d, status;
    uint64_t numbers[2];
    pp6600_turn made[2];
    pp6600_old olds[152];
    const uint32_t beyond[1] = {106592 + 32768};
    const pp6600_form never[2] = {{PP6600_INSIDE, PP6600_A, 1, 1}, {PP6600_CHANGES, 106592 + 32768, 1, 0}};
    pp6600_origin_turn turn;
    pp6600_link links[44];
    SAY(pp6600_close(&s));
    SAY(pp6600_numbers(&s, 0, numbers, 1));
    SAY(pp6600_until(&s, never, 1, 1, &a));
    SAY(pp6600_answer(&s, line, 5, text, 112, &taken, &n, &a, &b));
    SAY(pp6600_again(&s, 1, made, 2, olds, 152, &turns, &used));
    SAY(pp6600_open(0, 32768, 10, 11, none, 0, none, 0, &s, text, 112, &n, &status));
    SAY(pp6600_open(1, 32769, 10, 11, none, 0, none, 0, &s, text, 112, &n, &status));
    SAY(pp6600_open(1, 32768, 10, 12, none, 0, none, 0, &s, text, 112, &n, &status));
    SAY(pp6600_open(1, 32768, 10, 10, none, 0, none, 0, &s, text, 112, &n, &status));
    SAY(pp6600_open(1, 32768, 10, 11, bad, 2, none, 0, &s, text, 112, &n, &status));
    printf("%.*s\n", (int)n, (const char *)text);
    SAY(pp6600_open(1, 32768, 10, 11, none, 0, none, 0, &s, text, 0, &n, &status));
    SAY(pp6600_open(1, 32768, 10, 11, none, 0, none, 0, &s, text, 0, &n, &status));
    SAY(pp6600_numbers(&s, 106592, numbers, 2));
    SAY(pp6600_numbers(&s, 106592 + 32767, numbers, 2));
    SAY(pp6600_looks(&s, 1, beyond, 1, numbers, 2, &turns));
    SAY(pp6600_looks(&s, 1, beyond, 0, numbers, 2, &turns));
    SAY(pp6600_answer(&s, line, 5, text, 0, &taken, &n, &a, &b));
    SAY(pp6600_answer(&s, line, 5, text, 112, &taken, &n, &a, &b));
    SAY(pp6600_turns(&s, 2, made, 2, olds, 75, &turns, &used));
    SAY(pp6600_turns(&s, 2, made, 1, olds, 152, &turns, &used));
    SAY(pp6600_origins(&s, 1, &turn, 1, links, 43, olds, 76, &turns, &n, &used));
    SAY(pp6600_next_origins(&s, &turn, links, 32, &n, numbers, 7, &used));
    SAY(pp6600_until(&s, never, 2, 1, &a));
    SAY(pp6600_until(&s, never, 1, 1, &a));
    SAY(pp6600_back_until(&s, never, 1, &a));
    SAY(pp6600_back_until(&s, never, 2, &a));
    SAY(pp6600_counts(&s, &a, &b, &c, &d));
    SAY(pp6600_back(&s, 2));
    SAY(pp6600_back(&s, 1));
    SAY(pp6600_forward(&s, 2));
    SAY(pp6600_again(&s, 2, made, 2, olds, 152, &turns, &used));
    SAY(pp6600_again(&s, 1, made, 0, olds, 152, &turns, &used));
    SAY(pp6600_again(&s, 1, made, 2, olds, 75, &turns, &used));
    SAY(pp6600_again(&s, 1, made, 1, olds, 76, &turns, &used));
    SAY(pp6600_again(&s, 0, made, 0, olds, 0, &turns, &used));
    SAY(pp6600_close(&s));
    SAY(pp6600_close(&s));
    return 0;
}
