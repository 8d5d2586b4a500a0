/* The library at the other end of a pipe, for bench/run: it performs the lines of standard input, and writes their answers. Three lines are
   its own, and are answered by themselves: `turns N`, `looks N` and `rows N` make N (octal) turns with their records, with the numbers at
   two places after each, or with the processor before each. */

#include <stdio.h>
#include <stdlib.h>
#include <string.h>
#include "pp6600.h"

enum { TURNS = 4096, OLDS = 8 * TURNS, LINE = 256, TEXT = 1 << 24 };

static pp6600 session;
static uint8_t text[TEXT];

static void fail(const char *what, uint32_t status) {
    fprintf(stderr, "bench/library: %s: status %u\n", what, status);
    exit(2);
}

/* Performs a line. Returns how many bytes its answer has. */
static size_t answer(const char *line, size_t size) {
    size_t taken, count;
    uint32_t lines, refused, status = pp6600_answer(&session, (const uint8_t *)line, size, text, TEXT, &taken, &count, &lines, &refused);
    if (status != PP6600_DONE) fail("answer", status);
    return count;
}

static size_t turns(uint32_t most) {
    static pp6600_turn made[TURNS];
    static pp6600_old olds[OLDS];
    size_t count = 0, used;
    uint32_t status = pp6600_turns(&session, most, made, TURNS, olds, OLDS, &count, &used);
    if (status > PP6600_ROOM) fail("turns", status);
    return count;
}

static size_t looks(uint32_t most) {
    static uint64_t numbers[2 * TURNS];
    static const uint32_t places[2] = {PP6600_A, PP6600_P + 3};
    size_t count = 0;
    uint32_t status = pp6600_looks(&session, most, places, 2, numbers, 2 * TURNS, &count);
    if (status > PP6600_ROOM) fail("looks", status);
    return count;
}

static size_t rows(uint32_t most) {
    static pp6600_row made[TURNS];
    size_t count = 0;
    uint32_t status = pp6600_columns(&session, most, made, TURNS, &count);
    if (status > PP6600_ROOM) fail("columns", status);
    return count;
}

static const struct { const char *name; size_t (*make)(uint32_t); } CALLS[] = {{"turns ", turns}, {"looks ", looks}, {"rows ", rows}};

/* Makes the turns of a line of this program's own. Returns whether it is one. */
static int is_own(const char *line) {
    for (size_t call = 0; call < sizeof CALLS / sizeof *CALLS; call++) {
        size_t size = strlen(CALLS[call].name);
        if (strncmp(line, CALLS[call].name, size)) continue;
        uint32_t left = (uint32_t)strtoul(line + size, 0, 8);
        while (left) left -= (uint32_t)CALLS[call].make(left);
        fputs(line, stdout);
        return 1;
    }
    return 0;
}

int main(int count, char **words) {
    static char line[LINE];
    uint32_t history = count > 2 ? (uint32_t)atoi(words[2]) : 10000, exit_status;
    size_t size;
    uint32_t status = pp6600_open(history, 131072, 012, 013, text, 0, text, 0, &session, text, TEXT, &size, &exit_status);
    if (status != PP6600_DONE) fail("open", status);
    while (fgets(line, LINE, stdin)) {
        if (!is_own(line)) fwrite(text, 1, answer(line, strlen(line)), stdout);
        fflush(stdout);
    }
    pp6600_close(&session);
    return 0;
}
