/* Performs sessions in the library: client SESSIONS ANSWERS. client.js does the same with the module of WebAssembly.
 *
 * SESSIONS has for each seven numbers of 32 bits (history, central, reader, printer, and the counts of bytes of its deck, its panel and its
 * script) and then these bytes. ANSWERS gets for each the program's exit status, the count of bytes of the answers, and a sum of all
 * that the other calls return after the script; and then the answers, or the line of a rejection. */
#include <stdio.h>
#include <stdlib.h>
#include "pp6600.h"

enum { ROOM = 1 << 16, TURNS = 100, OLDS = 1000, PIECE = 4096, PLACES = 3 };

typedef struct { uint32_t history, central, reader, printer, deck, panel, script; } Head;

static uint8_t *bytes_of(FILE *file, size_t count) {
    uint8_t *bytes = malloc(count + 1);
    if (!bytes || fread(bytes, 1, count, file) != count) exit(2);
    return bytes;
}

/* Adds the words of 32 bits of what a call has returned to a sum. */
static uint32_t sum;
static void add(const void *from, size_t bytes) {
    const uint32_t *words = from;
    for (size_t at = 0; at < bytes / 4; at++) sum = (sum ^ words[at]) * 16777619u;
}

static void add_machine(pp6600 *session, uint32_t central) {
    static uint64_t numbers[PIECE];
    uint32_t end = PP6600_CENTRAL + central;
    for (uint32_t first = 0; first < end; first += PIECE) {
        size_t count = end - first < PIECE ? end - first : PIECE;
        uint32_t status = pp6600_numbers(session, first, numbers, count);
        add(&status, sizeof status);
        add(numbers, 8 * count);
    }
}

static void add_counts(pp6600 *session) {
    uint32_t counts[4];
    pp6600_counts(session, &counts[0], &counts[1], &counts[2], &counts[3]);
    add(counts, sizeof counts);
}

typedef uint32_t Recording(pp6600 *, uint32_t, pp6600_turn *, size_t, pp6600_old *, size_t, size_t *, size_t *);

static void add_records(pp6600 *session, Recording *record, uint32_t most) {
    static pp6600_turn made[TURNS];
    static pp6600_old olds[OLDS];
    size_t turns = 0, used = 0;
    uint32_t status = record(session, most, made, TURNS, olds, OLDS, &turns, &used);
    add(&status, sizeof status);
    add(made, turns * sizeof *made);
    add(olds, used * sizeof *olds);
}

static void add_looks(pp6600 *session) {
    static uint64_t numbers[PLACES * TURNS];
    const uint32_t places[PLACES] = {PP6600_A, PP6600_P, PP6600_SLOT};
    size_t turns = 0;
    uint32_t status = pp6600_looks(session, TURNS, places, PLACES, numbers, PLACES * TURNS, &turns);
    add(&status, sizeof status);
    add(numbers, PLACES * turns * sizeof *numbers);
}

static void add_columns(pp6600 *session) {
    static pp6600_row rows[TURNS];
    size_t turns = 0;
    uint32_t status = pp6600_columns(session, 3 * TURNS, rows, TURNS, &turns);
    add(&status, sizeof status);
    add(rows, turns * sizeof *rows);
}

/* Makes every other call of the library, and adds what it returns. */
static void add_calls(pp6600 *session, uint32_t central) {
    add_machine(session, central);
    add_counts(session);
    add_records(session, pp6600_turns, 3 * TURNS);
    uint32_t status = pp6600_back(session, 7);
    add(&status, sizeof status);
    status = pp6600_forward(session, 2);
    add(&status, sizeof status);
    add_records(session, pp6600_again, 5);
    add_records(session, pp6600_again, 1);
    add_looks(session);
    add_columns(session);
    add_counts(session);
    add_machine(session, central);
}

/* Performs a script, and returns its answers; their count and the count of rejected lines are added. */
static uint8_t *answers_of(pp6600 *session, const uint8_t *script, size_t size, uint32_t *count, uint32_t *rejected) {
    uint8_t *text = 0;
    size_t room = ROOM, at = 0, taken, some;
    uint32_t lines, refused, status;
    do {
        text = realloc(text, *count + room);
        status = pp6600_answer(session, script + at, size - at, text + *count, room, &taken, &some, &lines, &refused);
        if (status > PP6600_ROOM) exit(3);
        if (!taken) room *= 4;
        at += taken, *count += (uint32_t)some, *rejected += refused;
    } while (status == PP6600_ROOM);
    return text;
}

int main(int count, char **words) {
    FILE *sessions = fopen(words[1], "rb"), *answers = fopen(words[2], "wb");
    Head head;
    if (count != 3 || !sessions || !answers) return 2;
    while (fread(&head, sizeof head, 1, sessions) == 1) {
        uint8_t *deck = bytes_of(sessions, head.deck), *panel = bytes_of(sessions, head.panel), *script = bytes_of(sessions, head.script);
        uint8_t line[128], *text = line;
        size_t length = 0;
        uint32_t result[3] = {0, 0, 0};
        pp6600 session = {0};
        sum = 0;
        uint32_t status = pp6600_open(head.history, head.central, (uint8_t)head.reader, (uint8_t)head.printer, deck, head.deck, panel, head.panel,
                                      &session, line, sizeof line, &length, &result[0]);
        if (status == PP6600_DONE) {
            uint32_t rejected = 0;
            text = answers_of(&session, script, head.script, &result[1], &rejected);
            result[0] = rejected != 0;
            add_calls(&session, head.central);
            pp6600_close(&session);
        } else {
            result[1] = (uint32_t)length;
        }
        result[2] = sum;
        fwrite(result, sizeof result, 1, answers);
        fwrite(text, 1, result[1], answers);
        if (text != line) free(text);
        free(deck), free(panel), free(script);
    }
    return fclose(answers) != 0;
}
