/* Assembles a program, loads it into processor 3 of a session, and writes a source of the words that are then in its cells. */
#include "pp6600.h"

#include <stdio.h>
#include <string.h>

static const char good[] = "          ORG    100B\n START    LDN    5\n          STD    20B\n          UJN    *\n          END    START\n";
static const char wrong[] = "          LDN    LATER\n          LDN    100B\n";

/* Writes what a form has of a source. */
static void show(const char *source, uint32_t form) {
    uint8_t text[1024];
    size_t count, messages;
    if (pp6600_assemble((const uint8_t *)source, strlen(source), form, text, sizeof text, &count, &messages) == PP6600_DONE)
        printf("%.*s", (int)count, (const char *)text);
}

int main(void) {
    pp6600 session = {0};
    uint8_t text[1024];
    size_t count, messages, taken;
    uint32_t status, performed, refused;
    uint64_t words[3];
    pp6600_cell cells[3];
    const uint16_t entries[1] = {0100};
    for (uint32_t form = PP6600_COMPLAINTS; form <= PP6600_UNITS; form++) show(good, form);
    show(wrong, PP6600_COMPLAINTS);
    status = pp6600_load_lines((const uint8_t *)wrong, strlen(wrong), 3, text, sizeof text, &count, &messages);
    printf("status %u, messages %u\n", (unsigned)status, (unsigned)messages);
    status = pp6600_load_lines((const uint8_t *)good, strlen(good), 3, text, 7, &count, &messages);
    printf("status %u, %u bytes\n", (unsigned)status, (unsigned)count);
    if (pp6600_load_lines((const uint8_t *)good, strlen(good), 3, text, sizeof text, &count, &messages) != PP6600_DONE) return 1;
    printf("%.*s", (int)count, (const char *)text);
    if (pp6600_open(10, 32768, 10, 11, text, 0, text, 0, &session, text + count, sizeof text - count, &taken, &status) != PP6600_DONE) return 1;
    if (pp6600_answer(&session, text, count, text + count, sizeof text - count, &taken, &messages, &performed, &refused) != PP6600_DONE) return 1;
    if (pp6600_numbers(&session, PP6600_CELLS + 4096 * 3 + 0100, words, 3) != PP6600_DONE) return 1;
    for (uint16_t at = 0; at < 3; at++) cells[at] = (pp6600_cell){(uint16_t)(0100 + at), (uint16_t)words[at], 0};
    if (pp6600_disassemble(cells, 3, entries, 1, text, sizeof text, &count) != PP6600_DONE) return 1;
    printf("%.*s", (int)count, (const char *)text);
    cells[1].word = 010000;
    printf("status %u\n", (unsigned)pp6600_disassemble(cells, 3, entries, 1, text, sizeof text, &count));
    return pp6600_close(&session) == PP6600_DONE ? 0 : 1;
}
