/* Prints how many bytes of the stack calls of the library take at most: those of the assembler, the searches, and all others. */
#include <stdio.h>
#include <string.h>
#include <ucontext.h>
#include "pp6600.h"

enum { SIZE = 1 << 20, ROOM = 1 << 16, MARK = 0xa5, MOST_FORMS = 64 * 9 - 1 };
static unsigned char stack[SIZE] __attribute__((aligned(16)));
static ucontext_t here, there;
static uint8_t text[ROOM];
static pp6600 session;
static size_t count, taken, used;
static uint32_t status, lines, refused, ahead, changed;

static const char SOURCE[] = "          IDENT  A\nSTART     LDC    1234B+=5\n          IFEQ   1,1\n          UJN    START\n          ENDIF\nB         LDN    LATER\n"
                             "M         MACRO  X\n          LDN    X\n          ENDM\n          M      5\n          END    START\n";
static const char SCRIPT[] = "SET M 0 100 3410 0376\nSET P 0 100\nWATCH C 5\nSTEP 50\nDUMP PP 0\nDUMP LP\nDEADSTART\nBACK W\nJUNK\nFORWARD\nBACK 3\n";

static void assembler(void) {
    static const pp6600_cell cells[] = {{0100, 01405, 0}, {0101, 0376, 0}, {0200, 02000, 0}, {0201, 0100, 0}};
    const uint16_t entry = 0100;
    for (uint32_t form = 0; form < 7; form++) pp6600_assemble((const uint8_t *)SOURCE, sizeof SOURCE - 1, form, text, ROOM, &count, &used);
    pp6600_load_lines((const uint8_t *)"  LDN 5\n", 8, 3, text, ROOM, &count, &used);
    const pp6600_text deck = {(const uint8_t *)"A", 1, (const uint8_t *)SOURCE, sizeof SOURCE - 1};
    const pp6600_text texts[] = {{(const uint8_t *)"SYSTEM B", 8, (const uint8_t *)SOURCE, sizeof SOURCE - 1}, deck};
    pp6600_assemble_with((const uint8_t *)"          XTEXT  A\n", 19, texts, 2, PP6600_ROWS, text, ROOM, &count, &used);
    pp6600_disassemble(cells, 4, &entry, 1, text, ROOM, &count);
}

static void others(void) {
    static pp6600_turn made[100];
    static pp6600_old olds[1000];
    static pp6600_origin_turn turns[100];
    static pp6600_link links[1000];
    size_t linked;
    static uint64_t numbers[1000];
    static pp6600_row rows[100];
    const uint32_t places[] = {PP6600_A, PP6600_P};
    pp6600_open(100, 32768, 10, 11, (const uint8_t *)"1 2 3\n", 6, (const uint8_t *)"8\n", 2, &session, text, ROOM, &count, &status);
    pp6600_open(100, 32768, 10, 11, (const uint8_t *)"1 2 3\n", 6, (const uint8_t *)"1405 3420 300 0 0 0 0 0 0 0 0 0\n", 32, &session, text, ROOM,
        &count, &status);
    pp6600_answer(&session, (const uint8_t *)SCRIPT, sizeof SCRIPT - 1, text, ROOM, &taken, &count, &lines, &refused);
    pp6600_numbers(&session, 0, numbers, 1000);
    pp6600_counts(&session, &lines, &ahead, &refused, &changed);
    pp6600_turns(&session, 100, made, 100, olds, 1000, &count, &used);
    pp6600_back(&session, 9);
    pp6600_forward(&session, 2);
    pp6600_again(&session, 7, made, 100, olds, 1000, &count, &used);
    pp6600_looks(&session, 100, places, 2, numbers, 1000, &count);
    pp6600_columns(&session, 100, rows, 100, &count);
    pp6600_origins(&session, 100, turns, 100, links, 1000, olds, 1000, &count, &linked, &used);
    pp6600_next_origins(&session, turns, links, 1000, &count, numbers, 1000, &used);
    pp6600_last_write(&session, PP6600_P, 1, &lines, turns, links, 1000);
    pp6600_instruction(0, text, ROOM, &count, &lines, &ahead);
    pp6600_close(&session);
}

static void searches(void) {
    static pp6600_form condition[MOST_FORMS];
    for (uint32_t at = 0; at < MOST_FORMS; at++) condition[at] = (pp6600_form){at % 9 == 8 ? PP6600_OR : at % 6, at % 9, 1, 2};
    pp6600_open(100, 32768, 10, 11, (const uint8_t *)"", 0, (const uint8_t *)"", 0, &session, text, ROOM, &count, &status);
    pp6600_answer(&session, (const uint8_t *)SCRIPT, sizeof SCRIPT - 1, text, ROOM, &taken, &count, &lines, &refused);
    pp6600_until(&session, condition, MOST_FORMS, 100, &lines);
    pp6600_back_until(&session, condition, MOST_FORMS, &lines);
    pp6600_close(&session);
}

/* Returns how many bytes of a stack of its own a function takes. */
static size_t stack_of(void (*function)(void)) {
    memset(stack, MARK, SIZE);
    getcontext(&there);
    there.uc_stack.ss_sp = stack, there.uc_stack.ss_size = SIZE, there.uc_link = &here;
    makecontext(&there, function, 0);
    swapcontext(&here, &there);
    size_t at = 0;
    while (stack[at] == MARK) at++;
    return SIZE - at;
}

int main(void) {
    printf("%zu %zu %zu\n", stack_of(assembler), stack_of(searches), stack_of(others));
    return 0;
}
