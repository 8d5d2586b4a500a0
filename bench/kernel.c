/* The yardstick of the benchmark: one turn of the ten peripheral processors in plain C, as fast as is easily had.

   It understands as much of the console as bench/run needs, with all words written out, and refuses nothing: SET, STEP
   and DUMP. With -DUNDO each turn also leaves a record in a ring of the newest 10,000, and BACK and FORWARD are there.
   With -DCOUNTED too, the loop of turns asks for the end of the ring once for all turns up to it.
   The deck is empty; all else is as in the simulator without options. */

#include <inttypes.h>
#include <stdint.h>
#include <stdio.h>
#include <stdlib.h>
#include <string.h>

#ifdef UNDO
#define KEEP(...) __VA_ARGS__ /* what only the build with records has */
#else
#define KEEP(...)
#endif

/* One turn is one stretch of code in the loop that runs it; what is rare is kept out of it. */
#define HOT static inline __attribute__((always_inline))
#define RARE static __attribute__((noinline))
#define UNLIKELY(condition) __builtin_expect(condition, 0)

enum { PROCESSORS = 10, CELLS = 4096, CENTRAL = 131072, PAPER = 65536, KEPT = 10000 };
enum { MINUS_ZERO = 0777777, READER = 012, PRINTER = 013, CLOCK = 014, NO_CHANNEL = 015 };
enum { INACTIVE, EMPTY, FULL, FUNCTION }; /* states of a channel */
enum { IDLE, WORKING, STATUS, SENT };     /* modes of the devices */

typedef struct { uint32_t a; uint16_t p, q, phase; } Processor;
typedef struct { uint16_t word, state; } Channel;

typedef struct {
    uint16_t cell[PROCESSORS][CELLS];
    Processor processor[PROCESSORS];
    Channel channel[16]; /* the clock channel and NO_CHANNEL are never written */
    uint32_t slot, clock, reader_mode, printer_mode, printer_column, paper_length;
    uint64_t frame[16];
    uint64_t central[CENTRAL];
    uint8_t paper[PAPER];
} Machine;

#ifdef UNDO
/* What a turn overwrote: always the registers of its processor, and what the flags of `changed` name. */
enum { CELL = 1, FIVE_CELLS = 2, CENTRAL_WORD = 4, EXCHANGE = 8, CHANNEL = 16, BY_READER = 32, BY_PRINTER = 64 };

typedef struct {
    Processor processor;
    uint16_t address, cell; /* of the cell, or the address of the first of five */
    uint8_t changed, channel_number, reader_mode, printer_mode, printer_column, symbols;
    Channel channel, reader_channel, printer_channel; /* in the order in which they were overwritten */
    uint16_t five[5];
    uint64_t word;
} Record;

/* Exchanges are large and few: they have a ring of their own, with the same numbering. */
typedef struct { uint64_t frame[16], central[16]; } Packages;

static Record records[KEPT];
static Packages packages[KEPT];
static uint32_t next_record;
#endif

HOT uint32_t add18(uint32_t a, uint32_t b) { return a + b < MINUS_ZERO ? a + b : a + b - MINUS_ZERO; }
HOT uint32_t subtract18(uint32_t a, uint32_t b) { return a >= b ? a - b : a - b + MINUS_ZERO; }
HOT uint32_t index12(uint32_t m, uint32_t x) { return m + x <= 07777 ? m + x : m + x - 07777; }
HOT uint32_t relative(uint32_t p, uint32_t d) { return (d <= 037 ? p + d : p - (077 - d)) & 07777; }

HOT uint32_t shift18(uint32_t a, uint32_t d)
{
    if (d >= 040) return a >> (077 - d);
    d = d >= 18 ? d - 18 : d;
    return (a << d | a >> (18 - d)) & MINUS_ZERO;
}

/* The clock channel is always full, and what is no channel is always inactive. */
HOT Channel *channel_of(Machine *m, uint32_t d) { return &m->channel[d <= CLOCK ? d : NO_CHANNEL]; }

HOT uint64_t central_word(const Machine *m, uint32_t address) { return address < CENTRAL ? m->central[address] : 0; }

/* 60 and 61: five cells from `first` on get a central word. */
HOT void to_cells(uint16_t *cell, uint32_t first, uint64_t word KEEP(, Record *record))
{
    KEEP(record->changed |= FIVE_CELLS; record->address = first;)
    for (uint32_t i = 0; i < 5; i++) {
        uint32_t address = (first + i) & 07777;
        KEEP(record->five[i] = cell[address];)
        cell[address] = word >> (48 - 12 * i) & 07777;
    }
}

/* 62 and 63: a central word gets five cells from `first` on. */
HOT void to_central(Machine *m, uint32_t address, const uint16_t *cell, uint32_t first KEEP(, Record *record))
{
    uint64_t word = 0;
    for (uint32_t i = 0; i < 5; i++) word = word << 12 | cell[(first + i) & 07777];
    if (address >= CENTRAL) return;
    KEEP(record->changed |= CENTRAL_WORD; record->word = m->central[address];)
    m->central[address] = word;
}

RARE void exchange(Machine *m, uint32_t first KEEP(, Record *record))
{
    KEEP(Packages *old = &packages[record - records]; record->changed |= EXCHANGE;)
    for (uint32_t i = 0; i < 16; i++) {
        uint32_t address = (first + i) & MINUS_ZERO;
        uint64_t word = central_word(m, address);
        KEEP(old->frame[i] = m->frame[i]; old->central[i] = word;)
        if (address < CENTRAL) m->central[address] = m->frame[i];
        m->frame[i] = i == 0 ? word & ~(uint64_t)MINUS_ZERO : word;
    }
}

/* The cell at `at` gets `value`; `cell` and `record` are those of the turn. */
#define STORE(at, value)                                                                       \
    do { KEEP(record->changed |= CELL; record->address = (at); record->cell = cell[at];)       \
         cell[at] = (value); } while (0)

#define KEEP_CHANNEL(number) \
    KEEP(record->changed |= CHANNEL; record->channel_number = (number); record->channel = m->channel[number];)

/* A later turn of a block transfer. */
RARE void block(Machine *m, Processor *now, uint16_t *cell KEEP(, Record *record))
{
    uint32_t code = now->phase >> 6, d = now->phase & 077, p = now->p;
    uint32_t left = code <= 063 ? now->q : now->a;
    Channel *channel = channel_of(m, d);
    if (left == 0) goto end;
    if (code <= 063) {
        if (code == 061) to_cells(cell, p, central_word(m, now->a) KEEP(, record));
        else to_central(m, now->a, cell, p KEEP(, record));
        *now = (Processor){ (now->a + 1) & MINUS_ZERO, (p + 5) & 07777, now->q - 1, now->phase };
        return;
    }
    if (d == CLOCK) {
        if (code == 073) return;
        STORE(p, m->clock);
    } else if (channel->state == INACTIVE) {
        if (code == 071) STORE(p, 0);
        goto end;
    } else if (code == 071 && channel->state == FULL) {
        STORE(p, channel->word);
        KEEP_CHANNEL(d)
        channel->state = EMPTY;
    } else if (code == 073 && channel->state == EMPTY) {
        KEEP_CHANNEL(d)
        *channel = (Channel){ cell[p], FULL };
    } else return; /* waits */
    now->p = (p + 1) & 07777;
    now->a--;
    return;
end:
    now->p = (cell[0] + 1) & 07777;
    now->phase = 0;
}

/* What the reader and the printer have in common: function codes 1, to work, and 2, to tell their status. */
static void step_device(Channel *channel, uint32_t *mode, uint32_t at_work, uint32_t status)
{
    if (channel->state == FUNCTION && (channel->word == 1 || channel->word == 2)) {
        *mode = channel->word == 1 ? at_work : STATUS;
        channel->state = INACTIVE;
    } else if (channel->state == EMPTY && *mode == STATUS) {
        *channel = (Channel){ status, FULL };
        *mode = SENT;
    } else if (channel->state == EMPTY && *mode == SENT) {
        channel->state = INACTIVE;
        *mode = IDLE;
    }
}

/* With an empty deck it is never at work: it only tells that no card is left. */
RARE void step_reader(Machine *m KEEP(, Record *record))
{
    Channel *channel = &m->channel[READER];
    KEEP(record->changed |= BY_READER; record->reader_channel = *channel; record->reader_mode = m->reader_mode;)
    step_device(channel, &m->reader_mode, IDLE, 1);
}

static void print(Machine *m, uint32_t symbol)
{
    if (m->printer_column == 136) return;
    m->paper[m->paper_length++] = symbol;
    m->printer_column++;
}

RARE void step_printer(Machine *m KEEP(, Record *record))
{
    Channel *channel = &m->channel[PRINTER];
    uint32_t length = m->paper_length;
    KEEP(record->changed |= BY_PRINTER; record->printer_channel = *channel;)
    KEEP(record->printer_mode = m->printer_mode; record->printer_column = m->printer_column;)
    if (channel->state == FUNCTION && channel->word == 3 && length < PAPER) {
        channel->state = INACTIVE;
        m->paper[m->paper_length++] = 0100;
        m->printer_column = 0;
    } else if (channel->state == FULL && m->printer_mode == WORKING && length + 2 <= PAPER) {
        channel->state = EMPTY;
        print(m, channel->word >> 6);
        print(m, channel->word & 077);
    } else step_device(channel, &m->printer_mode, WORKING, length + 2 <= PAPER ? 0 : 1);
    KEEP(record->symbols = m->paper_length - length;)
}

/* The eight operations of 30 to 57, the operand being the cell at `at`. */
#define OPERATIONS(code, find)                                                                   \
    case code + 0: find; a = cell[at]; break;                                                    \
    case code + 1: find; a = add18(a, cell[at]); break;                                          \
    case code + 2: find; a = subtract18(a, cell[at]); break;                                     \
    case code + 3: find; a ^= cell[at]; break;                                                   \
    case code + 4: find; STORE(at, a & 07777); break;                                            \
    case code + 5: find; a = add18(a, cell[at]); STORE(at, a & 07777); break;                    \
    case code + 6: find; a = add18(cell[at], 1); STORE(at, a & 07777); break;                    \
    case code + 7: find; a = subtract18(cell[at], 1); STORE(at, a & 07777); break;
#define DIRECT at = d
#define INDIRECT at = cell[d]
#define MEMORY at = d ? index12(SECOND, cell[d]) : SECOND; p = AFTER_TWO

/* Named where they are needed only, so that other instructions do not pay for them. */
#define SECOND cell[after_one]
#define AFTER_TWO ((here + 2) & 07777)
#define CONSTANT (d << 12 | SECOND)
#define CHANNEL_STATE channel_of(m, d)->state
#define CHANGE_CHANNEL(when) channel = channel_of(m, d); if (!(when)) goto wait; KEEP_CHANNEL(d)

/* A whole instruction, its wait, or the issue of a block transfer. */
HOT void instruction(Machine *m, Processor *now, uint16_t *cell KEEP(, Record *record))
{
    const uint32_t here = now->p, word = cell[here], d = word & 077, after_one = (here + 1) & 07777;
    uint32_t a = now->a, p = after_one, at;
    Channel *channel;
    switch (word >> 6) {
    case 000: case 024: case 025: break;
    case 001: MEMORY; p = at; break;
    case 002: MEMORY; STORE(at, AFTER_TWO); p = (at + 1) & 07777; break;
    case 003: p = relative(here, d); break;
    case 004: if (a == 0) p = relative(here, d); break;
    case 005: if (a != 0) p = relative(here, d); break;
    case 006: if (a >> 17 == 0) p = relative(here, d); break;
    case 007: if (a >> 17 != 0) p = relative(here, d); break;
    case 010: a = shift18(a, d); break;
    case 011: a ^= d; break;
    case 012: a &= d; break;
    case 013: a &= ~d; break;
    case 014: a = d; break;
    case 015: a = MINUS_ZERO - d; break;
    case 016: a = add18(a, d); break;
    case 017: a = subtract18(a, d); break;
    case 020: p = AFTER_TWO; a = CONSTANT; break;
    case 021: p = AFTER_TWO; a = add18(a, CONSTANT); break;
    case 022: p = AFTER_TWO; a &= CONSTANT; break;
    case 023: p = AFTER_TWO; a ^= CONSTANT; break;
    case 026: exchange(m, a KEEP(, record)); break;
    case 027: a = m->frame[0] >> 36 & MINUS_ZERO; break;
    OPERATIONS(030, DIRECT)
    OPERATIONS(040, INDIRECT)
    OPERATIONS(050, MEMORY)
    case 060: to_cells(cell, d, central_word(m, a) KEEP(, record)); break;
    case 062: to_central(m, a, cell, d KEEP(, record)); break;
    case 061: case 063: now->q = cell[d]; /* fall through */
    case 071: case 073: p = SECOND; STORE(0, after_one); now->phase = word; break;
    case 064: p = CHANNEL_STATE != INACTIVE ? SECOND : AFTER_TWO; break;
    case 065: p = CHANNEL_STATE == INACTIVE ? SECOND : AFTER_TWO; break;
    case 066: p = CHANNEL_STATE >= FULL ? SECOND : AFTER_TWO; break;
    case 067: p = CHANNEL_STATE < FULL ? SECOND : AFTER_TWO; break;
    case 070:
        if (d == CLOCK) { a = m->clock; break; }
        CHANGE_CHANNEL(channel->state == FULL) channel->state = EMPTY; a = channel->word; break;
    case 072: CHANGE_CHANNEL(channel->state == EMPTY) *channel = (Channel){ a & 07777, FULL }; break;
    case 074: CHANGE_CHANNEL(channel->state == INACTIVE && d < CLOCK) channel->state = EMPTY; break;
    case 075:
        if (d == CLOCK) break;
        CHANGE_CHANNEL(channel->state != INACTIVE) channel->state = INACTIVE; break;
    case 076:
        CHANGE_CHANNEL(channel->state == INACTIVE && d < CLOCK) *channel = (Channel){ a & 07777, FUNCTION };
        break;
    case 077:
        CHANGE_CHANNEL(channel->state == INACTIVE && d < CLOCK) *channel = (Channel){ SECOND, FUNCTION };
        p = AFTER_TWO; break;
    }
    now->a = a;
    now->p = p;
wait:;
}

/* A step of the processor in the slot, one of the reader, one of the printer; then the clock and the slot. */
HOT void turn(Machine *m KEEP(, Record *record))
{
    const uint32_t slot = m->slot;
    Processor *now = &m->processor[slot];
    uint16_t *cell = m->cell[slot];
    KEEP(record->processor = *now; record->changed = 0;)
    if (UNLIKELY(now->phase != 0)) block(m, now, cell KEEP(, record));
    else instruction(m, now, cell KEEP(, record));
    if (m->channel[READER].state != INACTIVE) step_reader(m KEEP(, record));
    if (m->channel[PRINTER].state != INACTIVE) step_printer(m KEEP(, record));
    if (slot == PROCESSORS - 1) {
        m->clock = (m->clock + 1) & 07777;
        m->slot = 0;
    } else m->slot = slot + 1;
}

#ifndef UNDO
RARE void run(Machine *m, uint64_t turns) { while (turns--) turn(m); }
#elif defined COUNTED
/* The place in the ring counts the turns up to its end, so no turn asks whether the ring is at its end. */
RARE void run(Machine *m, uint64_t turns)
{
    while (turns) {
        const uint64_t room = KEPT - next_record, most = turns < room ? turns : room;
        Record *record = &records[next_record], *end = record + most;
        for (; record != end; record++) turn(m, record);
        next_record = most == room ? 0 : next_record + most;
        turns -= most;
    }
}
#else
RARE void run(Machine *m, uint64_t turns)
{
    while (turns--) {
        Record *record = &records[next_record];
        next_record = next_record + 1 == KEPT ? 0 : next_record + 1;
        turn(m, record);
    }
}
#endif

#ifdef UNDO
/* All but the registers and one cell, from the last thing that the turn overwrote to the first. */
HOT void back_rest(Machine *m, const Record *record, uint16_t *cell)
{
    if (record->changed & BY_PRINTER) {
        m->channel[PRINTER] = record->printer_channel;
        m->printer_mode = record->printer_mode;
        m->printer_column = record->printer_column;
        for (uint32_t i = 0; i < record->symbols; i++) m->paper[--m->paper_length] = 0;
    }
    if (record->changed & BY_READER) m->channel[READER] = record->reader_channel, m->reader_mode = record->reader_mode;
    if (record->changed & CHANNEL) m->channel[record->channel_number] = record->channel;
    if (record->changed & FIVE_CELLS)
        for (uint32_t i = 0; i < 5; i++) cell[(record->address + i) & 07777] = record->five[i];
    if (record->changed & CENTRAL_WORD) m->central[record->processor.a] = record->word;
    if (record->changed & EXCHANGE) {
        const Packages *old = &packages[record - records];
        for (uint32_t i = 0; i < 16; i++) {
            uint32_t address = (record->processor.a + i) & MINUS_ZERO;
            if (address < CENTRAL) m->central[address] = old->central[i];
            m->frame[i] = old->frame[i];
        }
    }
}

RARE void back(Machine *m, uint64_t turns)
{
    while (turns--) {
        next_record = next_record == 0 ? KEPT - 1 : next_record - 1;
        const Record *record = &records[next_record];
        const uint32_t slot = m->slot == 0 ? PROCESSORS - 1 : m->slot - 1;
        uint16_t *cell = m->cell[slot];
        m->slot = slot;
        if (slot == PROCESSORS - 1) m->clock = (m->clock - 1) & 07777;
        if (UNLIKELY(record->changed & ~CELL)) back_rest(m, record, cell);
        if (record->changed & CELL) cell[record->address] = record->cell;
        m->processor[slot] = record->processor;
    }
}
#endif

static void set(Machine *m, char **word, const uint64_t *number, int count)
{
    Processor *processor = &m->processor[number[2] % PROCESSORS];
    switch (word[1][0]) {
    case 'M': for (int i = 4; i < count; i++) m->cell[number[2]][(number[3] + i - 4) & 07777] = number[i]; break;
    case 'A': processor->a = number[3]; break;
    case 'P': processor->p = number[3]; processor->phase = 0; break;
    case 'Q': processor->q = number[3]; break;
    case 'C': m->central[number[2]] = number[3]; break;
    case 'H': m->channel[number[2]].state = word[3][0] == 'F' ? FULL : word[3][0] == 'E' ? EMPTY : INACTIVE;
        if (count > 4) m->channel[number[2]].word = number[4];
    }
}

static void dump(const Machine *m, char **word, const uint64_t *number)
{
    const uint32_t n = number[2], from = number[3], to = number[4];
    const Processor *it = &m->processor[n % PROCESSORS];
    switch (word[1][0]) {
    case 'P':
        printf("PP %02o P %04o A %06o Q %04o PHASE %04o SLOT %02o\n", n, it->p, it->a, it->q, it->phase, m->slot);
        break;
    case 'M':
        for (uint32_t a = from; a <= to; a++) {
            if ((a - from) % 8 == 0) printf("%04o", a);
            printf((a - from) % 8 == 7 || a == to ? " %04o\n" : " %04o", m->cell[n][a]);
        }
        break;
    case 'H':
        for (int c = 0; c <= PRINTER; c++)
            printf("H %02o %c %04o\n", c, "IEFX"[m->channel[c].state], m->channel[c].word);
        printf("H 14 F %04o\n", m->clock);
        break;
    case 'X': for (int i = 0; i < 16; i++) printf("XP %02o %020" PRIo64 "\n", i, m->frame[i]); break;
    case 'C': for (uint32_t a = n; a <= from; a++) printf("C %06o %020" PRIo64 "\n", a, m->central[a]); break;
    case 'W': puts("W NONE");
    }
}

/* The second letters of SET, STEP, BACK, FORWARD and DUMP differ. */
int main(void)
{
    static Machine machine;
    static char line[256];
    machine.channel[CLOCK].state = FULL;
    for (int count = 0; fgets(line, sizeof line, stdin); count = 0) {
        char *word[16];
        uint64_t number[16] = { 0 };
        for (char *at = strtok(line, " \n"); at && count < 16; at = strtok(NULL, " \n")) {
            number[count] = strtoull(at, NULL, 8);
            word[count++] = at;
        }
        switch (word[0][1]) {
        case 'E': set(&machine, word, number, count); puts("OK"); break;
        case 'U': dump(&machine, word, number); break;
        case 'A': KEEP(back(&machine, number[1]);) break;
        default: run(&machine, number[1]);
        }
        if (strchr("TAO", word[0][1]))
            printf("%s %s SLOT %02o\n", word[0][1] == 'T' ? "TURNS" : word[0], word[1], machine.slot);
        fflush(stdout);
    }
}
