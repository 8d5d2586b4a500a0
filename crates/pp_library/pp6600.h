/* The proved simulator of the CDC 6600's peripheral processors as a library.
 *
 * A session is a machine with its undo history, as the program pp6600 has one. Each call has a proved contract. The page LIBRARY
 * has examples. Numbers are decimal, and those that begin with 0 octal.
 *
 * What a caller owes, which nothing checks:
 * - A handle is a variable of the type pp6600 that begins as {0}. It is passed by its address, which is not null, and only these
 *   calls change it. It is not copied.
 * - Each pointer is to as many elements as the call says. None is null, also for 0 elements. What a call writes overlaps nothing
 *   else that it is given: the lines of pp6600_answer are not in `into`, and no two out-parameters are one variable.
 * - One call at a time works on a session, and no call is made from a signal handler.
 * - The stack has 48 KB for a call of the assembler, 144 KB for a search, and 16 KB for another.
 *
 * What each call says of its out-parameters holds for every status. Those of which it says nothing are as they were.
 */
#ifndef PP6600_H
#define PP6600_H

/* The version of this header; pp6600_version() returns that of the library. */
#define PP6600_VERSION_MAJOR 6
#define PP6600_VERSION_MINOR 0
#define PP6600_VERSION_PATCH 0
#define PP6600_VERSION (1000000 * PP6600_VERSION_MAJOR + 1000 * PP6600_VERSION_MINOR + PP6600_VERSION_PATCH)

#include <stddef.h>
#include <stdint.h>

#ifdef __cplusplus
extern "C" {
#endif

/* A session, or none: begin with {0}. */
typedef struct {
    void *at;
} pp6600;

/* A place, and the number that was there before an action. */
typedef struct {
    uint64_t place, number;
} pp6600_old;

/* An action: the processor of a turn, 0 to 9, or 10 if it is no turn; and how many places it overwrote. If one place is there
 * twice, its first number is the old one. */
typedef struct {
    uint32_t processor, count;
} pp6600_turn;

/* What a processor is about to do before its turn: the processor, 0 to 9; its P, A, Q and phase; and the words in the cell P and in the
 * one after it. Its instruction is `word`, or in a block transfer `phase`. `m` is its second word, if it has two. */
typedef struct {
    uint16_t processor, p;
    uint32_t a;
    uint16_t q, phase, word, m;
} pp6600_row;

/* A cell of a program: its address and its word, each of 12 bits, and the line of the source, or 0. */
typedef struct {
    uint16_t address, word;
    uint32_t line;
} pp6600_cell;

/* What a call returns. If it is not DONE, ROOM or WATCHED, or LIMIT of pp6600_answer, or NOT_FOUND of pp6600_until, the call has
 * changed no session, and no out-parameter but those of which it says so. */
enum {
    PP6600_DONE = 0,
    PP6600_ROOM = 1,      /* it stopped before a line, or a turn, that may need more room than was left */
    PP6600_WATCHED = 2,   /* the last turn changed the number of a watched place: STEP stops there too */
    PP6600_CLOSED = 3,    /* the handle has no session */
    PP6600_OPEN = 4,      /* the handle has a session already */
    PP6600_NO_MEMORY = 5, /* memory ran out */
    PP6600_REFUSED = 6,   /* open: the program refuses this; numbers, looks, last_write: no such place; back, forward, again: too
                           * few actions; assemble: no such form; load_lines: a fault, or no such processor; disassemble: more than
                           * 12 bits, or an address twice; text_of_status: no such status; instruction: no such code; until,
                           * back_until: no condition of this machine */
    PP6600_LIMIT = 7,     /* answer: it stopped before a line past 1,000,000 lines or 268,435,456 bytes */
    PP6600_NOT_FOUND = 8  /* until, back_until: the condition came to hold in no action that was searched; last_write: none wrote
                           * one of the places */
};

/* A test of an action, or the beginning of another alternative. */
typedef struct {
    uint32_t kind, place;
    uint64_t first, last;
} pp6600_form;

/* The kinds of forms. A number that a kind does not name is ignored. */
enum {
    PP6600_INSIDE = 0,   /* the number at `place` is then from `first` to `last` */
    PP6600_OUTSIDE = 1,  /* it is then below `first` or above `last` */
    PP6600_CHANGES = 2,  /* the action changed one of the `first` numbers from `place` on */
    PP6600_WRITES = 3,   /* the action wrote one of these places, with another number or with the same */
    PP6600_PERFORMS = 4, /* processor `place` is then about to perform the instruction at address `first`, in no block transfer */
    PP6600_WAITS = 5,    /* the action was a turn of processor `place`, in which it waited */
    PP6600_OR = 6        /* another alternative begins */
};

/* The version of the library: 1000000 times its major number, 1000 times its minor number, and its patch number. */
uint32_t pp6600_version(void);

/* Writes the text of a status, as "no memory", without a line feed and without a 0 at its end. *count: its bytes, at most 32. ROOM:
 * `into` has room for fewer, and is as it was. REFUSED: there is no such status. */
uint32_t pp6600_text_of_status(uint32_t status, uint8_t *into, size_t room, size_t *count);

/* What an instruction has as operand. */
enum {
    PP6600_OPERAND_ALONE = 0,    /* d, which means nothing */
    PP6600_OPERAND_D = 1,        /* d: a number, a cell, a cell with an address, or a channel */
    PP6600_OPERAND_TARGET = 2,   /* d: a distance */
    PP6600_OPERAND_CONSTANT = 3, /* d and m: a number of 18 bits */
    PP6600_OPERAND_INDEXED = 4,  /* m: an address; and d: 0, or a cell whose number is added */
    PP6600_OPERAND_BOTH = 5      /* m: an address or a function code; and d: a channel, or a cell */
};

/* Writes the name of the instruction with a code, 0 to 077, without a 0 at its end. *count: its three bytes. *words: how many words
 * it has. *form: what it has as operand. ROOM: `into` has room for fewer bytes, and is as it was. REFUSED: there is no such code,
 * and nothing is written. */
uint32_t pp6600_instruction(uint32_t code, uint8_t *into, size_t room, size_t *count, uint32_t *words, uint32_t *form);

/* The places of a machine in one order: the first of each kind. */
enum {
    PP6600_CELLS = 0,         /* + 4096 * processor + address */
    PP6600_A = 40960,         /* + processor */
    PP6600_P = 40970,         /* + processor */
    PP6600_Q = 40980,         /* + processor */
    PP6600_PHASE = 40990,     /* + processor: 0, or the instruction word of a block transfer that is not finished */
    PP6600_STATES = 41000,    /* + channel, 0 to 11: 0 inactive, 1 active and empty, 2 active and full, 3 active with a function */
    PP6600_REGISTERS = 41012, /* + channel, 0 to 11 */
    PP6600_CLOCK = 41024,
    PP6600_FRAME = 41025, /* + word, 0 to 15: the exchange package of the central processor */
    PP6600_CARD = 41041,
    PP6600_CARD_COLUMN = 41042,
    PP6600_READER_MODE = 41043,
    PP6600_PAPER_LENGTH = 41044,
    PP6600_PAPER_COLUMN = 41045,
    PP6600_PRINTER_MODE = 41046,
    PP6600_PAPER = 41047,    /* + symbol, 0 to 65535 */
    PP6600_SLOT = 106583,    /* the processor whose turn is next */
    PP6600_WATCHES = 106584, /* + entry, 0 to 7: the code of a watched place, or 0 */
    PP6600_CENTRAL = 106592  /* + address */
};

/* Opens a session: the machine at its start, and an empty history. history: 1 to 10000 actions are kept. central: 32768, 65536 or
 * 131072 words. reader, printer: channels, 0 to 11. deck, panel: the bytes of these files; a count of 0 is no file.
 * REFUSED, NO_MEMORY: text begins with the program's line, as "pp6600: DECK LINE 3 NOT OCTAL", without a line feed, as far as there
 * is room (112 bytes suffice), and is as it was behind it; *text_count is the bytes of the line, and *status the program's exit
 * status. */
uint32_t pp6600_open(uint32_t history, uint32_t central, uint8_t reader, uint8_t printer, const uint8_t *deck, size_t deck_bytes,
    const uint8_t *panel, size_t panel_bytes, pp6600 *session, uint8_t *text, size_t text_room, size_t *text_count,
    uint32_t *status);

/* Performs lines of the console, and writes their answers into `into`. *taken: the bytes of the lines that were performed, line
 * feeds included. *count: the bytes of the answers. *lines, *refused: how many lines were performed, and how many of them were
 * rejected.
 * Nothing is lost: a line whose answer might not fit is not performed (ROOM), nor is one past a limit (LIMIT). Call again with the
 * bytes from *taken on. If *taken is 0, the next call would do the same: for ROOM pass more room; for LIMIT the first line is too
 * long for any call, and is to be left out. The bytes after the last line feed are a line too. What is in `into` behind *count may
 * change.
 * 96 bytes always suffice for a line that is no DUMP, and 64 if no central word is watched. A DUMP needs as many bytes as its
 * answer has. */
uint32_t pp6600_answer(pp6600 *session, const uint8_t *typed, size_t typed_bytes, uint8_t *into, size_t room, size_t *taken,
    size_t *count, uint32_t *lines, uint32_t *refused);

/* Reads the numbers of `count` places from the place `first` on. REFUSED: the machine does not have all of them. */
uint32_t pp6600_numbers(pp6600 *session, uint32_t first, uint64_t *into, size_t count);

/* How many actions can be undone, how many can be performed again, and how many the session keeps. *changed: 1 if the newest action
 * changed the number of a place that is watched now, and otherwise 0. */
uint32_t pp6600_counts(pp6600 *session, uint32_t *kept, uint32_t *ahead, uint32_t *capacity, uint32_t *changed);

/* Performs turns: until there were `most` (DONE), or one changed the number of a watched place (WATCHED), or made has no room for
 * one more, or olds none for 76 (ROOM). made[0] to made[*turns - 1] are the turns, and olds[0] to olds[*used - 1] the places that
 * they overwrote, turn after turn. The numbers put back, the last turn first, give the machine as it was. What is in made and olds
 * behind these may change. */
uint32_t pp6600_turns(pp6600 *session, uint32_t most, pp6600_turn *made, size_t made_room, pp6600_old *olds, size_t olds_room,
    size_t *turns, size_t *used);

/* Undoes the newest actions, or performs the next ones ahead again: all of them, or none if there are too few (REFUSED). */
uint32_t pp6600_back(pp6600 *session, uint32_t count);
uint32_t pp6600_forward(pp6600 *session, uint32_t count);

/* Performs the next `most` actions ahead again, as pp6600_forward does (DONE, or REFUSED if there are too few), without a stop at a
 * watched place. Stops where there is no more room, as pp6600_turns does (ROOM). made[0] to made[*actions - 1] are the actions, of
 * turns and others, and olds[0] to olds[*used - 1] the places that they overwrote. What is in made and olds behind these may
 * change. */
uint32_t pp6600_again(pp6600 *session, uint32_t most, pp6600_turn *made, size_t made_room, pp6600_old *olds, size_t olds_room,
    size_t *actions, size_t *used);

/* A turn with origins: its processor, 0 to 9, the address and the word of its instruction, and what it is. In a block transfer
 * these are the address before the one in cell 0000, and the phase. */
typedef struct {
    uint16_t processor, address, word;
    uint16_t kind;       /* 0: it performs an instruction. 1: it waits. 2: a pass, 00, 24 or 25. 3: a step of a block transfer */
    uint16_t links, own; /* how many links it has; and how many of them are its processor's, the first ones */
    uint32_t olds;       /* how many places it overwrote */
} pp6600_origin_turn;

/* Where the new number of a place comes from: an operation, and a number that it reads. If several are read for one place, their
 * links follow one another, in the order in which the operation takes them. d and m, read for one place, are one number of 18
 * bits. */
typedef struct {
    uint64_t place;    /* the place that is written */
    uint64_t source;   /* the place that is read, or PP6600_NOTHING: a constant */
    uint8_t operation; /* of pp6600_operation */
    uint8_t field;     /* what is read of the number, of pp6600_field */
    uint16_t further;  /* how many links of the same place follow */
} pp6600_link;

#define PP6600_NOTHING UINT64_MAX

enum pp6600_operation {
    PP6600_MOVED,              /* the number that is read */
    PP6600_JOINED,             /* a word of five numbers */
    PP6600_SUM, PP6600_DIFFERENCE, PP6600_LOGICAL_DIFFERENCE, PP6600_LOGICAL_PRODUCT, /* of the first number and the other */
    PP6600_CLEARED,            /* the first number without the bits of the other */
    PP6600_SHIFTED,            /* the first number shifted by the other */
    PP6600_COMPLEMENT, PP6600_ONE_MORE, PP6600_ONE_LESS, /* in one's complement of 18 bits */
    PP6600_LOW_SUM, PP6600_LOW_ONE_MORE, PP6600_LOW_ONE_LESS, /* the lower twelve bits of these */
    PP6600_AFTER_1, PP6600_AFTER_2, PP6600_AFTER_5, /* the number 1, 2 and 5 further; 7777 is followed by 0000 */
    PP6600_RELATIVE,           /* the target of a relative jump from the first number by the other */
    PP6600_INDEXED, PP6600_AFTER_INDEXED, /* the first number indexed by the other, and the address after that */
    PP6600_CENTRAL_AFTER,      /* the next central address */
    PP6600_COUNT_DOWN, PP6600_COUNT_UP, PP6600_COUNT_UP_2,
    PP6600_NEXT_SLOT,
    PP6600_PUNCHED,            /* what is punched in the deck, by card and column */
    PP6600_NO_WORD,            /* 0, for a central word that is not there */
    PP6600_ZERO, PP6600_ONE, PP6600_TWO, PP6600_THREE, PP6600_LINE_END /* constants; the last is 100 octal */
};

enum pp6600_field {
    PP6600_WHOLE, PP6600_LOW, /* all, and the lower twelve bits */
    PP6600_FIRST, PP6600_SECOND, PP6600_THIRD, PP6600_FOURTH, PP6600_FIFTH, /* twelve bits of a word, from the left */
    PP6600_WITHOUT_B0, PP6600_PROGRAM_ADDRESS, /* of a word of the frame */
    PP6600_UPPER_SIX, PP6600_LOWER_SIX,
    PP6600_WORD, PP6600_D, PP6600_M /* an instruction's first word, d in it, and its second word */
};

/* Performs turns as pp6600_turns does, and returns what it returns. made[0] to made[*turns - 1] are the turns; links[0] to
 * links[*linked - 1], turn after turn, where each number that they wrote comes from: those of the processor, of the reader, the
 * printer, the clock and the slot. If two write one place, the last one counts. olds has what pp6600_turns writes. What is in made,
 * links and olds behind these may change.
 * ROOM: there is no room in made for one turn, in links for 44, or in olds for 76. */
uint32_t pp6600_origins(pp6600 *session, uint32_t most, pp6600_origin_turn *made, size_t made_room, pp6600_link *links,
    size_t links_room, pp6600_old *olds, size_t olds_room, size_t *turns, size_t *linked, size_t *used);

/* What the next turn is, with the links of its processor alone, links[0] to links[*count - 1]; and its control places, control[0]
 * to control[*control_count - 1], whose numbers decide what the processor reads and writes. What is in links and control behind
 * these may change. No turn is performed. ROOM, and nothing is written: there is room for fewer than 33 links or 7 places. */
uint32_t pp6600_next_origins(pp6600 *session, pp6600_origin_turn *turn, pp6600_link *links, size_t links_room, size_t *count,
    uint64_t *control, size_t control_room, size_t *control_count);

/* Writes the newest action that can be undone and wrote one of `count` places from the place `first` on, with another number or
 * with the same: *newer, how many actions are newer; *turn as pp6600_origins writes it; and links[0] to links[turn->links - 1]. If
 * it is no turn, *turn has processor 10, no instruction and no links. What is in links behind these may change. The session is as
 * it was. NOT_FOUND: there is none, and nothing is written. ROOM: there is room for fewer than 44 links. REFUSED: the machine does
 * not have the places. */
uint32_t pp6600_last_write(pp6600 *session, uint32_t first, uint32_t count, uint32_t *newer, pp6600_origin_turn *turn,
    pp6600_link *links, size_t links_room);

/* Performs turns as pp6600_turns does. After each it appends the numbers at the places, 1 to 16 of them, to `into`, which has room
 * for `room` numbers; what is behind them may change. ROOM: there is no room for the numbers after one more turn. REFUSED: there
 * are not 1 to 16 places, or the machine does not have one. */
uint32_t pp6600_looks(pp6600 *session, uint32_t most, const uint32_t *places, size_t place_count, uint64_t *into, size_t room,
    size_t *turns);

/* Performs turns as pp6600_turns does, and writes the processor before each: rows[0] to rows[*turns - 1]. What is in rows behind these
 * may change. ROOM: there is no room for one more. */
uint32_t pp6600_columns(pp6600 *session, uint32_t most, pp6600_row *rows, size_t room, size_t *turns);

/* A condition is at most 64 alternatives, each of at most 8 tests that must hold together. An alternative comes to hold in an
 * action if all its tests hold of it, and not all held of the machine before; a condition, if one of its alternatives does. The
 * tests of the action itself, CHANGES, WRITES and WAITS, hold of no machine as it is. So a number that is to be 5 is found where it
 * becomes 5, and a change each time. REFUSED: there is no such kind, the machine does not have such a place, processor or address,
 * or there are too many. */

/* Performs turns up to the first in which a condition comes to hold (DONE), or `most` of them if it comes to hold in none
 * (NOT_FOUND). No turn stops at a watched place. *turns: how many were performed. */
uint32_t pp6600_until(pp6600 *session, const pp6600_form *condition, size_t count, uint32_t most, uint32_t *turns);

/* Goes back to the end of the last action before the newest one in which a condition came to hold (DONE), or nowhere if there is
 * none that can be undone (NOT_FOUND). *undone: how many actions were undone, only after DONE. */
uint32_t pp6600_back_until(pp6600 *session, const pp6600_form *condition, size_t count, uint32_t *undone);

/* Closes the session, and gives its memory back. The handle can be opened again. */
uint32_t pp6600_close(pp6600 *session);

/* What pp6600_assemble writes of a source. Numbers are octal, but for those of COMPLAINTS. */
enum {
    PP6600_COMPLAINTS = 0, /* a line for each fault, then each warning, as "3:18: LATER is not defined": line and column, from 1 */
    PP6600_WORDS = 1,      /* a line for each word, as "0100 1405", and "P 0100" if END says where the program begins */
    PP6600_LISTING = 2,    /* the listing */
    PP6600_LINES = 3,      /* a line for each row of the listing that has words and no literal: the number of its line of the
                            * source, the address of its first word, the address to which this is loaded, its words, as
                            * "5 0101 0101 0100 0300" */
    PP6600_NAMES = 4,      /* a line for each label, as "START 0100", and for each other name of one number, as "SIZE = 12" */
    PP6600_ROWS = 5,       /* a line for each row of the listing, as "5 120 S 0101 0101 AP 0100 0300" with a tab and the text of its
                            * line behind it: the number of its line of the source; where its text begins among those of all lines;
                            * S if it is a line of the source, M if the call of a macro made it, and for a literal "0 0 L"; its
                            * location and its origin; A if it has an address, P if it was performed and not only listed, else -;
                            * =12 if it names a number, ~12 if SET can change that; its words */
    PP6600_UNITS = 6       /* a line for each word, as "0100 1405 5" with the number of its line, and "P 0100" as in WORDS; before
                            * each program of the source but the first one a line with its name, as "IDENT B" */
};

/* The calls below need no session. *count: the bytes of the text that they write; what is in `into` behind them is as it was. ROOM:
 * `into` has room for fewer than *count bytes, and is as it was. */

/* A common deck, which a source reads by XTEXT or *CALL: its name, in letters of either case, and its lines. If its name begins
 * with the word SYSTEM and a blank, as "SYSTEM PPTEXT", it is a system text: it is assembled before the source, which has its
 * symbols, macros, micros and names of OPSYN, and it makes no word and no row. */
typedef struct {
    const uint8_t *name;
    size_t name_bytes;
    const uint8_t *lines;
    size_t line_bytes;
} pp6600_text;

/* Assembles a source, and writes into `into` what form asks for. *messages: how many faults the source has; if there is one, its
 * words are not to be used. REFUSED: no such form. */
uint32_t pp6600_assemble(const uint8_t *source, size_t source_bytes, uint32_t form, uint8_t *into, size_t room, size_t *count,
    size_t *messages);

/* The same of a source with common decks; of two with one name the first counts. A message about a line of a deck is about the line
 * of the source that reads it. Of two system texts with a symbol of one name the last counts. A message about a line of a system
 * text is at line 1, column 1 of the source, and its text has the line's number and the name of the system text. */
uint32_t pp6600_assemble_with(const uint8_t *source, size_t source_bytes, const pp6600_text *texts, size_t text_count,
    uint32_t form, uint8_t *into, size_t room, size_t *count, size_t *messages);

/* Assembles a source, and writes the lines of the console that load its program into a processor, 0 to 9: the SET M lines, and SET
 * P if END says where the program begins. *messages: how many faults the source has. REFUSED: it has faults, for which
 * PP6600_COMPLAINTS has the texts; or there is no such processor, and then *messages is as it was. */
uint32_t pp6600_load_lines(const uint8_t *source, size_t source_bytes, uint32_t processor, uint8_t *into, size_t room,
    size_t *count, size_t *messages);

/* Writes a source that assembles to these cells. What a processor reaches from the entries on is code, and the rest is data; an
 * entry that is no address of a cell is passed over. REFUSED: an address or a word has more than 12 bits, or two cells have one
 * address. */
uint32_t pp6600_disassemble(const pp6600_cell *cells, size_t cell_count, const uint16_t *entries, size_t entry_count, uint8_t *into,
    size_t room, size_t *count);

/* The module for WebAssembly, pp6600.wasm, has two more calls, for its memory. `pp6600_room(size)` returns the address of so many
 * bytes, or 0 if there is no memory; `pp6600_end_room(address)` gives them back, and does nothing for 0. Addresses and sizes are 64
 * bits wide there. */

#ifdef __cplusplus
}
#endif
#endif
