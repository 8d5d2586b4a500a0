/* What the proved library calls in a WebAssembly module, which has no system below it: memory, and a product. Nothing proves this
 * file. Blocks lie one behind the other, each with its size in its head and in that of the next: with these boundary tags a block that
 * is given back is joined with the free ones beside it, so it serves any later request that fits. One thread uses a module. */
#include "block.h"
typedef unsigned long size_t;

enum { HEAD = 16, LEAST = 32, FREE = 1, LISTS = 32 }; /* bytes of a head and of a block; a bit of a size; powers of two */
enum { PAGE = 1 << 16, MOST_PAGES = 1 << 16 }; /* addresses have 32 bits once they are lowered */
static const size_t MOST = (size_t)1 << 31; /* bytes of a request */

/* What a block begins with; what it is asked for is behind the sizes. A block is as long as a multiple of 16 bytes. */
struct head {
    size_t before, size; /* bytes of the block before and of this one, heads and all; and FREE, if this one is */
    struct head *next, *previous; /* in the list of a free one */
};
extern unsigned char __heap_base[]; /* the linker's: the first byte that is not the module's own */
static struct head *end = (struct head *)__heap_base; /* the sizes behind all blocks, which are never free */
static struct head *free_blocks[LISTS]; /* for each power of two, those that are at least as long, and less than twice */

static struct head *at(const void *block, size_t bytes) { return (struct head *)((size_t)block + bytes); }
static struct head **list_of(size_t size) { return &free_blocks[63 - __builtin_clzl(size)]; }

static void put(struct head *block, size_t size) {
    struct head **list = list_of(size);
    block->size = size | FREE;
    at(block, size)->before = size;
    block->previous = 0;
    block->next = *list;
    if (*list) (*list)->previous = block;
    *list = block;
}

/* Takes a free block out of its list. */
static void take(struct head *block) {
    block->size -= FREE;
    *(block->previous ? &block->previous->next : list_of(block->size)) = block->next;
    if (block->next) block->next->previous = block->previous;
}

/* Makes a block free, and one with those beside it that are. */
static void give_back(struct head *block) {
    struct head *next = at(block, block->size), *before = at(block, -block->before);
    size_t size = block->size;
    if (next->size & FREE) take(next), size += next->size;
    if (before->size & FREE) take(before), size += before->size, block = before;
    put(block, size);
}

/* Returns the bytes of a used block, of which so many stay in use. */
static struct block cut(struct head *block, size_t size) {
    struct head *rest = at(block, size);
    if (block->size - size >= LEAST) {
        *rest = (struct head){.before = size, .size = block->size - size};
        block->size = size;
        give_back(rest);
    }
    return block_at(at(block, HEAD));
}

/* Grows the memory, if need be, so that it has the bytes before an address. Returns whether it has. What the instruction returns if
 * it fails has as many bits as an address, so the size of the memory says whether it did. */
static int has_memory(const struct head *address) {
    size_t pages = __builtin_wasm_memory_size(0), needed = ((size_t)address + PAGE - 1) / PAGE;
    if (pages < needed && needed <= MOST_PAGES) __builtin_wasm_memory_grow(0, needed - pages);
    return needed <= __builtin_wasm_memory_size(0);
}

/* Returns the last block, free until now, or a new one, with all memory up to the end and at least so many bytes; or 0. */
static struct head *last_block(size_t size) {
    if (!has_memory(at(end, HEAD))) return 0;
    struct head *block = at(end, -end->before);
    if (!(block->size & FREE)) block = end;
    if (!has_memory(at(block, size + HEAD))) return 0;
    if (block != end) take(block);
    block->size = __builtin_wasm_memory_size(0) * PAGE - HEAD - (size_t)block;
    end = at(block, block->size);
    end->before = block->size;
    end->size = 0;
    return block;
}

/* Returns the first block of a list that has so many bytes, or 0. */
static struct head *first_of(struct head *block, size_t size) {
    while (block && block->size < size) block = block->next;
    return block;
}

/* Returns how long a block must be for a request, or 0 if it is too large. */
static size_t block_for(size_t size) {
    return size > MOST ? 0 : size < LEAST - HEAD ? LEAST : (size + HEAD + HEAD - 1) & -(size_t)HEAD;
}

struct block rattle_alloc(size_t size, size_t alignment) {
    (void)alignment;
    struct head *block = 0;
    size = block_for(size);
    if (!size) return block_at(0);
    for (struct head **list = list_of(size); !block && list < free_blocks + LISTS; list++) block = first_of(*list, size);
    if (block) take(block);
    else block = last_block(size);
    return block ? cut(block, size) : block_at(0);
}

void rattle_dealloc(void *start) { give_back(at(start, -(size_t)HEAD)); }

struct block rattle_realloc(void *old, size_t old_size, size_t size, size_t alignment) {
    (void)old_size;
    struct head *block = at(old, -(size_t)HEAD);
    size_t needed = block_for(size);
    if (needed && needed <= block->size) return cut(block, needed);
    struct block made = rattle_alloc(size, alignment);
    if (made.is_there) {
        __builtin_memcpy(made.start, old, block->size - HEAD);
        rattle_dealloc(old);
    }
    return made;
}

/* Memory for what a page hands to the library. Returns its address, or 0; and gives it back, if it is any. */
__attribute__((export_name("pp6600_room"))) void *room(size_t size) {
    struct block made = rattle_alloc(size, HEAD);
    return made.is_there ? made.start : 0;
}
__attribute__((export_name("pp6600_end_room"))) void end_room(void *start) { if (start) rattle_dealloc(start); }

/* The product of two numbers of 128 bits, modulo 2^128, which the compiled code asks for where a product may not fit in 64. It is made of
 * products of halves of 32 bits. */
enum { HALF = 32 };
__int128 __multi3(__int128 one, __int128 other);
__int128 __multi3(__int128 one, __int128 other) {
    size_t a = (size_t)one, b = (size_t)other, low_half = ((size_t)1 << HALF) - 1;
    size_t low = (a & low_half) * (b & low_half);
    size_t middle = (a >> HALF) * (b & low_half) + (low >> HALF);
    size_t sum = (a & low_half) * (b >> HALF) + (middle & low_half);
    size_t high = (a >> HALF) * (b >> HALF) + (middle >> HALF) + (sum >> HALF) + a * (size_t)(other >> 64) + (size_t)(one >> 64) * b;
    return (__int128)((unsigned __int128)high << 64 | (sum << HALF | (low & low_half)));
}
