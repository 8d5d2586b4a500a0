/* Memory for the proved code on Linux. Nothing proves this file.
 * Before each block is a head. A small block has as many bytes as a power of two; it is cut from a chunk, and once it is free it is kept for
 * the next of its size. A large one is in a mapping of its own. Threads need no lock: a list of free blocks is one word, which is exchanged
 * as a whole. */
#include "linux.h"
#include "block.h"

enum { PAGE = 4096, LINE = 64, CHUNK = 1 << 15 }; /* bytes */
enum { SMALLEST = 4, LARGEST = 11, SIZES }; /* powers of two */
enum { ADDRESS = 16, CHANGES = (1 << 20) - 1 }; /* where a list has an address of 48 bits, whose lowest four are 0; and the bits below it */
enum { READ_AND_WRITE = 3, PRIVATE_AND_ANONYMOUS = 0x22, MAY_MOVE = 1 };

/* What is before a block; it has 16 bytes, the alignment of each block. */
struct head {
    size_t size; /* the power of two of a small block, or the size of a mapping, which is a page or more */
    struct head *next; /* in a list of free blocks */
};

/* For each power of two the first free block, and how often the list has changed, so that one that was taken and given back meanwhile
 * is seen. */
static size_t free_blocks[SIZES];

static struct head *first_of(size_t list) { return (struct head *)((list & ~(size_t)CHANGES) >> ADDRESS); }
static size_t list_with(struct head *first, size_t before) { return (size_t)first << ADDRESS | ((before + 1) & CHANGES); }
static int is_exchanged(size_t *list, size_t *before, size_t after) {
    return __atomic_compare_exchange_n(list, before, after, 0, __ATOMIC_ACQ_REL, __ATOMIC_ACQUIRE);
}

/* Puts blocks that are linked before those of a list. */
static void put(size_t *list, struct head *first, struct head *last) {
    size_t before = __atomic_load_n(list, __ATOMIC_ACQUIRE);
    do __atomic_store_n(&last->next, first_of(before), __ATOMIC_RELAXED);
    while (!is_exchanged(list, &before, list_with(first, before)));
}

/* Takes the first block of a list, or none of an empty one. No chunk is ever unmapped, so a block that another thread takes first can be read. */
static struct head *take(size_t *list) {
    size_t before = __atomic_load_n(list, __ATOMIC_ACQUIRE);
    struct head *first;
    do {
        first = first_of(before);
        if (!first) return 0;
    } while (!is_exchanged(list, &before, list_with(__atomic_load_n(&first->next, __ATOMIC_RELAXED), before)));
    return first;
}

static long mapping(size_t size) { return system_call(MMAP, 0, (long)size, READ_AND_WRITE, PRIVATE_AND_ANONYMOUS, -1, 0); }

/* Cuts a chunk into blocks, keeps all but the first, and returns that one; or none, if the system has no memory. */
static struct head *cut_chunk(size_t power) {
    long chunk = mapping(CHUNK);
    if (is_error(chunk)) return 0;
    size_t step = sizeof(struct head) + ((size_t)1 << power), count = CHUNK / step;
    struct head *first = (struct head *)chunk, *last = first;
    for (size_t index = 0; index < count; index++) {
        struct head *next = (struct head *)(chunk + (long)(index * step));
        next->size = power;
        last->next = next;
        last = next;
    }
    put(&free_blocks[power], first->next, last);
    return first;
}

static struct head *small(size_t size) {
    size_t power = SMALLEST;
    while ((size_t)1 << power < size) power++;
    struct head *free_block = take(&free_blocks[power]);
    return free_block ? free_block : cut_chunk(power);
}

/* Returns how large the mapping for a block is; 0 if it is too large. */
static size_t mapping_for(size_t size) { return size > (size_t)-1 - PAGE ? 0 : size + PAGE; }
static long mapping_of(void *block) { return (long)((size_t)block & -(size_t)PAGE); }

/* Blocks begin in different lines of their first pages, for a processor holds up loads from an address that lies a multiple of 4096 from that
 * of a store just before. */
static struct head *large(size_t size) {
    size = mapping_for(size);
    long start = mapping(size);
    if (is_error(start)) return 0;
    struct head *head = (struct head *)(start + LINE * (start / PAGE % (PAGE / LINE)));
    head->size = size;
    return head;
}

static struct head *head_of(void *block) { return (struct head *)block - 1; }
static struct block block_behind(struct head *head) { return block_at(head ? head + 1 : 0); }

struct block rattle_alloc(size_t size, size_t alignment) {
    (void)alignment;
    return block_behind(size <= (size_t)1 << LARGEST ? small(size) : large(size));
}

void rattle_dealloc(void *block) {
    struct head *head = head_of(block);
    if (head->size < SIZES) put(&free_blocks[head->size], head, head);
    else system_call(MUNMAP, mapping_of(head), (long)head->size, 0, 0, 0, 0);
}

/* Returns a larger block with the bytes of a small one, which is free then. */
static struct block larger(void *block, size_t had, size_t size, size_t alignment) {
    struct block made = rattle_alloc(size, alignment);
    if (made.is_there) {
        __builtin_memcpy(made.start, block, had);
        rattle_dealloc(block);
    }
    return made;
}

/* A mapping may move, and the bytes in it stay where they are in their page. */
static struct head *remapped(struct head *head, size_t size) {
    long old = mapping_of(head), start = system_call(MREMAP, old, (long)head->size, (long)size, MAY_MOVE, 0, 0);
    if (is_error(start)) return 0;
    head = (struct head *)(start + ((long)head - old));
    head->size = size;
    return head;
}

struct block rattle_realloc(void *block, size_t old_size, size_t size, size_t alignment) {
    (void)old_size;
    struct head *head = head_of(block);
    if (head->size >= SIZES) return block_behind(remapped(head, mapping_for(size)));
    size_t had = (size_t)1 << head->size;
    return size <= had ? block_at(block) : larger(block, had, size, alignment);
}
