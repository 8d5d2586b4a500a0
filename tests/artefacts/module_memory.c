/* The memory of a WebAssembly module in a process, for memory.c: at the end it prints whether all of it is one free block again. */
#include <stdio.h>
#include <sys/mman.h>

enum { FIRST = 1 << 12, LIMIT = FIRST + 4096 }; /* pages: addresses below are those of the process */
static unsigned long grown_pages = FIRST;
#define __builtin_wasm_memory_size(memory) grown_pages
#define __builtin_wasm_memory_grow(memory, more) (grown_pages += grown_pages + (more) <= LIMIT ? (more) : 0)
#include "webassembly.c"

__attribute__((constructor)) static void begin(void) {
    mmap(__heap_base, (size_t)(LIMIT - FIRST) * PAGE, PROT_READ | PROT_WRITE, MAP_PRIVATE | MAP_ANONYMOUS | MAP_FIXED, -1, 0);
}

__attribute__((destructor)) static void check(void) {
    struct head *block = at(end, -end->before);
    printf("%d\n", (void *)block == __heap_base && block->size & FREE && (size_t)end + HEAD == grown_pages * PAGE);
}
