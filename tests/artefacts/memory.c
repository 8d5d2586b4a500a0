/* Asks for memory and gives all back, in THREADS threads, and looks whether each block keeps its bytes: prints how many did not. */
#include <pthread.h>
#include <stdio.h>
#include <string.h>
#include "block.h"

enum { BLOCKS = 300, TURNS = 100000 };

struct block rattle_alloc(size_t size, size_t alignment);
struct block rattle_realloc(void *block, size_t old_size, size_t size, size_t alignment);
void rattle_dealloc(void *block);

/* Whether a block begins where any can, and has this byte everywhere. */
static int is_filled(const unsigned char *block, size_t size, unsigned char byte) {
    return (size_t)block % 16 == 0 && (!size || (block[0] == byte && !memcmp(block, block + 1, size - 1)));
}

static void *one_thread(void *seed) {
    unsigned char *blocks[BLOCKS] = {0};
    size_t sizes[BLOCKS], lost = 0, state = (size_t)seed;
    for (int turn = 0; turn < TURNS; turn++) {
        state = state * 6364136223846793005u + 1442695040888963407u;
        size_t which = state >> 33, at = which % BLOCKS, size = which / BLOCKS % 9 ? which / 7 % 200 : which / 7 % 20000;
        unsigned char byte = (unsigned char)(at ^ (size_t)seed);
        if (!blocks[at]) {
            blocks[at] = rattle_alloc(size, 8).start;
        } else if (which % 3) {
            lost += !is_filled(blocks[at], sizes[at], byte);
            blocks[at] = rattle_realloc(blocks[at], sizes[at], size, 8).start;
            lost += !is_filled(blocks[at], sizes[at] < size ? sizes[at] : size, byte);
        } else {
            lost += !is_filled(blocks[at], sizes[at], byte);
            rattle_dealloc(blocks[at]);
            blocks[at] = 0;
            continue;
        }
        sizes[at] = size;
        memset(blocks[at], byte, size);
    }
    for (size_t at = 0; at < BLOCKS; at++) if (blocks[at]) rattle_dealloc(blocks[at]);
    return (void *)lost;
}

int main(void) {
    pthread_t threads[THREADS];
    size_t lost = 0;
    for (size_t seed = 0; seed < THREADS; seed++) pthread_create(&threads[seed], 0, one_thread, (void *)(seed + 1));
    for (size_t at = 0; at < THREADS; at++) {
        void *found;
        pthread_join(threads[at], &found);
        lost += (size_t)found;
    }
    printf("%zu\n", lost);
    return rattle_alloc((size_t)-1, 8).is_there || rattle_alloc((size_t)-4096, 8).is_there;
}
