/* The functions of C that compiled code calls by name, to copy and fill memory. Nothing proves this file. */
#ifdef _WIN64
typedef unsigned long long size_t;
#else
typedef unsigned long size_t;
#endif
typedef size_t word __attribute__((may_alias, aligned(1)));
enum { WORD = sizeof(word) };

static void copy_upward(unsigned char *into, const unsigned char *from, size_t count) {
    for (; count >= WORD; count -= WORD, into += WORD, from += WORD) *(word *)into = *(const word *)from;
    for (; count; count--) *into++ = *from++;
}
static void copy_downward(unsigned char *into, const unsigned char *from, size_t count) {
    for (; count >= WORD; count -= WORD) *(word *)(into + count - WORD) = *(const word *)(from + count - WORD);
    while (count--) into[count] = from[count];
}

void *memcpy(void *into, const void *from, size_t count) {
    copy_upward(into, from, count);
    return into;
}
void *memmove(void *into, const void *from, size_t count) {
    int is_overwritten = (size_t)into - (size_t)from < count; /* whether `into` begins in what is copied */
    (is_overwritten ? copy_downward : copy_upward)(into, from, count);
    return into;
}
void *memset(void *into, int byte, size_t count) {
    unsigned char *next = into;
    size_t all = (unsigned char)byte * 0x0101010101010101u;
    for (; count >= WORD; count -= WORD, next += WORD) *(word *)next = all;
    for (; count; count--) *next++ = (unsigned char)byte;
    return into;
}
