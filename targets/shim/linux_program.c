/* What the proved program calls of its system on Linux, but for memory; and its beginning. Nothing proves this file. With linux_memory.c
 * and bytes.c it takes the place of the kit's liblibc_c.a and libos_c.a, of crt1.o and of libc.so.6. */
#include "linux.h"
#ifdef __x86_64__
#include "processor.h"
#endif

static int latest_error;

/* Returns the result of a system call as C's functions do: -1 for an error, whose number is kept. */
static long result_of(long result) {
    if (!is_error(result)) return result;
    latest_error = (int)-result;
    return -1;
}
int rattle_errno(void) { return latest_error; }
void rattle_set_errno(int error) { latest_error = error; }

ssize_t read(int file, void *into, size_t room) { return result_of(system_call(READ, file, (long)into, (long)room, 0, 0, 0)); }
ssize_t write(int file, const void *from, size_t count) { return result_of(system_call(WRITE, file, (long)from, (long)count, 0, 0, 0)); }
ssize_t __write(int file, const void *from, size_t count) { return write(file, from, count); }
int close(int file) { return (int)result_of(system_call(CLOSE, file, 0, 0, 0, 0, 0)); }

enum { FROM_CURRENT_FOLDER = -100 };
int open(const char *path, int flags, int mode) {
    return (int)result_of(system_call(OPENAT, FROM_CURRENT_FOLDER, (long)path, flags, mode, 0, 0));
}

/* Sets what happens at a signal; the program ignores SIGPIPE. The kernel's words are the handler, flags, a restorer and a mask. */
long __sysv_signal(int signal, long handler) {
    long action[4] = {handler};
    return result_of(system_call(SIGACTION, signal, (long)action, 0, sizeof action[3], 0, 0));
}

/* The words of the command line, the program's name too. */
static size_t word_count;
static unsigned char **words;

/* Copies a word without its final 0. Returns its length; -1 if there is no such word, and -2 if it has more bytes than there is room. */
ssize_t rattle_arg(size_t index, unsigned char *into, size_t room) {
    if (index >= word_count || !words[index]) return -1;
    size_t length = 0;
    for (; words[index][length]; length++) {
        if (length == room) return -2;
        into[length] = words[index][length];
    }
    return (ssize_t)length;
}

#ifdef __x86_64__
__asm__(".globl _start\n_start:\nxor %ebp,%ebp\nmov %rsp,%rdi\nand $-16,%rsp\ncall begin\nud2");
#else
__asm__(".globl _start\n_start:\nmov x29,#0\nmov x30,#0\nmov x0,sp\nand sp,x0,#-16\nbl begin\nbrk #1");
#endif

int main(void);
/* Begins the program. At its start the stack has the count of words, and then their addresses. */
__attribute__((used, noreturn)) void begin(long *stack) {
    word_count = (size_t)stack[0];
    words = (unsigned char **)(stack + 1);
    for (;;) system_call(EXIT_GROUP, main(), 0, 0, 0, 0, 0);
}
