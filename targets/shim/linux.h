/* System calls of Linux on x86-64 and aarch64, without a C library. Nothing proves this file. */

typedef unsigned long size_t;
typedef long ssize_t;

#ifdef __x86_64__
enum { READ = 0, WRITE = 1, CLOSE = 3, MMAP = 9, MUNMAP = 11, SIGACTION = 13, MREMAP = 25, EXIT_GROUP = 231, OPENAT = 257 };
#else
enum { OPENAT = 56, CLOSE = 57, READ = 63, WRITE = 64, EXIT_GROUP = 94, SIGACTION = 134, MUNMAP = 215, MREMAP = 216, MMAP = 222 };
#endif

/* Makes a system call. Returns its result, or the negated number of an error. */
static inline long system_call(long number, long a, long b, long c, long d, long e, long f) {
#ifdef __x86_64__
    register long r10 __asm__("r10") = d, r8 __asm__("r8") = e, r9 __asm__("r9") = f;
    __asm__ volatile("syscall" : "+a"(number) : "D"(a), "S"(b), "d"(c), "r"(r10), "r"(r8), "r"(r9) : "rcx", "r11", "memory");
    return number;
#else
    register long x8 __asm__("x8") = number, x0 __asm__("x0") = a, x1 __asm__("x1") = b, x2 __asm__("x2") = c, x3 __asm__("x3") = d,
        x4 __asm__("x4") = e, x5 __asm__("x5") = f;
    __asm__ volatile("svc 0" : "+r"(x0) : "r"(x8), "r"(x1), "r"(x2), "r"(x3), "r"(x4), "r"(x5) : "memory");
    return x0;
#endif
}

/* Whether the result of a system call is an error: the numbers from -4095 to -1 are. */
static inline int is_error(long result) { return result < 0 && result >= -4095; }
