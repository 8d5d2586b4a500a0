/* Memory for the proved code on Windows, from the heap of the process, whose calls take its lock. Nothing proves this file.
 * These return 0 if there is no memory; windows_block.ll makes of it the two values that the compiled code wants. */
#include "windows.h"

void *windows_alloc(size_t size) { return HeapAlloc(GetProcessHeap(), 0, size); }
void *windows_realloc(void *block, size_t size) { return HeapReAlloc(GetProcessHeap(), 0, block, size); }
void rattle_dealloc(void *block) { HeapFree(GetProcessHeap(), 0, block); }

/* Touches each page of a large frame, as Windows wants it, which grows a stack only by its next page: rax is the size of the frame, and
 * no register changes. */
__asm__(".globl ___chkstk_ms\n___chkstk_ms:\npush %rcx\npush %rax\ncmp $4096,%rax\nlea 24(%rsp),%rcx\njb 2f\n"
        "1: sub $4096,%rcx\norb $0,(%rcx)\nsub $4096,%rax\ncmp $4096,%rax\nja 1b\n2: sub %rax,%rcx\norb $0,(%rcx)\npop %rax\npop %rcx\nret");
