/* Returns what glibc has of the processor: words 4 to 7 of a leaf are the features that a program can use. Before it begins, the program
 * looks at word 6 (ECX) of leaves 1 and 0x80000001, for x86-64-v2; no feature in there that it needs is the system's to enable. */
void *__x86_get_cpuid_feature_leaf(unsigned which) {
    static unsigned leaf[8];
    unsigned eax = which == 0 ? 1 : 0x80000001, ebx, ecx = 0, edx;
    __asm__("cpuid" : "+a"(eax), "=b"(ebx), "+c"(ecx), "=d"(edx));
    leaf[6] = ecx;
    return leaf;
}
