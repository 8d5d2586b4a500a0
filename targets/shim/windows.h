/* The calls of KERNEL32 and SHELL32 that the proved code needs on 64-bit Windows, without a C library. Nothing proves this file. */

typedef unsigned long long size_t;
typedef long long ssize_t;
typedef unsigned short wide; /* a unit of UTF-16 */

#define WINDOWS(type, name, ...) __declspec(dllimport) type name(__VA_ARGS__)
WINDOWS(void *, GetStdHandle, unsigned which);
WINDOWS(int, ReadFile, void *file, void *into, unsigned room, unsigned *count, void *none);
WINDOWS(int, WriteFile, void *file, const void *from, unsigned count, unsigned *written, void *none);
WINDOWS(void *, CreateFileW, const wide *name, unsigned access, unsigned share, void *none, unsigned how, unsigned flags, void *no_model);
WINDOWS(int, GetConsoleMode, void *file, unsigned *mode);
WINDOWS(int, CloseHandle, void *file);
WINDOWS(unsigned, GetLastError, void);
WINDOWS(void, SetLastError, unsigned error);
WINDOWS(void, Sleep, unsigned milliseconds);
WINDOWS(void *, GetProcessHeap, void);
WINDOWS(void *, HeapAlloc, void *heap, unsigned flags, size_t size);
WINDOWS(void *, HeapReAlloc, void *heap, unsigned flags, void *block, size_t size);
WINDOWS(int, HeapFree, void *heap, unsigned flags, void *block);
WINDOWS(const wide *, GetCommandLineW, void);
WINDOWS(wide **, CommandLineToArgvW, const wide *line, int *count);
WINDOWS(int, WideCharToMultiByte, unsigned page, unsigned flags, const wide *from, int count, char *into, int room, void *no_default, void *none);
WINDOWS(int, MultiByteToWideChar, unsigned page, unsigned flags, const char *from, int count, wide *into, int room);
WINDOWS(__attribute__((noreturn)) void, ExitProcess, unsigned status);
