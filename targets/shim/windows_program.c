/* What the proved program calls of its system on 64-bit Windows, but for memory; and its beginning. Nothing proves this file. Bytes are read
 * and written as they are: no text mode. Names and words are UTF-8 for the program, and UTF-16 for the system. */
#include "windows.h"
#include "processor.h"

/* Numbers of errors, as C has them on Linux. */
enum { NO_SUCH_FILE = 2, INPUT_OR_OUTPUT = 5, BAD_FILE = 9 };
static int latest_error;
static int failed(int error) {
    latest_error = error;
    return -1;
}
int rattle_errno(void) { return latest_error; }
void rattle_set_errno(int error) { latest_error = error; }

/* Files 0, 1 and 2 are the standard streams, and the others are in a table. */
enum { FILES = 64 };
static void *const INVALID = (void *)-1;
static void *files[FILES];
static void *handle_of(int file) {
    void *handle = file < 0 || file >= FILES ? 0 : file < 3 ? GetStdHandle((unsigned)(-10 - file)) : files[file];
    return handle == INVALID ? 0 : handle;
}

/* The most bytes of one call of the system. */
enum { MOST = 1 << 20 };
static unsigned at_most(size_t count) { return count > MOST ? MOST : (unsigned)count; }

/* Whether bytes that were read begin with Ctrl-Z and are from a console, where it means the end. */
static int is_end_of_console(void *handle, const char *bytes) {
    unsigned mode;
    return *bytes == 26 && GetConsoleMode(handle, &mode);
}

enum { END_OF_FILE = 38, BROKEN_PIPE = 109, ABORTED = 995 }; /* errors of Windows */
ssize_t read(int file, void *into, size_t room) {
    void *handle = handle_of(file);
    unsigned count = 0;
    if (!handle) return failed(BAD_FILE);
    SetLastError(0);
    int is_read = ReadFile(handle, into, at_most(room), &count, 0);
    unsigned error = GetLastError();
    /* After Ctrl-C at a console the system is about to end this process. */
    if ((!is_read || !count) && error == ABORTED) Sleep((unsigned)-1);
    if (!is_read) return error == END_OF_FILE || error == BROKEN_PIPE ? 0 : failed(INPUT_OR_OUTPUT);
    return count && is_end_of_console(handle, into) ? 0 : (ssize_t)count;
}

ssize_t write(int file, const void *from, size_t count) {
    void *handle = handle_of(file);
    unsigned written = 0;
    if (!handle) return failed(BAD_FILE);
    if (!WriteFile(handle, from, at_most(count), &written, 0)) return failed(INPUT_OR_OUTPUT);
    return written;
}
ssize_t __write(int file, const void *from, size_t count) { return write(file, from, count); }

enum { UTF_8 = 65001, REJECT_WRONG_UTF_8 = 8, REJECT_WRONG_UTF_16 = 0x80, LONGEST_NAME = 32768 };
enum { SHARE_WITH_ALL = 7, OPEN_EXISTING = 3, ALSO_A_FOLDER = 0x02000000 };
static const unsigned TO_READ = 0x80000000;

/* Opens a file to read it, which is all that the program does. A folder opens too, and its read fails, as on Linux. */
int open(const char *path, int flags, int mode) {
    static wide name[LONGEST_NAME];
    (void)flags, (void)mode;
    int file = 3;
    while (file < FILES && files[file]) file++;
    if (file == FILES || !MultiByteToWideChar(UTF_8, REJECT_WRONG_UTF_8, path, -1, name, LONGEST_NAME)) return failed(NO_SUCH_FILE);
    void *handle = CreateFileW(name, TO_READ, SHARE_WITH_ALL, 0, OPEN_EXISTING, ALSO_A_FOLDER, 0);
    if (handle == INVALID) return failed(NO_SUCH_FILE);
    files[file] = handle;
    return file;
}

int close(int file) {
    void *handle = handle_of(file);
    if (!handle) return failed(BAD_FILE);
    if (file >= 3) files[file] = 0;
    return CloseHandle(handle) ? 0 : failed(INPUT_OR_OUTPUT);
}

/* The program ignores SIGPIPE, and Windows has no such signal. */
ssize_t __sysv_signal(int signal, ssize_t handler) {
    (void)signal, (void)handler;
    return 0;
}

/* The words of the command line, the program's name too. */
static int word_count;
static wide **words;

/* Copies a word as UTF-8. Returns its length; -1 if there is no such word, and -2 if it has more bytes than there is room. */
ssize_t rattle_arg(size_t index, unsigned char *into, size_t room) {
    static char word[4 * LONGEST_NAME];
    if (index >= (size_t)word_count) return -1;
    int length = WideCharToMultiByte(UTF_8, REJECT_WRONG_UTF_16, words[index], -1, word, sizeof word, 0, 0) - 1;
    if (length < 0) word[0] = (char)0xff, length = 1; /* no Unicode: the program rejects such a word */
    if ((size_t)length > room) return -2;
    for (int at = 0; at < length; at++) into[at] = (unsigned char)word[at];
    return length;
}

int main(void);
void __main(void) {} /* compilers for Windows call it first in main */
void begin(void) {
    words = CommandLineToArgvW(GetCommandLineW(), &word_count);
    ExitProcess((unsigned)main());
}
