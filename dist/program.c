/* SPDX-License-Identifier: Apache-2.0 */
/* usage: cc -o sctp_show dist/sctp_show-x86_64-elf.s dist/program.c

   The start of the programs in dist/: what their texts take from the system, for POSIX and Windows. Their own work is all in
   the text, whose rattle_main returns the status. It says on standard error if the processor isn't of x86-64-v2, and returns
   127. It takes Linux's numbers, and of errors distinguishes EINTR and EPIPE alone, which have the same ones on all systems; of
   the others it says the number, and what the system calls it.
   While sctp_dump reads a pipe or a socket, the first SIGINT ends its input, so that it prints what it has counted; a second
   one ends the program. On Windows Ctrl-C ends the program. */
#ifdef _WIN32
#define WIN32_LEAN_AND_MEAN
#include <windows.h>
#include <shellapi.h>
#else
#define _XOPEN_SOURCE 700
#include <fcntl.h>
#include <poll.h>
#include <sys/stat.h>
#include <unistd.h>
#endif
#ifdef __x86_64__
#include <cpuid.h>
#endif
#include <errno.h>
#include <signal.h>
#include <stdint.h>
#include <string.h>

/* Linux's O_RDONLY | O_NOCTTY | O_CLOEXEC, and O_RDWR | O_CREAT | O_EXCL with these: a program opens files for these alone. */
enum { TO_READ = 0x80100, TO_CREATE = 0x801c2 };

static int count;

int32_t rattle_main(void);

#ifdef _WIN32

static wchar_t **words;

int main(void)
{
    words = CommandLineToArgvW(GetCommandLineW(), &count);
    return words == NULL ? 2 : rattle_main();
}

/* A word of the command line, in UTF-8, or if it has no such form what isn't either. (All have 32,767 units at most.) */
static const char *word_of(size_t index)
{
    static char word[3 * 32768];
    return WideCharToMultiByte(CP_UTF8, WC_ERR_INVALID_CHARS, words[index], -1, word, sizeof word, NULL, NULL) ? word : "\xff";
}

static int32_t fail(void)
{
    switch (GetLastError()) {
    case ERROR_BROKEN_PIPE:
    case ERROR_NO_DATA:
    case ERROR_PIPE_NOT_CONNECTED:
        errno = EPIPE;
        break;
    case ERROR_FILE_NOT_FOUND:
    case ERROR_PATH_NOT_FOUND:
        errno = ENOENT;
        break;
    case ERROR_ACCESS_DENIED:
        errno = EACCES;
        break;
    case ERROR_FILE_EXISTS:
        errno = EEXIST;
        break;
    case ERROR_DISK_FULL:
        errno = ENOSPC;
        break;
    default:
        errno = EIO;
    }
    return -1;
}

/* A path in UTF-16, which has 4,096 units at most; NULL if it has more. */
static const wchar_t *wide(const char *path)
{
    static wchar_t units[4096];
    return MultiByteToWideChar(CP_UTF8, 0, path, -1, units, 4096) > 0 ? units : NULL;
}

/* 0 to 2 are the standard streams, as everywhere. Another number is a handle, of which Windows uses 32 bits. */
static HANDLE handle_of(int32_t file)
{
    return file < 3 ? GetStdHandle(STD_INPUT_HANDLE - (DWORD)file) : (HANDLE)(intptr_t)file;
}

/* How much is read or written at once: consoles before Windows 8 take less than 64 KiB. */
static DWORD part_of(size_t size)
{
    return size < 32768 ? (DWORD)size : 32768;
}

/* Opens a file that others may write, or a folder, of which a read fails, as on Linux; or creates a file that isn't there. */
int32_t rattle_open(const char *path, int32_t flags, ...)
{
    const wchar_t *units = wide(path);
    HANDLE file = INVALID_HANDLE_VALUE;
    DWORD access = flags == TO_CREATE ? GENERIC_READ | GENERIC_WRITE : GENERIC_READ;
    DWORD how = flags == TO_CREATE ? CREATE_NEW : OPEN_EXISTING;
    if ((flags == TO_READ || flags == TO_CREATE) && units != NULL)
        file = CreateFileW(units, access, FILE_SHARE_READ | FILE_SHARE_WRITE | FILE_SHARE_DELETE, NULL, how,
                           FILE_FLAG_BACKUP_SEMANTICS, NULL);
    return file == INVALID_HANDLE_VALUE ? fail() : (int32_t)(intptr_t)file;
}

int32_t rattle_close(int32_t file)
{
    return CloseHandle(handle_of(file)) ? 0 : fail();
}

int32_t rattle_unlink(const char *path)
{
    const wchar_t *units = wide(path);
    return units != NULL && DeleteFileW(units) ? 0 : fail();
}

/* (a pipe ends where it has no writer) */
int64_t rattle_read(int32_t file, void *bytes, size_t size)
{
    DWORD done = 0;
    return ReadFile(handle_of(file), bytes, part_of(size), &done, NULL) || (fail() && errno == EPIPE) ? (int64_t)done : -1;
}

int64_t rattle_write(int32_t file, const void *bytes, size_t size)
{
    DWORD done = 0;
    return WriteFile(handle_of(file), bytes, part_of(size), &done, NULL) ? (int64_t)done : fail();
}

/* (in a pipe or a console there is no place, but Windows says one) */
int64_t rattle_lseek(int32_t file, int64_t offset, int32_t from)
{
    LARGE_INTEGER by = {.QuadPart = offset}, at;
    HANDLE handle = handle_of(file);
    return GetFileType(handle) == FILE_TYPE_DISK && SetFilePointerEx(handle, by, &at, (DWORD)from) ? at.QuadPart : fail();
}

int32_t rattle_isatty(int32_t file)
{
    DWORD mode;
    return GetConsoleMode(handle_of(file), &mode) != 0;
}

#else

static char **words;

int main(int argc, char **argv)
{
    count = argc;
    words = argv;
    return rattle_main();
}

/* What SIGINT found in standard input, and how much of it has been read since. */
static uint8_t rest[10 * 65536];
static volatile size_t found;
static size_t taken;

/* The handler of SIGINT: ends standard input after what it holds now. That is kept, and a pipe without a writer takes its
   place. Ctrl-C goes to the writer of the old one too, which may write the rest of a packet as it ends: so this reads on as
   long as more comes within 0.1 s, ten times at most. A handler may call all of these functions. */
static void end_input(int number)
{
    struct pollfd input = {.fd = 0, .events = POLLIN};
    int error = errno, ends[2];
    (void)number;
    if (pipe(ends) == 0) {
        for (int i = 0; i < 10 && poll(&input, 1, 100) > 0; i++) {
            ssize_t size = read(0, rest + found, 65536);
            if (size <= 0)
                break;
            found += (size_t)size;
        }
        close(ends[1]);
        dup2(ends[0], 0);
        close(ends[0]);
    }
    errno = error;
}

/* A word of the command line. Where one is asked for, which only sctp_dump does, the first SIGINT is to end standard input, if
   that is a pipe or a socket, no word is a file other than a folder, and the signal isn't ignored. A call that it interrupts
   begins anew. */
static const char *word_of(size_t index)
{
    static int is_settled;
    struct sigaction action = {.sa_handler = end_input, .sa_flags = SA_RESTART | (int)SA_RESETHAND}, old;
    struct stat input;
    for (int i = 1; !is_settled && i < count; i++)
        is_settled = stat(words[i], &input) == 0 && !S_ISDIR(input.st_mode);
    if (!is_settled && fstat(0, &input) == 0 && (S_ISFIFO(input.st_mode) || S_ISSOCK(input.st_mode))
        && sigaction(SIGINT, NULL, &old) == 0 && old.sa_handler == SIG_DFL)
        sigaction(SIGINT, &action, NULL);
    is_settled = 1;
    return words[index];
}

int32_t rattle_open(const char *path, int32_t flags, ...)
{
    int more = O_NOCTTY | O_CLOEXEC;
    if (flags == TO_CREATE)
        return open(path, O_RDWR | O_CREAT | O_EXCL | more, 0666);
    errno = EINVAL;
    return flags == TO_READ ? open(path, O_RDONLY | more) : -1;
}

int32_t rattle_close(int32_t file)
{
    return close(file);
}

int32_t rattle_unlink(const char *path)
{
    return unlink(path);
}

int64_t rattle_read(int32_t file, void *bytes, size_t size)
{
    ssize_t done = read(file, bytes, size);
    if (done != 0 || file != 0)
        return done;
    size = size < found - taken ? size : found - taken;
    memcpy(bytes, rest + taken, size);
    taken += size;
    return (int64_t)size;
}

int64_t rattle_write(int32_t file, const void *bytes, size_t size)
{
    return write(file, bytes, size);
}

int64_t rattle_lseek(int32_t file, int64_t offset, int32_t from)
{
    return lseek(file, offset, from);
}

int32_t rattle_isatty(int32_t file)
{
    return isatty(file);
}

#endif

/* Copies a word of the command line, from 0 on, to the front of the buffer, and returns its length. Returns -1 if there is
   no such word, or -2 if the buffer has no room for it, and then the buffer is full. */
int64_t rattle_arg(size_t index, uint8_t *buffer, size_t room)
{
    if (index >= (size_t)count)
        return -1;
    const char *word = word_of(index);
    size_t length = strlen(word);
    memcpy(buffer, word, length < room ? length : room);
    return length <= room ? (int64_t)length : -2;
}

int32_t rattle_errno(void)
{
    return errno;
}

void rattle_set_errno(int32_t error)
{
    errno = error;
}

/* Writes what the system calls an error, and a 0, if there is room for both. */
int32_t rattle_strerror_r(int32_t error, char *text, size_t room)
{
    const char *name = strerror(error);
    size_t size = strlen(name) + 1;
    if (size > room)
        return ERANGE;
    memcpy(text, name, size);
    return 0;
}

/* (called to ignore SIGPIPE alone, which Windows hasn't) */
int64_t rattle_signal(int32_t number, int64_t action)
{
    (void)number;
    (void)action;
#ifdef SIGPIPE
    signal(SIGPIPE, SIG_IGN);
#endif
    return 0;
}

/* The processor's features: EAX to EDX of a leaf of cpuid, and again those that can be used. For the features of x86-64-v2,
   the only ones that are asked for, these are the same. An arm64 has what is asked for. */
const uint32_t *rattle_cpuid(uint32_t number)
{
    static uint32_t leaf[8];
    memset(leaf, 0xff, sizeof leaf);
#ifdef __x86_64__
    static const unsigned leaves[] = {1, 7, 0x80000001}; /* by glibc's numbers of them */
    if (number >= 3 || !__get_cpuid_count(leaves[number], 0, &leaf[0], &leaf[1], &leaf[2], &leaf[3]))
        memset(leaf, 0, sizeof leaf);
    memcpy(leaf + 4, leaf, 16);
#endif
    (void)number;
    return leaf;
}
