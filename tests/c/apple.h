/* SPDX-License-Identifier: Apache-2.0 */
/* What dist/program.c takes of macOS, as the headers of its SDK declare it: dist/test.sh compiles that with these alone. */
#pragma once

typedef unsigned nfds_t, sigset_t;
typedef __SIZE_TYPE__ size_t;
typedef long ssize_t;
typedef long long off_t;

#define NULL ((void *)0)
#define EINVAL 22
#define ERANGE 34
#define errno (*__error())
int *__error(void);

#define O_RDONLY 0
#define O_RDWR 2
#define O_CREAT 0x200
#define O_EXCL 0x800
#define O_NOCTTY 0x20000
#define O_CLOEXEC 0x1000000
int close(int);
int dup2(int, int);
int isatty(int);
off_t lseek(int, off_t, int);
int open(const char *, int, ...);
int pipe(int[2]);
ssize_t read(int, void *, size_t);
int unlink(const char *);
ssize_t write(int, const void *, size_t);

#define POLLIN 1
struct pollfd {
    int fd;
    short events, revents;
};
int poll(struct pollfd *, nfds_t, int);

#define SIGINT 2
#define SIGPIPE 13
#define SIG_DFL ((void (*)(int))0)
#define SIG_IGN ((void (*)(int))1)
#define SA_RESTART 2
#define SA_RESETHAND 4
#define sa_handler __sigaction_u.__sa_handler
struct __siginfo;
union __sigaction_u {
    void (*__sa_handler)(int);
    void (*__sa_sigaction)(int, struct __siginfo *, void *);
};
struct sigaction {
    union __sigaction_u __sigaction_u;
    sigset_t sa_mask;
    int sa_flags;
};
int sigaction(int, const struct sigaction *restrict, struct sigaction *restrict);
void (*signal(int, void (*)(int)))(int);

#define S_ISDIR(mode) (((mode) & 0170000) == 0040000)
#define S_ISFIFO(mode) (((mode) & 0170000) == 0010000)
#define S_ISSOCK(mode) (((mode) & 0170000) == 0140000)
struct timespec {
    long tv_sec, tv_nsec;
};
struct stat {
    int st_dev;
    unsigned short st_mode, st_nlink;
    unsigned long long st_ino;
    unsigned st_uid, st_gid;
    int st_rdev;
    struct timespec st_atimespec, st_mtimespec, st_ctimespec, st_birthtimespec;
    off_t st_size;
    long long st_blocks;
    int st_blksize;
    unsigned st_flags, st_gen;
    int st_lspare;
    long long st_qspare[2];
};
int fstat(int, struct stat *);
int stat(const char *, struct stat *);

void *memcpy(void *, const void *, size_t);
void *memset(void *, int, size_t);
char *strerror(int);
size_t strlen(const char *);
