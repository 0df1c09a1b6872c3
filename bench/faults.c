/* A library that bench/memory puts in front of the C library of the program (LD_PRELOAD). Before main it starts the program once
   for each number from FAULTS_FROM to FAULTS_TO, in a child, where the call of this number fails: an allocation, or an opening, a
   reading or a writing. For each child it writes a line: the number, what the call was, the status (or 1000 and the number of the
   signal), how many bytes were written, whether they are the front of those that are expected, how many bytes went to standard
   error, and how many allocations and how many openings, readings and writings were made. */
#define _GNU_SOURCE
#include <errno.h>
#include <fcntl.h>
#include <stdarg.h>
#include <stdio.h>
#include <stdlib.h>
#include <string.h>
#include <sys/mman.h>
#include <sys/stat.h>
#include <sys/syscall.h>
#include <sys/wait.h>
#include <unistd.h>

extern void *__libc_malloc(size_t);
extern void *__libc_realloc(void *, size_t);

enum mode { COUNT, ALLOC, ALLOCS, FAIL, SHORT, SHORTS };
static const char *const modes[] = {"count", "alloc", "allocs", "fail", "short", "shorts"};

/* What a child tells the process that started it. */
struct shared {
    long allocs, calls;
    char kind;
};

static struct shared *told;
static int armed;
static enum mode mode;
static long number;
static int error;

static int is_refused(void) {
    if (!armed) return 0;
    long now = ++told->allocs;
    if (!(mode == ALLOC ? now == number : mode == ALLOCS && now >= number)) return 0;
    told->kind = 'm';
    errno = ENOMEM;
    return 1;
}

void *malloc(size_t size) {
    return is_refused() ? NULL : __libc_malloc(size);
}

void *realloc(void *block, size_t size) {
    return is_refused() ? NULL : __libc_realloc(block, size);
}

/* Counts a call; whether it fails, and how many bytes it may move. */
static int fails(char kind, size_t *most) {
    if (!armed) return 0;
    long now = ++told->calls;
    if (mode == SHORTS || (mode == SHORT && now == number)) {
        told->kind = kind;
        if (most && *most > 1) *most = 1;
    }
    if (mode != FAIL || now != number) return 0;
    told->kind = kind;
    errno = error;
    return 1;
}

ssize_t read(int file, void *into, size_t most) {
    if (fails('r', &most)) return -1;
    return syscall(SYS_read, file, into, most);
}

ssize_t write(int file, const void *from, size_t most) {
    /* The error 0 stands for a writing that takes nothing. */
    if (fails('w', &most)) return error ? -1 : 0;
    return syscall(SYS_write, file, from, most);
}

static int opened(int folder, const char *name, int flags, mode_t access) {
    if (fails('o', NULL)) return -1;
    return syscall(SYS_openat, folder, name, flags, access);
}

int open(const char *name, int flags, ...) {
    va_list more;
    va_start(more, flags);
    mode_t access = va_arg(more, mode_t);
    va_end(more);
    return opened(AT_FDCWD, name, flags, access);
}

int open64(const char *name, int flags, ...) {
    va_list more;
    va_start(more, flags);
    mode_t access = va_arg(more, mode_t);
    va_end(more);
    return opened(AT_FDCWD, name, flags, access);
}

int openat(int folder, const char *name, int flags, ...) {
    va_list more;
    va_start(more, flags);
    mode_t access = va_arg(more, mode_t);
    va_end(more);
    return opened(folder, name, flags, access);
}

int openat64(int folder, const char *name, int flags, ...) {
    va_list more;
    va_start(more, flags);
    mode_t access = va_arg(more, mode_t);
    va_end(more);
    return opened(folder, name, flags, access);
}

static long given(const char *name, long otherwise) {
    const char *text = getenv(name);
    return text ? atol(text) : otherwise;
}

static void fall(const char *what) {
    dprintf(2, "faults: %s\n", what);
    _exit(126);
}

static int scratch(const char *name) {
    const char *path = getenv(name);
    int file = path ? syscall(SYS_openat, AT_FDCWD, path, O_RDWR | O_CREAT | O_TRUNC | O_APPEND, 0600) : -1;
    if (file < 0) fall(name);
    return file;
}

/* Whether the file is as long as the front of these bytes, and equal to it. */
static int is_front(int file, long length, const char *expected, long most) {
    static char part[1 << 16];
    if (length > most) return 0;
    for (long at = 0; at < length;) {
        ssize_t count = pread(file, part, sizeof part, at);
        if (count <= 0 || memcmp(part, expected + at, count) != 0) return 0;
        at += count;
    }
    return 1;
}

static long length_of(int file) {
    struct stat about;
    return fstat(file, &about) == 0 ? about.st_size : -1;
}

static void run_all(int out, int err, int report, const char *expected, long most) {
    long last = given("FAULTS_TO", 1), step = given("FAULTS_STEP", 1);
    for (number = given("FAULTS_FROM", 1); number <= last; number += step) {
        if (ftruncate(out, 0) || ftruncate(err, 0)) fall("ftruncate");
        memset(told, 0, sizeof *told);
        pid_t child = fork();
        if (child < 0) fall("fork");
        if (child == 0) {
            dup2(out, 1);
            dup2(err, 2);
            alarm(given("FAULTS_SECONDS", 30));
            armed = 1;
            return;
        }
        int status;
        if (waitpid(child, &status, 0) < 0) fall("waitpid");
        long ended = WIFEXITED(status) ? WEXITSTATUS(status) : 1000 + WTERMSIG(status);
        long length = length_of(out);
        dprintf(report, "%ld %c %ld %ld %d %ld %ld %ld\n", number, told->kind ? told->kind : '-', ended, length,
                is_front(out, length, expected, most), length_of(err), told->allocs, told->calls);
    }
    _exit(0);
}

__attribute__((constructor)) static void start(void) {
    const char *wanted = getenv("FAULTS_MODE");
    if (!wanted) return;
    mode = COUNT;
    for (unsigned k = 0; k < sizeof modes / sizeof *modes; k++)
        if (strcmp(wanted, modes[k]) == 0) mode = k;
    error = given("FAULTS_ERROR", EIO);
    told = mmap(NULL, sizeof *told, PROT_READ | PROT_WRITE, MAP_SHARED | MAP_ANONYMOUS, -1, 0);
    if (told == MAP_FAILED) fall("mmap");
    int out = scratch("FAULTS_OUT"), err = scratch("FAULTS_ERR"), report = scratch("FAULTS_REPORT");
    const char *path = getenv("FAULTS_EXPECTED");
    int file = path ? syscall(SYS_openat, AT_FDCWD, path, O_RDONLY, 0) : -1;
    long most = file < 0 ? 0 : length_of(file);
    char *expected = most ? mmap(NULL, most, PROT_READ, MAP_PRIVATE, file, 0) : "";
    if (expected == MAP_FAILED) fall("expected");
    run_all(out, err, report, expected, most);
}
