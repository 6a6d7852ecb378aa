/* Stands before the C library (LD_PRELOAD) and has calls of one kind fail: those from FAIL_FROM to FAIL_TO, counted from 1,
   with the error FAIL_ERROR. A read or a write moves at most FAIL_MOST bytes. With FAIL_EACH=A-B the program runs once for
   each number from A to B, in a process of its own, with that call alone failing, or that one and all behind it where
   FAIL_ON is set, until a run has fewer calls; what each run did is written to the descriptor FAIL_OUT: a line of its number,
   its wait status, its calls and the length of its output, and that output. Else the calls are counted in the file FAIL_COUNT. */
#define _GNU_SOURCE
#include <dlfcn.h>
#include <errno.h>
#include <fcntl.h>
#include <stdarg.h>
#include <stdio.h>
#include <stdlib.h>
#include <string.h>
#include <sys/mman.h>
#include <sys/socket.h>
#include <sys/syscall.h>
#include <sys/wait.h>
#include <unistd.h>

static const char *kind = "";
static long from = 0, to = 0, most = 0;
static int error = EIO, out = -1;
static long *calls;

static int is(const char *name) { return calls && strcmp(kind, name) == 0; }

static int fails(const char *name) {
    if (!is(name)) return 0;
    long n = __atomic_add_fetch(calls, 1, __ATOMIC_SEQ_CST);
    if (n < from || n > to) return 0;
    errno = error;
    return 1;
}

static size_t cut(const char *name, size_t n) { return most > 0 && is(name) && n > (size_t)most ? (size_t)most : n; }

#define REAL(name) static __typeof__(&name) real; if (!real) real = (__typeof__(&name))dlsym(RTLD_NEXT, #name)

void *malloc(size_t n) { REAL(malloc); if (fails("memory")) return NULL; return real(n); }
void *realloc(void *p, size_t n) { REAL(realloc); if (fails("memory")) return NULL; return real(p, n); }
void *aligned_alloc(size_t a, size_t n) { REAL(aligned_alloc); if (fails("memory")) return NULL; return real(a, n); }
int posix_memalign(void **p, size_t a, size_t n) {
    REAL(posix_memalign);
    return fails("memory") ? ENOMEM : real(p, a, n);
}

ssize_t read(int fd, void *to_, size_t n) { REAL(read); return fails("read") ? -1 : real(fd, to_, cut("read", n)); }
ssize_t recv(int fd, void *to_, size_t n, int how) { REAL(recv); return fails("read") ? -1 : real(fd, to_, cut("read", n), how); }
ssize_t write(int fd, const void *from_, size_t n) { REAL(write); return fails("write") ? -1 : real(fd, from_, cut("write", n)); }
ssize_t send(int fd, const void *from_, size_t n, int how) { REAL(send); return fails("write") ? -1 : real(fd, from_, cut("write", n), how); }

int open(const char *name, int how, ...) {
    REAL(open);
    va_list rest;
    va_start(rest, how);
    mode_t mode = va_arg(rest, mode_t);
    va_end(rest);
    return fails("open") ? -1 : real(name, how, mode);
}

int accept(int fd, struct sockaddr *restrict a, socklen_t *restrict l) { REAL(accept); return fails("accept") ? -1 : real(fd, a, l); }
int accept4(int fd, struct sockaddr *restrict a, socklen_t *restrict l, int how) {
    REAL(accept4);
    return fails("accept") ? -1 : real(fd, a, l, how);
}
int socket(int a, int b, int c) { REAL(socket); return fails("door") ? -1 : real(a, b, c); }
int bind(int fd, const struct sockaddr *a, socklen_t l) { REAL(bind); return fails("door") ? -1 : real(fd, a, l); }
int listen(int fd, int n) { REAL(listen); return fails("door") ? -1 : real(fd, n); }
int setsockopt(int fd, int a, int b, const void *c, socklen_t l) { REAL(setsockopt); return fails("option") ? -1 : real(fd, a, b, c, l); }
int fcntl(int fd, int what, ...) {
    REAL(fcntl);
    va_list rest;
    va_start(rest, what);
    long with = va_arg(rest, long);
    va_end(rest);
    return fails("handle") ? -1 : real(fd, what, with);
}
int pthread_create(pthread_t *restrict t, const pthread_attr_t *restrict a, void *(*f)(void *), void *restrict x) {
    REAL(pthread_create);
    return fails("thread") ? EAGAIN : real(t, a, f, x);
}

static long number(const char *name, long other) { const char *text = getenv(name); return text ? atol(text) : other; }

static void tell(const void *bytes, size_t n) {
    for (size_t at = 0; at < n;) {
        long wrote = syscall(SYS_write, out, (const char *)bytes + at, n - at);
        if (wrote <= 0) _exit(99);
        at += wrote;
    }
}

/* Whether the process is the one in which the program runs; the other one tells what came of it. */
static int runs_here(long n) {
    static char room[1 << 22];
    char head[100];
    int way[2], status;
    size_t got = 0;
    *calls = 0;
    if (pipe(way) != 0) _exit(98);
    pid_t child = fork();
    if (child < 0) _exit(97);
    if (child == 0) {
        dup2(way[1], 1);
        close(way[0]);
        close(way[1]);
        int input = syscall(SYS_openat, AT_FDCWD, getenv("FAIL_INPUT"), O_RDONLY);
        dup2(input, 0);
        close(input);
        alarm(number("FAIL_SECONDS", 20));
        return 1;
    }
    close(way[1]);
    for (long some = 1; some > 0 && got < sizeof room; got += some > 0 ? some : 0)
        some = syscall(SYS_read, way[0], room + got, sizeof room - got);
    close(way[0]);
    waitpid(child, &status, 0);
    tell(head, snprintf(head, sizeof head, "%ld %d %ld %zu\n", n, status, *calls, got));
    tell(room, got);
    return 0;
}

__attribute__((constructor)) static void begin(void) {
    const char *each = getenv("FAIL_EACH"), *name = getenv("FAIL_KIND");
    const char *count = getenv("FAIL_COUNT");
    int file = count ? syscall(SYS_openat, AT_FDCWD, count, O_RDWR) : -1;
    long *shared = mmap(NULL, sizeof *shared, PROT_READ | PROT_WRITE, file < 0 ? MAP_SHARED | MAP_ANONYMOUS : MAP_SHARED, file, 0);
    if (file >= 0) close(file);
    if (!name || shared == MAP_FAILED) return;
    kind = name;
    from = number("FAIL_FROM", 0);
    to = number("FAIL_TO", from);
    most = number("FAIL_MOST", 0);
    error = number("FAIL_ERROR", EIO);
    *shared = 0;
    out = number("FAIL_OUT", -1);
    if (each) {
        long first = 1, last = 1;
        sscanf(each, "%ld-%ld", &first, &last);
        for (long n = first; n <= last; n++) {
            calls = shared;
            from = n;
            to = getenv("FAIL_ON") ? 1L << 60 : n;
            if (runs_here(n)) return;
            if (*shared < n) break;
        }
        _exit(0);
    }
    calls = shared;
}
