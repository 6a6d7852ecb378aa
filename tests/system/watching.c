/* Stands before the C library (LD_PRELOAD) and notes what the program asks of the system. To the file WATCH_LINES it writes
   a line for each address that is bound ("bind HOST PORT") and each option of a socket ("option LEVEL NAME VALUE", a
   timeout in microseconds). In the file WATCH_COUNTS it keeps eight numbers: reads, their bytes, writes, their bytes,
   allocations, the bytes that they asked for, the bytes that are held, and the most that were. With WATCH_PORT a bind is to
   that port in place of the one that was asked for; with WATCH_HURRY=N a timeout is set to its N-th part. */
#define _GNU_SOURCE
#include <arpa/inet.h>
#include <dlfcn.h>
#include <fcntl.h>
#include <malloc.h>
#include <netinet/in.h>
#include <stdio.h>
#include <stdlib.h>
#include <string.h>
#include <sys/mman.h>
#include <sys/socket.h>
#include <sys/syscall.h>
#include <sys/time.h>
#include <unistd.h>

enum { READS, READ_BYTES, WRITES, WRITTEN_BYTES, ALLOCATIONS, ASKED, HELD, MOST, COUNTS };

static long *counts;
static int lines = -1;

#define REAL(name) static __typeof__(&name) real; if (!real) real = (__typeof__(&name))dlsym(RTLD_NEXT, #name)

static void add(int which, long by) { if (counts) __atomic_add_fetch(&counts[which], by, __ATOMIC_SEQ_CST); }

static void took(void *at, size_t asked) {
    if (!counts || !at) return;
    add(ALLOCATIONS, 1);
    add(ASKED, asked);
    long held = __atomic_add_fetch(&counts[HELD], malloc_usable_size(at), __ATOMIC_SEQ_CST);
    long most = __atomic_load_n(&counts[MOST], __ATOMIC_SEQ_CST);
    while (held > most && !__atomic_compare_exchange_n(&counts[MOST], &most, held, 0, __ATOMIC_SEQ_CST, __ATOMIC_SEQ_CST)) {}
}

void *malloc(size_t n) { REAL(malloc); void *at = real(n); took(at, n); return at; }
void *aligned_alloc(size_t a, size_t n) { REAL(aligned_alloc); void *at = real(a, n); took(at, n); return at; }
int posix_memalign(void **p, size_t a, size_t n) {
    REAL(posix_memalign);
    int status = real(p, a, n);
    if (status == 0) took(*p, n);
    return status;
}
void *realloc(void *p, size_t n) {
    REAL(realloc);
    long before = p ? malloc_usable_size(p) : 0;
    void *at = real(p, n);
    if (at) {
        add(HELD, -before);
        took(at, n);
    }
    return at;
}
void free(void *p) {
    REAL(free);
    if (p) add(HELD, -(long)malloc_usable_size(p));
    real(p);
}

static ssize_t counted(int bytes, ssize_t n) {
    if (n > 0) add(bytes, n);
    return n;
}

ssize_t read(int fd, void *to, size_t n) { REAL(read); add(READS, 1); return counted(READ_BYTES, real(fd, to, n)); }
ssize_t recv(int fd, void *to, size_t n, int how) {
    REAL(recv);
    add(READS, 1);
    return counted(READ_BYTES, real(fd, to, n, how));
}
ssize_t write(int fd, const void *from, size_t n) {
    REAL(write);
    add(WRITES, 1);
    return counted(WRITTEN_BYTES, real(fd, from, n));
}
ssize_t send(int fd, const void *from, size_t n, int how) {
    REAL(send);
    add(WRITES, 1);
    return counted(WRITTEN_BYTES, real(fd, from, n, how));
}

static void tell(const char *text, int size) { if (lines >= 0) syscall(SYS_write, lines, text, size); }

int bind(int fd, const struct sockaddr *address, socklen_t length) {
    REAL(bind);
    char host[INET6_ADDRSTRLEN] = "", text[100];
    struct sockaddr_storage other;
    if (length > sizeof other) return real(fd, address, length);
    memcpy(&other, address, length);
    struct sockaddr_in *four = (struct sockaddr_in *)&other;
    struct sockaddr_in6 *six = (struct sockaddr_in6 *)&other;
    int is_six = other.ss_family == AF_INET6;
    in_port_t *port = is_six ? &six->sin6_port : &four->sin_port;
    inet_ntop(other.ss_family, is_six ? (void *)&six->sin6_addr : (void *)&four->sin_addr, host, sizeof host);
    tell(text, snprintf(text, sizeof text, "bind %s %d\n", host, ntohs(*port)));
    const char *wanted = getenv("WATCH_PORT");
    if (wanted) *port = htons(atoi(wanted));
    return real(fd, (struct sockaddr *)&other, length);
}

int setsockopt(int fd, int level, int name, const void *value, socklen_t length) {
    REAL(setsockopt);
    char text[100];
    if (level == SOL_SOCKET && (name == SO_RCVTIMEO || name == SO_SNDTIMEO) && length == sizeof(struct timeval)) {
        struct timeval given = *(const struct timeval *)value;
        long all = given.tv_sec * 1000000L + given.tv_usec;
        tell(text, snprintf(text, sizeof text, "option %d %d %ld\n", level, name, all));
        const char *hurry = getenv("WATCH_HURRY");
        long set = hurry ? all / atol(hurry) : all;
        struct timeval other = {set / 1000000, set % 1000000};
        return real(fd, level, name, &other, length);
    }
    if (length == sizeof(int)) tell(text, snprintf(text, sizeof text, "option %d %d %d\n", level, name, *(const int *)value));
    return real(fd, level, name, value, length);
}

__attribute__((constructor)) static void begin(void) {
    const char *told = getenv("WATCH_LINES"), *kept = getenv("WATCH_COUNTS");
    if (told) lines = syscall(SYS_openat, AT_FDCWD, told, O_WRONLY | O_APPEND);
    int file = kept ? syscall(SYS_openat, AT_FDCWD, kept, O_RDWR) : -1;
    if (file < 0) return;
    void *at = mmap(NULL, COUNTS * sizeof(long), PROT_READ | PROT_WRITE, MAP_SHARED, file, 0);
    if (at != MAP_FAILED) counts = at;
    close(file);
}
