// Calls of the system that do less than they were asked for, for files.py, bad_clients.py and
// memory.sh. The first three take effect for the file EDGE_FILE alone, which is named by its real
// path.
//
//   EDGE_PIECE=N         a read or a write at a place moves at most N bytes
//   EDGE_INTERRUPT=1     every other one of them is interrupted before it moves any
//   EDGE_AT=CALL         at its first call (flock, pread), EDGE_FILE is replaced by EDGE_OTHER,
//                        before the call is made, or after it where it reads
//   EDGE_SECONDS=N       a timeout of ten minutes for reads of a socket or of one minute for writes
//                        is N seconds; the program ends with status 99 where it asks for another
//   EDGE_ACCEPT=E:COUNT  the first COUNT accepts fail with the error E, a number
//   EDGE_MEMORY=N        the Nth call for memory after the program was loaded gets none
//   EDGE_WRONG=BODY      the program does as if it were written wrongly, as WRONG of
//                        files.py has it: a call that it would leave out is answered and not made
#define _GNU_SOURCE
#include <dlfcn.h>
#include <errno.h>
#include <fcntl.h>
#include <stdarg.h>
#include <stdio.h>
#include <stdlib.h>
#include <string.h>
#include <sys/socket.h>
#include <sys/stat.h>
#include <sys/time.h>
#include <sys/types.h>
#include <unistd.h>

static int is_wrong(const char *body) {
    const char *wrong = getenv("EDGE_WRONG");
    return wrong != NULL && strcmp(wrong, body) == 0;
}

static int is_file(int fd) {
    const char *wanted = getenv("EDGE_FILE");
    char link[64], path[4096];
    snprintf(link, sizeof link, "/proc/self/fd/%d", fd);
    ssize_t length = readlink(link, path, sizeof path - 1);
    if (wanted == NULL || length < 0) return 0;
    path[length] = 0;
    return strcmp(path, wanted) == 0;
}

static void replace_at(const char *call) {
    static int is_done;
    const char *at = getenv("EDGE_AT");
    if (is_done || at == NULL || strcmp(at, call) != 0) return;
    is_done = 1;
    if (rename(getenv("EDGE_OTHER"), getenv("EDGE_FILE")) != 0) _exit(99);
}

static int is_interrupted(void) {
    static int calls;
    return getenv("EDGE_INTERRUPT") != NULL && calls++ % 2 == 0;
}

static size_t piece(size_t count) {
    const char *most = getenv("EDGE_PIECE");
    size_t limit = most == NULL ? count : strtoul(most, NULL, 10);
    return count < limit ? count : limit;
}

ssize_t pread(int fd, void *into, size_t count, off_t at) {
    static int was_cut;
    ssize_t (*real)(int, void *, size_t, off_t) = dlsym(RTLD_NEXT, "pread");
    if (!is_file(fd)) return real(fd, into, count, at);
    if (was_cut && is_wrong("a short read is the end")) return was_cut = 0;
    if (is_interrupted()) {
        if (is_wrong("an interrupted read is the end")) return 0;
        return errno = EINTR, -1;
    }
    ssize_t answer = real(fd, into, piece(count), at);
    was_cut = answer >= 0 && (size_t)answer < count;
    replace_at("pread");
    return answer;
}

ssize_t pwrite(int fd, const void *bytes, size_t count, off_t at) {
    ssize_t (*real)(int, const void *, size_t, off_t) = dlsym(RTLD_NEXT, "pwrite");
    if (!is_file(fd)) return real(fd, bytes, count, at);
    if (is_interrupted()) return errno = EINTR, -1;
    ssize_t answer = real(fd, bytes, piece(count), at);
    return answer > 0 && is_wrong("a short write is done") ? (ssize_t)count : answer;
}

int flock(int fd, int operation) {
    int (*real)(int, int) = dlsym(RTLD_NEXT, "flock");
    if (is_file(fd)) replace_at("flock");
    int answer = real(fd, operation);
    return is_wrong("the lock is not looked at") ? 0 : answer;
}

int fdatasync(int fd) {
    int (*real)(int) = dlsym(RTLD_NEXT, "fdatasync");
    return is_wrong("no sync") ? 0 : real(fd);
}

int fsync(int fd) {
    int (*real)(int) = dlsym(RTLD_NEXT, "fsync");
    struct stat found;
    int is_folder = fstat(fd, &found) == 0 && S_ISDIR(found.st_mode);
    return is_wrong(is_folder ? "no folder" : "no sync at first") ? 0 : real(fd);
}

int posix_fadvise(int fd, off_t at, off_t length, int advice) {
    int (*real)(int, off_t, off_t, int) = dlsym(RTLD_NEXT, "posix_fadvise");
    return is_wrong("no advice") ? 0 : real(fd, at, length, advice);
}

int open(const char *path, int flags, ...) {
    int (*real)(const char *, int, ...) = dlsym(RTLD_NEXT, "open");
    struct stat found;
    va_list rest;
    va_start(rest, flags);
    mode_t mode = flags & O_CREAT ? va_arg(rest, mode_t) : 0;
    va_end(rest);
    if (flags & O_CREAT && is_wrong("the journal is cut")) flags |= O_TRUNC;
    if (flags & O_CREAT && is_wrong("all may read")) mode |= 0644;
    int is_folder = stat(path, &found) == 0 && S_ISDIR(found.st_mode);
    return real(is_folder && is_wrong("another folder") ? "/" : path, flags, mode);
}

int setsockopt(int fd, int level, int name, const void *value, socklen_t length) {
    int (*real)(int, int, int, const void *, socklen_t) = dlsym(RTLD_NEXT, "setsockopt");
    const char *seconds = getenv("EDGE_SECONDS");
    int reads = level == SOL_SOCKET && name == SO_RCVTIMEO;
    int writes = level == SOL_SOCKET && name == SO_SNDTIMEO;
    if (seconds == NULL || !(reads || writes)) return real(fd, level, name, value, length);
    const struct timeval *asked = value;
    if (asked->tv_sec != (reads ? 600 : 60) || asked->tv_usec != 0) _exit(99);
    struct timeval given = {.tv_sec = atol(seconds)};
    return real(fd, level, name, &given, sizeof given);
}

int accept4(int fd, struct sockaddr *address, socklen_t *length, int flags) {
    static int calls;
    int (*real)(int, struct sockaddr *, socklen_t *, int) = dlsym(RTLD_NEXT, "accept4");
    const char *fails = getenv("EDGE_ACCEPT");
    int error, count;
    if (fails != NULL && sscanf(fails, "%d:%d", &error, &count) == 2 && calls++ < count) {
        return errno = error, -1;
    }
    return real(fd, address, length, flags);
}

// The allocator's own calls, so that a call for memory while these are looked up is no recursion.
extern void *__libc_malloc(size_t);
extern void *__libc_calloc(size_t, size_t);
extern void *__libc_realloc(void *, size_t);
extern void *__libc_memalign(size_t, size_t);

static long refused;

__attribute__((constructor)) static void read_refused(void) {
    const char *number = getenv("EDGE_MEMORY");
    if (number != NULL) refused = atol(number);
}

static int is_refused(void) {
    static long calls;
    if (refused == 0 || __atomic_add_fetch(&calls, 1, __ATOMIC_RELAXED) != refused) return 0;
    errno = ENOMEM;
    return 1;
}

void *malloc(size_t size) { return is_refused() ? NULL : __libc_malloc(size); }

void *calloc(size_t count, size_t size) {
    return is_refused() ? NULL : __libc_calloc(count, size);
}

void *realloc(void *old, size_t size) { return is_refused() ? NULL : __libc_realloc(old, size); }

void *aligned_alloc(size_t align, size_t size) {
    return is_refused() ? NULL : __libc_memalign(align, size);
}

int posix_memalign(void **place, size_t align, size_t size) {
    if (is_refused()) return ENOMEM;
    *place = __libc_memalign(align, size);
    return *place == NULL ? ENOMEM : 0;
}
