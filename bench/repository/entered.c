// What a program notes that entered.py built: which functions are entered and left, in their order,
// and when it reads. Each thread writes a file of its own, ENTERED_FOLDER/NUMBER, of pairs of words
// of 64 bits, a kind and a value:
//
//   1 A       the function at the address A is entered
//   2 A       it is left
//   3 D       a read of the descriptor D begins, a stream's or a connection's
//   4 N       it ends, with N bytes
//   5 N       the thread N is begun here
//
// The first two are noted by calls that the compiler puts into each function.
#define _GNU_SOURCE
#include <dlfcn.h>
#include <pthread.h>
#include <stdatomic.h>
#include <stdint.h>
#include <stdio.h>
#include <stdlib.h>
#include <sys/socket.h>
#include <unistd.h>

#define QUIET __attribute__((no_instrument_function))

enum { ENTERED = 1, LEFT, READS, READ, BEGINS };

static atomic_int threads;
static __thread FILE *notes;
static __thread int number = -1;

QUIET static void note(uint64_t kind, uint64_t value) {
    uint64_t pair[] = {kind, value};
    if (!notes) {
        char path[4096];
        const char *folder = getenv("ENTERED_FOLDER");
        if (!folder) return;
        if (number < 0) number = atomic_fetch_add(&threads, 1);
        snprintf(path, sizeof path, "%s/%d", folder, number);
        notes = fopen(path, "w");
        if (!notes) abort();
    }
    fwrite(pair, sizeof pair, 1, notes);
}

QUIET void __cyg_profile_func_enter(void *function, void *site) {
    (void)site;
    note(ENTERED, (uint64_t)function);
}

QUIET void __cyg_profile_func_exit(void *function, void *site) {
    (void)site;
    note(LEFT, (uint64_t)function);
}

// Files are read by pread, which is no line of a customer.

QUIET ssize_t read(int descriptor, void *bytes, size_t count) {
    static ssize_t (*real)(int, void *, size_t);
    if (!real) real = dlsym(RTLD_NEXT, "read");
    note(READS, (uint64_t)descriptor);
    ssize_t got = real(descriptor, bytes, count);
    note(READ, got > 0 ? (uint64_t)got : 0);
    return got;
}

QUIET ssize_t recv(int descriptor, void *bytes, size_t count, int flags) {
    static ssize_t (*real)(int, void *, size_t, int);
    if (!real) real = dlsym(RTLD_NEXT, "recv");
    note(READS, (uint64_t)descriptor);
    ssize_t got = real(descriptor, bytes, count, flags);
    note(READ, got > 0 ? (uint64_t)got : 0);
    return got;
}

struct begun {
    void *(*body)(void *);
    void *argument;
    int number;
};

QUIET static void *begin(void *given) {
    struct begun begun = *(struct begun *)given;
    free(given);
    number = begun.number;
    return begun.body(begun.argument);
}

QUIET int pthread_create(pthread_t *thread, const pthread_attr_t *how, void *(*body)(void *),
                         void *argument) {
    static int (*real)(pthread_t *, const pthread_attr_t *, void *(*)(void *), void *);
    if (!real) real = dlsym(RTLD_NEXT, "pthread_create");
    struct begun *begun = malloc(sizeof *begun);
    if (!begun) abort();
    *begun = (struct begun){body, argument, atomic_fetch_add(&threads, 1)};
    note(BEGINS, (uint64_t)begun->number);
    return real(thread, how, begin, begun);
}
