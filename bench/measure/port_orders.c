// For port_orders.py: customers who give orders at a port, and a library that times the writes and
// syncs of a journal.
//
//   customers PORT COUNT SECONDS      so many customers at once, each of whom admits and releases
//                                     by turns and waits for each reply; prints how many orders
//                                     they gave a second; status 1 where a reply is not as wanted
//
// As a library (-DLIBRARY) it adds up, in the file PORT_NOTES, six numbers of 64 bits: the syncs
// and their nanoseconds, the writes and theirs, and the gaps and theirs, which are what passes
// between an order's last sync and the first write of the next one.
#define _GNU_SOURCE
#include <arpa/inet.h>
#include <dlfcn.h>
#include <fcntl.h>
#include <netinet/in.h>
#include <netinet/tcp.h>
#include <pthread.h>
#include <stdint.h>
#include <stdio.h>
#include <stdlib.h>
#include <string.h>
#include <sys/mman.h>
#include <sys/socket.h>
#include <time.h>
#include <unistd.h>

static uint64_t now(void) {
    struct timespec time;
    clock_gettime(CLOCK_MONOTONIC, &time);
    return (uint64_t)time.tv_sec * 1000000000 + (uint64_t)time.tv_nsec;
}

#ifdef LIBRARY

enum { SYNCS, SYNC_TIME, WRITES, WRITE_TIME, GAPS, GAP_TIME, NUMBERS };

static uint64_t *notes;
static uint64_t last; // when a sync ended last

__attribute__((constructor)) static void begin(void) {
    int file = open(getenv("PORT_NOTES"), O_RDWR | O_CREAT, 0600);
    size_t bytes = NUMBERS * sizeof *notes;
    if (file < 0 || ftruncate(file, (off_t)bytes)) abort();
    notes = mmap(NULL, bytes, PROT_READ | PROT_WRITE, MAP_SHARED, file, 0);
    if (notes == MAP_FAILED) abort();
    close(file);
}

// No two of these calls are made at once: each is made by who has the turn.

int fdatasync(int file) {
    static int (*real)(int);
    if (!real) real = dlsym(RTLD_NEXT, "fdatasync");
    uint64_t start = now();
    int result = real(file);
    last = now();
    notes[SYNCS]++;
    notes[SYNC_TIME] += last - start;
    return result;
}

ssize_t pwrite(int file, const void *bytes, size_t count, off_t at) {
    static ssize_t (*real)(int, const void *, size_t, off_t);
    if (!real) real = dlsym(RTLD_NEXT, "pwrite");
    uint64_t start = now();
    // A gate is one byte, and a record is more.
    if (last && count > 1) {
        notes[GAPS]++;
        notes[GAP_TIME] += start - last;
    }
    ssize_t result = real(file, bytes, count, at);
    notes[WRITES]++;
    notes[WRITE_TIME] += now() - start;
    return result;
}

#else

static int port;
static volatile int stops;
static long orders[64];

static void fail(const char *why) {
    fprintf(stderr, "%s\n", why);
    exit(1);
}

// Says a line, and puts the reply to it into the buffer.
static void ask(int peer, const char *line, char *reply, size_t size) {
    size_t got = 0, length = strlen(line);
    if (write(peer, line, length) != (ssize_t)length) fail("a line was not sent");
    do {
        ssize_t more = read(peer, reply + got, size - 1 - got);
        if (more <= 0) fail("a connection ended");
        got += (size_t)more;
    } while (reply[got - 1] != '\n');
    reply[got] = 0;
}

static void *be_customer(void *place) {
    long *count = place, number;
    char line[64], reply[4096];
    int peer = socket(AF_INET, SOCK_STREAM, 0), at_once = 1;
    struct sockaddr_in address = {.sin_family = AF_INET, .sin_port = htons((uint16_t)port)};
    address.sin_addr.s_addr = htonl(INADDR_LOOPBACK);
    setsockopt(peer, IPPROTO_TCP, TCP_NODELAY, &at_once, sizeof at_once);
    if (connect(peer, (struct sockaddr *)&address, sizeof address)) fail("no connection");
    ask(peer, "hello acme\n", reply, sizeof reply);
    while (!stops) {
        ask(peer, "admit a:1 b:1\n", reply, sizeof reply);
        if (sscanf(reply, "admitted %ld", &number) != 1) fail(reply);
        snprintf(line, sizeof line, "release %ld\n", number);
        ask(peer, line, reply, sizeof reply);
        if (strncmp(reply, "released ", 9)) fail(reply);
        *count += 2;
    }
    ask(peer, "bye\n", reply, sizeof reply);
    close(peer);
    return NULL;
}

int main(int count, char **words) {
    if (count != 4) return 2;
    port = atoi(words[1]);
    long customers = atol(words[2]), sum = 0;
    pthread_t threads[64];
    uint64_t start = now();
    if (customers < 1 || customers > 64) return 2;
    for (long one = 0; one < customers; one++)
        if (pthread_create(&threads[one], NULL, be_customer, &orders[one])) fail("no thread");
    usleep((useconds_t)(atof(words[3]) * 1e6));
    stops = 1;
    for (long one = 0; one < customers; one++) {
        pthread_join(threads[one], NULL);
        sum += orders[one];
    }
    printf("%.0f\n", (double)sum * 1e9 / (double)(now() - start));
    return 0;
}

#endif
