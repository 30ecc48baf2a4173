// For host.sh: an echo of one thread, and customers who ask it or a host, at ADDRESS, which is a
// port of this machine or the path of a Unix socket.
//
//   echo ADDRESS                        gives back each whole line, for ever
//   ask ADDRESS COUNT AHEAD SECONDS HELLO LINE REPLY
//                                       so many connections at once, of which each says HELLO, if
//                                       that is not empty, and then LINE, sent so many times ahead;
//                                       prints how many replies a second there were, each of which
//                                       has to begin with REPLY
//   idle ADDRESS COUNT HELLO            so many connections, of which each says HELLO and has its
//                                       reply; prints `idle`, and leaves them open until its input
//                                       ends
//   visit ADDRESS COUNT                 so many connections one after the other, of which each says
//                                       hello, gives an order and says bye; admissions and releases
//                                       by turns; prints how many seconds that took
//
// Status 1 where a reply is not as wanted, or none comes for ten seconds.
#define _GNU_SOURCE
#include <arpa/inet.h>
#include <errno.h>
#include <netinet/in.h>
#include <netinet/tcp.h>
#include <stdio.h>
#include <stdlib.h>
#include <string.h>
#include <sys/epoll.h>
#include <sys/socket.h>
#include <sys/time.h>
#include <sys/un.h>
#include <time.h>
#include <unistd.h>

enum { EVENTS = 1024, PIECE = 65536, LONGEST = 8192, WAITS = 10 };

static double now(void) {
    struct timespec time;
    clock_gettime(CLOCK_MONOTONIC, &time);
    return (double)time.tv_sec + (double)time.tv_nsec * 1e-9;
}

static void fail(const char *why) {
    fprintf(stderr, "host: %s%s%s\n", why, errno ? ": " : "", errno ? strerror(errno) : "");
    exit(1);
}

static void *wanted(void *memory) {
    if (!memory) fail("no memory");
    return memory;
}

// ---- Addresses.

static int is_path(const char *address) { return strchr(address, '/') != NULL; }

// A socket of the address's kind, and the address in `to`, which has room for either.
static int socket_for(const char *address, struct sockaddr_storage *to, socklen_t *length) {
    memset(to, 0, sizeof *to);
    if (is_path(address)) {
        struct sockaddr_un *path = (struct sockaddr_un *)to;
        path->sun_family = AF_UNIX;
        strncpy(path->sun_path, address, sizeof path->sun_path - 1);
        *length = sizeof *path;
    } else {
        struct sockaddr_in *port = (struct sockaddr_in *)to;
        port->sin_family = AF_INET;
        port->sin_port = htons((uint16_t)atoi(address));
        port->sin_addr.s_addr = htonl(INADDR_LOOPBACK);
        *length = sizeof *port;
    }
    int peer = socket(to->ss_family, SOCK_STREAM, 0);
    if (peer < 0) fail("no socket");
    return peer;
}

static void send_at_once(const char *address, int peer) {
    int at_once = 1;
    if (!is_path(address)) setsockopt(peer, IPPROTO_TCP, TCP_NODELAY, &at_once, sizeof at_once);
}

static int connected(const char *address) {
    struct sockaddr_storage to;
    socklen_t length;
    int peer = socket_for(address, &to, &length);
    if (connect(peer, (struct sockaddr *)&to, length)) fail("no connection");
    struct timeval waits = {.tv_sec = WAITS};
    setsockopt(peer, SOL_SOCKET, SO_RCVTIMEO, &waits, sizeof waits);
    send_at_once(address, peer);
    return peer;
}

static void watch(int set, int peer) {
    struct epoll_event event = {.events = EPOLLIN, .data.fd = peer};
    if (epoll_ctl(set, EPOLL_CTL_ADD, peer, &event)) fail("no event");
}

// ---- The echo.

// The piece of a line that a connection gave last.
struct rest {
    size_t length;
    char bytes[LONGEST];
};

static struct rest *rests[1 << 20];

// Gives the whole lines of a piece back, after what was there of the first of them.
static void give_back(int peer, const char *piece, size_t length) {
    struct rest *rest = rests[peer];
    const char *end = memrchr(piece, '\n', length);
    size_t whole = end ? (size_t)(end - piece) + 1 : 0;
    if (whole) {
        static char text[LONGEST + PIECE];
        memcpy(text, rest->bytes, rest->length);
        memcpy(text + rest->length, piece, whole);
        if (write(peer, text, rest->length + whole) < 0 && errno != EPIPE) fail("no reply");
        rest->length = 0;
    }
    if (rest->length + length - whole > sizeof rest->bytes) fail("a line is too long");
    memcpy(rest->bytes + rest->length, piece + whole, length - whole);
    rest->length += length - whole;
}

static void let_in(int set, int listener, const char *address) {
    int peer = accept(listener, NULL, NULL);
    if (peer < 0) fail("no connection was accepted");
    send_at_once(address, peer);
    if (!rests[peer]) rests[peer] = wanted(malloc(sizeof *rests[peer]));
    rests[peer]->length = 0;
    watch(set, peer);
}

static void echo(const char *address) {
    struct sockaddr_storage at;
    socklen_t length;
    int listener = socket_for(address, &at, &length), one = 1;
    setsockopt(listener, SOL_SOCKET, SO_REUSEADDR, &one, sizeof one);
    if (bind(listener, (struct sockaddr *)&at, length) || listen(listener, 4096)) fail("no door");
    int set = epoll_create1(0);
    watch(set, listener);
    puts("ready");
    fflush(stdout);
    static char piece[4096];
    struct epoll_event events[EVENTS];
    for (;;) {
        int count = epoll_wait(set, events, EVENTS, -1);
        for (int i = 0; i < count; i++) {
            int peer = events[i].data.fd;
            if (peer == listener) {
                let_in(set, listener, address);
                continue;
            }
            ssize_t got = read(peer, piece, sizeof piece);
            if (got <= 0)
                close(peer);
            else
                give_back(peer, piece, (size_t)got);
        }
    }
}

// ---- Customers.

static void say(int peer, const char *text, size_t length) {
    if (write(peer, text, length) != (ssize_t)length) fail("a line was not sent");
}

// Says a line and waits for its reply, which is put into the buffer.
static void ask_one(int peer, const char *line, char *reply, size_t size) {
    size_t got = 0;
    say(peer, line, strlen(line));
    do {
        ssize_t more = read(peer, reply + got, size - 1 - got);
        if (more <= 0) fail("no reply came");
        got += (size_t)more;
    } while (reply[got - 1] != '\n');
    reply[got] = 0;
}

static int *greeted(const char *address, int count, const char *hello) {
    int *peers = wanted(calloc((size_t)count, sizeof *peers));
    char line[128], reply[LONGEST];
    for (int i = 0; i < count; i++) {
        peers[i] = connected(address);
        if (!*hello) continue;
        snprintf(line, sizeof line, "%s\n", hello);
        ask_one(peers[i], line, reply, sizeof reply);
    }
    return peers;
}

// What a connection is owed: so many replies, and where in the next one it is.
struct asked {
    int owed;
    size_t at;
};

static struct asked asked[1 << 20];

// Takes replies in; each has to begin as wanted. Gives how many ended.
static int take_replies(struct asked *one, const char *piece, size_t length, const char *want) {
    size_t start = strlen(want);
    int ended = 0;
    for (size_t i = 0; i < length;) {
        if (one->at < start) {
            if (piece[i] != want[one->at]) fail("a reply is another one");
            one->at++, i++;
            continue;
        }
        const char *end = memchr(piece + i, '\n', length - i);
        if (!end) break;
        i = (size_t)(end - piece) + 1;
        one->at = 0;
        ended++;
    }
    return ended;
}

static void ask(char **words) {
    int count = atoi(words[1]), ahead = atoi(words[2]), set = epoll_create1(0);
    double seconds = atof(words[3]);
    const char *line = words[5], *want = words[6];
    size_t length = strlen(line) + 1;
    char *lines = wanted(malloc(length * (size_t)ahead)), piece[PIECE];
    for (int i = 0; i < ahead; i++) {
        memcpy(lines + (size_t)i * length, line, length - 1);
        lines[(size_t)(i + 1) * length - 1] = '\n';
    }
    int *peers = greeted(words[0], count, words[4]);
    double start = now(), stop = start + seconds;
    for (int i = 0; i < count; i++) {
        watch(set, peers[i]);
        asked[peers[i]].owed = ahead;
        say(peers[i], lines, length * (size_t)ahead);
    }
    long replies = 0;
    struct epoll_event events[EVENTS];
    while (now() < stop) {
        int found = epoll_wait(set, events, EVENTS, WAITS * 1000);
        if (found <= 0) fail("no reply came");
        for (int i = 0; i < found; i++) {
            int peer = events[i].data.fd;
            ssize_t got = read(peer, piece, sizeof piece);
            if (got <= 0) fail("a connection ended");
            int ended = take_replies(&asked[peer], piece, (size_t)got, want);
            replies += ended;
            asked[peer].owed -= ended;
            if (asked[peer].owed > 0) continue;
            asked[peer].owed = ahead;
            say(peer, lines, length * (size_t)ahead);
        }
    }
    printf("%.0f\n", (double)replies / (now() - start));
}

static void idle(char **words) {
    greeted(words[0], atoi(words[1]), words[2]);
    puts("idle");
    fflush(stdout);
    while (getchar() != EOF) {}
}

static void visit(char **words) {
    long count = atol(words[1]), number = 0;
    char line[64], reply[LONGEST];
    double start = now();
    for (long i = 0; i < count; i++) {
        int peer = connected(words[0]);
        ask_one(peer, "hello acme\n", reply, sizeof reply);
        if (strncmp(reply, "welcome at ", 11)) fail(reply);
        if (i % 2 == 0) {
            ask_one(peer, "admit a:1 b:1\n", reply, sizeof reply);
            if (sscanf(reply, "admitted %ld", &number) != 1) fail(reply);
        } else {
            snprintf(line, sizeof line, "release %ld\n", number);
            ask_one(peer, line, reply, sizeof reply);
            if (strncmp(reply, "released ", 9)) fail(reply);
        }
        ask_one(peer, "bye\n", reply, sizeof reply);
        if (read(peer, reply, sizeof reply) != 0) fail("the connection did not end");
        close(peer);
    }
    printf("%.1f\n", now() - start);
}

int main(int count, char **words) {
    if (count == 3 && !strcmp(words[1], "echo")) echo(words[2]);
    else if (count == 9 && !strcmp(words[1], "ask")) ask(words + 2);
    else if (count == 5 && !strcmp(words[1], "idle")) idle(words + 2);
    else if (count == 4 && !strcmp(words[1], "visit")) visit(words + 2);
    else fail("the words are wrong");
    return 0;
}
