/* Load over TCP, for bench/listen/run and bench/links.

   load ask PORT CONNECTIONS ON_THEIR_WAY SECONDS REQUEST REPLY_SIZE
       Opens so many connections to 127.0.0.1, keeps so many of the request (a file) on their way over each, and prints
       how many replies of that size came in a second.
   load compare PORT CONNECTIONS SECONDS COUNT REQUEST REPLY
       Opens so many connections to 127.0.0.1, keeps one request on its way over each, until so many were answered in
       all or so many seconds have passed, and reads each reply whole. Prints the seconds, how many replies were the one
       in REPLY, how many weren't, how many connections got none within 20 seconds or ended, and the milliseconds that
       the slowest reply took.
   load answer PORT REQUEST_SIZE REPLY [TOGETHER]
       Serves whoever connects, each on a thread of its own, by the socket calls that tradesrv makes: it reads 8,192
       bytes at most, and for as many as a request has it writes the reply (a file), so many by one call at most, or
       each by a call of its own. It looks at none of them. */

#include <arpa/inet.h>
#include <netinet/tcp.h>
#include <pthread.h>
#include <signal.h>
#include <stdatomic.h>
#include <stdio.h>
#include <stdlib.h>
#include <string.h>
#include <time.h>
#include <unistd.h>

struct text {
    char *bytes;
    size_t size;
};

/* One end of a connection: until when it goes on (0: to the end), what it sends, how many at most by one call, how many
   bytes it reads at most, and how long what it is sent is. */
struct end {
    int stream;
    double until;
    struct text message;
    size_t together, reads, other_size;
    long count;
};

static void fail(const char *what) {
    perror(what);
    exit(1);
}

static double now(void) {
    struct timespec it;
    clock_gettime(CLOCK_MONOTONIC, &it);
    return it.tv_sec + it.tv_nsec / 1e9;
}

static struct text text_of(const char *name) {
    struct text it = {malloc(1 << 20), 0};
    FILE *file = fopen(name, "rb");
    if (!file || !it.bytes) fail(name);
    it.size = fread(it.bytes, 1, 1 << 20, file);
    fclose(file);
    return it;
}

/* So many copies of a text, one behind the other. */
static struct text copies(struct text one, int count) {
    struct text it = {malloc(one.size * count), one.size * count};
    if (!it.bytes) fail("malloc");
    for (int i = 0; i < count; i++) memcpy(it.bytes + i * one.size, one.bytes, one.size);
    return it;
}

static int is_sent(int stream, const char *bytes, size_t size) {
    while (size > 0) {
        ssize_t n = write(stream, bytes, size);
        if (n <= 0) return 0;
        bytes += n;
        size -= n;
    }
    return 1;
}

static void at_once(int stream) {
    int yes = 1;
    setsockopt(stream, IPPROTO_TCP, TCP_NODELAY, &yes, sizeof yes);
}

static struct sockaddr_in loopback(int port) {
    struct sockaddr_in it = {.sin_family = AF_INET, .sin_port = htons(port)};
    it.sin_addr.s_addr = htonl(INADDR_LOOPBACK);
    return it;
}

/* For each whole message of the other side that came in, one of ours goes out. */
static void *exchange(void *argument) {
    struct end *it = argument;
    struct text many = copies(it->message, it->together);
    char room[1 << 16];
    size_t held = 0;
    while (it->until == 0 || now() < it->until) {
        ssize_t n = read(it->stream, room, it->reads);
        if (n <= 0) break;
        held += n;
        size_t whole = held / it->other_size;
        held %= it->other_size;
        it->count += whole;
        while (whole > 0) {
            size_t some = whole < it->together ? whole : it->together;
            if (!is_sent(it->stream, many.bytes, some * it->message.size)) return NULL;
            whole -= some;
        }
    }
    close(it->stream);
    free(many.bytes);
    return NULL;
}

static void ask(int port, int connections, int on_their_way, double seconds, struct text request, size_t reply_size) {
    pthread_t threads[connections];
    struct end ends[connections];
    struct text first = copies(request, on_their_way);
    struct sockaddr_in address = loopback(port);
    double begin = now();
    for (int i = 0; i < connections; i++) {
        int stream = socket(AF_INET, SOCK_STREAM, 0);
        if (connect(stream, (struct sockaddr *)&address, sizeof address) < 0) fail("connect");
        at_once(stream);
        if (!is_sent(stream, first.bytes, first.size)) fail("write");
        ends[i] = (struct end){stream, begin + seconds, request, 64, 1 << 16, reply_size, 0};
        pthread_create(&threads[i], NULL, exchange, &ends[i]);
    }
    long count = 0;
    for (int i = 0; i < connections; i++) {
        pthread_join(threads[i], NULL);
        count += ends[i].count;
    }
    printf("%.0f\n", count / (now() - begin));
}

/* A connection that compares what it is answered, and what all of them share. */
struct asker {
    int stream;
    double until, slowest;
    struct text request, reply;
    long same, other, lost;
};

static atomic_long left;

/* The size of the message that was read whole, 0 where it ended before or took too long. */
static size_t message_read(int stream, unsigned char *room, size_t size) {
    size_t held = 0, whole = 12;
    while (held < whole) {
        ssize_t n = read(stream, room + held, whole - held);
        if (n <= 0) return 0;
        held += n;
        if (held == 12) whole += (size_t)room[8] << 24 | room[9] << 16 | room[10] << 8 | room[11];
        if (whole > size) return 0;
    }
    return held;
}

static void *compare_all(void *argument) {
    struct asker *it = argument;
    unsigned char *room = malloc(1 << 20);
    if (!room) fail("malloc");
    while (now() < it->until && atomic_fetch_sub(&left, 1) > 0) {
        double begin = now();
        if (!is_sent(it->stream, it->request.bytes, it->request.size)) {
            it->lost++;
            break;
        }
        size_t size = message_read(it->stream, room, 1 << 20);
        if (size == 0) {
            it->lost++;
            break;
        }
        int same = size == it->reply.size && memcmp(room, it->reply.bytes, size) == 0;
        it->same += same;
        it->other += !same;
        if (now() - begin > it->slowest) it->slowest = now() - begin;
    }
    close(it->stream);
    free(room);
    return NULL;
}

static void compare(int port, int connections, double seconds, long count, struct text request, struct text reply) {
    pthread_t threads[connections];
    struct asker askers[connections], all = {0};
    struct sockaddr_in address = loopback(port);
    struct timeval patience = {20, 0};
    double begin = now();
    atomic_store(&left, count);
    for (int i = 0; i < connections; i++) {
        int stream = socket(AF_INET, SOCK_STREAM, 0);
        if (connect(stream, (struct sockaddr *)&address, sizeof address) < 0) fail("connect");
        at_once(stream);
        setsockopt(stream, SOL_SOCKET, SO_RCVTIMEO, &patience, sizeof patience);
        askers[i] = (struct asker){stream, begin + seconds, 0, request, reply, 0, 0, 0};
        pthread_create(&threads[i], NULL, compare_all, &askers[i]);
    }
    for (int i = 0; i < connections; i++) {
        pthread_join(threads[i], NULL);
        all.same += askers[i].same;
        all.other += askers[i].other;
        all.lost += askers[i].lost;
        if (askers[i].slowest > all.slowest) all.slowest = askers[i].slowest;
    }
    printf("%.3f %ld %ld %ld %.0f\n", now() - begin, all.same, all.other, all.lost, all.slowest * 1000);
}

static void answer(int port, size_t request_size, struct text reply, size_t together) {
    struct sockaddr_in address = loopback(port);
    int listener = socket(AF_INET, SOCK_STREAM, 0), yes = 1;
    setsockopt(listener, SOL_SOCKET, SO_REUSEADDR, &yes, sizeof yes);
    if (bind(listener, (struct sockaddr *)&address, sizeof address) < 0) fail("bind");
    listen(listener, 128);
    for (;;) {
        int stream = accept(listener, NULL, NULL);
        if (stream < 0) fail("accept");
        at_once(stream);
        struct end *it = malloc(sizeof *it);
        pthread_t thread;
        if (!it) fail("malloc");
        *it = (struct end){stream, 0, reply, together, 8192, request_size, 0};
        pthread_create(&thread, NULL, exchange, it);
        pthread_detach(thread);
    }
}

int main(int count, char **words) {
    signal(SIGPIPE, SIG_IGN);
    if (count == 8 && strcmp(words[1], "ask") == 0) {
        ask(atoi(words[2]), atoi(words[3]), atoi(words[4]), atof(words[5]), text_of(words[6]), atoi(words[7]));
    } else if (count == 8 && strcmp(words[1], "compare") == 0) {
        compare(atoi(words[2]), atoi(words[3]), atof(words[4]), atol(words[5]), text_of(words[6]), text_of(words[7]));
    } else if ((count == 5 || count == 6) && strcmp(words[1], "answer") == 0) {
        answer(atoi(words[2]), atoi(words[3]), text_of(words[4]), count == 6 ? atoi(words[5]) : 1);
    } else {
        fprintf(stderr, "usage\n");
        return 2;
    }
    return 0;
}
