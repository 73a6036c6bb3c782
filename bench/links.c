/* Loads or commits of many links at once, for some seconds: links PORT LINKS SECONDS ours|redis load|commit
   Each link has one object of 100 bytes of its own. What is printed is how many were answered a second, of all links. */
#include <arpa/inet.h>
#include <netinet/in.h>
#include <netinet/tcp.h>
#include <pthread.h>
#include <stdio.h>
#include <stdlib.h>
#include <string.h>
#include <sys/socket.h>
#include <time.h>
#include <unistd.h>

enum { SIZE = 100 };
static int port, redis, commits;
static double seconds;
static pthread_barrier_t begun;

struct link { int file, place; unsigned char have[1 << 16]; size_t from, to; unsigned char serial[8]; long done; };

static void die(const char *why) { perror(why); exit(1); }

static void send_all(struct link *l, const void *bytes, size_t count) {
    for (size_t at = 0; at < count;) {
        ssize_t n = send(l->file, (const char *)bytes + at, count - at, 0);
        if (n <= 0) die("send");
        at += (size_t)n;
    }
}

static unsigned char *need(struct link *l, size_t count) {
    while (l->to - l->from < count) {
        if (l->from > 0) { memmove(l->have, l->have + l->from, l->to - l->from); l->to -= l->from; l->from = 0; }
        ssize_t n = recv(l->file, l->have + l->to, sizeof l->have - l->to, 0);
        if (n <= 0) die("recv");
        l->to += (size_t)n;
    }
    unsigned char *at = l->have + l->from;
    l->from += count;
    return at;
}

/* Puts the frame of a payload at the end of a text; gives its length. */
static size_t put(unsigned char *text, const void *payload, size_t count) {
    text[0] = 0; text[1] = (unsigned char)(count >> 16); text[2] = (unsigned char)(count >> 8); text[3] = (unsigned char)count;
    memcpy(text + 4, payload, count);
    return count + 4;
}

/* The payload of the next message that answers, and its length; news are passed over. */
static unsigned char *answer(struct link *l, size_t *count) {
    for (;;) {
        unsigned char *head = need(l, 4);
        *count = (size_t)head[1] << 16 | (size_t)head[2] << 8 | head[3];
        unsigned char *payload = need(l, *count);
        if (payload[4] != 0) return payload; /* news have the number 0 */
    }
}

static void named(struct link *l, unsigned char *number) {
    memset(number, 0, 8);
    number[6] = 3; number[7] = (unsigned char)l->place;
}

static void commit_ours(struct link *l) {
    static const unsigned char begin[] = "\x80\x03(K\x01K\x01X\x09\0\0\0tpc_beginC\0C\0C\0\x87t.";
    static const unsigned char vote[] = "\x80\x03(K\x01K\0X\x04\0\0\0vote)t.";
    static const unsigned char finish[] = "\x80\x03(K\x01K\0X\x0a\0\0\0tpc_finish)t.";
    unsigned char text[1024], payload[512], *p = payload;
    size_t n = put(text, begin, sizeof begin - 1), count;
    memcpy(p, "\x80\x03(K\x01K\x01X\x06\0\0\0storeaC\x08", 20); p += 20;
    named(l, p); p += 8;
    memcpy(p, "C\x08", 2); p += 2; memcpy(p, l->serial, 8); p += 8;
    *p++ = 'C'; *p++ = SIZE; memset(p, 'a' + l->place % 26, SIZE); p += SIZE;
    memcpy(p, "\x87t.", 3); p += 3;
    n += put(text + n, payload, (size_t)(p - payload));
    n += put(text + n, vote, sizeof vote - 1);
    send_all(l, text, n);
    unsigned char *told = answer(l, &count);
    if (told[count - 3] != 'N') { fprintf(stderr, "a vote was refused\n"); exit(1); }
    n = put(text, finish, sizeof finish - 1);
    send_all(l, text, n);
    told = answer(l, &count);
    memcpy(l->serial, told + count - 10, 8);
}

static void load_ours(struct link *l) {
    unsigned char payload[64], text[80], front[8];
    size_t count;
    memcpy(front, l->serial, 8);
    for (int at = 7; at >= 0 && ++front[at] == 0; at--) {}
    memcpy(payload, "\x80\x03(K\x01K\0X\x0a\0\0\0loadBeforeC\x08", 24);
    named(l, payload + 24);
    memcpy(payload + 32, "C\x08", 2); memcpy(payload + 34, front, 8); memcpy(payload + 42, "\x86t.", 3);
    send_all(l, text, put(text, payload, 45));
    unsigned char *told = answer(l, &count);
    if (count < SIZE + 20 || memchr(told, 'a' + l->place % 26, count) == NULL) { fprintf(stderr, "a load was refused\n"); exit(1); }
}

static void commit_redis(struct link *l) {
    char text[256];
    int n = sprintf(text, "*3\r\n$3\r\nSET\r\n$4\r\no%03d\r\n$%d\r\n", l->place, SIZE);
    memset(text + n, 'a' + l->place % 26, SIZE); memcpy(text + n + SIZE, "\r\n", 2);
    send_all(l, text, (size_t)n + SIZE + 2);
    if (memcmp(need(l, 5), "+OK\r\n", 5)) { fprintf(stderr, "a SET was refused\n"); exit(1); }
}

static void load_redis(struct link *l) {
    char text[64];
    send_all(l, text, (size_t)sprintf(text, "*2\r\n$3\r\nGET\r\n$4\r\no%03d\r\n", l->place));
    if (memcmp(need(l, 6), "$100\r\n", 6)) { fprintf(stderr, "a GET was refused\n"); exit(1); }
    need(l, SIZE + 2);
}

static double now(void) { struct timespec t; clock_gettime(CLOCK_MONOTONIC, &t); return (double)t.tv_sec + 1e-9 * (double)t.tv_nsec; }

static void *run(void *it) {
    struct link *l = it;
    struct sockaddr_in to = {.sin_family = AF_INET, .sin_port = htons((unsigned short)port), .sin_addr.s_addr = htonl(INADDR_LOOPBACK)};
    int one = 1;
    size_t count;
    for (int i = 0; ; i++) {
        l->file = socket(AF_INET, SOCK_STREAM, 0);
        if (connect(l->file, (struct sockaddr *)&to, sizeof to) == 0) break;
        close(l->file);
        if (i == 500) die("connect");
        usleep(10000);
    }
    setsockopt(l->file, IPPROTO_TCP, TCP_NODELAY, &one, sizeof one);
    if (!redis) {
        static const unsigned char ask[] = "\x80\x03(K\x01K\0X\x08\0\0\0registerX\x01\0\0\0001\x89\x86t.";
        unsigned char text[64];
        send_all(l, text, put(text, ask, sizeof ask - 1));
        answer(l, &count);
    }
    (redis ? commit_redis : commit_ours)(l);
    pthread_barrier_wait(&begun);
    for (double end = now() + seconds; now() < end; l->done++)
        (commits ? (redis ? commit_redis : commit_ours) : (redis ? load_redis : load_ours))(l);
    pthread_barrier_wait(&begun);
    close(l->file);
    return NULL;
}

int main(int argc, char **argv) {
    if (argc < 6) return 2;
    port = atoi(argv[1]);
    int count = atoi(argv[2]);
    seconds = atof(argv[3]);
    redis = !strcmp(argv[4], "redis");
    commits = !strcmp(argv[5], "commit");
    struct link *links = calloc((size_t)count, sizeof *links);
    pthread_t *threads = calloc((size_t)count, sizeof *threads);
    pthread_barrier_init(&begun, NULL, (unsigned)count);
    for (int i = 0; i < count; i++) { links[i].place = i; pthread_create(&threads[i], NULL, run, &links[i]); }
    double all = 0;
    for (int i = 0; i < count; i++) { pthread_join(threads[i], NULL); all += (double)links[i].done; }
    printf("%.0f\n", all / seconds);
    return 0;
}
