/* A client and an echo for tools/bench/serve.py.
 * serve ask PORT CONNECTIONS QUESTIONS FILE LENGTH: sends the file's bytes so many times, on each connection in turn, reads
 *   LENGTH bytes for each, and prints nanoseconds a question. Each turn asks on every connection, then reads every answer.
 * serve echo PORT LENGTH ANSWER: serves one connection after the other; for each LENGTH bytes that come it sends ANSWER
 *   bytes. */
#include <arpa/inet.h>
#include <netinet/tcp.h>
#include <stdio.h>
#include <stdlib.h>
#include <string.h>
#include <sys/socket.h>
#include <time.h>
#include <unistd.h>

enum { MOST = 64, ROOM = 65536 };

static char bytes[ROOM], room[ROOM];

static double now(void) {
    struct timespec t;
    clock_gettime(CLOCK_MONOTONIC, &t);
    return t.tv_sec * 1e9 + t.tv_nsec;
}

static struct sockaddr_in at(int port) {
    struct sockaddr_in address = {.sin_family = AF_INET, .sin_port = htons(port)};
    address.sin_addr.s_addr = htonl(INADDR_LOOPBACK);
    return address;
}

static void read_all(int s, long length) {
    for (long got = 0; got < length;) {
        ssize_t n = read(s, room, length - got < ROOM ? length - got : ROOM);
        if (n <= 0) exit(4);
        got += n;
    }
}

static int ask(int port, int count, long questions, const char *name, long length) {
    int sockets[MOST], one = 1;
    struct sockaddr_in address = at(port);
    FILE *file = fopen(name, "rb");
    if (!file || count < 1 || count > MOST) return 1;
    size_t size = fread(bytes, 1, ROOM, file);
    fclose(file);
    for (int i = 0; i < count; i++) {
        sockets[i] = socket(AF_INET, SOCK_STREAM, 0);
        if (sockets[i] < 0 || connect(sockets[i], (struct sockaddr *)&address, sizeof address) < 0) return 2;
        setsockopt(sockets[i], IPPROTO_TCP, TCP_NODELAY, &one, sizeof one);
    }
    double start = now();
    for (long done = 0; done < questions; done += count) {
        for (int i = 0; i < count; i++)
            if (write(sockets[i], bytes, size) != (ssize_t)size) return 3;
        for (int i = 0; i < count; i++) read_all(sockets[i], length);
    }
    printf("%.0f\n", (now() - start) / questions);
    return 0;
}

/* Answers what comes until the peer ends. */
static int answer(int c, long length, long size) {
    for (;;) {
        for (long got = 0; got < length;) {
            ssize_t n = read(c, room, length - got);
            if (n <= 0) return 0;
            got += n;
        }
        if (write(c, bytes, size) != size) return 3;
    }
}

static int echo(int port, long length, long size) {
    struct sockaddr_in address = at(port);
    int one = 1, s = socket(AF_INET, SOCK_STREAM, 0);
    setsockopt(s, SOL_SOCKET, SO_REUSEADDR, &one, sizeof one);
    if (length > ROOM || size > ROOM || bind(s, (struct sockaddr *)&address, sizeof address) < 0 || listen(s, 1) < 0) return 2;
    for (;;) {
        int c = accept(s, NULL, NULL);
        if (c < 0) return 2;
        setsockopt(c, IPPROTO_TCP, TCP_NODELAY, &one, sizeof one);
        if (answer(c, length, size)) return 3;
        close(c);
    }
}

int main(int argc, char **argv) {
    if (argc == 7 && !strcmp(argv[1], "ask"))
        return ask(atoi(argv[2]), atoi(argv[3]), atol(argv[4]), argv[5], atol(argv[6]));
    if (argc == 5 && !strcmp(argv[1], "echo")) return echo(atoi(argv[2]), atol(argv[3]), atol(argv[4]));
    return 1;
}
