/* Asks an echo on 127.0.0.1 so many times over so many connections, 300 bytes at a time, and prints nanoseconds a question.
 * Usage: sdb_net PORT CONNECTIONS QUESTIONS. Each turn asks on every connection, and then reads every answer. */
#include <arpa/inet.h>
#include <netinet/tcp.h>
#include <stdio.h>
#include <stdlib.h>
#include <string.h>
#include <sys/socket.h>
#include <time.h>
#include <unistd.h>

enum { LENGTH = 300, MOST = 64 };

static double now(void) {
    struct timespec t;
    clock_gettime(CLOCK_MONOTONIC, &t);
    return t.tv_sec * 1e9 + t.tv_nsec;
}

static int open_one(int port) {
    struct sockaddr_in address = {.sin_family = AF_INET, .sin_port = htons(port)};
    int one = 1, s = socket(AF_INET, SOCK_STREAM, 0);
    address.sin_addr.s_addr = htonl(INADDR_LOOPBACK);
    if (s < 0 || connect(s, (struct sockaddr *)&address, sizeof address) < 0) exit(2);
    setsockopt(s, IPPROTO_TCP, TCP_NODELAY, &one, sizeof one);
    return s;
}

int main(int argc, char **argv) {
    if (argc != 4) return 1;
    int count = atoi(argv[2]), sockets[MOST];
    long questions = atol(argv[3]);
    char question[LENGTH], answer[LENGTH];
    if (count < 1 || count > MOST) return 1;
    memset(question, 'q', LENGTH);
    for (int i = 0; i < count; i++) sockets[i] = open_one(atoi(argv[1]));
    double start = now();
    for (long done = 0; done < questions; done += count) {
        for (int i = 0; i < count; i++)
            if (write(sockets[i], question, LENGTH) != LENGTH) return 3;
        for (int i = 0; i < count; i++)
            for (int got = 0; got < LENGTH;) {
                ssize_t n = read(sockets[i], answer, LENGTH - got);
                if (n <= 0) return 4;
                got += n;
            }
    }
    printf("%.0f\n", (now() - start) / questions);
    return 0;
}
