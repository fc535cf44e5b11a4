// The four calls of an append, a write behind the gate, a sync, a write of the gate and a sync, so many times. Prints the
// nanoseconds of one.
#include <fcntl.h>
#include <stdio.h>
#include <time.h>
#include <unistd.h>

enum { TURNS = 1000, SIZE = 100 };

int main(int count, char **words) {
    if (count != 2) return 1;
    int file = open(words[1], O_RDWR | O_CREAT | O_TRUNC, 0644);
    if (file < 0) return 1;
    char frame[SIZE] = {0}, gate = 1;
    long at = 25;
    struct timespec start, end;
    clock_gettime(CLOCK_MONOTONIC, &start);
    for (int i = 0; i < TURNS; i++) {
        if (pwrite(file, frame, SIZE, at + 1) != SIZE || fdatasync(file)) return 1;
        if (pwrite(file, &gate, 1, at) != 1 || fdatasync(file)) return 1;
        at += SIZE;
    }
    clock_gettime(CLOCK_MONOTONIC, &end);
    printf("%ld\n", ((end.tv_sec - start.tv_sec) * 1000000000L + end.tv_nsec - start.tv_nsec) / TURNS);
    return 0;
}
