/* The program `sync -f FILE` on the same slow disk: its sync of a file system takes MICROS longer. */
#define _GNU_SOURCE
#include <fcntl.h>
#include <time.h>
#include <unistd.h>

int main(int count, char **words) {
    struct timespec left = {MICROS / 1000000, MICROS % 1000000 * 1000L};
    int file = count == 3 ? open(words[2], O_RDONLY) : -1;
    if (file < 0 || syncfs(file) != 0)
        return 1;
    while (nanosleep(&left, &left) != 0) {
    }
    return 0;
}
