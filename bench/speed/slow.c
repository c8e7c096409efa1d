/* A disk whose syncs take MICROS longer, for each program that loads this before the C library. Each
   process waits by itself, as where the file system joins what many ask for at one time. */
#define _GNU_SOURCE
#include <dlfcn.h>
#include <errno.h>
#include <time.h>

static int behind(const char *name, int file) {
    int (*real)(int) = (int (*)(int))dlsym(RTLD_NEXT, name);
    struct timespec left = {MICROS / 1000000, MICROS % 1000000 * 1000L};
    int status = real(file), error = errno;
    while (nanosleep(&left, &left) != 0) {
    }
    errno = error;
    return status;
}

int fsync(int file) { return behind("fsync", file); }
int fdatasync(int file) { return behind("fdatasync", file); }
