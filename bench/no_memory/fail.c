/* Lets the call of malloc or realloc of the number FAIL_AT fail, for each program that loads this before
   the C library, and makes the file FAIL_MARK then. */
#define _GNU_SOURCE
#include <dlfcn.h>
#include <fcntl.h>
#include <stdlib.h>
#include <unistd.h>

static int is_due(void) {
    static long calls, due;
    if (due == 0) due = atol(getenv("FAIL_AT"));
    if (++calls != due) return 0;
    close(open(getenv("FAIL_MARK"), O_CREAT | O_WRONLY, 0600));
    return 1;
}

void *malloc(size_t size) {
    static void *(*real)(size_t);
    if (!real) real = dlsym(RTLD_NEXT, "malloc");
    return is_due() ? NULL : real(size);
}

void *realloc(void *old, size_t size) {
    static void *(*real)(void *, size_t);
    if (!real) real = dlsym(RTLD_NEXT, "realloc");
    return is_due() ? NULL : real(old, size);
}
