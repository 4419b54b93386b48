/* A library to be loaded before the C library, for tests: each growth of a program is a call of the C library for memory.
   It refuses one growth, the one whose number the environment's REFUSE gives, counted from 1, and then leaves the file
   that REFUSED names. At the program's end it writes how many growths there were into the file that COUNTED names. */
#define _GNU_SOURCE
#include <dlfcn.h>
#include <errno.h>
#include <fcntl.h>
#include <stdio.h>
#include <stdlib.h>
#include <sys/syscall.h>
#include <unistd.h>

static long count;

__attribute__((destructor)) static void tell(void) {
    char text[32];
    const char *name = getenv("COUNTED");
    int file = name ? open(name, O_CREAT | O_WRONLY | O_TRUNC, 0600) : -1;
    if (file >= 0 && write(file, text, snprintf(text, sizeof text, "%ld\n", count)) >= 0)
        close(file);
}

/* A program that may have threads ends by this, and not by `exit`. */
void _exit(int status) {
    tell();
    syscall(SYS_exit_group, status);
    __builtin_unreachable();
}

static int is_refused(void) {
    const char *which = getenv("REFUSE");
    const char *left = getenv("REFUSED");
    long number = __atomic_add_fetch(&count, 1, __ATOMIC_SEQ_CST);
    if (!which || number != atol(which))
        return 0;
    if (left)
        close(open(left, O_CREAT | O_WRONLY, 0600));
    errno = ENOMEM;
    return 1;
}

void *malloc(size_t size) {
    static void *(*real)(size_t);
    if (!real)
        real = (void *(*)(size_t))dlsym(RTLD_NEXT, "malloc");
    return is_refused() ? NULL : real(size);
}

void *realloc(void *old, size_t size) {
    static void *(*real)(void *, size_t);
    if (!real)
        real = (void *(*)(void *, size_t))dlsym(RTLD_NEXT, "realloc");
    return is_refused() ? NULL : real(old, size);
}

int posix_memalign(void **place, size_t align, size_t size) {
    static int (*real)(void **, size_t, size_t);
    if (!real)
        real = (int (*)(void **, size_t, size_t))dlsym(RTLD_NEXT, "posix_memalign");
    return is_refused() ? ENOMEM : real(place, align, size);
}

void *aligned_alloc(size_t align, size_t size) {
    static void *(*real)(size_t, size_t);
    if (!real)
        real = (void *(*)(size_t, size_t))dlsym(RTLD_NEXT, "aligned_alloc");
    return is_refused() ? NULL : real(align, size);
}
