/* In front of the C library: lets the request for memory of number CALL_AT fail, counted from 1, and with CALL_HOW `may-all` all
   behind it too, and writes a `!` on file 9 where it does. */
#define _GNU_SOURCE
#include <dlfcn.h>
#include <errno.h>
#include <stdlib.h>
#include <string.h>
#include <unistd.h>

static long calls;

static int fails(void) {
    long at = atol(getenv("CALL_AT"));
    calls += 1;
    if (!at || calls < at) return 0;
    int failed = calls == at || !strcmp(getenv("CALL_HOW"), "may-all");
    if (calls == at && write(9, "!", 1) != 1) abort();
    if (failed) errno = ENOMEM;
    return failed;
}

#define NEXT(type, name) static __typeof__(type) *real; if (!real) real = (void *)dlsym(RTLD_NEXT, name)

void *malloc(size_t size) {
    NEXT(void *(size_t), "malloc");
    return fails() ? 0 : real(size);
}

void *realloc(void *old, size_t size) {
    NEXT(void *(void *, size_t), "realloc");
    return fails() ? 0 : real(old, size);
}

void *aligned_alloc(size_t alignment, size_t size) {
    NEXT(void *(size_t, size_t), "aligned_alloc");
    return fails() ? 0 : real(alignment, size);
}

int posix_memalign(void **to, size_t alignment, size_t size) {
    NEXT(int(void **, size_t, size_t), "posix_memalign");
    return fails() ? ENOMEM : real(to, alignment, size);
}
