/* Loaded before a program (LD_PRELOAD): of its calls that take memory, the one whose number REFUSED_GROWTH gives,
   counted from 1, answers that there is none, and is told on the standard error. */
#include <errno.h>
#include <stddef.h>
#include <stdlib.h>
#include <unistd.h>

void *__libc_malloc(size_t size);
void *__libc_calloc(size_t count, size_t size);
void *__libc_realloc(void *held, size_t size);
void *__libc_memalign(size_t alignment, size_t size);

static int is_refused(void) {
    static const char told[] = "REFUSED GROWTH\n";
    static long asked;
    const char *number = getenv("REFUSED_GROWTH");
    return number && ++asked == atol(number) && write(STDERR_FILENO, told, sizeof told - 1) > 0;
}

void *malloc(size_t size) { return is_refused() ? NULL : __libc_malloc(size); }

void *calloc(size_t count, size_t size) { return is_refused() ? NULL : __libc_calloc(count, size); }

void *realloc(void *held, size_t size) { return is_refused() ? NULL : __libc_realloc(held, size); }

void *aligned_alloc(size_t alignment, size_t size) { return is_refused() ? NULL : __libc_memalign(alignment, size); }

int posix_memalign(void **made, size_t alignment, size_t size) {
    *made = is_refused() ? NULL : __libc_memalign(alignment, size);
    return *made ? 0 : ENOMEM;
}
