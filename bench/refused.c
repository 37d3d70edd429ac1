/* Refuses one growth of memory: the call of this number, counted from 1, of all that ask the C library for memory, answers NULL. The
   number stands in REFUSED. What was refused is told on standard error. For bench/refused.py, by LD_PRELOAD. */
#include <errno.h>
#include <stdatomic.h>
#include <stddef.h>
#include <stdlib.h>
#include <unistd.h>

extern void *__libc_malloc(size_t);
extern void *__libc_calloc(size_t, size_t);
extern void *__libc_realloc(void *, size_t);
extern void *__libc_memalign(size_t, size_t);

static atomic_long calls;

static int is_refused(void) {
    static long wanted = -1;
    if (wanted < 0) {
        const char *text = getenv("REFUSED");
        wanted = text ? atol(text) : 0;
    }
    if (atomic_fetch_add(&calls, 1) + 1 != wanted) return 0;
    if (write(2, "refused\n", 8) != 8) return 1;
    return 1;
}

void *malloc(size_t size) { return is_refused() ? NULL : __libc_malloc(size); }

void *calloc(size_t count, size_t size) { return is_refused() ? NULL : __libc_calloc(count, size); }

void *realloc(void *at, size_t size) { return is_refused() ? NULL : __libc_realloc(at, size); }

void *aligned_alloc(size_t align, size_t size) { return is_refused() ? NULL : __libc_memalign(align, size); }

int posix_memalign(void **at, size_t align, size_t size) {
    void *made = is_refused() ? NULL : __libc_memalign(align, size);
    if (made) *at = made;
    return made ? 0 : ENOMEM;
}
