/* Preloaded into a program, refuses one growth: the one whose number, from 1, stands in REFUSE_AT. Without it nothing is refused.
 * Where it refuses, it makes the file that REFUSED names, so that one can tell a run that asked for fewer growths.
 *
 *     gcc -O1 -shared -fPIC -o refuse_growth.so refuse_growth.c
 *     REFUSE_AT=3 REFUSED=refused LD_PRELOAD=./refuse_growth.so PROGRAM ..
 */
#define _GNU_SOURCE
#include <errno.h>
#include <fcntl.h>
#include <stddef.h>
#include <stdlib.h>
#include <unistd.h>

extern void *__libc_malloc(size_t);
extern void *__libc_calloc(size_t, size_t);
extern void *__libc_realloc(void *, size_t);
extern void *__libc_memalign(size_t, size_t);

static long growths;
static long refused_at = -1;

static int is_refused(void) {
    if (refused_at < 0) {
        const char *number = getenv("REFUSE_AT");
        refused_at = number ? atol(number) : 0;
    }
    if (++growths != refused_at) {
        return 0;
    }
    const char *refused = getenv("REFUSED");
    if (refused) {
        close(open(refused, O_CREAT | O_WRONLY, 0600));
    }
    return 1;
}

void *malloc(size_t size) { return is_refused() ? NULL : __libc_malloc(size); }

void *calloc(size_t count, size_t size) { return is_refused() ? NULL : __libc_calloc(count, size); }

void *realloc(void *old, size_t size) { return is_refused() ? NULL : __libc_realloc(old, size); }

void *aligned_alloc(size_t alignment, size_t size) { return is_refused() ? NULL : __libc_memalign(alignment, size); }

int posix_memalign(void **out, size_t alignment, size_t size) {
    if (is_refused()) {
        return ENOMEM;
    }
    *out = __libc_memalign(alignment, size);
    return *out ? 0 : ENOMEM;
}
