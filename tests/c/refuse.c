/* Linked with -Wl,--wrap=malloc,--wrap=realloc, refuses one growth: the one whose number, from 1, stands in `refuse_at`. A program that does not
 * know this is told the number by REFUSE_AT in its environment; how many growths there were then goes to the file that GROWTHS_TO names. */
#include <stddef.h>
#include <stdio.h>
#include <stdlib.h>

extern void *__real_malloc(size_t);
extern void *__real_realloc(void *, size_t);

long refuse_at, growths;

static void tell(void) {
    FILE *to = fopen(getenv("GROWTHS_TO"), "w");
    if (to == NULL) return;
    fprintf(to, "%ld\n", growths);
    fclose(to);
}

__attribute__((constructor)) static void begin(void) {
    const char *at = getenv("REFUSE_AT");
    if (at == NULL || getenv("GROWTHS_TO") == NULL) return;
    refuse_at = strtol(at, NULL, 10);
    atexit(tell);
}

void *__wrap_malloc(size_t size) {
    return ++growths == refuse_at ? NULL : __real_malloc(size);
}

void *__wrap_realloc(void *old, size_t size) {
    return ++growths == refuse_at ? NULL : __real_realloc(old, size);
}
