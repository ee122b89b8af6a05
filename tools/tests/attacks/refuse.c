/* Stands before the C library's allocation: counts what is asked for, and refuses the one whose number REFUSE_AT has.
   At the end it writes the count into the file that REFUSE_COUNTS names. Made by attacks/memory.py. */
#define _GNU_SOURCE
#include <errno.h>
#include <stddef.h>
#include <stdint.h>
#include <stdio.h>
#include <stdlib.h>

extern void *__libc_malloc(size_t);
extern void *__libc_calloc(size_t, size_t);
extern void *__libc_realloc(void *, size_t);
extern void *__libc_memalign(size_t, size_t);

static unsigned long asked, refused_at;
static int begun;

/* Counting begins when the libraries are loaded: what the loader asks for isn't the program's. */
__attribute__((constructor)) static void begin(void) {
    const char *at = getenv("REFUSE_AT");
    refused_at = at ? strtoul(at, NULL, 10) : 0;
    begun = 1;
}

__attribute__((destructor)) static void end(void) {
    begun = 0;
    const char *path = getenv("REFUSE_COUNTS");
    FILE *file = path ? fopen(path, "w") : NULL;
    if (file) {
        fprintf(file, "%lu", asked);
        fclose(file);
    }
}

static int is_refused(void) {
    if (!begun || __atomic_add_fetch(&asked, 1, __ATOMIC_SEQ_CST) != refused_at)
        return 0;
    errno = ENOMEM;
    return 1;
}

void *malloc(size_t size) { return is_refused() ? NULL : __libc_malloc(size); }
void *calloc(size_t count, size_t size) { return is_refused() ? NULL : __libc_calloc(count, size); }
void *realloc(void *old, size_t size) { return is_refused() ? NULL : __libc_realloc(old, size); }
void *memalign(size_t boundary, size_t size) { return is_refused() ? NULL : __libc_memalign(boundary, size); }
void *aligned_alloc(size_t boundary, size_t size) { return is_refused() ? NULL : __libc_memalign(boundary, size); }

int posix_memalign(void **place, size_t boundary, size_t size) {
    if (is_refused())
        return ENOMEM;
    void *found = __libc_memalign(boundary, size);
    if (!found)
        return ENOMEM;
    *place = found;
    return 0;
}
