/* The C library's malloc, realloc and free, which tell at the end on standard error how many bytes were held at once at most. bench/memory puts
   them before the program. */
#include <malloc.h>
#include <stdio.h>

extern void *__libc_malloc(size_t);
extern void *__libc_realloc(void *, size_t);
extern void __libc_free(void *);

static size_t held, most;

static void *taken(void *block) {
    if (block) held += malloc_usable_size(block);
    if (held > most) most = held;
    return block;
}

void *malloc(size_t bytes) { return taken(__libc_malloc(bytes)); }

void *realloc(void *old, size_t bytes) {
    size_t before = old ? malloc_usable_size(old) : 0;
    void *block = __libc_realloc(old, bytes);
    if (block) held -= before;
    return taken(block);
}

void free(void *block) {
    if (block) held -= malloc_usable_size(block);
    __libc_free(block);
}

__attribute__((destructor)) static void tell(void) { fprintf(stderr, "\nheld %zu\n", most); }
