/* Memory that is counted, and refused where a test wants it: link with
 * -Wl,--wrap=malloc,--wrap=realloc,--wrap=free. With PLAIN defined malloc is the system's. */
#include <stdint.h>
#include <stdio.h>
#include <stdlib.h>
#include <string.h>

#define BYTES(text) (const uint8_t *)(text), strlen(text)
#define NEVER -1

#define EXPECT(holds)                                          \
    do {                                                       \
        if (!(holds)) {                                        \
            printf("line %d: not so: %s\n", __LINE__, #holds); \
            exit(1);                                           \
        }                                                      \
    } while (0)

#ifndef PLAIN
/* How many allocations there are until one is refused, and how many blocks are held. */
static long left = NEVER, held;
void *__real_malloc(size_t);
void *__real_realloc(void *, size_t);
void __real_free(void *);
void *__wrap_malloc(size_t size);
void *__wrap_realloc(void *old, size_t size);
void __wrap_free(void *old);

static int is_refused(void) { return left >= 0 && left-- == 0; }

void *__wrap_malloc(size_t size) {
    void *made = is_refused() ? NULL : __real_malloc(size);
    __atomic_add_fetch(&held, made != NULL, __ATOMIC_RELAXED);
    return made;
}

void *__wrap_realloc(void *old, size_t size) {
    void *made = is_refused() ? NULL : __real_realloc(old, size);
    __atomic_add_fetch(&held, made != NULL && old == NULL, __ATOMIC_RELAXED);
    return made;
}

void __wrap_free(void *old) {
    __atomic_sub_fetch(&held, old != NULL, __ATOMIC_RELAXED);
    __real_free(old);
}
#endif
