/* Refuses one allocation of a program, the one whose number stands in the first word of the file that ESA_CALLS names,
   and counts all of them in the second. To be preloaded, on Linux with glibc. */
#include <errno.h>
#include <fcntl.h>
#include <stdlib.h>
#include <sys/mman.h>
#include <unistd.h>

extern void *__libc_malloc(size_t);
extern void *__libc_calloc(size_t, size_t);
extern void *__libc_realloc(void *, size_t);
extern void *__libc_memalign(size_t, size_t);

static volatile unsigned long *calls;

__attribute__((constructor)) static void begin(void) {
    const char *name = getenv("ESA_CALLS");
    int file = name ? open(name, O_RDWR) : -1;
    void *at = file < 0 ? MAP_FAILED : mmap(0, 16, PROT_READ | PROT_WRITE, MAP_SHARED, file, 0);
    calls = at == MAP_FAILED ? 0 : at;
}

static int is_refused(void) {
    return calls && __atomic_add_fetch(&calls[1], 1, __ATOMIC_SEQ_CST) == calls[0] && (errno = ENOMEM);
}

void *malloc(size_t size) { return is_refused() ? 0 : __libc_malloc(size); }
void *calloc(size_t count, size_t size) { return is_refused() ? 0 : __libc_calloc(count, size); }
void *realloc(void *block, size_t size) { return is_refused() ? 0 : __libc_realloc(block, size); }
void *memalign(size_t align, size_t size) { return is_refused() ? 0 : __libc_memalign(align, size); }
void *aligned_alloc(size_t align, size_t size) { return is_refused() ? 0 : __libc_memalign(align, size); }

int posix_memalign(void **block, size_t align, size_t size) {
    void *made = is_refused() ? 0 : __libc_memalign(align, size);
    if (!made) return ENOMEM;
    *block = made;
    return 0;
}
