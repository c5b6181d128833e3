// Refuses allocations of the program that it is preloaded into, by their numbers, counted from 1.
//
// REFUSE_FILE names a file of three 64-bit numbers in the machine's order, which may be changed while the program
// runs: how many allocations were asked for, and the first and the last number that is refused. What is taken before
// this library's constructor runs isn't counted.

#include <errno.h>
#include <fcntl.h>
#include <stdatomic.h>
#include <stddef.h>
#include <stdint.h>
#include <stdlib.h>
#include <sys/mman.h>
#include <unistd.h>

// The C library's own, by their other names.
extern void *__libc_malloc(size_t size);
extern void *__libc_calloc(size_t count, size_t size);
extern void *__libc_realloc(void *block, size_t size);
extern void *__libc_memalign(size_t alignment, size_t size);

struct numbers {
    _Atomic uint64_t asked;
    _Atomic uint64_t first;
    _Atomic uint64_t last;
};

static struct numbers *numbers;

__attribute__((constructor)) static void begin(void) {
    const char *name = getenv("REFUSE_FILE");
    int file = name ? open(name, O_RDWR | O_CLOEXEC) : -1;
    if (file < 0) {
        return;
    }
    void *block = mmap(NULL, sizeof(struct numbers), PROT_READ | PROT_WRITE, MAP_SHARED, file, 0);
    close(file);
    if (block != MAP_FAILED) {
        numbers = block;
    }
}

static int is_refused(void) {
    if (!numbers) {
        return 0;
    }
    uint64_t number = atomic_fetch_add(&numbers->asked, 1) + 1;
    if (number < atomic_load(&numbers->first) || number > atomic_load(&numbers->last)) {
        return 0;
    }
    errno = ENOMEM;
    return 1;
}

void *malloc(size_t size) {
    return is_refused() ? NULL : __libc_malloc(size);
}

void *calloc(size_t count, size_t size) {
    return is_refused() ? NULL : __libc_calloc(count, size);
}

void *realloc(void *block, size_t size) {
    return size && is_refused() ? NULL : __libc_realloc(block, size);
}

void *memalign(size_t alignment, size_t size) {
    return is_refused() ? NULL : __libc_memalign(alignment, size);
}

void *aligned_alloc(size_t alignment, size_t size) {
    return is_refused() ? NULL : __libc_memalign(alignment, size);
}

int posix_memalign(void **block, size_t alignment, size_t size) {
    if (alignment % sizeof(void *) || alignment & (alignment - 1) || !alignment) {
        return EINVAL;
    }
    void *made = is_refused() ? NULL : __libc_memalign(alignment, size);
    if (!made) {
        return ENOMEM;
    }
    *block = made;
    return 0;
}
