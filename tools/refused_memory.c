// Preloaded before libc: refuses a process's requests for memory from number REFUSED_FROM to REFUSED_TO, and each thread
// where REFUSED_THREADS is set. REFUSED names a file of 8 bytes in which the requests are counted.
#define _GNU_SOURCE
#include <dlfcn.h>
#include <errno.h>
#include <fcntl.h>
#include <pthread.h>
#include <stdatomic.h>
#include <stdlib.h>
#include <sys/mman.h>

void *__libc_malloc(size_t size);
void *__libc_realloc(void *old, size_t size);

static _Atomic long *made;
static long first, last;

static long number(const char *name, long otherwise) {
    const char *text = getenv(name);
    return text ? atol(text) : otherwise;
}

__attribute__((constructor)) static void begin(void) {
    int file = open(getenv("REFUSED"), O_RDWR);
    void *page = mmap(0, 8, PROT_READ | PROT_WRITE, MAP_SHARED, file, 0);
    if (page == MAP_FAILED)
        abort();
    first = number("REFUSED_FROM", 0);
    last = number("REFUSED_TO", -1);
    made = page;
}

static int refused(void) {
    if (!made)
        return 0;
    long count = atomic_fetch_add(made, 1);
    return first <= count && count <= last;
}

void *malloc(size_t size) {
    return refused() ? 0 : __libc_malloc(size);
}

void *realloc(void *old, size_t size) {
    return refused() ? 0 : __libc_realloc(old, size);
}

typedef int Create(pthread_t *, const pthread_attr_t *, void *(*)(void *), void *);

int pthread_create(pthread_t *thread, const pthread_attr_t *attributes, void *(*routine)(void *), void *argument) {
    Create *create = (Create *)dlsym(RTLD_NEXT, "pthread_create");
    return getenv("REFUSED_THREADS") ? EAGAIN : create(thread, attributes, routine, argument);
}
