/* Preloaded into a program: its Nth request for memory is refused, or each one from the Nth on. Requests are counted from
   the program's start, those of the C library among them.

   REFUSED_REQUEST=N    the request that is refused first, from 1; without it none is
   REFUSED_ALL=1        each later one is refused too
   REFUSED_MET=FILE     a file that is made as soon as one is refused */
#include <errno.h>
#include <fcntl.h>
#include <stdatomic.h>
#include <stddef.h>
#include <stdlib.h>
#include <unistd.h>

void *__libc_malloc(size_t size);
void *__libc_calloc(size_t count, size_t size);
void *__libc_realloc(void *place, size_t size);
void *__libc_memalign(size_t alignment, size_t size);

static atomic_long requests;
static long refused_request;
static int refused_all;
static const char *met;

__attribute__((constructor)) static void begin(void) {
    const char *request = getenv("REFUSED_REQUEST");
    met = getenv("REFUSED_MET");
    refused_all = getenv("REFUSED_ALL") != NULL;
    refused_request = request == NULL ? 0 : atol(request);
}

static int is_refused(void) {
    if (refused_request == 0)
        return 0;
    long request = atomic_fetch_add(&requests, 1) + 1;
    if (request != refused_request && !(refused_all && request > refused_request))
        return 0;
    if (met != NULL) {
        int file = open(met, O_CREAT | O_WRONLY, 0600);
        if (file >= 0)
            close(file);
    }
    errno = ENOMEM;
    return 1;
}

void *malloc(size_t size) {
    return is_refused() ? NULL : __libc_malloc(size);
}

void *calloc(size_t count, size_t size) {
    return is_refused() ? NULL : __libc_calloc(count, size);
}

void *realloc(void *place, size_t size) {
    return is_refused() ? NULL : __libc_realloc(place, size);
}

void *memalign(size_t alignment, size_t size) {
    return is_refused() ? NULL : __libc_memalign(alignment, size);
}

void *aligned_alloc(size_t alignment, size_t size) {
    return is_refused() ? NULL : __libc_memalign(alignment, size);
}

int posix_memalign(void **place, size_t alignment, size_t size) {
    void *made = is_refused() ? NULL : __libc_memalign(alignment, size);
    if (made == NULL)
        return ENOMEM;
    *place = made;
    return 0;
}
