/* Preloaded into a program: its calls of the system on files are counted, and one of them fails, or is its last.

   CALLS_LIST=FILE      a line for each call, with its name
   CALLS_NTH=N          the call that is meant, from 1; without it none is
   CALLS_ERROR=E        it answers the error of this number, and does nothing
   CALLS_KILL=WHEN      the program is killed `before` it or `after` it */
#define _GNU_SOURCE
#include <dlfcn.h>
#include <errno.h>
#include <fcntl.h>
#include <signal.h>
#include <stdarg.h>
#include <stdatomic.h>
#include <stdlib.h>
#include <string.h>
#include <sys/stat.h>
#include <sys/syscall.h>
#include <sys/types.h>
#include <unistd.h>

static atomic_long calls;
static long nth;
static int error_number;
static const char *killed;
static int list = -1;

__attribute__((constructor)) static void begin(void) {
    const char *path = getenv("CALLS_LIST"), *number = getenv("CALLS_NTH"), *error = getenv("CALLS_ERROR");
    killed = getenv("CALLS_KILL");
    nth = number == NULL ? 0 : atol(number);
    error_number = error == NULL ? 0 : atoi(error);
    if (path != NULL) {
        int file = (int)syscall(SYS_openat, AT_FDCWD, path, O_CREAT | O_WRONLY | O_APPEND, 0600);
        list = (int)syscall(SYS_fcntl, file, F_DUPFD, 900);
        syscall(SYS_close, file);
    }
}

/* Whether this call is to fail. */
static int begins(const char *name, int *is_meant) {
    long number = atomic_fetch_add(&calls, 1) + 1;
    if (list >= 0) {
        syscall(SYS_write, list, name, strlen(name));
        syscall(SYS_write, list, "\n", 1);
    }
    *is_meant = nth != 0 && number == nth;
    if (!*is_meant)
        return 0;
    if (killed != NULL && strcmp(killed, "before") == 0)
        syscall(SYS_kill, getpid(), SIGKILL);
    if (error_number != 0)
        errno = error_number;
    return error_number != 0;
}

static void ends(int is_meant) {
    if (is_meant && killed != NULL && strcmp(killed, "after") == 0)
        syscall(SYS_kill, getpid(), SIGKILL);
}

#define NEXT(name) ((__typeof__(&name))dlsym(RTLD_NEXT, #name))

#define COUNTED(type, name, parameters, arguments) \
    type name parameters { \
        int is_meant; \
        if (begins(#name, &is_meant)) \
            return (type)-1; \
        type answer = NEXT(name) arguments; \
        int kept = errno; \
        ends(is_meant); \
        errno = kept; \
        return answer; \
    }

COUNTED(ssize_t, read, (int file, void *bytes, size_t count), (file, bytes, count))
COUNTED(ssize_t, write, (int file, const void *bytes, size_t count), (file, bytes, count))
COUNTED(int, fsync, (int file), (file))
COUNTED(int, ftruncate, (int file, off_t size), (file, size))
COUNTED(int, fchmod, (int file, mode_t rights), (file, rights))
COUNTED(int, fchown, (int file, uid_t owner, gid_t group), (file, owner, group))
COUNTED(int, flock, (int file, int how), (file, how))
COUNTED(int, rename, (const char *from, const char *to), (from, to))
COUNTED(int, unlink, (const char *path), (path))
COUNTED(int, statx, (int folder, const char *restrict path, int flags, unsigned mask, struct statx *restrict found),
        (folder, path, flags, mask, found))

char *realpath(const char *restrict path, char *restrict found) {
    int is_meant;
    if (begins("realpath", &is_meant))
        return NULL;
    char *answer = NEXT(realpath)(path, found);
    int kept = errno;
    ends(is_meant);
    errno = kept;
    return answer;
}

int open(const char *path, int flags, ...) {
    int is_meant;
    mode_t rights = 0;
    if (flags & O_CREAT) {
        va_list more;
        va_start(more, flags);
        rights = va_arg(more, mode_t);
        va_end(more);
    }
    if (begins(flags & O_CREAT ? "create" : "open", &is_meant))
        return -1;
    int answer = NEXT(open)(path, flags, rights);
    int kept = errno;
    ends(is_meant);
    errno = kept;
    return answer;
}

int openat(int folder, const char *path, int flags, ...) {
    int is_meant;
    mode_t rights = 0;
    if (flags & O_CREAT) {
        va_list more;
        va_start(more, flags);
        rights = va_arg(more, mode_t);
        va_end(more);
    }
    if (begins(flags & O_CREAT ? "create" : "open", &is_meant))
        return -1;
    int answer = NEXT(openat)(folder, path, flags, rights);
    int kept = errno;
    ends(is_meant);
    errno = kept;
    return answer;
}
