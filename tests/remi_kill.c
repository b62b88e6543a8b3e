/* Put before a program's C library (LD_PRELOAD), this counts the calls by which the program reads and writes files, and disturbs
 * them.
 *   REMI_KILL_BEFORE=N, REMI_KILL_AFTER=N   the program is killed right before or right after the N-th call
 *   REMI_STOP_AFTER=N                       the program is stopped right after the N-th call, until it is told to go on
 *   REMI_INTERRUPTED=1                      every other read, write, open and fsync fails with EINTR, the first of each too; what
 *                                           is written to standard error goes through
 *   REMI_SHORT=N                            a read or a write takes at most N bytes
 * The headers that declare these calls are left out, so that every name that a C library has for them can be defined. */
#define _GNU_SOURCE
#include <dlfcn.h>
#include <errno.h>
#include <signal.h>
#include <stdarg.h>
#include <stddef.h>
#include <stdlib.h>

extern int getpid(void);

static long calls;

static long asked(const char *name) {
    const char *value = getenv(name);
    return value ? atol(value) : 0;
}

static void send_at(const char *name, int what) {
    if (asked(name) == calls)
        kill(getpid(), what);
}

static void before(void) {
    calls++;
    send_at("REMI_KILL_BEFORE", SIGKILL);
}

static void after(void) {
    int kept = errno;
    send_at("REMI_KILL_AFTER", SIGKILL);
    send_at("REMI_STOP_AFTER", SIGSTOP);
    errno = kept;
}

static int interrupted(int *turn) {
    if (!asked("REMI_INTERRUPTED") || (*turn ^= 1) == 0)
        return 0;
    errno = EINTR;
    return 1;
}

static size_t shortened(size_t length) {
    size_t most = (size_t)asked("REMI_SHORT");
    return most && most < length ? most : length;
}

#define NEXT(type, name, ...) ((type(*)(__VA_ARGS__))dlsym(RTLD_NEXT, #name))

#define CALL(type, name, parameters, arguments, ...)           \
    type name parameters {                                     \
        before();                                              \
        type answer = NEXT(type, name, __VA_ARGS__) arguments; \
        after();                                               \
        return answer;                                         \
    }

/* A C library has these under more than one name. */
#define ABOUT_PATH(name) CALL(int, name, (const char *path, void *found), (path, found), const char *, void *)
#define ABOUT_FILE(name) CALL(int, name, (int file, void *found), (file, found), int, void *)

ABOUT_PATH(stat)
ABOUT_PATH(lstat)
ABOUT_PATH(lstat64)
ABOUT_FILE(fstat)
ABOUT_FILE(fstat64)
CALL(int, __lxstat, (int of, const char *path, void *found), (of, path, found), int, const char *, void *)
CALL(int, __fxstat, (int of, int file, void *found), (of, file, found), int, int, void *)
CALL(int, statx, (int at, const char *path, int flags, unsigned wanted, void *found), (at, path, flags, wanted, found), int, const char *, int, unsigned,
     void *)
CALL(int, rename, (const char *from, const char *to), (from, to), const char *, const char *)
CALL(int, mkdir, (const char *path, unsigned mode), (path, mode), const char *, unsigned)
CALL(int, rmdir, (const char *path), (path), const char *)
CALL(int, unlink, (const char *path), (path), const char *)
CALL(int, close, (int file), (file), int)
CALL(int, fchmod, (int file, unsigned mode), (file, mode), int, unsigned)
CALL(int, fchown, (int file, unsigned owner, unsigned group), (file, owner, group), int, unsigned, unsigned)

int fsync(int file) {
    static int turn;
    before();
    if (interrupted(&turn))
        return -1;
    int answer = NEXT(int, fsync, int)(file);
    after();
    return answer;
}

#define MOVING(name, kind)                                                                   \
    long name(int file, kind *bytes, size_t length) {                                        \
        static int turn;                                                                     \
        before();                                                                            \
        if (file != 2 && interrupted(&turn))                                                 \
            return -1;                                                                       \
        long answer = NEXT(long, name, int, kind *, size_t)(file, bytes, shortened(length)); \
        after();                                                                             \
        return answer;                                                                       \
    }

MOVING(read, void)
MOVING(write, const void)

/* The mode stands behind the flags where a file may be made; to hand on what stands there otherwise does no harm. */
#define MODE_BEHIND(last)                   \
    va_list more;                           \
    va_start(more, last);                   \
    unsigned mode = va_arg(more, unsigned); \
    va_end(more);

#define OPENING(name)                                                            \
    int name(const char *path, int flags, ...) {                                 \
        static int turn;                                                         \
        MODE_BEHIND(flags)                                                       \
        before();                                                                \
        if (interrupted(&turn))                                                  \
            return -1;                                                           \
        int answer = NEXT(int, name, const char *, int, ...)(path, flags, mode); \
        after();                                                                 \
        return answer;                                                           \
    }

OPENING(open)
OPENING(open64)

int openat(int at, const char *path, int flags, ...) {
    static int turn;
    MODE_BEHIND(flags)
    before();
    if (interrupted(&turn))
        return -1;
    int answer = NEXT(int, openat, int, const char *, int, ...)(at, path, flags, mode);
    after();
    return answer;
}
