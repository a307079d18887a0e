/* Loaded before the C library by tests/hostile: counts the calls that open, write, name and remove files. At one of them it
   has the call fail, stops the program or ends it. It can note the calls. */
#define _GNU_SOURCE
#include <dlfcn.h>
#include <errno.h>
#include <fcntl.h>
#include <signal.h>
#include <stdarg.h>
#include <stdio.h>
#include <stdlib.h>
#include <string.h>
#include <sys/syscall.h>
#include <sys/types.h>
#include <unistd.h>

struct statx;

/* The number of the call that is due, from 1; what is done there: f(ail), s(top) or k(ill); the file of the notes, or -1. */
static long count, due;
static char what;
static int notes = -1;

__attribute__((constructor)) static void begin(void) {
    const char *number = getenv("CALL"), *done = getenv("CALL_WHAT"), *path = getenv("CALL_NOTES");
    due = number ? atol(number) : 0;
    what = done ? *done : 'f';
    if (path) notes = (int)syscall(SYS_openat, AT_FDCWD, path, O_WRONLY | O_CREAT | O_APPEND | O_CLOEXEC, 0666);
}

/* Notes a call with the path of its file, and does what is due at it. Whether it is to fail. */
static int fails(const char *name, const char *path, int fd) {
    char line[4200], link[40], at[4000] = "";
    if (notes >= 0) {
        if (path == NULL) {
            snprintf(link, sizeof link, "/proc/self/fd/%d", fd);
            if (readlink(link, at, sizeof at - 1) < 0) at[0] = 0;
        }
        int length = snprintf(line, sizeof line, "%s %.4000s\n", name, path ? path : at);
        syscall(SYS_write, notes, line, (size_t)length);
    }
    if (__atomic_add_fetch(&count, 1, __ATOMIC_RELAXED) != due) return 0;
    if (what == 's') raise(SIGSTOP);
    if (what == 'k') raise(SIGKILL);
    if (what != 'f') return 0;
    errno = EIO;
    return 1;
}

#define REAL(name, type) ((type)dlsym(RTLD_NEXT, name))

#define OPENS(name)                                                                            \
    int name(const char *path, int flags, ...) {                                               \
        va_list rest;                                                                          \
        va_start(rest, flags);                                                                 \
        unsigned mode = flags & (O_CREAT | O_TMPFILE) ? va_arg(rest, unsigned) : 0;            \
        va_end(rest);                                                                          \
        if (fails(flags & O_CREAT ? "create" : "open", path, -1)) return -1;                   \
        return REAL(#name, int (*)(const char *, int, unsigned))(path, flags, mode);           \
    }
OPENS(open)
OPENS(open64)

#define WRITES(name)                                                                           \
    ssize_t name(int fd, const void *bytes, size_t size) {                                     \
        if (fails("write", NULL, fd)) return -1;                                               \
        return REAL(#name, ssize_t (*)(int, const void *, size_t))(fd, bytes, size);           \
    }
WRITES(write)
WRITES(__write)

#define OF_A_FILE(name, args, values)                                                          \
    int name args {                                                                            \
        if (fails(#name, NULL, fd)) return -1;                                                 \
        return REAL(#name, int (*) args) values;                                               \
    }
OF_A_FILE(fsync, (int fd), (fd))
OF_A_FILE(fdatasync, (int fd), (fd))
OF_A_FILE(fchmod, (int fd, mode_t mode), (fd, mode))
OF_A_FILE(fchown, (int fd, uid_t user, gid_t group), (fd, user, group))
OF_A_FILE(ftruncate, (int fd, off_t size), (fd, size))

#define OF_A_PATH(name, args, values)                                                          \
    int name args {                                                                            \
        if (fails(#name, path, -1)) return -1;                                                 \
        return REAL(#name, int (*) args) values;                                               \
    }
OF_A_PATH(rename, (const char *path, const char *to), (path, to))
OF_A_PATH(unlink, (const char *path), (path))
OF_A_PATH(link, (const char *path, const char *to), (path, to))
OF_A_PATH(chmod, (const char *path, mode_t mode), (path, mode))
OF_A_PATH(chown, (const char *path, uid_t user, gid_t group), (path, user, group))
OF_A_PATH(lchown, (const char *path, uid_t user, gid_t group), (path, user, group))

int statx(int at, const char *restrict path, int flags, unsigned mask, struct statx *restrict found) {
    if (fails("statx", path, -1)) return -1;
    return REAL("statx", int (*)(int, const char *, int, unsigned, struct statx *))(at, path, flags, mask, found);
}
