/* Loaded before the C library (LD_PRELOAD), it counts the calls of one sort, and lets one of them fail. With LINKED it is for a static program: the
 * linker takes its functions for those of the C library (--wrap).
 *
 * FAULT is SORT NUMBER: `memory` for requests of memory, `read`, `write` or `file` (all other calls on files), or `pieces`, with which each read gives at
 * most one byte and each write takes at most three. With `on` after the number all later calls of the sort fail too. The file that FAULT_COUNT names holds
 * how many calls there were. */
#define _GNU_SOURCE
#include <dlfcn.h>
#include <errno.h>
#include <fcntl.h>
#include <stdarg.h>
#include <stdio.h>
#include <stdlib.h>
#include <string.h>
#include <sys/file.h>
#include <sys/mman.h>
#include <sys/syscall.h>
#include <sys/uio.h>
#include <unistd.h>

#ifdef LINKED
#define FAULTY(name) __wrap_##name
#define OF_LIBC(name) __real_##name
#define FIND(type, name, parameters) \
    type __real_##name parameters;   \
    type(*next) parameters = __real_##name
#else
#define FAULTY(name) name
#define OF_LIBC(name) __libc_##name
#define FIND(type, name, parameters) type(*next) parameters = dlsym(RTLD_NEXT, #name)
#endif
extern void *OF_LIBC(malloc)(size_t), *OF_LIBC(realloc)(void *, size_t);
struct statx;

static char sort[16], onward[4];
static long wanted, *count;

__attribute__((constructor)) static void begin(void)
{
    const char *fault = getenv("FAULT"), *path = getenv("FAULT_COUNT");
    int file = path ? (int)syscall(SYS_openat, AT_FDCWD, path, O_RDWR, 0) : -1;
    if (!fault || file < 0 || sscanf(fault, "%15s %ld %3s", sort, &wanted, onward) < 2)
        _exit(99);
    count = mmap(NULL, sizeof *count, PROT_READ | PROT_WRITE, MAP_SHARED, file, 0);
    syscall(SYS_close, file);
}

/* Whether this call, of this sort, is the one that fails. */
static int fails(const char *name, int error)
{
    if (!count || strcmp(sort, name) != 0 || ++*count < wanted || (*count > wanted && !*onward))
        return 0;
    errno = error;
    return 1;
}

static size_t at_most(size_t size, size_t most)
{
    return strcmp(sort, "pieces") == 0 && size > most ? most : size;
}

void *FAULTY(malloc)(size_t size) { return fails("memory", ENOMEM) ? NULL : OF_LIBC(malloc)(size); }
void *FAULTY(realloc)(void *block, size_t size) { return fails("memory", ENOMEM) ? NULL : OF_LIBC(realloc)(block, size); }
ssize_t FAULTY(read)(int file, void *to, size_t size) { return fails("read", EIO) ? -1 : syscall(SYS_read, file, to, at_most(size, 1)); }
ssize_t FAULTY(write)(int file, const void *from, size_t size) { return fails("write", EIO) ? -1 : syscall(SYS_write, file, from, at_most(size, 3)); }

ssize_t FAULTY(writev)(int file, const struct iovec *parts, int number)
{
    struct iovec first = {parts[0].iov_base, at_most(parts[0].iov_len, 3)};
    if (fails("write", EIO))
        return -1;
    return strcmp(sort, "pieces") == 0 ? syscall(SYS_writev, file, &first, 1) : syscall(SYS_writev, file, parts, number);
}

#define FILE_CALL(name, parameters, ...)                       \
    int FAULTY(name) parameters                                \
    {                                                          \
        FIND(int, name, parameters);                           \
        return fails("file", EIO) ? -1 : next(__VA_ARGS__);    \
    }
FILE_CALL(fsync, (int file), file)
FILE_CALL(fdatasync, (int file), file)
FILE_CALL(flock, (int file, int operation), file, operation)
FILE_CALL(fchmod, (int file, mode_t mode), file, mode)
FILE_CALL(chown, (const char *path, uid_t owner, gid_t group), path, owner, group)
FILE_CALL(unlink, (const char *path), path)
FILE_CALL(rename, (const char *from, const char *to), from, to)
FILE_CALL(ftruncate, (int file, off_t size), file, size)
FILE_CALL(statx, (int folder, const char *path, int flags, unsigned mask, struct statx *found), folder, path, flags, mask, found)

off_t FAULTY(lseek)(int file, off_t to, int from) { return fails("file", EIO) ? -1 : syscall(SYS_lseek, file, to, from); }

int FAULTY(open)(const char *path, int flags, ...)
{
    va_list rest;
    mode_t mode;
    va_start(rest, flags);
    mode = flags & O_CREAT ? va_arg(rest, mode_t) : 0;
    va_end(rest);
    return fails("file", EIO) ? -1 : (int)syscall(SYS_openat, AT_FDCWD, path, flags, mode);
}

char *FAULTY(realpath)(const char *path, char *to)
{
    FIND(char *, realpath, (const char *, char *));
    return fails("file", EIO) ? NULL : next(path, to);
}
