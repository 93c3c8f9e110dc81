/* What the static programs call, and musl lacks. The kit's objects are for x86-64 with glibc alone. The heap is
 * bindings/c/heap.c.
 *
 * The kit declares these functions in rattle/os/src/c.rt, and statx in rattle/libc/src/lib.rt. Proofs rest on what is
 * declared there, and nothing proves it of C. The comment of each function says what it has to keep. A slice of Rattle
 * is an address and a length, and C reads and writes no byte outside of it. A path ends with a zero. */
#define _GNU_SOURCE
#include <errno.h>
#include <fcntl.h>
#include <stdint.h>
#include <string.h>
#include <sys/syscall.h>
#include <unistd.h>

static size_t word_count;
static char **words;

/* The program's own main, which takes no words. */
int __real_main(void);

/* The linker takes this for main (--wrap=main), since musl gives the words of the command line to main alone. */
int __wrap_main(int count, char **given)
{
    word_count = (size_t)count;
    words = given;
    return __real_main();
}

/* How many words there are, the program's own name among them. */
size_t rattle_arg_count(void)
{
    return word_count;
}

/* Puts a word at the start of the slice, and answers its length. It answers -1 if there is no such word, and -2 if the
 * word is longer than the slice, which is then full. */
ssize_t rattle_arg(size_t index, uint8_t *slice, size_t room)
{
    size_t length, put;
    if (index >= word_count)
        return -1;
    length = strlen(words[index]);
    put = length < room ? length : room;
    memcpy(slice, words[index], put);
    return put == length ? (ssize_t)length : -2;
}

/* The number of the last error of this thread, as errno has it. */
int32_t rattle_errno(void)
{
    return errno;
}

void rattle_set_errno(int32_t error)
{
    errno = error;
}

/* Opens a folder for reading by its path from an open one, and answers its descriptor. It answers -1 if that fails, if
 * the path leads to no folder, and if it ends in a link that no "/" follows. */
int32_t rattle_open_dir_at(int32_t folder, const char *path)
{
    return openat(folder, path, O_RDONLY | O_DIRECTORY | O_NOFOLLOW | O_CLOEXEC);
}

/* Linux's getdents64: puts the next entries of a folder at the start of the slice, and answers how many bytes they
 * take, 0 at the end, or -1. From 1.2.4 on, no static program can link the one of musl. */
ssize_t getdents64(int32_t folder, uint8_t *slice, size_t room)
{
    return syscall(SYS_getdents64, folder, slice, room);
}

/* Linux's statx, from Linux 4.11 on: fills the struct, in the layout of Linux, for the file at a path from an open
 * folder, and answers 0, or -1. musl has it from 1.2.5 on. */
int32_t statx(int32_t folder, const char *path, int32_t flags, uint32_t mask, void *found)
{
    return (int32_t)syscall(SYS_statx, folder, path, flags, mask, found);
}
