/* Tries each function of system.c by the comment before it. It runs with the words `abc` and an empty one, in a folder
 * that has `file` with three bytes, `folder` with the folder `inner`, and `link`, which leads to `folder`. */
#include <assert.h>
#include <errno.h>
#include <fcntl.h>
#include <stdint.h>
#include <string.h>
#include <unistd.h>

size_t rattle_arg_count(void);
ssize_t rattle_arg(size_t, uint8_t *, size_t);
int32_t rattle_errno(void);
void rattle_set_errno(int32_t);
int32_t rattle_open_dir_at(int32_t, const char *);
ssize_t getdents64(int32_t, uint8_t *, size_t);
int32_t statx(int32_t, const char *, int32_t, uint32_t, void *);

/* Where an entry has its length and its name, and where the struct of statx has the length of the file. */
enum { ENTRY_LENGTH = 16, ENTRY_NAME = 19, FILE_LENGTH = 40 };

static void try_words(void)
{
    uint8_t slice[] = "....";
    assert(rattle_arg_count() == 3);
    assert(rattle_arg(1, slice, 4) == 3 && memcmp(slice, "abc.", 4) == 0);
    memset(slice, '.', 4);
    assert(rattle_arg(1, slice, 3) == 3 && memcmp(slice, "abc.", 4) == 0);
    memset(slice, '.', 4);
    assert(rattle_arg(1, slice, 2) == -2 && memcmp(slice, "ab..", 4) == 0);
    assert(rattle_arg(1, slice, 0) == -2 && rattle_arg(2, slice, 0) == 0);
    assert(rattle_arg(3, slice, 4) == -1 && rattle_arg(SIZE_MAX, slice, 4) == -1);
    assert(memcmp(slice, "ab..", 4) == 0);
}

static void try_errors(void)
{
    rattle_set_errno(ENOSPC);
    assert(errno == ENOSPC);
    errno = EACCES;
    assert(rattle_errno() == EACCES);
}

/* Whether a folder has an entry. */
static int has(int folder, const char *name)
{
    uint8_t slice[4096];
    ssize_t at = 0, end = getdents64(folder, slice, sizeof slice);
    int found = 0;
    for (; at < end; at += slice[at + ENTRY_LENGTH])
        found |= strcmp((const char *)slice + at + ENTRY_NAME, name) == 0;
    assert(end > 0 && at == end && getdents64(folder, slice, sizeof slice) == 0);
    return found;
}

static void try_folders(void)
{
    uint8_t one;
    int folder = rattle_open_dir_at(AT_FDCWD, "link/");
    assert(folder >= 0 && fcntl(folder, F_GETFD) == FD_CLOEXEC);
    assert(has(folder, "inner"));
    assert(rattle_open_dir_at(folder, "inner") >= 0);
    assert(rattle_open_dir_at(folder, "file") == -1 && errno == ENOENT);
    assert(rattle_open_dir_at(AT_FDCWD, "file") == -1 && errno == ENOTDIR);
    assert(rattle_open_dir_at(AT_FDCWD, "link") == -1);
    assert(getdents64(-1, &one, 1) == -1 && errno == EBADF);
}

static void try_statx(void)
{
    uint8_t found[256] = {0};
    assert(statx(AT_FDCWD, "file", 0, 0x7ff, found) == 0 && found[FILE_LENGTH] == 3);
    assert(statx(AT_FDCWD, "none", 0, 0x7ff, found) == -1 && errno == ENOENT);
    /* Of a link itself (AT_SYMLINK_NOFOLLOW): it has as many bytes as the name that it leads to. */
    assert(statx(AT_FDCWD, "link", 0x100, 0x7ff, found) == 0 && found[FILE_LENGTH] == strlen("folder"));
}

int main(void)
{
    try_words();
    try_errors();
    try_folders();
    try_statx();
    return 0;
}
