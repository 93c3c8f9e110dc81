/* The heap of the library for arm64, Windows and macOS, for which the kit has none, and of the static programs: the three functions that they call, over those
 * of C. They have to keep the contracts that the kit declares in rattle/libc/src/heap.rt, and nothing proves it. A size may be 0, and an alignment divides 16. */
#include <stddef.h>
#include <stdint.h>
#include <stdlib.h>

_Static_assert(_Alignof(max_align_t) % 16 == 0, "malloc aligns to 16 bytes");

/* Whether there is memory, and where. Two registers hold it. */
struct tried {
    uint64_t is_there;
    void *at;
};

/* What stands for no memory, since an address is never 0. */
static max_align_t none;

static struct tried tried(void *memory)
{
    if (memory)
        return (struct tried){1, memory};
    return (struct tried){0, &none};
}

struct tried rattle_alloc(size_t size, size_t alignment)
{
    return tried(malloc(size > 0 ? size : alignment));
}

/* The first `kept` bytes stay, as those of realloc do. If there is no memory, the block stays as it is. */
struct tried rattle_realloc(void *block, size_t kept, size_t size, size_t alignment)
{
    (void)kept;
    return tried(realloc(block, size > 0 ? size : alignment));
}

void rattle_dealloc(void *block)
{
    free(block);
}
