/* Parses the text on standard input as often as the command line says, and prints the nanoseconds by the clock and the errors of one parse. */
#define _POSIX_C_SOURCE 200809L
#include <dumyroke_tree.h>
#include <stdio.h>
#include <time.h>

static long long now(void)
{
    struct timespec at;
    clock_gettime(CLOCK_MONOTONIC, &at);
    return at.tv_sec * 1000000000LL + at.tv_nsec;
}

int main(int count, char **words)
{
    static char text[1 << 20];
    size_t length = fread(text, 1, sizeof text, stdin), errors = 0;
    long parses = count > 1 ? atol(words[1]) : 1, i;
    long long started = now();
    for (i = 0; i < parses; i++) {
        dumyroke_tree tree;
        if (dumyroke_tree_parse(&tree, text, length, dumyroke_default_limits()) != DUMYROKE_OK)
            return 2;
        errors = tree.counts.errors;
        dumyroke_tree_free(&tree);
    }
    printf("%lld %zu\n", now() - started, errors);
    return 0;
}
