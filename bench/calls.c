/* Prints the processor time of the calls of the C library on the text on standard input, best and median of 15, in milliseconds. c.py compiles and runs it. */
#include <dumyroke_tree.h>
#include <stdio.h>
#include <time.h>

enum { ROUNDS = 15 };

static double now(void)
{
    return 1e3 * clock() / CLOCKS_PER_SEC;
}

static int by_size(const void *one, const void *other)
{
    double difference = *(const double *)one - *(const double *)other;
    return (difference > 0) - (difference < 0);
}

static void print_times(const char *name, double *times)
{
    qsort(times, ROUNDS, sizeof *times, by_size);
    printf("| %s | %.1f | %.1f |\n", name, times[0], times[ROUNDS / 2]);
}

int main(void)
{
    static char text[1 << 26];
    size_t length = fread(text, 1, sizeof text, stdin);
    double checks[ROUNDS], parses[ROUNDS];
    dumyroke_counts counts;
    int i;
    for (i = 0; i < ROUNDS; i++) {
        dumyroke_tree tree;
        double started = now();
        if (dumyroke_parse((const uint8_t *)text, length, dumyroke_default_limits(), NULL, 0, NULL, 0, NULL, 0, &counts) != DUMYROKE_OK)
            return 2;
        checks[i] = now() - started;
        started = now();
        if (dumyroke_tree_parse(&tree, text, length, dumyroke_default_limits()) != DUMYROKE_OK)
            return 2;
        parses[i] = now() - started;
        dumyroke_tree_free(&tree);
    }
    printf("%zu bytes, %zu elements, %zu errors\n", length, counts.elements, counts.errors);
    print_times("a check: `dumyroke_parse` without room", checks);
    print_times("a tree: `dumyroke_tree_parse`", parses);
    return 0;
}
