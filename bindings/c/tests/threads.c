/* Two threads parse, check and read strings at the same time. Ends with status 1 at the first wrong answer. */
#include <pthread.h>
#include <stdio.h>

#include "dumyroke_tree.h"

enum { ROUNDS = 2000 };

static const char TEXT[] = "query q($a: [Int!]! = 1) @d { a(b: {c: [1, \"d\"]}) ...e }";
static const char LITERAL[] = "\"a\\u00e9\"";

static int is_right(void)
{
    dumyroke_tree tree;
    uint8_t value[8];
    size_t bytes;
    int is_parsed = dumyroke_tree_parse(&tree, TEXT, sizeof TEXT - 1, dumyroke_default_limits()) == DUMYROKE_OK
        && tree.counts.errors == 0 && dumyroke_after(&tree, 0) == tree.counts.elements && dumyroke_end_of(&tree, 0) == sizeof TEXT - 1;
    dumyroke_tree_free(&tree);
    return is_parsed && dumyroke_string_value((const uint8_t *)LITERAL, sizeof LITERAL - 1, value, sizeof value, &bytes) == DUMYROKE_OK
        && bytes == 3 && !memcmp(value, "a\xc3\xa9", 3);
}

/* Gives a pointer to itself if an answer was wrong. */
static void *many(void *unused)
{
    static char wrong;
    int i;
    (void)unused;
    for (i = 0; i < ROUNDS; i++)
        if (!is_right())
            return &wrong;
    return NULL;
}

int main(void)
{
    pthread_t threads[2];
    void *wrong;
    int i, status = 0;
    for (i = 0; i < 2; i++)
        if (pthread_create(&threads[i], NULL, many, NULL))
            return 1;
    for (i = 0; i < 2; i++)
        if (pthread_join(threads[i], &wrong) || wrong)
            status = 1;
    if (status)
        fputs("threads: a wrong answer\n", stderr);
    return status;
}
