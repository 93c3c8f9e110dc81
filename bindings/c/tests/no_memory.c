/* The calls where the system refuses memory: they say so, and the next ones work again. Ends with status 1 at the first wrong answer. */
#define _POSIX_C_SOURCE 200809L
#include <stdio.h>
#include <sys/resource.h>
#include <unistd.h>

#include "dumyroke_tree.h"

/* MIDDLE is too little memory for the text's parse with the room that dumyroke_tree_parse guesses, and enough with the room that it needs. */
enum { LENGTH = 1 << 24, BAD = 1 << 18, LITTLE = 1 << 20, MIDDLE = 350 << 20 };

static char text[LENGTH], bad[BAD];
static uint8_t formatted[4 * LENGTH];

/* Lets the process have so many bytes of memory more than it has now, or any number of them. */
static int allow(size_t more)
{
    unsigned long pages = 0;
    struct rlimit limit;
    FILE *file = fopen("/proc/self/statm", "r");
    int is_read = file && fscanf(file, "%lu", &pages) == 1 && getrlimit(RLIMIT_AS, &limit) == 0;
    if (file)
        fclose(file);
    limit.rlim_cur = more ? pages * (size_t)sysconf(_SC_PAGESIZE) + more : limit.rlim_max;
    return is_read && setrlimit(RLIMIT_AS, &limit) == 0;
}

/* Whether each call gives the status, and zeros beside it unless it is DUMYROKE_OK. */
static int all_give(uint32_t status)
{
    const uint8_t *source = (const uint8_t *)text;
    dumyroke_counts counts = {1, 1, 1, 1, 1, 1, 1};
    dumyroke_violation_counts violations = {1, 1, 1, 1, 1};
    dumyroke_measure_counts measured = {1, 1, 1, 1, 1, 1};
    /* freed also where an earlier call gave another status, and so it was not parsed */
    dumyroke_tree tree = {0};
    size_t bytes = 1;
    int is_right = dumyroke_parse(source, LENGTH, dumyroke_default_limits(), NULL, 0, NULL, 0, NULL, 0, &counts) == status
        && (counts.elements == 0) == (status != DUMYROKE_OK) && counts.message_bytes == 0
        && dumyroke_parse_selection_set(source, LENGTH, dumyroke_default_limits(), NULL, 0, NULL, 0, NULL, 0, &counts) == status
        && (counts.elements == 0) == (status != DUMYROKE_OK)
        && dumyroke_lex((const uint8_t *)bad, BAD, SIZE_MAX, NULL, 0, NULL, 0, NULL, 0, &counts) == status
        && (counts.elements == 0) == (status != DUMYROKE_OK)
        && dumyroke_format(source, LENGTH, dumyroke_default_limits(), formatted, sizeof formatted, &bytes) == status
        && (bytes == 0) == (status != DUMYROKE_OK)
        && dumyroke_validate(source, LENGTH, dumyroke_default_limits(), SIZE_MAX, SIZE_MAX, NULL, 0, NULL, 0, &violations) == status
        && violations.violations == 0 && violations.message_bytes == 0 && violations.undecided_end == 0 && violations.status == status
        && dumyroke_measure(source, LENGTH, dumyroke_default_limits(), NULL, 0, &measured) == status
        && measured.operations == (status == DUMYROKE_OK) && measured.end == 0
        && dumyroke_tree_parse(&tree, text, LENGTH, dumyroke_default_limits()) == status;
    dumyroke_tree_free(&tree);
    return is_right;
}

/* Whether a tree is there where the memory is less than a guess takes. */
static int has_tree(void)
{
    dumyroke_tree tree;
    int is_right = dumyroke_tree_parse(&tree, text, LENGTH, dumyroke_default_limits()) == DUMYROKE_OK && tree.counts.text_bytes == LENGTH;
    dumyroke_tree_free(&tree);
    return is_right;
}

int main(void)
{
    size_t i;
    for (i = 0; i < LENGTH; i++)
        text[i] = i == 0 ? '{' : i == LENGTH - 1 ? '}' : i % 8 ? 'a' : ' ';
    memset(bad, '%', BAD);
    if (!allow(LITTLE) || !all_give(DUMYROKE_NO_MEMORY) || !allow(MIDDLE) || !has_tree() || !allow(0) || !all_give(DUMYROKE_OK)) {
        fputs("no_memory: a wrong answer\n", stderr);
        return 1;
    }
    return 0;
}
