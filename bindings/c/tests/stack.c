/* Makes calls within the usual limits on the deepest texts, in a thread that has a stack of some bytes:
 *
 *     stack BYTES            all calls but dumyroke_measure
 *     stack BYTES measure    dumyroke_measure
 *
 * A stack that is too small ends the program by a signal. */
#include <pthread.h>
#include <stdlib.h>
#include <string.h>

#include "dumyroke.h"

enum { LEVELS = 500, ROOM = 1 << 22 };

static char text[ROOM];
static uint8_t formatted[ROOM];
static dumyroke_operation operations[1];
static dumyroke_violation violations[16];

/* The beginning of a text, what each level opens and closes, what is in the middle, and the end. */
static const struct {
    const char *before, *open, *middle, *close, *after;
    int levels;
} SHAPES[] = {
    {"", "{a", "", "}", "", LEVELS},
    {"{", "...{", "a", "}", "}", LEVELS - 1},
    {"{a(b:", "[", "", "]", ")}", LEVELS - 1},
    {"{a(b:", "{c:", "1", "}", ")}", LEVELS - 1},
    {"query($a:T=", "[", "", "]", "){a}", LEVELS - 1},
    {"query($a:", "[", "T", "]", "){a}", LEVELS - 1},
    {"type A{a:", "[", "T", "]", "}", LEVELS - 1},
    {"", "[", "T", "]", "", LEVELS - 1},
};

static size_t repeat(size_t at, const char *part, int count)
{
    size_t length = strlen(part);
    while (count-- > 0) {
        memcpy(text + at, part, length);
        at += length;
    }
    return at;
}

static size_t write_shape(size_t i)
{
    size_t at = repeat(0, SHAPES[i].before, 1);
    at = repeat(at, SHAPES[i].open, SHAPES[i].levels);
    at = repeat(at, SHAPES[i].middle, 1);
    at = repeat(at, SHAPES[i].close, SHAPES[i].levels);
    return repeat(at, SHAPES[i].after, 1);
}

static void call_measure(size_t length)
{
    dumyroke_measure_counts counts;
    dumyroke_measure((const uint8_t *)text, length, dumyroke_default_limits(), operations, 1, &counts);
}

static void call_others(size_t length)
{
    const uint8_t *source = (const uint8_t *)text;
    dumyroke_limits limits = dumyroke_default_limits();
    dumyroke_counts counts;
    dumyroke_violation_counts found;
    size_t bytes;
    dumyroke_parse(source, length, limits, NULL, 0, NULL, 0, NULL, 0, &counts);
    dumyroke_parse_selection_set(source, length, limits, NULL, 0, NULL, 0, NULL, 0, &counts);
    dumyroke_parse_type(source, length, limits, NULL, 0, NULL, 0, NULL, 0, &counts);
    dumyroke_format(source, length, limits, formatted, ROOM, &bytes);
    dumyroke_validate(source, length, limits, 16, dumyroke_default_steps(length), violations, 16, NULL, 0, &found);
}

/* Calls with each shape. `measured` is NULL for all calls but dumyroke_measure. */
static void *call_each(void *measured)
{
    size_t i;
    for (i = 0; i < sizeof SHAPES / sizeof *SHAPES; i++)
        (measured ? call_measure : call_others)(write_shape(i));
    return NULL;
}

int main(int count, char **words)
{
    pthread_t thread;
    pthread_attr_t attributes;
    return count < 2 || pthread_attr_init(&attributes) || pthread_attr_setstacksize(&attributes, strtoul(words[1], NULL, 10))
        || pthread_create(&thread, &attributes, call_each, words[2]) || pthread_join(thread, NULL);
}
