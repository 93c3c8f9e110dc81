/* The calls where one request for memory is refused, whichever it is: they say so. The program is linked with the static library and
 * `-Wl,--wrap=malloc,--wrap=realloc`. Ends with status 1 at the first wrong answer. */
#include <stdlib.h>
#include <string.h>

#include "dumyroke.h"

enum { FIELDS = 3000, ROOM = 4 * FIELDS };

void *__real_malloc(size_t size);
void *__real_realloc(void *block, size_t size);
void *__wrap_malloc(size_t size);
void *__wrap_realloc(void *block, size_t size);

/* How many requests are granted before one is refused. Those after it are granted, too. */
static size_t granted = SIZE_MAX;
static char text[ROOM];
static uint8_t bytes[ROOM];

void *__wrap_malloc(size_t size)
{
    return granted-- ? __real_malloc(size) : NULL;
}

void *__wrap_realloc(void *block, size_t size)
{
    return granted-- ? __real_realloc(block, size) : NULL;
}

static uint32_t parse(const uint8_t *source, size_t length)
{
    dumyroke_counts counts;
    return dumyroke_parse(source, length, dumyroke_default_limits(), NULL, 0, NULL, 0, NULL, 0, &counts);
}

static uint32_t format(const uint8_t *source, size_t length)
{
    size_t count;
    return dumyroke_format(source, length, dumyroke_default_limits(), bytes, ROOM, &count);
}

static uint32_t validate(const uint8_t *source, size_t length)
{
    dumyroke_violation_counts counts;
    return dumyroke_validate(source, length, dumyroke_default_limits(), 1, dumyroke_default_steps(length), NULL, 0, NULL, 0, &counts);
}

static uint32_t measure(const uint8_t *source, size_t length)
{
    dumyroke_measure_counts counts;
    return dumyroke_measure(source, length, dumyroke_default_limits(), NULL, 0, &counts);
}

/* How many requests a call makes, or 0 if it answers wrong where one of them is refused. */
static size_t requests(uint32_t (*call)(const uint8_t *source, size_t length))
{
    size_t count = 0;
    uint32_t status;
    do {
        granted = count++;
        status = call((const uint8_t *)text, strlen(text));
    } while (granted > count && status == DUMYROKE_NO_MEMORY);
    return granted > count || status != DUMYROKE_OK ? 0 : count - 1;
}

int main(void)
{
    size_t i;
    for (i = 0; i < FIELDS; i++)
        memcpy(text + 2 * i, i ? "a " : "{ ", 2);
    text[2 * FIELDS] = '}';
    return !(requests(parse) > 2 && requests(format) > 2 && requests(validate) > 2 && requests(measure) > 2);
}
