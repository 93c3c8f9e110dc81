/* Writes all that calls of dumyroke.h answer, so that two platforms can be compared byte for byte:
 *
 *     answers CALL.. < TEXTS
 *
 * A call has its name without `dumyroke_`. TEXTS has, again and again, three numbers of 64 bits, the lowest byte first: the recursion limit, the token limit
 * and the length of a text. Then comes the text. Of each call there are, in this order, its result and its counts as they lie in memory, its rows and its
 * bytes. The status is 3 where there is more than there is room for. */
#include <stdint.h>
#include <stdio.h>
#include <stdlib.h>
#include <string.h>
#ifdef _WIN32
#include <fcntl.h>
#include <io.h>
#endif

#include "dumyroke.h"

enum { ROWS = 1 << 18, BYTES = 1 << 22 };

static struct {
    uint64_t recursion, tokens, length;
} head;
static uint8_t text[BYTES], bytes[BYTES];
static union {
    dumyroke_element elements[ROWS];
    dumyroke_item items[ROWS];
    dumyroke_violation violations[ROWS];
    dumyroke_operation operations[ROWS];
} rows;
static dumyroke_error errors[ROWS];

static dumyroke_limits limits(void)
{
    dumyroke_limits given;
    given.recursion = head.recursion;
    given.tokens = head.tokens;
    return given;
}

/* Writes so many rows or bytes, for which there is room up to `room`. */
static void put(const void *from, size_t size, size_t count, size_t room)
{
    if (count > room)
        exit(3);
    if (fwrite(from, size, count, stdout) != count)
        exit(1);
}

static void put_counts(uint32_t result, const void *counts, size_t size)
{
    put(&result, sizeof result, 1, 1);
    put(counts, size, 1, 1);
}

static void put_parsed(uint32_t result, const dumyroke_counts *counts)
{
    put_counts(result, counts, offsetof(dumyroke_counts, status));
    put(rows.elements, sizeof *rows.elements, counts->elements, ROWS);
    put(errors, sizeof *errors, counts->errors, ROWS);
    put(bytes, 1, counts->message_bytes, BYTES);
}

static void parse(void)
{
    dumyroke_counts counts;
    put_parsed(dumyroke_parse(text, head.length, limits(), rows.elements, ROWS, errors, ROWS, bytes, BYTES, &counts), &counts);
}

static void parse_selection_set(void)
{
    dumyroke_counts counts;
    put_parsed(dumyroke_parse_selection_set(text, head.length, limits(), rows.elements, ROWS, errors, ROWS, bytes, BYTES, &counts), &counts);
}

static void parse_type(void)
{
    dumyroke_counts counts;
    put_parsed(dumyroke_parse_type(text, head.length, limits(), rows.elements, ROWS, errors, ROWS, bytes, BYTES, &counts), &counts);
}

/* An item has as many bytes as an element. */
static void lex(void)
{
    dumyroke_counts counts;
    put_parsed(dumyroke_lex(text, head.length, head.tokens, rows.items, ROWS, errors, ROWS, bytes, BYTES, &counts), &counts);
}

static void string_value(void)
{
    size_t count;
    put_counts(dumyroke_string_value(text, head.length, bytes, BYTES, &count), &count, sizeof count);
    put(bytes, 1, count, BYTES);
}

static void format(void)
{
    size_t count;
    put_counts(dumyroke_format(text, head.length, limits(), bytes, BYTES, &count), &count, sizeof count);
    put(bytes, 1, count, BYTES);
}

static void validate(void)
{
    dumyroke_violation_counts counts;
    size_t steps = dumyroke_default_steps(head.length);
    put_counts(dumyroke_validate(text, head.length, limits(), ROWS, steps, rows.violations, ROWS, bytes, BYTES, &counts), &counts,
               offsetof(dumyroke_violation_counts, status));
    put(rows.violations, sizeof *rows.violations, counts.violations, ROWS);
    put(bytes, 1, counts.message_bytes, BYTES);
}

static void measure(void)
{
    dumyroke_measure_counts counts;
    put_counts(dumyroke_measure(text, head.length, limits(), rows.operations, ROWS, &counts), &counts, offsetof(dumyroke_measure_counts, status));
    put(rows.operations, sizeof *rows.operations, counts.operations, ROWS);
}

static const struct {
    const char *name;
    void (*answer)(void);
} CALLS[] = {{"parse", parse},
             {"parse_selection_set", parse_selection_set},
             {"parse_type", parse_type},
             {"lex", lex},
             {"string_value", string_value},
             {"format", format},
             {"validate", validate},
             {"measure", measure}};

static void answer(const char *name)
{
    size_t i = 0;
    while (i < sizeof CALLS / sizeof *CALLS && strcmp(CALLS[i].name, name))
        i++;
    if (i == sizeof CALLS / sizeof *CALLS)
        exit(2);
    CALLS[i].answer();
}

static void answer_all(char **names)
{
    if (head.length > BYTES || fread(text, 1, head.length, stdin) != head.length)
        exit(3);
    while (*names)
        answer(*names++);
}

int main(int count, char **words)
{
    (void)count;
#ifdef _WIN32
    _setmode(0, _O_BINARY);
    _setmode(1, _O_BINARY);
#endif
    while (fread(&head, sizeof head, 1, stdin))
        answer_all(words + 1);
    return fclose(stdout) ? 1 : 0;
}
