/* What is tried on each text, for libFuzzer: `bench/fuzz.py` says how. It is C and C++.
 *
 * The first four bytes choose the limits and the rooms, and the rest is the text. Each buffer ends where a page begins that nobody may touch. A wrong
 * answer ends the run. */
#include <stdio.h>
#include <stdlib.h>
#include <string.h>
#include <sys/mman.h>
#include <unistd.h>

#include "dumyroke.h"
#include "dumyroke_kinds.h"
#include "dumyroke_tree.h"

#ifdef __cplusplus
extern "C"
#endif
int LLVMFuzzerTestOneInput(const uint8_t *data, size_t size);

#define WANT(condition) ((condition) ? (void)0 : wrong(#condition, __LINE__))

static void wrong(const char *condition, int line)
{
    fprintf(stderr, "target.c:%d: not so: %s\n", line, condition);
    abort();
}

static size_t least(size_t a, size_t b) { return a < b ? a : b; }

/* Memory that ends in front of a page that nobody may touch. What is in front of it has a known byte, as the memory itself. */
enum { PLACES = 4, MOST = 1 << 25, FRONT = 64, KNOWN = 0xA5 };
static uint8_t *page_after[PLACES];

static void make_places(void)
{
    size_t page = (size_t)sysconf(_SC_PAGESIZE);
    int i;
    for (i = 0; i < PLACES; i++) {
        void *memory = mmap(NULL, MOST + page, PROT_READ | PROT_WRITE, MAP_PRIVATE | MAP_ANONYMOUS | MAP_NORESERVE, -1, 0);
        WANT(memory != MAP_FAILED);
        page_after[i] = (uint8_t *)memory + MOST;
        WANT(!mprotect(page_after[i], page, PROT_NONE));
    }
}

static uint8_t *room_at(int place, size_t bytes)
{
    uint8_t *room = page_after[place] - bytes;
    WANT(bytes + FRONT <= MOST);
    memset(room - FRONT, KNOWN, bytes + FRONT);
    return room;
}

/* Whether nothing in front of the memory was written, and nothing of it from a byte on. */
static int is_left(int place, size_t bytes, size_t from)
{
    const uint8_t *room = page_after[place] - bytes, *at;
    for (at = room - FRONT; at < room; at++)
        if (*at != KNOWN)
            return 0;
    for (at = room + least(from, bytes); at < room + bytes; at++)
        if (*at != KNOWN)
            return 0;
    return 1;
}

/* The bytes of the character that begins a text in UTF-8 (RFC 3629, section 4), or 0 if none does. */
static size_t character(const uint8_t *text, size_t length)
{
    static const uint8_t low[] = {0x80, 0xA0, 0x80, 0x90, 0x80}, high[] = {0xBF, 0xBF, 0x9F, 0xBF, 0x8F};
    uint8_t first = text[0];
    size_t more = first < 0x80 ? 0 : first < 0xE0 ? 1 : first < 0xF0 ? 2 : 3, i;
    int row = first == 0xE0 ? 1 : first == 0xED ? 2 : first == 0xF0 ? 3 : first == 0xF4 ? 4 : 0;
    if ((first >= 0x80 && first < 0xC2) || first > 0xF4 || more >= length)
        return 0;
    for (i = 1; i <= more; i++)
        if (text[i] < (i == 1 ? low[row] : 0x80) || text[i] > (i == 1 ? high[row] : 0xBF))
            return 0;
    return more + 1;
}

static int is_utf8(const uint8_t *text, size_t length)
{
    size_t at = 0, bytes;
    for (; at < length; at += bytes)
        if (!(bytes = character(text + at, length - at)))
            return 0;
    return 1;
}

typedef uint32_t parse_call(const uint8_t *, size_t, dumyroke_limits, dumyroke_element *, size_t, dumyroke_error *, size_t, uint8_t *, size_t,
                            dumyroke_counts *);

/* Errors lie in the text, and their messages among the messages. */
static void try_errors(const dumyroke_tree *tree, size_t length)
{
    const dumyroke_error *error = tree->errors, *end = error + tree->counts.errors;
    for (; error < end; error++) {
        WANT(error->start <= error->end && error->end <= length && error->is_limit <= 1 && error->is_eof <= 1);
        WANT(error->message <= tree->counts.message_bytes && error->message_length <= tree->counts.message_bytes - error->message);
        WANT(is_utf8(tree->messages + error->message, error->message_length));
    }
}

/* The leaves join to the text of the tree, and each element is a child of its parent. */
static void try_tree(const dumyroke_tree *tree)
{
    uint32_t count = (uint32_t)tree->counts.elements, index, at = 0;
    WANT(count > 0 && dumyroke_after(tree, 0) == count && dumyroke_end_of(tree, 0) == tree->counts.text_bytes);
    for (index = 0; index < count; index++) {
        uint32_t parent = dumyroke_parent_of(tree, index), start = dumyroke_start_of(tree, index), end = dumyroke_end_of(tree, index);
        WANT(start == at && start <= end && dumyroke_kind_of(tree, index) < 256 && dumyroke_size_of(tree, index) > 0);
        if (index)
            WANT(parent < index && dumyroke_is_node(tree, parent) && dumyroke_after(tree, index) <= dumyroke_after(tree, parent));
        if (!dumyroke_is_node(tree, index)) {
            WANT(dumyroke_size_of(tree, index) == 1);
            at = end;
        }
    }
    WANT(at == tree->counts.text_bytes);
}

/* A call without room, with all of the room and with some of it says the same, and writes no more than that. */
static dumyroke_counts try_parse(parse_call *parse, const uint8_t *text, size_t length, dumyroke_limits limits, uint8_t shape)
{
    dumyroke_counts counts, again;
    dumyroke_tree tree;
    size_t element_bytes, error_bytes, rows;
    uint32_t status = parse(text, length, limits, NULL, 0, NULL, 0, NULL, 0, &counts);
    WANT(status == counts.status && (status == DUMYROKE_NOT_UTF8) == !is_utf8(text, length) && status <= DUMYROKE_NOT_UTF8);
    if (status != DUMYROKE_OK)
        return counts;
    element_bytes = counts.elements * sizeof(dumyroke_element);
    error_bytes = counts.errors * sizeof(dumyroke_error);
    tree.text = (const char *)text;
    tree.elements = (dumyroke_element *)room_at(1, element_bytes);
    tree.errors = (dumyroke_error *)room_at(2, error_bytes);
    tree.messages = room_at(3, counts.message_bytes);
    parse(text, length, limits, tree.elements, counts.elements, tree.errors, counts.errors, tree.messages, counts.message_bytes, &tree.counts);
    WANT(!memcmp(&counts, &tree.counts, sizeof counts) && is_left(1, element_bytes, element_bytes) && is_left(2, error_bytes, error_bytes));
    WANT(counts.text_bytes <= length && counts.recursion_high <= (limits.recursion == SIZE_MAX ? SIZE_MAX : limits.recursion + 1));
    WANT(limits.tokens == SIZE_MAX || counts.token_high <= limits.tokens + 1);
    try_errors(&tree, length);
    try_tree(&tree);
    if (shape & 1) {
        rows = counts.elements * (shape >> 1) / 128;
        uint8_t *some = room_at(0, rows * sizeof(dumyroke_element));
        parse(text, length, limits, (dumyroke_element *)some, rows, NULL, 0, NULL, 0, &again);
        WANT(!memcmp(&counts, &again, sizeof counts) && !memcmp(some, tree.elements, least(rows, counts.elements) * sizeof(dumyroke_element)));
        WANT(is_left(0, rows * sizeof(dumyroke_element), counts.elements * sizeof(dumyroke_element)));
    }
    return counts;
}

/* The items join to the text, or to its first ones at the limit. */
static void try_lex(const uint8_t *text, size_t length, size_t limit)
{
    dumyroke_counts counts;
    size_t i, at = 0, errors = 0;
    if (dumyroke_lex(text, length, limit, NULL, 0, NULL, 0, NULL, 0, &counts) != DUMYROKE_OK)
        return;
    dumyroke_item *items = (dumyroke_item *)room_at(0, counts.elements * sizeof *items);
    dumyroke_lex(text, length, limit, items, counts.elements, NULL, 0, NULL, 0, &counts);
    WANT(counts.elements > 0);
    for (i = 0; i < counts.elements; i++) {
        int is_last = i + 1 == counts.elements;
        WANT(items[i].start == (is_last && items[i].is_error ? items[i].start : at) && items[i].start <= items[i].end);
        WANT(is_last ? items[i].start == items[i].end : items[i].start < items[i].end);
        at = items[i].end;
        errors += items[i].is_error;
        if (items[i].kind == DUMYROKE_STRING && !items[i].is_error) {
            size_t bytes, again, room = items[i].end - items[i].start;
            WANT(dumyroke_string_value(text + items[i].start, room, NULL, 0, &bytes) == DUMYROKE_OK && bytes <= room);
            uint8_t *value = room_at(1, bytes);
            WANT(dumyroke_string_value(text + items[i].start, room, value, bytes, &again) == DUMYROKE_OK && again == bytes && is_utf8(value, bytes));
        }
    }
    WANT(errors == counts.errors && (counts.elements <= limit || items[counts.elements - 1].is_error));
}

/* A document has a layout, which is its own, and nothing else has one. */
static void try_format(const uint8_t *text, size_t length, dumyroke_limits limits, size_t errors)
{
    static const dumyroke_limits wide = {SIZE_MAX, SIZE_MAX};
    size_t bytes, again;
    size_t room = 2 * length + 16;
    uint32_t status;
    do {
        status = dumyroke_format(text, length, limits, room_at(1, room), room, &bytes);
        WANT(errors ? status == DUMYROKE_NOT_A_DOCUMENT : status == DUMYROKE_OK || status == DUMYROKE_NO_ROOM);
        WANT(status == DUMYROKE_OK ? bytes <= room : bytes == 0 && is_left(1, room, 0));
        room *= 4;
    } while (status == DUMYROKE_NO_ROOM && room <= MOST / 4);
    if (status != DUMYROKE_OK)
        return;
    WANT(dumyroke_format(text, length, limits, room_at(1, bytes - 1), bytes - 1, &again) == DUMYROKE_NO_ROOM && is_left(1, bytes - 1, 0));
    uint8_t *formatted = room_at(1, bytes);
    WANT(dumyroke_format(text, length, limits, formatted, bytes, &again) == DUMYROKE_OK && again == bytes && is_utf8(formatted, bytes));
    uint8_t *twice = room_at(2, bytes);
    WANT(dumyroke_format(formatted, bytes, wide, twice, bytes, &again) == DUMYROKE_OK && again == bytes && !memcmp(formatted, twice, bytes));
}

/* What is found lies in the text. */
static void try_rules(const uint8_t *text, size_t length, dumyroke_limits limits, size_t errors, size_t most, size_t steps)
{
    dumyroke_violation_counts found, again;
    dumyroke_measure_counts measured;
    uint32_t status = dumyroke_validate(text, length, limits, most, steps, NULL, 0, NULL, 0, &found);
    size_t i;
    WANT(errors ? status == DUMYROKE_NOT_A_DOCUMENT : status == DUMYROKE_OK || (status == DUMYROKE_UNDECIDED && found.violations < most && steps < SIZE_MAX));
    WANT(found.violations <= most && found.undecided_end <= length && (found.undecided_start < found.undecided_end) == (status == DUMYROKE_UNDECIDED));
    dumyroke_violation *rows = (dumyroke_violation *)room_at(1, found.violations * sizeof *rows);
    uint8_t *messages = room_at(2, found.message_bytes);
    dumyroke_validate(text, length, limits, most, steps, rows, found.violations, messages, found.message_bytes, &again);
    WANT(!memcmp(&found, &again, sizeof found) && is_utf8(messages, found.message_bytes));
    for (i = 0; i < found.violations; i++)
        WANT(rows[i].start < rows[i].end && rows[i].end <= length && rows[i].other_end <= length);
    status = dumyroke_measure(text, length, limits, NULL, 0, &measured);
    WANT(errors ? status == DUMYROKE_NOT_A_DOCUMENT : status == DUMYROKE_OK || status >= DUMYROKE_SAME_NAME);
    if (status == DUMYROKE_OK) {
        dumyroke_operation *operations = (dumyroke_operation *)room_at(1, measured.operations * sizeof *operations);
        dumyroke_measure(text, length, limits, operations, measured.operations, &measured);
        for (i = 0; i < measured.operations; i++)
            WANT(operations[i].start < operations[i].end && operations[i].end <= length && operations[i].depth <= operations[i].fields);
    }
}

int LLVMFuzzerTestOneInput(const uint8_t *data, size_t size)
{
    static const size_t recursions[] = {500, 500, 500, 500, 0, 1, 2, 3}, tokens[] = {SIZE_MAX, SIZE_MAX, SIZE_MAX, 0};
    if (!page_after[0])
        make_places();
    if (size < 4)
        return 0;
    dumyroke_limits limits;
    limits.recursion = recursions[data[0] & 7];
    limits.tokens = tokens[data[0] >> 3 & 3] ? SIZE_MAX : data[1];
    size_t length = size - 4;
    uint8_t *text = (uint8_t *)malloc(length ? length : 1);
    WANT(text);
    memcpy(text, data + 4, length);
    dumyroke_counts counts = try_parse(dumyroke_parse, text, length, limits, data[2]);
    try_parse(dumyroke_parse_selection_set, text, length, limits, data[2]);
    try_parse(dumyroke_parse_type, text, length, limits, data[2]);
    if (counts.status == DUMYROKE_OK) {
        try_lex(text, length, limits.tokens);
        try_format(text, length, limits, counts.errors);
        try_rules(text, length, limits, counts.errors, data[3], data[0] >> 5 ? SIZE_MAX : data[1]);
    }
    free(text);
    return 0;
}
