/* Calls at the edges: no text, no room, too little room, texts that are not UTF-8, strings that are none, parts of documents, items, both limits,
 * violations of rules, steps of validation, figures of operations, large numbers.
 * Ends with status 1 at the first check that fails, and says which. */
#include <stdio.h>
#include <time.h>

#include "dumyroke_kinds.h"
#include "dumyroke_tree.h"

#define CHECK(condition) \
    do { \
        if (!(condition)) { \
            fprintf(stderr, "%s:%d: failed: %s\n", __FILE__, __LINE__, #condition); \
            exit(1); \
        } \
    } while (0)

/* What a buffer holds before a call. */
enum { UNTOUCHED = 0xee };

/* What `start_and_node` has more for a node. */
static const uint32_t NODE = 0x80000000;

static const uint8_t *bytes_of(const char *text)
{
    return (const uint8_t *)text;
}

static uint32_t check(const char *text, size_t length, size_t recursion, size_t tokens, dumyroke_counts *counts)
{
    dumyroke_limits limits = {recursion, tokens};
    memset(counts, UNTOUCHED, sizeof *counts);
    return dumyroke_parse(bytes_of(text), length, limits, NULL, 0, NULL, 0, NULL, 0, counts);
}

static void counts_of_texts(void)
{
    dumyroke_counts counts;
    CHECK(check(NULL, 0, 500, SIZE_MAX, &counts) == DUMYROKE_OK);
    CHECK(counts.status == DUMYROKE_OK && counts.elements == 1 && counts.text_bytes == 0 && counts.errors == 1);
    CHECK(check("{a}", 3, 500, SIZE_MAX, &counts) == DUMYROKE_OK);
    CHECK(counts.elements == 8 && counts.text_bytes == 3 && counts.errors == 0 && counts.message_bytes == 0);
    CHECK(counts.recursion_high == 1 && counts.token_high == 4);
    CHECK(check("{a}\0", 4, 500, SIZE_MAX, &counts) == DUMYROKE_OK && counts.errors == 1);
}

static void counts_at_limits(void)
{
    dumyroke_counts counts;
    CHECK(check("{a{b}}", 6, 2, SIZE_MAX, &counts) == DUMYROKE_OK && counts.errors == 0 && counts.recursion_high == 2);
    CHECK(check("{a{b}}", 6, 1, SIZE_MAX, &counts) == DUMYROKE_OK && counts.errors == 1 && counts.recursion_high == 2);
    CHECK(check("{a{b}}", 6, 500, 7, &counts) == DUMYROKE_OK && counts.errors == 0 && counts.token_high == 7);
    CHECK(check("{a{b}}", 6, 500, 3, &counts) == DUMYROKE_OK && counts.errors == 1 && counts.token_high == 4 && counts.text_bytes == 3);
}

/* A text that nests far deeper than the limit takes no more stack than the limit allows. */
static void deeper_than_the_limit(void)
{
    static char text[200000];
    dumyroke_counts counts;
    size_t i;
    for (i = 0; i < sizeof text; i++)
        text[i] = i % 2 ? 'a' : '{';
    CHECK(check(text, sizeof text, 500, SIZE_MAX, &counts) == DUMYROKE_OK && counts.errors > 0 && counts.recursion_high == 501);
}

typedef uint32_t part_call(const uint8_t *, size_t, dumyroke_limits, dumyroke_element *, size_t, dumyroke_error *, size_t, uint8_t *, size_t,
                           dumyroke_counts *);

/* The root of a part, and its counts. */
static uint32_t part(part_call *call, const char *text, size_t recursion, size_t tokens, dumyroke_element *root, dumyroke_counts *counts)
{
    dumyroke_limits limits = {recursion, tokens};
    memset(root, UNTOUCHED, sizeof *root);
    memset(counts, UNTOUCHED, sizeof *counts);
    return call(bytes_of(text), strlen(text), limits, root, 1, NULL, 0, NULL, 0, counts);
}

/* The borders at which a limit may become another number, and their neighbours. What C makes of -1 is the last one. */
static const size_t large[] = {
    0x7fffffff, 0x80000000, 0x80000001, 0xffffffff, 0x100000000, 0x100000001, 0x1fffffffffffff, 0x20000000000000, 0x20000000000001,
    0x7fffffffffffffff, 0x8000000000000000, 0x8000000000000001, SIZE_MAX - 1, SIZE_MAX, (size_t)-1};

/* A limit of 31 to 64 bits is itself in each call, so nothing meets it. */
static void large_limits(void)
{
    const uint8_t *text = bytes_of("{ a { b } ...F ...G }");
    dumyroke_counts counts, usual;
    dumyroke_violation_counts found;
    dumyroke_element root;
    size_t i;
    CHECK(check("{ a { b } }", 11, 500, SIZE_MAX, &usual) == DUMYROKE_OK && usual.errors == 0);
    for (i = 0; i < sizeof large / sizeof *large; i++) {
        dumyroke_limits limits = {large[i], large[i]};
        size_t bytes;
        CHECK(check("{ a { b } }", 11, large[i], large[i], &counts) == DUMYROKE_OK);
        CHECK(!memcmp(&counts, &usual, offsetof(dumyroke_counts, status)));
        CHECK(part(dumyroke_parse_type, "[A]", large[i], large[i], &root, &counts) == DUMYROKE_OK && counts.errors == 0 && counts.text_bytes == 3);
        CHECK(part(dumyroke_parse_selection_set, "{a}", large[i], large[i], &root, &counts) == DUMYROKE_OK && counts.errors == 0);
        CHECK(dumyroke_lex(text, 21, large[i], NULL, 0, NULL, 0, NULL, 0, &counts) == DUMYROKE_OK && counts.elements == 18 && counts.errors == 0);
        CHECK(dumyroke_validate(text, 21, limits, large[i], large[i], NULL, 0, NULL, 0, &found) == DUMYROKE_OK && found.violations == 2);
        CHECK(dumyroke_format(text, 21, limits, NULL, 0, &bytes) == DUMYROKE_NO_ROOM);
    }
}

static void not_utf8(void)
{
    static const char *const texts[] = {"{\xff}", "{\xc3}", "{\xed\xa0\x80}", "{\xc0\x80}", "{\xf4\x90\x80\x80}"};
    dumyroke_counts counts, none = {0, 0, 0, 0, 0, 0, DUMYROKE_NOT_UTF8};
    dumyroke_element root;
    dumyroke_item item = {0, 0, 0, 0};
    size_t i, bytes;
    for (i = 0; i < sizeof texts / sizeof *texts; i++) {
        CHECK(check(texts[i], strlen(texts[i]), 500, SIZE_MAX, &counts) == DUMYROKE_NOT_UTF8);
        CHECK(!memcmp(&counts, &none, offsetof(dumyroke_counts, status)) && counts.status == none.status);
    }
    bytes = UNTOUCHED;
    CHECK(dumyroke_string_value(bytes_of("\"\xff\""), 3, NULL, 0, &bytes) == DUMYROKE_NOT_UTF8 && bytes == 0);
    bytes = UNTOUCHED;
    CHECK(dumyroke_format(bytes_of("{\xff}"), 3, dumyroke_default_limits(), NULL, 0, &bytes) == DUMYROKE_NOT_UTF8 && bytes == 0);
    CHECK(part(dumyroke_parse_selection_set, "{\xff}", 500, SIZE_MAX, &root, &counts) == DUMYROKE_NOT_UTF8 && !counts.elements);
    CHECK(part(dumyroke_parse_type, "\xff", 500, SIZE_MAX, &root, &counts) == DUMYROKE_NOT_UTF8 && root.kind == UNTOUCHED);
    CHECK(dumyroke_lex(bytes_of("a\xff"), 2, SIZE_MAX, &item, 1, NULL, 0, NULL, 0, &counts) == DUMYROKE_NOT_UTF8 && !counts.elements && item.kind == 0);
}

/* `{ hero(id) { name }` has 23 elements and 2 errors with messages of 46 bytes. What is after the room stays. */
static void too_little_room(void)
{
    const char *text = "{ hero(id) { name }";
    dumyroke_element elements[4], untouched_element;
    dumyroke_error errors[2], untouched_error;
    uint8_t messages[7];
    dumyroke_counts counts;
    memset(elements, UNTOUCHED, sizeof elements);
    memset(errors, UNTOUCHED, sizeof errors);
    memset(messages, UNTOUCHED, sizeof messages);
    memset(&untouched_element, UNTOUCHED, sizeof untouched_element);
    memset(&untouched_error, UNTOUCHED, sizeof untouched_error);
    CHECK(dumyroke_parse(bytes_of(text), strlen(text), dumyroke_default_limits(), elements, 3, errors, 1, messages, 6, &counts) == DUMYROKE_OK);
    CHECK(counts.status == DUMYROKE_OK && counts.elements == 23 && counts.errors == 2 && counts.message_bytes == 46);
    CHECK(counts.recursion_high == 2 && counts.token_high == 13);
    CHECK(counts.text_bytes == 19 && elements[0].kind == DUMYROKE_DOCUMENT && elements[2].kind == DUMYROKE_SELECTION_SET);
    CHECK(elements[0].start_and_node == NODE && elements[0].size_and_parent == 16 * 23 && !elements[0].parent_low && !elements[0].parent_middle);
    CHECK(elements[2].start_and_node == NODE && elements[2].size_and_parent == 16 * 21 && elements[2].parent_low == 1 && !elements[2].parent_middle);
    CHECK(errors[0].start == 9 && errors[0].end == 10 && errors[0].message == 0 && errors[0].message_length == 21);
    CHECK(!errors[0].is_limit && !errors[0].is_eof && !memcmp(messages, "expect", 6) && messages[6] == UNTOUCHED);
    CHECK(!memcmp(&elements[3], &untouched_element, sizeof untouched_element));
    CHECK(!memcmp(&errors[1], &untouched_error, sizeof untouched_error));
}

static void errors_of_a_text(void)
{
    const char *text = "{ hero(id) { name }";
    dumyroke_tree tree;
    dumyroke_slice message;
    dumyroke_position position;
    CHECK(dumyroke_tree_parse(&tree, text, strlen(text), dumyroke_default_limits()) == DUMYROKE_OK);
    CHECK(tree.counts.errors == 2 && tree.errors[1].is_eof && tree.errors[1].start == 19 && tree.errors[1].end == 19);
    message = dumyroke_message_of(&tree, &tree.errors[1]);
    CHECK(message.length == 25 && !memcmp(message.start, "expected R_CURLY, got EOF", 25));
    position = dumyroke_position_of(&tree, tree.errors[1].start);
    CHECK(position.line == 1 && position.column == 20);
    dumyroke_tree_free(&tree);
    dumyroke_tree_free(&tree);
}

static void positions(void)
{
    const char *text = "a\r\nb\rc\nd";
    dumyroke_tree tree;
    dumyroke_position position;
    CHECK(dumyroke_tree_parse(&tree, text, strlen(text), dumyroke_default_limits()) == DUMYROKE_OK);
    position = dumyroke_position_of(&tree, 3);
    CHECK(position.line == 2 && position.column == 1);
    position = dumyroke_position_of(&tree, 7);
    CHECK(position.line == 4 && position.column == 1);
    position = dumyroke_position_of(&tree, 2);
    CHECK(position.line == 1 && position.column == 3);
    dumyroke_tree_free(&tree);
}

/* Each place of a text has the position by its lines that it has without them. */
static void lines_of_texts(void)
{
    static const char *const texts[] = {"", "a", "\n", "\r", "\r\n", "\n\r", "\r\r\n\n", "a\r\nb\rc\nd", "a\n\n\nb\n", "\r\n\r\n{a}\r"};
    size_t i, offset;
    for (i = 0; i < sizeof texts / sizeof *texts; i++) {
        dumyroke_tree tree;
        dumyroke_lines lines;
        CHECK(dumyroke_tree_parse(&tree, texts[i], strlen(texts[i]), dumyroke_default_limits()) == DUMYROKE_OK && dumyroke_lines_of(&lines, &tree));
        for (offset = 0; offset <= strlen(texts[i]); offset++) {
            dumyroke_position one = dumyroke_position_of(&tree, offset), other = dumyroke_position_in(&lines, offset);
            CHECK(one.line == other.line && one.column == other.column);
        }
        CHECK(dumyroke_position_in(&lines, strlen(texts[i])).line == lines.count);
        dumyroke_lines_free(&lines);
        dumyroke_lines_free(&lines);
        dumyroke_tree_free(&tree);
    }
}

/* 100,000 errors, each in a line of its own, have their positions at once. By reading the text up to each it would take a minute. */
static void positions_of_many_errors(void)
{
    static const char line[] = "{ a(x) }\n";
    enum { LINES = 100000, BYTES = sizeof line - 1 };
    static char text[BYTES * LINES];
    size_t i;
    clock_t started;
    dumyroke_tree tree;
    dumyroke_lines lines;
    for (i = 0; i < LINES; i++)
        memcpy(text + BYTES * i, line, BYTES);
    CHECK(dumyroke_tree_parse(&tree, text, sizeof text, dumyroke_default_limits()) == DUMYROKE_OK && tree.counts.errors == LINES);
    started = clock();
    CHECK(dumyroke_lines_of(&lines, &tree) && lines.count == LINES + 1);
    for (i = 0; i < LINES; i++) {
        dumyroke_position at = dumyroke_position_in(&lines, tree.errors[i].start);
        CHECK(at.line == i + 1 && at.column == 6);
    }
    CHECK(clock() - started < 5 * CLOCKS_PER_SEC);
    dumyroke_lines_free(&lines);
    dumyroke_tree_free(&tree);
}

/* `{a,a,..}` has more elements than the first guess, and `!!..` more errors and messages. */
static void larger_than_the_first_guess(void)
{
    char text[20001];
    size_t i;
    uint32_t last;
    dumyroke_tree tree;
    for (i = 0; i < sizeof text; i++)
        text[i] = i == 0 ? '{' : i == sizeof text - 1 ? '}' : i % 2 ? 'a' : ',';
    CHECK(dumyroke_tree_parse(&tree, text, sizeof text, dumyroke_default_limits()) == DUMYROKE_OK);
    CHECK(tree.counts.errors == 0 && tree.counts.elements > sizeof text);
    last = (uint32_t)tree.counts.elements - 1;
    CHECK(dumyroke_kind_of(&tree, last) == DUMYROKE_R_CURLY && dumyroke_end_of(&tree, last) == sizeof text);
    dumyroke_tree_free(&tree);
    memset(text, '!', sizeof text);
    CHECK(dumyroke_tree_parse(&tree, text, sizeof text, dumyroke_default_limits()) == DUMYROKE_OK);
    CHECK(tree.counts.errors > 16 && tree.counts.message_bytes > 1024);
    CHECK(tree.errors[tree.counts.errors - 1].message + tree.errors[tree.counts.errors - 1].message_length == tree.counts.message_bytes);
    dumyroke_tree_free(&tree);
}

static void children(void)
{
    const char *text = "{ a b }";
    dumyroke_tree tree;
    dumyroke_slice name;
    uint32_t set, field, count = 0;
    CHECK(dumyroke_tree_parse(&tree, text, strlen(text), dumyroke_default_limits()) == DUMYROKE_OK);
    set = dumyroke_first_child(&tree, dumyroke_first_child(&tree, 0));
    CHECK(dumyroke_kind_of(&tree, set) == DUMYROKE_SELECTION_SET && dumyroke_is_node(&tree, set) && dumyroke_after(&tree, set) == tree.counts.elements);
    for (field = dumyroke_first_child(&tree, set); field; field = dumyroke_next_sibling(&tree, field))
        count += dumyroke_kind_of(&tree, field) == DUMYROKE_FIELD;
    CHECK(count == 2);
    name = dumyroke_text_of(&tree, dumyroke_child_of_kind(&tree, set, DUMYROKE_FIELD));
    CHECK(name.length == 1 && *name.start == 'a');
    CHECK(!dumyroke_child_of_kind(&tree, set, DUMYROKE_FRAGMENT_SPREAD));
    CHECK(!dumyroke_first_child(&tree, dumyroke_first_child(&tree, set)) && !dumyroke_next_sibling(&tree, 0) && !dumyroke_parent_of(&tree, 0));
    dumyroke_tree_free(&tree);
    CHECK(dumyroke_tree_parse(&tree, NULL, 0, dumyroke_default_limits()) == DUMYROKE_OK);
    CHECK(!dumyroke_first_child(&tree, 0) && dumyroke_text_of(&tree, 0).length == 0);
    dumyroke_tree_free(&tree);
}

/* All elements of `{ a b }`: an operation with its set, and in that two braces, blanks and two fields. */
static void numbers_of_elements(void)
{
    static const struct {
        unsigned kind;
        int is_node;
        uint32_t start, end, size, parent;
    } wanted[] = {{DUMYROKE_DOCUMENT, 1, 0, 7, 14, 0}, {DUMYROKE_OPERATION_DEFINITION, 1, 0, 7, 13, 0}, {DUMYROKE_SELECTION_SET, 1, 0, 7, 12, 1},
                  {DUMYROKE_L_CURLY, 0, 0, 1, 1, 2}, {DUMYROKE_WHITESPACE, 0, 1, 2, 1, 2}, {DUMYROKE_FIELD, 1, 2, 3, 3, 2},
                  {DUMYROKE_NAME, 1, 2, 3, 2, 5}, {DUMYROKE_IDENT, 0, 2, 3, 1, 6}, {DUMYROKE_WHITESPACE, 0, 3, 4, 1, 2},
                  {DUMYROKE_FIELD, 1, 4, 5, 3, 2}, {DUMYROKE_NAME, 1, 4, 5, 2, 9}, {DUMYROKE_IDENT, 0, 4, 5, 1, 10},
                  {DUMYROKE_WHITESPACE, 0, 5, 6, 1, 2}, {DUMYROKE_R_CURLY, 0, 6, 7, 1, 2}};
    dumyroke_tree tree;
    uint32_t i;
    CHECK(dumyroke_tree_parse(&tree, "{ a b }", 7, dumyroke_default_limits()) == DUMYROKE_OK && tree.counts.elements == wanted[0].size);
    for (i = 0; i < sizeof wanted / sizeof *wanted; i++) {
        CHECK(dumyroke_kind_of(&tree, i) == wanted[i].kind && dumyroke_is_node(&tree, i) == wanted[i].is_node);
        CHECK(dumyroke_start_of(&tree, i) == wanted[i].start && dumyroke_end_of(&tree, i) == wanted[i].end);
        CHECK(dumyroke_size_of(&tree, i) == wanted[i].size && dumyroke_parent_of(&tree, i) == wanted[i].parent);
    }
    dumyroke_tree_free(&tree);
}

/* The selection set of `{a,a,..}` is element 2, and the parent of all of its children, of which the last are more than 2^24 elements after it. */
static void far_parents(void)
{
    static char text[(1 << 23) + 101];
    dumyroke_tree tree;
    uint32_t child, last = 0, i;
    for (i = 0; i < sizeof text; i++)
        text[i] = i == 0 ? '{' : i == sizeof text - 1 ? '}' : i % 2 ? 'a' : ',';
    CHECK(dumyroke_tree_parse(&tree, text, sizeof text, dumyroke_default_limits()) == DUMYROKE_OK && tree.counts.errors == 0);
    for (child = dumyroke_first_child(&tree, 2); child; child = dumyroke_next_sibling(&tree, child)) {
        CHECK(dumyroke_parent_of(&tree, child) == 2);
        last = child;
    }
    CHECK(last == tree.counts.elements - 1 && last > 2 + (1 << 24) && tree.elements[last].size_and_parent == 16 + 1);
    CHECK(dumyroke_kind_of(&tree, last) == DUMYROKE_R_CURLY && dumyroke_end_of(&tree, last) == sizeof text);
    dumyroke_tree_free(&tree);
}

/* A text of 2^31 bytes is refused before it is read. */
static void too_long(void)
{
    size_t length = (size_t)1 << 31;
    uint8_t *text = calloc(length, 1);
    dumyroke_limits limits = dumyroke_default_limits();
    dumyroke_counts counts;
    dumyroke_tree tree;
    if (!text)
        return;
    CHECK(check((char *)text, length, 500, SIZE_MAX, &counts) == DUMYROKE_TOO_LONG && !counts.elements && !counts.text_bytes);
    CHECK(dumyroke_parse_selection_set(text, length, limits, NULL, 0, NULL, 0, NULL, 0, &counts) == DUMYROKE_TOO_LONG);
    CHECK(dumyroke_parse_type(text, length, limits, NULL, 0, NULL, 0, NULL, 0, &counts) == DUMYROKE_TOO_LONG);
    CHECK(dumyroke_lex(text, length, SIZE_MAX, NULL, 0, NULL, 0, NULL, 0, &counts) == DUMYROKE_TOO_LONG);
    CHECK(dumyroke_tree_parse(&tree, (char *)text, length, limits) == DUMYROKE_TOO_LONG && !tree.elements);
    free(text);
}

/* A selection set, with both braces or with none. What follows it is left. */
static void selection_sets(void)
{
    part_call *call = dumyroke_parse_selection_set;
    dumyroke_element root;
    dumyroke_counts counts;
    CHECK(part(call, "{ a b } c", 500, SIZE_MAX, &root, &counts) == DUMYROKE_OK && counts.errors == 0 && counts.recursion_high == 1);
    CHECK(root.kind == DUMYROKE_SELECTION_SET && root.start_and_node == NODE && counts.text_bytes == 7 && root.size_and_parent == 16 * counts.elements);
    CHECK(part(call, "a b{c}} d", 500, SIZE_MAX, &root, &counts) == DUMYROKE_OK && counts.errors == 0);
    CHECK(root.kind == DUMYROKE_SELECTION_SET && counts.text_bytes == 6);
    CHECK(part(call, "", 500, SIZE_MAX, &root, &counts) == DUMYROKE_OK && counts.errors == 1 && root.kind == DUMYROKE_SELECTION_SET);
    CHECK(part(call, "{a{b}}", 1, SIZE_MAX, &root, &counts) == DUMYROKE_OK && counts.errors == 1 && counts.recursion_high == 2);
    CHECK(part(call, "{a}", 500, 2, &root, &counts) == DUMYROKE_OK && counts.errors == 1 && counts.text_bytes == 2);
}

/* A type. What follows it is left. */
static void types(void)
{
    part_call *call = dumyroke_parse_type;
    dumyroke_element root;
    dumyroke_counts counts;
    CHECK(part(call, "[Int!]! = 3", 500, SIZE_MAX, &root, &counts) == DUMYROKE_OK && counts.errors == 0);
    CHECK(root.kind == DUMYROKE_NON_NULL_TYPE && counts.text_bytes == 7 && root.size_and_parent == 16 * counts.elements);
    CHECK(part(call, "Int", 500, SIZE_MAX, &root, &counts) == DUMYROKE_OK && counts.errors == 0 && root.kind == DUMYROKE_NAMED_TYPE);
    CHECK(part(call, "[Int", 500, SIZE_MAX, &root, &counts) == DUMYROKE_OK && counts.errors == 1 && root.kind == DUMYROKE_LIST_TYPE);
    CHECK(part(call, ") Int", 500, SIZE_MAX, &root, &counts) == DUMYROKE_OK && counts.errors == 1);
    CHECK(root.kind == DUMYROKE_ERROR && counts.text_bytes == 1 && root.start_and_node == NODE);
    CHECK(part(call, "[[A]]", 1, SIZE_MAX, &root, &counts) == DUMYROKE_OK && counts.errors == 1 && counts.recursion_high == 2);
}

/* `{`, white space, a name, bad text of two bytes, white space, `..`, a comma, a string that does not end, and the end. */
static void items(void)
{
    static const dumyroke_item wanted[] = {
        {0, 1, DUMYROKE_L_CURLY, 0}, {1, 2, DUMYROKE_WHITESPACE, 0}, {2, 4, DUMYROKE_IDENT, 0}, {4, 6, DUMYROKE_ERROR, 1}, {6, 7, DUMYROKE_WHITESPACE, 0},
        {7, 9, DUMYROKE_ERROR, 1}, {9, 10, DUMYROKE_COMMA, 0}, {10, 12, DUMYROKE_ERROR, 1}, {12, 12, DUMYROKE_ERROR, 0}};
    const char *text = "{ on\xc3\xa9 ..,\"a";
    dumyroke_item found[10];
    dumyroke_error errors[4];
    dumyroke_counts counts;
    memset(found, UNTOUCHED, sizeof found);
    memset(errors, UNTOUCHED, sizeof errors);
    CHECK(dumyroke_lex(bytes_of(text), 12, SIZE_MAX, found, 10, errors, 4, NULL, 0, &counts) == DUMYROKE_OK);
    CHECK(counts.elements == 9 && !counts.text_bytes && counts.errors == 3 && counts.recursion_high == 0 && counts.token_high == 9);
    CHECK(!memcmp(found, wanted, sizeof wanted) && found[9].kind == 0xeeee);
    CHECK(errors[0].start == 4 && errors[1].end == 9 && errors[2].start == 10 && errors[2].end == 12 && errors[3].is_eof == 0xeeeeeeee);
    CHECK(errors[2].message + errors[2].message_length == counts.message_bytes && !errors[0].is_limit && !errors[2].is_eof);
    /* the limit */
    CHECK(dumyroke_lex(bytes_of(text), 12, 9, NULL, 0, NULL, 0, NULL, 0, &counts) == DUMYROKE_OK && counts.elements == 9 && counts.errors == 3);
    CHECK(dumyroke_lex(bytes_of(text), 12, 2, found, 10, errors, 4, NULL, 0, &counts) == DUMYROKE_OK && counts.elements == 3 && counts.errors == 1);
    CHECK(found[2].start == 2 && found[2].end == 2 && found[2].kind == DUMYROKE_ERROR && found[2].is_error && errors[0].is_limit);
    /* no text, and too little room */
    CHECK(dumyroke_lex(NULL, 0, SIZE_MAX, NULL, 0, NULL, 0, NULL, 0, &counts) == DUMYROKE_OK && counts.elements == 1 && counts.errors == 0);
    memset(found, UNTOUCHED, sizeof found);
    CHECK(dumyroke_lex(bytes_of(text), 12, SIZE_MAX, found, 3, NULL, 0, NULL, 0, &counts) == DUMYROKE_OK && counts.elements == 9);
    CHECK(!memcmp(found, wanted, 3 * sizeof *wanted) && found[3].kind == 0xeeee);
}

static uint32_t value_of(const char *literal, uint8_t *value, size_t room, size_t *bytes)
{
    memset(value, UNTOUCHED, 16);
    *bytes = UNTOUCHED;
    return dumyroke_string_value(bytes_of(literal), strlen(literal), value, room, bytes);
}

static void strings(void)
{
    static const char *const none[] = {"", "a", "\"a", "\"a\" ", " \"a\"", "\"a\"\"b\"", "\"\\q\"", "\"\"\"a\"\"", "1"};
    uint8_t value[16];
    size_t i, bytes;
    CHECK(value_of("\"\"", value, 16, &bytes) == DUMYROKE_OK && bytes == 0 && value[0] == UNTOUCHED);
    CHECK(value_of("\"a\\u00e9\\n\"", value, 16, &bytes) == DUMYROKE_OK && bytes == 4 && !memcmp(value, "a\xc3\xa9\n\xee", 5));
    CHECK(value_of("\"\"\"\n  b\n    c\n\"\"\"", value, 16, &bytes) == DUMYROKE_OK && bytes == 5 && !memcmp(value, "b\n  c\xee", 6));
    CHECK(value_of("\"\"\"\n  b\n    c\n\"\"\"", value, 2, &bytes) == DUMYROKE_OK && bytes == 5 && !memcmp(value, "b\n\xee\xee", 4));
    CHECK(value_of("\"abc\"", value, 2, &bytes) == DUMYROKE_OK && bytes == 3 && !memcmp(value, "ab\xee", 3));
    for (i = 0; i < sizeof none / sizeof *none; i++)
        CHECK(value_of(none[i], value, 16, &bytes) == DUMYROKE_NOT_A_STRING && bytes == 0 && value[0] == UNTOUCHED);
    CHECK(dumyroke_string_value(NULL, 0, NULL, 0, &bytes) == DUMYROKE_NOT_A_STRING);
}

static void formatted(void)
{
    const char *text = "{a,b}";
    uint8_t buffer[16];
    size_t bytes, room;
    dumyroke_limits shallow = {0, SIZE_MAX};
    memset(buffer, UNTOUCHED, sizeof buffer);
    CHECK(dumyroke_format(bytes_of(text), 5, dumyroke_default_limits(), NULL, 0, &bytes) == DUMYROKE_NO_ROOM && bytes == 0);
    for (room = 0; room < 12; room++)
        CHECK(dumyroke_format(bytes_of(text), 5, dumyroke_default_limits(), buffer, room, &bytes) == DUMYROKE_NO_ROOM && bytes == 0);
    CHECK(buffer[0] == UNTOUCHED && buffer[11] == UNTOUCHED);
    for (; room <= 16; room++)
        CHECK(dumyroke_format(bytes_of(text), 5, dumyroke_default_limits(), buffer, room, &bytes) == DUMYROKE_OK && bytes == 12);
    CHECK(!memcmp(buffer, "{\n  a\n  b\n}\n\xee", 13));
    CHECK(dumyroke_format(bytes_of("{a"), 2, dumyroke_default_limits(), NULL, 0, &bytes) == DUMYROKE_NOT_A_DOCUMENT && bytes == 0);
    CHECK(dumyroke_format(bytes_of("{"), 1, dumyroke_default_limits(), NULL, 0, &bytes) == DUMYROKE_NOT_A_DOCUMENT && bytes == 0);
    CHECK(dumyroke_format(bytes_of(text), 5, shallow, NULL, 0, &bytes) == DUMYROKE_NOT_A_DOCUMENT && bytes == 0);
    CHECK(dumyroke_format(NULL, 0, dumyroke_default_limits(), NULL, 0, &bytes) == DUMYROKE_NOT_A_DOCUMENT && bytes == 0);
}

/* The messages of the last call. */
static uint8_t said[80];

static uint32_t validate(const char *text, size_t most, dumyroke_violation *violations, size_t room, dumyroke_violation_counts *counts)
{
    memset(counts, UNTOUCHED, sizeof *counts);
    memset(said, UNTOUCHED, sizeof said);
    size_t length = strlen(text), steps = dumyroke_default_steps(length);
    return dumyroke_validate(bytes_of(text), length, dumyroke_default_limits(), most, steps, violations, room, said, sizeof said, counts);
}

/* The standard forbids the spread of a fragment that is not defined (5.5.2.1) and a variable that is not used (5.8.4). The variable comes first in the
 * text. */
static void violations(void)
{
    const char *text = "query Q($a: Int) { a ...F }";
    const char *messages = "Variable \"$a\" is never used in operation \"Q\".Unknown fragment \"F\".\xee";
    dumyroke_violation found[2], untouched;
    dumyroke_violation_counts counts;
    dumyroke_limits shallow = {0, SIZE_MAX};
    memset(&untouched, UNTOUCHED, sizeof untouched);
    CHECK(validate(text, 9, NULL, 0, &counts) == DUMYROKE_OK && counts.violations == 2 && counts.status == DUMYROKE_OK);
    memset(found, UNTOUCHED, sizeof found);
    CHECK(validate(text, 9, found, 1, &counts) == DUMYROKE_OK && counts.violations == 2);
    CHECK(found[0].rule == DUMYROKE_NO_UNUSED_VARIABLES && !memcmp(&found[1], &untouched, sizeof untouched));
    CHECK(validate(text, 9, found, 2, &counts) == DUMYROKE_OK && counts.violations == 2);
    CHECK(found[0].start == 8 && found[0].end == 15 && found[0].has_other && found[0].other_start == 0 && found[0].other_end == 27);
    CHECK(found[1].rule == DUMYROKE_KNOWN_FRAGMENT_NAMES && found[1].start == 21 && found[1].end == 25);
    CHECK(!found[1].has_other && !found[1].other_start && !found[1].other_end);
    CHECK(counts.message_bytes == 66 && !memcmp(said, messages, 67));
    CHECK(found[0].message == 0 && found[0].message_length == 45 && found[1].message == 45 && found[1].message_length == 21);
    memset(said, UNTOUCHED, sizeof said);
    CHECK(dumyroke_validate(bytes_of(text), 27, dumyroke_default_limits(), 9, 9, NULL, 0, said, 7, &counts) == DUMYROKE_OK && counts.message_bytes == 66);
    CHECK(!memcmp(said, "Variabl\xee", 8));
    CHECK(validate("union U = A | A", 9, found, 2, &counts) == DUMYROKE_OK && counts.violations == 1);
    CHECK(found[0].rule == DUMYROKE_UNIQUE_UNION_MEMBER_TYPES && found[0].start == 14 && found[0].other_start == 10);
    CHECK(validate("extend type T implements I & I", 9, found, 2, &counts) == DUMYROKE_OK && counts.violations == 1);
    CHECK(found[0].rule == DUMYROKE_UNIQUE_IMPLEMENTED_INTERFACES && found[0].start == 29 && found[0].other_start == 25);
    CHECK(validate("type T { a: B a: C }", 9, found, 2, &counts) == DUMYROKE_OK && counts.violations == 1);
    CHECK(found[0].rule == DUMYROKE_UNIQUE_FIELD_DEFINITION_NAMES && found[0].start == 14 && found[0].other_start == 9);
    CHECK(validate(text, 1, NULL, 0, &counts) == DUMYROKE_OK && counts.violations == 1);
    CHECK(validate(text, 0, NULL, 0, &counts) == DUMYROKE_OK && counts.violations == 0);
    CHECK(validate("{a}", 9, NULL, 0, &counts) == DUMYROKE_OK && counts.violations == 0 && counts.message_bytes == 0);
    CHECK(validate("{a", 9, found, 2, &counts) == DUMYROKE_NOT_A_DOCUMENT && counts.violations == 0 && found[0].start == 14 && said[0] == UNTOUCHED);
    CHECK(validate("", 9, NULL, 0, &counts) == DUMYROKE_NOT_A_DOCUMENT && counts.status == DUMYROKE_NOT_A_DOCUMENT);
    CHECK(validate("{\xff}", 9, NULL, 0, &counts) == DUMYROKE_NOT_UTF8 && counts.violations == 0);
    CHECK(dumyroke_validate(NULL, 0, shallow, 9, 9, NULL, 0, NULL, 0, &counts) == DUMYROKE_NOT_A_DOCUMENT);
    CHECK(dumyroke_validate(bytes_of("{a}"), 3, shallow, 9, 9, NULL, 0, NULL, 0, &counts) == DUMYROKE_NOT_A_DOCUMENT);
    CHECK(!counts.undecided_start && !counts.undecided_end);
}

/* As many operations as fragments. Each operation spreads the first fragment, and each fragment the next one, so an operation takes a step for itself and
 * for each fragment, and one for each spread in these. No variable is used. Each operation but the first declares one. */
enum { OPERATIONS = 1000, STEPS = OPERATIONS + 1 + OPERATIONS };
static char chain[100 * OPERATIONS];
static size_t operation_at[OPERATIONS], operation_end[OPERATIONS];

static size_t make_chain(void)
{
    size_t length = 0;
    int i;
    for (i = 0; i < OPERATIONS; i++) {
        operation_at[i] = length;
        length += (size_t)sprintf(chain + length, "query Q%d%s { ...F0 }", i, i ? "($v: T)" : "");
        operation_end[i] = length;
        if (i + 1 < OPERATIONS)
            length += (size_t)sprintf(chain + length, " fragment F%d on T { ...F%d }", i, i + 1);
    }
    return length + (size_t)sprintf(chain + length, " fragment F%d on T { a }", OPERATIONS - 1);
}

/* Validates the chain, and checks that the operation with a number is named, and all violations before it are found. */
static void ends_at(size_t number, size_t length, size_t step_limit)
{
    static dumyroke_violation found[OPERATIONS];
    dumyroke_violation_counts counts;
    size_t i;
    CHECK(dumyroke_validate(bytes_of(chain), length, dumyroke_default_limits(), SIZE_MAX, step_limit, found, OPERATIONS, NULL, 0, &counts) == DUMYROKE_UNDECIDED);
    CHECK(counts.status == DUMYROKE_UNDECIDED && counts.undecided_start == operation_at[number] && counts.undecided_end == operation_end[number]);
    CHECK(counts.violations == (number ? number - 1 : 0) && (counts.message_bytes > 0) == (number > 1));
    for (i = 0; i < counts.violations; i++)
        CHECK(found[i].rule == DUMYROKE_NO_UNUSED_VARIABLES && found[i].other_start == operation_at[i + 1]);
}

/* Validates the chain with no room. */
static uint32_t within(size_t length, size_t most, size_t step_limit, dumyroke_violation_counts *counts)
{
    return dumyroke_validate(bytes_of(chain), length, dumyroke_default_limits(), most, step_limit, NULL, 0, NULL, 0, counts);
}

static void steps(void)
{
    dumyroke_violation_counts counts;
    size_t length = make_chain(), usual = 1000000 + 10 * length, before_last = STEPS * (OPERATIONS - 1), i;
    const size_t enough[] = {before_last + 1, SIZE_MAX - 1, SIZE_MAX};
    CHECK(dumyroke_default_steps(length) == usual && dumyroke_default_steps(0) == 1000000 && dumyroke_default_steps(SIZE_MAX) == SIZE_MAX);
    ends_at(0, length, 0);
    ends_at(1, length, 1);
    ends_at(1, length, STEPS);
    ends_at(2, length, STEPS + 1);
    ends_at(OPERATIONS - 1, length, before_last);
    ends_at((usual + STEPS - 1) / STEPS, length, usual);
    for (i = 0; i < sizeof enough / sizeof *enough; i++) {
        CHECK(within(length, SIZE_MAX, enough[i], &counts) == DUMYROKE_OK && counts.violations == OPERATIONS - 1);
        CHECK(!counts.undecided_start && !counts.undecided_end);
    }
    /* a list that is full names no operation */
    CHECK(within(length, 1, STEPS, &counts) == DUMYROKE_UNDECIDED && counts.violations == 0);
    CHECK(within(length, 1, STEPS + 1, &counts) == DUMYROKE_OK && counts.violations == 1 && !counts.undecided_end);
    CHECK(within(length, 0, 0, &counts) == DUMYROKE_OK && counts.violations == 0);
}

static uint32_t measure(const char *text, dumyroke_operation *operations, size_t room, dumyroke_measure_counts *counts)
{
    memset(counts, UNTOUCHED, sizeof *counts);
    return dumyroke_measure(bytes_of(text), strlen(text), dumyroke_default_limits(), operations, room, counts);
}

/* The second operation is `query Q { b: a @d { b c d } }` when its fragment is expanded. */
static void figures(void)
{
    const char *text = "{ a a } query Q { b: a @d { b ...F } } fragment F on T { c d }";
    dumyroke_operation found[2], untouched;
    dumyroke_measure_counts counts;
    memset(&untouched, UNTOUCHED, sizeof untouched);
    memset(found, UNTOUCHED, sizeof found);
    CHECK(measure(text, NULL, 0, &counts) == DUMYROKE_OK && counts.operations == 2 && counts.start == 0 && counts.other_end == 0);
    CHECK(measure(text, found, 1, &counts) == DUMYROKE_OK && counts.operations == 2 && !memcmp(&found[1], &untouched, sizeof untouched));
    CHECK(measure(text, found, 2, &counts) == DUMYROKE_OK && counts.operations == 2);
    CHECK(found[0].start == 0 && found[0].end == 7 && found[0].name_start == 0 && found[0].name_end == 0 && found[0].depth == 1);
    CHECK(found[0].fields == 2 && found[0].root_fields == 2 && found[0].height == 1 && found[0].distinct_root_fields == 1);
    CHECK(found[1].start == 8 && found[1].end == 38 && found[1].name_start == 14 && found[1].name_end == 15 && found[1].depth == 2);
    CHECK(found[1].fields == 4 && found[1].root_fields == 1 && found[1].aliases == 1 && found[1].directives == 1);
    CHECK(found[1].height == 4 && found[1].distinct_root_fields == 1);
}

static void no_figures(void)
{
    dumyroke_operation untouched, found;
    dumyroke_measure_counts counts;
    memset(&untouched, UNTOUCHED, sizeof untouched);
    memset(&found, UNTOUCHED, sizeof found);
    CHECK(measure("{a} fragment F on T {a} fragment F on T {b}", &found, 1, &counts) == DUMYROKE_SAME_NAME && counts.operations == 0);
    CHECK(counts.start == 24 && counts.end == 43 && counts.other_start == 4 && counts.other_end == 23);
    CHECK(measure("{...F} fragment F on T {...F}", &found, 1, &counts) == DUMYROKE_CYCLE && counts.start == 24 && counts.end == 28);
    CHECK(measure("{ a ...F }", &found, 1, &counts) == DUMYROKE_UNDEFINED && counts.start == 4 && counts.end == 8 && counts.other_end == 0);
    CHECK(measure("{a", &found, 1, &counts) == DUMYROKE_NOT_A_DOCUMENT && counts.status == DUMYROKE_NOT_A_DOCUMENT && counts.end == 0);
    CHECK(measure("\xff", &found, 1, &counts) == DUMYROKE_NOT_UTF8 && !memcmp(&found, &untouched, sizeof untouched));
    CHECK(dumyroke_measure(NULL, 0, dumyroke_default_limits(), NULL, 0, &counts) == DUMYROKE_NOT_A_DOCUMENT);
    CHECK(measure("{a} fragment F on T {...F ...G}", NULL, 0, &counts) == DUMYROKE_OK && counts.operations == 1);
    CHECK(measure("type T { a: B }", NULL, 0, &counts) == DUMYROKE_OK && counts.operations == 0);
}

/* The version is one text and three numbers. */
static void versions(void)
{
    char text[32];
    snprintf(text, sizeof text, "%d.%d.%d", DUMYROKE_VERSION_MAJOR, DUMYROKE_VERSION_MINOR, DUMYROKE_VERSION_PATCH);
    CHECK(!strcmp(text, DUMYROKE_VERSION) && !strcmp(dumyroke_version(), DUMYROKE_VERSION));
#if DUMYROKE_VERSION_NUMBER < 1000
    CHECK(0);
#endif
}

int main(void)
{
    CHECK(sizeof(dumyroke_element) == 12 && sizeof(dumyroke_item) == 12 && sizeof(dumyroke_error) == 40 && sizeof(dumyroke_counts) == 56);
    CHECK(sizeof(dumyroke_violation) == 56 && sizeof(dumyroke_operation) == 88);
    versions();
    counts_of_texts();
    counts_at_limits();
    large_limits();
    deeper_than_the_limit();
    not_utf8();
    too_little_room();
    errors_of_a_text();
    positions();
    lines_of_texts();
    positions_of_many_errors();
    larger_than_the_first_guess();
    children();
    numbers_of_elements();
    far_parents();
    too_long();
    selection_sets();
    types();
    items();
    strings();
    formatted();
    violations();
    steps();
    figures();
    no_figures();
    return 0;
}
