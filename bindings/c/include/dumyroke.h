/* dumyroke.h: a lossless, error-tolerant parser of GraphQL, proved correct.
 *
 * Each call writes only to memory of the caller: there is nothing to open, to close or to free. Any number of threads may call at the same
 * time, if none writes to what another one reads or writes.
 *
 * What is proved of the calls, and what a caller has to keep, is in docs/BINDINGS.md. dumyroke_tree.h has a tree that owns its memory. */
#ifndef DUMYROKE_H
#define DUMYROKE_H

#include <stddef.h>
#include <stdint.h>

#include "dumyroke_version.h"

#ifdef __cplusplus
extern "C" {
#endif

/* How a call ended. Errors in the text are no failure of dumyroke_parse and of dumyroke_lex: the status is DUMYROKE_OK then, too. */
enum dumyroke_status {
    DUMYROKE_OK = 0,
    /* The text is not UTF-8. */
    DUMYROKE_NOT_UTF8 = 1,
    /* The text has 2^31 bytes or more, or its tree has 2^28 elements or more. Only from the calls that parse, and from dumyroke_lex. */
    DUMYROKE_TOO_LONG = 2,
    /* An allocation was refused. */
    DUMYROKE_NO_MEMORY = 3,
    /* The text is not one string literal with its quotes and nothing else. Only from dumyroke_string_value. */
    DUMYROKE_NOT_A_STRING = 4,
    /* The text is not a document within both limits. Only from dumyroke_format, dumyroke_validate and dumyroke_measure. */
    DUMYROKE_NOT_A_DOCUMENT = 5,
    /* The operations have no figures: two fragments have one name; an operation leads to a cycle of fragments; or to a spread of a fragment that
     * is not defined. Only from dumyroke_measure. */
    DUMYROKE_SAME_NAME = 6,
    DUMYROKE_CYCLE = 7,
    DUMYROKE_UNDEFINED = 8,
    /* The formatted text has more bytes than there is room for. Only from dumyroke_format. */
    DUMYROKE_NO_ROOM = 9,
    /* Too much to validate: the steps were used up before an operation. What was found is written, as with DUMYROKE_OK. Only from dumyroke_validate. */
    DUMYROKE_UNDECIDED = 10
};

/* The limits of a parse. Any number is allowed, and SIZE_MAX is no limit. C makes a number near SIZE_MAX of one below 0, so also no limit: a program that
 * computes a limit, or reads it as a signed number, has to look whether it is below 0. The same holds for the other limits of this file. */
typedef struct dumyroke_limits {
    /* How deep selection sets, types and values may nest. Parsing takes 80 to 192 bytes of stack for each level, and dumyroke_measure up to 832. If
     * the limit is higher than the stack of the thread allows, a deep text ends the program. 500 is the usual limit, and safe with 100,000 bytes of
     * stack, or 440,000 for dumyroke_measure. A thread of musl has 128 KB, unless its program sets more. */
    size_t recursion;
    /* How many tokens are read at most. Ignored tokens count, and so does the end of the text. */
    size_t tokens;
} dumyroke_limits;

/* The usual limits: 500 levels, and any number of tokens. */
static inline dumyroke_limits dumyroke_default_limits(void)
{
    dumyroke_limits limits;
    limits.recursion = 500;
    limits.tokens = SIZE_MAX;
    return limits;
}

/* An element of a tree: a node or a token, in twelve bytes. The elements of a tree are in document order. The root is element 0. The first child of a
 * node is the element after it, and the next sibling comes after all elements below this one. dumyroke_tree.h has functions that read these numbers. */
typedef struct dumyroke_element {
    /* The byte at which its text begins, and 2^31 more for a node. The text ends where that of the element after its subtree begins; or, if there is
     * none, with the text of the tree. */
    uint32_t start_and_node;
    /* 16 times the number of elements of its subtree, which has the element itself, and the highest four bits of the distance to its parent. */
    uint32_t size_and_parent;
    /* The distance is how many elements before it its parent is. The root has 0. These are its lowest 16 bits and the eight above them. */
    uint16_t parent_low;
    uint8_t parent_middle;
    /* One of enum dumyroke_kind, in dumyroke_kinds.h. */
    uint8_t kind;
} dumyroke_element;

/* An error in a text. */
typedef struct dumyroke_error {
    /* The bytes that the error is about. There are none for the end of the text and for a limit. That of the token limit may lie inside a character. */
    size_t start, end;
    /* Where the message is in the messages, and how many bytes it has. It is UTF-8, with no zero after it. */
    size_t message, message_length;
    /* 1 if a limit was met. */
    uint32_t is_limit;
    /* 1 if it is about the end of the text. */
    uint32_t is_eof;
} dumyroke_error;

/* What a call found, whether or not there was room for it. All numbers are 0 unless the status is DUMYROKE_OK. */
typedef struct dumyroke_counts {
    /* The elements of the tree. From dumyroke_lex the items of the text. */
    size_t elements;
    /* The bytes of the tree's text, which is the first part of the text if a limit was met or a part of a document was parsed. From dumyroke_lex 0. */
    size_t text_bytes;
    size_t errors;
    /* The bytes of all messages together. */
    size_t message_bytes;
    /* The deepest level that was tried. It is one above the limit where that was met. From dumyroke_lex 0. */
    size_t recursion_high;
    /* How many tokens were counted. It is one above the limit where that was met. */
    size_t token_high;
    /* One of enum dumyroke_status, also the result of the call. */
    uint32_t status;
} dumyroke_counts;

/* Parses a text.
 *
 * Writes the elements of the tree, the errors in the order of their report, and the messages of the errors, each as far as there is room.
 * What is beyond is left as it was. If `counts` says that there is more than there was room for, call again with that much room. With no room
 * at all the call is a check of the text, and takes less time: the text is a document within both limits exactly if the status is DUMYROKE_OK and there are
 * no errors.
 *
 *   text       `text_length` bytes of UTF-8. No zero ends them, and there may be zeros among them.
 *   elements   room for `element_room` elements.
 *   errors     room for `error_room` errors.
 *   messages   room for `message_room` bytes.
 *   counts     what there is. Never NULL.
 *
 * Any other pointer may be NULL where its length is 0. No two of the five may overlap.
 *
 * Returns DUMYROKE_OK, DUMYROKE_NOT_UTF8, DUMYROKE_TOO_LONG or DUMYROKE_NO_MEMORY. Unless it is DUMYROKE_OK, only `counts` is written. */
uint32_t dumyroke_parse(const uint8_t *text, size_t text_length, dumyroke_limits limits,
                        dumyroke_element *elements, size_t element_room,
                        dumyroke_error *errors, size_t error_room,
                        uint8_t *messages, size_t message_room,
                        dumyroke_counts *counts);

/* The same for a selection set (GraphQL, section 2.4, "Selection Sets"), with its outer braces or with both left away. What follows it is not in
 * the tree, and has no errors. The root is a SELECTION_SET. That a second call needs just the counted room is tested, not proved. */
uint32_t dumyroke_parse_selection_set(const uint8_t *text, size_t text_length, dumyroke_limits limits,
                                      dumyroke_element *elements, size_t element_room,
                                      dumyroke_error *errors, size_t error_room,
                                      uint8_t *messages, size_t message_room,
                                      dumyroke_counts *counts);

/* The same for a type (GraphQL, section 2.11, "Type References"). The root is a NAMED_TYPE, a LIST_TYPE or a NON_NULL_TYPE; or an ERROR where the
 * text begins neither with a name nor with `[`. */
uint32_t dumyroke_parse_type(const uint8_t *text, size_t text_length, dumyroke_limits limits,
                             dumyroke_element *elements, size_t element_room,
                             dumyroke_error *errors, size_t error_room,
                             uint8_t *messages, size_t message_room,
                             dumyroke_counts *counts);

/* An item of a text: a token, bad text, the end, or the token limit where it was met. */
typedef struct dumyroke_item {
    /* The bytes of the text from `start` up to `end`, `end` not among them. There are none for the end and for the limit. */
    uint32_t start, end;
    /* The kind of a token, which its leaf has in a tree: DUMYROKE_IDENT for each name. DUMYROKE_ERROR for all others. */
    uint16_t kind;
    /* 1 for bad text and for the limit: these have the errors, in order. 0 for a token and for the end. */
    uint16_t is_error;
} dumyroke_item;

/* Cuts a text into its items (GraphQL, section 2.1, "Source Text"). The last one is the end; or the limit, after `token_limit` items, if there are more.
 *
 * It writes as dumyroke_parse does, with `items`, room for `item_room`, in place of elements. If memory is refused, some items may have been written. */
uint32_t dumyroke_lex(const uint8_t *text, size_t text_length, size_t token_limit,
                      dumyroke_item *items, size_t item_room,
                      dumyroke_error *errors, size_t error_room,
                      uint8_t *messages, size_t message_room,
                      dumyroke_counts *counts);

/* Gives the value of a string literal (GraphQL, section 2.9.4, "String Value"): escapes are replaced, and a block string loses its common indent.
 *
 *   literal    `literal_length` bytes: the text of a STRING token, quotes included.
 *   value      room for `room` bytes. The value never has more bytes than the literal.
 *   bytes      how many bytes the value has, whether or not there was room; 0 unless the result is DUMYROKE_OK. Never NULL.
 *
 * Any other pointer may be NULL where its length is 0. No two of the three may overlap.
 *
 * Returns DUMYROKE_OK, DUMYROKE_NOT_UTF8, DUMYROKE_NOT_A_STRING or DUMYROKE_NO_MEMORY. Unless it is DUMYROKE_OK, only `bytes` is written. */
uint32_t dumyroke_string_value(const uint8_t *literal, size_t literal_length, uint8_t *value, size_t room, size_t *bytes);

/* Formats a document, as the program gqlfmt does (docs/FORMAT.md). The limits are those of the text: formatted, it may have more tokens.
 *
 *   text       `text_length` bytes of UTF-8.
 *   formatted  room for `room` bytes, which is the bound on the formatted text, too: if it is longer, the result is DUMYROKE_NO_ROOM, and no more than
 *              some two times `room` of it was built. Call again with twice the room, up to the most that you want to hold. What people write
 *              grows to less than twice its length; a text of lists nested 400 deep to 400 times. A text that nests n deep never needs more than
 *              (2 n + 42) * text_length + 1.
 *   bytes      how many bytes the formatted text has; 0 unless the result is DUMYROKE_OK. Never NULL.
 *
 * Any other pointer may be NULL where its length is 0. No two of the three may overlap.
 *
 * Returns DUMYROKE_OK, DUMYROKE_NOT_UTF8, DUMYROKE_NOT_A_DOCUMENT, DUMYROKE_NO_ROOM or DUMYROKE_NO_MEMORY. Unless it is DUMYROKE_OK, only `bytes` is
 * written. */
uint32_t dumyroke_format(const uint8_t *text, size_t text_length, dumyroke_limits limits, uint8_t *formatted, size_t room, size_t *bytes);

/* The rules of validation, under the names that graphql-js gives them, each with its section of the standard (October 2021). The first twelve are for
 * documents with operations or fragments. The last five, with the two on arguments and input fields, are for documents of the type system: the items of
 * one list in one definition have different names. The last two have no name in graphql-js. Other rules of section 3 are not judged. */
enum dumyroke_rule {
    DUMYROKE_EXECUTABLE_DEFINITIONS = 0,   /* 5.1.1: a document has operations and fragments alone */
    DUMYROKE_UNIQUE_OPERATION_NAMES = 1,   /* 5.2.1.1 */
    DUMYROKE_LONE_ANONYMOUS_OPERATION = 2, /* 5.2.2.1: an operation without a name is the only one */
    DUMYROKE_UNIQUE_ARGUMENT_NAMES = 3,    /* 5.4.2 */
    DUMYROKE_UNIQUE_FRAGMENT_NAMES = 4,    /* 5.5.1.1 */
    DUMYROKE_NO_UNUSED_FRAGMENTS = 5,      /* 5.5.1.4: an operation spreads each fragment, directly or through others */
    DUMYROKE_KNOWN_FRAGMENT_NAMES = 6,     /* 5.5.2.1: each fragment that is spread is defined */
    DUMYROKE_NO_FRAGMENT_CYCLES = 7,       /* 5.5.2.2 */
    DUMYROKE_UNIQUE_INPUT_FIELD_NAMES = 8, /* 5.6.3 */
    DUMYROKE_UNIQUE_VARIABLE_NAMES = 9,    /* 5.8.1 */
    DUMYROKE_NO_UNDEFINED_VARIABLES = 10,  /* 5.8.3: an operation declares each variable that it or a fragment it reaches uses */
    DUMYROKE_NO_UNUSED_VARIABLES = 11,     /* 5.8.4: it, or a fragment it reaches, uses each variable that it declares */
    DUMYROKE_UNIQUE_FIELD_DEFINITION_NAMES = 12,    /* 3.6, 3.7 and 3.10 */
    DUMYROKE_UNIQUE_ARGUMENT_DEFINITION_NAMES = 13, /* 3.6.1 and 3.13 */
    DUMYROKE_UNIQUE_ENUM_VALUE_NAMES = 14,          /* 3.9 */
    DUMYROKE_UNIQUE_UNION_MEMBER_TYPES = 15,        /* 3.8 */
    DUMYROKE_UNIQUE_IMPLEMENTED_INTERFACES = 16     /* 3.6 and 3.7 */
};

/* A violation of a rule. Offsets are in bytes of the text. */
typedef struct dumyroke_violation {
    /* The node that breaks the rule: a definition, a spread, a variable, an argument, a field of an object, a variable's definition, or a type's name. */
    size_t start, end;
    /* The other party: the first of the name, the operation whose variables are meant, or the other operation or fragment. Zeros if there is none. */
    size_t other_start, other_end;
    /* Where the message is in the messages, and how many bytes it has. It is UTF-8, with no zero after it. */
    size_t message, message_length;
    /* One of enum dumyroke_rule. */
    uint32_t rule;
    /* 1 if there is another party. */
    uint32_t has_other;
} dumyroke_violation;

/* What dumyroke_validate found, whether or not there was room for it. All numbers are 0 unless the status is DUMYROKE_OK or DUMYROKE_UNDECIDED. */
typedef struct dumyroke_violation_counts {
    /* At most `most`. The text is a document that keeps all rules, and the steps suffice to say so, exactly if the status is DUMYROKE_OK, this is 0, and
     * `most` is not. */
    size_t violations;
    /* The bytes of all messages together. */
    size_t message_bytes;
    /* DUMYROKE_UNDECIDED: the operation before which validation ended. Otherwise zeros. */
    size_t undecided_start, undecided_end;
    /* One of enum dumyroke_status, also the result of the call. */
    uint32_t status;
} dumyroke_violation_counts;

/* The limit of steps for dumyroke_validate, if there is no reason for another one: 1,000,000, and 10 more for each byte
   of the text. */
size_t dumyroke_default_steps(size_t text_length);

/* Validates a document by the rules of dumyroke_rule, within both limits of a parse.
 *
 * Writes the violations and their messages, each as far as there is room, as dumyroke_parse does. They are in the order of the text, and no two are
 * the same. If the status is DUMYROKE_OK and there are fewer than `most`, they are all. A second call needs just the counted room.
 *
 * The rules on variables judge one operation after another, and this takes steps. An operation takes one for each definition that it reaches (itself, and
 * the fragments that it spreads directly or through others), one for each spread of a fragment in these, and one for each name of a variable that one of
 * these uses. A definition that uses a variable which the operation does not declare takes one for each use, too. Many operations may reach the same
 * fragments, so a text of a megabyte could take a minute. If the operations before one took all steps, validation ends before it. The variables of this
 * operation and of those after it are not judged; all else is. Then the status is DUMYROKE_UNDECIDED, unless `most` violations were found.
 *
 *   text       `text_length` bytes of UTF-8.
 *   most       how many violations are looked for at most: SIZE_MAX for all. With 0 nothing is looked for.
 *   step_limit how many steps there are: SIZE_MAX for any number. With 0 the variables of no operation are judged.
 *   violations room for `violation_room` violations.
 *   messages   room for `message_room` bytes.
 *   counts     what there is. Never NULL.
 *
 * Any other pointer may be NULL where its length is 0. No two of the four may overlap.
 *
 * Returns DUMYROKE_OK, DUMYROKE_UNDECIDED, DUMYROKE_NOT_UTF8, DUMYROKE_NOT_A_DOCUMENT or DUMYROKE_NO_MEMORY. With one of the last three only `counts` is
 * written. */
uint32_t dumyroke_validate(const uint8_t *text, size_t text_length, dumyroke_limits limits, size_t most, size_t step_limit,
                           dumyroke_violation *violations, size_t violation_room,
                           uint8_t *messages, size_t message_room,
                           dumyroke_violation_counts *counts);

/* An operation, and its figures: those of the operation with the selections of its fragment in place of each fragment spread. A figure stops at
 * UINT64_MAX. Offsets are in bytes of the text. */
typedef struct dumyroke_operation {
    size_t start, end;
    /* Its name. Zeros if it has none. */
    size_t name_start, name_end;
    /* The greatest number of fields in one another: 2 for `{a{b}}`. */
    uint64_t depth;
    /* The number of fields, `__typename` among them. */
    uint64_t fields;
    /* The number of fields that no field encloses. */
    uint64_t root_fields;
    uint64_t aliases;
    /* The number of directives: of the operation, its variables, its selections, and its fragments at each of their spreads. */
    uint64_t directives;
    /* The number of fields, where each selection set counts a response name once. Inline fragments and fragments have selection sets of their own.
     * Apollo Router limits this number as `max_height`. */
    uint64_t height;
    /* The number of root fields, counted like `height`. */
    uint64_t distinct_root_fields;
} dumyroke_operation;

/* What dumyroke_measure found, whether or not there was room for it. Numbers that are not named for the status are 0. */
typedef struct dumyroke_measure_counts {
    /* DUMYROKE_OK: the operations. */
    size_t operations;
    /* DUMYROKE_SAME_NAME: a fragment, and after it the first one of its name. DUMYROKE_CYCLE: a spread that is part of the cycle. DUMYROKE_UNDEFINED: a
     * spread of no fragment. */
    size_t start, end;
    size_t other_start, other_end;
    /* One of enum dumyroke_status, also the result of the call. */
    uint32_t status;
} dumyroke_measure_counts;

/* Measures each operation of a document with all its fragments expanded, within both limits of a parse. A document of n bytes may expand to 2^n fields;
 * the call takes no longer for that. Fragments that no operation leads to may be on a cycle, or spread what is not defined.
 *
 *   text       `text_length` bytes of UTF-8.
 *   operations room for `operation_room` operations. If `counts` says that there are more, call again with that much room: it is enough.
 *   counts     what there is. Never NULL.
 *
 * Any other pointer may be NULL where its length is 0. No two of the three may overlap.
 *
 * Returns DUMYROKE_OK, DUMYROKE_NOT_UTF8, DUMYROKE_NOT_A_DOCUMENT, DUMYROKE_SAME_NAME, DUMYROKE_CYCLE, DUMYROKE_UNDEFINED or DUMYROKE_NO_MEMORY. Unless
 * it is DUMYROKE_OK, only `counts` is written. */
uint32_t dumyroke_measure(const uint8_t *text, size_t text_length, dumyroke_limits limits,
                          dumyroke_operation *operations, size_t operation_room,
                          dumyroke_measure_counts *counts);

#ifdef __cplusplus
}
#endif

#endif
