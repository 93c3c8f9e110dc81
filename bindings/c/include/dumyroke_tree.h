/* dumyroke_tree.h: a tree that owns its memory, over dumyroke.h. Plain C that nothing proves.
 *
 *     dumyroke_tree tree;
 *     if (dumyroke_tree_parse(&tree, text, length, dumyroke_default_limits()) == DUMYROKE_OK) {
 *         for (uint32_t it = dumyroke_first_child(&tree, 0); it; it = dumyroke_next_sibling(&tree, it))
 *             ..
 *         dumyroke_tree_free(&tree);
 *     }
 *
 * Elements are named by their indices. The root has index 0 and is no one's child or sibling, so 0 also says that there is none. */
#ifndef DUMYROKE_TREE_H
#define DUMYROKE_TREE_H

#include <stdlib.h>
#include <string.h>

#include "dumyroke.h"

#ifdef __cplusplus
extern "C" {
#endif

/* A text with its tree and its errors. The text is the caller's, who keeps it as long as the tree. */
typedef struct dumyroke_tree {
    const char *text;
    size_t length;
    dumyroke_element *elements;
    dumyroke_error *errors;
    uint8_t *messages;
    dumyroke_counts counts;
} dumyroke_tree;

/* A part of a text, or of the messages. No zero ends it: print it with "%.*s", (int)slice.length, slice.start. */
typedef struct dumyroke_slice {
    const char *start;
    size_t length;
} dumyroke_slice;

/* A line and a column, both from 1. Columns count bytes. */
typedef struct dumyroke_position {
    size_t line;
    size_t column;
} dumyroke_position;

/* Gives back the memory of a tree. A tree may be freed twice, and also when its parse failed. */
static inline void dumyroke_tree_free(dumyroke_tree *tree)
{
    free(tree->elements);
    free(tree->errors);
    free(tree->messages);
    memset(tree, 0, sizeof *tree);
}

/* Takes memory for so many elements, errors and bytes of messages. Gives 0 if it was refused. The memory is not cleared: a parse writes all that is read. */
static inline int dumyroke_tree_allocate(dumyroke_tree *tree, const dumyroke_counts *room)
{
    tree->elements = (dumyroke_element *)malloc((room->elements + 1) * sizeof(dumyroke_element));
    tree->errors = (dumyroke_error *)malloc((room->errors + 1) * sizeof(dumyroke_error));
    tree->messages = (uint8_t *)malloc(room->message_bytes + 1);
    return tree->elements && tree->errors && tree->messages;
}

/* The room for elements of a first call: one for each byte of text and 64 more, which is enough for all texts that the project is tried with, also without
 * their white space. Memory that no element needs is not touched. A text may have five for each byte, and no tree has more than 2^28. */
static inline size_t dumyroke_tree_guess(size_t length)
{
    size_t most = (size_t)1 << 28;
    return length >= (size_t)1 << 31 ? 0 : length + 64 < most ? length + 64 : most;
}

/* Parses a text into `tree`, which need not be initialised. Free the tree, unless the result is not DUMYROKE_OK: then it is empty.
 *
 * If the guess is too little room, or more memory than there is, a second call has just the room that it needs. */
static inline uint32_t dumyroke_tree_parse(dumyroke_tree *tree, const char *text, size_t length, dumyroke_limits limits)
{
    dumyroke_counts room;
    uint32_t status;
    int is_guess = 1;
    memset(&room, 0, sizeof room);
    room.elements = dumyroke_tree_guess(length);
    room.errors = 16;
    room.message_bytes = 1024;
    for (;;) {
        memset(tree, 0, sizeof *tree);
        tree->text = text;
        tree->length = length;
        status = DUMYROKE_NO_MEMORY;
        if (dumyroke_tree_allocate(tree, &room))
            status = dumyroke_parse((const uint8_t *)text, length, limits, tree->elements, room.elements, tree->errors, room.errors,
                                    tree->messages, room.message_bytes, &tree->counts);
        if (status == DUMYROKE_OK && tree->counts.elements <= room.elements && tree->counts.errors <= room.errors
            && tree->counts.message_bytes <= room.message_bytes)
            return status;
        room = tree->counts; /* zeros unless the status is DUMYROKE_OK, so that the next call only counts */
        dumyroke_tree_free(tree);
        if (status != DUMYROKE_OK && (status != DUMYROKE_NO_MEMORY || !is_guess))
            return status;
        is_guess = 0;
    }
}

/* The kind of an element (dumyroke_kinds.h). */
static inline unsigned dumyroke_kind_of(const dumyroke_tree *tree, uint32_t index)
{
    return tree->elements[index].kind;
}

/* 1 for a node, 0 for a token. */
static inline int dumyroke_is_node(const dumyroke_tree *tree, uint32_t index)
{
    return (int)(tree->elements[index].start_and_node >> 31);
}

/* How many elements the subtree of an element has, the element itself among them. */
static inline uint32_t dumyroke_size_of(const dumyroke_tree *tree, uint32_t index)
{
    return tree->elements[index].size_and_parent >> 4;
}

/* The index of the element after an element and all below it; or, if there is none, the number of elements. */
static inline uint32_t dumyroke_after(const dumyroke_tree *tree, uint32_t index)
{
    return index + dumyroke_size_of(tree, index);
}

/* The parent of an element. The root's is 0, its own. */
static inline uint32_t dumyroke_parent_of(const dumyroke_tree *tree, uint32_t index)
{
    const dumyroke_element *element = &tree->elements[index];
    return index - (element->parent_low | (uint32_t)element->parent_middle << 16 | (element->size_and_parent & 15) << 24);
}

/* The byte of the text at which an element begins. */
static inline uint32_t dumyroke_start_of(const dumyroke_tree *tree, uint32_t index)
{
    return tree->elements[index].start_and_node & 0x7fffffff;
}

/* The byte after the last byte of an element. */
static inline uint32_t dumyroke_end_of(const dumyroke_tree *tree, uint32_t index)
{
    uint32_t after = dumyroke_after(tree, index);
    return after < tree->counts.elements ? dumyroke_start_of(tree, after) : (uint32_t)tree->counts.text_bytes;
}

/* The first child of a node, or 0 if it has none. */
static inline uint32_t dumyroke_first_child(const dumyroke_tree *tree, uint32_t node)
{
    return dumyroke_size_of(tree, node) > 1 ? node + 1 : 0;
}

/* The next sibling of an element, or 0 if it is the last child. */
static inline uint32_t dumyroke_next_sibling(const dumyroke_tree *tree, uint32_t index)
{
    uint32_t after = dumyroke_after(tree, index);
    return after < dumyroke_after(tree, dumyroke_parent_of(tree, index)) ? after : 0;
}

/* The first child of a kind (dumyroke_kinds.h), or 0 if there is none. */
static inline uint32_t dumyroke_child_of_kind(const dumyroke_tree *tree, uint32_t node, unsigned kind)
{
    uint32_t child = node + 1, after = dumyroke_after(tree, node);
    while (child < after && dumyroke_kind_of(tree, child) != kind)
        child = dumyroke_after(tree, child);
    return child < after ? child : 0;
}

/* The text of an element. */
static inline dumyroke_slice dumyroke_text_of(const dumyroke_tree *tree, uint32_t index)
{
    dumyroke_slice slice;
    uint32_t start = dumyroke_start_of(tree, index);
    slice.start = tree->text ? tree->text + start : "";
    slice.length = dumyroke_end_of(tree, index) - start;
    return slice;
}

/* The message of an error. */
static inline dumyroke_slice dumyroke_message_of(const dumyroke_tree *tree, const dumyroke_error *error)
{
    dumyroke_slice slice;
    slice.start = (const char *)tree->messages + error->message;
    slice.length = error->message_length;
    return slice;
}

/* 1 where a line ends with a byte of a text, which may be any of its bytes: lines end with LF, CR or CR LF, as GraphQL has it. */
static inline int dumyroke_ends_line(const char *text, size_t length, size_t offset)
{
    int is_cr_lf = text[offset] == '\r' && offset + 1 < length && text[offset + 1] == '\n';
    return text[offset] == '\n' || (text[offset] == '\r' && !is_cr_lf);
}

/* The position of a byte of the text, or of its end. This reads the text up to there: for many positions make dumyroke_lines once. */
static inline dumyroke_position dumyroke_position_of(const dumyroke_tree *tree, size_t offset)
{
    dumyroke_position position;
    size_t begins = 0, i;
    position.line = 1;
    for (i = 0; i < offset; i++)
        if (dumyroke_ends_line(tree->text, tree->length, i)) {
            position.line++;
            begins = i + 1;
        }
    position.column = offset - begins + 1;
    return position;
}

/* The lines of a text: the byte at which each begins, the first at 0. Each takes four or eight bytes, as a size_t has. */
typedef struct dumyroke_lines {
    size_t *starts;
    size_t count;
} dumyroke_lines;

/* Gives back the memory of lines. They may be freed twice, and also when memory was refused to them. */
static inline void dumyroke_lines_free(dumyroke_lines *lines)
{
    free(lines->starts);
    memset(lines, 0, sizeof *lines);
}

/* Finds the lines of the text of a tree, which need not be initialised, in one reading of it. Free them, unless the result is 0: then memory was refused. */
static inline int dumyroke_lines_of(dumyroke_lines *lines, const dumyroke_tree *tree)
{
    size_t i, count = 1;
    for (i = 0; i < tree->length; i++)
        count += (size_t)dumyroke_ends_line(tree->text, tree->length, i);
    lines->count = 0;
    lines->starts = (size_t *)malloc(count * sizeof(size_t));
    if (!lines->starts)
        return 0;
    lines->starts[lines->count++] = 0;
    for (i = 0; i < tree->length; i++)
        if (dumyroke_ends_line(tree->text, tree->length, i))
            lines->starts[lines->count++] = i + 1;
    return 1;
}

/* The same as dumyroke_position_of, by halving the lines. */
static inline dumyroke_position dumyroke_position_in(const dumyroke_lines *lines, size_t offset)
{
    dumyroke_position position;
    size_t low = 0, high = lines->count;
    while (high - low > 1) {
        size_t middle = low + (high - low) / 2;
        if (lines->starts[middle] <= offset)
            low = middle;
        else
            high = middle;
    }
    position.line = low + 1;
    position.column = offset - lines->starts[low] + 1;
    return position;
}

#ifdef __cplusplus
}
#endif

#endif
