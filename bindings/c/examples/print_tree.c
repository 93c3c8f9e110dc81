/* Prints the tree and the errors of the text on standard input as `gqlcst tree` does: print_tree [RECURSION [TOKENS]]. */
#include <stdio.h>

#include "dumyroke_kinds.h"
#include "dumyroke_tree.h"

/* All of standard input, which the caller frees, and its length. */
static char *read_all(size_t *length)
{
    size_t room = 1 << 16, got;
    char *text = malloc(room);
    *length = 0;
    while (text && (got = fread(text + *length, 1, room - *length, stdin)) > 0) {
        *length += got;
        if (*length == room)
            text = realloc(text, room *= 2);
    }
    return text;
}

/* A text in quotes, with the escapes that the original's Debug has for control characters and for U+FEFF. */
static void print_quoted(dumyroke_slice text)
{
    size_t i;
    putchar('"');
    for (i = 0; i < text.length; i++) {
        unsigned char byte = (unsigned char)text.start[i];
        switch (byte) {
        case '\0': fputs("\\0", stdout); break;
        case '\t': fputs("\\t", stdout); break;
        case '\n': fputs("\\n", stdout); break;
        case '\r': fputs("\\r", stdout); break;
        case '"': fputs("\\\"", stdout); break;
        case '\\': fputs("\\\\", stdout); break;
        default:
            if (byte < 32 || byte == 127) {
                printf("\\u{%x}", byte);
            } else if (text.length - i >= 3 && !memcmp(text.start + i, "\xef\xbb\xbf", 3)) {
                fputs("\\u{feff}", stdout);
                i += 2;
            } else {
                putchar(byte);
            }
        }
    }
    putchar('"');
}

static void print_element(const dumyroke_tree *tree, uint32_t index)
{
    int level = 0;
    uint32_t above;
    for (above = index; above; above = dumyroke_parent_of(tree, above))
        level++;
    printf("%*s- %s@%u..%u", level * 4, "", dumyroke_kind_names[dumyroke_kind_of(tree, index)], dumyroke_start_of(tree, index), dumyroke_end_of(tree, index));
    if (!dumyroke_is_node(tree, index)) {
        putchar(' ');
        print_quoted(dumyroke_text_of(tree, index));
    }
    putchar('\n');
}

static void print_error(const dumyroke_tree *tree, const dumyroke_error *error)
{
    printf("- ERROR@%zu:%zu ", error->start, error->end);
    print_quoted(dumyroke_message_of(tree, error));
    putchar(' ');
    if (error->is_eof)
        fputs("EOF", stdout);
    else if (error->end > error->start)
        fwrite(tree->text + error->start, 1, error->end - error->start, stdout);
    putchar('\n');
}

int main(int argc, char **argv)
{
    size_t length, i;
    uint32_t index;
    char *text = read_all(&length);
    dumyroke_limits limits = dumyroke_default_limits();
    dumyroke_tree tree;
    int status;
    if (argc > 1)
        limits.recursion = strtoul(argv[1], NULL, 10);
    if (argc > 2)
        limits.tokens = strtoul(argv[2], NULL, 10);
    if (!text || dumyroke_tree_parse(&tree, text, length, limits) != DUMYROKE_OK) {
        fputs("print_tree: not UTF-8, too long, or no memory\n", stderr);
        free(text);
        return 2;
    }
    for (index = 0; index < tree.counts.elements; index++)
        print_element(&tree, index);
    for (i = 0; i < tree.counts.errors; i++)
        print_error(&tree, &tree.errors[i]);
    printf("recursion limit: %zu, high: %zu\n", limits.recursion, tree.counts.recursion_high);
    status = tree.counts.errors ? 1 : 0;
    dumyroke_tree_free(&tree);
    free(text);
    return status;
}
