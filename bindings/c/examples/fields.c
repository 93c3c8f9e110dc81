/* Lists the fields of the schema on standard input: gcc fields.c $(pkg-config --cflags --libs dumyroke) */
#include <stdio.h>
#include <dumyroke_kinds.h>
#include <dumyroke_tree.h>

static dumyroke_slice name_of(const dumyroke_tree *tree, uint32_t node)
{
    return dumyroke_text_of(tree, dumyroke_child_of_kind(tree, node, DUMYROKE_NAME));
}

int main(void)
{
    static char text[1 << 20];
    size_t length = fread(text, 1, sizeof text, stdin);
    dumyroke_tree tree;
    dumyroke_lines lines;
    if (dumyroke_tree_parse(&tree, text, length, dumyroke_default_limits()) != DUMYROKE_OK || !dumyroke_lines_of(&lines, &tree))
        return 2;
    for (size_t i = 0; i < tree.counts.errors; i++) {
        dumyroke_slice message = dumyroke_message_of(&tree, &tree.errors[i]);
        dumyroke_position at = dumyroke_position_in(&lines, tree.errors[i].start);
        printf("%zu:%zu: %.*s\n", at.line, at.column, (int)message.length, message.start);
    }
    for (uint32_t i = 0; i < tree.counts.elements; i++)
        if (dumyroke_kind_of(&tree, i) == DUMYROKE_FIELD_DEFINITION) {
            uint32_t type = dumyroke_parent_of(&tree, dumyroke_parent_of(&tree, i));
            dumyroke_slice owner = name_of(&tree, type), field = name_of(&tree, i);
            printf("%.*s.%.*s\n", (int)owner.length, owner.start, (int)field.length, field.start);
        }
    dumyroke_lines_free(&lines);
    dumyroke_tree_free(&tree);
    return 0;
}
