// C++ can include the headers and link the library.
#include "dumyroke.h"
#include "dumyroke_kinds.h"
#include "dumyroke_tree.h"

int main()
{
    dumyroke_tree tree;
    if (dumyroke_tree_parse(&tree, "{a}", 3, dumyroke_default_limits()) != DUMYROKE_OK)
        return 1;
    bool is_right = tree.counts.errors == 0 && dumyroke_kind_of(&tree, 0) == DUMYROKE_DOCUMENT && dumyroke_is_node(&tree, 0);
    dumyroke_tree_free(&tree);
    return is_right ? 0 : 1;
}
