//! The roots of trees, in place of the typed tree.

pub struct Document;
pub struct SelectionSet;
pub struct Type;
